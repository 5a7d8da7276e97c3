/*
 * What the two boxes spend their time on, R of a controller and S of a console run alone, and the console's P and A, as C that makes the same
 * checks of the same bytes: the peer of the measure.
 */
#include "packets.h"
#include "peer.h"

uint8_t peer_r(uint8_t *s, size_t n, const uint8_t *packet, size_t packet_len, uint8_t *reply, size_t reply_len, uint8_t *delivered) {
    if (n != NOOSELESS_CONTROLLER_STATE_LEN || !controller_well(s)) return NOOSELESS_ILL_FORMED;
    uint32_t i = number(s + CONTROLLER_I), last = number(s + CONTROLLER_LAST);
    if (reply_len != NOOSELESS_PACKET_LEN) return NOOSELESS_WRONG_LENGTH;
    struct packet p;
    uint8_t refusal = read_packet(packet, packet_len, &p);
    if (refusal) return refusal;
    if (!to_controller(p.kind)) return NOOSELESS_WRONG_FIELD;
    if (!s[CONTROLLER_UP]) return NOOSELESS_IS_DOWN;
    if (p.kind == NOOSELESS_KIND_NEEDI) {
        if (i != 0 || last != 0 || number(s + USED) == UINT32_MAX) return NOOSELESS_NOTHING;
        uint8_t told = used_up(s) ? NOOSELESS_KEEP : NOOSELESS_NOTHING;
        put_number(s + CONTROLLER_I, take_number(s));
        put_number(s + J, p.first);
        return told;
    }
    if (p.first > number(s + USED)) return NOOSELESS_NEVER_GIVEN;
    if (p.first == i) {
        __builtin_memset(s + J, 0, 8);
        if (p.kind == NOOSELESS_KIND_DONE) return NOOSELESS_NOTHING;
        put_number(s + CONTROLLER_LAST, i);
        __builtin_memcpy(delivered, packet + 16, NOOSELESS_MESSAGE_LEN);
        write_packet(reply, NOOSELESS_KIND_OK, i, 0);
        return NOOSELESS_DELIVERED | NOOSELESS_SENT;
    }
    if (p.first == last) {
        if (p.kind == NOOSELESS_KIND_DONE) __builtin_memset(s + CONTROLLER_LAST, 0, 4);
        return NOOSELESS_NOTHING;
    }
    if (p.kind == NOOSELESS_KIND_DONE) return NOOSELESS_NOTHING;
    write_packet(reply, NOOSELESS_KIND_LOST, p.first, 0);
    return NOOSELESS_SENT;
}

uint8_t peer_s(uint8_t *s, size_t n, const uint8_t *packet, size_t packet_len, uint8_t *reply, size_t reply_len) {
    if (n != NOOSELESS_CONSOLE_STATE_LEN || !console_well(s)) return NOOSELESS_ILL_FORMED;
    uint32_t j = number(s + J), last = number(s + CONSOLE_LAST);
    if (reply_len != NOOSELESS_PACKET_LEN) return NOOSELESS_WRONG_LENGTH;
    struct packet p;
    uint8_t refusal = read_packet(packet, packet_len, &p);
    if (refusal) return refusal;
    if (to_controller(p.kind)) return NOOSELESS_WRONG_FIELD;
    if (!s[CONSOLE_UP]) return NOOSELESS_IS_DOWN;
    if (p.kind == NOOSELESS_KIND_OFFER) {
        if (j != 0 && p.first == j) {
            __builtin_memset(s + J, 0, 4);
            put_number(s + CONSOLE_LAST, p.second);
            return NOOSELESS_NOTHING;
        }
        if (p.second == last) return NOOSELESS_NOTHING;
        write_packet(reply, NOOSELESS_KIND_DONE, p.second, 0);
        return NOOSELESS_SENT;
    }
    if (p.kind == NOOSELESS_KIND_LOST) {
        if (p.first != last) return NOOSELESS_NOTHING;
        rest(s, 0);
        return NOOSELESS_NOTHING;
    }
    write_packet(reply, NOOSELESS_KIND_DONE, p.first, 0);
    if (p.first == last) rest(s, 1);
    return NOOSELESS_SENT;
}

uint8_t peer_p(uint8_t *s, size_t n, const uint8_t *message) {
    if (n != NOOSELESS_CONSOLE_STATE_LEN || !console_well(s)) return NOOSELESS_ILL_FORMED;
    if (!all_cells(message)) return NOOSELESS_NO_CELL;
    uint8_t told = used_up(s) ? NOOSELESS_KEEP : NOOSELESS_NOTHING, refusal = hold(s, message);
    return refusal ? refusal : told;
}

uint8_t peer_a(uint8_t *s, size_t n) {
    if (n != NOOSELESS_CONSOLE_STATE_LEN || !console_well(s)) return NOOSELESS_ILL_FORMED;
    return tell(s);
}
