/*
 * The bench's step as C that makes the same checks of the same bytes, both ends and both tables at each step: the peer of the measure.
 */
#include <string.h>

#include "packets.h"
#include "peer.h"

enum { PLACES = 64, CONTROLLER = NOOSELESS_CONSOLE_STATE_LEN };

/* A table, and where its count is. */
struct channel {
    uint8_t *table, *count;
};

/* Whether these bytes are a packet of the direction. */
static inline int packet_well(const uint8_t *p, int out) {
    static const uint8_t head[5] = {'H', 'S', 'L', 0, 1}, none[NOOSELESS_MESSAGE_LEN];
    uint8_t kind = p[5];
    if (memcmp(p, head, sizeof head) != 0 || p[6] != 0 || p[7] != 0) return 0;
    if (kind < NOOSELESS_KIND_NEEDI || kind > NOOSELESS_KIND_DONE || to_controller(kind) != out) return 0;
    if (number(p + 8) == 0 || (number(p + 12) != 0) != (kind == NOOSELESS_KIND_OFFER)) return 0;
    return kind == NOOSELESS_KIND_DATA ? all_cells(p + 16) : memcmp(p + 16, none, sizeof none) == 0;
}

static inline int well(const uint8_t *table, size_t n, size_t count, int out) {
    if (n != NOOSELESS_TABLE_LEN || count > PLACES) return 0;
    const uint8_t *p = table, *end = table + NOOSELESS_TABLE_LEN;
    for (; p != table + count * NOOSELESS_PACKET_LEN; p += NOOSELESS_PACKET_LEN)
        if (!packet_well(p, out)) return 0;
    uint64_t any = 0;
    for (; p != end; p += 8) {
        uint64_t word;
        memcpy(&word, p, 8);
        any |= word;
    }
    return any == 0;
}

static inline int full(struct channel c, size_t copies) { return copies > (size_t)(PLACES - *c.count); }

static void send(struct channel c, size_t copies, uint8_t kind, uint32_t first, uint32_t second, const uint8_t *message) {
    for (; copies > 0; copies--) {
        uint8_t *p = c.table + (*c.count)++ * NOOSELESS_PACKET_LEN;
        write_packet(p, kind, first, second);
        if (message) memcpy(p + 16, message, NOOSELESS_MESSAGE_LEN);
    }
}

static void take_out(struct channel c, size_t place) {
    uint8_t *p = c.table + place * NOOSELESS_PACKET_LEN;
    size_t later = --*c.count - place;
    memmove(p, p + NOOSELESS_PACKET_LEN, later * NOOSELESS_PACKET_LEN);
    memset(p + later * NOOSELESS_PACKET_LEN, 0, NOOSELESS_PACKET_LEN);
}

static uint8_t sends(struct channel c, size_t copies, int up, uint8_t kind, uint32_t first, uint32_t second, const uint8_t *message) {
    if (!up) return NOOSELESS_IS_DOWN;
    if (first == 0) return NOOSELESS_OTHER_MODE;
    if (full(c, copies)) return NOOSELESS_NO_ROOM;
    send(c, copies, kind, first, second, message);
    return NOOSELESS_NOTHING;
}

static uint8_t console_takes(uint8_t *s, struct channel from, struct channel to, size_t place, size_t copies) {
    if (!s[CONSOLE_UP]) return NOOSELESS_IS_DOWN;
    if (place >= *from.count) return NOOSELESS_NO_PLACE;
    const uint8_t *p = from.table + place * NOOSELESS_PACKET_LEN;
    uint8_t kind = p[5];
    uint32_t last = number(s + CONSOLE_LAST), first = number(p + 8), i = kind == NOOSELESS_KIND_OFFER ? number(p + 12) : first;
    int taken = kind == NOOSELESS_KIND_OFFER && first == number(s + J);
    int reply = kind == NOOSELESS_KIND_OK || (kind == NOOSELESS_KIND_OFFER && !taken && i != last);
    if (reply && full(to, copies)) return NOOSELESS_NO_ROOM;
    if (taken) {
        memset(s + J, 0, 4);
        put_number(s + CONSOLE_LAST, i);
    } else if (kind != NOOSELESS_KIND_OFFER && i == last) {
        rest(s, kind == NOOSELESS_KIND_OK);
    }
    take_out(from, place);
    if (reply) send(to, copies, NOOSELESS_KIND_DONE, i, 0, 0);
    return NOOSELESS_NOTHING;
}

static uint8_t controller_takes(uint8_t *s, struct channel from, struct channel to, size_t place, size_t copies, uint8_t *delivered) {
    if (!s[CONTROLLER_UP]) return NOOSELESS_IS_DOWN;
    if (place >= *from.count) return NOOSELESS_NO_PLACE;
    const uint8_t *p = from.table + place * NOOSELESS_PACKET_LEN;
    uint8_t kind = p[5], report = NOOSELESS_NOTHING;
    uint32_t used = number(s + USED), i = number(s + CONTROLLER_I), last = number(s + CONTROLLER_LAST), n = number(p + 8);
    if (kind != NOOSELESS_KIND_NEEDI && n > used) return NOOSELESS_NEVER_GIVEN;
    int reply = kind == NOOSELESS_KIND_DATA && n != last;
    if (reply && full(to, copies)) return NOOSELESS_NO_ROOM;
    uint8_t answer = NOOSELESS_KIND_LOST;
    if (kind == NOOSELESS_KIND_NEEDI) {
        if (i == 0 && last == 0 && used != UINT32_MAX) {
            put_number(s + CONTROLLER_I, take_number(s));
            put_number(s + J, n);
        }
    } else if (n == i) {
        memset(s + J, 0, 8);
        if (kind == NOOSELESS_KIND_DATA) {
            put_number(s + CONTROLLER_LAST, n);
            memcpy(delivered, p + 16, NOOSELESS_MESSAGE_LEN);
            answer = NOOSELESS_KIND_OK;
            report = NOOSELESS_DELIVERED;
        }
    } else if (n == last && kind == NOOSELESS_KIND_DONE) {
        memset(s + CONTROLLER_LAST, 0, 4);
    }
    take_out(from, place);
    if (reply) send(to, copies, answer, n, 0, 0);
    return report;
}

static uint8_t loses(struct channel c, size_t place) {
    if (place >= *c.count) return NOOSELESS_NO_PLACE;
    take_out(c, place);
    return NOOSELESS_NOTHING;
}

static uint8_t comes_back(uint8_t *s, uint8_t *up) {
    if (*up) return NOOSELESS_IS_UP;
    *up = 1;
    memcpy(s + USED, s + RESERVED, 4);
    memset(s + J, 0, 8);
    return NOOSELESS_NOTHING;
}

static uint8_t console_back(uint8_t *s) {
    uint8_t told = comes_back(s, s + CONSOLE_UP);
    if (!told) rest(s, 0);
    return told;
}

static uint8_t controller_back(uint8_t *s) {
    uint8_t told = comes_back(s, s + CONTROLLER_UP);
    if (!told) memset(s + CONTROLLER_LAST, 0, 4);
    return told;
}

uint8_t peer_bench_step(uint8_t *s, size_t n, uint8_t *out, size_t out_len, uint8_t *back, size_t back_len, uint8_t letter, size_t place,
                        size_t copies, const uint8_t *message, uint8_t *delivered) {
    enum { LETTER = 1, COPIES = 2 };
    static const uint8_t uses[256] = {['P'] = LETTER, ['C'] = LETTER, ['V'] = LETTER, ['X'] = LETTER, ['Y'] = LETTER, ['L'] = LETTER,
        ['M'] = LETTER, ['A'] = LETTER, ['Q'] = COPIES, ['D'] = COPIES, ['S'] = COPIES, ['O'] = COPIES, ['K'] = COPIES, ['R'] = COPIES};
    uint8_t *d = s + CONTROLLER;
    if (uses[letter] == 0) return NOOSELESS_NO_ACTION;
    if (n != NOOSELESS_BENCH_STATE_LEN || !console_well(s) || !controller_well(d)) return NOOSELESS_ILL_FORMED;
    if (!well(out, out_len, s[SENT], 1) || !well(back, back_len, s[RETURNED], 0)) return NOOSELESS_ILL_FORMED;
    if (letter == 'P' && !all_cells(message)) return NOOSELESS_NO_CELL;
    if (uses[letter] == COPIES && copies > 3) return NOOSELESS_MANY_COPIES;
    struct channel forth = {out, s + SENT}, home = {back, s + RETURNED};
    switch (letter) {
    case 'P': return hold(s, message);
    case 'Q': return sends(forth, copies, s[CONSOLE_UP], NOOSELESS_KIND_NEEDI, number(s + J), 0, 0);
    case 'D': return sends(forth, copies, s[CONSOLE_UP], NOOSELESS_KIND_DATA, number(s + CONSOLE_LAST), 0, s + CONSOLE_MESSAGE);
    case 'S': return console_takes(s, home, forth, place, copies);
    case 'C': s[CONSOLE_UP] = 0; return NOOSELESS_NOTHING;
    case 'V': return console_back(s);
    case 'O': return sends(home, copies, d[CONTROLLER_UP], NOOSELESS_KIND_OFFER, number(d + J), number(d + CONTROLLER_I), 0);
    case 'K': return sends(home, copies, d[CONTROLLER_UP], NOOSELESS_KIND_OK, number(d + CONTROLLER_LAST), 0, 0);
    case 'R': return controller_takes(d, forth, home, place, copies, delivered);
    case 'X': d[CONTROLLER_UP] = 0; return NOOSELESS_NOTHING;
    case 'Y': return controller_back(d);
    case 'A': return tell(s);
    case 'L': return loses(forth, place);
    default: return loses(home, place);
    }
}
