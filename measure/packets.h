/* Bytes of packets and messages, for the peers that check them. */
#ifndef PACKETS_H
#define PACKETS_H

#include "nooseless.h"
#include "numbers.h"

static inline int all_are(const uint8_t *p, uint8_t b) {
    for (int i = 0; i < NOOSELESS_MESSAGE_LEN; i++)
        if (p[i] != b) return 0;
    return 1;
}

static inline int all_cells(const uint8_t *p) {
    for (int i = 0; i < NOOSELESS_MESSAGE_LEN; i++)
        if (p[i] < 0x20 || p[i] > 0x7E) return 0;
    return 1;
}

struct packet {
    uint8_t kind;
    uint32_t first, second;
};

static inline uint8_t read_packet(const uint8_t *p, size_t n, struct packet *out) {
    if (n != NOOSELESS_PACKET_LEN) return NOOSELESS_WRONG_LENGTH;
    if (p[0] != 'H' || p[1] != 'S' || p[2] != 'L') return NOOSELESS_WRONG_MARK;
    if (p[3] != 0 || p[4] != 1) return NOOSELESS_WRONG_VERSION;
    if (p[6] != 0 || p[7] != 0) return NOOSELESS_WRONG_FIELD;
    out->kind = p[5];
    out->first = number(p + 8);
    out->second = number(p + 12);
    if (out->first == 0 || out->kind < 1 || out->kind > 6) return NOOSELESS_WRONG_FIELD;
    if ((out->kind == NOOSELESS_KIND_OFFER) != (out->second != 0)) return NOOSELESS_WRONG_FIELD;
    if (!(out->kind == NOOSELESS_KIND_DATA ? all_cells(p + 16) : all_are(p + 16, 0))) return NOOSELESS_WRONG_FIELD;
    return 0;
}

static inline int to_controller(uint8_t kind) { return kind == NOOSELESS_KIND_NEEDI || kind == NOOSELESS_KIND_DATA || kind == NOOSELESS_KIND_DONE; }

/* Without a message. */
static inline void write_packet(uint8_t *p, uint8_t kind, uint32_t first, uint32_t second) {
    static const uint8_t head[8] = {'H', 'S', 'L', 0, 1, 0, 0, 0};
    __builtin_memcpy(p, head, 8);
    p[5] = kind;
    put_number(p + 8, first);
    put_number(p + 12, second);
    __builtin_memset(p + 16, 0, NOOSELESS_MESSAGE_LEN);
}

/* ---- states of the ends; what is no state is not well formed ---- */

enum { USED = 0, RESERVED = 4, BLOCK = 8, J = 10 };
enum { CONSOLE_LAST = 14, CONSOLE_HELD = 18, CONSOLE_UP = 19, CONSOLE_ACK = 20, CONSOLE_MESSAGE = 21 };
enum { CONTROLLER_I = 14, CONTROLLER_LAST = 18, CONTROLLER_UP = 22 };
enum { SENT = 60, RETURNED = 61 }; /* the counts of a bench */

static inline uint32_t block_of(const uint8_t *s) { return (uint32_t)s[BLOCK] << 8 | s[BLOCK + 1]; }

static inline int numbers_well(const uint8_t *s) {
    uint32_t block = block_of(s);
    return block >= 1 && block <= NOOSELESS_BLOCK_MAX && number(s + USED) <= number(s + RESERVED);
}

static inline int console_well(const uint8_t *s) {
    uint32_t j = number(s + J), last = number(s + CONSOLE_LAST);
    if (s[CONSOLE_HELD] > 1 || s[CONSOLE_UP] > 1 || s[CONSOLE_ACK] > 1 || !numbers_well(s)) return 0;
    if (!s[CONSOLE_HELD]) return j == 0 && last == 0 && all_are(s + CONSOLE_MESSAGE, 0x20);
    return (j == 0) != (last == 0) && j <= number(s + USED) && all_cells(s + CONSOLE_MESSAGE);
}

static inline int controller_well(const uint8_t *s) {
    uint32_t used = number(s + USED), j = number(s + J), i = number(s + CONTROLLER_I), last = number(s + CONTROLLER_LAST);
    if (s[CONTROLLER_UP] > 1 || !numbers_well(s)) return 0;
    return (i == 0) == (j == 0) && !(i != 0 && last != 0) && i <= used && last <= used;
}

/* Whether the next number makes reserved grow. */
static inline int used_up(const uint8_t *s) { return number(s + USED) == number(s + RESERVED); }

/* Of numbers that are not spent. */
static inline uint32_t take_number(uint8_t *s) {
    uint32_t next = number(s + USED) + 1;
    if (used_up(s)) put_number(s + RESERVED, grown(number(s + RESERVED), block_of(s)));
    put_number(s + USED, next);
    return next;
}

/* Puts the order of a console; 4, 6, 8. */
static inline uint8_t hold(uint8_t *s, const uint8_t *message) {
    if (!s[CONSOLE_UP]) return NOOSELESS_IS_DOWN;
    if (s[CONSOLE_HELD]) return NOOSELESS_OTHER_MODE;
    if (number(s + USED) == UINT32_MAX) return NOOSELESS_SPENT;
    put_number(s + J, take_number(s));
    s[CONSOLE_HELD] = 1;
    __builtin_memcpy(s + CONSOLE_MESSAGE, message, NOOSELESS_MESSAGE_LEN);
    return NOOSELESS_NOTHING;
}

/* Tells what became of the last order, once; 4, 6. */
static inline uint8_t tell(uint8_t *s) {
    if (!s[CONSOLE_UP]) return NOOSELESS_IS_DOWN;
    if (s[CONSOLE_HELD]) return NOOSELESS_OTHER_MODE;
    uint8_t told = s[CONSOLE_ACK] ? NOOSELESS_ANSWER_OK : NOOSELESS_ANSWER_LOST;
    s[CONSOLE_ACK] = 0;
    return told;
}

/* A console that holds no message, with the answer to the last one. */
static inline void rest(uint8_t *s, uint8_t ack) {
    __builtin_memset(s + CONSOLE_LAST, 0, CONSOLE_UP - CONSOLE_LAST);
    s[CONSOLE_ACK] = ack;
    __builtin_memset(s + CONSOLE_MESSAGE, 0x20, NOOSELESS_MESSAGE_LEN);
}

#endif
