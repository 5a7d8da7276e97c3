/*
 * Calls the bench's step, proved or of the peer, N times on one bench of a case: bench WHO CASE N. The peer's answer and bytes are compared with
 * the proved ones first. The instructions of N calls are counted from outside.
 */
#include <stdio.h>
#include <stdlib.h>
#include <string.h>

#include "nooseless.h"
#include "packets.h"
#include "peer.h"

static const uint8_t blank[NOOSELESS_MESSAGE_LEN];
static const uint8_t cells[NOOSELESS_MESSAGE_LEN + 1] = "START FILLER 03 ";

struct bench {
    uint8_t state[NOOSELESS_BENCH_STATE_LEN], out[NOOSELESS_TABLE_LEN], back[NOOSELESS_TABLE_LEN], delivered[NOOSELESS_MESSAGE_LEN];
};

/* i idle, n needI, s send; i idle, a accept, k ack; u idle, a number of the block used; r idle, with an answer to read. The packet lies at
 * place 0 of the channel that the letter takes from. */
static const struct {
    const char *name;
    char letter, console, controller;
    size_t place, copies;
    uint8_t kind, told;
} actions[] = {
    {"P, within the block", 'P', 'u', 'i', 0, 0, 0, NOOSELESS_NOTHING},
    {"P, reserved grows", 'P', 'i', 'i', 0, 0, 0, NOOSELESS_NOTHING},
    {"Q, one copy", 'Q', 'n', 'i', 0, 1, 0, NOOSELESS_NOTHING},
    {"R needI, within the block", 'R', 'n', 'u', 0, 0, NOOSELESS_KIND_NEEDI, NOOSELESS_NOTHING},
    {"R needI, reserved grows", 'R', 'n', 'i', 0, 0, NOOSELESS_KIND_NEEDI, NOOSELESS_NOTHING},
    {"R data, delivered", 'R', 's', 'a', 0, 1, NOOSELESS_KIND_DATA, NOOSELESS_DELIVERED},
    {"S offer, taken", 'S', 'n', 'a', 0, 0, NOOSELESS_KIND_OFFER, NOOSELESS_NOTHING},
    {"S OK", 'S', 's', 'k', 0, 1, NOOSELESS_KIND_OK, NOOSELESS_NOTHING},
    {"L", 'L', 'n', 'i', 0, 0, NOOSELESS_KIND_NEEDI, NOOSELESS_NOTHING},
    {"P refused, 6", 'P', 'n', 'i', 0, 0, 0, NOOSELESS_OTHER_MODE},
    {"R refused, 3", 'R', 'n', 'i', 64, 0, 0, NOOSELESS_NO_PLACE},
    {"R refused, 7", 'R', 's', 'i', 0, 1, NOOSELESS_KIND_DATA, NOOSELESS_NEVER_GIVEN},
    {"Q, two copies", 'Q', 'n', 'i', 0, 2, 0, NOOSELESS_NOTHING},
    {"L refused, 2", 'L', 'n', 'i', 0, 0, NOOSELESS_KIND_NEEDI, NOOSELESS_ILL_FORMED},
    {"A with an answer", 'A', 'r', 'i', 0, 0, 0, NOOSELESS_ANSWER_OK},
};

/* Both channels hold so many packets, but one at least where one is taken, and one less than all where one is sent: two copies are 9 then. */
static const struct {
    const char *name;
    size_t packets;
} fillings[] = {{"empty", 0}, {"half full", 32}, {"full", 64}};

enum { ACTIONS = sizeof actions / sizeof *actions, CASES = ACTIONS * (sizeof fillings / sizeof *fillings) };

/* A number used, and the rest of its block reserved. */
static void use(uint8_t *numbers) {
    put_number(numbers + USED, 1);
    put_number(numbers + RESERVED, NOOSELESS_BLOCK);
}

static void set_ends(uint8_t *s, char console, char controller) {
    uint8_t *d = s + NOOSELESS_CONSOLE_STATE_LEN;
    if (console != 'i') use(s);
    if (controller != 'i') use(d);
    s[CONSOLE_ACK] = console == 'r';
    if (console == 'n' || console == 's') {
        put_number(s + (console == 'n' ? J : CONSOLE_LAST), 1);
        s[CONSOLE_HELD] = 1;
        memcpy(s + CONSOLE_MESSAGE, cells, NOOSELESS_MESSAGE_LEN);
    }
    if (controller == 'a') {
        put_number(d + J, 1);
        put_number(d + CONTROLLER_I, 1);
    } else if (controller == 'k') {
        put_number(d + CONTROLLER_LAST, 1);
    }
}

static void set_packet(uint8_t *place, uint8_t kind) {
    nooseless_write_packet(place, NOOSELESS_PACKET_LEN, kind, 1, kind == NOOSELESS_KIND_OFFER, kind == NOOSELESS_KIND_DATA ? cells : blank);
}

/* Kinds of a direction in turn, behind the one that is taken. */
static void fill(uint8_t *table, size_t count, const uint8_t kinds[3], uint8_t first) {
    for (size_t n = 0; n < count; n++) set_packet(table + n * NOOSELESS_PACKET_LEN, n == 0 && first ? first : kinds[n % 3]);
}

static void prepare(struct bench *b, int action, size_t packets) {
    static const uint8_t to_controller[] = {NOOSELESS_KIND_NEEDI, NOOSELESS_KIND_DATA, NOOSELESS_KIND_DONE};
    static const uint8_t to_console[] = {NOOSELESS_KIND_OFFER, NOOSELESS_KIND_OK, NOOSELESS_KIND_LOST};
    int takes = actions[action].kind != 0, from_back = actions[action].letter == 'S', sends = actions[action].copies != 0;
    size_t least = packets == 0 && takes ? 1 : packets, room = packets == 64 && sends ? 63 : packets;
    size_t source = takes ? least : room, target = takes ? room : packets;
    size_t out = from_back ? target : source, back = from_back ? source : target;
    memset(b, 0, sizeof *b);
    nooseless_bench_fresh(b->state, sizeof b->state, b->out, sizeof b->out, b->back, sizeof b->back, 0, 0);
    set_ends(b->state, actions[action].console, actions[action].controller);
    fill(b->out, out, to_controller, from_back ? 0 : actions[action].kind);
    fill(b->back, back, to_console, from_back ? actions[action].kind : 0);
    b->state[SENT] = (uint8_t)out;
    b->state[RETURNED] = (uint8_t)back;
    if (actions[action].told == NOOSELESS_ILL_FORMED) b->back[NOOSELESS_TABLE_LEN - 1] = 1;
}

static uint8_t expected(int action, size_t packets) {
    return packets == 64 && actions[action].copies == 2 ? NOOSELESS_NO_ROOM : actions[action].told;
}

typedef uint8_t Step(uint8_t *, size_t, uint8_t *, size_t, uint8_t *, size_t, uint8_t, size_t, size_t, const uint8_t *, uint8_t *);

static uint8_t nobody(uint8_t *state, size_t n, uint8_t *out, size_t out_len, uint8_t *back, size_t back_len, uint8_t letter, size_t place,
                      size_t copies, const uint8_t *message, uint8_t *delivered) {
    (void)state, (void)n, (void)out, (void)out_len, (void)back, (void)back_len;
    (void)letter, (void)place, (void)copies, (void)message, (void)delivered;
    return 0;
}

static uint8_t call(struct bench *b, Step *step, int action) {
    return step(b->state, sizeof b->state, b->out, sizeof b->out, b->back, sizeof b->back, (uint8_t)actions[action].letter,
                actions[action].place, actions[action].copies, cells, b->delivered);
}

int main(int argc, char **argv) {
    if (argc == 2) {
        for (int i = 0; i < CASES; i++) printf("%s, %s\n", actions[i % ACTIONS].name, fillings[i / ACTIONS].name);
        return 0;
    }
    int which = argc == 4 ? atoi(argv[2]) : -1;
    if (which < 0 || which >= CASES) {
        fprintf(stderr, "usage: bench proved|c|nobody CASE N; bench cases\n");
        return 2;
    }
    int action = which % ACTIONS;
    size_t packets = fillings[which / ACTIONS].packets;
    static struct bench start, a, b;
    prepare(&start, action, packets);
    a = b = start;
    uint8_t told = call(&a, nooseless_bench_step, action);
    if (told != expected(action, packets) || told != call(&b, peer_bench_step, action) || memcmp(&a, &b, sizeof a) != 0) {
        fprintf(stderr, "%s: %d, or the peer differs\n", actions[action].name, told);
        return 1;
    }
    Step *volatile step = *argv[1] == 'n' ? nobody : *argv[1] == 'c' ? peer_bench_step : nooseless_bench_step;
    for (long n = atol(argv[3]); n > 0; n--) {
        b = start;
        call(&b, step, action);
    }
    return 0;
}
