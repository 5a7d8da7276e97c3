/*
 * Calls R of a controller, S, P or A of a console, proved or of the peer, N times with one state and packet of a case: alone WHO CASE N. The
 * peer's answers and bytes are compared with the proved ones first. The instructions of N calls are counted from outside.
 */
#include <stdio.h>
#include <stdlib.h>
#include <string.h>

#include "nooseless.h"
#include "peer.h"

static const uint8_t blank[NOOSELESS_MESSAGE_LEN];
static const uint8_t cells[NOOSELESS_MESSAGE_LEN + 1] = "START FILLER 03 ";

struct box {
    uint8_t console[NOOSELESS_CONSOLE_STATE_LEN], controller[NOOSELESS_CONTROLLER_STATE_LEN];
    uint8_t packet[NOOSELESS_PACKET_LEN], reply[NOOSELESS_PACKET_LEN], delivered[NOOSELESS_MESSAGE_LEN];
};

/* Cases of both ends; the letter says which. */
static const struct {
    const char *name;
    char letter, prepared;
    uint8_t kind;
    uint32_t first, second;
} cases[] = {
    {"R needI, within the block", 'R', 'u', NOOSELESS_KIND_NEEDI, 1, 0}, {"R needI, reserved grows", 'R', 'i', NOOSELESS_KIND_NEEDI, 1, 0},
    {"R data, delivered", 'R', 'a', NOOSELESS_KIND_DATA, 1, 0},
    {"R data, a repeat", 'R', 'k', NOOSELESS_KIND_DATA, 1, 0},    {"R data, lost", 'R', 'u', NOOSELESS_KIND_DATA, 1, 0},
    {"R done, acknowledged", 'R', 'k', NOOSELESS_KIND_DONE, 1, 0}, {"S offer, taken", 'S', 'n', NOOSELESS_KIND_OFFER, 1, 1},
    {"S offer, done", 'S', 'i', NOOSELESS_KIND_OFFER, 1, 1},      {"S OK", 'S', 's', NOOSELESS_KIND_OK, 1, 0},
    {"S lost", 'S', 's', NOOSELESS_KIND_LOST, 1, 0},              {"P, within the block", 'P', 'u', NOOSELESS_KIND_OK, 1, 0},
    {"P, reserved grows", 'P', 'i', NOOSELESS_KIND_OK, 1, 0},     {"A with an answer", 'A', 'u', NOOSELESS_KIND_OK, 1, 0},
};

static uint8_t console(struct box *b, char letter, uint8_t kind, uint32_t first, uint32_t second) {
    nooseless_write_packet(b->packet, sizeof b->packet, kind, first, second, kind == NOOSELESS_KIND_DATA ? cells : blank);
    return nooseless_console_step(b->console, sizeof b->console, (uint8_t)letter, cells, b->packet, sizeof b->packet, b->reply,
                                  sizeof b->reply);
}

static uint8_t controller(struct box *b, char letter, uint8_t kind, uint32_t first) {
    nooseless_write_packet(b->packet, sizeof b->packet, kind, first, 0, kind == NOOSELESS_KIND_DATA ? cells : blank);
    return nooseless_controller_step(b->controller, sizeof b->controller, (uint8_t)letter, b->packet, sizeof b->packet, b->reply,
                                     sizeof b->reply, b->delivered);
}

/* i idle, n needI, s send; a accept, k ack; u a number of the block used, and idle again, the console with an answer */
static void prepare(struct box *b, int which) {
    memset(b, 0, sizeof *b);
    nooseless_console_fresh(b->console, sizeof b->console, 0);
    nooseless_controller_fresh(b->controller, sizeof b->controller, 0);
    char p = cases[which].prepared;
    if (p == 'n' || p == 's' || p == 'u') console(b, 'P', NOOSELESS_KIND_OK, 1, 0);
    if (p == 's' || p == 'u') console(b, 'S', NOOSELESS_KIND_OFFER, 1, 1);
    if (p == 'u') console(b, 'S', NOOSELESS_KIND_OK, 1, 0);
    if (p == 'a' || p == 'k' || p == 'u') controller(b, 'R', NOOSELESS_KIND_NEEDI, 1);
    if (p == 'k') controller(b, 'R', NOOSELESS_KIND_DATA, 1);
    if (p == 'u') controller(b, 'R', NOOSELESS_KIND_DONE, 1);
    memset(b->reply, 0, sizeof b->reply);
    memset(b->delivered, 0, sizeof b->delivered);
    nooseless_write_packet(b->packet, sizeof b->packet, cases[which].kind, cases[which].first, cases[which].second,
                           cases[which].kind == NOOSELESS_KIND_DATA ? cells : blank);
}

static uint8_t nobody_r(uint8_t *state, size_t n, const uint8_t *packet, size_t packet_len, uint8_t *reply, size_t reply_len, uint8_t *delivered) {
    (void)state, (void)n, (void)packet, (void)packet_len, (void)reply, (void)reply_len, (void)delivered;
    return 0;
}

static uint8_t call(struct box *b, const char *who, char letter) {
    if (letter == 'R') {
        if (*who == 'n') return nobody_r(b->controller, sizeof b->controller, b->packet, sizeof b->packet, b->reply, sizeof b->reply, b->delivered);
        if (*who == 'c') return peer_r(b->controller, sizeof b->controller, b->packet, sizeof b->packet, b->reply, sizeof b->reply, b->delivered);
        return nooseless_controller_step(b->controller, sizeof b->controller, 'R', b->packet, sizeof b->packet, b->reply, sizeof b->reply, b->delivered);
    }
    if (*who == 'n') return nobody_r(b->console, sizeof b->console, b->packet, sizeof b->packet, b->reply, sizeof b->reply, NULL);
    if (*who == 'c' && letter == 'P') return peer_p(b->console, sizeof b->console, cells);
    if (*who == 'c' && letter == 'A') return peer_a(b->console, sizeof b->console);
    if (*who == 'c') return peer_s(b->console, sizeof b->console, b->packet, sizeof b->packet, b->reply, sizeof b->reply);
    return nooseless_console_step(b->console, sizeof b->console, (uint8_t)letter, cells, b->packet, sizeof b->packet, b->reply,
                                  sizeof b->reply);
}

int main(int argc, char **argv) {
    int count = (int)(sizeof cases / sizeof *cases);
    if (argc == 2) {
        for (int i = 0; i < count; i++) printf("%s\n", cases[i].name);
        return 0;
    }
    int which = argc == 4 ? atoi(argv[2]) : -1;
    if (which < 0 || which >= count) {
        fprintf(stderr, "usage: alone proved|c|nobody CASE N; alone cases\n");
        return 2;
    }
    struct box start, a, b;
    prepare(&start, which);
    a = b = start;
    if (call(&a, "proved", cases[which].letter) != call(&b, "c", cases[which].letter) || memcmp(&a, &b, sizeof a) != 0) {
        fprintf(stderr, "%s: the peer differs\n", cases[which].name);
        return 1;
    }
    for (long n = atol(argv[3]); n > 0; n--) {
        b = start;
        call(&b, argv[1], cases[which].letter);
    }
    return 0;
}
