/*
 * The list program as C that keeps its own tables well formed and does not check them again: the peer of the measure.
 */
#include <stdint.h>
#include <string.h>
#include <unistd.h>

#include "numbers.h"

enum { RECORD = 21, LINE = 27, MOST = 9999, PLACES = 64, PACKET = 32, CELLS = 16, BLOCK = 64 };
enum { NEEDI = 1, OFFER, DATA, OK, LOST, DONE };
enum { IDLE, NEED_I, SEND, ACCEPT = NEED_I, ACK = SEND };
enum { NOTHING = 0, DELIVERED = 16, ANSWERED_OK, ANSWERED_LOST };

struct channel {
    unsigned count;
    uint8_t place[PLACES][PACKET];
};

struct numbers {
    uint32_t used, reserved;
};

static struct {
    struct numbers numbers;
    uint32_t number;
    uint8_t mode, down, ack;
    uint8_t message[CELLS];
} console;

static struct {
    struct numbers numbers;
    uint32_t j, number;
    uint8_t mode, down;
} controller;

static struct channel out, back;

static inline uint32_t take_number(struct numbers *n) {
    if (n->used == n->reserved) n->reserved = grown(n->reserved, BLOCK);
    return ++n->used;
}

static void send(struct channel *c, unsigned copies, uint8_t kind, uint32_t first, uint32_t second, const uint8_t *message) {
    static const uint8_t head[8] = {'H', 'S', 'L', 0, 1, 0, 0, 0};
    for (; copies > 0; copies--) {
        uint8_t *p = c->place[c->count++];
        memcpy(p, head, 8);
        p[5] = kind;
        put_number(p + 8, first);
        put_number(p + 12, second);
        if (message)
            memcpy(p + 16, message, CELLS);
        else
            memset(p + 16, 0, CELLS);
    }
}

static void take_out(struct channel *c, unsigned place) {
    c->count--;
    memmove(c->place[place], c->place[place + 1], (size_t)(c->count - place) * PACKET);
    memset(c->place[c->count], 0, PACKET);
}

static inline int full(const struct channel *c, unsigned copies) { return c->count + copies > PLACES; }

static int console_holds(const uint8_t *message) {
    if (console.down) return 4;
    if (console.mode != IDLE) return 6;
    if (console.numbers.used == UINT32_MAX) return 8;
    console.mode = NEED_I;
    console.number = take_number(&console.numbers);
    memcpy(console.message, message, CELLS);
    return NOTHING;
}

static int console_takes(unsigned place, unsigned copies) {
    if (console.down) return 4;
    if (place >= back.count) return 3;
    const uint8_t *p = back.place[place];
    uint8_t kind = p[5];
    uint32_t first = number(p + 8), i = kind == OFFER ? number(p + 12) : first;
    int reply = 1;
    if (kind == OFFER) {
        if (console.mode == NEED_I && first == console.number) {
            console.mode = SEND;
            console.number = i;
            reply = 0;
        } else if (console.mode == SEND && i == console.number) {
            reply = 0;
        }
        if (reply && full(&out, copies)) return 9;
    } else if (kind == OK) {
        if (full(&out, copies)) return 9;
        if (console.mode == SEND && i == console.number) {
            console.mode = IDLE;
            console.ack = 1;
        }
    } else {
        reply = 0;
        if (console.mode == SEND && i == console.number) {
            console.mode = IDLE;
            console.ack = 0;
        }
    }
    take_out(&back, place);
    if (reply) send(&out, copies, DONE, i, 0, 0);
    return NOTHING;
}

static int console_tells(void) {
    if (console.down) return 4;
    if (console.mode != IDLE) return 6;
    int report = console.ack ? ANSWERED_OK : ANSWERED_LOST;
    console.ack = 0;
    return report;
}

static int controller_takes(unsigned place, unsigned copies, const uint8_t **delivered) {
    static uint8_t message[CELLS];
    if (controller.down) return 4;
    if (place >= out.count) return 3;
    const uint8_t *p = out.place[place];
    uint8_t kind = p[5];
    uint32_t n = number(p + 8);
    if (kind == NEEDI) {
        if (controller.mode == IDLE && controller.numbers.used != UINT32_MAX) {
            controller.mode = ACCEPT;
            controller.j = n;
            controller.number = take_number(&controller.numbers);
        }
        take_out(&out, place);
        return NOTHING;
    }
    if (n > controller.numbers.used) return 7;
    if (kind == DONE) {
        if (controller.mode != IDLE && n == controller.number) controller.mode = IDLE;
        take_out(&out, place);
        return NOTHING;
    }
    if (controller.mode == ACK && n == controller.number) {
        take_out(&out, place);
        return NOTHING;
    }
    if (full(&back, copies)) return 9;
    if (controller.mode == ACCEPT && n == controller.number) {
        controller.mode = ACK;
        memcpy(message, p + 16, CELLS);
        *delivered = message;
        take_out(&out, place);
        send(&back, copies, OK, n, 0, 0);
        return DELIVERED;
    }
    take_out(&out, place);
    send(&back, copies, LOST, n, 0, 0);
    return NOTHING;
}

static int sends(struct channel *c, unsigned copies, int down, int in_mode, uint8_t kind, uint32_t first, uint32_t second, const uint8_t *message) {
    if (down) return 4;
    if (!in_mode) return 6;
    if (full(c, copies)) return 9;
    send(c, copies, kind, first, second, message);
    return NOTHING;
}

static int loses(struct channel *c, unsigned place) {
    if (place >= c->count) return 3;
    take_out(c, place);
    return NOTHING;
}

static int step(uint8_t letter, unsigned place, unsigned copies, const uint8_t *message, const uint8_t **delivered) {
    switch (letter) {
    case 'P': return console_holds(message);
    case 'Q': return sends(&out, copies, console.down, console.mode == NEED_I, NEEDI, console.number, 0, 0);
    case 'D': return sends(&out, copies, console.down, console.mode == SEND, DATA, console.number, 0, console.message);
    case 'S': return console_takes(place, copies);
    case 'C': console.down = 1; return NOTHING;
    case 'V':
        if (!console.down) return 5;
        console.down = 0;
        console.mode = IDLE;
        console.ack = 0;
        console.numbers.used = console.numbers.reserved;
        return NOTHING;
    case 'O': return sends(&back, copies, controller.down, controller.mode == ACCEPT, OFFER, controller.j, controller.number, 0);
    case 'K': return sends(&back, copies, controller.down, controller.mode == ACK, OK, controller.number, 0, 0);
    case 'R': return controller_takes(place, copies, delivered);
    case 'X': controller.down = 1; return NOTHING;
    case 'Y':
        if (!controller.down) return 5;
        controller.down = 0;
        controller.mode = IDLE;
        controller.numbers.used = controller.numbers.reserved;
        return NOTHING;
    case 'A': return console_tells();
    case 'L': return loses(&out, place);
    default: return loses(&back, place);
    }
}

enum { USES_PLACE = 1, USES_COPIES = 2, USES_MESSAGE = 4, LETTER = 8 };

static const uint8_t uses[256] = {
    ['P'] = LETTER | USES_MESSAGE, ['Q'] = LETTER | USES_COPIES, ['D'] = LETTER | USES_COPIES,
    ['S'] = LETTER | USES_PLACE | USES_COPIES, ['C'] = LETTER, ['V'] = LETTER, ['O'] = LETTER | USES_COPIES,
    ['K'] = LETTER | USES_COPIES, ['R'] = LETTER | USES_PLACE | USES_COPIES, ['X'] = LETTER, ['Y'] = LETTER,
    ['L'] = LETTER | USES_PLACE, ['M'] = LETTER | USES_PLACE, ['A'] = LETTER,
};

static int play(const uint8_t *r, size_t n, const uint8_t **delivered) {
    if (n != RECORD || r[20] != '\n') return 1;
    uint8_t u = uses[r[0]];
    unsigned tens = r[1] - '0', ones = r[2] - '0', copies = r[3] - '0';
    unsigned place = tens * 10 + ones;
    if (u == 0 || tens > 9 || ones > 9 || place > 63 || copies > 3) return 1;
    if ((!(u & USES_PLACE) && place != 0) || (!(u & USES_COPIES) && copies != 0)) return 1;
    if (u & USES_MESSAGE) {
        for (int i = 4; i < 20; i++)
            if (r[i] < 0x20 || r[i] > 0x7E) return 1;
    } else {
        for (int i = 4; i < 20; i++)
            if (r[i] != ' ') return 1;
    }
    return step(r[0], place, copies, r + 4, delivered);
}

static void write_line(uint8_t *l, unsigned k, uint8_t letter, int report, const uint8_t *delivered) {
    static const char said[4][2] = {{'-', '-'}, {'D', 'L'}, {'O', 'K'}, {'L', 'O'}};
    l[0] = (uint8_t)('0' + k / 1000);
    l[1] = (uint8_t)('0' + k / 100 % 10);
    l[2] = (uint8_t)('0' + k / 10 % 10);
    l[3] = (uint8_t)('0' + k % 10);
    l[4] = l[6] = l[9] = ' ';
    l[5] = report == 1 ? '?' : letter;
    if (report == NOTHING || report >= DELIVERED) {
        memcpy(l + 7, said[report == NOTHING ? 0 : report - DELIVERED + 1], 2);
    } else {
        l[7] = (uint8_t)('0' + report / 10);
        l[8] = (uint8_t)('0' + report % 10);
    }
    if (delivered)
        memcpy(l + 10, delivered, CELLS);
    else
        memset(l + 10, ' ', CELLS);
    l[26] = '\n';
}

int main(void) {
    static uint8_t input[MOST * RECORD], output[MOST * LINE];
    size_t n = 0, written = 0;
    ssize_t got;
    while (n < sizeof input && (got = read(0, input + n, sizeof input - n)) > 0) n += (size_t)got;
    for (unsigned k = 0; k * RECORD < n; k++) {
        const uint8_t *r = input + k * RECORD, *delivered = 0;
        size_t left = n - k * RECORD;
        int report = play(r, left < RECORD ? left : RECORD, &delivered);
        write_line(output + k * LINE, k + 1, r[0], report, delivered);
        written += LINE;
    }
    for (size_t done = 0; done < written;) {
        ssize_t put = write(1, output + done, written - done);
        if (put <= 0) return 1;
        done += (size_t)put;
    }
    return 0;
}
