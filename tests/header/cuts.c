/*
 * Both loops over a radio that does anything but invent, with power cuts before and after everything that a loop does, each byte of a record
 * that is being kept included: cuts TURNS SEED. Every choice is the seed's. While a box is off, a person may carry its record back to version 1,
 * or give it another block. Demand 3 is judged by rows and doses, and the rule of nooseless.h held to every step: what it leaves to be done is
 * done in the rule's order before the next. Rows outlive a cut, so that a console which comes back knows of the one that waits for its answer.
 *
 * Ends with 0, with 1 if demand 3 is broken, with 3 if too little happened, with 4 if the rule is broken, a number came that was never given or
 * one was used twice.
 */
#include <setjmp.h>
#include <stdio.h>
#include <stdlib.h>
#include <string.h>

#include "../../examples/chance.h"
#include "world.h"

#define AIR 65536u
#define CUT 400 /* one in so many moments */
#define TORN 100 /* one in so many bytes of a record that is written */
#define SERVICE 10 /* one in so many starts comes after a person was at the record */
#define SPARE 16 /* one in so many turns of the console ends with a reading that is nobody's answer */

static struct chance chance;
static jmp_buf power;
static int on[2], running;
static unsigned long now; /* the turn */
static unsigned long cuts[2], between, broken, alarms, junk, torn, keepings, used_up, old_starts, reused;

static void may_fail(void) {
    if (below(&chance, CUT) == 0) longjmp(power, 1);
}

/* ---- The rule: what the last step of an end has left to be done ---- */

static struct left {
    int keep, show, send;
    uint8_t record[NOOSELESS_RECORD_LEN], reply[NOOSELESS_PACKET_LEN];
} left[2];

static int started[2]; /* no record kept since */

static void rule(int kept) {
    if (!kept) broken++;
}

void stepped(int end, uint8_t told, const uint8_t *before, const uint8_t *after, const uint8_t *reply) {
    struct left *l = &left[end];
    rule(!l->keep && !l->show && !l->send);
    memset(l, 0, sizeof *l);
    int changed = memcmp(before, after, NOOSELESS_RECORD_LEN) != 0;
    rule(changed == (!nooseless_is_refusal(told) && (told & NOOSELESS_KEEP) != 0));
    if (nooseless_is_refusal(told)) return;
    l->keep = changed;
    if (changed) {
        keepings++;
        used_up += !started[end];
        started[end] = 0;
    }
    l->show = nooseless_report(told);
    l->send = (told & NOOSELESS_SENT) != 0;
    memcpy(l->record, after, NOOSELESS_RECORD_LEN);
    memcpy(l->reply, reply, NOOSELESS_PACKET_LEN);
    may_fail();
}

static void kept(int end, const uint8_t *record) {
    rule(left[end].keep && memcmp(record, left[end].record, NOOSELESS_RECORD_LEN) == 0);
    left[end].keep = 0;
}

static void shown(int end, uint8_t report) {
    rule(!left[end].keep && left[end].show == report);
    left[end].show = 0;
}

static void sent(int end, const uint8_t *packet) {
    rule(!left[end].keep && !left[end].show && left[end].send && memcmp(packet, left[end].reply, NOOSELESS_PACKET_LEN) == 0);
    left[end].send = 0;
}

/* ---- Flash: a record with its check sum in two places. A place is erased and then written byte by byte ---- */

#define SUM 4
#define PLACE (NOOSELESS_RECORD_LEN + SUM)

static uint8_t places[2][2][PLACE];

static void with_sum(uint8_t *whole, const uint8_t *record, size_t length) {
    uint32_t sum = 2166136261u;
    for (size_t i = 0; i < length; i++) sum = (sum ^ record[i]) * 16777619u;
    memset(whole, 0xFF, PLACE);
    memcpy(whole, record, length);
    memcpy(whole + length, &sum, SUM);
}

static void write_place(uint8_t *place, const uint8_t *record, size_t length) {
    uint8_t whole[PLACE];
    with_sum(whole, record, length);
    memset(place, 0xFF, PLACE);
    unsigned first = (unsigned)below(&chance, PLACE);
    for (unsigned i = 0; i < PLACE; i++) {
        if (below(&chance, TORN) == 0) longjmp(power, 1);
        place[(first + i) % PLACE] = whole[(first + i) % PLACE];
    }
}

static void write_both(int end, const uint8_t *record, size_t length) {
    write_place(places[end][0], record, length);
    write_place(places[end][1], record, length);
}

static void keep(int end, const uint8_t *record) {
    may_fail();
    write_both(end, record, NOOSELESS_RECORD_LEN);
    kept(end, record);
    may_fail();
}

/* The length of the record in a place, of either version; 0 where none is whole. */
static size_t reads(const uint8_t *place, uint32_t *number) {
    static const size_t lengths[] = {NOOSELESS_RECORD_LEN, NOOSELESS_OLD_RECORD_LEN};
    for (int i = 0; i < 2; i++) {
        uint8_t whose, whole[PLACE];
        uint16_t block;
        with_sum(whole, place, lengths[i]);
        if (memcmp(whole, place, PLACE) == 0 && nooseless_read_record(place, lengths[i], &whose, number, &block) == 0) return lengths[i];
    }
    return 0;
}

/* That of the larger number of those that are whole; then the other is written anew from it. */
static size_t load(int end, uint8_t *record) {
    uint32_t a = 0, b = 0;
    size_t first = reads(places[end][0], &a), second = reads(places[end][1], &b);
    if (!first && !second) return 0;
    int best = !first || (second && b > a);
    size_t length = best ? second : first;
    memcpy(record, places[end][best], length);
    if (memcmp(places[end][0], places[end][1], PLACE) != 0) {
        torn++;
        write_place(places[end][!best], record, length);
    }
    return length;
}

/* Small blocks, which are used up between two cuts, a fresh end's, or any. */
static uint16_t some_block(void) {
    uint64_t lot = below(&chance, 4);
    return (uint16_t)(lot < 2 ? 1 + below(&chance, 4) : lot == 2 ? NOOSELESS_BLOCK : 1 + below(&chance, NOOSELESS_BLOCK_MAX));
}

/* A person at a box that is off: its record is carried back to version 1, as for entries of version 1, or gets another block. */
static void service(int end) {
    uint8_t record[NOOSELESS_RECORD_LEN], other[NOOSELESS_RECORD_LEN], whose;
    uint32_t number;
    uint16_t block;
    size_t length = load(end, record), to = below(&chance, 2) == 0 ? NOOSELESS_OLD_RECORD_LEN : NOOSELESS_RECORD_LEN;
    if (nooseless_read_record(record, length, &whose, &number, &block) != 0) exit(2);
    uint8_t refusal = to == NOOSELESS_OLD_RECORD_LEN ? nooseless_carry_record(record, length, other, to)
                                                     : nooseless_write_record(other, to, whose, number, some_block());
    if (refusal != 0) exit(2);
    write_both(end, other, to);
}

/* ---- Radio: whatever was sent may come at any later time, any number of times, or never; and junk ---- */

static uint8_t air[2][AIR][NOOSELESS_PACKET_LEN]; /* sent by an end */
static unsigned long flown[2];
static unsigned long given, came_back[2]; /* the order that was given last; the turn of an end's last start */

/* needI(J) and offer(J, I): the J names one put, the I one permission, so a number that comes again is of the same order, or of the same run. */
static void numbered(int end, const uint8_t *packet) {
    static uint32_t top[2];
    static unsigned long names[2];
    uint8_t kind, message[NOOSELESS_MESSAGE_LEN];
    uint32_t first, second;
    if (nooseless_read_packet(packet, NOOSELESS_PACKET_LEN, &kind, &first, &second, message) != 0) return;
    if (kind != (end == CONSOLE ? NOOSELESS_KIND_NEEDI : NOOSELESS_KIND_OFFER)) return;
    uint32_t number = end == CONSOLE ? first : second;
    unsigned long of = end == CONSOLE ? given : came_back[CONTROLLER];
    if (number < top[end] || (number == top[end] && names[end] != of)) reused++;
    top[end] = number;
    names[end] = of;
}

static void fly(int end, const uint8_t *packet) {
    may_fail();
    memcpy(air[end][flown[end]++ % AIR], packet, NOOSELESS_PACKET_LEN);
    numbered(end, packet);
    sent(end, packet);
    may_fail();
}

/* Any length; what has the length of a packet is no packet for this end: another mark, or the end's own, which goes the other way. */
static int noise(int end, uint8_t *bytes, int room) {
    int length = (int)below(&chance, (uint64_t)room + 1);
    for (int i = 0; i < length; i++) bytes[i] = (uint8_t)below(&chance, 256);
    if (length == NOOSELESS_PACKET_LEN && flown[end] > 0) memcpy(bytes, air[end][(flown[end] - 1) % AIR], NOOSELESS_PACKET_LEN);
    else bytes[0] = 0;
    junk++;
    return length;
}

static int hear(int end, uint8_t *bytes, int room) {
    may_fail();
    uint64_t lot = below(&chance, 20);
    unsigned long count = flown[!end], reach = lot < 12 ? 2 : lot < 14 ? 64 : AIR;
    if (lot == 19) return noise(end, bytes, room);
    if (lot >= 15 || count == 0) return -1;
    if (reach > count) reach = count;
    memcpy(bytes, air[!end][(count - 1 - below(&chance, reach)) % AIR], NOOSELESS_PACKET_LEN);
    return NOOSELESS_PACKET_LEN;
}

/* ---- Rows and doses, and demand 3 of them ---- */

struct order {
    unsigned long put, lost, dosed; /* the turn, 0 for never */
    int unsure; /* lost after a restart of the console */
};

static struct order *orders;
static unsigned long room, latest, waiting; /* waiting: the order whose row has no answer yet, 0 for none */
static unsigned long asked, doses, oks, losts, unsure, dosed_after; /* dosed_after: delivered after a lost that was unsure */
static unsigned long twice, astray, unasked, early_ok, kept_ok, after_lost, no_reason, spare;

static unsigned long number_of(const uint8_t *cells) {
    unsigned long n = 0;
    for (int i = 6; i < NOOSELESS_MESSAGE_LEN; i++) n = 10 * n + (unsigned long)(cells[i] - '0');
    return n;
}

/* Order 0 stands for cells that were never given. */
static struct order *order_of(const uint8_t *cells) {
    unsigned long n = memcmp(cells, "ORDER ", 6) == 0 ? number_of(cells) : 0;
    if (n == 0 || n > given) unasked++;
    return &orders[n <= given ? n : 0];
}

static void dose(const uint8_t *cells) {
    struct order *o = order_of(cells);
    unsigned long n = (unsigned long)(o - orders);
    doses++;
    if (!o->put) unasked++;
    if (o->dosed) twice++;
    if (n < latest) astray++;
    if (o->lost && o->unsure) dosed_after++;
    if (o->lost && !o->unsure) after_lost++;
    o->dosed = now;
    if (n > latest) latest = n;
}

static void answer(uint8_t told, const uint8_t *cells) {
    struct order *o = order_of(cells);
    int restarted = came_back[CONSOLE] > o->put;
    if (waiting != (unsigned long)(o - orders)) unasked++;
    waiting = 0;
    if (told == NOOSELESS_ANSWER_OK) {
        oks++;
        if (!o->dosed) early_ok++;
        if (restarted) kept_ok++;
    } else {
        losts++;
        unsure += restarted;
        o->lost = now;
        o->unsure = restarted;
        if (!restarted && came_back[CONTROLLER] <= o->put) no_reason++;
    }
}

/* ---- What the loops ask of their boxes ---- */

static size_t loaded(int end, uint8_t *record) {
    size_t length = load(end, record);
    old_starts += length == NOOSELESS_OLD_RECORD_LEN;
    return length;
}

size_t console_load(uint8_t record[NOOSELESS_RECORD_LEN]) { return loaded(CONSOLE, record); }
size_t controller_load(uint8_t record[NOOSELESS_RECORD_LEN]) { return loaded(CONTROLLER, record); }
void console_keep(const uint8_t record[NOOSELESS_RECORD_LEN]) { keep(CONSOLE, record); }
void controller_keep(const uint8_t record[NOOSELESS_RECORD_LEN]) { keep(CONTROLLER, record); }
int console_hear(uint8_t *bytes, int most) { return hear(CONSOLE, bytes, most); }
int controller_hear(uint8_t *bytes, int most) { return hear(CONTROLLER, bytes, most); }
void console_send(const uint8_t packet[NOOSELESS_PACKET_LEN]) { fly(CONSOLE, packet); }
void controller_send(const uint8_t packet[NOOSELESS_PACKET_LEN]) { fly(CONTROLLER, packet); }
int console_due(void) { return below(&chance, 2) == 0; }
int controller_due(void) { return below(&chance, 2) == 0; }
void controller_alarm(void) { alarms++; }

static void cells_of(uint8_t order[NOOSELESS_MESSAGE_LEN], unsigned long n) {
    char text[NOOSELESS_MESSAGE_LEN + 1];
    snprintf(text, sizeof text, "ORDER %010lu", n % 10000000000u);
    memcpy(order, text, NOOSELESS_MESSAGE_LEN);
}

/* Asked once the console is back. */
int console_unanswered(uint8_t order[NOOSELESS_MESSAGE_LEN]) {
    came_back[CONSOLE] = now;
    may_fail();
    if (waiting) cells_of(order, waiting);
    return waiting != 0;
}

int console_order(uint8_t order[NOOSELESS_MESSAGE_LEN]) {
    if (below(&chance, 4) != 0) return 0; /* so that it is idle at times, and hears what is of an order before */
    if (given + 1 >= room) {
        room = 2 * room + 64;
        orders = realloc(orders, room * sizeof *orders);
        if (!orders) exit(2);
    }
    memset(&orders[++given], 0, sizeof *orders);
    cells_of(order, given);
    return 1;
}

void console_show(uint8_t told, const uint8_t order[NOOSELESS_MESSAGE_LEN]) {
    may_fail();
    shown(CONSOLE, told);
    if (told == NOOSELESS_ANSWER_OK || told == NOOSELESS_ANSWER_LOST) {
        answer(told, order);
    } else {
        rule(told == NOOSELESS_NOTHING && !waiting);
        struct order *o = order_of(order);
        o->put = now;
        waiting = (unsigned long)(o - orders);
        asked++;
    }
    may_fail();
}

void controller_dose(const uint8_t order[NOOSELESS_MESSAGE_LEN]) {
    may_fail();
    shown(CONTROLLER, NOOSELESS_DELIVERED);
    dose(order);
    may_fail();
}

/* ---- Power ---- */

static void goes_down(int end) {
    on[end] = 0;
    cuts[end]++;
    if (left[end].keep) between++;
    memset(&left[end], 0, sizeof *left);
    if (end == CONSOLE) console_forget();
    else controller_forget();
}

static void comes_back(int end) {
    if (below(&chance, SERVICE) == 0) service(end);
    uint8_t refusal = end == CONSOLE ? console_start() : controller_start();
    if (refusal != 0) {
        fprintf(stderr, "cuts: a record is refused with %u\n", refusal);
        exit(2);
    }
    on[end] = started[end] = 1;
    if (end == CONTROLLER) came_back[CONTROLLER] = now;
}

static void turn(int end) {
    running = end;
    if (setjmp(power) != 0) {
        goes_down(running);
        return;
    }
    if (!on[end]) comes_back(end);
    else if (end == CONSOLE) console_turn();
    else controller_turn();
    rule(!left[end].keep && !left[end].show && !left[end].send);
    if (end == CONSOLE && below(&chance, SPARE) == 0 && console_reads_spare() != NOOSELESS_ANSWER_LOST) spare++;
}

/* Half of the boxes were made before there were blocks. */
static void make(int end, uint8_t whose) {
    uint8_t record[NOOSELESS_RECORD_LEN];
    uint16_t block = below(&chance, 2) == 0 ? 0 : some_block();
    size_t length = block == 0 ? NOOSELESS_OLD_RECORD_LEN : NOOSELESS_RECORD_LEN;
    if (nooseless_write_record(record, length, whose, (uint32_t)below(&chance, 1u << 20), block) != 0) exit(2);
    with_sum(places[end][0], record, length);
    with_sum(places[end][1], record, length);
}

static void print_counts(unsigned long turns) {
    printf("%lu turns, %lu cuts of the console, %lu of the controller, %lu between a step and its keeping, %lu starts with a torn record\n", turns,
           cuts[CONSOLE], cuts[CONTROLLER], between, torn);
    printf("%lu orders, %lu doses, %lu OK, %lu lost, %lu junk\n", asked, doses, oks, losts, junk);
    printf("%lu of the lost after a restart of the console, %lu of these delivered afterwards\n", unsure, dosed_after);
    printf("%lu keepings, %lu of them of a block that was used up, %lu starts from a record of version 1\n", keepings, used_up, old_starts);
    printf("delivered twice %lu, out of order %lu, OK without delivery %lu, OK after a restart of the console %lu, delivered after lost %lu\n", twice,
           astray, early_ok, kept_ok, after_lost);
    printf("delivered or answered unasked %lu, lost with no restart since the put %lu, spare readings other than lost %lu\n", unasked, no_reason,
           spare);
    printf("the rule broken %lu, numbers never given %lu, used twice %lu\n", broken, alarms, reused);
}

int main(int argc, char **argv) {
    if (argc != 3) return 2;
    unsigned long turns = strtoul(argv[1], NULL, 10);
    chance.state = strtoull(argv[2], NULL, 10);
    orders = calloc(1, sizeof *orders);
    if (!orders) return 2;
    room = 1;
    make(CONSOLE, NOOSELESS_CONSOLE);
    make(CONTROLLER, NOOSELESS_CONTROLLER);
    for (now = 1; now <= turns; now++) turn((int)below(&chance, 2));
    print_counts(turns);
    if (twice + astray + early_ok + kept_ok + after_lost + unasked + no_reason + spare > 0) return 1;
    if (broken + alarms + reused > 0) return 4;
    return asked < turns / 100 || oks < turns / 200 || losts - unsure < turns / 10000 || unsure < turns / 10000 || between < turns / 10000 ||
                   torn < turns / 10000 || used_up < turns / 10000 || old_starts < turns / 10000
               ? 3
               : 0;
}
