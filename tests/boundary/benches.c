/* The bench: started, stepped, shown; benches that no list reaches among them. */
#include "given.h"

#include <string.h>

static struct lent ours, theirs;
static struct tally reads; /* of A by itself */

/* ---- which refusals apply, not only the first ---- */

/* The bench of the given bytes, its tables the second program's. Bytes that are no state make ends that are not well formed. */
static Bench bench_from(struct lent *l) {
    int whole = call.state_len == NOOSELESS_BENCH_STATE_LEN;
    Bench b;
    b.console = console_from(l->state, whole ? NOOSELESS_CONSOLE_STATE_LEN : 0);
    b.controller = controller_from(l->state + BENCH_CONTROLLER, whole ? NOOSELESS_CONTROLLER_STATE_LEN : 0);
    b.to_controller = (Channel){l->out, call.out_len, whole ? l->state[BENCH_OUT] : PLACES + 1};
    b.to_console = (Channel){l->back, call.back_len, whole ? l->state[BENCH_BACK] : PLACES + 1};
    return b;
}

static int is_table(const Channel *c) { return c->length == TABLE_BYTES && c->count <= PLACES; }

/* 4, 5, 6 and 8 of the end that acts. */
static unsigned end_rules(const Bench *b, uint8_t letter) {
    const Console *c = &b->console;
    const Controller *d = &b->controller;
    switch (letter) {
    case 'P': return rule(4, c->down) | rule(6, c->held) | rule(8, c->numbers.last_used == UINT32_MAX);
    case 'Q': return rule(4, c->down) | rule(6, c->j == 0);
    case 'D': return rule(4, c->down) | rule(6, c->last == 0);
    case 'S': return rule(4, c->down);
    case 'V': return rule(5, !c->down);
    case 'A': return rule(4, c->down) | rule(6, c->held);
    case 'O': return rule(4, d->down) | rule(6, d->i == 0);
    case 'K': return rule(4, d->down) | rule(6, d->last == 0);
    case 'R': return rule(4, d->down);
    case 'Y': return rule(5, !d->down);
    default: return 0;
    }
}

/* 7, and 9 for what would be sent. */
static unsigned sent_rules(const Bench *b, const Action *a, const Packet *in, unsigned known) {
    Bench after = *b;
    const Channel *to = a->actor == CONSOLE ? &b->to_controller : &b->to_console;
    unsigned rules = rule(7, a->letter == 'R' && (in->kind == DATA || in->kind == DONE) && in->first > b->controller.numbers.last_used);
    if (!a->copies || (known & rule(6, 1)) || !is_table(to)) return rules;
    Effect e = a->actor == CONSOLE ? console_acts(&after.console, a->letter, given.message, in) : controller_acts(&after.controller, a->letter, in);
    return rules | rule(9, e.sends && call.copies > PLACES - to->count);
}

/* Of a bench not well formed, those that speak of parts that are. */
static unsigned rules_of(const Bench *b) {
    const Action *a = find_action(call.letter);
    unsigned rules = rule(2, !bench_well_formed(b));
    if (!a) return rules | rule(1, 1);
    rules |= rule(11, a->message && !all_cells(given.message)) | rule(10, a->copies && call.copies > MOST_COPIES);
    int fit = a->actor == AIR || (a->actor == CONSOLE ? console_well_formed(&b->console) : controller_well_formed(&b->controller));
    if (fit) rules |= end_rules(b, call.letter);
    if (!a->place) return fit ? rules | sent_rules(b, a, NULL, rules) : rules;
    const Channel *from = takes_from_out(call.letter) ? &b->to_controller : &b->to_console;
    if (!is_table(from)) return rules;
    if (call.place >= from->count) return rules | rule(3, 1);
    PacketRead r = read_packet(place_in(from, call.place), PACKET_BYTES);
    int good = r.refusal == 0 && direction_of(r.packet.kind) == (takes_from_out(call.letter) ? TO_CONTROLLER : TO_CONSOLE);
    return fit && good && a->actor != AIR ? rules | sent_rules(b, a, &r.packet, rules) : rules;
}

/* ---- the entries ---- */

static void state_to(const Bench *b, uint8_t *s) {
    console_to(&b->console, s);
    controller_to(&b->controller, s + BENCH_CONTROLLER);
    s[BENCH_OUT] = (uint8_t)b->to_controller.count;
    s[BENCH_BACK] = (uint8_t)b->to_console.count;
}

/* Whether the ack alone is what makes the given bench none. */
static int ack_is_no_flag(void) {
    if (call.state_len != NOOSELESS_BENCH_STATE_LEN || given.state[CONSOLE_ACK] <= 1) return 0;
    struct lent mended = given;
    mended.state[CONSOLE_ACK] = 0;
    Bench b = bench_from(&mended);
    return bench_well_formed(&b);
}

static void step(void) {
    ours = theirs = given;
    Bench b = bench_from(&theirs);
    Bench before = b;
    unsigned rules = rules_of(&b);
    Outcome o = bench_step(&b, call.letter, call.place, call.copies, theirs.message);
    entry = "the first rule of a bench's step";
    check(o.refusal == first_of(rules));
    entry = "nooseless_bench_step";
    if (o.report != REFUSED) state_to(&b, theirs.state);
    if (o.report == DELIVERED) memcpy(theirs.delivered, o.message, CELLS);
    uint8_t want = told_by(&benches, &o, 0); /* a bench is no box: neither bit */
    check(nooseless_bench_step(ours.state, call.state_len, ours.out, call.out_len, ours.back, call.back_len, call.letter, call.place,
                               call.copies, ours.message, ours.delivered) == want);
    check(!memcmp(&ours, &theirs, sizeof ours));
    count(&benches, o.refusal, rules);
    if (call.letter == 'A') count(&reads, o.refusal, rules);
    if (o.report != REFUSED) answered(&benches, call.letter, &before.console, &b.console);
    benches.acks[NO_ACK] += ack_is_no_flag();
    moved(&benches, call.letter, &before.console.numbers, &b.console.numbers);
    moved(&benches, call.letter, &before.controller.numbers, &b.controller.numbers);
}

static void fresh(void) {
    uint32_t j = some_used(), i = some_used();
    Bench b;
    entry = "nooseless_bench_fresh";
    ours = theirs = given;
    int refusal = 2;
    if (call.state_len == NOOSELESS_BENCH_STATE_LEN) refusal = fresh_bench(&b, j, i, theirs.out, call.out_len, theirs.back, call.back_len);
    if (refusal == 0) state_to(&b, theirs.state);
    check(nooseless_bench_fresh(ours.state, call.state_len, ours.out, call.out_len, ours.back, call.back_len, j, i) == refusal);
    check(!memcmp(&ours, &theirs, sizeof ours));
    count(&benches, refusal, 0);
}

/* Of an end that is neither, no place is there to be shown. */
static void shown(uint8_t end) {
    size_t offset = SIZE_MAX - 1, wanted = offset;
    entry = "nooseless_bench_show";
    ours = theirs = given;
    Bench b = bench_from(&theirs);
    Shown s = show(end == 2 ? TO_CONTROLLER : TO_CONSOLE, end == 1 || end == 2 ? call.place : PLACES, b.to_controller, b.to_console);
    if (s.refusal == 0) wanted = (size_t)(s.bytes - (end == 2 ? theirs.out : theirs.back));
    check(nooseless_bench_show(ours.state, call.state_len, ours.out, call.out_len, ours.back, call.back_len, end, call.place, &offset) ==
          s.refusal);
    check(offset == wanted && !memcmp(&ours, &theirs, sizeof ours));
    const Channel *asked = end == 2 ? &b.to_controller : &b.to_console;
    count(&benches, s.refusal, rule(2, s.refusal == 2) | rule(3, call.place >= asked->count || (end != 1 && end != 2)));
}

void one_of_benches(void) {
    uint32_t lot = roll(16);
    if (roll(1000) == 0) scribble((uint8_t *)&given, sizeof given);
    good_bench();
    some_call();
    if (roll(4) == 0) spoil();
    if (roll(16) == 0) spoil();
    if (lot == 0) fresh();
    else if (lot == 1) shown((uint8_t)(roll(4) ? 1 + roll(2) : roll(256)));
    else step();
}

/* ---- every byte, every count, every place, every flag, every corner ---- */

/* Every bit of a state and of both tables turned, one at a time. */
static void every_bit(void) {
    static uint8_t *const parts[] = {given.state, given.out, given.back};
    static const size_t lengths[] = {NOOSELESS_BENCH_STATE_LEN, TABLE_BYTES, TABLE_BYTES};
    for (int part = 0; part < 3; part++)
        for (size_t i = 0; i < 8 * lengths[part]; i++) {
            next_case();
            if (i % 16 == 0) good_bench();
            some_call();
            parts[part][i / 8] ^= (uint8_t)(1u << i % 8);
            step();
            parts[part][i / 8] ^= (uint8_t)(1u << i % 8);
        }
}

/* Every count byte of each channel, with as many packets as there are places for, and every letter; shown at the places around it. */
static void every_count(void) {
    for (int which = 0; which < 2; which++)
        for (uint32_t n = 0; n < 256; n++)
            for (size_t i = 0; i < ACTIONS; i++) {
                size_t held = n < PLACES ? n : PLACES, other = some_count();
                next_case();
                good_bench();
                set_counts(which ? other : held, which ? held : other);
                given.state[BENCH_OUT + which] = (uint8_t)n;
                some_call();
                call.letter = (uint8_t)LETTERS[i];
                call.place = n + roll(3) - 1;
                step();
                shown((uint8_t)roll(4));
            }
}

/* Every place and some above, copies from 0 to 4 and above, every letter. */
static void every_place(void) {
    static const size_t copies[] = {0, 1, 2, 3, 4, 5, 255, 256, (size_t)1 << 32, ((size_t)1 << 32) + 1, SIZE_MAX};
    static const size_t above[] = {64, 65, 66, 255, 256, (size_t)1 << 32, SIZE_MAX / PACKET_BYTES + 1, SIZE_MAX / PACKET_BYTES + 2, SIZE_MAX};
    for (size_t place = 0; place < PLACES + sizeof above / sizeof *above; place++)
        for (size_t c = 0; c < sizeof copies / sizeof *copies; c++)
            for (size_t i = 0; i < ACTIONS; i++) {
                next_case();
                if (i % 4 == 0) good_bench();
                some_message(given.message);
                call.letter = (uint8_t)LETTERS[i];
                call.place = place < PLACES ? place : above[place - PLACES];
                call.copies = copies[c];
                step();
                shown((uint8_t)roll(4));
            }
}

/* Each byte in the place of each flag, every letter. */
static void every_flag(void) {
    static const size_t flags[] = {CONSOLE_HELD, CONSOLE_UP, CONSOLE_ACK, BENCH_CONTROLLER + CONTROLLER_UP};
    for (size_t k = 0; k < sizeof flags / sizeof *flags; k++)
        for (uint32_t byte = 0; byte < 256; byte++)
            for (size_t i = 0; i < ACTIONS; i++) {
                next_case();
                good_bench();
                given.state[flags[k]] = (uint8_t)byte;
                some_call();
                call.letter = (uint8_t)LETTERS[i];
                step();
            }
}

/* Numbers of each end at their corners, every letter. */
static void every_corner(void) {
    for (size_t k = 0; k < CORNERS; k++)
        for (int controller = 0; controller < 2; controller++)
            for (size_t i = 0; i < ACTIONS; i++) {
                Numbers numbers = corner(k);
                next_case();
                good_bench();
                numbers_to(&numbers, given.state + (controller ? BENCH_CONTROLLER : 0));
                some_call();
                call.letter = (uint8_t)LETTERS[i];
                step();
            }
}

void all_benches(void) {
    scribble((uint8_t *)&given, sizeof given);
    every_bit();
    every_count();
    every_place();
    every_flag();
    every_corner();
}

/* 12 to 15 are for an end run alone. */
int enough_benches(void) {
    static const Pair known[] = {{1, 2}, {2, 3}, {2, 4}, {2, 5}, {2, 6}, {2, 7}, {2, 8}, {2, 9}, {2, 10}, {2, 11}, {3, 4}, {3, 10}, {4, 6},
        {4, 7}, {4, 8}, {4, 9}, {4, 10}, {4, 11}, {6, 8}, {6, 10}, {6, 11}, {7, 9}, {7, 10}, {8, 11}, {9, 10}};
    static const Pair reading[] = {{2, 4}, {2, 6}, {4, 6}};
    int steps = enough_steps(&benches, "benches");
    steps = enough_answers(&benches, "benches", "PQDSCOKRXYLM") && steps;
    steps = enough_rules(&reads, "A of benches", 1u << 2 | 1u << 4 | 1u << 6, reading, 3) && steps;
    return enough_rules(&benches, "benches", 0x0FFEu, known, sizeof known / sizeof *known) && steps;
}
