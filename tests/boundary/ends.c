/* Each end run alone: started, stepped, its number record. */
#include "alone.h"

#include <stdio.h>
#include <string.h>

struct box box;
struct asked asked;
static struct box ours, theirs;
static struct tally reads; /* of A by itself */

static void some_console(uint8_t *s) {
    Console c = fresh_console(0);
    uint32_t mode = roll(3);
    scribble(s, ROOM);
    c.numbers = some_numbers();
    c.down = roll(4) == 0;
    c.ack_ok = roll(2);
    c.held = mode != 0;
    if (mode == 1) c.j = roll(2) ? c.numbers.last_used : some_number();
    if (mode == 2) c.last = some_number();
    if (c.held) some_message(c.message);
    console_to(&c, s);
    if (roll(8) == 0) damage(s, NOOSELESS_CONSOLE_STATE_LEN);
    if (roll(40) == 0) scribble(s, ROOM);
}

static void some_controller(uint8_t *s) {
    Controller c = fresh_controller(0);
    uint32_t mode = roll(3);
    scribble(s, ROOM);
    c.numbers = some_numbers();
    c.down = roll(4) == 0;
    if (mode == 1) {
        c.j = some_number();
        c.i = roll(2) ? c.numbers.last_used : some_number();
    }
    if (mode == 2) c.last = roll(2) ? c.numbers.last_used : some_number();
    controller_to(&c, s);
    if (roll(8) == 0) damage(s, NOOSELESS_CONTROLLER_STATE_LEN);
    if (roll(40) == 0) scribble(s, ROOM);
}

/* ---- which refusals apply, not only the first ---- */

static unsigned packet_rules(Direction own) {
    uint8_t mended[PACKET_BYTES];
    if (asked.in_len != PACKET_BYTES) return rule(12, 1);
    memcpy(mended, box.in, sizeof mended);
    write_mark_and_version(mended, "HSL", PACKET_VERSION);
    PacketRead r = read_packet(mended, sizeof mended);
    return rule(13, memcmp(box.in, "HSL", 3) != 0) | rule(14, box.in[3] != 0 || box.in[4] != 1) |
           rule(15, r.refusal != 0 || direction_of(r.packet.kind) != own);
}

static unsigned lent_rules(const char *senders) {
    return rule(12, asked.letter && strchr(senders, asked.letter) && asked.out_len != PACKET_BYTES);
}

/* 4, 5, 6 and 8, of ill-formed bytes too: a flag that is neither 0 nor 1 says nothing, the numbers and the other flag still do. */
static unsigned console_end_rules(void) {
    const uint8_t *s = box.state;
    if (asked.state_len != NOOSELESS_CONSOLE_STATE_LEN) return 0;
    switch (asked.letter) {
    case 'P': return rule(4, s[CONSOLE_UP] == 0) | rule(6, s[CONSOLE_HELD] == 1) | rule(8, get_number(s + AT_USED) == UINT32_MAX);
    case 'Q': return rule(4, s[CONSOLE_UP] == 0) | rule(6, get_number(s + AT_J) == 0);
    case 'D': return rule(4, s[CONSOLE_UP] == 0) | rule(6, get_number(s + CONSOLE_LAST) == 0);
    case 'S': return rule(4, s[CONSOLE_UP] == 0);
    case 'V': return rule(5, s[CONSOLE_UP] == 1);
    case 'A': return rule(4, s[CONSOLE_UP] == 0) | rule(6, s[CONSOLE_HELD] == 1);
    default: return 0;
    }
}

/* 4, 5, 6 and 7, likewise. */
static unsigned controller_end_rules(void) {
    const uint8_t *s = box.state;
    if (asked.state_len != NOOSELESS_CONTROLLER_STATE_LEN) return 0;
    PacketRead r = read_packet(box.in, asked.in_len);
    int bears_i = r.refusal == 0 && (r.packet.kind == DATA || r.packet.kind == DONE);
    switch (asked.letter) {
    case 'O': return rule(4, s[CONTROLLER_UP] == 0) | rule(6, get_number(s + CONTROLLER_I) == 0);
    case 'K': return rule(4, s[CONTROLLER_UP] == 0) | rule(6, get_number(s + CONTROLLER_LAST) == 0);
    case 'R': return rule(4, s[CONTROLLER_UP] == 0) | rule(7, bears_i && r.packet.first > get_number(s + AT_USED));
    case 'Y': return rule(5, s[CONTROLLER_UP] == 1);
    default: return 0;
    }
}

static unsigned console_rules(const Console *c) {
    unsigned rules = rule(2, !console_well_formed(c));
    const Action *a = find_action(asked.letter);
    if (!a || a->actor != CONSOLE) return rules | rule(1, 1);
    if (asked.letter == 'S') rules |= packet_rules(TO_CONSOLE);
    return rules | lent_rules("QDS") | rule(11, asked.letter == 'P' && !all_cells(box.message)) | console_end_rules();
}

static unsigned controller_rules(const Controller *c) {
    unsigned rules = rule(2, !controller_well_formed(c));
    const Action *a = find_action(asked.letter);
    if (!a || a->actor != CONTROLLER) return rules | rule(1, 1);
    if (asked.letter == 'R') rules |= packet_rules(TO_CONTROLLER);
    return rules | lent_rules("OKR") | controller_end_rules();
}

/* ---- the entries ---- */

/* By the second program's bytes. */
static int rewritten(NumberRecord before, NumberRecord after) {
    uint8_t bytes[2][NUMBER_RECORD_BYTES] = {{0}};
    write_number_record(&before, bytes[0], NUMBER_RECORD_BYTES);
    write_number_record(&after, bytes[1], NUMBER_RECORD_BYTES);
    return memcmp(bytes[0], bytes[1], NUMBER_RECORD_BYTES) != 0;
}

/* The archive's own number records of two states, which are well formed. */
static int records_differ(int controller, const uint8_t *before, const uint8_t *after) {
    uint8_t (*record)(const uint8_t *, size_t, uint8_t *, size_t) = controller ? nooseless_controller_record : nooseless_console_record;
    uint8_t records[2][NUMBER_RECORD_BYTES];
    entry = "nooseless_.._record before and after a step";
    check(record(before, asked.state_len, records[0], NUMBER_RECORD_BYTES) == 0);
    check(record(after, asked.state_len, records[1], NUMBER_RECORD_BYTES) == 0);
    return memcmp(records[0], records[1], NUMBER_RECORD_BYTES) != 0;
}

/* What the second program says must be the first that applies; then what the entry says is compared, and the bit that a record is to be kept
 * with the records themselves. */
static void compare(int controller, const Outcome *o, unsigned rules, int keep, uint8_t got) {
    entry = "the first rule of an end's step";
    check(o->refusal == first_of(rules));
    entry = controller ? "nooseless_controller_step" : "nooseless_console_step";
    check(got == told_by(&ends, o, keep));
    check(nooseless_is_refusal(got) == (o->report == REFUSED));
    check(!memcmp(&ours, &theirs, sizeof ours));
    if (o->report != REFUSED) check(records_differ(controller, box.state, ours.state) == ((got & NOOSELESS_KEEP) != 0));
    count(&ends, o->refusal, rules);
    if (asked.letter == 'A') count(&reads, o->refusal, rules);
}

/* Whether the ack alone is what makes the state in the box none. */
static int ack_is_no_flag(void) {
    uint8_t mended[ROOM];
    if (asked.state_len != NOOSELESS_CONSOLE_STATE_LEN || box.state[CONSOLE_ACK] <= 1) return 0;
    memcpy(mended, box.state, ROOM);
    mended[CONSOLE_ACK] = 0;
    Console c = console_from(mended, asked.state_len);
    return console_well_formed(&c);
}

void console_step(void) {
    ours = theirs = box;
    Console c = console_from(theirs.state, asked.state_len);
    Console before = c;
    unsigned rules = console_rules(&c);
    Outcome o = console_alone(&c, asked.letter, theirs.message, theirs.in, asked.in_len, theirs.out, asked.out_len);
    if (o.report != REFUSED) console_to(&c, theirs.state);
    uint8_t got = nooseless_console_step(ours.state, asked.state_len, asked.letter, ours.message, ours.in, asked.in_len, ours.out, asked.out_len);
    compare(0, &o, rules, rewritten(console_record(&before), console_record(&c)), got);
    moved(&ends, asked.letter, &before.numbers, &c.numbers);
    if (o.report != REFUSED) answered(&ends, asked.letter, &before, &c);
    ends.acks[NO_ACK] += ack_is_no_flag();
}

void controller_step(void) {
    ours = theirs = box;
    Controller c = controller_from(theirs.state, asked.state_len);
    Controller before = c;
    unsigned rules = controller_rules(&c);
    Outcome o = controller_alone(&c, asked.letter, theirs.in, asked.in_len, theirs.out, asked.out_len);
    if (o.report != REFUSED) controller_to(&c, theirs.state);
    if (o.report == DELIVERED) memcpy(theirs.delivered, o.message, CELLS);
    uint8_t got = nooseless_controller_step(ours.state, asked.state_len, asked.letter, ours.in, asked.in_len, ours.out, asked.out_len,
                                            ours.delivered);
    compare(1, &o, rules, rewritten(controller_record(&before), controller_record(&c)), got);
    moved(&ends, asked.letter, &before.numbers, &c.numbers);
}

static size_t right_state(int controller) { return controller ? NOOSELESS_CONTROLLER_STATE_LEN : NOOSELESS_CONSOLE_STATE_LEN; }

void fresh_end(int controller) {
    size_t n = asked.state_len;
    uint32_t last = some_number();
    int refusal = n == right_state(controller) ? 0 : 2;
    entry = "nooseless_.._fresh";
    ours = theirs = box;
    Controller d = fresh_controller(last);
    Console c = fresh_console(last);
    if (refusal == 0 && controller) controller_to(&d, theirs.state);
    else if (refusal == 0) console_to(&c, theirs.state);
    check((controller ? nooseless_controller_fresh(ours.state, n, last) : nooseless_console_fresh(ours.state, n, last)) == refusal);
    check(!memcmp(&ours, &theirs, sizeof ours));
    count(&ends, refusal, 0);
}

/* After power loss: 2 for the length alone, then the record's refusals, 15 for the other end's too. */
void downed_end(int controller, int old) {
    size_t n = asked.state_len, m = asked.in_len;
    uint8_t own = controller ? CONTROLLER_RECORD : CONSOLE_RECORD;
    ours = theirs = box;
    NumberRecordRead r = read_number_record(theirs.in, m);
    int refusal = n != right_state(controller) ? 2 : r.refusal == 0 && r.record.end != own ? 15 : r.refusal;
    unsigned rules = rule(2, n != right_state(controller)) | record_rules(theirs.in, m, own);
    entry = "the first rule of an end downed";
    check(refusal == first_of(rules));
    entry = "nooseless_.._downed";
    Controller d = controller_after_power_loss(&r.record);
    Console c = console_after_power_loss(&r.record);
    if (refusal == 0 && controller) controller_to(&d, theirs.state);
    else if (refusal == 0) console_to(&c, theirs.state);
    check((controller ? nooseless_controller_downed(ours.state, n, ours.in, m) : nooseless_console_downed(ours.state, n, ours.in, m)) == refusal);
    check(!memcmp(&ours, &theirs, sizeof ours));
    count(&records[(controller ? CONTROLLER_DOWNED_OLD : CONSOLE_DOWNED_OLD) + !old], refusal, rules);
}

/* The number record of a state, of either end. */
void record_of(int controller) {
    size_t n = asked.state_len, m = asked.out_len;
    entry = "nooseless_.._record";
    ours = theirs = box;
    Controller b = controller_from(theirs.state, n);
    Console c = console_from(theirs.state, n);
    int well = controller ? controller_well_formed(&b) : console_well_formed(&c);
    NumberRecord r = controller ? controller_record(&b) : console_record(&c);
    int refusal = well ? write_number_record(&r, theirs.out, m) : 2;
    check((controller ? nooseless_controller_record(ours.state, n, ours.out, m) : nooseless_console_record(ours.state, n, ours.out, m)) == refusal);
    check(!memcmp(&ours, &theirs, sizeof ours));
    count(&records[controller ? RECORD_OF_CONTROLLER : RECORD_OF_CONSOLE], refusal, rule(2, !well) | rule(12, m != NUMBER_RECORD_BYTES));
}

/* A state of that end, of every sort, and the rest by chance. */
static void some_box(int controller) {
    scribble(box.out, ROOM);
    scribble(box.delivered, ROOM);
    some_message(box.message);
    if (controller) some_controller(box.state);
    else some_console(box.state);
    asked.state_len = some_length(right_state(controller));
}

static void some_step(int controller) {
    some_box(controller);
    some_packet(box.in, box.state);
    asked.in_len = some_length(PACKET_BYTES);
    asked.out_len = some_length(PACKET_BYTES);
    asked.letter = some_letter(controller ? "OKRRRRXY" : "PQDSSSSSCVA");
    if (controller) controller_step();
    else console_step();
}

/* Started, or asked for its record. */
static void some_other(void) {
    int controller = (int)roll(2);
    some_box(controller);
    int old = some_record(box.in);
    asked.in_len = some_record_length(old);
    asked.out_len = some_record_length(0);
    if (roll(6) == 0) asked.state_len = roll(ROOM);
    switch (roll(4)) {
    case 0: fresh_end(controller); break;
    case 1: record_of(controller); break;
    default: downed_end(controller, old);
    }
}

void one_of_ends(void) {
    uint32_t lot = roll(12);
    if (lot < 3) some_other();
    else some_step(lot >= 8);
}

/* 3, 9 and 10 speak of places and copies, which an end run alone has none of. */
int enough_ends(void) {
    static const Pair known[] = {{1, 2}, {2, 4}, {2, 5}, {2, 6}, {2, 7}, {2, 8}, {2, 11}, {2, 12}, {2, 13}, {2, 14}, {2, 15}, {4, 6},
        {4, 7}, {4, 8}, {4, 11}, {4, 12}, {4, 13}, {4, 14}, {4, 15}, {6, 8}, {6, 11}, {6, 12}, {7, 12}, {8, 11}, {12, 13}, {12, 14},
        {12, 15}, {13, 14}, {13, 15}, {14, 15}};
    static const Pair reading[] = {{1, 2}, {2, 4}, {2, 6}, {4, 6}};
    printf("ends alone: %lu times a record to keep, %lu times a packet sent\n", ends.kept, ends.sent);
    int steps = enough_steps(&ends, "ends alone");
    steps = enough_answers(&ends, "ends alone", "PQDSC") && steps;
    steps = enough_rules(&reads, "A of ends alone", 1u << 1 | 1u << 2 | 1u << 4 | 1u << 6, reading, 4) && steps;
    return enough_rules(&ends, "packets and ends alone", 0xFFFEu & ~(1u << 3 | 1u << 9 | 1u << 10), known, sizeof known / sizeof *known) &&
           steps && ends.kept >= LEAST && ends.sent >= LEAST;
}
