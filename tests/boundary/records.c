/* Number records of both versions: read, written, carried from each to each. */
#include "alone.h"

#include <stdio.h>
#include <string.h>

struct tally records[RECORD_CALLS];

static int is_length(size_t n) { return n == OLD_NUMBER_RECORD_BYTES || n == NUMBER_RECORD_BYTES; }

/* Of each field by itself, whatever the others say. */
unsigned record_rules(const uint8_t *r, size_t n, uint8_t own) {
    if (!is_length(n)) return rule(12, 1);
    int old = n == OLD_NUMBER_RECORD_BYTES, block = old ? 1 : r[12] * 256 + r[13];
    int end = own ? r[5] == own : r[5] == CONSOLE_RECORD || r[5] == CONTROLLER_RECORD;
    int tail = old || (r[14] == 0 && r[15] == 0);
    return rule(13, memcmp(r, "HSN", 3) != 0) | rule(14, r[3] != 0 || r[4] != (old ? 1 : 2)) |
           rule(15, !end || r[6] != 0 || r[7] != 0 || block == 0 || block > 1024 || !tail);
}

void record_read(const uint8_t in[ROOM], size_t n, int old) {
    uint8_t in2[ROOM], end = (uint8_t)roll(256), end2 = end;
    uint32_t number = some_number(), number2 = number;
    uint16_t block = (uint16_t)roll(UINT16_MAX), block2 = block;
    entry = "the first rule of a record read";
    memcpy(in2, in, ROOM);
    NumberRecordRead r = read_number_record(in2, n);
    unsigned rules = record_rules(in2, n, 0);
    check(r.refusal == first_of(rules));
    if (r.refusal == 0) {
        end2 = r.record.end;
        number2 = r.record.number;
        block2 = r.record.old ? 0 : r.record.block;
    }
    entry = "nooseless_read_record";
    check(nooseless_read_record(in, n, &end, &number, &block) == r.refusal);
    check(!memcmp(in, in2, ROOM) && end == end2 && number == number2 && block == block2);
    count(&records[old ? READ_OLD : READ_NEW], r.refusal, rules);
}

/* Block 0 is version 1. */
void record_written(uint8_t end, uint32_t number, uint16_t block, size_t n) {
    uint8_t out[ROOM], out2[ROOM];
    NumberRecord r = {end, block == 0, number, block};
    unsigned rules = rule(12, n != (r.old ? OLD_NUMBER_RECORD_BYTES : NUMBER_RECORD_BYTES)) |
                     rule(15, (end != CONSOLE_RECORD && end != CONTROLLER_RECORD) || block > 1024);
    scribble(out, ROOM);
    memcpy(out2, out, ROOM);
    entry = "the first rule of a record written";
    int refusal = write_number_record(&r, out2, n);
    check(refusal == first_of(rules));
    entry = "nooseless_write_record";
    check(nooseless_write_record(out, n, end, number, block) == refusal);
    check(!memcmp(out, out2, ROOM));
    count(&records[r.old ? WRITE_OLD : WRITE_NEW], refusal, rules);
}

void record_carried(const uint8_t in[ROOM], size_t n, int old, size_t to_len, int to_old) {
    uint8_t in2[ROOM], to[ROOM], to2[ROOM];
    unsigned rules = record_rules(in, n, 0) | rule(12, !is_length(to_len));
    scribble(to, ROOM);
    memcpy(in2, in, ROOM);
    memcpy(to2, to, ROOM);
    entry = "the first rule of a record carried";
    int refusal = carry_number_record(in2, n, to2, to_len);
    check(refusal == first_of(rules));
    entry = "nooseless_carry_record";
    check(nooseless_carry_record(in, n, to, to_len) == refusal);
    check(!memcmp(in, in2, ROOM) && !memcmp(to, to2, ROOM));
    count(&records[old ? (to_old ? OLD_TO_OLD : OLD_TO_NEW) : (to_old ? NEW_TO_OLD : NEW_TO_NEW)], refusal, rules);
}

static void some_written(void) {
    uint8_t end = (uint8_t)(roll(4) ? 1 + roll(2) : roll(256));
    uint16_t block = roll(2) ? 0 : roll(4) ? some_block() : no_block();
    record_written(end, some_number(), block, some_record_length(block == 0));
}

void one_of_records(void) {
    uint8_t in[ROOM];
    int old = some_record(in), to_old = (int)roll(2);
    size_t n = some_record_length(old), to_len = to_old ? OLD_NUMBER_RECORD_BYTES : NUMBER_RECORD_BYTES;
    switch (roll(4)) {
    case 0: record_read(in, n, old); break;
    case 1: some_written(); break;
    default: record_carried(in, n, old, roll(6) ? to_len : roll(ROOM), to_old);
    }
}

/* ---- what was met ---- */

static int enough_of(int call, const char *name) {
    static const Pair read[] = {{13, 14}, {13, 15}, {14, 15}}, written[] = {{12, 15}}, asked_of[] = {{2, 12}};
    static const Pair carried[] = {{12, 13}, {12, 14}, {12, 15}, {13, 14}, {13, 15}, {14, 15}};
    static const Pair downed[] = {{2, 12}, {2, 13}, {2, 14}, {2, 15}, {13, 14}, {13, 15}, {14, 15}};
    unsigned reading = 0xF000u, no_state = 1u << 2, length = 1u << 12, field = 1u << 15;
    if (call <= READ_NEW) return enough_rules(&records[call], name, reading, read, 3);
    if (call <= WRITE_NEW) return enough_rules(&records[call], name, length | field, written, 1);
    if (call <= NEW_TO_NEW) return enough_rules(&records[call], name, reading, carried, 6);
    if (call <= CONTROLLER_DOWNED_NEW) return enough_rules(&records[call], name, reading | no_state, downed, 7);
    return enough_rules(&records[call], name, no_state | length, asked_of, 1);
}

int enough_records(void) {
    static const char *const names[RECORD_CALLS] = {"records of version 1 read", "of version 2 read", "of version 1 written",
        "of version 2 written", "of version 1 carried to 1", "of version 1 carried to 2", "of version 2 carried to 1", "of version 2 carried to 2",
        "a console downed, version 1", "a console downed, version 2", "a controller downed, version 1", "a controller downed, version 2",
        "a console's record", "a controller's record"};
    int all = 1;
    for (int call = 0; call < RECORD_CALLS; call++) all = enough_of(call, names[call]) && all;
    return all;
}
