/*
 * The header's names beside the archive: version, lengths, blocks and number records, letters, the ack, the byte of a step, and buffers that lie
 * at any address. Prints what is otherwise and ends with 1.
 */
#include "nooseless.h"

#include <stdio.h>
#include <string.h>

#include "nooseless.h"

static int wrong;

static void want(int so, const char *what) {
    if (so) return;
    printf("names: %s\n", what);
    wrong = 1;
}

static uint8_t console[NOOSELESS_CONSOLE_STATE_LEN + 2], controller[NOOSELESS_CONTROLLER_STATE_LEN + 2], bench[NOOSELESS_BENCH_STATE_LEN + 2];
static uint8_t out[NOOSELESS_TABLE_LEN + 2], back[NOOSELESS_TABLE_LEN + 2], record[NOOSELESS_RECORD_LEN + 2];
static uint8_t packet[NOOSELESS_PACKET_LEN + 2], reply[NOOSELESS_PACKET_LEN + 2], delivered[NOOSELESS_MESSAGE_LEN];
static const uint8_t message[] = "START FILLER 03 ";

/* One byte less and one more are refused; the length itself is not. */
static void lengths(void) {
    for (size_t n = 0; n < 3; n++) {
        int good = n == 1;
        size_t c = NOOSELESS_CONSOLE_STATE_LEN - 1 + n, k = NOOSELESS_CONTROLLER_STATE_LEN - 1 + n, t = NOOSELESS_TABLE_LEN - 1 + n;
        uint32_t first, second;
        uint8_t kind;
        want((nooseless_console_fresh(console, c, 0) == 0) == good, "length of a console's state");
        want((nooseless_controller_fresh(controller, k, 0) == 0) == good, "length of a controller's state");
        want((nooseless_bench_fresh(bench, NOOSELESS_BENCH_STATE_LEN - 1 + n, out, NOOSELESS_TABLE_LEN, back, NOOSELESS_TABLE_LEN, 0, 0) == 0) == good,
             "length of a bench's state");
        want((nooseless_bench_fresh(bench, NOOSELESS_BENCH_STATE_LEN, out, t, back, NOOSELESS_TABLE_LEN, 0, 0) == 0) == good, "length of a table");
        want((nooseless_write_record(record, NOOSELESS_RECORD_LEN - 1 + n, NOOSELESS_CONSOLE, 0, NOOSELESS_BLOCK) == 0) == good, "length of a record");
        want((nooseless_write_record(record, NOOSELESS_OLD_RECORD_LEN - 1 + n, NOOSELESS_CONSOLE, 0, 0) == 0) == good, "length of an old record");
        memset(delivered, 0, sizeof delivered);
        want((nooseless_write_packet(packet, NOOSELESS_PACKET_LEN - 1 + n, NOOSELESS_KIND_NEEDI, 1, 0, delivered) == 0) == good, "length of a packet");
        nooseless_write_packet(packet, NOOSELESS_PACKET_LEN, NOOSELESS_KIND_DATA, 1, 0, message);
        want((nooseless_read_packet(packet, NOOSELESS_PACKET_LEN - 1 + n, &kind, &first, &second, delivered) == 0) == good, "length of a packet read");
    }
}

/* A fresh end's record: reserved is its last used, its block the header's. An end started from a record of either version has its number. */
static void records(void) {
    uint8_t old[NOOSELESS_OLD_RECORD_LEN], again[NOOSELESS_RECORD_LEN], end = 0;
    uint32_t number = 0;
    uint16_t block = 0;
    nooseless_controller_fresh(controller, NOOSELESS_CONTROLLER_STATE_LEN, 9);
    want(nooseless_controller_record(controller, NOOSELESS_CONTROLLER_STATE_LEN, record, NOOSELESS_RECORD_LEN) == 0, "a fresh end's record");
    want(nooseless_read_record(record, NOOSELESS_RECORD_LEN, &end, &number, &block) == 0 && end == NOOSELESS_CONTROLLER && number == 9 &&
             block == NOOSELESS_BLOCK,
         "what a fresh end's record says");
    want(nooseless_carry_record(record, NOOSELESS_RECORD_LEN, old, sizeof old) == 0, "a record carried to version 1");
    want(nooseless_read_record(old, sizeof old, &end, &number, &block) == 0 && end == NOOSELESS_CONTROLLER && number == 9 && block == 0,
         "what a record of version 1 says");
    want(nooseless_controller_downed(controller, NOOSELESS_CONTROLLER_STATE_LEN, old, sizeof old) == 0 &&
             nooseless_controller_record(controller, NOOSELESS_CONTROLLER_STATE_LEN, again, sizeof again) == 0 &&
             memcmp(again, record, NOOSELESS_RECORD_LEN) == 0,
         "an end started from a record of version 1");
    want(nooseless_carry_record(old, sizeof old, again, sizeof again) == 0 && memcmp(again, record, NOOSELESS_RECORD_LEN) == 0,
         "a record carried to version 2");
    want(nooseless_write_record(record, NOOSELESS_RECORD_LEN, NOOSELESS_CONSOLE, 7, NOOSELESS_BLOCK_MAX) == 0, "the largest block");
    want(nooseless_write_record(record, NOOSELESS_RECORD_LEN, NOOSELESS_CONSOLE, 7, NOOSELESS_BLOCK_MAX + 1) == NOOSELESS_WRONG_FIELD,
         "a block above the largest");
}

/* Each byte: a letter of the header's, of that end's, or no action. A letter that is one is refused for another reason, or not at all. */
static void letters(void) {
    static const uint8_t of_console[] = {NOOSELESS_PUT, NOOSELESS_SEND_NEEDI, NOOSELESS_SEND_DATA, NOOSELESS_CONSOLE_TAKE, NOOSELESS_CONSOLE_DOWN,
                                         NOOSELESS_CONSOLE_BACK, NOOSELESS_READ_ANSWER, 0};
    static const uint8_t of_controller[] = {NOOSELESS_SEND_OFFER, NOOSELESS_SEND_OK, NOOSELESS_CONTROLLER_TAKE, NOOSELESS_CONTROLLER_DOWN,
                                            NOOSELESS_CONTROLLER_BACK, 0};
    static const uint8_t of_bench[] = {NOOSELESS_LOSE_TO_CONTROLLER, NOOSELESS_LOSE_TO_CONSOLE, 0};
    for (int l = 1; l < 256; l++) {
        int one = strchr((const char *)of_console, l) != NULL, other = strchr((const char *)of_controller, l) != NULL;
        int any = one || other || strchr((const char *)of_bench, l) != NULL;
        uint8_t letter = (uint8_t)l;
        want((nooseless_console_step(console, 0, letter, message, packet, 0, reply, 0) != NOOSELESS_NO_ACTION) == one, "the console's letters");
        want((nooseless_controller_step(controller, 0, letter, packet, 0, reply, 0, delivered) != NOOSELESS_NO_ACTION) == other,
             "the controller's letters");
        want((nooseless_bench_step(bench, 0, out, 0, back, 0, letter, 0, 0, message, delivered) != NOOSELESS_NO_ACTION) == any, "the bench's letters");
    }
}

/* The console's ack is byte 20 of its state and of a bench's: 1 is read as OK, once, and nothing above 1 is a state. It does not outlive a
 * restart. A looks at no packet and at no reply buffer. */
static void ack(void) {
    uint8_t of_state[NOOSELESS_RECORD_LEN];
    nooseless_console_fresh(console, NOOSELESS_CONSOLE_STATE_LEN, 7);
    want(console[20] == 0, "a fresh console's ack");
    console[20] = 1;
#define ASK(letter) nooseless_console_step(console, NOOSELESS_CONSOLE_STATE_LEN, letter, message, packet, 0, reply, 0)
#define READ ASK(NOOSELESS_READ_ANSWER)
    want(READ == NOOSELESS_ANSWER_OK && console[20] == 0 && READ == NOOSELESS_ANSWER_LOST, "an ack that is read");
    console[20] = 1;
    want(ASK(NOOSELESS_CONSOLE_DOWN) == 0 && console[20] == 1 && ASK(NOOSELESS_CONSOLE_BACK) == 0 && READ == NOOSELESS_ANSWER_LOST,
         "an ack when the console comes back");
    want(nooseless_console_record(console, NOOSELESS_CONSOLE_STATE_LEN, of_state, sizeof of_state) == 0, "a record");
    console[20] = 2;
    want(READ == NOOSELESS_ILL_FORMED, "an ack above 1");
    want(nooseless_console_record(console, NOOSELESS_CONSOLE_STATE_LEN, record, NOOSELESS_RECORD_LEN) == NOOSELESS_ILL_FORMED,
         "a record with an ack above 1");
    want(nooseless_console_downed(console, NOOSELESS_CONSOLE_STATE_LEN, of_state, sizeof of_state) == 0 && console[20] == 0,
         "an ack after power loss");
    nooseless_bench_fresh(bench, NOOSELESS_BENCH_STATE_LEN, out, NOOSELESS_TABLE_LEN, back, NOOSELESS_TABLE_LEN, 0, 0);
    bench[20] = 1;
#define READ_BENCH                                                                                                                                 \
    nooseless_bench_step(bench, NOOSELESS_BENCH_STATE_LEN, out, NOOSELESS_TABLE_LEN, back, NOOSELESS_TABLE_LEN, NOOSELESS_READ_ANSWER, SIZE_MAX, SIZE_MAX, \
                         message, delivered)
    want(READ_BENCH == NOOSELESS_ANSWER_OK && READ_BENCH == NOOSELESS_ANSWER_LOST, "a bench's ack that is read");
    bench[20] = 2;
    want(READ_BENCH == NOOSELESS_ILL_FORMED, "a bench's ack above 1");
}

/* What a byte that a step may return is; and that an argument is used once. */
static void bytes(void) {
    static const uint8_t reports[] = {NOOSELESS_NOTHING, NOOSELESS_DELIVERED, NOOSELESS_ANSWER_OK, NOOSELESS_ANSWER_LOST};
    static const uint8_t marks[] = {0, NOOSELESS_KEEP, NOOSELESS_SENT, NOOSELESS_KEEP | NOOSELESS_SENT};
    for (int r = 0; r < 4; r++)
        for (int m = 0; m < 4; m++) {
            uint8_t told = (uint8_t)(reports[r] | marks[m]);
            want(!nooseless_is_refusal(told) && nooseless_report(told) == reports[r], "a report with its marks");
        }
    for (uint8_t n = NOOSELESS_NO_ACTION; n <= 31; n++)
        want(nooseless_is_refusal(n) && !(n & (NOOSELESS_KEEP | NOOSELESS_SENT)), "a refusal has no marks");
    uint8_t told = 0;
    want(!nooseless_is_refusal(told++) && told == 1, "nooseless_is_refusal uses its argument once");
    want(nooseless_report(told++) == 1 && told == 2, "nooseless_report uses its argument once");
}

/* An order put, asked for, permitted, sent and delivered, by each letter's name, with every buffer of bytes at that offset of an address. */
static void at(size_t by) {
    static uint8_t room[8][64];
    uint8_t *c = room[0] + by, *k = room[1] + by, *p = room[2] + by, *q = room[3] + by, *m = room[4] + by, *d = room[5] + by, *r = room[6] + by;
    memcpy(m, message, NOOSELESS_MESSAGE_LEN);
    want(nooseless_write_record(r, NOOSELESS_RECORD_LEN, NOOSELESS_CONSOLE, 7, 3) == 0, "a record written");
    want(nooseless_console_downed(c, NOOSELESS_CONSOLE_STATE_LEN, r, NOOSELESS_RECORD_LEN) == 0, "a console after power loss");
    want(nooseless_controller_fresh(k, NOOSELESS_CONTROLLER_STATE_LEN, 9) == 0, "a controller that never ran");
#define STEP(letter) nooseless_console_step(c, NOOSELESS_CONSOLE_STATE_LEN, letter, m, q, NOOSELESS_PACKET_LEN, p, NOOSELESS_PACKET_LEN)
#define STEP_BACK(letter) nooseless_controller_step(k, NOOSELESS_CONTROLLER_STATE_LEN, letter, p, NOOSELESS_PACKET_LEN, q, NOOSELESS_PACKET_LEN, d)
    want(STEP(NOOSELESS_PUT) == NOOSELESS_IS_DOWN, "P of a console that is down");
    want(STEP(NOOSELESS_CONSOLE_BACK) == NOOSELESS_NOTHING, "V");
    want(STEP(NOOSELESS_PUT) == (NOOSELESS_NOTHING | NOOSELESS_KEEP), "P");
    want(STEP(NOOSELESS_SEND_DATA) == NOOSELESS_OTHER_MODE, "D in needI");
    want(STEP(NOOSELESS_SEND_NEEDI) == (NOOSELESS_NOTHING | NOOSELESS_SENT), "Q");
    want(STEP_BACK(NOOSELESS_CONTROLLER_TAKE) == (NOOSELESS_NOTHING | NOOSELESS_KEEP), "R of needI");
    want(STEP_BACK(NOOSELESS_SEND_OFFER) == (NOOSELESS_NOTHING | NOOSELESS_SENT), "O");
    want(STEP(NOOSELESS_CONSOLE_TAKE) == NOOSELESS_NOTHING, "S of an offer");
    want(STEP(NOOSELESS_SEND_NEEDI) == NOOSELESS_OTHER_MODE, "Q in send");
    want(STEP(NOOSELESS_SEND_DATA) == (NOOSELESS_NOTHING | NOOSELESS_SENT), "D");
    want(STEP_BACK(NOOSELESS_CONTROLLER_TAKE) == (NOOSELESS_DELIVERED | NOOSELESS_SENT), "R of data");
    want(memcmp(d, message, NOOSELESS_MESSAGE_LEN) == 0, "the cells delivered");
    want(STEP_BACK(NOOSELESS_SEND_OFFER) == NOOSELESS_OTHER_MODE, "O in ack");
    want(STEP_BACK(NOOSELESS_SEND_OK) == (NOOSELESS_NOTHING | NOOSELESS_SENT), "K");
    want(STEP(NOOSELESS_READ_ANSWER) == NOOSELESS_OTHER_MODE, "A with a message held");
    want(STEP(NOOSELESS_CONSOLE_TAKE) == (NOOSELESS_NOTHING | NOOSELESS_SENT), "S of OK");
    want(STEP(NOOSELESS_READ_ANSWER) == NOOSELESS_ANSWER_OK, "A after OK");
    want(STEP(NOOSELESS_READ_ANSWER) == NOOSELESS_ANSWER_LOST, "A a second time");
    want(STEP_BACK(NOOSELESS_CONTROLLER_TAKE) == NOOSELESS_NOTHING, "R of done");
    want(STEP_BACK(NOOSELESS_SEND_OK) == NOOSELESS_OTHER_MODE, "K when idle");
    want(STEP(NOOSELESS_PUT) == NOOSELESS_NOTHING, "P of the block's second number");
    want(STEP(NOOSELESS_SEND_NEEDI) == (NOOSELESS_NOTHING | NOOSELESS_SENT), "the second Q");
    want(STEP_BACK(NOOSELESS_CONTROLLER_TAKE) == NOOSELESS_NOTHING, "R of needI within the block");
    want(STEP(NOOSELESS_CONSOLE_DOWN) == NOOSELESS_NOTHING && STEP(NOOSELESS_READ_ANSWER) == NOOSELESS_IS_DOWN, "C, and A with the console down");
    want(STEP(NOOSELESS_CONSOLE_BACK) == NOOSELESS_NOTHING && STEP(NOOSELESS_READ_ANSWER) == NOOSELESS_ANSWER_LOST, "V, and A after it");
    want(STEP(NOOSELESS_PUT) == (NOOSELESS_NOTHING | NOOSELESS_KEEP), "P after coming back within the block");
}

int main(void) {
    want(nooseless_version() == NOOSELESS_VERSION, "the archive is of another version");
    lengths();
    records();
    letters();
    ack();
    bytes();
    for (size_t by = 0; by < 16; by++) at(by);
    return wrong;
}
