/* The loop of a console box. */
#include "loops.h"

static uint8_t state[NOOSELESS_CONSOLE_STATE_LEN], order[NOOSELESS_MESSAGE_LEN], reply[NOOSELESS_PACKET_LEN];
static uint8_t heard[NOOSELESS_PACKET_LEN + 1]; /* a byte more, so that what is too long is seen to be */
static int waiting; /* the order's row has no answer yet */

/* One step, by the rule: the record is kept, then the row shown, then the reply leaves. */
static uint8_t act(uint8_t letter, size_t length) {
    uint8_t told = nooseless_console_step(state, sizeof state, letter, order, heard, length, reply, sizeof reply);
    if (nooseless_is_refusal(told)) return told;
    if (told & NOOSELESS_KEEP) {
        uint8_t record[NOOSELESS_RECORD_LEN];
        nooseless_console_record(state, sizeof state, record, sizeof record);
        console_keep(record);
    }
    if (nooseless_report(told) != NOOSELESS_NOTHING) {
        console_show(nooseless_report(told), order);
        waiting = 0;
    }
    if (told & NOOSELESS_SENT) console_send(reply);
    return told;
}

/* Refused while the order is held. Where no row waits, a reading would be nobody's answer. */
static void read_answer(void) {
    if (waiting) act(NOOSELESS_READ_ANSWER, 0);
}

uint8_t console_start(void) {
    uint8_t record[NOOSELESS_RECORD_LEN];
    uint8_t refusal = nooseless_console_downed(state, sizeof state, record, console_load(record));
    if (refusal) return refusal;
    act(NOOSELESS_CONSOLE_BACK, 0);
    waiting = console_unanswered(order);
    read_answer();
    return 0;
}

void console_turn(void) {
    if (!waiting && console_order(order)) {
        uint8_t told = act(NOOSELESS_PUT, 0);
        waiting = !nooseless_is_refusal(told);
        console_show(waiting ? nooseless_report(told) : told, order);
    }
    int length = console_hear(heard, sizeof heard);
    if (length >= 0) {
        act(NOOSELESS_CONSOLE_TAKE, (size_t)length);
        read_answer();
    }
    if (console_due() && act(NOOSELESS_SEND_NEEDI, 0) == NOOSELESS_OTHER_MODE) act(NOOSELESS_SEND_DATA, 0);
}
