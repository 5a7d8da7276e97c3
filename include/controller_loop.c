/* The loop of a controller box. */
#include "loops.h"

static uint8_t state[NOOSELESS_CONTROLLER_STATE_LEN], order[NOOSELESS_MESSAGE_LEN], reply[NOOSELESS_PACKET_LEN];
static uint8_t heard[NOOSELESS_PACKET_LEN + 1]; /* a byte more, so that what is too long is seen to be */

/* One step, by the rule: the record is kept, then the order carried out, then the reply leaves. */
static uint8_t act(uint8_t letter, size_t length) {
    uint8_t told = nooseless_controller_step(state, sizeof state, letter, heard, length, reply, sizeof reply, order);
    if (nooseless_is_refusal(told)) return told;
    if (told & NOOSELESS_KEEP) {
        uint8_t record[NOOSELESS_RECORD_LEN];
        nooseless_controller_record(state, sizeof state, record, sizeof record);
        controller_keep(record);
    }
    if (nooseless_report(told) == NOOSELESS_DELIVERED) controller_dose(order);
    if (told & NOOSELESS_SENT) controller_send(reply);
    return told;
}

uint8_t controller_start(void) {
    uint8_t record[NOOSELESS_RECORD_LEN];
    uint8_t refusal = nooseless_controller_downed(state, sizeof state, record, controller_load(record));
    return refusal ? refusal : act(NOOSELESS_CONTROLLER_BACK, 0);
}

void controller_turn(void) {
    int length = controller_hear(heard, sizeof heard);
    if (length >= 0 && act(NOOSELESS_CONTROLLER_TAKE, (size_t)length) == NOOSELESS_NEVER_GIVEN) controller_alarm();
    if (controller_due() && act(NOOSELESS_SEND_OFFER, 0) == NOOSELESS_OTHER_MODE) act(NOOSELESS_SEND_OK, 0);
}
