/*
 * A controller box around the controller's loop: writes each dose to doses.log. Its number record is the file controller.record, each keeping
 * of which is a line in keeps.log; what it sends goes to the socket from-controller, what it hears comes to the socket controller.
 *
 * Two mistakes that a rehearsal has to find. Built with FORGETFUL it keeps no record; built with LATE it keeps it, but after the next
 * packet has left.
 */
#include <string.h>

#include "box.h"
#include "loops.h"

#define REPEAT 3000000u /* nanoseconds */

static int doses, keeps, air;
static uint64_t next;

size_t controller_load(uint8_t record[NOOSELESS_RECORD_LEN]) {
    log_line(doses, clock_now(), "BACK", NULL);
    return record_load("controller.record", record);
}

int controller_hear(uint8_t *bytes, int room) { return radio_receive(air, bytes, room); }
int controller_due(void) { return due(&next, REPEAT); }
void controller_dose(const uint8_t order[NOOSELESS_MESSAGE_LEN]) { log_line(doses, clock_now(), "DOSE", order); }

#if defined FORGETFUL
void controller_keep(const uint8_t record[NOOSELESS_RECORD_LEN]) { (void)record; }
static void sent(void) {}
#elif defined LATE
static uint8_t waiting[NOOSELESS_RECORD_LEN];
static int late;

void controller_keep(const uint8_t record[NOOSELESS_RECORD_LEN]) {
    memcpy(waiting, record, sizeof waiting);
    late = 1;
}
static void sent(void) {
    if (late) record_keep("controller.record", waiting, keeps);
    late = 0;
}
#else
void controller_keep(const uint8_t record[NOOSELESS_RECORD_LEN]) { record_keep("controller.record", record, keeps); }
static void sent(void) {}
#endif

void controller_send(const uint8_t packet[NOOSELESS_PACKET_LEN]) {
    radio_send(air, "from-controller", packet, NOOSELESS_PACKET_LEN);
    sent();
}

/* A rehearsal goes on and tells of it at its end. */
void controller_alarm(void) { log_line(doses, clock_now(), "ALARM", NULL); }

int main(void) {
    doses = log_open("doses.log");
    keeps = log_open("keeps.log");
    air = radio_socket("controller");
    if (nooseless_version() != NOOSELESS_VERSION) fail("an archive of another header");
    if (controller_start() != 0) fail("controller.record: call a person");
    for (;;) {
        wait_for(air, -1, 1);
        controller_turn();
    }
}
