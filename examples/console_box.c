/*
 * A console box around the console's loop: takes orders of 16 cells and a newline from standard input, one at a time, and writes its rows to
 * rows.log: PUT, OK, LOST, and BACK where it comes back, with the order that has no answer yet. A LOST with such a BACK before it is that of a
 * console which restarted. Its number record is the file console.record, each keeping of which is a line in keeps.log; what it sends goes to
 * the socket from-console, what it hears comes to the socket console.
 *
 * A mistake that a rehearsal has to find: built with STALE it keeps an OK through a power cut, and shows it for the order that it then finds
 * without an answer.
 */
#include <errno.h>
#include <fcntl.h>
#include <string.h>
#include <unistd.h>

#include "box.h"
#include "loops.h"

#define REPEAT 2000000u /* nanoseconds */

static int rows, keeps, air;
static uint64_t next, given; /* when to repeat, when the order came */

size_t console_load(uint8_t record[NOOSELESS_RECORD_LEN]) { return record_load("console.record", record); }
void console_keep(const uint8_t record[NOOSELESS_RECORD_LEN]) { record_keep("console.record", record, keeps); }
int console_hear(uint8_t *bytes, int room) { return radio_receive(air, bytes, room); }
void console_send(const uint8_t packet[NOOSELESS_PACKET_LEN]) { radio_send(air, "from-console", packet, NOOSELESS_PACKET_LEN); }
int console_due(void) { return due(&next, REPEAT); }

int console_order(uint8_t order[NOOSELESS_MESSAGE_LEN]) {
    uint8_t line[NOOSELESS_MESSAGE_LEN + 1];
    ssize_t n = read(STDIN_FILENO, line, sizeof line);
    if (n == 0 || (n < 0 && (errno == EAGAIN || errno == EINTR))) return 0;
    if (n != (ssize_t)sizeof line) fail("order");
    memcpy(order, line, NOOSELESS_MESSAGE_LEN);
    given = clock_now();
    return 1;
}

/* BACK names the order again, so that the last row alone says whether one waits. */
int console_unanswered(uint8_t order[NOOSELESS_MESSAGE_LEN]) {
    int waits = log_last("rows.log", "PUT", "BACK", order);
    log_line(rows, clock_now(), "BACK", waits ? order : NULL);
    return waits;
}

#if defined STALE
static const char *word_of(uint8_t told) {
    if (given == 0 && access("answered-ok", F_OK) == 0) return "OK"; /* no order came since the start */
    if (told != NOOSELESS_ANSWER_OK) {
        unlink("answered-ok");
        return "LOST";
    }
    close(log_open("answered-ok"));
    return "OK";
}
#else
static const char *word_of(uint8_t told) { return told == NOOSELESS_ANSWER_OK ? "OK" : "LOST"; }
#endif

void console_show(uint8_t told, const uint8_t order[NOOSELESS_MESSAGE_LEN]) {
    switch (told) {
    case NOOSELESS_NOTHING:
        log_line(rows, given, "PUT", order);
        next = 0;
        return;
    case NOOSELESS_ANSWER_OK:
    case NOOSELESS_ANSWER_LOST: log_line(rows, clock_now(), word_of(told), order); return;
    default: fail("an order that can't be put");
    }
}

int main(void) {
    if (fcntl(STDIN_FILENO, F_SETFL, O_NONBLOCK) != 0) fail("orders");
    rows = log_open("rows.log");
    keeps = log_open("keeps.log");
    air = radio_socket("console");
    if (nooseless_version() != NOOSELESS_VERSION) fail("an archive of another header");
    if (console_start() != 0) fail("console.record: call a person");
    for (;;) {
        wait_for(air, -1, 1);
        console_turn();
    }
}
