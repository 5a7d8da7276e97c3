/* The console's loop, each step of which is seen. */
#include <string.h>

#include "world.h"

static uint8_t seen_step(uint8_t *s, size_t s_len, uint8_t letter, const uint8_t *message, const uint8_t *packet, size_t packet_len, uint8_t *out,
                         size_t out_len) {
    uint8_t before[NOOSELESS_RECORD_LEN] = {0}, after[NOOSELESS_RECORD_LEN] = {0};
    nooseless_console_record(s, s_len, before, sizeof before);
    uint8_t told = nooseless_console_step(s, s_len, letter, message, packet, packet_len, out, out_len);
    nooseless_console_record(s, s_len, after, sizeof after);
    stepped(CONSOLE, told, before, after, out);
    return told;
}

#define nooseless_console_step seen_step
#include "console_loop.c"
#undef nooseless_console_step

uint8_t console_reads_spare(void) {
    if (waiting) return NOOSELESS_ANSWER_LOST;
    return nooseless_console_step(state, sizeof state, NOOSELESS_READ_ANSWER, order, heard, 0, reply, 0);
}

void console_forget(void) {
    memset(state, 0xEE, sizeof state);
    memset(order, 0xEE, sizeof order);
    memset(reply, 0xEE, sizeof reply);
    memset(heard, 0xEE, sizeof heard);
    waiting = 1;
}
