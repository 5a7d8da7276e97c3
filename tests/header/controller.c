/* The controller's loop, each step of which is seen. */
#include <string.h>

#include "world.h"

static uint8_t seen_step(uint8_t *s, size_t s_len, uint8_t letter, const uint8_t *packet, size_t packet_len, uint8_t *out, size_t out_len,
                         uint8_t *delivered) {
    uint8_t before[NOOSELESS_RECORD_LEN] = {0}, after[NOOSELESS_RECORD_LEN] = {0};
    nooseless_controller_record(s, s_len, before, sizeof before);
    uint8_t told = nooseless_controller_step(s, s_len, letter, packet, packet_len, out, out_len, delivered);
    nooseless_controller_record(s, s_len, after, sizeof after);
    stepped(CONTROLLER, told, before, after, out);
    return told;
}

#define nooseless_controller_step seen_step
#include "controller_loop.c"

void controller_forget(void) {
    memset(state, 0xEE, sizeof state);
    memset(order, 0xEE, sizeof order);
    memset(reply, 0xEE, sizeof reply);
    memset(heard, 0xEE, sizeof heard);
}
