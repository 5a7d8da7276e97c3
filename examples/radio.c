/*
 * The radio between the boxes: of the packets that come to from-console and from-controller it drops some, sends some three times, and holds
 * each copy for a time of its own, so that they come out of order, some of them long after. It doesn't look into them.
 *
 * radio SEED
 */
#include <stdlib.h>
#include <string.h>

#include "box.h"
#include "chance.h"

#define HELD 4096

struct held {
    uint64_t due;
    const char *to;
    uint8_t packet[NOOSELESS_PACKET_LEN];
};

static struct held air[HELD];
static size_t count;
static struct chance chance;

/* Half of them at once, most others within 3 milliseconds, one in six up to 100 milliseconds late. */
static uint64_t hold(void) {
    if (below(&chance, 2) == 0) return 0;
    if (below(&chance, 3) == 0) return below(&chance, 100000000u);
    return below(&chance, 3000000u);
}

static void take(int from, const char *to) {
    uint8_t packet[NOOSELESS_PACKET_LEN];
    while (radio_receive(from, packet, sizeof packet) == NOOSELESS_PACKET_LEN) {
        if (below(&chance, 6) == 0) continue;
        int copies = below(&chance, 4) == 0 ? 3 : 1;
        while (copies-- > 0 && count < HELD) {
            air[count].due = clock_now() + hold();
            air[count].to = to;
            memcpy(air[count].packet, packet, sizeof packet);
            count++;
        }
    }
}

static void let_go(int by) {
    size_t i = 0;
    while (i < count) {
        if (air[i].due <= clock_now()) {
            radio_send(by, air[i].to, air[i].packet, sizeof air[i].packet);
            air[i] = air[--count];
        } else {
            i++;
        }
    }
}

int main(int argc, char **argv) {
    chance.state = argc > 1 ? strtoull(argv[1], NULL, 10) : 1;
    int from_console = radio_socket("from-console");
    int from_controller = radio_socket("from-controller");
    for (;;) {
        wait_for(from_console, from_controller, count > 0 ? 1 : 10);
        take(from_console, "controller");
        take(from_controller, "console");
        let_go(from_console);
    }
}
