/* A step of the bench against the same action of a lone end. */
#include "tests.h"

#include <string.h>

bool get_packet(const Bench *bench, const ListRecord *record,
                uint8_t bytes[PACKET_BYTES])
{
    bool to_controller = record->letter == 'R' || record->letter == 'L';
    Shown shown = show(to_controller ? TO_CONTROLLER : TO_CONSOLE,
                       record->place, bench->to_controller, bench->to_console);

    if (!find_action(record->letter)->place || shown.refusal != ACCEPTED) {
        return false;
    }
    memcpy(bytes, shown.bytes, PACKET_BYTES);
    return true;
}

void check_alone(const Bench *before, const Bench *after,
                 const ListRecord *record, const uint8_t *packet,
                 const Outcome *outcome)
{
    const Action *action = find_action(record->letter);
    Console console = before->console;
    Controller controller = before->controller;
    uint8_t reply[PACKET_BYTES];
    Outcome alone;
    const Channel *target;

    if (action->actor == CONSOLE) {
        alone = console_alone(&console, record->letter, record->message, packet,
                              PACKET_BYTES, reply, PACKET_BYTES);
        target = &after->to_controller;
    } else {
        alone = controller_alone(&controller, record->letter, packet,
                                 PACKET_BYTES, reply, PACKET_BYTES);
        target = &after->to_console;
    }
    CHECK(alone.report == outcome->report && alone.refusal == outcome->refusal);
    CHECK(memcmp(alone.message, outcome->message, CELLS) == 0);
    CHECK(same_numbers(&console.numbers, &after->console.numbers));
    CHECK(console_is(&console, after->console.numbers.last_used,
                     after->console.held, after->console.j,
                     after->console.last, after->console.down));
    CHECK(memcmp(console.message, after->console.message, CELLS) == 0);
    CHECK(console.ack_ok == after->console.ack_ok);
    CHECK(same_numbers(&controller.numbers, &after->controller.numbers));
    CHECK(controller_is(&controller, after->controller.numbers.last_used,
                        after->controller.j, after->controller.i,
                        after->controller.last, after->controller.down));
    if (alone.written && record->copies > 0) {
        CHECK(memcmp(place_in(target, target->count - 1), reply,
                     PACKET_BYTES) == 0);
    }
}
