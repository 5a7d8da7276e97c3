/* The bench: both ends, both channels, and the step. */
#include "second.h"

#include <string.h>

int fresh_bench(Bench *bench, JNumber last_used_j, INumber last_used_i,
                uint8_t *to_controller, size_t to_controller_length,
                uint8_t *to_console, size_t to_console_length)
{
    if (to_controller_length != TABLE_BYTES ||
        to_console_length != TABLE_BYTES) {
        return ILL_FORMED;
    }
    memset(to_controller, 0, TABLE_BYTES);
    memset(to_console, 0, TABLE_BYTES);
    bench->console = fresh_console(last_used_j);
    bench->controller = fresh_controller(last_used_i);
    bench->to_controller = (Channel){to_controller, TABLE_BYTES, 0};
    bench->to_console = (Channel){to_console, TABLE_BYTES, 0};
    return ACCEPTED;
}

bool bench_well_formed(const Bench *bench)
{
    return console_well_formed(&bench->console) &&
           controller_well_formed(&bench->controller) &&
           channel_well_formed(&bench->to_controller, TO_CONTROLLER) &&
           channel_well_formed(&bench->to_console, TO_CONSOLE);
}

/* The channel that an action takes a packet out of. */
static Channel *source_of(Bench *bench, const Action *action)
{
    if (action->letter == 'R' || action->letter == 'L') {
        return &bench->to_controller;
    }
    return &bench->to_console;
}

/* The channel that an action sends into. */
static Channel *target_of(Bench *bench, const Action *action)
{
    return action->actor == CONSOLE ? &bench->to_controller
                                    : &bench->to_console;
}

/* 4, 5, 6 and 8. */
static int end_refusal(const Bench *bench, const Action *action)
{
    if (action->actor == CONSOLE) {
        return console_refusal(&bench->console, action->letter);
    }
    if (action->actor == CONTROLLER) {
        return controller_refusal(&bench->controller, action->letter);
    }
    return ACCEPTED;
}

/* Whatever comes before the packet at the place is looked at, but for 1. */
static int early_refusal(Bench *bench, const Action *action, size_t place,
                         size_t copies, const uint8_t *message)
{
    if (!bench_well_formed(bench)) {
        return ILL_FORMED;
    }
    if (action->message && !all_cells(message)) {
        return NOT_A_CELL;
    }
    if (action->copies && copies > MOST_COPIES) {
        return TOO_MANY_COPIES;
    }
    int refusal = end_refusal(bench, action);
    if (refusal != ACCEPTED) {
        return refusal;
    }
    if (action->place && place >= source_of(bench, action)->count) {
        return NO_SUCH_PLACE;
    }
    return ACCEPTED;
}

static Effect ends_act(Bench *bench, const Action *action,
                       const uint8_t *message, const Packet *in)
{
    if (action->actor == CONSOLE) {
        return console_acts(&bench->console, action->letter, message, in);
    }
    if (action->actor == CONTROLLER) {
        return controller_acts(&bench->controller, action->letter, in);
    }
    return no_effect();
}

/* The ends act in a copy of the bench, so that a refusal 9 leaves them. */
static Outcome act(Bench *bench, const Action *action, size_t place,
                   size_t copies, const uint8_t *message, const Packet *in)
{
    Bench after = *bench;
    Effect effect = ends_act(&after, action, message, in);
    Channel *target = target_of(&after, action);

    if (effect.sends && copies > PLACES - target->count) {
        return refused(NO_ROOM);
    }
    if (action->place) {
        take_out(source_of(&after, action), place);
    }
    if (effect.sends) {
        add_copies(target, &effect.packet, copies);
    }
    *bench = after;
    return effect.outcome;
}

Outcome bench_step(Bench *bench, uint8_t letter, size_t place, size_t copies,
                   const uint8_t *message)
{
    const Action *action = find_action(letter);
    PacketRead in = {0};

    if (action == NULL) {
        return refused(BAD_RECORD);
    }
    int refusal = early_refusal(bench, action, place, copies, message);
    if (refusal != ACCEPTED) {
        return refused(refusal);
    }
    if (action->place) {
        in = read_packet(place_in(source_of(bench, action), place),
                         PACKET_BYTES);
    }
    if (letter == 'R') {
        refusal = controller_packet_refusal(&bench->controller, &in.packet);
    }
    if (refusal != ACCEPTED) {
        return refused(refusal);
    }
    return act(bench, action, place, copies, message, &in.packet);
}
