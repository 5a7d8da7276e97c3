/* An end run alone in a box: one packet in, one reply buffer, no copies. */
#include "second.h"

/* The packet in, for an action that takes one: 12 to 15. The letters that
 * take a packet use a place, those that are lent the reply buffer copies. */
static PacketRead packet_in(const Action *action, Direction direction,
                            const uint8_t *packet, size_t packet_length,
                            size_t reply_length)
{
    PacketRead in = {0};

    if (action->copies && reply_length != PACKET_BYTES) {
        in.refusal = WRONG_LENGTH;
        return in;
    }
    if (!action->place) {
        return in;
    }
    in = read_packet(packet, packet_length);
    if (in.refusal == ACCEPTED && direction_of(in.packet.kind) != direction) {
        in.refusal = OUTSIDE_TABLE;
    }
    return in;
}

static Outcome send_reply(const Effect *effect, uint8_t *reply,
                          size_t reply_length)
{
    Outcome outcome = effect->outcome;

    if (effect->sends) {
        outcome.written =
            write_packet(&effect->packet, reply, reply_length) == ACCEPTED;
    }
    return outcome;
}

Outcome console_alone(Console *console, uint8_t letter, const uint8_t *message,
                      const uint8_t *packet, size_t packet_length,
                      uint8_t *reply, size_t reply_length)
{
    const Action *action = find_action(letter);

    if (action == NULL || action->actor != CONSOLE) {
        return refused(BAD_RECORD);
    }
    if (!console_well_formed(console)) {
        return refused(ILL_FORMED);
    }
    PacketRead in = packet_in(action, TO_CONSOLE, packet, packet_length,
                              reply_length);
    if (in.refusal != ACCEPTED) {
        return refused(in.refusal);
    }
    if (action->message && !all_cells(message)) {
        return refused(NOT_A_CELL);
    }
    int refusal = console_refusal(console, letter);
    if (refusal != ACCEPTED) {
        return refused(refusal);
    }
    Effect effect = console_acts(console, letter, message, &in.packet);
    return send_reply(&effect, reply, reply_length);
}

Outcome controller_alone(Controller *controller, uint8_t letter,
                         const uint8_t *packet, size_t packet_length,
                         uint8_t *reply, size_t reply_length)
{
    const Action *action = find_action(letter);

    if (action == NULL || action->actor != CONTROLLER) {
        return refused(BAD_RECORD);
    }
    if (!controller_well_formed(controller)) {
        return refused(ILL_FORMED);
    }
    PacketRead in = packet_in(action, TO_CONTROLLER, packet, packet_length,
                              reply_length);
    if (in.refusal != ACCEPTED) {
        return refused(in.refusal);
    }
    int refusal = controller_refusal(controller, letter);
    if (refusal == ACCEPTED && action->place) {
        refusal = controller_packet_refusal(controller, &in.packet);
    }
    if (refusal != ACCEPTED) {
        return refused(refusal);
    }
    Effect effect = controller_acts(controller, letter, &in.packet);
    return send_reply(&effect, reply, reply_length);
}
