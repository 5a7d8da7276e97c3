/* A channel: a lent table of 64 places, its count, and showing a place. */
#include "second.h"

#include <string.h>

static bool table_and_count_good(const Channel *channel)
{
    return channel->length == TABLE_BYTES && channel->count <= PLACES;
}

uint8_t *place_in(const Channel *channel, size_t place)
{
    return channel->table + place * PACKET_BYTES;
}

bool channel_well_formed(const Channel *channel, Direction direction)
{
    if (!table_and_count_good(channel)) {
        return false;
    }
    for (size_t place = 0; place < channel->count; place++) {
        PacketRead read = read_packet(place_in(channel, place), PACKET_BYTES);

        if (read.refusal != ACCEPTED ||
            direction_of(read.packet.kind) != direction) {
            return false;
        }
    }
    size_t used = channel->count * PACKET_BYTES;
    return all_bytes_are(channel->table + used, TABLE_BYTES - used, 0);
}

void take_out(Channel *channel, size_t place)
{
    size_t later = channel->count - 1 - place;

    memmove(place_in(channel, place), place_in(channel, place + 1),
            later * PACKET_BYTES);
    channel->count -= 1;
    memset(place_in(channel, channel->count), 0, PACKET_BYTES);
}

void add_copies(Channel *channel, const Packet *packet, size_t copies)
{
    for (size_t copy = 0; copy < copies; copy++) {
        write_packet(packet, place_in(channel, channel->count), PACKET_BYTES);
        channel->count += 1;
    }
}

Shown show(Direction direction, size_t place, Channel to_controller,
           Channel to_console)
{
    Shown shown = {0};
    const Channel *asked =
        direction == TO_CONTROLLER ? &to_controller : &to_console;

    if (!table_and_count_good(&to_controller) ||
        !table_and_count_good(&to_console)) {
        shown.refusal = ILL_FORMED;
        return shown;
    }
    if (place >= asked->count) {
        shown.refusal = NO_SUCH_PLACE;
        return shown;
    }
    shown.bytes = place_in(asked, place);
    shown.length = PACKET_BYTES;
    return shown;
}
