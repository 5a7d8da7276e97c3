/* The packet of 32 bytes. */
#include "second.h"

#include <string.h>

static const char packet_mark[] = "HSL";

int read_mark_and_version(const uint8_t *bytes, const char *mark,
                          uint8_t version)
{
    if (memcmp(bytes, mark, 3) != 0) {
        return WRONG_MARK;
    }
    if (bytes[3] != 0 || bytes[4] != version) {
        return WRONG_VERSION;
    }
    return ACCEPTED;
}

void write_mark_and_version(uint8_t *bytes, const char *mark, uint8_t version)
{
    memcpy(bytes, mark, 3);
    bytes[3] = 0;
    bytes[4] = version;
}

/* The rows of the packet table; reading and writing share them. */
static bool inside_table(const Packet *packet)
{
    if (packet->kind < NEED_I || packet->kind > DONE) {
        return false;
    }
    if (packet->first == 0) {
        return false;
    }
    if (packet->kind == OFFER && packet->second == 0) {
        return false;
    }
    if (packet->kind != OFFER && packet->second != 0) {
        return false;
    }
    if (packet->kind == DATA) {
        return all_cells(packet->message);
    }
    return all_bytes_are(packet->message, CELLS, 0);
}

static PacketRead no_packet(int refusal)
{
    PacketRead none = {0};

    none.refusal = refusal;
    return none;
}

PacketRead read_packet(const uint8_t *bytes, size_t length)
{
    PacketRead read = {0};

    if (length != PACKET_BYTES) {
        return no_packet(WRONG_LENGTH);
    }
    int refusal = read_mark_and_version(bytes, packet_mark, PACKET_VERSION);
    if (refusal != ACCEPTED) {
        return no_packet(refusal);
    }
    read.packet.kind = bytes[5];
    read.packet.first = get_number(bytes + 8);
    read.packet.second = get_number(bytes + 12);
    memcpy(read.packet.message, bytes + 16, CELLS);
    if (bytes[6] != 0 || bytes[7] != 0 || !inside_table(&read.packet)) {
        return no_packet(OUTSIDE_TABLE);
    }
    return read;
}

int write_packet(const Packet *packet, uint8_t *buffer, size_t length)
{
    if (length != PACKET_BYTES) {
        return WRONG_LENGTH;
    }
    if (!inside_table(packet)) {
        return OUTSIDE_TABLE;
    }
    write_mark_and_version(buffer, packet_mark, PACKET_VERSION);
    buffer[5] = packet->kind;
    buffer[6] = 0;
    buffer[7] = 0;
    set_number(buffer + 8, packet->first);
    set_number(buffer + 12, packet->second);
    memcpy(buffer + 16, packet->message, CELLS);
    return ACCEPTED;
}

Packet make_packet(uint8_t kind, uint32_t first, uint32_t second)
{
    Packet packet = {0};

    packet.kind = kind;
    packet.first = first;
    packet.second = second;
    return packet;
}

Packet make_data(INumber i, const uint8_t message[CELLS])
{
    Packet packet = make_packet(DATA, i, 0);

    memcpy(packet.message, message, CELLS);
    return packet;
}

Direction direction_of(uint8_t kind)
{
    if (kind == NEED_I || kind == DATA || kind == DONE) {
        return TO_CONTROLLER;
    }
    return TO_CONSOLE;
}
