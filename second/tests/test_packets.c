/* Packets. */
#include "tests.h"

#include <string.h>

static const uint8_t kinds[] = {NEED_I, OFFER, DATA, OK, LOST, DONE};

/* Numbers without a zero byte: no single changed byte makes them 0. */
static Packet sample(uint8_t kind)
{
    Packet packet = make_packet(kind, 0x01020304, 0);

    if (kind == OFFER) {
        packet.second = 0x05060708;
    }
    if (kind == DATA) {
        set_message(packet.message, "~START FILLER 0");
    }
    return packet;
}

static bool same_packet(const Packet *one, const Packet *other)
{
    return one->kind == other->kind && one->first == other->first &&
           one->second == other->second &&
           memcmp(one->message, other->message, CELLS) == 0;
}

static void check_vectors(void)
{
    static const uint8_t need_i_1[PACKET_BYTES] = {
        0x48, 0x53, 0x4C, 0x00, 0x01, 0x01, 0, 0, 0x00, 0x00, 0x00, 0x01};
    static const uint8_t offer[PACKET_BYTES] = {
        'H', 'S', 'L', 0, 1, 2, 0, 0, 1, 2, 3, 4, 5, 6, 7, 8};
    static const uint8_t data[PACKET_BYTES + 1] =
        "HSL\x00\x01\x03\x00\x00\x01\x02\x03\x04\x00\x00\x00\x00"
        "~START FILLER 0 ";
    uint8_t bytes[PACKET_BYTES];
    Packet packet = make_packet(NEED_I, 1, 0);

    CHECK(write_packet(&packet, bytes, PACKET_BYTES) == ACCEPTED);
    CHECK(memcmp(bytes, need_i_1, PACKET_BYTES) == 0);
    packet = sample(OFFER);
    CHECK(write_packet(&packet, bytes, PACKET_BYTES) == ACCEPTED);
    CHECK(memcmp(bytes, offer, PACKET_BYTES) == 0);
    packet = sample(DATA);
    CHECK(write_packet(&packet, bytes, PACKET_BYTES) == ACCEPTED);
    CHECK(memcmp(bytes, data, PACKET_BYTES) == 0);
}

static void check_round_trips(void)
{
    static const uint32_t numbers[] = {1, 255, 256, 65536, 0x01000000,
                                       LARGEST_NUMBER};

    for (size_t k = 0; k < sizeof kinds; k++) {
        for (size_t n = 0; n < sizeof numbers / sizeof numbers[0]; n++) {
            Packet packet = sample(kinds[k]);
            uint8_t bytes[PACKET_BYTES];

            packet.first = numbers[n];
            CHECK(write_packet(&packet, bytes, PACKET_BYTES) == ACCEPTED);
            PacketRead read = read_packet(bytes, PACKET_BYTES);
            CHECK(read.refusal == ACCEPTED);
            CHECK(same_packet(&read.packet, &packet));
        }
    }
}

/* What reading says when byte `at` of a sample becomes another one. */
static int after_change(uint8_t kind, size_t at, uint8_t to)
{
    bool plain = kind != OFFER && kind != DATA;

    if (at <= 2) {
        return WRONG_MARK;
    }
    if (at <= 4) {
        return WRONG_VERSION;
    }
    if (at == 5) {
        bool to_plain = to == NEED_I || to == OK || to == LOST || to == DONE;

        return plain && to_plain ? ACCEPTED : OUTSIDE_TABLE;
    }
    if (at <= 7) {
        return OUTSIDE_TABLE;
    }
    if (at <= 11 || (at <= 15 && kind == OFFER)) {
        return ACCEPTED;
    }
    return at >= 16 && kind == DATA && is_cell(to) ? ACCEPTED : OUTSIDE_TABLE;
}

static void check_changed_bytes(uint8_t kind)
{
    static const Packet zeros;
    uint8_t good[PACKET_BYTES];
    Packet packet = sample(kind);

    write_packet(&packet, good, PACKET_BYTES);
    for (size_t at = 0; at < PACKET_BYTES; at++) {
        bool as_said = true;

        for (unsigned to = 0; to < 256; to++) {
            uint8_t bytes[PACKET_BYTES];

            memcpy(bytes, good, PACKET_BYTES);
            bytes[at] = (uint8_t)to;
            PacketRead read = read_packet(bytes, PACKET_BYTES);
            int wanted = bytes[at] == good[at]
                             ? ACCEPTED
                             : after_change(kind, at, (uint8_t)to);

            as_said = as_said && read.refusal == wanted;
            as_said = as_said && (wanted == ACCEPTED ||
                                  same_packet(&read.packet, &zeros));
        }
        CHECK(as_said);
    }
}

static void check_zero_numbers(void)
{
    for (size_t k = 0; k < sizeof kinds; k++) {
        uint8_t bytes[PACKET_BYTES];
        Packet packet = sample(kinds[k]);

        write_packet(&packet, bytes, PACKET_BYTES);
        set_number(bytes + 8, 0);
        CHECK(read_packet(bytes, PACKET_BYTES).refusal == OUTSIDE_TABLE);
    }
    uint8_t bytes[PACKET_BYTES];
    Packet offer = sample(OFFER);
    write_packet(&offer, bytes, PACKET_BYTES);
    set_number(bytes + 12, 0);
    CHECK(read_packet(bytes, PACKET_BYTES).refusal == OUTSIDE_TABLE);
    set_number(bytes + 12, 1);
    CHECK(read_packet(bytes, PACKET_BYTES).refusal == ACCEPTED);
}

/* Every set of faults in a packet: the first in order is answered. */
static void check_reading_order(void)
{
    for (unsigned faults = 0; faults < 16; faults++) {
        uint8_t bytes[PACKET_BYTES + 1] = {0};
        Packet packet = sample(DONE);
        size_t length = faults & 1u ? PACKET_BYTES + 1 : PACKET_BYTES;
        int wanted = ACCEPTED;

        write_packet(&packet, bytes, PACKET_BYTES);
        bytes[1] = faults & 2u ? 'N' : 'S';
        bytes[4] = faults & 4u ? 2 : 1;
        bytes[5] = faults & 8u ? 7 : DONE;
        for (unsigned fault = 4; fault > 0; fault--) {
            if (faults >> (fault - 1) & 1u) {
                wanted = WRONG_LENGTH + (int)fault - 1;
            }
        }
        CHECK(read_packet(bytes, length).refusal == wanted);
    }
}

static void check_lengths(void)
{
    uint8_t bytes[2 * PACKET_BYTES] = {0};
    uint8_t untouched[2 * PACKET_BYTES] = {0};
    Packet packet = sample(LOST);

    write_packet(&packet, bytes, PACKET_BYTES);
    for (size_t length = 0; length <= sizeof bytes; length++) {
        int wanted = length == PACKET_BYTES ? ACCEPTED : WRONG_LENGTH;

        CHECK(read_packet(bytes, length).refusal == wanted);
        if (wanted == WRONG_LENGTH) {
            CHECK(write_packet(&packet, untouched, length) == WRONG_LENGTH);
        }
    }
    CHECK(all_bytes_are(untouched, sizeof untouched, 0));
    CHECK(read_packet(NULL, 0).refusal == WRONG_LENGTH);
    CHECK(write_packet(&packet, NULL, 0) == WRONG_LENGTH);
}

static bool write_is_outside(const Packet *packet)
{
    uint8_t buffer[PACKET_BYTES];

    memset(buffer, 0xA5, PACKET_BYTES);
    return write_packet(packet, buffer, PACKET_BYTES) == OUTSIDE_TABLE &&
           all_bytes_are(buffer, PACKET_BYTES, 0xA5) &&
           write_packet(packet, buffer, PACKET_BYTES - 1) == WRONG_LENGTH;
}

static void check_writing_refusals(void)
{
    for (unsigned kind = 0; kind < 256; kind++) {
        Packet packet = sample((uint8_t)kind);

        CHECK(write_is_outside(&packet) == (kind == 0 || kind > DONE));
        packet.first = 0;
        CHECK(write_is_outside(&packet));
        packet = sample((uint8_t)kind);
        packet.second = kind == OFFER ? 0 : 1;
        CHECK(write_is_outside(&packet));
        packet = sample((uint8_t)kind);
        packet.message[15] = kind == DATA ? 0x7F : ' ';
        CHECK(write_is_outside(&packet));
    }
    Packet data = sample(DATA);
    data.message[0] = 0x1F;
    CHECK(write_is_outside(&data));
    memset(data.message, 0, CELLS);
    CHECK(write_is_outside(&data));
}

void test_packets(void)
{
    check_vectors();
    check_round_trips();
    for (size_t k = 0; k < sizeof kinds; k++) {
        check_changed_bytes(kinds[k]);
    }
    check_zero_numbers();
    check_reading_order();
    check_lengths();
    check_writing_refusals();
}
