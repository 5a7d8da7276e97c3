/* Packets, read and written. */
#include "alone.h"

#include <string.h>

void packet_read(const uint8_t in[ROOM], size_t n) {
    uint8_t in2[ROOM], m[ROOM], m2[ROOM], kind = (uint8_t)roll(256), kind2 = kind;
    uint32_t first = some_number(), first2 = first, second = some_number(), second2 = second;
    entry = "nooseless_read_packet";
    scribble(m, ROOM);
    memcpy(in2, in, ROOM);
    memcpy(m2, m, ROOM);
    PacketRead r = read_packet(in2, n);
    if (r.refusal == 0) {
        kind2 = r.packet.kind;
        first2 = r.packet.first;
        second2 = r.packet.second;
        memcpy(m2, r.packet.message, CELLS);
    }
    check(nooseless_read_packet(in, n, &kind, &first, &second, m) == r.refusal);
    check(!memcmp(in, in2, ROOM) && !memcmp(m, m2, ROOM) && kind == kind2 && first == first2 && second == second2);
    count(&ends, r.refusal, 0);
}

static void packet_written(void) {
    uint8_t out[ROOM], out2[ROOM];
    entry = "nooseless_write_packet";
    Packet p = make_packet((uint8_t)(roll(8) == 0 ? roll(256) : 1 + roll(6)), some_number(), 0);
    if (p.kind == OFFER || roll(8) == 0) p.second = some_number();
    if (p.kind == DATA || roll(8) == 0) some_message(p.message);
    scribble(out, ROOM);
    memcpy(out2, out, ROOM);
    size_t n = some_length(PACKET_BYTES);
    int refusal = write_packet(&p, out2, n);
    check(nooseless_write_packet(out, n, p.kind, p.first, p.second, p.message) == refusal);
    check(!memcmp(out, out2, ROOM));
    count(&ends, refusal, 0);
}

void one_of_wire(void) {
    uint8_t in[ROOM], numbers[ROOM];
    if (roll(2)) {
        packet_written();
        return;
    }
    scribble(numbers, ROOM);
    some_packet(in, numbers);
    packet_read(in, some_length(PACKET_BYTES));
}
