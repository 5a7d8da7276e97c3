/* Each bit turned, one at a time: of valid packets of each kind, of number records of each end and version, of states in each mode. Then each
 * length of a record, each byte in the place of a flag, and numbers at their corners. */
#include "alone.h"

#define LARGEST UINT32_MAX
#define MOST_LENGTH 40u

/* One round of turned bits with each: last used equal to reserved, below it, near the largest and at it. */
static const Numbers rounds[] = {{4, 4, 64}, {LARGEST, LARGEST, 64}, {4, 5, 1}, {LARGEST - 1, LARGEST, 64}, {4, 68, 1024},
    {LARGEST - 9, LARGEST, 7}, {4, LARGEST, 64}, {LARGEST - 3, LARGEST - 3, 1024}};

#define ROUNDS (sizeof rounds / sizeof *rounds)

/* Idle, needI and send; j and last from 1 to 4. */
static Console console_in(uint32_t mode, int down, Numbers numbers) {
    Console c = fresh_console(0);
    c.numbers = numbers;
    c.down = down;
    c.ack_ok = roll(2);
    c.held = mode != 0;
    if (mode == 1) c.j = 1 + roll(4);
    if (mode == 2) c.last = 1 + roll(4);
    if (c.held) good_message(c.message);
    console_to(&c, box.state);
    asked.state_len = NOOSELESS_CONSOLE_STATE_LEN;
    return c;
}

static void good_console(uint32_t mode, int down, Numbers numbers) {
    Console c = console_in(mode, down, numbers);
    entry = "a valid console";
    check(console_well_formed(&c));
}

/* Idle, accept and ack. */
static Controller controller_in(uint32_t mode, int down, Numbers numbers) {
    Controller c = fresh_controller(0);
    c.numbers = numbers;
    c.down = down;
    if (mode == 1) {
        c.j = 1 + roll(4);
        c.i = 1 + roll(4);
    }
    if (mode == 2) c.last = 1 + roll(4);
    controller_to(&c, box.state);
    asked.state_len = NOOSELESS_CONTROLLER_STATE_LEN;
    return c;
}

static void good_controller(uint32_t mode, int down, Numbers numbers) {
    Controller c = controller_in(mode, down, numbers);
    entry = "a valid controller";
    check(controller_well_formed(&c));
}

/* Numbers from 1 to 5: those of the end, others, and one that was never given. */
static void good_packet(uint8_t kind) {
    Packet p = make_packet(kind, 1 + roll(5), kind == OFFER ? 1 + roll(5) : 0);
    if (kind == DATA) good_message(p.message);
    entry = "a valid packet";
    check(write_packet(&p, box.in, PACKET_BYTES) == 0);
    asked.in_len = asked.out_len = PACKET_BYTES;
}

static void turn(uint8_t *bytes, size_t bit) { bytes[bit / 8] ^= (uint8_t)(1u << bit % 8); }

/* The packet in the box: read alone, and by each end in each mode, up and down. */
static void packet_everywhere(Numbers numbers) {
    packet_read(box.in, PACKET_BYTES);
    for (uint32_t mode = 0; mode < 3; mode++)
        for (int down = 0; down < 2; down++) {
            good_console(mode, down, numbers);
            asked.letter = 'S';
            console_step();
            good_controller(mode, down, numbers);
            asked.letter = 'R';
            controller_step();
        }
}

static void every_packet_bit(Numbers numbers) {
    for (uint8_t kind = NEED_I; kind <= DONE; kind++)
        for (size_t i = 0; i < 8 * PACKET_BYTES; i++) {
            next_case();
            good_packet(kind);
            packet_everywhere(numbers);
            turn(box.in, i);
            packet_everywhere(numbers);
        }
}

/* The record in the box, with this length: read, carried to each version, handed to each end. */
static void record_everywhere(size_t n, int old) {
    asked.in_len = n;
    record_read(box.in, n, old);
    record_carried(box.in, n, old, OLD_NUMBER_RECORD_BYTES, 1);
    record_carried(box.in, n, old, NUMBER_RECORD_BYTES, 0);
    asked.state_len = NOOSELESS_CONSOLE_STATE_LEN;
    downed_end(0, old);
    asked.state_len = NOOSELESS_CONTROLLER_STATE_LEN;
    downed_end(1, old);
}

static size_t good_record(uint8_t end, int old, Numbers numbers) {
    NumberRecord r = {end, old, numbers.reserved, numbers.block};
    size_t n = old ? OLD_NUMBER_RECORD_BYTES : NUMBER_RECORD_BYTES;
    entry = "a valid number record";
    check(write_number_record(&r, box.in, n) == 0);
    return n;
}

static void every_record_bit(Numbers numbers) {
    for (uint8_t end = CONSOLE_RECORD; end <= CONTROLLER_RECORD; end++)
        for (int old = 0; old < 2; old++)
            for (size_t i = 0; i < 8 * (old ? OLD_NUMBER_RECORD_BYTES : NUMBER_RECORD_BYTES); i++) {
                next_case();
                size_t n = good_record(end, old, numbers);
                record_everywhere(n, old);
                turn(box.in, i);
                record_everywhere(n, old);
            }
}

/* Records of each length, and each length to write one to. */
static void every_record_length(Numbers numbers) {
    for (uint8_t end = CONSOLE_RECORD; end <= CONTROLLER_RECORD; end++)
        for (int old = 0; old < 2; old++)
            for (size_t n = 0; n <= MOST_LENGTH; n++) {
                next_case();
                size_t right = good_record(end, old, numbers);
                record_everywhere(n, old);
                record_carried(box.in, right, old, n, n == OLD_NUMBER_RECORD_BYTES);
                record_written(end, numbers.reserved, old ? 0 : numbers.block, n);
                asked.out_len = n;
                good_console(0, 0, numbers);
                record_of(0);
                good_controller(0, 0, numbers);
                record_of(1);
            }
}

/* Each block that a record can be written with. */
static void every_block(void) {
    for (uint32_t block = 0; block <= UINT16_MAX; block++) {
        next_case();
        record_written((uint8_t)(1 + roll(2)), some_number(), (uint16_t)block, block ? NUMBER_RECORD_BYTES : OLD_NUMBER_RECORD_BYTES);
    }
}

/* The state in the box: every letter, a packet of every kind for the one that takes it, and the number record. */
static void state_everywhere(int controller) {
    for (size_t i = 0; i < ACTIONS; i++)
        for (uint8_t kind = NEED_I; kind <= DONE; kind++) {
            asked.letter = (uint8_t)LETTERS[i];
            good_packet(kind);
            if (controller) controller_step();
            else console_step();
            if (asked.letter != (controller ? 'R' : 'S')) break;
        }
    asked.out_len = NUMBER_RECORD_BYTES;
    record_of(controller);
}

static void every_state_bit(int controller, Numbers numbers) {
    size_t bits = 8 * (controller ? NOOSELESS_CONTROLLER_STATE_LEN : NOOSELESS_CONSOLE_STATE_LEN);
    for (uint32_t mode = 0; mode < 3; mode++)
        for (int down = 0; down < 2; down++)
            for (size_t i = 0; i < bits; i++) {
                next_case();
                if (controller) good_controller(mode, down, numbers);
                else good_console(mode, down, numbers);
                turn(box.state, i);
                state_everywhere(controller);
            }
}

/* Each byte in the place of each flag, in each mode. */
static void every_flag(int controller) {
    static const size_t flags[2][3] = {{CONSOLE_HELD, CONSOLE_UP, CONSOLE_ACK}, {CONTROLLER_UP}};
    for (size_t k = 0; k < (controller ? 1 : 3); k++)
        for (uint32_t mode = 0; mode < 3; mode++)
            for (uint32_t byte = 0; byte < 256; byte++) {
                next_case();
                if (controller) good_controller(mode, 0, rounds[0]);
                else good_console(mode, 0, rounds[0]);
                box.state[flags[controller][k]] = (uint8_t)byte;
                state_everywhere(controller);
            }
}

/* In each mode, up and down. */
static void every_corner(int controller) {
    for (size_t k = 0; k < CORNERS; k++)
        for (uint32_t mode = 0; mode < 3; mode++)
            for (int down = 0; down < 2; down++) {
                next_case();
                if (controller) controller_in(mode, down, corner(k));
                else console_in(mode, down, corner(k));
                state_everywhere(controller);
            }
}

void all_ends(void) {
    scribble((uint8_t *)&box, sizeof box);
    for (size_t round = 0; round < ROUNDS; round++) {
        good_message(box.message);
        every_packet_bit(rounds[round]);
        every_record_bit(rounds[round]);
        every_record_length(rounds[round]);
        every_state_bit(0, rounds[round]);
        every_state_bit(1, rounds[round]);
    }
    every_block();
    for (int controller = 0; controller < 2; controller++) {
        every_flag(controller);
        every_corner(controller);
    }
}
