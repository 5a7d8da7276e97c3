/* Benches well formed and spoilt, and what their step is asked. */
#include "given.h"

#include <string.h>

struct lent given;
struct call call;

/* ---- well-formed benches ---- */

static uint32_t some_number_to(uint32_t most) {
    uint32_t n = some_number();
    return n == 0 || n > most ? most - (n == 0 && most > 1) : n;
}

uint32_t some_used(void) { return roll(6) == 0 ? UINT32_MAX : some_number(); }

/* Often spent; with a number used, where one is to be held. */
static Numbers used_numbers(int used) {
    Numbers n;
    do n = roll(6) == 0 ? fresh_numbers(UINT32_MAX) : good_numbers();
    while (used && n.last_used == 0);
    return n;
}

static void some_cells(uint8_t m[CELLS]) {
    do some_message(m);
    while (!all_cells(m));
}

static Console good_console(void) {
    Console c = fresh_console(0);
    uint32_t mode = roll(3);
    c.numbers = used_numbers(mode == 1);
    c.down = roll(4) == 0;
    c.ack_ok = roll(2);
    if (mode == 0) return c;
    c.held = true;
    some_cells(c.message);
    if (mode == 1) c.j = some_number_to(c.numbers.last_used);
    else c.last = some_number_to(UINT32_MAX);
    return c;
}

static Controller good_controller(void) {
    Controller c = fresh_controller(0);
    uint32_t mode = roll(3);
    c.numbers = used_numbers(mode != 0);
    c.down = roll(4) == 0;
    if (mode == 0) return c;
    if (mode == 1) {
        c.j = some_number_to(UINT32_MAX);
        c.i = some_number_to(c.numbers.last_used);
    } else {
        c.last = some_number_to(c.numbers.last_used);
    }
    return c;
}

/* A packet of a direction, its numbers often those of the ends. */
static Packet good_packet(Direction way) {
    static const uint8_t kinds[2][3] = {[TO_CONTROLLER] = {NEED_I, DATA, DONE}, [TO_CONSOLE] = {OFFER, OK, LOST}};
    const uint8_t *s = given.state, *d = s + BENCH_CONTROLLER;
    Packet p = make_packet(kinds[way][roll(3)], some_number_to(UINT32_MAX), 0);
    if (p.kind == OFFER) {
        p.second = some_number_to(UINT32_MAX);
        if (roll(3) && get_number(s + AT_J)) p.first = get_number(s + AT_J);
        if (roll(3) && get_number(s + CONSOLE_LAST)) p.second = get_number(s + CONSOLE_LAST);
    } else if (roll(3)) {
        uint32_t i = get_number(d + CONTROLLER_I), n = way == TO_CONSOLE ? get_number(s + CONSOLE_LAST) : i ? i : get_number(d + CONTROLLER_LAST);
        if (n) p.first = n;
    } else if (roll(2) && get_number(d + AT_USED) != UINT32_MAX) {
        p.first = get_number(d + AT_USED) + 1;
    }
    if (p.kind == DATA) some_cells(p.message);
    return p;
}

uint32_t some_count(void) {
    switch (roll(4)) {
    case 0: return roll(4);
    case 1: return 61 + roll(4);
    case 2: return roll(PLACES + 1);
    default: return 1 + roll(8);
    }
}

/* Most packets come from a pool that changes slowly. */
static void fill(uint8_t *table, Direction d, size_t count) {
    static uint8_t pool[2][64][PACKET_BYTES];
    static int filled;
    for (size_t i = filled ? 63 : 0; i < 64; i++)
        for (int way = 0; way < 2; way++) {
            Packet p = good_packet((Direction)way);
            write_packet(&p, pool[way][filled ? roll(64) : i], PACKET_BYTES);
        }
    filled = 1;
    memset(table, 0, TABLE_BYTES);
    for (size_t i = 0; i < count; i++) memcpy(table + i * PACKET_BYTES, pool[d][roll(64)], PACKET_BYTES);
}

void set_counts(size_t out, size_t back) {
    fill(given.out, TO_CONTROLLER, out);
    fill(given.back, TO_CONSOLE, back);
    given.state[BENCH_OUT] = (uint8_t)out;
    given.state[BENCH_BACK] = (uint8_t)back;
}

void good_bench(void) {
    Console c = good_console();
    Controller d = good_controller();
    console_to(&c, given.state);
    controller_to(&d, given.state + BENCH_CONTROLLER);
    uint32_t out = some_count(), back = some_count();
    set_counts(out, back);
    call.state_len = NOOSELESS_BENCH_STATE_LEN;
    call.out_len = call.back_len = TABLE_BYTES;
}

/* ---- what the step is asked ---- */

int takes_from_out(uint8_t letter) { return letter == 'R' || letter == 'L'; }

static size_t some_huge(void) {
    static const size_t huge[] = {65, 255, 256, 2048, (size_t)1 << 32, SIZE_MAX / PACKET_BYTES + 1, SIZE_MAX};
    return huge[roll(sizeof huge / sizeof *huge)];
}

/* A place, with a packet of the letter's way in it that has to do with the ends; or none. */
static void some_place(void) {
    int from_out = takes_from_out(call.letter);
    size_t count = given.state[from_out ? BENCH_OUT : BENCH_BACK];
    uint8_t *table = from_out ? given.out : given.back;
    uint32_t lot = roll(8);
    call.place = count && lot < 6 ? roll((uint32_t)count) : lot == 6 ? some_huge() : count + roll(3);
    if (call.place >= count || call.place >= PLACES) return;
    Packet p = good_packet(from_out ? TO_CONTROLLER : TO_CONSOLE);
    write_packet(&p, table + call.place * PACKET_BYTES, PACKET_BYTES);
}

void some_call(void) {
    call.letter = some_letter("PPQDSSSCVOKRRRRXYLMA");
    call.copies = roll(4) ? roll(4) : roll(2) ? 4 : some_huge();
    some_message(given.message);
    some_place();
}

/* ---- a bench not well formed, in each way ---- */

/* Last used above reserved, or a block that is none. */
static void spoil_numbers(uint8_t *s) {
    uint16_t block = no_block();
    uint32_t used = get_number(s + AT_USED);
    if (roll(2) && used) {
        set_number(s + AT_RESERVED, roll(2) ? used - 1 : roll(used));
        return;
    }
    s[AT_BLOCK] = (uint8_t)(block >> 8);
    s[AT_BLOCK + 1] = (uint8_t)block;
}

static void spoil_console(void) {
    uint8_t *s = given.state;
    switch (roll(8)) {
    case 0: s[CONSOLE_HELD + roll(3)] = (uint8_t)(2 + roll(254)); break;
    case 1: s[CONSOLE_HELD] ^= 1; break;
    case 2: set_number(s + AT_J, some_number()); break;
    case 3: set_number(s + CONSOLE_LAST, some_number()); break;
    case 4: s[CONSOLE_MESSAGE + roll(CELLS)] = (uint8_t)roll(256); break;
    case 5: set_number(s + AT_USED, some_number()); break;
    case 6: spoil_numbers(s); break;
    default: damage(s, NOOSELESS_CONSOLE_STATE_LEN);
    }
}

static void spoil_controller(void) {
    static const size_t numbers_at[] = {AT_USED, AT_J, CONTROLLER_I, CONTROLLER_LAST};
    uint8_t *s = given.state + BENCH_CONTROLLER;
    switch (roll(5)) {
    case 0: s[CONTROLLER_UP] = (uint8_t)(2 + roll(254)); break;
    case 1: case 2: set_number(s + numbers_at[roll(4)], some_number()); break;
    case 3: spoil_numbers(s); break;
    default: damage(s, NOOSELESS_CONTROLLER_STATE_LEN);
    }
}

static void spoil_length(void) {
    size_t *lengths[] = {&call.state_len, &call.out_len, &call.back_len};
    uint32_t which = roll(3), right = which == 0 ? NOOSELESS_BENCH_STATE_LEN : TABLE_BYTES;
    switch (roll(4)) {
    case 0: *lengths[which] = roll(right + AROUND); break;
    case 1: *lengths[which] = right - 1 + 2 * roll(2); break;
    case 2: *lengths[which] = right - PACKET_BYTES + 2 * PACKET_BYTES * roll(2); break;
    default: *lengths[which] = 0;
    }
}

/* A byte of a packet, a byte above the count, a packet of the other way, a packet above the count, none below it; a count. */
static void spoil_table(void) {
    int which = (int)roll(2);
    uint8_t *table = which ? given.back : given.out, *n = &given.state[BENCH_OUT + which];
    uint32_t used = *n * PACKET_BYTES;
    Direction way = which ? TO_CONSOLE : TO_CONTROLLER, other = which ? TO_CONTROLLER : TO_CONSOLE;
    uint32_t lot = roll(6);
    if (lot == 0 && used) {
        damage(table, used);
    } else if (lot == 1 && used < TABLE_BYTES) {
        damage(table + used, TABLE_BYTES - used);
    } else if (lot == 2 && used) {
        Packet p = good_packet(other);
        write_packet(&p, table + PACKET_BYTES * roll(*n), PACKET_BYTES);
    } else if (lot == 3 && *n < PLACES) {
        Packet p = good_packet(way);
        write_packet(&p, table + PACKET_BYTES * (*n + roll(PLACES - *n)), PACKET_BYTES);
    } else if (lot == 4 && used) {
        memset(table + PACKET_BYTES * roll(*n), 0, PACKET_BYTES);
    } else {
        *n = (uint8_t)(roll(2) ? roll(256) : *n - 1u + 2 * roll(2));
    }
}

void spoil(void) {
    switch (roll(8)) {
    case 0: case 1: spoil_console(); break;
    case 2: case 3: spoil_controller(); break;
    case 4: spoil_length(); break;
    case 5: damage(given.state, NOOSELESS_BENCH_STATE_LEN); break;
    default: spoil_table();
    }
}
