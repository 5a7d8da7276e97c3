/* Benches that no list reaches: any numbers, any packets, any faults. */
#include "../generate.h"
#include "tests.h"

#include <string.h>

#define ROUNDS 6000u

static uint32_t draw_number(Generator *generator)
{
    static const uint32_t numbers[] = {1, 2, 3, LARGEST_NUMBER - 1,
                                       LARGEST_NUMBER};

    return numbers[draw(generator, sizeof numbers / sizeof numbers[0])];
}

static uint32_t draw_number_up_to(Generator *generator, uint32_t largest)
{
    uint32_t number = draw_number(generator);

    return number <= largest ? number : largest;
}

static Numbers draw_numbers(Generator *generator)
{
    static const uint16_t blocks[] = {1, 2, FRESH_BLOCK, LARGEST_BLOCK};
    Numbers numbers = fresh_numbers(draw_number(generator));

    if (draw(generator, 2) == 0) {
        numbers.last_used = draw_number_up_to(generator, numbers.reserved);
    }
    numbers.block = blocks[draw(generator, sizeof blocks / sizeof blocks[0])];
    return numbers;
}

static void draw_message(Generator *generator, uint8_t message[CELLS])
{
    memset(message, (int)(0x20 + draw(generator, 0x5F)), CELLS);
}

static void draw_ends(Generator *generator, Bench *bench)
{
    Console *console = &bench->console;
    Controller *controller = &bench->controller;
    uint64_t mode = draw(generator, 9);

    *console = fresh_console(0);
    *controller = fresh_controller(0);
    console->numbers = draw_numbers(generator);
    controller->numbers = draw_numbers(generator);
    console->ack_ok = draw(generator, 2) == 0;
    console->down = draw(generator, 8) == 0;
    controller->down = draw(generator, 8) == 0;
    if (mode % 3 != 0) {
        console->held = true;
        draw_message(generator, console->message);
    }
    if (mode % 3 == 1) {
        console->j = draw_number_up_to(generator, console->numbers.last_used);
    } else if (mode % 3 == 2) {
        console->last = draw_number(generator);
    }
    if (mode / 3 == 1) {
        controller->j = draw_number(generator);
        controller->i =
            draw_number_up_to(generator, controller->numbers.last_used);
    } else if (mode / 3 == 2) {
        controller->last =
            draw_number_up_to(generator, controller->numbers.last_used);
    }
}

static void draw_channel(Generator *generator, Channel *channel,
                         const uint8_t kinds[3])
{
    static const size_t counts[] = {0, 1, 2, 30, 61, 62, 63, 64};
    size_t count = counts[draw(generator, sizeof counts / sizeof counts[0])];

    for (size_t place = 0; place < count; place++) {
        uint8_t kind = kinds[draw(generator, 3)];
        Packet packet = make_packet(kind, draw_number(generator), 0);

        if (kind == OFFER) {
            packet.second = draw_number(generator);
        }
        if (kind == DATA) {
            draw_message(generator, packet.message);
        }
        set_packet(channel, place, &packet);
    }
}

static void draw_record(Generator *generator, ListRecord *record)
{
    record->letter = (uint8_t)"PQDSCVOKRXYLMARSRSQDOKZ"[draw(generator, 23)];
    record->place = (size_t)draw(generator, draw(generator, 2) ? 3 : 66);
    record->copies = (size_t)draw(generator, 5);
    draw_message(generator, record->message);
    if (draw(generator, 10) == 0) {
        record->message[draw(generator, CELLS)] = 0x7F;
    }
}

/* A byte of a table or of an end that may be well formed after it or not. */
static void draw_fault(Generator *generator, Fixture *f)
{
    uint8_t byte = (uint8_t)draw(generator, 256);

    switch (draw(generator, 7)) {
    case 0:
        f->to_controller[draw(generator, TABLE_BYTES)] = byte;
        break;
    case 1:
        f->to_console[draw(generator, TABLE_BYTES)] = byte;
        break;
    case 2:
        f->bench.to_console.count += byte;
        break;
    case 3:
        f->bench.console.last = byte;
        break;
    case 4:
        f->bench.console.numbers.block = (uint16_t)(8 * byte);
        break;
    case 5:
        f->bench.controller.numbers.reserved = byte;
        break;
    default:
        f->bench.controller.last = byte;
        break;
    }
}

/* What a step that was accepted may do to the counts. */
static void check_counts(const Bench *before, const Bench *after,
                         const ListRecord *record)
{
    const Action *action = find_action(record->letter);
    bool from_to_controller = record->letter == 'R' || record->letter == 'L';
    size_t source_before = from_to_controller ? before->to_controller.count
                                              : before->to_console.count;
    size_t source_after = from_to_controller ? after->to_controller.count
                                             : after->to_console.count;
    size_t all_before = before->to_controller.count + before->to_console.count;
    size_t all_after = after->to_controller.count + after->to_console.count;
    size_t taken = action->place ? 1 : 0;

    CHECK(all_after + taken == all_before ||
          (action->copies && all_after + taken == all_before + record->copies));
    CHECK(!action->place || source_after + 1 == source_before);
}

static void check_bench(Fixture *f, const ListRecord *record)
{
    Fixture before;
    uint8_t bytes[PACKET_BYTES] = {0};
    const Action *action = find_action(record->letter);
    bool well_formed = bench_well_formed(&f->bench);

    memcpy(&before, f, sizeof before);
    if (action != NULL && action->place && well_formed) {
        get_packet(&f->bench, record, bytes);
    }
    Outcome outcome = bench_step(&f->bench, record->letter, record->place,
                                 record->copies, record->message);
    int refusal = outcome.refusal;
    CHECK((refusal == BAD_RECORD) == (action == NULL));
    CHECK(action == NULL || (refusal == ILL_FORMED) == !well_formed);
    if (refusal != ACCEPTED) {
        CHECK(is_refusal(&outcome, refusal) && same_bench(f, &before));
    } else {
        CHECK(bench_well_formed(&f->bench));
        check_counts(&before.bench, &f->bench, record);
    }
    if (action != NULL && action->actor != AIR && well_formed &&
        refusal != NO_SUCH_PLACE && refusal != NO_ROOM &&
        refusal != TOO_MANY_COPIES && bytes[0] == (action->place ? 'H' : 0)) {
        check_alone(&before.bench, &f->bench, record, bytes, &outcome);
    }
}

void test_arbitrary_benches(void)
{
    static const uint8_t to_controller[] = {NEED_I, DATA, DONE};
    static const uint8_t to_console[] = {OFFER, OK, LOST};
    static Generator generator;
    static Fixture f;

    start_generator(&generator, 1);
    for (unsigned round = 0; round < ROUNDS; round++) {
        ListRecord record;

        start(&f, 0, 0);
        draw_ends(&generator, &f.bench);
        draw_channel(&generator, &f.bench.to_controller, to_controller);
        draw_channel(&generator, &f.bench.to_console, to_console);
        CHECK(bench_well_formed(&f.bench));
        if (draw(&generator, 8) == 0) {
            draw_fault(&generator, &f);
        }
        draw_record(&generator, &record);
        check_bench(&f, &record);
    }
}
