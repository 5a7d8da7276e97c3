/* An end's numbers: taken, not taken, coming back, and what is kept of them. */
#include "box.h"

#include <string.h>

#define LARGEST LARGEST_NUMBER

/* An idle end with these numbers, a needI at hand. */
static void start_with(Box *box, Actor end, Numbers numbers)
{
    if (end == CONSOLE) {
        start_console_box(box, 0);
    } else {
        start_controller_box(box, 0);
        set_packet_in(box, NEED_I, 3, 0);
    }
    box->console.numbers = numbers;
    box->controller.numbers = numbers;
}

static const Numbers *numbers_of(const Box *box)
{
    return box->end == CONSOLE ? &box->console.numbers
                               : &box->controller.numbers;
}

/* The number that stands where a new one is put: j or i. */
static uint32_t given(const Box *box)
{
    return box->end == CONSOLE ? box->console.j : box->controller.i;
}

/* A put, or a needI at an idle controller. */
static Outcome ask_number(Box *box)
{
    return run_box(box, box->end == CONSOLE ? 'P' : 'R');
}

static void make_idle(Box *box)
{
    set_console(box, 0, 0);
    box->controller.j = 0;
    box->controller.i = 0;
}

/* Numbers before, and last used and reserved after one was taken. */
static const struct {
    Numbers before;
    uint32_t last_used;
    uint32_t reserved;
} taken[] = {
    {{0, 0, 64}, 1, 64},
    {{1, 64, 64}, 2, 64},
    {{63, 64, 64}, 64, 64},
    {{64, 64, 64}, 65, 128},
    {{0, 0, 1}, 1, 1},
    {{5, 5, 1}, 6, 6},
    {{5, 6, 1}, 6, 6},
    {{5, 5, 1024}, 6, 1029},
    {{5, 2000, 7}, 6, 2000},
    {{65535, 65535, 2}, 65536, 65537},
    {{LARGEST - 3, LARGEST - 3, 1024}, LARGEST - 2, LARGEST},
    {{LARGEST - 65, LARGEST - 65, 64}, LARGEST - 64, LARGEST - 1},
    {{LARGEST - 64, LARGEST - 64, 64}, LARGEST - 63, LARGEST},
    {{LARGEST - 63, LARGEST - 63, 64}, LARGEST - 62, LARGEST},
    {{LARGEST - 1, LARGEST - 1, 1}, LARGEST, LARGEST},
    {{LARGEST - 1, LARGEST - 1, 64}, LARGEST, LARGEST},
    {{LARGEST - 9, LARGEST, 64}, LARGEST - 8, LARGEST},
    {{LARGEST - 1, LARGEST, 64}, LARGEST, LARGEST},
};

static void check_taken(Actor end)
{
    for (size_t n = 0; n < sizeof taken / sizeof taken[0]; n++) {
        Box box;

        start_with(&box, end, taken[n].before);
        CHECK(ask_number(&box).report == NOTHING);
        CHECK(given(&box) == taken[n].last_used);
        CHECK(numbers_are(numbers_of(&box), taken[n].last_used,
                          taken[n].reserved, taken[n].before.block));
    }
}

/* Spent is last used at the largest, however much is reserved. */
static void check_spent(Actor end)
{
    static const Numbers low = {LARGEST - 9, LARGEST, 64};
    Box box;

    start_with(&box, end, low);
    for (uint32_t n = 0; n < 9; n++) {
        CHECK(ask_number(&box).refusal == ACCEPTED);
        CHECK(given(&box) == LARGEST - 8 + n);
        make_idle(&box);
    }
    CHECK(ask_number(&box).refusal == (end == CONSOLE ? J_SPENT : ACCEPTED));
    CHECK(given(&box) == 0);
    CHECK(numbers_are(numbers_of(&box), LARGEST, LARGEST, 64));
}

/* With all that is reserved used: no number is needed, so reserved stays. */
static void check_put_refused(void)
{
    static const Numbers used_up = {5, 5, 64};
    Box box;

    start_with(&box, CONSOLE, used_up);
    set_console(&box, 5, 0);
    CHECK(run_box(&box, 'P').refusal == WRONG_MODE);
    set_console(&box, 0, 9);
    CHECK(run_box(&box, 'P').refusal == WRONG_MODE);
    set_console(&box, 0, 0);
    box.message[4] = 0x7F;
    CHECK(run_box(&box, 'P').refusal == NOT_A_CELL);
    set_message(box.message, "GOOD");
    box.console.down = true;
    CHECK(run_box(&box, 'P').refusal == END_IS_DOWN);
    CHECK(same_numbers(&box.console.numbers, &used_up));
}

static void check_need_i_dropped(void)
{
    static const Numbers used_up = {5, 5, 64};
    Box box;

    start_with(&box, CONTROLLER, used_up);
    box.controller.j = 2;
    box.controller.i = 5;
    CHECK(run_box(&box, 'R').refusal == ACCEPTED);
    CHECK(controller_is(&box.controller, 5, 2, 5, 0, false));
    make_idle(&box);
    box.controller.last = 5;
    CHECK(run_box(&box, 'R').refusal == ACCEPTED);
    CHECK(controller_is(&box.controller, 5, 0, 0, 5, false));
    box.controller.last = 0;
    box.controller.down = true;
    CHECK(run_box(&box, 'R').refusal == END_IS_DOWN);
    CHECK(same_numbers(&box.controller.numbers, &used_up));
}

/* Nothing but a number that is taken, or coming back, moves them. */
static void check_numbers_stay(void)
{
    static const Numbers some[] = {{5, 5, 64}, {5, 64, 7}, {5, LARGEST, 64}};

    for (size_t n = 0; n < sizeof some / sizeof some[0]; n++) {
        Box box;

        start_with(&box, CONSOLE, some[n]);
        set_console(&box, 5, 0);
        CHECK(run_box(&box, 'Q').refusal == ACCEPTED);
        set_packet_in(&box, OFFER, 5, 9);
        CHECK(run_box(&box, 'S').refusal == ACCEPTED);
        CHECK(run_box(&box, 'D').refusal == ACCEPTED);
        set_packet_in(&box, OK, 9, 0);
        CHECK(run_box(&box, 'S').refusal == ACCEPTED);
        CHECK(run_box(&box, 'A').report == ANSWERED_OK);
        CHECK(run_box(&box, 'V').refusal == END_IS_UP);
        CHECK(run_box(&box, 'C').refusal == ACCEPTED);
        CHECK(run_box(&box, 'C').refusal == ACCEPTED);
        CHECK(same_numbers(&box.console.numbers, &some[n]));

        start_with(&box, CONTROLLER, some[n]);
        box.controller.j = 2;
        box.controller.i = 5;
        CHECK(run_box(&box, 'O').refusal == ACCEPTED);
        set_packet_in(&box, DATA, 5, 0);
        CHECK(run_box(&box, 'R').report == DELIVERED);
        CHECK(run_box(&box, 'K').refusal == ACCEPTED);
        set_packet_in(&box, DONE, 5, 0);
        CHECK(run_box(&box, 'R').refusal == ACCEPTED);
        CHECK(run_box(&box, 'Y').refusal == END_IS_UP);
        CHECK(run_box(&box, 'X').refusal == ACCEPTED);
        CHECK(run_box(&box, 'X').refusal == ACCEPTED);
        CHECK(same_numbers(&box.controller.numbers, &some[n]));
    }
}

/* Coming back uses all that was reserved; a block is reserved when needed. */
static void check_back(Actor end)
{
    static const Numbers some = {5, 64, 7};
    static const Numbers low = {LARGEST - 9, LARGEST, 64};
    char down = end == CONSOLE ? 'C' : 'X';
    char back = end == CONSOLE ? 'V' : 'Y';
    Box box;

    start_with(&box, end, some);
    run_box(&box, down);
    CHECK(run_box(&box, back).refusal == ACCEPTED);
    CHECK(numbers_are(numbers_of(&box), 64, 64, 7));
    run_box(&box, down);
    CHECK(run_box(&box, back).refusal == ACCEPTED);
    CHECK(numbers_are(numbers_of(&box), 64, 64, 7));
    CHECK(ask_number(&box).refusal == ACCEPTED && given(&box) == 65);
    CHECK(numbers_are(numbers_of(&box), 65, 71, 7));
    /* reserved up to the largest: they are spent now */
    start_with(&box, end, low);
    run_box(&box, down);
    CHECK(run_box(&box, back).refusal == ACCEPTED);
    CHECK(numbers_are(numbers_of(&box), LARGEST, LARGEST, 64));
    CHECK(ask_number(&box).refusal == (end == CONSOLE ? J_SPENT : ACCEPTED));
    CHECK(given(&box) == 0);
}

/* How often the record is another than before, over so many numbers. */
static unsigned records_changed(Actor end, uint16_t block, unsigned numbers)
{
    Numbers from = {0, 0, block};
    unsigned changed = 0;
    Box box;

    start_with(&box, end, from);
    for (unsigned n = 0; n < numbers; n++) {
        uint8_t before[NUMBER_RECORD_BYTES];
        uint8_t after[NUMBER_RECORD_BYTES];
        NumberRecord record = record_numbers(1, numbers_of(&box));

        write_number_record(&record, before, sizeof before);
        ask_number(&box);
        CHECK(given(&box) == n + 1);
        record = record_numbers(1, numbers_of(&box));
        write_number_record(&record, after, sizeof after);
        changed += memcmp(before, after, sizeof after) != 0;
        make_idle(&box);
    }
    return changed;
}

static void check_flash(Actor end)
{
    CHECK(records_changed(end, 64, 640) == 10);
    CHECK(records_changed(end, 64, 641) == 11);
    CHECK(records_changed(end, 1, 640) == 640);
    CHECK(records_changed(end, 1024, 1024) == 1);
    CHECK(records_changed(end, 7, 640) == 92);
}

/* On a bench each end has its own. */
static void check_on_the_bench(void)
{
    Fixture f;

    CHECK(play_fresh(&f, "P Q1"));
    CHECK(numbers_are(&f.bench.console.numbers, 1, 64, 64));
    CHECK(numbers_are(&f.bench.controller.numbers, 0, 0, 64));
    CHECK(play(&f, "R0"));
    CHECK(numbers_are(&f.bench.controller.numbers, 1, 64, 64));
    CHECK(play(&f, "C V"));
    CHECK(numbers_are(&f.bench.console.numbers, 64, 64, 64));
    CHECK(numbers_are(&f.bench.controller.numbers, 1, 64, 64));
    CHECK(play(&f, "P X Y Q2 R0 R0"));
    CHECK(numbers_are(&f.bench.console.numbers, 65, 128, 64));
    CHECK(numbers_are(&f.bench.controller.numbers, 65, 128, 64));
    start(&f, 0, 0);
    f.bench.console.numbers.block = 1;
    CHECK(play(&f, "P P=06"));
    CHECK(numbers_are(&f.bench.console.numbers, 1, 1, 1));
    start(&f, LARGEST - 10, LARGEST - 10);
    CHECK(play(&f, "P Q2 R0 C V P=08 X Y R0 O1=06"));
    /* 7 is for what was never given, reserved or not */
    start(&f, 0, 3);
    f.bench.controller.numbers.reserved = 64;
    Packet done = make_packet(DONE, 4, 0);
    set_packet(&f.bench.to_controller, 0, &done);
    CHECK(play(&f, "R0=07"));
    f.bench.controller.numbers.last_used = 4;
    CHECK(play(&f, "R0"));
}

void test_numbers(void)
{
    check_put_refused();
    check_need_i_dropped();
    check_numbers_stay();
    check_on_the_bench();
    for (Actor end = CONSOLE; end <= CONTROLLER; end++) {
        check_taken(end);
        check_spent(end);
        check_back(end);
        check_flash(end);
    }
}

static const struct {
    Numbers numbers;
    bool good;
} forms[] = {
    {{5, 5, 64}, true},       {{5, 6, 64}, true},
    {{5, 4, 64}, false},      {{5, 0, 64}, false},
    {{0, 0, 64}, true},       {{0, LARGEST, 1}, true},
    {{LARGEST, LARGEST, 64}, true},
    {{LARGEST, LARGEST - 1, 64}, false},
    {{5, 5, 0}, false},       {{5, 5, 1}, true},
    {{5, 5, 1024}, true},     {{5, 5, 1025}, false},
    {{5, 5, 65535}, false},   {{5, 4, 0}, false},
};

/* j, i and last are at most last used, not only at most reserved. */
static void check_at_most_last_used(void)
{
    static const Numbers some = {5, 64, 64};
    Box box;

    start_with(&box, CONSOLE, some);
    set_console(&box, 5, 0);
    check_all_letters(&box, true);
    set_console(&box, 6, 0);
    check_all_letters(&box, false);
    set_console(&box, 64, 0);
    check_all_letters(&box, false);
    set_console(&box, 0, 65);
    check_all_letters(&box, true);
    start_with(&box, CONTROLLER, some);
    box.controller.last = 5;
    check_all_letters(&box, true);
    box.controller.last = 6;
    check_all_letters(&box, false);
    box.controller.last = 0;
    box.controller.j = 65;
    box.controller.i = 6;
    check_all_letters(&box, false);
    box.controller.i = 5;
    check_all_letters(&box, true);
}

void test_ill_formed_numbers(void)
{
    for (size_t n = 0; n < sizeof forms / sizeof forms[0]; n++) {
        for (Actor end = CONSOLE; end <= CONTROLLER; end++) {
            Box box;

            start_with(&box, end, forms[n].numbers);
            set_packet_in(&box, end == CONSOLE ? OK : NEED_I, 3, 0);
            check_all_letters(&box, forms[n].good);
            box.console.down = true;
            box.controller.down = true;
            check_all_letters(&box, forms[n].good);
        }
    }
    check_at_most_last_used();
}

/* An end started from its record and brought back is what it would be had it
 * gone down and come back. */
static void check_loss_is_a_crash(Numbers numbers, uint32_t j, uint32_t i)
{
    Box box;

    start_with(&box, CONSOLE, numbers);
    set_console(&box, j, 0);
    box.console.ack_ok = true;
    NumberRecord record = console_record(&box.console);
    CHECK(record.end == CONSOLE_RECORD && !record.old);
    CHECK(record.number == numbers.reserved && record.block == numbers.block);
    Console console = console_after_power_loss(&record);
    CHECK(console_well_formed(&console));
    CHECK(console_is(&console, numbers.reserved, false, 0, 0, true));
    CHECK(message_is(console.message, "") && !console.ack_ok);
    CHECK(numbers_are(&console.numbers, numbers.reserved, numbers.reserved,
                      numbers.block));
    run_box(&box, 'C');
    run_box(&box, 'V');
    CHECK(same_numbers(&box.console.numbers, &console.numbers));

    start_with(&box, CONTROLLER, numbers);
    box.controller.last = i;
    record = controller_record(&box.controller);
    CHECK(record.end == CONTROLLER_RECORD && !record.old);
    CHECK(record.number == numbers.reserved && record.block == numbers.block);
    Controller controller = controller_after_power_loss(&record);
    CHECK(controller_well_formed(&controller));
    CHECK(controller_is(&controller, numbers.reserved, 0, 0, 0, true));
    run_box(&box, 'X');
    run_box(&box, 'Y');
    CHECK(same_numbers(&box.controller.numbers, &controller.numbers));
}

/* A record of version 1 is carried to version 2 first. */
static void check_loss_with_old_record(void)
{
    NumberRecord record = {CONSOLE_RECORD, true, 17, 0};
    Box box;

    start_console_box(&box, 0);
    box.console = console_after_power_loss(&record);
    CHECK(console_is(&box.console, 17, false, 0, 0, true));
    CHECK(numbers_are(&box.console.numbers, 17, 17, 64));
    CHECK(run_box(&box, 'V').refusal == ACCEPTED);
    CHECK(ask_number(&box).refusal == ACCEPTED && given(&box) == 18);
    CHECK(numbers_are(&box.console.numbers, 18, 81, 64));

    record = (NumberRecord){CONTROLLER_RECORD, true, LARGEST, 0};
    Controller controller = controller_after_power_loss(&record);
    CHECK(controller_is(&controller, LARGEST, 0, 0, 0, true));
    CHECK(numbers_are(&controller.numbers, LARGEST, LARGEST, 64));
}

void test_power_loss(void)
{
    static const Numbers some[] = {{0, 0, 64},      {1, 64, 64},
                                   {64, 64, 1},     {5, 2000, 1024},
                                   {5, LARGEST, 7}, {LARGEST, LARGEST, 64}};

    for (size_t n = 0; n < sizeof some / sizeof some[0]; n++) {
        uint32_t number = some[n].last_used;

        check_loss_is_a_crash(some[n], 0, 0);
        check_loss_is_a_crash(some[n], number, 0);
        check_loss_is_a_crash(some[n], 0, number);
    }
    check_loss_with_old_record();
}
