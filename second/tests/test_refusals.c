/* What the bench refuses, in which order, and what it does not look at. */
#include "tests.h"

#include <string.h>

static const char all_letters[] = "PQDSCVOKRXYLMA";

/* A step with everything that is handed to it. */
typedef struct {
    Fixture f;
    uint8_t letter;
    size_t place;
    size_t copies;
    uint8_t message[CELLS];
} Trial;

typedef struct {
    int refusal;
    void (*spoil)(Trial *trial);
    const char *letters; /* those it can come to */
} Fault;

static Outcome run_trial(Trial *trial)
{
    return bench_step(&trial->f.bench, trial->letter, trial->place,
                      trial->copies, trial->message);
}

static void spoil_letter(Trial *trial)
{
    trial->letter = (uint8_t)(trial->letter + 'a' - 'A');
}

static void spoil_bench(Trial *trial)
{
    trial->f.to_controller[TABLE_BYTES - 1] = 1;
}

static void spoil_cell(Trial *trial)
{
    trial->message[0] = 0x1F;
}

static void raise_copies(Trial *trial)
{
    trial->copies = MOST_COPIES + 1;
}

static void take_down(Trial *trial)
{
    trial->f.bench.console.down = true;
    trial->f.bench.controller.down = true;
}

static void bring_up(Trial *trial)
{
    trial->f.bench.console.down = false;
    trial->f.bench.controller.down = false;
}

static void hold(Console *console, JNumber j, INumber last)
{
    console->held = true;
    console->j = j;
    console->last = last;
    set_message(console->message, "HELD");
}

/* P A with a message held; Q D O K with the other number set. */
static void change_mode(Trial *trial)
{
    bool needs_last = trial->letter == 'D' || trial->letter == 'K';
    Controller *controller = &trial->f.bench.controller;

    hold(&trial->f.bench.console, needs_last ? 5 : 0, needs_last ? 0 : 7);
    controller->j = needs_last ? 3 : 0;
    controller->i = needs_last ? 6 : 0;
    controller->last = needs_last ? 0 : 6;
}

static void spend_numbers(Trial *trial)
{
    trial->f.bench.console.numbers = fresh_numbers(LARGEST_NUMBER);
}

static void raise_place(Trial *trial)
{
    trial->place = PLACES;
}

static void raise_i(Trial *trial)
{
    Packet data = make_data(9, (const uint8_t *)"ABCDEFGHIJKLMNOP");

    set_packet(&trial->f.bench.to_controller, 0, &data);
}

/* One place fewer is free in the target than there are copies. */
static void fill_target(Trial *trial)
{
    Bench *bench = &trial->f.bench;

    fill_channel(&bench->to_controller, DONE);
    fill_channel(&bench->to_console, LOST);
    for (size_t n = 1; n < trial->copies; n++) {
        take_out(&bench->to_controller, 1);
        take_out(&bench->to_console, 1);
    }
}

/* In the order of document 01. */
static const Fault faults[] = {
    {1, spoil_letter, "PQDSCVOKRXYLMA"},
    {2, spoil_bench, "PQDSCVOKRXYLMA"},
    {11, spoil_cell, "P"},
    {10, raise_copies, "QDSOKR"},
    {4, take_down, "PQDSOKRA"},
    {5, bring_up, "VY"},
    {6, change_mode, "PQDOKA"},
    {8, spend_numbers, "P"},
    {3, raise_place, "SRLM"},
    {7, raise_i, "R"},
    {9, fill_target, "QDSOKR"},
};

#define FAULTS (sizeof faults / sizeof faults[0])

/* A bench on which the letter is accepted, and has something to send; with
 * numbers that are reserved and not used. */
static void start_good(Trial *trial, char letter, size_t copies)
{
    Bench *bench = &trial->f.bench;
    Packet data = make_data(4, (const uint8_t *)"ABCDEFGHIJKLMNOP");
    Packet ok = make_packet(OK, 4, 0);

    memset(trial, 0, sizeof *trial);
    start(&trial->f, 5, 8);
    bench->console.numbers.reserved = 64;
    bench->controller.numbers.reserved = 64;
    set_packet(&bench->to_controller, 0, &data);
    set_packet(&bench->to_console, 0, &ok);
    if (letter == 'Q' || letter == 'D') {
        hold(&bench->console, letter == 'Q' ? 5 : 0, letter == 'D' ? 7 : 0);
    }
    bench->controller.j = letter == 'O' ? 3 : 0;
    bench->controller.i = letter == 'O' ? 6 : 0;
    bench->controller.last = letter == 'K' ? 6 : 0;
    bench->console.ack_ok = true;
    bench->console.down = letter == 'V';
    bench->controller.down = letter == 'Y';
    trial->letter = (uint8_t)letter;
    trial->copies = copies;
    set_message(trial->message, "NEW");
}

/* Applies a set of faults; false if one cannot come to the letter. */
static bool apply_faults(Trial *trial, unsigned set, int *wanted)
{
    char letter = (char)trial->letter;

    *wanted = ACCEPTED;
    for (size_t n = FAULTS; n > 0; n--) {
        if (set >> (n - 1) & 1u) {
            if (strchr(faults[n - 1].letters, letter) == NULL) {
                return false;
            }
            faults[n - 1].spoil(trial);
            *wanted = faults[n - 1].refusal;
        }
    }
    return true;
}

static void check_fault_set(char letter, size_t copies, unsigned set)
{
    Trial trial;
    Fixture before;
    int wanted;

    start_good(&trial, letter, copies);
    if (!apply_faults(&trial, set, &wanted)) {
        return;
    }
    memcpy(&before, &trial.f, sizeof before);
    Outcome outcome = run_trial(&trial);
    if (wanted == ACCEPTED) {
        CHECK(outcome.refusal == ACCEPTED && outcome.report != REFUSED);
        CHECK(bench_well_formed(&trial.f.bench));
    } else {
        CHECK(is_refusal(&outcome, wanted));
        CHECK(same_bench(&trial.f, &before));
    }
}

/* Only the fourteen letters are actions, on an ill-formed bench too. */
static void check_letters(void)
{
    for (unsigned letter = 0; letter < 256; letter++) {
        Trial trial;
        bool action = letter != 0 && strchr(all_letters, (int)letter) != NULL;

        start_good(&trial, 'Q', 1);
        trial.letter = (uint8_t)letter;
        CHECK((run_trial(&trial).refusal == BAD_RECORD) != action);
        spoil_bench(&trial);
        CHECK(run_trial(&trial).refusal ==
              (action ? ILL_FORMED : BAD_RECORD));
    }
}

/* 10 and 3 for any number above, however large. */
static void check_huge(void)
{
    static const size_t huge[] = {4, 255, 256, 65536, SIZE_MAX};

    for (size_t n = 0; n < sizeof huge / sizeof huge[0]; n++) {
        Trial trial;

        start_good(&trial, 'R', huge[n]);
        CHECK(run_trial(&trial).refusal == TOO_MANY_COPIES);
        start_good(&trial, 'R', 1);
        trial.place = huge[n];
        CHECK(run_trial(&trial).refusal == NO_SUCH_PLACE);
    }
}

void test_bench_refusals(void)
{
    for (size_t n = 0; all_letters[n] != '\0'; n++) {
        for (unsigned set = 0; set < 1u << FAULTS; set++) {
            check_fault_set(all_letters[n], 1, set);
            check_fault_set(all_letters[n], 3, set);
        }
    }
    check_letters();
    check_huge();
}

static void check_every_letter_is(const Fixture *f, int wanted)
{
    for (size_t n = 0; all_letters[n] != '\0'; n++) {
        Fixture run;
        Fixture before;
        uint8_t message[CELLS];

        copy_fixture(&run, f);
        memcpy(&before, &run, sizeof before);
        set_message(message, "ROW");
        Outcome outcome =
            bench_step(&run.bench, (uint8_t)all_letters[n], 0, 0, message);
        CHECK((outcome.refusal == ILL_FORMED) == (wanted == ILL_FORMED));
        CHECK(wanted != ILL_FORMED || same_bench(&run, &before));
    }
}

/* Both ends are looked at in every action. */
static void check_ill_formed_parts(void)
{
    Fixture f;

    start(&f, 5, 8);
    f.bench.console.message[0] = 'A';
    check_every_letter_is(&f, ILL_FORMED);
    start(&f, 5, 8);
    f.bench.controller.j = 1;
    check_every_letter_is(&f, ILL_FORMED);
    start(&f, 5, 8);
    hold(&f.bench.console, 6, 0);
    check_every_letter_is(&f, ILL_FORMED);
    start(&f, 5, 8);
    f.bench.controller.last = 9;
    check_every_letter_is(&f, ILL_FORMED);
    start(&f, 5, 8);
    f.bench.console.numbers.reserved = 4;
    check_every_letter_is(&f, ILL_FORMED);
    start(&f, 5, 8);
    f.bench.controller.numbers.block = LARGEST_BLOCK + 1;
    check_every_letter_is(&f, ILL_FORMED);
    start(&f, 5, 8);
    check_every_letter_is(&f, ACCEPTED);
}

static void check_table_and_count(Fixture *f, Channel *channel)
{
    static const size_t lengths[] = {0, 32, 2016, 2047, 2049, 2080, SIZE_MAX};
    static const size_t counts[] = {65, 66, 128, 65536, SIZE_MAX};

    for (size_t n = 0; n < sizeof lengths / sizeof lengths[0]; n++) {
        start(f, 0, 0);
        channel->length = lengths[n];
        check_every_letter_is(f, ILL_FORMED);
    }
    start(f, 0, 0);
    channel->table = NULL;
    channel->length = 0;
    check_every_letter_is(f, ILL_FORMED);
    for (size_t n = 0; n < sizeof counts / sizeof counts[0]; n++) {
        start(f, 0, 0);
        fill_channel(channel, channel == &f->bench.to_console ? OK : DONE);
        channel->count = counts[n];
        check_every_letter_is(f, ILL_FORMED);
    }
}

/* Places below the count hold packets of that direction, the others zeros. */
static void check_contents(Fixture *f, Channel *channel, uint8_t good,
                           uint8_t other)
{
    Packet packet = make_packet(good, 1, 0);
    Packet wrong = make_packet(other, 1, 0);

    start(f, 0, 1);
    set_packet(channel, 0, &packet);
    set_packet(channel, 1, &packet);
    check_every_letter_is(f, ACCEPTED);
    channel->count = 1;
    check_every_letter_is(f, ILL_FORMED);
    channel->count = 3;
    check_every_letter_is(f, ILL_FORMED);
    channel->count = 2;
    set_packet(channel, 1, &wrong);
    check_every_letter_is(f, ILL_FORMED);
    set_packet(channel, 1, &packet);
    place_in(channel, 1)[31] = 1;
    check_every_letter_is(f, ILL_FORMED);
    set_packet(channel, 1, &packet);
    place_in(channel, 63)[31] = 1;
    check_every_letter_is(f, ILL_FORMED);
    place_in(channel, 63)[31] = 0;
    place_in(channel, 2)[0] = 1;
    check_every_letter_is(f, ILL_FORMED);
}

/* Nothing is compared between the ends, nor a packet's number with an end's. */
static void check_numbers_not_compared(void)
{
    Fixture f;
    Packet offer = make_packet(OFFER, LARGEST_NUMBER, LARGEST_NUMBER);
    Packet done = make_packet(DONE, LARGEST_NUMBER, 0);

    start(&f, 1, 1);
    hold(&f.bench.console, 0, LARGEST_NUMBER);
    f.bench.controller.j = LARGEST_NUMBER;
    f.bench.controller.i = 1;
    set_packet(&f.bench.to_controller, 0, &done);
    set_packet(&f.bench.to_console, 0, &offer);
    check_every_letter_is(&f, ACCEPTED);
}

void test_ill_formed_benches(void)
{
    Fixture f;

    check_ill_formed_parts();
    check_table_and_count(&f, &f.bench.to_controller);
    check_table_and_count(&f, &f.bench.to_console);
    check_contents(&f, &f.bench.to_controller, DONE, LOST);
    check_contents(&f, &f.bench.to_console, LOST, DONE);
    check_numbers_not_compared();
}

void test_unused_fields(void)
{
    for (size_t n = 0; all_letters[n] != '\0'; n++) {
        const Action *action = find_action((uint8_t)all_letters[n]);
        Trial plain;
        Trial wild;

        start_good(&plain, all_letters[n], 1);
        start_good(&wild, all_letters[n], 1);
        Outcome one = run_trial(&plain);
        const uint8_t *message = action->message ? wild.message : NULL;
        Outcome other = bench_step(&wild.f.bench, wild.letter,
                                   action->place ? 0 : SIZE_MAX,
                                   action->copies ? 1 : SIZE_MAX, message);
        CHECK(one.refusal == ACCEPTED && other.refusal == ACCEPTED);
        CHECK(one.report == other.report);
        CHECK(plain.f.bench.console.ack_ok == wild.f.bench.console.ack_ok);
        CHECK(memcmp(plain.f.to_controller, wild.f.to_controller,
                     TABLE_BYTES) == 0);
        CHECK(memcmp(plain.f.to_console, wild.f.to_console, TABLE_BYTES) == 0);
        CHECK(plain.f.bench.to_console.count == wild.f.bench.to_console.count);
        CHECK(plain.f.bench.to_controller.count ==
              wild.f.bench.to_controller.count);
    }
}
