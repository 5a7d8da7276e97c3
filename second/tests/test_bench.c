/* The bench checks of document 01, and the mistakes that are easy to make. */
#include "tests.h"

#include <string.h>

static void check_numbers_spent(void)
{
    Fixture f;

    start(&f, LARGEST_NUMBER - 1, 0);
    CHECK(play(&f, "P"));
    CHECK(console_is(&f.bench.console, LARGEST_NUMBER, true, LARGEST_NUMBER, 0,
                     false));
    start(&f, LARGEST_NUMBER, 0);
    CHECK(play(&f, "P=08"));
    CHECK(console_is(&f.bench.console, LARGEST_NUMBER, false, 0, 0, false));
    start(&f, 0, LARGEST_NUMBER);
    CHECK(play(&f, "P Q1 R0"));
    CHECK(controller_is(&f.bench.controller, LARGEST_NUMBER, 0, 0, 0, false));
    CHECK(f.bench.to_controller.count == 0);
    start(&f, 0, LARGEST_NUMBER - 1);
    CHECK(play(&f, "P Q2 R0 O1"));
    CHECK(packet_at_is(&f.bench.to_console, 0, OFFER, 1, LARGEST_NUMBER));
}

static void check_down(void)
{
    Fixture f;
    uint8_t message[CELLS];

    CHECK(play_fresh(&f, "V=05 C C"));
    set_message(message, "GOOD ROW");
    f.last = bench_step(&f.bench, 'P', 0, 0, message);
    CHECK(is_refusal(&f.last, END_IS_DOWN));
    message[3] = 0x7F;
    f.last = bench_step(&f.bench, 'P', 0, 0, message);
    CHECK(is_refusal(&f.last, NOT_A_CELL));
    CHECK(play_fresh(&f, "Y=05 X X Y Y=05"));
}

static void check_lost_although_delivered(void)
{
    Fixture f;

    CHECK(play_fresh(&f, "PSTART Q1 R0 O1 S0 D2 R0:1=DL"));
    CHECK(message_is(f.last.message, "START"));
    CHECK(play(&f, "X Y D1 R0:1"));
    CHECK(f.bench.to_console.count == 2);
    CHECK(packet_at_is(&f.bench.to_console, 0, OK, 1, 0));
    CHECK(packet_at_is(&f.bench.to_console, 1, LOST, 1, 0));
    CHECK(play(&f, "S1"));
    CHECK(message_is(f.last.message, ""));
    CHECK(console_is(&f.bench.console, 1, false, 0, 0, false));
    CHECK(numbers_are(&f.bench.controller.numbers, 64, 64, 64));
    CHECK(play(&f, "A=LO"));
    CHECK(play_fresh(&f, "PSTART Q1 R0 O1 S0 D2 R0:1=DL X Y D1 R0:1 S0 A=OK"));
}

static void check_delivered_while_next_held(void)
{
    Fixture f;

    CHECK(play_fresh(&f, "Pa Q1 R0 O1 S0 D1 C V Pb R0=DL"));
    CHECK(message_is(f.last.message, "a"));
    CHECK(console_is(&f.bench.console, 65, true, 65, 0, false));
    CHECK(numbers_are(&f.bench.console.numbers, 65, 128, 64));
    CHECK(message_is(f.bench.console.message, "b"));
}

static void check_done_frees_controller(void)
{
    Fixture f;

    CHECK(play_fresh(&f, "P Q1 R0 O1 C V P S0:1"));
    CHECK(packet_at_is(&f.bench.to_controller, 0, DONE, 1, 0));
    CHECK(controller_is(&f.bench.controller, 1, 1, 1, 0, false));
    CHECK(play(&f, "R0"));
    CHECK(controller_is(&f.bench.controller, 1, 0, 0, 0, false));
}

static void check_full(void)
{
    Fixture f;

    CHECK(play_fresh(&f, "P Q3 Q3 Q3 Q3 Q3 Q3 Q3 Q3 Q3 Q3 Q3"));
    CHECK(play(&f, "Q3 Q3 Q3 Q3 Q3 Q3 Q3 Q3 Q3 Q3 Q1"));
    CHECK(f.bench.to_controller.count == 64);
    CHECK(play(&f, "Q1=09 Q0"));
    CHECK(f.bench.to_controller.count == 64);
}

void test_starred_checks(void)
{
    Fixture f;
    Packet data = make_data(5, (const uint8_t *)"                ");

    CHECK(play_fresh(&f, "P P=06"));
    check_numbers_spent();
    CHECK(play_fresh(&f, "L0=03"));
    check_down();
    check_lost_although_delivered();
    check_delivered_while_next_held();
    check_done_frees_controller();
    check_full();
    start(&f, 0, 3);
    set_packet(&f.bench.to_controller, 0, &data);
    CHECK(play(&f, "R0=07"));
}

static int put_with(uint8_t byte, size_t at)
{
    Fixture f;
    uint8_t message[CELLS];

    start(&f, 0, 0);
    set_message(message, "ROW");
    message[at] = byte;
    return bench_step(&f.bench, 'P', 0, 0, message).refusal;
}

void test_unstarred_checks(void)
{
    Fixture f;

    for (size_t at = 0; at < CELLS; at++) {
        for (unsigned byte = 0; byte < 256; byte++) {
            int wanted = byte >= 0x20 && byte <= 0x7E ? ACCEPTED : NOT_A_CELL;

            CHECK(put_with((uint8_t)byte, at) == wanted);
        }
    }
    CHECK(play_fresh(&f, "P Q3 Q4=10 Q0"));
    CHECK(play(&f, "R64=03 R3=03 R2 L64=03 M64=03 S64=03"));
}

void test_easy_mistakes(void)
{
    Fixture f;

    /* lost to a repeat of the order just delivered */
    CHECK(play_fresh(&f, "Pa Q1 R0 O1 S0 D3 R0:1=DL R0:3 R0:3"));
    CHECK(f.bench.to_console.count == 1 && f.bench.to_controller.count == 0);
    CHECK(packet_at_is(&f.bench.to_console, 0, OK, 1, 0));
    /* done for an offer that names the order now being sent */
    CHECK(play_fresh(&f, "Pa Q1 R0 O3 S0 S0:3 S0:1"));
    CHECK(f.bench.to_controller.count == 0 && f.bench.to_console.count == 0);
    CHECK(play(&f, "D1 R0=DL"));
    /* i kept through a restart, or its counter started again */
    CHECK(play_fresh(&f, "Pa Q2 R0 X Y O1=06 R0 O1"));
    CHECK(packet_at_is(&f.bench.to_console, 0, OFFER, 1, 65));
    CHECK(play_fresh(&f, "Pa Q2 R0 O1 X Y S0 D1 R1:1 S0 A=LO"));
    CHECK(play_fresh(&f, "C V P C V P Q1"));
    CHECK(packet_at_is(&f.bench.to_controller, 0, NEED_I, 65, 0));
    /* a put is no delivery */
    CHECK(play_fresh(&f, "P"));
    CHECK(f.last.report == NOTHING && message_is(f.last.message, ""));
    /* the packet used up on a 9 */
    CHECK(play_fresh(&f, "Pa Q1 R0 O1 S0 D1"));
    fill_channel(&f.bench.to_console, OK);
    CHECK(play(&f, "R0:1=09 R0:1=09 M5 R0:1=DL"));
    CHECK(packet_at_is(&f.bench.to_console, 63, OK, 1, 0));
}
