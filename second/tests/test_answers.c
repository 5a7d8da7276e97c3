/* The answer: what stores it, what leaves it, and the reading of it. */
#include "box.h"

#include <string.h>

/* A reports the ack and leaves everything else. */
static void check_reading(bool ack_ok)
{
    Box box;
    Box after;

    start_console_box(&box, 5);
    box.console.ack_ok = ack_ok;
    memcpy(&after, &box, sizeof after);
    after.console.ack_ok = false;
    Outcome outcome = run_box(&box, 'A');
    CHECK(outcome.report == (ack_ok ? ANSWERED_OK : ANSWERED_LOST));
    CHECK(outcome.refusal == ACCEPTED && !outcome.written);
    CHECK(message_is(outcome.message, ""));
    CHECK(same_box(&box, &after));
}

/* P Q D C leave the ack, in every mode that they are taken in. */
static void check_kept(char letter, JNumber j, INumber last, bool ack_ok)
{
    Box box;

    start_console_box(&box, 5);
    set_console(&box, j, last);
    box.console.ack_ok = ack_ok;
    CHECK(run_box(&box, letter).refusal == ACCEPTED);
    CHECK(box.console.ack_ok == ack_ok);
}

static void check_back(JNumber j, INumber last, bool ack_ok)
{
    Box box;

    start_console_box(&box, 5);
    set_console(&box, j, last);
    box.console.ack_ok = ack_ok;
    box.console.down = true;
    CHECK(run_box(&box, 'V').report == NOTHING);
    CHECK(!box.console.ack_ok);
}

/* Readings along short lists. */
static void check_played(void)
{
    Fixture f;

    CHECK(play_fresh(&f, "A=LO"));
    CHECK(play_fresh(&f, "P A=06"));
    CHECK(play_fresh(&f, "P C A=04"));
    CHECK(play_fresh(&f, "P Q1 R0 O1 S0 D2 R0:1=DL S0 R0:1 S0=03 A=OK A=LO"));
    CHECK(play_fresh(&f, "P Q1 R0 O1 S0 D1 R0:1=DL S0 P A=06 C V A=LO"));
    CHECK(play_fresh(&f, "P Q1 R0 O1 S0 D1 R0:1=DL S0 C V A=LO"));
    CHECK(play_fresh(&f, "P Q1 R0 O1 S0 D1 C V A=LO R0=DL"));
    CHECK(play_fresh(&f, "P Q1 R0 O1 S0 D1 R0:1=DL S0:1 R0 P Q1 R0 O1 S0 D1"));
    CHECK(play(&f, "X Y R0:1 S0 A=LO"));
}

void test_answers(void)
{
    for (int ack_ok = 0; ack_ok < 2; ack_ok++) {
        check_reading(ack_ok);
        check_kept('P', 0, 0, ack_ok);
        check_kept('Q', 5, 0, ack_ok);
        check_kept('D', 0, 7, ack_ok);
        check_kept('C', 0, 0, ack_ok);
        check_kept('C', 5, 0, ack_ok);
        check_kept('C', 0, 7, ack_ok);
        check_back(0, 0, ack_ok);
        check_back(5, 0, ack_ok);
        check_back(0, 7, ack_ok);
    }
    check_played();
}
