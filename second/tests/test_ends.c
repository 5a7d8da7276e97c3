/* The ends run alone: starts, well formed or not, and their rules. */
#include "box.h"

#include <string.h>

void test_starts(void)
{
    Console console = fresh_console(17);
    Controller controller = fresh_controller(LARGEST_NUMBER);

    CHECK(console_is(&console, 17, false, 0, 0, false));
    CHECK(numbers_are(&console.numbers, 17, 17, 64));
    CHECK(message_is(console.message, "") && !console.ack_ok);
    CHECK(controller_is(&controller, LARGEST_NUMBER, 0, 0, 0, false));
    CHECK(numbers_are(&controller.numbers, LARGEST_NUMBER, LARGEST_NUMBER, 64));
}

/* Console with last used J 5: held, j, last, message, and if that is good. */
static void check_console_forms(void)
{
    static const struct {
        bool held;
        JNumber j;
        INumber last;
        const char *message;
        bool good;
    } forms[] = {
        {false, 0, 0, "", true},       {true, 5, 0, "M", true},
        {true, 1, 0, "", true},        {true, 0, 1, "~", true},
        {true, 0, LARGEST_NUMBER, "M", true},
        {true, 6, 0, "M", false},      {true, 0, 0, "M", false},
        {true, 5, 9, "M", false},      {false, 5, 0, "", false},
        {false, 0, 9, "", false},      {false, 0, 0, "M", false},
        {true, 5, 0, "\x7F", false},   {true, 0, 9, "ABC\x1F", false},
        {false, 0, 0, "              !", false},
    };

    for (size_t n = 0; n < sizeof forms / sizeof forms[0]; n++) {
        Box box;

        start_console_box(&box, 5);
        set_packet_in(&box, OK, 3, 0);
        box.console.held = forms[n].held;
        box.console.j = forms[n].j;
        box.console.last = forms[n].last;
        set_message(box.console.message, forms[n].message);
        check_all_letters(&box, forms[n].good);
        box.console.down = true;
        check_all_letters(&box, forms[n].good);
    }
}

/* Controller with last used I 5: j, i, last, and if that is good. */
static void check_controller_forms(void)
{
    static const struct {
        JNumber j;
        INumber i;
        INumber last;
        bool good;
    } forms[] = {
        {0, 0, 0, true},  {7, 5, 0, true},  {LARGEST_NUMBER, 1, 0, true},
        {0, 0, 5, true},  {0, 0, 1, true},  {7, 0, 0, false},
        {0, 5, 0, false}, {7, 6, 0, false}, {0, 0, 6, false},
        {7, 5, 4, false}, {7, 0, 4, false}, {0, 5, 5, false},
    };

    for (size_t n = 0; n < sizeof forms / sizeof forms[0]; n++) {
        Box box;

        start_controller_box(&box, 5);
        set_packet_in(&box, DONE, 3, 0);
        box.controller.j = forms[n].j;
        box.controller.i = forms[n].i;
        box.controller.last = forms[n].last;
        check_all_letters(&box, forms[n].good);
        box.controller.down = true;
        check_all_letters(&box, forms[n].good);
    }
}

/* A message of 16 cells whose last byte is no cell, or no space. */
static void check_last_cell(void)
{
    Box box;

    start_console_box(&box, 5);
    set_packet_in(&box, OK, 3, 0);
    box.console.message[15] = '!';
    check_all_letters(&box, false);
    set_console(&box, 5, 0);
    box.console.message[15] = '!';
    check_all_letters(&box, true);
    box.console.message[15] = 0x80;
    check_all_letters(&box, false);
}

void test_ill_formed_ends(void)
{
    check_console_forms();
    check_controller_forms();
    check_last_cell();
}

/* S by mode and kind. last used J is 5; reply 0 is none. S reports nothing: the
 * answer is stored. */
static const struct {
    JNumber j;
    INumber last;
    uint8_t kind;
    uint32_t first;
    uint32_t second;
    JNumber j_after;
    INumber last_after;
    Report stored; /* NOTHING leaves the ack */
    INumber done;  /* the reply, or 0 */
} console_rows[] = {
    {0, 0, OFFER, 5, 9, 0, 0, NOTHING, 9},
    {0, 0, OFFER, 4, 5, 0, 0, NOTHING, 5},
    {0, 0, OK, 9, 0, 0, 0, NOTHING, 9},
    {0, 0, LOST, 9, 0, 0, 0, NOTHING, 0},
    {5, 0, OFFER, 5, 9, 0, 9, NOTHING, 0},
    {5, 0, OFFER, 5, LARGEST_NUMBER, 0, LARGEST_NUMBER, NOTHING, 0},
    {5, 0, OFFER, 4, 9, 5, 0, NOTHING, 9},
    {5, 0, OFFER, 6, 5, 5, 0, NOTHING, 5},
    {5, 0, OK, 9, 0, 5, 0, NOTHING, 9},
    {5, 0, OK, 5, 0, 5, 0, NOTHING, 5},
    {5, 0, LOST, 9, 0, 5, 0, NOTHING, 0},
    {5, 0, LOST, 5, 0, 5, 0, NOTHING, 0},
    {0, 7, OFFER, 5, 7, 0, 7, NOTHING, 0},
    {0, 7, OFFER, 9, 7, 0, 7, NOTHING, 0},
    {0, 7, OFFER, 5, 6, 0, 7, NOTHING, 6},
    {0, 7, OFFER, 5, 8, 0, 7, NOTHING, 8},
    {0, 7, OFFER, 7, 9, 0, 7, NOTHING, 9},
    {0, 7, OK, 7, 0, 0, 0, ANSWERED_OK, 7},
    {0, 7, OK, 6, 0, 0, 7, NOTHING, 6},
    {0, 7, OK, 8, 0, 0, 7, NOTHING, 8},
    {0, 7, LOST, 7, 0, 0, 0, ANSWERED_LOST, 0},
    {0, 7, LOST, 6, 0, 0, 7, NOTHING, 0},
    {0, 7, LOST, 8, 0, 0, 7, NOTHING, 0},
};

static void check_console_row(size_t n, bool ack_ok)
{
    Box box;
    JNumber j = console_rows[n].j_after;
    INumber last = console_rows[n].last_after;
    bool held = j != 0 || last != 0;

    start_console_box(&box, 5);
    set_console(&box, console_rows[n].j, console_rows[n].last);
    box.console.ack_ok = ack_ok;
    set_packet_in(&box, console_rows[n].kind, console_rows[n].first,
                  console_rows[n].second);
    Outcome outcome = run_box(&box, 'S');
    CHECK(outcome.report == NOTHING && outcome.refusal == 0);
    CHECK(box.console.ack_ok == (console_rows[n].stored == NOTHING
                                     ? ack_ok
                                     : console_rows[n].stored == ANSWERED_OK));
    CHECK(message_is(outcome.message, ""));
    CHECK(console_is(&box.console, 5, held, j, last, false));
    CHECK(message_is(box.console.message, held ? "HELD" : ""));
    CHECK(outcome.written == (console_rows[n].done != 0));
    CHECK(outcome.written ? reply_is(&box, DONE, console_rows[n].done, 0)
                          : reply_untouched(&box));
}

static void check_put(void)
{
    Box box;

    start_console_box(&box, LARGEST_NUMBER - 1);
    CHECK(run_box(&box, 'P').report == NOTHING);
    CHECK(console_is(&box.console, LARGEST_NUMBER, true, LARGEST_NUMBER, 0,
                     false));
    CHECK(message_is(box.console.message, "ABCDEFGHIJKLMNOP"));
    CHECK(reply_untouched(&box));
    set_console(&box, 0, 0);
    Outcome outcome = run_box(&box, 'P');
    CHECK(is_refusal(&outcome, J_SPENT));
    CHECK(console_is(&box.console, LARGEST_NUMBER, false, 0, 0, false));
}

static void check_console_sends(void)
{
    Box box;

    start_console_box(&box, 5);
    set_console(&box, 5, 0);
    CHECK(run_box(&box, 'Q').written && reply_is(&box, NEED_I, 5, 0));
    CHECK(console_is(&box.console, 5, true, 5, 0, false));
    set_console(&box, 0, 7);
    CHECK(run_box(&box, 'D').written && reply_is(&box, DATA, 7, 0));
    CHECK(message_is(box.reply + 16, "HELD"));
    CHECK(console_is(&box.console, 5, true, 0, 7, false));
}

static void check_console_restart(JNumber j, INumber last)
{
    Box box;

    start_console_box(&box, 5);
    set_console(&box, j, last);
    bool held = box.console.held;
    CHECK(run_box(&box, 'C').report == NOTHING);
    CHECK(console_is(&box.console, 5, held, j, last, true));
    CHECK(message_is(box.console.message, held ? "HELD" : ""));
    CHECK(run_box(&box, 'C').report == NOTHING);
    CHECK(console_is(&box.console, 5, held, j, last, true));
    CHECK(run_box(&box, 'V').report == NOTHING);
    CHECK(console_is(&box.console, 5, false, 0, 0, false));
    CHECK(message_is(box.console.message, ""));
    CHECK(reply_untouched(&box));
}

void test_console_rules(void)
{
    for (size_t n = 0; n < sizeof console_rows / sizeof console_rows[0]; n++) {
        check_console_row(n, false);
        check_console_row(n, true);
    }
    check_put();
    check_console_sends();
    check_console_restart(0, 0);
    check_console_restart(5, 0);
    check_console_restart(0, 7);
}

/* R by mode and kind. last used I is 8. */
static const struct {
    JNumber j;
    INumber i;
    INumber last;
    uint8_t kind;
    uint32_t first;
    JNumber j_after;
    INumber i_after;
    INumber last_after;
    Report report;
    uint8_t reply; /* a kind, or 0 */
} controller_rows[] = {
    {0, 0, 0, NEED_I, 3, 3, 9, 0, NOTHING, 0},
    {0, 0, 0, NEED_I, LARGEST_NUMBER, LARGEST_NUMBER, 9, 0, NOTHING, 0},
    {0, 0, 0, DATA, 5, 0, 0, 0, NOTHING, LOST},
    {0, 0, 0, DATA, 8, 0, 0, 0, NOTHING, LOST},
    {0, 0, 0, DONE, 5, 0, 0, 0, NOTHING, 0},
    {3, 6, 0, NEED_I, 3, 3, 6, 0, NOTHING, 0},
    {3, 6, 0, NEED_I, 4, 3, 6, 0, NOTHING, 0},
    {3, 6, 0, DATA, 6, 0, 0, 6, DELIVERED, OK},
    {3, 6, 0, DATA, 3, 3, 6, 0, NOTHING, LOST},
    {3, 6, 0, DATA, 5, 3, 6, 0, NOTHING, LOST},
    {3, 6, 0, DATA, 7, 3, 6, 0, NOTHING, LOST},
    {3, 6, 0, DONE, 6, 0, 0, 0, NOTHING, 0},
    {3, 6, 0, DONE, 3, 3, 6, 0, NOTHING, 0},
    {3, 6, 0, DONE, 5, 3, 6, 0, NOTHING, 0},
    {3, 6, 0, DONE, 7, 3, 6, 0, NOTHING, 0},
    {0, 0, 6, NEED_I, 3, 0, 0, 6, NOTHING, 0},
    {0, 0, 6, NEED_I, 6, 0, 0, 6, NOTHING, 0},
    {0, 0, 6, DATA, 6, 0, 0, 6, NOTHING, 0},
    {0, 0, 6, DATA, 5, 0, 0, 6, NOTHING, LOST},
    {0, 0, 6, DATA, 8, 0, 0, 6, NOTHING, LOST},
    {0, 0, 6, DONE, 6, 0, 0, 0, NOTHING, 0},
    {0, 0, 6, DONE, 5, 0, 0, 6, NOTHING, 0},
    {0, 0, 6, DONE, 8, 0, 0, 6, NOTHING, 0},
};

static void check_controller_row(size_t n)
{
    Box box;
    INumber last_used = controller_rows[n].i_after == 9 ? 9 : 8;
    bool delivered = controller_rows[n].report == DELIVERED;

    start_controller_box(&box, 8);
    box.controller.j = controller_rows[n].j;
    box.controller.i = controller_rows[n].i;
    box.controller.last = controller_rows[n].last;
    set_packet_in(&box, controller_rows[n].kind, controller_rows[n].first, 0);
    Outcome outcome = run_box(&box, 'R');
    CHECK(outcome.report == controller_rows[n].report && outcome.refusal == 0);
    CHECK(message_is(outcome.message, delivered ? "ORDER" : ""));
    CHECK(controller_is(&box.controller, last_used, controller_rows[n].j_after,
                        controller_rows[n].i_after,
                        controller_rows[n].last_after, false));
    CHECK(outcome.written == (controller_rows[n].reply != 0));
    CHECK(outcome.written ? reply_is(&box, controller_rows[n].reply,
                                     controller_rows[n].first, 0)
                          : reply_untouched(&box));
}

static void check_i_spent(void)
{
    Box box;

    start_controller_box(&box, LARGEST_NUMBER - 1);
    set_packet_in(&box, NEED_I, 3, 0);
    CHECK(run_box(&box, 'R').report == NOTHING);
    CHECK(controller_is(&box.controller, LARGEST_NUMBER, 3, LARGEST_NUMBER, 0,
                        false));
    start_controller_box(&box, LARGEST_NUMBER);
    set_packet_in(&box, NEED_I, 3, 0);
    CHECK(run_box(&box, 'R').report == NOTHING);
    CHECK(controller_is(&box.controller, LARGEST_NUMBER, 0, 0, 0, false));
}

static void check_controller_sends(void)
{
    Box box;

    start_controller_box(&box, 8);
    box.controller.j = 3;
    box.controller.i = 6;
    CHECK(run_box(&box, 'O').written && reply_is(&box, OFFER, 3, 6));
    CHECK(controller_is(&box.controller, 8, 3, 6, 0, false));
    start_controller_box(&box, 8);
    box.controller.last = 6;
    CHECK(run_box(&box, 'K').written && reply_is(&box, OK, 6, 0));
    CHECK(controller_is(&box.controller, 8, 0, 0, 6, false));
}

static void check_controller_restart(JNumber j, INumber i, INumber last)
{
    Box box;

    start_controller_box(&box, 8);
    box.controller.j = j;
    box.controller.i = i;
    box.controller.last = last;
    CHECK(run_box(&box, 'X').report == NOTHING);
    CHECK(controller_is(&box.controller, 8, j, i, last, true));
    CHECK(run_box(&box, 'X').report == NOTHING);
    CHECK(controller_is(&box.controller, 8, j, i, last, true));
    CHECK(run_box(&box, 'Y').report == NOTHING);
    CHECK(controller_is(&box.controller, 8, 0, 0, 0, false));
    CHECK(reply_untouched(&box));
}

void test_controller_rules(void)
{
    size_t rows = sizeof controller_rows / sizeof controller_rows[0];

    for (size_t n = 0; n < rows; n++) {
        check_controller_row(n);
    }
    check_i_spent();
    check_controller_sends();
    check_controller_restart(0, 0, 0);
    check_controller_restart(3, 6, 0);
    check_controller_restart(0, 0, 6);
}
