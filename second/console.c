/* The console end, the sender: idle, needI (j set), send (last set). */
#include "second.h"

#include <string.h>

Console fresh_console(JNumber last_used)
{
    Console console = {0};

    console.numbers = fresh_numbers(last_used);
    clear_message(console.message);
    return console;
}

Console console_after_power_loss(const NumberRecord *record)
{
    Console console = fresh_console(0);

    console.numbers = recorded_numbers(record);
    console.down = true;
    return console;
}

bool console_well_formed(const Console *console)
{
    if (!numbers_well_formed(&console->numbers)) {
        return false;
    }
    if (console->j > console->numbers.last_used) {
        return false;
    }
    if (console->held) {
        return (console->j != 0) != (console->last != 0) &&
               all_cells(console->message);
    }
    return console->j == 0 && console->last == 0 &&
           all_bytes_are(console->message, CELLS, ' ');
}

NumberRecord console_record(const Console *console)
{
    return record_numbers(CONSOLE_RECORD, &console->numbers);
}

int console_refusal(const Console *console, uint8_t letter)
{
    if (letter == 'C') {
        return ACCEPTED;
    }
    if (letter == 'V') {
        return console->down ? ACCEPTED : END_IS_UP;
    }
    if (console->down) {
        return END_IS_DOWN;
    }
    if (letter == 'P' && console->held) {
        return WRONG_MODE;
    }
    if (letter == 'A' && console->held) {
        return WRONG_MODE;
    }
    if (letter == 'Q' && console->j == 0) {
        return WRONG_MODE;
    }
    if (letter == 'D' && console->last == 0) {
        return WRONG_MODE;
    }
    if (letter == 'P' && numbers_spent(&console->numbers)) {
        return J_SPENT;
    }
    return ACCEPTED;
}

static void let_go(Console *console)
{
    console->held = false;
    console->last = 0;
    clear_message(console->message);
}

static Effect put(Console *console, const uint8_t *message)
{
    console->held = true;
    memcpy(console->message, message, CELLS);
    console->j = take_number(&console->numbers);
    return no_effect();
}

/* No packet bears the number 0, so J = j comes in needI only. */
static Effect takes_offer(Console *console, JNumber j, INumber i)
{
    if (j == console->j) {
        console->j = 0;
        console->last = i;
        return no_effect();
    }
    if (i != console->last) {
        return sending(make_packet(DONE, i, 0));
    }
    return no_effect();
}

static Effect takes_ok(Console *console, INumber i)
{
    Effect effect = sending(make_packet(DONE, i, 0));

    if (i == console->last) {
        let_go(console);
        console->ack_ok = true;
    }
    return effect;
}

static Effect takes_lost(Console *console, INumber i)
{
    if (i == console->last) {
        let_go(console);
        console->ack_ok = false;
    }
    return no_effect();
}

static Effect takes(Console *console, const Packet *in)
{
    if (in->kind == OFFER) {
        return takes_offer(console, in->first, in->second);
    }
    if (in->kind == OK) {
        return takes_ok(console, in->first);
    }
    return takes_lost(console, in->first);
}

static Effect goes_down(Console *console)
{
    console->down = true;
    return no_effect();
}

static Effect comes_back(Console *console)
{
    let_go(console);
    console->j = 0;
    console->ack_ok = false;
    console->down = false;
    numbers_come_back(&console->numbers);
    return no_effect();
}

/* An answer is told once: the next reading is lost. */
static Effect tells_ack(Console *console)
{
    Effect effect = no_effect();

    effect.outcome.report = console->ack_ok ? ANSWERED_OK : ANSWERED_LOST;
    console->ack_ok = false;
    return effect;
}

Effect console_acts(Console *console, uint8_t letter, const uint8_t *message,
                    const Packet *in)
{
    switch (letter) {
    case 'P':
        return put(console, message);
    case 'Q':
        return sending(make_packet(NEED_I, console->j, 0));
    case 'D':
        return sending(make_data(console->last, console->message));
    case 'S':
        return takes(console, in);
    case 'C':
        return goes_down(console);
    case 'A':
        return tells_ack(console);
    default:
        return comes_back(console);
    }
}
