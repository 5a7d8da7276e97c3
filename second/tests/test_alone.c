/* An end run alone: what it refuses, in which order, and its buffers. */
#include "box.h"

#include <string.h>

typedef struct {
    int refusal;
    void (*spoil)(Box *box);
    const char *letters; /* those it can come to */
} Fault;

static void spoil_letter(Box *box)
{
    box->letter = box->end == CONSOLE ? 'R' : 'S';
}

static void spoil_end(Box *box)
{
    box->console.j = 1;
    box->console.last = 1;
    box->controller.last = box->controller.numbers.last_used + 1;
}

static void spoil_packet_length(Box *box)
{
    box->packet_length = PACKET_BYTES + 1;
}

static void spoil_reply_length(Box *box)
{
    box->reply_length = PACKET_BYTES - 1;
}

static void spoil_mark(Box *box)
{
    box->packet[0] = 'h';
}

static void spoil_version(Box *box)
{
    box->packet[3] = 1;
}

static void spoil_direction(Box *box)
{
    box->packet[5] = box->end == CONSOLE ? NEED_I : LOST;
}

static void spoil_zero_bytes(Box *box)
{
    box->packet[7] = 1;
}

static void spoil_cell(Box *box)
{
    box->message[15] = 0x7F;
}

static void take_down(Box *box)
{
    box->console.down = true;
    box->controller.down = true;
}

static void bring_up(Box *box)
{
    box->console.down = false;
    box->controller.down = false;
}

/* P A with a message held; Q D O K with the other number set. */
static void change_mode(Box *box)
{
    bool in_accept = box->controller.i != 0;

    set_console(box, box->letter == 'D' ? 1 : 0, box->letter == 'D' ? 0 : 7);
    box->controller.j = in_accept ? 0 : 3;
    box->controller.i = in_accept ? 0 : 6;
    box->controller.last = in_accept ? 6 : 0;
}

static void spend_numbers(Box *box)
{
    box->console.numbers = fresh_numbers(LARGEST_NUMBER);
}

static void raise_i(Box *box)
{
    set_number(box->packet + 8, box->controller.numbers.last_used + 1);
}

/* In the order of document 01. */
static const Fault faults[] = {
    {1, spoil_letter, "PQDSCVAOKRXY"},
    {2, spoil_end, "PQDSCVAOKRXY"},
    {12, spoil_packet_length, "SR"},
    {12, spoil_reply_length, "QDSOKR"},
    {13, spoil_mark, "SR"},
    {14, spoil_version, "SR"},
    {15, spoil_direction, "SR"},
    {15, spoil_zero_bytes, "SR"},
    {11, spoil_cell, "P"},
    {4, take_down, "PQDSAOKR"},
    {5, bring_up, "VY"},
    {6, change_mode, "PQDAOK"},
    {8, spend_numbers, "P"},
    {7, raise_i, "R"},
};

#define FAULTS (sizeof faults / sizeof faults[0])

/* A box in which the letter is accepted, and has something to send; with
 * numbers that are reserved and not used. */
static void start_good(Box *box, char letter)
{
    if (strchr("PQDSCVA", letter) != NULL) {
        start_console_box(box, 5);
        box->console.ack_ok = true;
        set_console(box, letter == 'Q' ? 5 : 0, letter == 'D' ? 7 : 0);
        set_packet_in(box, OK, 6, 0);
    } else {
        start_controller_box(box, 8);
        box->controller.j = letter == 'O' ? 3 : 0;
        box->controller.i = letter == 'O' ? 6 : 0;
        box->controller.last = letter == 'K' ? 6 : 0;
        set_packet_in(box, DATA, 5, 0);
    }
    box->console.numbers.reserved = 64;
    box->controller.numbers.reserved = 64;
    box->letter = (uint8_t)letter;
    box->console.down = letter == 'V';
    box->controller.down = letter == 'Y';
}

/* Applies a set of faults; false if one cannot come to the letter. */
static bool apply_faults(Box *box, unsigned set, int *wanted)
{
    char letter = (char)box->letter;

    *wanted = ACCEPTED;
    for (size_t n = FAULTS; n > 0; n--) {
        if (set >> (n - 1) & 1u) {
            if (strchr(faults[n - 1].letters, letter) == NULL) {
                return false;
            }
            faults[n - 1].spoil(box);
            *wanted = faults[n - 1].refusal;
        }
    }
    return true;
}

static void check_fault_set(char letter, unsigned set)
{
    Box box;
    Box before;
    int wanted;

    start_good(&box, letter);
    if (!apply_faults(&box, set, &wanted)) {
        return;
    }
    memcpy(&before, &box, sizeof before);
    Outcome outcome = run_box(&box, (char)box.letter);
    if (wanted == ACCEPTED) {
        CHECK(outcome.refusal == ACCEPTED && outcome.report != REFUSED);
        CHECK(outcome.written == (strchr("QDSOKR", letter) != NULL));
    } else {
        CHECK(is_refusal(&outcome, wanted));
        CHECK(same_box(&box, &before));
    }
}

/* All 256 letters at both ends. */
static void check_letters(void)
{
    for (unsigned letter = 0; letter < 256; letter++) {
        Box box;
        Outcome outcome;

        start_console_box(&box, 5);
        set_packet_in(&box, OK, 6, 0);
        outcome = run_box(&box, (char)letter);
        CHECK((outcome.refusal == BAD_RECORD) ==
              (letter == 0 || strchr("PQDSCVA", (int)letter) == NULL));
        start_controller_box(&box, 8);
        set_packet_in(&box, DATA, 6, 0);
        outcome = run_box(&box, (char)letter);
        CHECK((outcome.refusal == BAD_RECORD) ==
              (letter == 0 || strchr("OKRXY", (int)letter) == NULL));
    }
}

/* 7 comes to data and done in every mode, to needI never. */
static void check_i_above(void)
{
    static const uint8_t kinds[] = {NEED_I, DATA, DONE};

    for (size_t mode = 0; mode < 3; mode++) {
        for (size_t k = 0; k < sizeof kinds; k++) {
            for (uint32_t number = 8; number <= 10; number++) {
                Box box;
                bool above = kinds[k] != NEED_I && number > 8;

                start_controller_box(&box, 8);
                box.controller.numbers.reserved = 8 + (uint32_t)mode;
                box.controller.j = mode == 1 ? 3 : 0;
                box.controller.i = mode == 1 ? 8 : 0;
                box.controller.last = mode == 2 ? 8 : 0;
                set_packet_in(&box, kinds[k], number, 0);
                CHECK(run_box(&box, 'R').refusal ==
                      (above ? I_ABOVE_LAST_USED : ACCEPTED));
            }
        }
    }
}

void test_alone_refusals(void)
{
    static const char letters[] = "PQDSCVAOKRXY";

    for (size_t n = 0; letters[n] != '\0'; n++) {
        for (unsigned set = 0; set < 1u << FAULTS; set++) {
            check_fault_set(letters[n], set);
        }
    }
    check_letters();
    check_i_above();
}

/* The reply buffer's length counts even with nothing to send. */
static void check_reply_length(void)
{
    for (size_t length = 0; length <= PACKET_BYTES + 1; length++) {
        int wanted = length == PACKET_BYTES ? ACCEPTED : WRONG_LENGTH;
        Box box;

        start_console_box(&box, 5);
        set_packet_in(&box, LOST, 6, 0);
        box.reply_length = length;
        CHECK(run_box(&box, 'S').refusal == wanted);
        CHECK(reply_untouched(&box));
        start_controller_box(&box, 8);
        set_packet_in(&box, DONE, 6, 0);
        box.reply_length = length;
        CHECK(run_box(&box, 'R').refusal == wanted);
        CHECK(reply_untouched(&box));
    }
}

/* P C V A X Y are lent no buffers, Q D O K no packet in, only P a message. */
static void check_not_looked_at(void)
{
    uint8_t reply[PACKET_BYTES];
    uint8_t message[CELLS];
    Console console = fresh_console(5);
    Controller controller = fresh_controller(8);

    set_message(message, "");
    CHECK(console_alone(&console, 'P', message, NULL, 0, NULL, 0).refusal == 0);
    CHECK(console_alone(&console, 'Q', NULL, NULL, 7, reply, 32).refusal == 0);
    CHECK(console_alone(&console, 'C', NULL, NULL, 0, NULL, 33).refusal == 0);
    CHECK(console_alone(&console, 'V', NULL, NULL, 1, NULL, 0).refusal == 0);
    CHECK(console_alone(&console, 'A', NULL, NULL, 0, NULL, 0).refusal == 0);
    CHECK(console_alone(&console, 'A', NULL, NULL, 7, NULL, 33).refusal == 0);
    CHECK(console_alone(&console, 'S', NULL, NULL, 0, reply, 32).refusal == 12);
    CHECK(console_alone(&console, 'S', NULL, NULL, 0, NULL, 0).refusal == 12);
    controller.last = 8;
    CHECK(controller_alone(&controller, 'K', NULL, 9, reply, 32).refusal == 0);
    CHECK(controller_alone(&controller, 'X', NULL, 9, NULL, 0).refusal == 0);
    CHECK(controller_alone(&controller, 'Y', NULL, 0, NULL, 64).refusal == 0);
    CHECK(controller_alone(&controller, 'R', NULL, 0, reply, 32).refusal == 12);
    CHECK(controller_alone(&controller, 'O', NULL, 0, NULL, 0).refusal == 12);
}

/* Each kind at each end: those of the other direction are 15. */
static void check_directions(void)
{
    for (uint8_t kind = NEED_I; kind <= DONE; kind++) {
        bool to_controller = kind == NEED_I || kind == DATA || kind == DONE;
        Box box;

        start_console_box(&box, 5);
        set_packet_in(&box, kind, 6, kind == OFFER ? 6 : 0);
        CHECK(run_box(&box, 'S').refusal ==
              (to_controller ? OUTSIDE_TABLE : ACCEPTED));
        start_controller_box(&box, 8);
        set_packet_in(&box, kind, 6, kind == OFFER ? 6 : 0);
        CHECK(run_box(&box, 'R').refusal ==
              (to_controller ? ACCEPTED : OUTSIDE_TABLE));
    }
}

void test_alone_buffers(void)
{
    check_reply_length();
    check_not_looked_at();
    check_directions();
}
