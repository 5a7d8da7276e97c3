/* An end run alone, with everything that is handed to it. */
#ifndef BOX_H
#define BOX_H

#include "tests.h"

typedef struct {
    Actor end; /* which of the two is run */
    Console console;
    Controller controller;
    uint8_t letter;
    uint8_t message[CELLS];
    uint8_t packet[PACKET_BYTES + 1];
    size_t packet_length;
    uint8_t reply[PACKET_BYTES + 1];
    size_t reply_length;
} Box;

/* A box with an end that is up and idle, a reply buffer of 0xA5, no packet. */
void start_console_box(Box *box, JNumber last_used);
void start_controller_box(Box *box, INumber last_used);

/* Sets the mode: at most one number is not 0, and a message is held then. */
void set_console(Box *box, JNumber j, INumber last);
void set_packet_in(Box *box, uint8_t kind, uint32_t first, uint32_t second);
Outcome run_box(Box *box, char letter);

/* 2 for each letter of the end, or for none if it is good. */
void check_all_letters(Box *box, bool good);
bool same_box(const Box *one, const Box *other);
bool reply_is(const Box *box, uint8_t kind, uint32_t first, uint32_t second);
bool reply_untouched(const Box *box);

#endif
