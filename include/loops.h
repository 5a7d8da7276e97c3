/*
 * The loop of a console box (console_loop.c) and of a controller box (controller_loop.c): what a box has to bring along, and what the
 * loop then does with it. Both keep the rule of nooseless.h; neither waits, so a box calls the turn as often as it likes.
 */
#ifndef NOOSELESS_LOOPS_H
#define NOOSELESS_LOOPS_H

#include "nooseless.h"

/* ---- The console's box brings along ---- */

/* Gets the number record that was kept last and returns its length: 16, or 12 if it is of version 1; 0 where none can be read. */
size_t console_load(uint8_t record[NOOSELESS_RECORD_LEN]);
/* Returns once a power cut can't take the record back. Called where the record changed, and nowhere else: it writes flash. */
void console_keep(const uint8_t record[NOOSELESS_RECORD_LEN]);
/* Gets the next order, where somebody gave one; then it is true. */
int console_order(uint8_t order[NOOSELESS_MESSAGE_LEN]);
/* Shows the row of an order: NOOSELESS_NOTHING, it is put; NOOSELESS_ANSWER_OK; NOOSELESS_ANSWER_LOST; or why it could not be put. A lost
 * that console_start shows is that of a console which restarted, and the row says so. */
void console_show(uint8_t told, const uint8_t order[NOOSELESS_MESSAGE_LEN]);
/* At power-on: gets the order of the last row, where no answer was shown for it; then it is true. Never so where rows don't outlive a cut. */
int console_unanswered(uint8_t order[NOOSELESS_MESSAGE_LEN]);
/* Gets the bytes that came in, at most `room`, and returns how many; -1 where none came. */
int console_hear(uint8_t *bytes, int room);
/* Lets a packet go out. */
void console_send(const uint8_t packet[NOOSELESS_PACKET_LEN]);
/* Whether it is time to repeat. */
int console_due(void);

/* ---- and calls. A start that is not 0 is the refusal of its record: call a person ---- */

uint8_t console_start(void);
void console_turn(void);

/* ---- The controller's box brings along the same, and ---- */

size_t controller_load(uint8_t record[NOOSELESS_RECORD_LEN]);
void controller_keep(const uint8_t record[NOOSELESS_RECORD_LEN]);
int controller_hear(uint8_t *bytes, int room);
void controller_send(const uint8_t packet[NOOSELESS_PACKET_LEN]);
int controller_due(void);
/* Carries the order out; returns once it is done. */
void controller_dose(const uint8_t order[NOOSELESS_MESSAGE_LEN]);
/* A packet with a number that this controller has not given: a person has to look at its record. */
void controller_alarm(void);

uint8_t controller_start(void);
void controller_turn(void);

#endif
