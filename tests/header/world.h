/* The world that both loops run in, in one process: radio, power, flash, and the rule of nooseless.h held to everything that a loop does. */
#ifndef WORLD_H
#define WORLD_H

#include "loops.h"

enum { CONSOLE, CONTROLLER };

/* A step was done: what it told, the end's record before and after, the reply buffer. Power may fail here. */
void stepped(int end, uint8_t told, const uint8_t *before, const uint8_t *after, const uint8_t *reply);

/* What A tells where no row waits for an answer: lost, as a reading that is nobody's always is; and lost where one waits. */
uint8_t console_reads_spare(void);

/* A power cut takes all that a loop has in memory. */
void console_forget(void);
void controller_forget(void);

#endif
