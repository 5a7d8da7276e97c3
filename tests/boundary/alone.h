/* What a call of an end's entry is given, and the calls that are compared. */
#ifndef ALONE_H
#define ALONE_H

#include "shared.h"

/* Whatever a call is lent, each with what follows it. */
struct box {
    uint8_t state[ROOM], message[ROOM], in[ROOM], out[ROOM], delivered[ROOM];
};

struct asked {
    uint8_t letter;
    size_t state_len, in_len, out_len;
};

extern struct box box;
extern struct asked asked;

void console_step(void);
void controller_step(void);
void fresh_end(int controller);
void downed_end(int controller, int old); /* from the record in box.in, meant as version 1 or 2 */
void record_of(int controller);           /* to box.out */

void packet_read(const uint8_t in[ROOM], size_t n);

/* ---- records.c; old and to_old: which version was meant ---- */

/* What is told apart in the tallies. */
enum { READ_OLD, READ_NEW, WRITE_OLD, WRITE_NEW, OLD_TO_OLD, OLD_TO_NEW, NEW_TO_OLD, NEW_TO_NEW, CONSOLE_DOWNED_OLD, CONSOLE_DOWNED_NEW,
       CONTROLLER_DOWNED_OLD, CONTROLLER_DOWNED_NEW, RECORD_OF_CONSOLE, RECORD_OF_CONTROLLER, RECORD_CALLS };

extern struct tally records[RECORD_CALLS];

unsigned record_rules(const uint8_t *r, size_t n, uint8_t own); /* own: the end whose it has to be, 0 for either */
void record_read(const uint8_t in[ROOM], size_t n, int old);
void record_written(uint8_t end, uint32_t number, uint16_t block, size_t n);
void record_carried(const uint8_t in[ROOM], size_t n, int old, size_t to_len, int to_old);

#endif
