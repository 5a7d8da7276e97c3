/* What the comparisons with the second program share: chance, bytes of every sort, the ends' states laid out a second time, and tallies. */
#ifndef SHARED_H
#define SHARED_H

#include <stddef.h>
#include <stdint.h>

#include "../../second/second.h"
#include "nooseless.h"

#define LEAST 1000u
#define ROOM 48u /* a lent buffer with what follows it */
#define LETTERS "PQDSCVOKRXYLMA"
#define ACTIONS (sizeof LETTERS - 1)

/* How an answer that was not read yet is replaced or lost, and an ack that is no flag in a state that is else well formed. */
enum ack_way { OK_STORED, LOST_STORED, LOST_BY_BACK, LOST_BY_READING, NO_ACK, ACK_WAYS };

/* How often each refusal was met (0: accepted), each pair of refusals that apply together, each report, each bit beside a report, and each way
 * in which numbers and the ack moved. */
struct tally {
    unsigned long met[16], pairs[16][16], told[5], kept, sent;
    unsigned long within, grown, capped, back; /* taken within the block, by growing, by growing less than the block; used up by coming back */
    unsigned long acks[ACK_WAYS], ok_left[256]; /* by letter: an OK that the step left unread */
};

/* Where the fields are in an end's state, and the counts in a bench's: laid out a second time. */
enum { AT_USED = 0, AT_RESERVED = 4, AT_BLOCK = 8, AT_J = 10 };
enum { CONSOLE_LAST = 14, CONSOLE_HELD = 18, CONSOLE_UP = 19, CONSOLE_ACK = 20, CONSOLE_MESSAGE = 21 };
enum { CONTROLLER_I = 14, CONTROLLER_LAST = 18, CONTROLLER_UP = 22 };
enum { BENCH_CONTROLLER = 37, BENCH_OUT = 60, BENCH_BACK = 61 };
_Static_assert(NOOSELESS_VERSION == 3 && NOOSELESS_CONSOLE_STATE_LEN == 37 && NOOSELESS_BENCH_STATE_LEN == 62, "the states laid out here");

extern struct tally ends, benches;
extern const char *entry; /* what is called */

void seed(uint64_t state);
uint32_t roll(uint32_t n); /* below n */
void check(int same);      /* ends the program if not */
void next_case(void);

void scribble(uint8_t *bytes, size_t n);
void damage(uint8_t *bytes, size_t n);
uint32_t some_number(void);
uint16_t some_block(void);    /* 1 to 1,024 */
uint16_t no_block(void);      /* of a version 2 record or an end: any other */
Numbers good_numbers(void);   /* at the corners of their range, or by chance */
Numbers some_numbers(void);   /* those, and such as are not well formed */

#define CORNERS 120u
Numbers corner(size_t k); /* k below CORNERS: last used and reserved at the ends of what they may be, with each sort of block */

void good_message(uint8_t m[CELLS]);
void some_message(uint8_t m[CELLS]);
size_t some_length(size_t right);
uint8_t some_letter(const char *own);
void some_packet(uint8_t *bytes, const uint8_t *state);
int some_record(uint8_t *bytes); /* gives whether version 1 was meant */
size_t some_record_length(int old);

void numbers_to(const Numbers *n, uint8_t *s);
void console_to(const Console *c, uint8_t *s);
void controller_to(const Controller *c, uint8_t *s);
Console console_from(const uint8_t *s, size_t n);
Controller controller_from(const uint8_t *s, size_t n);

unsigned rule(int n, int applies); /* a set of rules: n, or none */
int first_of(unsigned rules);      /* in document 01's order, or 0 */

uint8_t told_by(struct tally *t, const Outcome *o, int keep); /* keep: the end's number record is another than before */
void moved(struct tally *t, uint8_t letter, const Numbers *before, const Numbers *after);
void answered(struct tally *t, uint8_t letter, const Console *before, const Console *after); /* by an accepted step */
void count(struct tally *t, int refusal, unsigned rules);

typedef int Pair[2];
int enough_rules(struct tally *t, const char *name, unsigned refusals, const Pair *known, size_t n);
int enough_steps(struct tally *t, const char *name);
int enough_answers(struct tally *t, const char *name, const char *leaving); /* leaving: the letters that leave the ack */

/* ---- what is compared: wire.c, records.c, ends.c, every.c, benches.c, lists.c ---- */

void one_of_wire(void);
void one_of_records(void);
void one_of_ends(void);
void one_of_benches(void);
void one_list(void);
void all_ends(void);
void all_benches(void);
int enough_lists(void);
int enough_ends(void);
int enough_records(void);
int enough_benches(void);

#endif
