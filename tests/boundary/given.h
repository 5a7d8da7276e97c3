/* What a call of a bench entry is given. */
#ifndef GIVEN_H
#define GIVEN_H

#include "shared.h"

#define AROUND 64u

/* Whatever a call is lent, with bytes around it. */
struct lent {
    uint8_t before[AROUND], state[NOOSELESS_BENCH_STATE_LEN], gap1[AROUND], out[TABLE_BYTES], gap2[AROUND], back[TABLE_BYTES], gap3[AROUND],
        message[CELLS], gap4[AROUND], delivered[CELLS], after[AROUND];
};

struct call {
    size_t state_len, out_len, back_len;
    uint8_t letter;
    size_t place, copies;
};

extern struct lent given;
extern struct call call;

uint32_t some_used(void);
uint32_t some_count(void);
int takes_from_out(uint8_t letter);
void set_counts(size_t out, size_t back); /* as many packets */
void good_bench(void);
void some_call(void);
void spoil(void);

#endif
