/*
 * The archive's entries beside the second program, in one process: any bytes, valid, damaged in one byte, or by chance. Each answer and every
 * lent buffer, with the bytes around it, must be what the second program says.
 *
 * boundary CASES SEED: first each bit of packets, number records and ends' states, each length of a record, each byte in the place of a flag,
 * numbers at their corners, each bit, count and place of a bench, then as many cases by chance. Prints how often each refusal, and each pair of
 * refusals that apply together, was met. Ends with 1 at the first difference, with 3 if a refusal, a pair that it knows of, a report, what A prints
 * in a list, or a way in which numbers or the ack move was met fewer than LEAST times.
 */
#include "shared.h"

#include <stdio.h>
#include <stdlib.h>

#define CASES_A_LIST 2000u

static void one_case(void) {
    uint32_t lot = roll(20);
    next_case();
    if (roll(CASES_A_LIST) == 0) one_list();
    else if (lot < 2) one_of_wire();
    else if (lot < 4) one_of_records();
    else if (lot < 16) one_of_ends();
    else one_of_benches();
}

int main(int argc, char **argv) {
    if (argc != 3) {
        fprintf(stderr, "usage: boundary CASES SEED\n");
        return 2;
    }
    unsigned long cases = strtoul(argv[1], NULL, 10);
    seed(strtoull(argv[2], NULL, 10));
    entry = "nooseless_version";
    check(nooseless_version() == NOOSELESS_VERSION);
    all_ends();
    all_benches();
    for (unsigned long n = 0; n < cases; n++) one_case();
    printf("%lu cases, no difference\n", cases);
    int all = enough_lists();
    all = enough_ends() && all;
    all = enough_records() && all;
    if (enough_benches() && all) return 0;
    printf("too few of a kind for this to say anything\n");
    return 3;
}
