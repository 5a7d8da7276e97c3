/* The list runner, on lists by the second program's generator and on any bytes. */
#include "shared.h"

#include <stdio.h>
#include <string.h>

#include "../../second/generate.h"

#define MOST_INPUT ((MOST_RECORDS + 30) * RECORD_BYTES)
#define MOST_OUTPUT ((MOST_RECORDS + 30) * LINE_BYTES)
#define AROUND 64u

static uint8_t input[AROUND + MOST_INPUT + AROUND], input2[sizeof input];
static unsigned long lists, records_read;
static uint8_t output[AROUND + MOST_OUTPUT + AROUND], output2[sizeof output];

/* What A printed, and how often. */
static struct {
    const char *printed;
    unsigned long times;
} reads[] = {{"OK", 0}, {"LO", 0}, {"04", 0}, {"06", 0}};

enum { READS = sizeof reads / sizeof *reads };

static void count_reads(const uint8_t *lines, size_t n) {
    for (; n; n -= LINE_BYTES, lines += LINE_BYTES)
        for (int i = 0; i < READS; i++) reads[i].times += lines[5] == 'A' && !memcmp(lines + 7, reads[i].printed, 2);
}

/* Gives the length: mostly of tens of records, seldom of more than are read. */
static size_t some_list(uint8_t *bytes) {
    static Generator g;
    size_t n = 0, records = roll(50) == 0 ? MOST_RECORDS - 1 + roll(4) : roll(120);
    start_generator(&g, roll(UINT32_MAX));
    while (n < records) n += next_piece(&g, bytes + n * RECORD_BYTES, records - n);
    n *= RECORD_BYTES;
    for (uint32_t faults = roll(4) ? 0 : 1 + roll(4); n && faults; faults--) damage(bytes, n);
    if (roll(3)) return n;
    uint32_t tail = roll(2 * RECORD_BYTES);
    scribble(bytes + n, tail);
    return n + tail;
}

static size_t some_room(size_t lines) {
    size_t right = lines * LINE_BYTES;
    switch (roll(6)) {
    case 0: return roll((uint32_t)right + 1);
    case 1: return right + roll(LINE_BYTES + 1);
    case 2: return right < LINE_BYTES ? right : right - roll(LINE_BYTES + 1);
    case 3: return MOST_OUTPUT;
    default: return right;
    }
}

void one_list(void) {
    static uint8_t lines[MOST_RECORDS * LINE_BYTES];
    entry = "nooseless_run";
    uint8_t paint = (uint8_t)roll(256);
    memset(input, (uint8_t)roll(256), sizeof input);
    memset(output, paint, sizeof output);
    memset(output2, paint, sizeof output2);
    size_t n = some_list(input + AROUND), room = some_room(count_records(n));
    memcpy(input2, input, sizeof input);
    size_t written = run_list(input2 + AROUND, n, lines);
    if (written > room) written = room / LINE_BYTES * LINE_BYTES;
    memcpy(output2 + AROUND, lines, written);
    check(nooseless_run(input + AROUND, n, output + AROUND, room) == written);
    check(!memcmp(input, input2, sizeof input) && !memcmp(output, output2, sizeof output));
    lists++;
    records_read += written / LINE_BYTES;
    count_reads(output2 + AROUND, written);
}

int enough_lists(void) {
    int all = 1;
    printf("lists: %lu, of %lu records; A printed", lists, records_read);
    for (int i = 0; i < READS; i++) {
        if (reads[i].times < LEAST) all = 0;
        printf(" %s: %lu", reads[i].printed, reads[i].times);
    }
    printf("\n");
    return all;
}
