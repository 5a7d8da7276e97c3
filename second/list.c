/* The list program: records on standard input, lines on standard output. */
#include "second.h"

#include <stdio.h>

static uint8_t input[MOST_RECORDS * RECORD_BYTES];
static uint8_t output[MOST_RECORDS * LINE_BYTES];

int main(void)
{
    size_t read = fread(input, 1, sizeof input, stdin);
    size_t written = run_list(input, read, output);

    if (fwrite(output, 1, written, stdout) != written || fflush(stdout) != 0) {
        return 1;
    }
    return 0;
}
