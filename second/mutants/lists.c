/* lists FILE...: runs the list in each file and compares what it prints with
 * the file of the same name and ".out". Stops at the first that differs, and
 * says where. One process for many lists, because there are many mutants. */
#include "second.h"

#include <stdio.h>
#include <string.h>

#define INPUT_BYTES ((MOST_RECORDS + 10) * RECORD_BYTES)
#define OUTPUT_BYTES ((MOST_RECORDS + 10) * LINE_BYTES)

static uint8_t input[INPUT_BYTES];
static uint8_t output[OUTPUT_BYTES];
static uint8_t wanted[OUTPUT_BYTES];

static bool read_file(const char *path, uint8_t *bytes, size_t most,
                      size_t *length)
{
    FILE *file = fopen(path, "rb");

    if (file == NULL) {
        return false;
    }
    *length = fread(bytes, 1, most, file);
    fclose(file);
    return true;
}

static bool differs(const char *path)
{
    char wanted_path[500];
    size_t length;
    size_t wanted_length;
    size_t at = 0;

    snprintf(wanted_path, sizeof wanted_path, "%s.out", path);
    if (!read_file(path, input, sizeof input, &length) ||
        !read_file(wanted_path, wanted, sizeof wanted, &wanted_length)) {
        printf("%s cannot be read\n", path);
        return true;
    }
    length = run_list(input, length, output);
    while (at < length && at < wanted_length && output[at] == wanted[at]) {
        at += 1;
    }
    if (at < length || at < wanted_length) {
        printf("%s record %u\n", path, (unsigned)(at / LINE_BYTES + 1));
        return true;
    }
    return false;
}

int main(int argc, char **argv)
{
    for (int n = 1; n < argc; n++) {
        if (differs(argv[n])) {
            return 1;
        }
    }
    return 0;
}
