/* gen SEED [RECORDS]: writes the list of that seed to standard output. */
#include "generate.h"

#include <stdio.h>
#include <stdlib.h>

static void write_records(Generator *generator, size_t records)
{
    uint8_t piece[PIECE_BYTES];

    while (records > 0) {
        size_t added = next_piece(generator, piece, records);

        fwrite(piece, RECORD_BYTES, added, stdout);
        records -= added;
    }
}

/* One list in six ends with a record that is cut short. */
static void write_tail(Generator *generator)
{
    uint8_t piece[PIECE_BYTES];

    if (draw(generator, 6) == 0) {
        next_piece(generator, piece, 1);
        fwrite(piece, 1, 1 + (size_t)draw(generator, RECORD_BYTES - 1), stdout);
    }
}

int main(int argc, char **argv)
{
    static Generator generator;

    if (argc < 2 || argc > 3) {
        fputs("usage: gen SEED [RECORDS]\n", stderr);
        return 2;
    }
    start_generator(&generator, strtoull(argv[1], NULL, 10));
    size_t records = draw_list_records(&generator);
    if (argc == 3) {
        records = (size_t)strtoull(argv[2], NULL, 10);
    }
    write_records(&generator, records);
    write_tail(&generator);
    return fflush(stdout) == 0 ? 0 : 1;
}
