/* Lists made by a seed. The generator keeps the bench that its list has led
 * to, so that it knows the modes, the counts and the packets in the air. */
#ifndef GENERATE_H
#define GENERATE_H

#include "second.h"

typedef enum { CALM, NOISY, CRASHES, FLOOD, STALE, JUNK, MIXED } Style;

#define STYLES 7u

typedef struct {
    uint64_t random;
    Style style;   /* what the seed asks for */
    Style current; /* the same, but in a mixed list it changes */
    uint64_t puts;
    Bench bench;
    uint8_t to_controller[TABLE_BYTES];
    uint8_t to_console[TABLE_BYTES];
} Generator;

/* The longest piece: 21 records of 22 bytes, which is 22 of 21. */
#define PIECE_RECORDS 22u
#define PIECE_BYTES (PIECE_RECORDS * RECORD_BYTES)

void start_generator(Generator *generator, uint64_t seed);
uint64_t draw(Generator *generator, uint64_t below); /* 0 to below - 1 */
size_t draw_list_records(Generator *generator);

/* Adds one record, or a piece of several where there is room for it, runs it
 * on the generator's bench, and returns how many records it is. */
size_t next_piece(Generator *generator, uint8_t piece[PIECE_BYTES],
                  size_t room);

/* ---- records that are not well formed: spoil.c ---- */

void write_list_record(uint8_t bytes[RECORD_BYTES], const ListRecord *record);
void spoil_record(Generator *generator, uint8_t bytes[RECORD_BYTES]);

/* Records of a wrong length one after another, filled up to 21 bytes. */
size_t write_shifted(Generator *generator, const uint8_t record[RECORD_BYTES],
                     uint8_t piece[PIECE_BYTES], size_t room);

#endif
