/* Records as they should be, and the ways in which they are not. */
#include "generate.h"

#include <string.h>

void write_list_record(uint8_t bytes[RECORD_BYTES], const ListRecord *record)
{
    bytes[0] = record->letter;
    bytes[1] = (uint8_t)('0' + record->place / 10);
    bytes[2] = (uint8_t)('0' + record->place % 10);
    bytes[3] = (uint8_t)('0' + record->copies);
    memcpy(bytes + 4, record->message, CELLS);
    bytes[20] = 0x0A;
}

static uint8_t draw_of(Generator *generator, const char *bytes, size_t length)
{
    return (uint8_t)bytes[draw(generator, length)];
}

static void spoil_letter(Generator *generator, uint8_t *bytes)
{
    static const char letters[] = "pqdscvokrxylmaBEFGHIJNTUWZ?0 \n";

    bytes[0] = draw_of(generator, letters, sizeof letters);
}

/* A byte that is no digit, or a place from 64 on. */
static void spoil_place(Generator *generator, uint8_t *bytes)
{
    size_t place = PLACES;

    if (draw(generator, 2) == 0) {
        bytes[1 + draw(generator, 2)] = draw_of(generator, "/: -+xO", 7);
        return;
    }
    if (draw(generator, 2) == 0) {
        place += (size_t)draw(generator, 100 - PLACES);
    }
    bytes[1] = (uint8_t)('0' + place / 10);
    bytes[2] = (uint8_t)('0' + place % 10);
}

static void spoil_copies(Generator *generator, uint8_t *bytes)
{
    bytes[3] = draw_of(generator, "456789/: -x", 11);
}

static void spoil_cell(Generator *generator, uint8_t *bytes)
{
    static const char no_cells[] = "\x00\x09\x0A\x0D\x1F\x7F"
                                   "\x80\xA0\xB0\xB5\xFF";

    bytes[4 + draw(generator, CELLS)] =
        draw_of(generator, no_cells, sizeof no_cells - 1);
}

static void spoil_end(Generator *generator, uint8_t *bytes)
{
    bytes[20] = draw_of(generator, "\x0D\x0B\x00 0", 5);
}

/* Sets a field; where the letter uses it, the record may stay good. */
static void fill_field(Generator *generator, uint8_t *bytes)
{
    switch (draw(generator, 4)) {
    case 0:
        bytes[1] = (uint8_t)('1' + draw(generator, 6));
        break;
    case 1:
        bytes[2] = (uint8_t)('1' + draw(generator, 9));
        break;
    case 2:
        bytes[3] = (uint8_t)('1' + draw(generator, 3));
        break;
    default:
        bytes[4 + draw(generator, CELLS)] = draw_of(generator, "!0A~", 4);
        break;
    }
}

static void spoil_byte(Generator *generator, uint8_t *bytes)
{
    bytes[draw(generator, RECORD_BYTES)] = (uint8_t)draw(generator, 256);
}

static void spoil_all(Generator *generator, uint8_t *bytes)
{
    for (size_t n = 0; n < RECORD_BYTES; n++) {
        bytes[n] = (uint8_t)draw(generator, 256);
    }
}

void spoil_record(Generator *generator, uint8_t bytes[RECORD_BYTES])
{
    static void (*const ways[])(Generator *, uint8_t *) = {
        spoil_letter, spoil_place, spoil_copies, spoil_cell, spoil_end,
        fill_field,   fill_field,  spoil_byte,   spoil_all,
    };

    ways[draw(generator, sizeof ways / sizeof ways[0])](generator, bytes);
}

/* One record of a wrong length: CR LF at the end, or no end at all. */
static size_t write_wrong_length(uint8_t *bytes, const uint8_t *record,
                                 bool cr_lf)
{
    memcpy(bytes, record, 20);
    if (!cr_lf) {
        return 20;
    }
    bytes[20] = 0x0D;
    bytes[21] = 0x0A;
    return 22;
}

size_t write_shifted(Generator *generator, const uint8_t record[RECORD_BYTES],
                     uint8_t piece[PIECE_BYTES], size_t room)
{
    size_t wanted = draw(generator, 2) == 0 ? 1 : PIECE_RECORDS - 1;
    bool cr_lf = draw(generator, 2) == 0;
    size_t bytes = 0;

    if (room < PIECE_RECORDS) {
        return 1;
    }
    for (size_t n = 0; n < wanted; n++) {
        bytes += write_wrong_length(piece + bytes, record, cr_lf);
    }
    while (bytes % RECORD_BYTES != 0) {
        piece[bytes] = ' ';
        bytes += 1;
    }
    return bytes / RECORD_BYTES;
}
