/* The list program on a whole input. */
#include "second.h"

#include <string.h>

static bool is_digit(uint8_t byte, uint8_t largest)
{
    return byte >= '0' && byte <= largest;
}

static bool read_place(const uint8_t digits[2], size_t *place)
{
    if (!is_digit(digits[0], '9') || !is_digit(digits[1], '9')) {
        return false;
    }
    *place = (size_t)(digits[0] - '0') * 10 + (size_t)(digits[1] - '0');
    return *place < PLACES;
}

/* Fields that the letter does not use are 0 digits and spaces. */
static bool unused_fields_empty(const Action *action, const ListRecord *record)
{
    if (!action->place && record->place != 0) {
        return false;
    }
    if (!action->copies && record->copies != 0) {
        return false;
    }
    return action->message || all_bytes_are(record->message, CELLS, ' ');
}

bool read_list_record(const uint8_t *bytes, size_t length, ListRecord *record)
{
    ListRecord read = {0};

    if (length != RECORD_BYTES || bytes[20] != 0x0A) {
        return false;
    }
    const Action *action = find_action(bytes[0]);
    if (action == NULL || !read_place(bytes + 1, &read.place)) {
        return false;
    }
    if (!is_digit(bytes[3], '3') || !all_cells(bytes + 4)) {
        return false;
    }
    read.letter = bytes[0];
    read.copies = (size_t)(bytes[3] - '0');
    memcpy(read.message, bytes + 4, CELLS);
    if (!unused_fields_empty(action, &read)) {
        return false;
    }
    *record = read;
    return true;
}

Outcome run_record(Bench *bench, const uint8_t *bytes, size_t length)
{
    ListRecord record;

    if (!read_list_record(bytes, length, &record)) {
        return refused(BAD_RECORD);
    }
    return bench_step(bench, record.letter, record.place, record.copies,
                      record.message);
}

static void write_digits(uint8_t *cells, size_t digits, size_t number)
{
    for (size_t n = digits; n > 0; n--) {
        cells[n - 1] = (uint8_t)('0' + number % 10);
        number /= 10;
    }
}

static void write_report(uint8_t cells[2], const Outcome *outcome)
{
    static const char *const words[] = {"--", "DL", "OK", "LO"};

    if (outcome->report == REFUSED) {
        write_digits(cells, 2, (size_t)outcome->refusal);
    } else {
        memcpy(cells, words[outcome->report], 2);
    }
}

void write_line(uint8_t line[LINE_BYTES], size_t number, uint8_t letter,
                const Outcome *outcome)
{
    memset(line, ' ', LINE_BYTES);
    write_digits(line, 4, number);
    line[5] = outcome->refusal == BAD_RECORD ? '?' : letter;
    write_report(line + 7, outcome);
    memcpy(line + 10, outcome->message, CELLS);
    line[26] = 0x0A;
}

size_t count_records(size_t input_length)
{
    size_t records = input_length / RECORD_BYTES;

    if (input_length % RECORD_BYTES != 0) {
        records += 1;
    }
    return records < MOST_RECORDS ? records : MOST_RECORDS;
}

size_t run_list(const uint8_t *input, size_t length, uint8_t *output)
{
    uint8_t to_controller[TABLE_BYTES];
    uint8_t to_console[TABLE_BYTES];
    size_t records = count_records(length);
    Bench bench;

    fresh_bench(&bench, 0, 0, to_controller, TABLE_BYTES, to_console,
                TABLE_BYTES);
    for (size_t n = 0; n < records; n++) {
        const uint8_t *record = input + n * RECORD_BYTES;
        size_t left = length - n * RECORD_BYTES;
        size_t bytes = left < RECORD_BYTES ? left : RECORD_BYTES;
        Outcome outcome = run_record(&bench, record, bytes);

        write_line(output + n * LINE_BYTES, n + 1, record[0], &outcome);
    }
    return records * LINE_BYTES;
}
