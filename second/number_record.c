/* The number record: version 1 of 12 bytes, version 2 of 16. */
#include "second.h"

static const char number_record_mark[] = "HSN";

static size_t length_of(bool old)
{
    return old ? OLD_NUMBER_RECORD_BYTES : NUMBER_RECORD_BYTES;
}

static uint8_t version_of(bool old)
{
    return old ? 1 : 2;
}

static bool a_length(size_t length)
{
    return length == length_of(true) || length == length_of(false);
}

static bool end_in_table(uint8_t end)
{
    return end == CONSOLE_RECORD || end == CONTROLLER_RECORD;
}

bool block_in_range(uint16_t block)
{
    return block >= 1 && block <= LARGEST_BLOCK;
}

/* Reading and writing share it. */
static bool inside_table(const NumberRecord *record)
{
    return end_in_table(record->end) &&
           (record->old || block_in_range(record->block));
}

static bool zeros_in_place(const uint8_t *bytes, bool old)
{
    return bytes[6] == 0 && bytes[7] == 0 &&
           (old || (bytes[14] == 0 && bytes[15] == 0));
}

static NumberRecordRead no_record(int refusal)
{
    NumberRecordRead none = {0};

    none.refusal = refusal;
    return none;
}

NumberRecordRead read_number_record(const uint8_t *bytes, size_t length)
{
    NumberRecordRead read = {0};

    if (!a_length(length)) {
        return no_record(WRONG_LENGTH);
    }
    bool old = length == length_of(true);
    int refusal =
        read_mark_and_version(bytes, number_record_mark, version_of(old));
    if (refusal != ACCEPTED) {
        return no_record(refusal);
    }
    read.record.end = bytes[5];
    read.record.old = old;
    read.record.number = get_number(bytes + 8);
    if (!old) {
        read.record.block = (uint16_t)(bytes[12] << 8 | bytes[13]);
    }
    if (!zeros_in_place(bytes, old) || !inside_table(&read.record)) {
        return no_record(OUTSIDE_TABLE);
    }
    return read;
}

int write_number_record(const NumberRecord *record, uint8_t *buffer,
                        size_t length)
{
    if (length != length_of(record->old)) {
        return WRONG_LENGTH;
    }
    if (!inside_table(record)) {
        return OUTSIDE_TABLE;
    }
    write_mark_and_version(buffer, number_record_mark,
                           version_of(record->old));
    buffer[5] = record->end;
    buffer[6] = 0;
    buffer[7] = 0;
    set_number(buffer + 8, record->number);
    if (!record->old) {
        buffer[12] = (uint8_t)(record->block >> 8);
        buffer[13] = (uint8_t)record->block;
        buffer[14] = 0;
        buffer[15] = 0;
    }
    return ACCEPTED;
}

NumberRecord renewed(NumberRecord record)
{
    if (record.old) {
        record.old = false;
        record.block = FRESH_BLOCK;
    }
    return record;
}

NumberRecord aged(NumberRecord record)
{
    record.old = true;
    record.block = 0;
    return record;
}

int carry_number_record(const uint8_t *from, size_t from_length, uint8_t *to,
                        size_t to_length)
{
    if (!a_length(to_length)) {
        return WRONG_LENGTH;
    }
    NumberRecordRead read = read_number_record(from, from_length);
    if (read.refusal != ACCEPTED) {
        return read.refusal;
    }
    bool old = to_length == length_of(true);
    NumberRecord carried = old ? aged(read.record) : renewed(read.record);
    return write_number_record(&carried, to, to_length);
}
