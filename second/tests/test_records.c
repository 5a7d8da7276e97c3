/* Number records of both versions: read, written, carried. */
#include "tests.h"

#include <string.h>

#define MOST_BYTES 40u

static const uint16_t blocks[] = {0, 1, 2, 64, 255, 256, 1023, 1024, 1025,
                                  65535};

#define BLOCKS (sizeof blocks / sizeof blocks[0])

/* Console, last used 0x01020304; and controller, reserved the same. */
static const uint8_t old_record[OLD_NUMBER_RECORD_BYTES] = {
    'H', 'S', 'N', 0, 1, 1, 0, 0, 1, 2, 3, 4};
static const uint8_t new_record[NUMBER_RECORD_BYTES] = {
    'H', 'S', 'N', 0, 2, 2, 0, 0, 1, 2, 3, 4, 0x01, 0x02, 0, 0};

static size_t length_of(bool old)
{
    return old ? sizeof old_record : sizeof new_record;
}

static const uint8_t *sample(bool old)
{
    return old ? old_record : new_record;
}

static bool record_is(const NumberRecordRead *read, uint8_t end, bool old,
                      uint32_t number, uint16_t block)
{
    return read->refusal == ACCEPTED && read->record.end == end &&
           read->record.old == old && read->record.number == number &&
           read->record.block == block;
}

static bool no_record(const NumberRecordRead *read, int refusal)
{
    return read->refusal == refusal && read->record.end == 0 &&
           !read->record.old && read->record.number == 0 &&
           read->record.block == 0;
}

static void check_record_vectors(void)
{
    static const uint8_t reserved_7[] = {0x48, 0x53, 0x4E, 0x00, 0x02, 0x01,
                                         0x00, 0x00, 0x00, 0x00, 0x00, 0x07,
                                         0x00, 0x40, 0x00, 0x00};
    uint8_t bytes[NUMBER_RECORD_BYTES];
    NumberRecord record = {CONSOLE_RECORD, false, 7, 64};
    NumberRecordRead read = read_number_record(reserved_7, sizeof reserved_7);

    CHECK(record_is(&read, CONSOLE_RECORD, false, 7, 64));
    CHECK(write_number_record(&record, bytes, sizeof bytes) == ACCEPTED);
    CHECK(memcmp(bytes, reserved_7, sizeof bytes) == 0);
    read = read_number_record(new_record, sizeof new_record);
    CHECK(record_is(&read, CONTROLLER_RECORD, false, 0x01020304, 0x0102));
    read = read_number_record(old_record, sizeof old_record);
    CHECK(record_is(&read, CONSOLE_RECORD, true, 0x01020304, 0));
    record = (NumberRecord){CONSOLE_RECORD, true, 0x01020304, 0};
    CHECK(write_number_record(&record, bytes, sizeof old_record) == ACCEPTED);
    CHECK(memcmp(bytes, old_record, sizeof old_record) == 0);
}

/* Any other byte at any place. The block, which may be others, comes below. */
static void check_record_changed_bytes(bool old)
{
    static const int refusals[] = {13, 13, 13, 14, 14, 15, 15, 15,
                                   0,  0,  0,  0,  -1, -1, 15, 15};
    const uint8_t *good = sample(old);

    for (size_t at = 0; at < length_of(old); at++) {
        bool as_said = true;

        for (unsigned to = 0; to < 256 && refusals[at] >= 0; to++) {
            uint8_t bytes[NUMBER_RECORD_BYTES];
            bool still_good =
                to == good[at] || (at == 5 && (to == 1 || to == 2));

            memcpy(bytes, good, length_of(old));
            bytes[at] = (uint8_t)to;
            NumberRecordRead read = read_number_record(bytes, length_of(old));
            int wanted = still_good ? ACCEPTED : refusals[at];
            as_said = as_said && read.refusal == wanted;
            as_said = as_said && (!wanted || no_record(&read, wanted));
        }
        CHECK(as_said);
    }
}

/* Each block there is; the bytes around it are zero. */
static void check_every_block(void)
{
    bool as_said = true;

    for (uint32_t block = 0; block <= UINT16_MAX; block++) {
        uint8_t bytes[NUMBER_RECORD_BYTES];
        bool good = block >= 1 && block <= 1024;

        memcpy(bytes, new_record, sizeof bytes);
        bytes[12] = (uint8_t)(block >> 8);
        bytes[13] = (uint8_t)block;
        NumberRecordRead read = read_number_record(bytes, sizeof bytes);
        as_said = as_said && (good ? read.record.block == block
                                   : no_record(&read, OUTSIDE_TABLE));
    }
    CHECK(as_said);
}

/* Every set of faults in a record: the first in order is answered. The other
 * version is the one that the other length has. */
static void check_record_order(bool old)
{
    static const int refusals[] = {12, 13, 14, 15, 15, 15, 15};
    size_t faults = old ? 5 : 7;

    for (unsigned set = 0; set < 1u << faults; set++) {
        uint8_t bytes[NUMBER_RECORD_BYTES + 1] = {0};
        int wanted = ACCEPTED;

        memcpy(bytes, sample(old), length_of(old));
        bytes[2] = set & 2u ? 'L' : 'N';
        bytes[4] ^= set & 4u ? 3 : 0;
        bytes[5] = set & 8u ? 3 : 1;
        bytes[7] = set & 16u ? 1 : 0;
        bytes[12] = set & 32u ? 4 : bytes[12];
        bytes[15] = set & 64u ? 1 : 0;
        for (size_t fault = faults; fault > 0; fault--) {
            if (set >> (fault - 1) & 1u) {
                wanted = refusals[fault - 1];
            }
        }
        NumberRecordRead read =
            read_number_record(bytes, length_of(old) + (set & 1u));
        CHECK(read.refusal == wanted);
    }
}

/* Only 12 and 16 bytes; in them only their own version. */
static void check_record_lengths(bool old)
{
    uint8_t bytes[MOST_BYTES] = {0};

    memcpy(bytes, sample(old), length_of(old));
    for (size_t length = 0; length <= MOST_BYTES; length++) {
        NumberRecordRead read = read_number_record(bytes, length);
        int wanted = length == length_of(old)     ? ACCEPTED
                     : length == length_of(!old)  ? WRONG_VERSION
                                                  : WRONG_LENGTH;

        CHECK(wanted == ACCEPTED ? read.refusal == ACCEPTED
                                 : no_record(&read, wanted));
    }
    CHECK(read_number_record(NULL, 0).refusal == WRONG_LENGTH);
}

/* 12 for any length but the version's, then 15; a refusal writes nothing. */
static void check_record_written(const NumberRecord *record, bool good)
{
    uint8_t buffer[MOST_BYTES];
    size_t right = length_of(record->old);

    memset(buffer, 0xA5, sizeof buffer);
    for (size_t length = 0; length <= MOST_BYTES; length++) {
        CHECK(length == right || write_number_record(record, buffer, length) ==
                                     WRONG_LENGTH);
    }
    CHECK(all_bytes_are(buffer, sizeof buffer, 0xA5));
    CHECK(write_number_record(record, buffer, right) ==
          (good ? ACCEPTED : OUTSIDE_TABLE));
    CHECK(good != all_bytes_are(buffer, right, 0xA5));
    CHECK(all_bytes_are(buffer + right, sizeof buffer - right, 0xA5));
    NumberRecordRead read = read_number_record(buffer, right);
    CHECK(!good || record_is(&read, record->end, record->old, record->number,
                             record->old ? 0 : record->block));
}

static void check_record_writing(void)
{
    for (unsigned end = 0; end < 256; end++) {
        bool end_good = end == 1 || end == 2;
        NumberRecord record = {(uint8_t)end, true, 3, 0};

        check_record_written(&record, end_good);
        record.old = false;
        for (size_t n = 0; n < BLOCKS; n++) {
            record.block = blocks[n];
            check_record_written(&record, end_good && blocks[n] >= 1 &&
                                              blocks[n] <= 1024);
        }
    }
}

void test_number_records(void)
{
    check_record_vectors();
    for (int old = 0; old < 2; old++) {
        check_record_changed_bytes(old);
        check_record_order(old);
        check_record_lengths(old);
    }
    check_every_block();
    check_record_writing();
}

/* Old to new to old gives the same bytes; so does carrying to the same. */
static void check_old_new_old(uint8_t end, uint32_t number)
{
    NumberRecord record = {end, true, number, 0};
    uint8_t old[OLD_NUMBER_RECORD_BYTES];
    uint8_t again[OLD_NUMBER_RECORD_BYTES];
    uint8_t new[NUMBER_RECORD_BYTES];

    CHECK(write_number_record(&record, old, sizeof old) == ACCEPTED);
    CHECK(carry_number_record(old, sizeof old, new, sizeof new) == ACCEPTED);
    NumberRecordRead read = read_number_record(new, sizeof new);
    CHECK(record_is(&read, end, false, number, 64));
    CHECK(carry_number_record(new, sizeof new, again, sizeof again) ==
          ACCEPTED);
    CHECK(memcmp(again, old, sizeof old) == 0);
    memset(again, 0xA5, sizeof again);
    CHECK(carry_number_record(old, sizeof old, again, sizeof again) ==
          ACCEPTED);
    CHECK(memcmp(again, old, sizeof old) == 0);
}

/* New to old to new gives the same bytes but for block 64. */
static void check_new_old_new(uint8_t end, uint32_t number, uint16_t block)
{
    NumberRecord record = {end, false, number, block};
    uint8_t new[NUMBER_RECORD_BYTES];
    uint8_t again[NUMBER_RECORD_BYTES];
    uint8_t old[OLD_NUMBER_RECORD_BYTES];

    CHECK(write_number_record(&record, new, sizeof new) == ACCEPTED);
    CHECK(carry_number_record(new, sizeof new, again, sizeof again) ==
          ACCEPTED);
    CHECK(memcmp(again, new, sizeof new) == 0);
    CHECK(carry_number_record(new, sizeof new, old, sizeof old) == ACCEPTED);
    NumberRecordRead read = read_number_record(old, sizeof old);
    CHECK(record_is(&read, end, true, number, 0));
    CHECK(carry_number_record(old, sizeof old, again, sizeof again) ==
          ACCEPTED);
    CHECK(memcmp(again, new, 12) == 0 && memcmp(again + 14, new + 14, 2) == 0);
    CHECK(again[12] == 0x00 && again[13] == 0x40);
}

/* 12 for either length, then what reading says; a refusal writes nothing. */
static void check_carrying_refusals(void)
{
    for (unsigned set = 0; set < 64; set++) {
        bool old = set & 32u;
        uint8_t from[MOST_BYTES] = {0};
        uint8_t to[MOST_BYTES];
        size_t to_length = set & 1u ? 14 : set & 16u ? 12 : 16;
        size_t from_length = length_of(old) - (set >> 1 & 1u);
        int wanted = set & 3u   ? WRONG_LENGTH
                     : set & 4u ? WRONG_MARK
                     : set & 8u ? WRONG_VERSION
                                : OUTSIDE_TABLE;

        memcpy(from, sample(old), length_of(old));
        memset(to, 0xA5, sizeof to);
        from[0] = set & 4u ? 'h' : 'H';
        from[4] ^= set & 8u ? 3 : 0;
        from[6] = 1;
        CHECK(carry_number_record(from, from_length, to, to_length) == wanted);
        CHECK(all_bytes_are(to, sizeof to, 0xA5));
    }
}

static void check_carrying_lengths(void)
{
    uint8_t from[MOST_BYTES] = {0};
    uint8_t to[MOST_BYTES];

    memcpy(from, new_record, sizeof new_record);
    for (size_t length = 0; length <= MOST_BYTES; length++) {
        bool good = length == 12 || length == 16;
        int wanted = !good ? WRONG_LENGTH
                     : length == 12 ? WRONG_VERSION
                                    : ACCEPTED;

        memset(to, 0xA5, sizeof to);
        CHECK(carry_number_record(from, 16, to, length) ==
              (good ? ACCEPTED : WRONG_LENGTH));
        CHECK(all_bytes_are(to + (good ? length : 0),
                            sizeof to - (good ? length : 0), 0xA5));
        CHECK(carry_number_record(from, length, to, 16) == wanted);
    }
    CHECK(carry_number_record(NULL, 0, to, 16) == WRONG_LENGTH);
    CHECK(carry_number_record(from, 16, NULL, 0) == WRONG_LENGTH);
}

void test_carried_records(void)
{
    static const uint32_t numbers[] = {0, 1, 63, 64, 65536, LARGEST_NUMBER - 1,
                                       LARGEST_NUMBER};

    for (uint8_t end = CONSOLE_RECORD; end <= CONTROLLER_RECORD; end++) {
        for (size_t n = 0; n < sizeof numbers / sizeof numbers[0]; n++) {
            check_old_new_old(end, numbers[n]);
            for (size_t b = 0; b < BLOCKS; b++) {
                if (blocks[b] >= 1 && blocks[b] <= 1024) {
                    check_new_old_new(end, numbers[n], blocks[b]);
                }
            }
        }
    }
    check_carrying_refusals();
    check_carrying_lengths();
}
