/* The list program on whole inputs. */
#include "tests.h"

#include <stdio.h>
#include <string.h>

#define MANY (MOST_RECORDS + 2)

static uint8_t input[MANY * RECORD_BYTES];
static uint8_t output[MANY * LINE_BYTES];

#define ROWS 10u

/* Runs ten records and compares the whole output; trailing spaces are not
 * written here. */
static void check_rows(const char *const rows[ROWS][2])
{
    char list[ROWS * RECORD_BYTES + 1];
    char wanted[ROWS * LINE_BYTES + 1];

    for (size_t n = 0; n < ROWS; n++) {
        snprintf(list + n * RECORD_BYTES, RECORD_BYTES + 1, "%-20s\n",
                 rows[n][0]);
        snprintf(wanted + n * LINE_BYTES, LINE_BYTES + 1, "%-26s\n",
                 rows[n][1]);
    }
    size_t length = run_list((const uint8_t *)list, sizeof list - 1, output);
    CHECK(length == ROWS * LINE_BYTES);
    CHECK(memcmp(output, wanted, length) == 0);
}

static void check_answer_rows(void)
{
    static const char *const rows[ROWS][2] = {
        {"P000STOP", "0001 P --"},
        {"Q001", "0002 Q --"},
        {"R000", "0003 R --"},
        {"O001", "0004 O --"},
        {"S000", "0005 S --"},
        {"D001", "0006 D --"},
        {"R001", "0007 R DL STOP"},
        {"S001", "0008 S --"},
        {"A000", "0009 A OK"},
        {"A000", "0010 A LO"},
    };

    check_rows(rows);
}

void test_listing(void)
{
    static const char *const listing[ROWS][2] = {
        {"P000START FILLER 03", "0001 P --"},
        {"Q001", "0002 Q --"},
        {"R000", "0003 R --"},
        {"O001", "0004 O --"},
        {"S000", "0005 S --"},
        {"D002", "0006 D --"},
        {"R001", "0007 R DL START FILLER 03"},
        {"S000", "0008 S --"},
        {"R001", "0009 R --"},
        {"S000", "0010 S 03"},
    };
    static const char *const other[ROWS][2] = {
        {"P000~BCDEFGHIJKLMNO~", "0001 P --"},
        {"Q001", "0002 Q --"},
        {"R000", "0003 R --"},
        {"O001", "0004 O --"},
        {"S000", "0005 S --"},
        {"D001", "0006 D --"},
        {"R001", "0007 R DL ~BCDEFGHIJKLMNO~"},
        {"Y001", "0008 ? 01"},
        {"R000", "0009 R 03"},
        {"Y000", "0010 Y 05"},
    };

    check_rows(listing);
    check_rows(other);
    check_answer_rows();
}

static const char letters[] = "PQDSCVOKRXYLMA";

static bool uses(const char *users, uint8_t letter)
{
    return letter != 0 && strchr(users, letter) != NULL;
}

static bool is_digit_up_to(uint8_t byte, char largest)
{
    return byte >= '0' && byte <= (uint8_t)largest;
}

/* If a record that was all 0 digits and spaces is good after one change. */
static bool good_after_change(uint8_t letter, size_t at, uint8_t to)
{
    if (at == 0) {
        return uses(letters, to);
    }
    if (at == 1) {
        return uses("SRLM", letter) ? is_digit_up_to(to, '6') : to == '0';
    }
    if (at == 2) {
        return uses("SRLM", letter) ? is_digit_up_to(to, '9') : to == '0';
    }
    if (at == 3) {
        return uses("QDSOKR", letter) ? is_digit_up_to(to, '3') : to == '0';
    }
    if (at < 20) {
        return letter == 'P' ? to >= 0x20 && to <= 0x7E : to == ' ';
    }
    return to == 0x0A;
}

static void check_changed_bytes(char letter)
{
    for (size_t at = 0; at < RECORD_BYTES; at++) {
        bool as_said = true;

        for (unsigned to = 0; to < 256; to++) {
            char bytes[RECORD_BYTES + 1];
            ListRecord record;

            snprintf(bytes, sizeof bytes, "%c000%16s\n", letter, "");
            bytes[at] = (char)to;
            bool good = read_list_record((const uint8_t *)bytes, RECORD_BYTES,
                                         &record);
            as_said = as_said && good == good_after_change((uint8_t)letter, at,
                                                           (uint8_t)to);
            as_said = as_said && (!good || record.letter == (uint8_t)bytes[0]);
        }
        CHECK(as_said);
    }
}

/* Every two bytes where the place stands. */
static void check_places(void)
{
    for (unsigned tens = 0; tens < 256; tens++) {
        bool as_said = true;

        for (unsigned ones = 0; ones < 256; ones++) {
            uint8_t bytes[RECORD_BYTES + 1] = "R002                \n";
            ListRecord record;
            unsigned place = (tens - '0') * 10 + (ones - '0');
            bool digits = is_digit_up_to((uint8_t)tens, '9') &&
                          is_digit_up_to((uint8_t)ones, '9');

            bytes[1] = (uint8_t)tens;
            bytes[2] = (uint8_t)ones;
            bool good = read_list_record(bytes, RECORD_BYTES, &record);
            as_said = as_said && good == (digits && place < 64);
            as_said = as_said && (!good || (record.place == place &&
                                            record.copies == 2));
        }
        CHECK(as_said);
    }
}

static void check_bad_lines(void)
{
    static const char *const bad[] = {
        "p000a", "P010a", "P001a", "Q011", "Q004", "R640", "R0 0", "R 00",
        "C001",  "V010",  "L001",  "M0000", "X000 .", "0000", " 000", "?000",
        "a000",  "A010",  "A001",  "A000A", "P000\x7F", "P000\x1F", "P000 \xB0",
    };

    for (size_t n = 0; n < sizeof bad / sizeof bad[0]; n++) {
        char list[RECORD_BYTES + 1];

        snprintf(list, sizeof list, "%-20s\n", bad[n]);
        CHECK(run_list((const uint8_t *)list, RECORD_BYTES, output) ==
              LINE_BYTES);
        CHECK(memcmp(output, "0001 ? 01                 \n", LINE_BYTES) == 0);
    }
}

void test_list_records(void)
{
    for (size_t n = 0; letters[n] != '\0'; n++) {
        check_changed_bytes(letters[n]);
    }
    check_places();
    check_bad_lines();
}

static bool line_is(size_t number, const char *rest)
{
    char wanted[LINE_BYTES + 1];

    snprintf(wanted, sizeof wanted, "%04u %-21s\n", (unsigned)number, rest);
    return memcmp(output + (number - 1) * LINE_BYTES, wanted, LINE_BYTES) == 0;
}

/* All lengths up to three records: a short last one is a line of its own. */
static void check_short_lists(void)
{
    for (size_t length = 0; length <= 3 * RECORD_BYTES; length++) {
        size_t whole = length / RECORD_BYTES;
        size_t cut = length % RECORD_BYTES != 0 ? 1 : 0;

        memset(output, 0xA5, sizeof output);
        for (size_t n = 0; n < 3; n++) {
            memcpy(input + n * RECORD_BYTES, "C000                \n",
                   RECORD_BYTES);
        }
        CHECK(run_list(input, length, output) == (whole + cut) * LINE_BYTES);
        for (size_t n = 1; n <= whole; n++) {
            CHECK(line_is(n, "C --"));
        }
        CHECK(cut == 0 || line_is(whole + 1, "? 01"));
        CHECK(output[(whole + cut) * LINE_BYTES] == 0xA5);
    }
    CHECK(run_list(NULL, 0, output) == 0);
}

/* Lists of about 9,999 records, whole and with a record cut short. */
static void check_long_lists(void)
{
    for (size_t n = 0; n < MANY; n++) {
        memcpy(input + n * RECORD_BYTES,
               n % 2 == 0 ? "C000                \n" : "V000                \n",
               RECORD_BYTES);
    }
    for (size_t records = MOST_RECORDS - 2; records < MANY; records++) {
        for (size_t cut = 0; cut < RECORD_BYTES; cut += 20) {
            size_t lines = records + (cut > 0 ? 1 : 0);

            if (lines > MOST_RECORDS) {
                lines = MOST_RECORDS;
            }
            CHECK(run_list(input, records * RECORD_BYTES + cut, output) ==
                  lines * LINE_BYTES);
            CHECK(line_is(lines, lines > records      ? "? 01"
                                 : lines % 2 == 1 ? "C --"
                                                  : "V --"));
        }
    }
    CHECK(line_is(1, "C --") && line_is(MOST_RECORDS, "C --"));
}

void test_list_lengths(void)
{
    check_short_lists();
    check_long_lists();
    CHECK(count_records(SIZE_MAX) == MOST_RECORDS);
}
