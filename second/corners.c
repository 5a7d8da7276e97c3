/* Small lists written by hand, as readable text.
 *
 * corners check FILE...      runs them and compares with what they say
 * corners write DIR FILE...  writes each to DIR/NAME.list
 *
 * Lines of a file: "corner NAME" begins a list. "RECORD > PRINTED" is a
 * record, filled up with spaces and 0x0A, and the line that it prints but for
 * the number. "Nx " in front of it says N times. "raw BYTES > PRINTED" is not
 * filled up. Either side may be empty. \xHH is a byte; # begins a comment. */
#include "second.h"

#include <stdio.h>
#include <stdlib.h>
#include <string.h>

#define MOST_BYTES ((MOST_RECORDS + 10) * RECORD_BYTES)
#define LINE_LENGTH 200

static char name[LINE_LENGTH];
static uint8_t list[MOST_BYTES];
static size_t list_length;
static uint8_t wanted[MOST_BYTES * 2];
static size_t lines;
static uint8_t printed[MOST_BYTES * 2];
static unsigned corners;
static unsigned wrong;

static const char *directory; /* NULL: check */

static void write_corner(void)
{
    char path[2 * LINE_LENGTH];

    snprintf(path, sizeof path, "%s/%s.list", directory, name);
    FILE *file = fopen(path, "wb");
    if (file == NULL || fwrite(list, 1, list_length, file) != list_length ||
        fclose(file) != 0) {
        printf("%s cannot be written\n", path);
        wrong += 1;
    }
}

static void check_corner(void)
{
    size_t length = run_list(list, list_length, printed);
    size_t wanted_length = lines * LINE_BYTES;
    size_t at = 0;

    while (at < length && at < wanted_length && printed[at] == wanted[at]) {
        at += 1;
    }
    if (at < length || at < wanted_length) {
        printf("%s: line %u is not as said\n", name,
               (unsigned)(at / LINE_BYTES + 1));
        wrong += 1;
    }
}

static void finish_corner(void)
{
    if (name[0] != '\0') {
        corners += 1;
        if (directory != NULL) {
            write_corner();
        } else {
            check_corner();
        }
    }
    name[0] = '\0';
    list_length = 0;
    lines = 0;
}

/* Undoes \xHH; returns how many bytes there are. */
static size_t read_bytes(const char *text, size_t length, uint8_t *bytes)
{
    size_t count = 0;

    for (size_t n = 0; n < length; n++) {
        if (text[n] == '\\' && n + 3 < length && text[n + 1] == 'x') {
            char digits[3] = {text[n + 2], text[n + 3], '\0'};

            bytes[count] = (uint8_t)strtoul(digits, NULL, 16);
            n += 3;
        } else {
            bytes[count] = (uint8_t)text[n];
        }
        count += 1;
    }
    return count;
}

static void add_input(const char *text, size_t length)
{
    uint8_t bytes[LINE_LENGTH];
    size_t count;

    while (length > 0 && text[length - 1] == ' ') {
        length -= 1;
    }
    if (length >= 4 && memcmp(text, "raw ", 4) == 0) {
        count = read_bytes(text + 4, length - 4, bytes);
    } else {
        memset(bytes, ' ', sizeof bytes);
        count = read_bytes(text, length, bytes);
        count = count < 20 ? 20 : count;
        bytes[count] = 0x0A;
        count += 1;
    }
    if (length > 0 && list_length + count <= sizeof list) {
        memcpy(list + list_length, bytes, count);
        list_length += count;
    }
}

static void add_wanted(const char *text)
{
    char line[LINE_BYTES + 1];

    if (text[0] != '\0' && (lines + 1) * LINE_BYTES <= sizeof wanted) {
        lines += 1;
        snprintf(line, sizeof line, "%04u %-21s\n", (unsigned)lines, text);
        memcpy(wanted + (lines - 1) * LINE_BYTES, line, LINE_BYTES);
    }
}

/* The mark that parts a record from what it prints: the last one. */
static char *find_mark(char *text)
{
    char *mark = NULL;

    for (char *at = strchr(text, '>'); at != NULL; at = strchr(at + 1, '>')) {
        mark = at;
    }
    return mark;
}

static void read_record(char *text)
{
    char *after = text;
    unsigned long times = strtoul(text, &after, 10);
    bool repeated = after != text && after[0] == 'x' && after[1] == ' ';

    if (repeated) {
        text = after + 2;
    }
    char *mark = find_mark(text);
    if (mark == NULL) {
        printf("%s: no > in: %s\n", name, text);
        wrong += 1;
        return;
    }
    const char *print = mark[1] == ' ' ? mark + 2 : mark + 1;
    for (unsigned long n = 0; n < (repeated ? times : 1); n++) {
        add_input(text, (size_t)(mark - text));
        add_wanted(print);
    }
}

static void read_line(char *text)
{
    text[strcspn(text, "\r\n")] = '\0';
    if (text[0] == '\0' || text[0] == '#') {
        return;
    }
    if (strncmp(text, "corner ", 7) == 0) {
        finish_corner();
        memcpy(name, text + 7, strlen(text + 7) + 1);
    } else {
        read_record(text);
    }
}

static void read_file(const char *path)
{
    char text[LINE_LENGTH];
    FILE *file = fopen(path, "r");

    if (file == NULL) {
        printf("%s cannot be read\n", path);
        wrong += 1;
        return;
    }
    while (fgets(text, sizeof text, file) != NULL) {
        read_line(text);
    }
    finish_corner();
    fclose(file);
}

int main(int argc, char **argv)
{
    bool write = argc > 3 && strcmp(argv[1], "write") == 0;

    if (!write && !(argc > 2 && strcmp(argv[1], "check") == 0)) {
        fputs("usage: corners check FILE...\n"
              "       corners write DIR FILE...\n", stderr);
        return 2;
    }
    directory = write ? argv[2] : NULL;
    for (int n = write ? 3 : 2; n < argc; n++) {
        read_file(argv[n]);
    }
    printf("%u corners, %u wrong\n", corners, wrong);
    return wrong == 0 && corners > 0 ? 0 : 1;
}
