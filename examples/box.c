#include "box.h"

#include <errno.h>
#include <fcntl.h>
#include <poll.h>
#include <stdio.h>
#include <stdlib.h>
#include <string.h>
#include <sys/socket.h>
#include <sys/un.h>
#include <time.h>
#include <unistd.h>

_Noreturn void fail(const char *what) {
    fprintf(stderr, "%s: %s\n", what, strerror(errno));
    exit(1);
}

uint64_t clock_now(void) {
    struct timespec t;
    if (clock_gettime(CLOCK_MONOTONIC, &t) != 0) fail("clock");
    return (uint64_t)t.tv_sec * 1000000000u + (uint64_t)t.tv_nsec;
}

int due(uint64_t *next, uint64_t period) {
    uint64_t now = clock_now();
    if (now < *next) return 0;
    *next = now + period;
    return 1;
}

size_t record_load(const char *path, uint8_t record[NOOSELESS_RECORD_LEN]) {
    int f = open(path, O_RDONLY);
    if (f < 0) {
        if (errno == ENOENT) return 0;
        fail(path);
    }
    uint8_t whole[NOOSELESS_RECORD_LEN + 1]; /* a byte more, so that what is too long is seen to be */
    ssize_t n = read(f, whole, sizeof whole);
    close(f);
    if (n < 0) fail(path);
    if (n != NOOSELESS_OLD_RECORD_LEN && n != NOOSELESS_RECORD_LEN) return 0;
    memcpy(record, whole, (size_t)n);
    return (size_t)n;
}

void record_keep(const char *path, const uint8_t record[NOOSELESS_RECORD_LEN], int log) {
    char aside[64];
    log_line(log, clock_now(), path, NULL);
    if ((size_t)snprintf(aside, sizeof aside, "%s.new", path) >= sizeof aside) fail("record name");
    int f = open(aside, O_WRONLY | O_CREAT | O_TRUNC, 0644);
    if (f < 0) fail(aside);
    if (write(f, record, NOOSELESS_RECORD_LEN) != NOOSELESS_RECORD_LEN) fail(aside);
    if (fsync(f) != 0) fail(aside);
    if (close(f) != 0) fail(aside);
    if (rename(aside, path) != 0) fail(path);
    int folder = open(".", O_RDONLY);
    if (folder < 0) fail("folder");
    if (fsync(folder) != 0) fail("folder");
    close(folder);
}

int log_open(const char *path) {
    int log = open(path, O_WRONLY | O_CREAT | O_APPEND, 0644);
    if (log < 0) fail(path);
    return log;
}

#define LINE 64 /* no line is longer */

void log_line(int log, uint64_t when, const char *word, const uint8_t *cells) {
    char line[LINE];
    int n = snprintf(line, sizeof line, "%llu %s %.16s\n", (unsigned long long)when, word,
                     cells ? (const char *)cells : "-");
    if (n < 0 || (size_t)n >= sizeof line) fail("log line");
    if (write(log, line, (size_t)n) != n) fail("log");
}

int log_last(const char *path, const char *word, const char *other, uint8_t cells[NOOSELESS_MESSAGE_LEN]) {
    char tail[LINE];
    int log = open(path, O_RDONLY);
    if (log < 0) fail(path);
    off_t end = lseek(log, 0, SEEK_END);
    ssize_t n = end < 0 ? -1 : pread(log, tail, LINE, end < LINE ? 0 : end - LINE);
    close(log);
    if (n < 0) fail(path);
    if (n == 0) return 0;
    tail[n - 1] = 0;
    char *before = strrchr(tail, '\n'), *has = strchr(before ? before : tail, ' ');
    char *rest = has ? strchr(has + 1, ' ') : NULL;
    if (!rest) fail(path);
    *rest = 0;
    if (strlen(rest + 1) != NOOSELESS_MESSAGE_LEN || (strcmp(has + 1, word) != 0 && strcmp(has + 1, other) != 0)) return 0;
    memcpy(cells, rest + 1, NOOSELESS_MESSAGE_LEN);
    return 1;
}

static struct sockaddr_un named(const char *name) {
    struct sockaddr_un a;
    memset(&a, 0, sizeof a);
    a.sun_family = AF_UNIX;
    if (strlen(name) >= sizeof a.sun_path) fail("socket name");
    strcpy(a.sun_path, name);
    return a;
}

int radio_socket(const char *own) {
    int s = socket(AF_UNIX, SOCK_DGRAM, 0);
    if (s < 0) fail("socket");
    struct sockaddr_un a = named(own);
    unlink(own);
    if (bind(s, (const struct sockaddr *)&a, sizeof a) != 0) fail(own);
    return s;
}

void radio_send(int s, const char *to, const uint8_t *packet, size_t length) {
    struct sockaddr_un a = named(to);
    (void)!sendto(s, packet, length, MSG_DONTWAIT, (const struct sockaddr *)&a, sizeof a);
}

int radio_receive(int s, uint8_t *packet, int room) {
    ssize_t n = recv(s, packet, (size_t)room, MSG_DONTWAIT);
    return n < 0 ? -1 : (int)n;
}

void wait_for(int a, int b, int ms) {
    struct pollfd p[2] = {{a, POLLIN, 0}, {b, POLLIN, 0}};
    if (poll(p, b < 0 ? 1 : 2, ms) < 0 && errno != EINTR) fail("poll");
}
