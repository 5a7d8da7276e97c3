/* What the two boxes share: the number record in a file, the log, the radio's sockets, the clock. */
#ifndef BOX_H
#define BOX_H

#include <stddef.h>
#include <stdint.h>

#include "nooseless.h"

/* Prints what went wrong and ends the process. */
_Noreturn void fail(const char *what);

/* Nanoseconds of the machine's one steady clock; comparable between processes. */
uint64_t clock_now(void);

/* Reads the number record in a file: its length, 12 or 16; 0 if there is no such file, or one of another length. */
size_t record_load(const char *path, uint8_t record[NOOSELESS_RECORD_LEN]);

/* Returns once the record is in the file and would be after a power cut: written aside (with .new behind the name), synced, renamed, the
 * folder synced. Each begins with a line in the log: it is what wears flash. */
void record_keep(const char *path, const uint8_t record[NOOSELESS_RECORD_LEN], int log);

/* A log whose lines are appended by one write each, so that a cut leaves whole lines. */
int log_open(const char *path);
void log_line(int log, uint64_t when, const char *word, const uint8_t *cells);
/* The cells of a log's last line, where its word is one of these two; then it is true. */
int log_last(const char *path, const char *word, const char *other, uint8_t cells[NOOSELESS_MESSAGE_LEN]);

/* Datagram sockets in the working folder. What is sent to a socket that nobody holds is lost, as on the air. */
int radio_socket(const char *own);
void radio_send(int socket, const char *to, const uint8_t *packet, size_t length);
/* Bytes received, -1 with none there. */
int radio_receive(int socket, uint8_t *packet, int room);

/* Whether the time is there; then it is set to `period` nanoseconds from now. */
int due(uint64_t *next, uint64_t period);

/* Waits for one of two descriptors (the second may be -1) to be readable, at most `ms`. */
void wait_for(int a, int b, int ms);

#endif
