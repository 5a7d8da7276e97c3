/* The link and the numbering of document 01, with document 02's requests 1 and
 * 2, a second time: the two ends, the packets, the number records, the bench and
 * the list program. Every entry is total: any values, lengths and tables may
 * be handed to it. */
#ifndef SECOND_H
#define SECOND_H

#include <stdbool.h>
#include <stddef.h>
#include <stdint.h>

#define CELLS 16u
#define PACKET_BYTES 32u
#define OLD_NUMBER_RECORD_BYTES 12u /* version 1 */
#define NUMBER_RECORD_BYTES 16u     /* version 2 */
#define PLACES 64u
#define TABLE_BYTES 2048u
#define MOST_COPIES 3u
#define LARGEST_NUMBER UINT32_MAX
#define FRESH_BLOCK 64u
#define LARGEST_BLOCK 1024u

/* 0 means none. A J is only ever compared with a J, and an I with an I. */
typedef uint32_t JNumber;
typedef uint32_t INumber;

/* The refusal numbers. */
enum {
    ACCEPTED = 0,
    BAD_RECORD = 1,
    ILL_FORMED = 2,
    NO_SUCH_PLACE = 3,
    END_IS_DOWN = 4,
    END_IS_UP = 5,
    WRONG_MODE = 6,
    I_ABOVE_LAST_USED = 7,
    J_SPENT = 8,
    NO_ROOM = 9,
    TOO_MANY_COPIES = 10,
    NOT_A_CELL = 11,
    WRONG_LENGTH = 12,
    WRONG_MARK = 13,
    WRONG_VERSION = 14,
    OUTSIDE_TABLE = 15
};

/* ---- cells and numbers: cells.c ---- */

bool is_cell(uint8_t byte);
bool all_cells(const uint8_t message[CELLS]);
bool all_bytes_are(const uint8_t *bytes, size_t length, uint8_t value);
void clear_message(uint8_t message[CELLS]); /* to 16 spaces */
uint32_t get_number(const uint8_t bytes[4]);
void set_number(uint8_t bytes[4], uint32_t number);

/* ---- packets and number records: packet.c, number_record.c ---- */

enum { NEED_I = 1, OFFER = 2, DATA = 3, OK = 4, LOST = 5, DONE = 6 };

typedef enum { TO_CONTROLLER, TO_CONSOLE } Direction;

typedef struct {
    uint8_t kind;
    uint32_t first;  /* J of needI and offer, I of the others */
    uint32_t second; /* I of an offer, otherwise 0 */
    uint8_t message[CELLS];
} Packet;

/* A refused read gives a packet of zeros. */
typedef struct {
    int refusal;
    Packet packet;
} PacketRead;

PacketRead read_packet(const uint8_t *bytes, size_t length);
int write_packet(const Packet *packet, uint8_t *buffer, size_t length);
Packet make_packet(uint8_t kind, uint32_t first, uint32_t second);
Packet make_data(INumber i, const uint8_t message[CELLS]);
Direction direction_of(uint8_t kind);

#define PACKET_VERSION 1u

/* What a packet and a number record begin with: 13, 14 or accepted. */
int read_mark_and_version(const uint8_t *bytes, const char *mark,
                          uint8_t version);
void write_mark_and_version(uint8_t *bytes, const char *mark, uint8_t version);

enum { CONSOLE_RECORD = 1, CONTROLLER_RECORD = 2 };

/* The number is reserved, in version 1 last used: a J in a console's record,
 * an I in a controller's. */
typedef struct {
    uint8_t end;
    bool old; /* version 1, which has no block: 0 */
    uint32_t number;
    uint16_t block;
} NumberRecord;

/* A refused read gives a record of zeros. */
typedef struct {
    int refusal;
    NumberRecord record;
} NumberRecordRead;

NumberRecordRead read_number_record(const uint8_t *bytes, size_t length);
int write_number_record(const NumberRecord *record, uint8_t *buffer,
                        size_t length);
bool block_in_range(uint16_t block);

/* The record in the other version, or as it is where it has that already. */
NumberRecord renewed(NumberRecord record);
NumberRecord aged(NumberRecord record);

/* To the version that the length of `to` names. */
int carry_number_record(const uint8_t *from, size_t from_length, uint8_t *to,
                        size_t to_length);

/* ---- an end's numbers: numbers.c ---- */

/* Reserved is never below last used, and is what survives power loss. */
typedef struct {
    uint32_t last_used;
    uint32_t reserved;
    uint16_t block;
} Numbers;

Numbers fresh_numbers(uint32_t last_used);
Numbers recorded_numbers(const NumberRecord *record);
bool numbers_well_formed(const Numbers *numbers);
bool numbers_spent(const Numbers *numbers);
uint32_t take_number(Numbers *numbers); /* of those that are not spent */
void numbers_come_back(Numbers *numbers);
NumberRecord record_numbers(uint8_t end, const Numbers *numbers);

/* ---- the fourteen actions: actions.c ---- */

typedef enum { CONSOLE, CONTROLLER, AIR } Actor;

typedef struct {
    uint8_t letter;
    Actor actor;
    bool place;   /* the action uses the place: it takes a packet out */
    bool copies;  /* the action uses the copies: it may send */
    bool message; /* the action uses the message */
} Action;

const Action *find_action(uint8_t letter); /* NULL: no action */

typedef enum { NOTHING, DELIVERED, ANSWERED_OK, ANSWERED_LOST, REFUSED } Report;

typedef struct {
    Report report;
    int refusal;            /* 1 to 15 if refused, otherwise 0 */
    uint8_t message[CELLS]; /* the delivered one, otherwise 16 spaces */
    bool written;           /* an end run alone wrote the reply buffer */
} Outcome;

Outcome refused(int refusal);

/* What an accepted action of an end leads to. */
typedef struct {
    Outcome outcome;
    bool sends;
    Packet packet;
} Effect;

Effect no_effect(void);
Effect sending(Packet packet);

/* ---- the two ends: console.c, controller.c ---- */

typedef struct {
    Numbers numbers; /* of J */
    bool held;
    uint8_t message[CELLS];
    JNumber j;
    INumber last;
    bool ack_ok; /* what became of the last order: OK, otherwise lost */
    bool down;
} Console;

typedef struct {
    Numbers numbers; /* of I */
    JNumber j;
    INumber i;
    INumber last;
    bool down;
} Controller;

Console fresh_console(JNumber last_used);
Console console_after_power_loss(const NumberRecord *record);
bool console_well_formed(const Console *console);
NumberRecord console_record(const Console *console);

/* 4, 5, 6 or 8; and what a letter does that is not refused. */
int console_refusal(const Console *console, uint8_t letter);
Effect console_acts(Console *console, uint8_t letter, const uint8_t *message,
                    const Packet *in);

Controller fresh_controller(INumber last_used);
Controller controller_after_power_loss(const NumberRecord *record);
bool controller_well_formed(const Controller *controller);
NumberRecord controller_record(const Controller *controller);

/* 4, 5 or 6; then 7; and what a letter does that is not refused. */
int controller_refusal(const Controller *controller, uint8_t letter);
int controller_packet_refusal(const Controller *controller, const Packet *in);
Effect controller_acts(Controller *controller, uint8_t letter,
                       const Packet *in);

/* ---- an end run alone in a box: alone.c ---- */

Outcome console_alone(Console *console, uint8_t letter, const uint8_t *message,
                      const uint8_t *packet, size_t packet_length,
                      uint8_t *reply, size_t reply_length);
Outcome controller_alone(Controller *controller, uint8_t letter,
                         const uint8_t *packet, size_t packet_length,
                         uint8_t *reply, size_t reply_length);

/* ---- channels and the bench: channel.c, bench.c ---- */

typedef struct {
    uint8_t *table;
    size_t length;
    size_t count;
} Channel;

bool channel_well_formed(const Channel *channel, Direction direction);
uint8_t *place_in(const Channel *channel, size_t place);
void take_out(Channel *channel, size_t place);
void add_copies(Channel *channel, const Packet *packet, size_t copies);

/* An empty part is NULL and 0. */
typedef struct {
    int refusal;
    uint8_t *bytes;
    size_t length;
} Shown;

Shown show(Direction direction, size_t place, Channel to_controller,
           Channel to_console);

typedef struct {
    Console console;
    Controller controller;
    Channel to_controller;
    Channel to_console;
} Bench;

int fresh_bench(Bench *bench, JNumber last_used_j, INumber last_used_i,
                uint8_t *to_controller, size_t to_controller_length,
                uint8_t *to_console, size_t to_console_length);
bool bench_well_formed(const Bench *bench);
Outcome bench_step(Bench *bench, uint8_t letter, size_t place, size_t copies,
                   const uint8_t *message);

/* ---- the list program: listing.c ---- */

#define RECORD_BYTES 21u
#define LINE_BYTES 27u
#define MOST_RECORDS 9999u

typedef struct {
    uint8_t letter;
    size_t place;
    size_t copies;
    uint8_t message[CELLS];
} ListRecord;

bool read_list_record(const uint8_t *bytes, size_t length, ListRecord *record);
Outcome run_record(Bench *bench, const uint8_t *bytes, size_t length);
void write_line(uint8_t line[LINE_BYTES], size_t number, uint8_t letter,
                const Outcome *outcome);
size_t count_records(size_t input_length); /* those that are read */

/* Writes LINE_BYTES for each record read and returns their sum. */
size_t run_list(const uint8_t *input, size_t length, uint8_t *output);

#endif
