/*
 * Nooseless for C: packets, number records, each end of the link run alone in its box, and a bench that holds both ends and both
 * channels, with the runner of a list of actions. Beside this file, console_loop.c and controller_loop.c are the loop of each box, and
 * loops.h what a box brings along for it.
 *
 * Every entry takes any bytes and any numbers. It returns one byte: 0, a refusal from 1 to 15, or what a step tells; the runner
 * returns a number of bytes, nooseless_version a version. A refusal leaves every lent buffer byte for byte. Each entry is proved to
 * do so, and to do what its lines below say. What a box does around them is C, and yours: THE RULE below is what it has to keep.
 *
 * The caller owes what C always owes: a pointer that is good for its length, not NULL even where that is 0, and, where it is
 * lent to be written, no overlap with another buffer of the same call. That holds of every pointer, also of one that the letter
 * does not use.
 *
 * Threads and interrupts: an entry uses what it is lent, its stack and constants. It has no variable of its own, keeps no pointer,
 * allocates nothing, waits for nothing and takes no lock. So it may be called from any thread and any interrupt, several calls at a
 * time, if no buffer that one of them writes is lent to another of them meanwhile.
 *
 * Machine: x86-64, called as its System V ABI has it, the 128 bytes below the stack pointer and the SSE registers included. Bytes may
 * lie anywhere; uint16_t, uint32_t and size_t where C lets them. The archive needs memmove and memset from outside, for bench and runner
 * alone, and nothing else.
 *
 * Stack, arguments and return address included, as measured and held by the tests: nooseless_bench_step at most 2,048 bytes,
 * nooseless_run at most 6,144, each other entry at most 512. Nothing recurses.
 */
#ifndef NOOSELESS_H
#define NOOSELESS_H

#include <stddef.h>
#include <stdint.h>

#ifdef __cplusplus
extern "C" {
#endif

/* ---- Version: it changes with what an entry takes, gives or means. A box that starts can see that header and archive agree ---- */

#define NOOSELESS_VERSION 3

/* The NOOSELESS_VERSION of the archive. From 2 to 3: S tells no answer any more, A reads it, and a console's state has the ack. Packets
 * and number records are the same, so that the boxes of a link need not change together. */
uint32_t nooseless_version(void);

/* ---- Lengths in bytes ---- */

#define NOOSELESS_MESSAGE_LEN 16
#define NOOSELESS_PACKET_LEN 32
#define NOOSELESS_OLD_RECORD_LEN 12 /* a number record of version 1 */
#define NOOSELESS_RECORD_LEN 16     /* of version 2 */
#define NOOSELESS_CONSOLE_STATE_LEN 37
#define NOOSELESS_CONTROLLER_STATE_LEN 23
#define NOOSELESS_BENCH_STATE_LEN 62
#define NOOSELESS_TABLE_LEN 2048
#define NOOSELESS_LIST_RECORD_LEN 21
#define NOOSELESS_LINE_LEN 27

/* ---- Blocks: how many numbers an end reserves at a time ---- */

#define NOOSELESS_BLOCK 64 /* a fresh end's, and that of a record of version 1 */
#define NOOSELESS_BLOCK_MAX 1024

/* ---- Letters: what a step is asked to do ----
 *
 * A console is idle, in needI (an order put, no permission for it yet) or in send (it has one). A controller is idle, in accept (a
 * permission offered) or in ack (an order delivered, the console may not know). "On a timer" is what a box repeats for as long as
 * that mode lasts: packets get lost, and without repeats nothing goes on. Any period does; none is unsafe.
 */

enum nooseless_letter {
    /* the console's */
    NOOSELESS_PUT = 'P',           /* idle: hold the order in `message`, with a new number. It is not delivered yet */
    NOOSELESS_SEND_NEEDI = 'Q',    /* on a timer in needI: ask for a permission */
    NOOSELESS_SEND_DATA = 'D',     /* on a timer in send: send the order */
    NOOSELESS_CONSOLE_TAKE = 'S',  /* bytes came in: take them. An answer is stored, and not told yet */
    NOOSELESS_CONSOLE_DOWN = 'C',  /* go down, keeping all; a power cut needs no letter */
    NOOSELESS_CONSOLE_BACK = 'V',  /* down: come back, idle; the order that was held is forgotten, its answer is lost */
    NOOSELESS_READ_ANSWER = 'A',   /* idle: tell what became of the last order, once: the next reading is lost */
    /* the controller's */
    NOOSELESS_SEND_OFFER = 'O',    /* on a timer in accept: offer the permission */
    NOOSELESS_SEND_OK = 'K',       /* on a timer in ack: say again that the order was delivered */
    NOOSELESS_CONTROLLER_TAKE = 'R', /* bytes came in: take them */
    NOOSELESS_CONTROLLER_DOWN = 'X', /* go down, keeping all; a power cut needs no letter */
    NOOSELESS_CONTROLLER_BACK = 'Y', /* down: come back, idle; permission and last order forgotten */
    /* the bench's besides */
    NOOSELESS_LOSE_TO_CONTROLLER = 'L', /* lose a packet on its way to the controller */
    NOOSELESS_LOSE_TO_CONSOLE = 'M'     /* lose a packet on its way to the console */
};

/* ---- Refusals: nothing was done and no buffer written ----
 *
 * The first that applies, in this order: 1, 2, 12, 13, 14, 15, 11, 10, 4 or 5, 6, 8, 3, 7, 9. Each entry below names those that it
 * gives, in their order, without NOOSELESS_. 3, 9 and 10 speak of places and copies. What a box's loop does with one stands behind
 * the dash.
 */

enum nooseless_refusal {
    NOOSELESS_NO_ACTION = 1,      /* a letter that is no action here - a mistake in the box's program */
    NOOSELESS_ILL_FORMED = 2,     /* a state or a table not well formed, or of another length - the state was damaged: stop, and start
                                     from the kept record as after power loss */
    NOOSELESS_NO_PLACE = 3,       /* place not below the count */
    NOOSELESS_IS_DOWN = 4,        /* P Q D S A with the console down, O K R with the controller down - V or Y first */
    NOOSELESS_IS_UP = 5,          /* V or Y with that end up - nothing to do */
    NOOSELESS_OTHER_MODE = 6,     /* P with a message held - wait for its answer. A with a message held - there is none yet. Q in
                                     another mode - try D. O - try K. D or K after that - idle, nothing to repeat */
    NOOSELESS_NEVER_GIVEN = 7,    /* R of data or done whose I is above the controller's last used - drop it and call a person: it is of
                                     another link, or this controller's record is older than numbers that it gave */
    NOOSELESS_SPENT = 8,          /* P with J numbers spent - this console puts no more orders, ever; call a person. (A controller whose
                                     numbers are spent refuses nothing: it answers no needI) */
    NOOSELESS_NO_ROOM = 9,        /* copies to be added exceed the free places of the channel */
    NOOSELESS_MANY_COPIES = 10,   /* copies above 3 */
    NOOSELESS_NO_CELL = 11,       /* P with a byte outside 0x20 to 0x7E - tell who wrote the order */
    NOOSELESS_WRONG_LENGTH = 12,  /* packet or reply buffer of a wrong length; a record of neither 12 nor 16 bytes - a packet that is 12
                                     to 15 is junk: drop it. A record: see "At power-on". A reply buffer: a mistake in the box's program */
    NOOSELESS_WRONG_MARK = 13,    /* mark wrong - likewise */
    NOOSELESS_WRONG_VERSION = 14, /* a packet's version not 1; a record's not 1 in 12 bytes, not 2 in 16 - likewise */
    NOOSELESS_WRONG_FIELD = 15    /* any other field outside its table, a block outside 1 to 1,024 too; a packet that goes the other
                                     way - likewise */
};

/* ---- Packets and number records ---- */

enum nooseless_kind {
    NOOSELESS_KIND_NEEDI = 1, /* to the controller; first J */
    NOOSELESS_KIND_OFFER = 2, /* to the console; first J, second I */
    NOOSELESS_KIND_DATA = 3,  /* to the controller; first I; 16 cells */
    NOOSELESS_KIND_OK = 4,    /* to the console; first I */
    NOOSELESS_KIND_LOST = 5,  /* to the console; first I */
    NOOSELESS_KIND_DONE = 6   /* to the controller; first I */
};

enum nooseless_end { NOOSELESS_CONSOLE = 1, NOOSELESS_CONTROLLER = 2 };

/* Reads a packet of 32 bytes. A second number that is not there is 0, a message that is not there 16 zero bytes. Refusals:
 * WRONG_LENGTH, WRONG_MARK, WRONG_VERSION, WRONG_FIELD. */
uint8_t nooseless_read_packet(const uint8_t *packet, size_t packet_len, uint8_t *kind, uint32_t *first, uint32_t *second,
                              uint8_t message[NOOSELESS_MESSAGE_LEN]);

/* Writes a packet to 32 bytes; kind and numbers as its line above says, a second number that is not there 0, `message` 16 cells for
 * data and 16 zero bytes for any other kind. Refusals: WRONG_LENGTH, WRONG_FIELD. */
uint8_t nooseless_write_packet(uint8_t *out, size_t out_len, uint8_t kind, uint32_t first, uint32_t second,
                               const uint8_t message[NOOSELESS_MESSAGE_LEN]);

/* A number record has one of two versions. Version 2, 16 bytes: reserved, the largest number that the end may use before it keeps a
 * record again, and the block by which that then grows. Version 1, 12 bytes, as boxes kept it before there were blocks: last used. */

/* Reads a number record of either version: whose it is, its number (reserved, or last used) and its block, 0 for version 1. Refusals:
 * WRONG_LENGTH, WRONG_MARK, WRONG_VERSION, WRONG_FIELD. */
uint8_t nooseless_read_record(const uint8_t *record, size_t record_len, uint8_t *end, uint32_t *number, uint16_t *block);

/* Writes a number record, to 16 bytes; with block 0 one of version 1, to 12. Refusals: WRONG_LENGTH (also for the other version's),
 * WRONG_FIELD. */
uint8_t nooseless_write_record(uint8_t *out, size_t out_len, uint8_t end, uint32_t number, uint16_t block);

/* Carries a number record to the version that `to_len` names, 12 or 16 bytes; the number stays. From version 1 the block becomes 64; to
 * version 1 it is lost. A record that has that version stays the same bytes. Refusals: WRONG_LENGTH, for either length, WRONG_MARK,
 * WRONG_VERSION, WRONG_FIELD. */
uint8_t nooseless_carry_record(const uint8_t *from, size_t from_len, uint8_t *to, size_t to_len);

/* ---- An end run alone ----
 *
 * The caller keeps the end's state in a buffer of its own, and need not look into it. Its bytes are never trusted: any other
 * length, a flag that is neither 0 nor 1, a block outside 1 to 1,024, last used above reserved, or fields that contradict each other
 * are NOOSELESS_ILL_FORMED.
 *
 *   console, 37 bytes:    0-3 last used J; 4-7 reserved; 8-9 block; 10-13 j; 14-17 last; 18 held; 19 up; 20 ack (1 OK, 0 lost);
 *                         21-36 message (16 spaces where none is held)
 *   controller, 23 bytes: 0-3 last used I; 4-7 reserved; 8-9 block; 10-13 j; 14-17 i; 18-21 last; 22 up
 *
 * Numbers are big-endian, 0 means none. Of all this only reserved and block have to survive a power cut: they are the end's number
 * record. The ack is what A will tell; either value goes with any other fields.
 *
 * Blocks: the next number is last used plus one; at 4,294,967,295 they are spent. Where one is needed and last used is reserved,
 * reserved first grows by the block, at most to 4,294,967,295; that alone changes the record, and the step tells NOOSELESS_KEEP. The
 * other numbers up to reserved cost no write of flash: in 640 orders without a restart a console with block 64 writes 10 times; it
 * wrote 640 times before there were blocks. Coming back (V, Y) sets last used to reserved, since the record doesn't say how much of
 * the block was used. So a restart gives up what was left of it, at most 63 numbers of 64, and the first number after it tells
 * NOOSELESS_KEEP. With up to 64 orders after each restart the numbers last for some 67 million restarts (4,294,967,295 / 64), one a
 * minute for 127 years. A larger block is fewer writes, and more numbers given up at a restart. Who makes the box chooses it; later a
 * person may, while the box is off: nooseless_write_record with the number of the kept record, and no other, and the new block.
 *
 * THE RULE that a box has to keep, console and controller alike. After a step that is no refusal:
 *   1. where it told NOOSELESS_KEEP, the end's number record (.._record) is kept, so that a power cut can't take it back;
 *   2. then its report is shown: the console's row (P: put; A: OK or lost), the controller's order carried out;
 *   3. then its reply leaves, where it told NOOSELESS_SENT;
 *   4. then comes the next step of that end.
 * Power may fail at any moment; what follows in this order is then not done. If it fails before 1 is done, nothing of that step was
 * shown or sent. If 4 came before 3, in a timer's interrupt, say, an OK might leave before its order is carried out.
 *
 * Answers: S tells none, it stores what came; A reads it. While its last row has no answer, a console asks A after each S, and after V at
 * power-on. 6 says that the order is still held and has no answer yet; what A tells otherwise is the answer, and is shown. All that comes
 * before the next P: from then on A speaks of the new order. A reading is used up by being read, and any further A tells lost, of no
 * order: that is no row. So 2 above holds of A as of every step. Where power fails after A and before the row is shown, the row has no
 * answer yet, and A reads lost for it after the restart. Which order that was the box knows from the rows that it keeps; a box whose rows
 * are gone after a power cut has none to answer, and doesn't ask after V.
 *
 * What a row says, to the shift lead who reads it:
 *   OK                            The order was carried out, once.
 *   lost, the console stayed up   The controller restarted. The order may have been carried out before that, or not; from now on it
 *                                 won't be. Look at the tank, then put it again if it is needed.
 *   lost, the console restarted   Nobody knows. The order may have been carried out, it may still be, as a packet of it may be in the
 *                                 air, or it may never be. Look at the tank, and know that no waiting makes it certain. A later order
 *                                 that reads OK does: orders are carried out in the order of their puts, so from then on this one
 *                                 won't be.
 *   no answer                     None was read: the order is on its way, or nobody asked. It may have been carried out, it may still
 *                                 be, or it may never be; once at most.
 * Neither lost says that the order was not carried out. To put it again may double a dose, so the row leaves that to a person. A tells
 * both by one byte, and the row has to say which it is: the second, where the console came back (V) after the put.
 *
 * At power-on the box loads the record that it kept last, of 12 or 16 bytes: .._downed, then V or Y. With none that can be read (empty,
 * or refused by .._downed) it must never start again from 0: a number that is given twice can be a dose that is given twice. It stops
 * and calls a person; or it starts with .._fresh from the largest number that it may have used, which is the reserved that it kept
 * last. Only a box that has never run starts from 0, and that its record is missing does not say so: better, who makes the box keeps
 * the first record in it (nooseless_write_record with 0 and a block), and the box itself never makes one. A box that takes another's
 * place on the link takes over its record.
 *
 * A box in the field that gets these entries finds a record of 12 bytes, and .._downed takes it: reserved is its last used, the block
 * 64. It stays in flash until the first number is taken, whose record, of 16 bytes, is kept as every other; until then a box that loses
 * power finds 12 bytes again. A box that goes back to entries of version 1, which refuse 16 bytes, first has its record carried back to
 * 12 (nooseless_carry_record): last used is then reserved, so that no number comes twice.
 *
 * A record that was half written may read as a valid one with a number that never was: it holds no check sum. So it is never written
 * over in place: it is written aside, synced, and put in its place by one act that is done or not done (rename, and the folder synced);
 * or it is kept twice, each with a check sum of the box's own, in two places of which a cut spoils only the one being written, the
 * second after the first; at power-on that of the larger number is taken of those that are whole, whatever its version (of equal
 * numbers either will do), and the other written anew from it before the box starts.
 *
 * What this gives is proved of these very entries (crates/demand3, the theorem boxes_for_c_right): two boxes that keep the rule, from
 * any two records on, over any radio. Whatever either sent may come never, once, often, late, in any order, through any cuts and
 * returns of either end, and junk may come at any time. One thing is presumed: bytes that read as a packet for an end were sent by the
 * other, for which the radio's own error detection has to stand. Then
 *   - an order is delivered at most once, after its put and in the order of the puts, with its own 16 cells;
 *   - an order's answer is the first A after its put and before the next put; any other A tells lost;
 *   - OK: it was delivered before, and the console has not gone down since the put;
 *   - lost: since the put the controller went down and came back, or the console did;
 *   - lost, and the console has not gone down since the put: it won't be delivered later.
 */

/* Up and idle, with any last used, reserved the same, block 64, the console's ack lost; 0 only for a box that never ran. Refusals:
 * ILL_FORMED, for a length alone. */
uint8_t nooseless_console_fresh(uint8_t *state, size_t state_len, uint32_t last_used);
uint8_t nooseless_controller_fresh(uint8_t *state, size_t state_len, uint32_t last_used);

/* After power loss: down and idle, last used and reserved both the number of the end's own number record, of either version; its block,
 * 64 from version 1; the console's ack lost. Refusals: ILL_FORMED, for a length alone, WRONG_LENGTH, WRONG_MARK, WRONG_VERSION,
 * WRONG_FIELD (also for a record of the other end). */
uint8_t nooseless_console_downed(uint8_t *state, size_t state_len, const uint8_t *record, size_t record_len);
uint8_t nooseless_controller_downed(uint8_t *state, size_t state_len, const uint8_t *record, size_t record_len);

/* Writes the state's number record, of version 2, to 16 bytes. Refusals: ILL_FORMED, WRONG_LENGTH. */
uint8_t nooseless_console_record(const uint8_t *state, size_t state_len, uint8_t *out, size_t out_len);
uint8_t nooseless_controller_record(const uint8_t *state, size_t state_len, uint8_t *out, size_t out_len);

/* What a step returns: a refusal, or one of these with KEEP and SENT added where they apply. A refusal has neither. */
enum nooseless_told {
    NOOSELESS_NOTHING = 0,     /* nothing to report */
    NOOSELESS_DELIVERED = 64,  /* the controller: carry out the 16 cells in `delivered` */
    NOOSELESS_ANSWER_OK = 65,  /* the console's A alone: the last order was delivered */
    NOOSELESS_ANSWER_LOST = 66 /* the console's A alone: since the put an end went down and came back; see "What a row says" */
};
#define NOOSELESS_KEEP 0x20 /* the end's number record changed: reserved grew */
#define NOOSELESS_SENT 0x80 /* a packet was written to the reply buffer */

static inline int nooseless_is_refusal(uint8_t told) { return 1 <= told && told <= 31; }

/* Of a byte that is no refusal: which of enum nooseless_told. */
static inline uint8_t nooseless_report(uint8_t told) { return (uint8_t)(told & ~(NOOSELESS_KEEP | NOOSELESS_SENT)); }

/*
 * The console's P Q D S C V A. P alone uses `message`, S alone `packet`, which may have any length. Q D S use the reply buffer, 32 bytes,
 * whose length is looked at even with nothing to send. A returns NOOSELESS_ANSWER_OK or NOOSELESS_ANSWER_LOST, and never adds KEEP or
 * SENT; no other letter returns either. With every letter `message` must be 16 good bytes, and `packet` and `reply` good for their
 * lengths: a pointer that is not NULL and a length of 0 will do for a letter that does not use them.
 * Refusals: NO_ACTION, ILL_FORMED, WRONG_LENGTH, WRONG_MARK, WRONG_VERSION, WRONG_FIELD, NO_CELL, IS_DOWN, IS_UP, OTHER_MODE, SPENT.
 */
uint8_t nooseless_console_step(uint8_t *state, size_t state_len, uint8_t letter, const uint8_t message[NOOSELESS_MESSAGE_LEN],
                               const uint8_t *packet, size_t packet_len, uint8_t *reply, size_t reply_len);

/*
 * The controller's O K R X Y. R alone uses `packet`, which may have any length. O K R use the reply buffer, 32 bytes, whose length is
 * looked at even with nothing to send. `delivered` is written with NOOSELESS_DELIVERED and else untouched. With every letter it must
 * be 16 good bytes, and `packet` and `reply` good for their lengths: a pointer that is not NULL and a length of 0 will do for a letter
 * that does not use them.
 * Refusals: NO_ACTION, ILL_FORMED, WRONG_LENGTH, WRONG_MARK, WRONG_VERSION, WRONG_FIELD, IS_DOWN, IS_UP, OTHER_MODE, NEVER_GIVEN.
 */
uint8_t nooseless_controller_step(uint8_t *state, size_t state_len, uint8_t letter, const uint8_t *packet, size_t packet_len,
                                  uint8_t *reply, size_t reply_len, uint8_t delivered[NOOSELESS_MESSAGE_LEN]);

/* ---- A bench: both ends and both channels ----
 *
 * The caller keeps a state of 62 bytes and two tables of 2,048 bytes: `out` holds the packets on their way to the controller, `back`
 * those on their way to the console. Packets lie one after another, 32 bytes each, from the start of a table; all bytes after them
 * are 0.
 *
 *   state, 62 bytes: 0-36 the console; 37-59 the controller; 60 packets on their way to the controller; 61 to the console
 *
 * Bytes are never trusted: what makes an end's state ill formed does so here, and so does a table of another length, a count above
 * 64, below the count bytes that are no packet of that direction, above it a byte that is not 0.
 */

/* Both ends fresh with these last used, both tables cleared. Refusals: ILL_FORMED, for a length alone. */
uint8_t nooseless_bench_fresh(uint8_t *state, size_t state_len, uint8_t *out, size_t out_len, uint8_t *back, size_t back_len,
                              uint32_t console_last_used, uint32_t controller_last_used);

/*
 * One of the fourteen actions: P Q D S C V A, O K R X Y, L M. S R L M alone use `place`, Q D S O K R `copies`, P `message`, which must be
 * 16 good bytes with every letter. Returns what an end's step does, without NOOSELESS_KEEP and NOOSELESS_SENT: a bench is no box;
 * `delivered`, 16 good bytes with every letter, is written with NOOSELESS_DELIVERED and else untouched. Refusals: NO_ACTION,
 * ILL_FORMED, NO_CELL, MANY_COPIES, IS_DOWN, IS_UP, OTHER_MODE, SPENT, NO_PLACE, NEVER_GIVEN, NO_ROOM.
 */
uint8_t nooseless_bench_step(uint8_t *state, size_t state_len, uint8_t *out, size_t out_len, uint8_t *back, size_t back_len,
                             uint8_t letter, size_t place, size_t copies, const uint8_t message[NOOSELESS_MESSAGE_LEN],
                             uint8_t delivered[NOOSELESS_MESSAGE_LEN]);

/*
 * Where the packet at a place lies: `offset` gets the offset of its 32 bytes in the table of the channel that leads to `end`, which is
 * `back` for NOOSELESS_CONSOLE and `out` for NOOSELESS_CONTROLLER; any other end has no places. It looks only at the lengths, at both
 * counts and at the place. Refusals: ILL_FORMED, NO_PLACE.
 */
uint8_t nooseless_bench_show(const uint8_t *state, size_t state_len, const uint8_t *out, size_t out_len, const uint8_t *back,
                             size_t back_len, uint8_t end, size_t place, size_t *offset);

/* ---- A list of actions ----
 *
 * A record is 21 bytes: letter; place, two digits 00 to 63; copies, one digit 0 to 3; 16 message cells; byte 0x0A. Fields that the
 * letter doesn't use are 0 digits and spaces. A line is 27 bytes: record number, four digits; space; the letter, or ? for refusal 1;
 * space; DL, -- or the refusal number, for A also OK or LO (lost); space; the delivered message or 16 spaces; byte 0x0A.
 */

#define NOOSELESS_RECORDS_MAX 9999

/* Plays the records on a fresh bench with 0 and 0 and writes a line for each, as many as there is room for, at most 9,999. Anything
 * that is no record, a short last one included, is refusal 1 in its line. Returns the bytes written; the rest of `output` is
 * untouched. */
size_t nooseless_run(const uint8_t *input, size_t input_len, uint8_t *output, size_t output_len);

#ifdef __cplusplus
}
#endif

#endif
