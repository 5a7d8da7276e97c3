/*
 * The stack of the entries, on a painted stack, while a console and a controller talk over a link that loses, repeats and damages,
 * each alone and both on a bench, and while lists are played: stack STEPS SEED. Prints the most bytes that each entry used, its arguments and
 * return address included; ends with 1 if that is more than the entry may use, with 3 if an order was never delivered, or OK and lost never
 * came in and were read, by ends alone or on the bench.
 */
#include <stdio.h>
#include <stdlib.h>
#include <string.h>

#include "../../examples/chance.h"
#include "nooseless.h"

#define DEPTH 8192u
#define PAINT 0xA5

static uint8_t painted[DEPTH] __attribute__((aligned(16)));

/* Runs f with the painted bytes for its stack, and counts those that it changed. */
static size_t used_by(void (*f)(void)) {
    uint8_t clean[64];
    memset(clean, PAINT, sizeof clean);
    memset(painted, PAINT, sizeof painted);
    __asm__ volatile("movq %%rsp, %%rbx\n\tmovq %0, %%rsp\n\tcall *%1\n\tmovq %%rbx, %%rsp"
                     :
                     : "r"(painted + sizeof painted), "r"(f)
                     : "rbx", "rax", "rcx", "rdx", "rsi", "rdi", "r8", "r9", "r10", "r11", "memory", "cc");
    size_t i = 0;
    while (i < sizeof painted && memcmp(painted + i, clean, sizeof clean) == 0) i += sizeof clean;
    while (i < sizeof painted && painted[i] == PAINT) i++;
    return sizeof painted - i;
}

static uint8_t console[NOOSELESS_CONSOLE_STATE_LEN], controller[NOOSELESS_CONTROLLER_STATE_LEN];
static uint8_t record[NOOSELESS_RECORD_LEN], old_record[NOOSELESS_OLD_RECORD_LEN], message[NOOSELESS_MESSAGE_LEN], delivered[NOOSELESS_MESSAGE_LEN];
static uint8_t in[NOOSELESS_PACKET_LEN], out[NOOSELESS_PACKET_LEN];
static uint8_t bench[NOOSELESS_BENCH_STATE_LEN], forth[NOOSELESS_TABLE_LEN], home[NOOSELESS_TABLE_LEN];
static uint8_t list[200 * NOOSELESS_LIST_RECORD_LEN], lines[200 * NOOSELESS_LINE_LEN];
static volatile uint8_t letter, told; /* the compiler doesn't see what the calls below read and write */
static volatile size_t place, copies, written;
static uint8_t kind, cells[NOOSELESS_MESSAGE_LEN];
static uint32_t first, second;
static uint16_t block;

static void step_console(void) {
    told = nooseless_console_step(console, sizeof console, letter, message, in, sizeof in, out, sizeof out);
}
static void step_controller(void) {
    told = nooseless_controller_step(controller, sizeof controller, letter, in, sizeof in, out, sizeof out, delivered);
}
static void record_console(void) { told = nooseless_console_record(console, sizeof console, record, sizeof record); }
static void record_controller(void) { told = nooseless_controller_record(controller, sizeof controller, record, sizeof record); }
static void down_console(void) { told = nooseless_console_downed(console, sizeof console, record, sizeof record); }
static void down_controller(void) { told = nooseless_controller_downed(controller, sizeof controller, record, sizeof record); }
static void start_console(void) { told = nooseless_console_fresh(console, sizeof console, 0); }
static void start_controller(void) { told = nooseless_controller_fresh(controller, sizeof controller, 0); }
static void start_bench(void) { told = nooseless_bench_fresh(bench, sizeof bench, forth, sizeof forth, home, sizeof home, 0, 0); }
static void step_bench(void) {
    told = nooseless_bench_step(bench, sizeof bench, forth, sizeof forth, home, sizeof home, letter, place, copies, message, delivered);
}
static void show_bench(void) {
    size_t offset;
    told = nooseless_bench_show(bench, sizeof bench, forth, sizeof forth, home, sizeof home, NOOSELESS_CONSOLE, place, &offset);
}
static void read_packet(void) { told = nooseless_read_packet(in, sizeof in, &kind, &first, &second, cells); }
static void write_packet(void) { told = nooseless_write_packet(out, sizeof out, kind, first, second, cells); }
static void read_record(void) { told = nooseless_read_record(record, sizeof record, &kind, &first, &block); }
static void write_record(void) { told = nooseless_write_record(record, sizeof record, NOOSELESS_CONSOLE, first, block); }
static void age_record(void) { told = nooseless_carry_record(record, sizeof record, old_record, sizeof old_record); }
static void renew_record(void) { told = nooseless_carry_record(old_record, sizeof old_record, record, sizeof record); }
static void play(void) { written = nooseless_run(list, sizeof list, lines, sizeof lines); }
static void nothing(void) {}

static const struct {
    const char *name;
    void (*run)(void);
    size_t allowed;
} entries[] = {{"console_fresh", start_console, 512},   {"controller_fresh", start_controller, 512},   {"console_step", step_console, 512},
               {"controller_step", step_controller, 512}, {"console_record", record_console, 512},       {"controller_record", record_controller, 512},
               {"console_downed", down_console, 512},   {"controller_downed", down_controller, 512},   {"bench_fresh", start_bench, 512},
               {"bench_step", step_bench, 2048},        {"bench_show", show_bench, 512},               {"run", play, 6144},
               {"read_packet", read_packet, 512},       {"write_packet", write_packet, 512},           {"read_record", read_record, 512},
               {"write_record", write_record, 512},     {"carry_record to version 1", age_record, 512},
               {"carry_record to version 2", renew_record, 512}};
enum { CONSOLE_STEP = 2, CONTROLLER_STEP = 3, RECORD = 4, DOWNED = 6, BENCH_FRESH = 8, BENCH_STEP, BENCH_SHOW, RUN, READ_PACKET, WRITE_PACKET,
       READ_RECORD, WRITE_RECORD, AGE_RECORD, RENEW_RECORD };

static struct chance chance;
static size_t most[sizeof entries / sizeof *entries];
static size_t bare;
static unsigned long seen[2][NOOSELESS_ANSWER_LOST + 1], came_in[2][2]; /* by ends alone, on the bench; lost, OK */
enum { HELD = 18, ACK = 20 };                                           /* of a console's state */

static void run(int which) {
    size_t n = used_by(entries[which].run) - bare;
    if (n > most[which]) most[which] = n;
}

static void stepped(int which) {
    int whole = which == BENCH_STEP;
    const uint8_t *state = whole ? bench : console;
    int held = state[HELD];
    run(which);
    if (nooseless_is_refusal(told)) return;
    seen[whole][nooseless_report(told)]++;
    if (letter == 'S' && held && !state[HELD]) came_in[whole][state[ACK]]++;
}

/* An end's step, now and then after power loss. */
static void alone(void) {
    static uint8_t air[2][16][NOOSELESS_PACKET_LEN];
    int end = (int)below(&chance, 2);
    letter = (uint8_t)(end ? "OKRRRRRRR" : "PQDSSSSSA")[below(&chance, 9)];
    memcpy(in, air[end][below(&chance, 3) ? 0 : below(&chance, 16)], sizeof in);
    if (below(&chance, 50) == 0) in[below(&chance, sizeof in)] ^= 1;
    stepped(end ? CONTROLLER_STEP : CONSOLE_STEP);
    int sent = told & NOOSELESS_SENT;
    run(READ_PACKET);
    if (sent) {
        memmove(air[!end][1], air[!end][0], 15 * sizeof in);
        memcpy(air[!end][0], out, sizeof out);
    }
    run(WRITE_PACKET);
    if (below(&chance, 40) != 0) return;
    end = (int)below(&chance, 2);
    run(RECORD + end);
    run(READ_RECORD);
    run(AGE_RECORD);
    run(RENEW_RECORD);
    run(DOWNED + end);
    letter = end ? 'Y' : 'V';
    run(end ? CONTROLLER_STEP : CONSOLE_STEP);
    run(WRITE_RECORD);
}

/* A step of the bench, which comes back at once when it goes down. */
static void together(void) {
    letter = (uint8_t)"PQDSSSSOKRRRRLMPQDSSSSOKRRRRLMCXAA"[below(&chance, 34)];
    place = below(&chance, 3) ? 0 : below(&chance, 66);
    copies = below(&chance, 3);
    stepped(BENCH_STEP);
    run(BENCH_SHOW);
    if (letter != 'C' && letter != 'X') return;
    letter = letter == 'C' ? 'V' : 'Y';
    run(BENCH_STEP);
}

static void played(void) {
    for (uint8_t *r = list; r < list + sizeof list; r += NOOSELESS_LIST_RECORD_LEN) {
        memcpy(r, "P000                \n", NOOSELESS_LIST_RECORD_LEN);
        r[0] = (uint8_t)"PQDSSSSCVOKRRRRXYLMA?"[below(&chance, 21)];
        if (strchr("QDSOKR", r[0])) r[3] = (uint8_t)('0' + below(&chance, 4));
    }
    run(RUN);
}

static int all_seen(const unsigned long *told_of, const unsigned long *came) {
    printf("; %lu delivered, %lu OK and %lu lost came in, %lu OK and %lu lost read", told_of[NOOSELESS_DELIVERED], came[1], came[0],
           told_of[NOOSELESS_ANSWER_OK], told_of[NOOSELESS_ANSWER_LOST]);
    return told_of[NOOSELESS_DELIVERED] && came[1] && came[0] && told_of[NOOSELESS_ANSWER_OK] && told_of[NOOSELESS_ANSWER_LOST];
}

int main(int argc, char **argv) {
    if (argc != 3) return 2;
    chance.state = strtoull(argv[2], NULL, 10);
    memset(message, 'A', sizeof message);
    bare = used_by(nothing) - 8;
    run(0);
    run(1);
    run(BENCH_FRESH);
    for (unsigned long n = strtoul(argv[1], NULL, 10); n > 0; n--) {
        alone();
        together();
        if (n % 1000 == 0) played();
    }
    int deep = 0;
    for (size_t i = 0; i < sizeof entries / sizeof *entries; i++) {
        printf("%s%s %zu", i ? ", " : "stack in bytes: ", entries[i].name, most[i]);
        if (most[i] > entries[i].allowed) deep = 1;
    }
    int ends = all_seen(seen[0], came_in[0]), benches = all_seen(seen[1], came_in[1]);
    printf("\n");
    return deep ? 1 : ends && benches ? 0 : 3;
}
