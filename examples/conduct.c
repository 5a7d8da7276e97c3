/*
 * Conducts a rehearsal in the working folder: makes both boxes (their first number records), starts the radio and the boxes, feeds orders to
 * the console, for a time without cuts, and then cuts the power (kill -9) of a box at moments by chance until there were enough cuts. One cut
 * in four is of the box that came back last, when it begins to keep the record of its first number. Each cut is written to cuts.log, with
 * "keeping" where it fell before the record was in its place.
 *
 * Both boxes are made with records of version 1, as before there were blocks, and before one start in eight the record is carried back to that,
 * as for a box that is brought up to date. Each is written to cuts.log as "version 1".
 *
 * conduct PROGRAMS CUTS SEED SECONDS
 */
#include <errno.h>
#include <fcntl.h>
#include <signal.h>
#include <stdio.h>
#include <stdlib.h>
#include <string.h>
#include <sys/ioctl.h>
#include <sys/prctl.h>
#include <sys/wait.h>
#include <time.h>
#include <unistd.h>

#include "box.h"
#include "chance.h"

#define MILLI 1000000u
#define QUIET 2000u /* milliseconds before the first cut */

struct process {
    const char *name, *record;
    const char *aside; /* where a record is until it is kept */
    pid_t id;
};

static const char *programs;
static char *seed;
static int orders[2]; /* a pipe that outlives each console */
static int cuts;
static struct chance chance;

static void rest(uint64_t nanoseconds) {
    struct timespec t = {(time_t)(nanoseconds / 1000000000u), (long)(nanoseconds % 1000000000u)};
    while (nanosleep(&t, &t) != 0 && errno == EINTR) {
    }
}

/* While the box is off: it starts from this one. */
static void write_old(const struct process *p, const uint8_t old[NOOSELESS_OLD_RECORD_LEN]) {
    int f = open(p->record, O_WRONLY | O_CREAT | O_TRUNC, 0644);
    if (f < 0) fail(p->record);
    if (write(f, old, NOOSELESS_OLD_RECORD_LEN) != NOOSELESS_OLD_RECORD_LEN) fail(p->record);
    if (close(f) != 0) fail(p->record);
    log_line(cuts, clock_now(), p->name, (const uint8_t *)"version 1");
}

/* Who makes a box keeps the first record in it. */
static void make(const struct process *p, uint8_t end) {
    uint8_t old[NOOSELESS_OLD_RECORD_LEN];
    if (nooseless_write_record(old, sizeof old, end, 0, 0) != 0) fail(p->record);
    write_old(p, old);
}

static void carry_back(const struct process *p) {
    uint8_t record[NOOSELESS_RECORD_LEN], old[NOOSELESS_OLD_RECORD_LEN];
    if (nooseless_carry_record(record, record_load(p->record, record), old, sizeof old) != 0) fail(p->record);
    write_old(p, old);
}

static void start(struct process *p) {
    char path[512];
    if ((size_t)snprintf(path, sizeof path, "%s/%s", programs, p->name) >= sizeof path) fail("path");
    pid_t parent = getpid();
    p->id = fork();
    if (p->id < 0) fail("fork");
    if (p->id > 0) return;
    if (prctl(PR_SET_PDEATHSIG, SIGKILL) != 0 || getppid() != parent) _exit(1);
    if (dup2(orders[0], STDIN_FILENO) < 0) _exit(1);
    execl(path, p->name, seed, (char *)NULL);
    fail(path);
}

/* A process that has ended by itself is a fault of its own. */
static void cut(struct process *p) {
    int status;
    if (kill(p->id, SIGKILL) != 0) fail(p->name);
    if (waitpid(p->id, &status, 0) != p->id) fail(p->name);
    if (!WIFSIGNALED(status) || WTERMSIG(status) != SIGKILL) {
        fprintf(stderr, "%s ended by itself\n", p->name);
        exit(2);
    }
}

/* Keeps a few orders ready: ORDER and ten digits, 16 cells. */
static void feed(void) {
    static unsigned long next = 1;
    int waiting;
    if (ioctl(orders[0], FIONREAD, &waiting) != 0) fail("orders");
    while (waiting < 4 * (NOOSELESS_MESSAGE_LEN + 1)) {
        char line[NOOSELESS_MESSAGE_LEN + 2];
        snprintf(line, sizeof line, "ORDER %010lu\n", next++ % 10000000000u);
        if (write(orders[1], line, NOOSELESS_MESSAGE_LEN + 1) != NOOSELESS_MESSAGE_LEN + 1) fail("orders");
        waiting += NOOSELESS_MESSAGE_LEN + 1;
    }
}

static void run_for(uint64_t nanoseconds) {
    uint64_t end = clock_now() + nanoseconds;
    do {
        feed();
        uint64_t left = end > clock_now() ? end - clock_now() : 0;
        rest(left < MILLI ? left : MILLI);
    } while (clock_now() < end);
}

/* Until the box begins to keep its record, at most so long. */
static void run_until_keeping(const struct process *p, uint64_t nanoseconds) {
    uint64_t end = clock_now() + nanoseconds;
    while (clock_now() < end) {
        feed();
        for (int looks = 0; looks < 100; looks++)
            if (access(p->aside, F_OK) == 0) return;
    }
}

/* Power cut; what was aside and not yet kept is gone with it. */
static void cut_and_log(struct process *p) {
    uint64_t when = clock_now();
    cut(p);
    log_line(cuts, when, p->name, unlink(p->aside) == 0 ? (const uint8_t *)"keeping" : NULL);
}

/* One in five comes within 2 milliseconds, while the box starts; the others within 30. Half are of the controller, one in ten is of both. */
static void aim(struct process *hit[2], struct process *console, struct process *controller) {
    run_for(below(&chance, (below(&chance, 5) == 0 ? 2 : 30) * MILLI));
    uint64_t who = below(&chance, 10);
    hit[0] = who < 5 ? controller : console;
    hit[1] = who == 9 ? controller : NULL;
}

/* How many cuts there were when there were enough, or the time was over. */
static unsigned long cut_until(unsigned long wanted, uint64_t limit, struct process *console, struct process *controller) {
    struct process *hit[2] = {controller, NULL};
    unsigned long done = 0;
    while (done < wanted && clock_now() < limit) {
        if (below(&chance, 4) == 0) run_until_keeping(hit[0], 30 * MILLI);
        else aim(hit, console, controller);
        for (int i = 0; i < 2 && hit[i]; i++, done++) cut_and_log(hit[i]);
        rest(below(&chance, 4 * MILLI));
        for (int i = 0; i < 2 && hit[i]; i++) {
            if (below(&chance, 8) == 0) carry_back(hit[i]);
            start(hit[i]);
        }
    }
    return done;
}

int main(int argc, char **argv) {
    if (argc != 5) {
        fprintf(stderr, "usage: conduct PROGRAMS CUTS SEED SECONDS\n");
        return 2;
    }
    programs = argv[1];
    unsigned long wanted = strtoul(argv[2], NULL, 10);
    seed = argv[3];
    chance.state = strtoull(seed, NULL, 10) + 1;
    uint64_t limit = clock_now() + strtoull(argv[4], NULL, 10) * 1000u * MILLI;
    if (pipe(orders) != 0) fail("pipe");
    cuts = log_open("cuts.log");
    struct process radio = {"radio", NULL, NULL, 0}, console = {"console_box", "console.record", "console.record.new", 0},
                   controller = {"controller_box", "controller.record", "controller.record.new", 0};
    make(&console, NOOSELESS_CONSOLE);
    make(&controller, NOOSELESS_CONTROLLER);
    start(&radio);
    rest(50 * MILLI);
    start(&console);
    start(&controller);
    run_for(QUIET * MILLI);
    unsigned long done = cut_until(wanted, limit, &console, &controller);
    run_for(300 * MILLI);
    cut(&console);
    cut(&controller);
    cut(&radio);
    if (done < wanted) fprintf(stderr, "conduct: %lu of %lu cuts in the time given\n", done, wanted);
    return done < wanted ? 3 : 0;
}
