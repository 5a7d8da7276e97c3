/*
 * Judges a rehearsal by what the boxes wrote down: the console's rows.log, the controller's doses.log, keeps.log of both, and cuts.log.
 *
 * judge CUTS ORDERS OKS LOSTS: at least so many of each, of the lost so many with and so many without a restart of the console since the put,
 * or the rehearsal says nothing.
 * Ends with 0, with 1 if demand 3 is broken, with 2 if a log can't be read, with 3 if too little happened, with 4 if the controller met
 * a number that it had not given: its record went back, though no order has come to harm yet. With 5 if the boxes kept their records more
 * often than blocks of 64 ask for while no power was cut.
 */
#include <inttypes.h>
#include <stdint.h>
#include <stdio.h>
#include <stdlib.h>
#include <string.h>

struct order {
    uint64_t put, ok, lost, dosed; /* when, 0 for never; the first dose */
    int restarted; /* the console, between put and answer */
};

struct line {
    uint64_t when;
    char word[24];
    char cells[17];
};

static struct order *orders;
static size_t known;
static uint64_t *backs;
static size_t back_count;
static unsigned long put, oks, losts, doses, cuts, twice, astray, unasked, early_ok, kept_ok, after_lost, no_reason, keeping, alarms, old_starts;
static unsigned long unsure, dosed_after; /* lost after a restart of the console; delivered after that */
static unsigned long writes, quiet_put, quiet_writes; /* of records; before the first cut */
static uint64_t first_cut = UINT64_MAX;

static _Noreturn void unreadable(const char *what) {
    fprintf(stderr, "judge: %s can't be read\n", what);
    exit(2);
}

/* ORDER and ten digits; 0 for anything else. */
static size_t number_of(const char *cells) {
    size_t n = 0;
    if (strlen(cells) != 16 || memcmp(cells, "ORDER ", 6) != 0) return 0;
    for (int i = 6; i < 16; i++) {
        if (cells[i] < '0' || cells[i] > '9') return 0;
        n = n * 10 + (size_t)(cells[i] - '0');
    }
    return n;
}

static struct order *order(size_t n) {
    if (n >= known) {
        size_t room = 2 * n + 16;
        orders = realloc(orders, room * sizeof *orders);
        if (!orders) unreadable("memory");
        memset(orders + known, 0, (room - known) * sizeof *orders);
        known = room;
    }
    return &orders[n];
}

static int next_line(FILE *f, struct line *l, const char *path) {
    char text[80];
    if (!fgets(text, sizeof text, f)) return 0;
    size_t length = strlen(text);
    if (length == 0 || text[length - 1] != '\n') unreadable(path);
    text[length - 1] = 0;
    char *end, *rest;
    l->when = strtoull(text, &end, 10);
    if (*end != ' ' || !(rest = strchr(end + 1, ' ')) || rest - end - 1 >= (int)sizeof l->word || strlen(rest + 1) > 16)
        unreadable(path);
    memcpy(l->word, end + 1, (size_t)(rest - end - 1));
    l->word[rest - end - 1] = 0;
    strcpy(l->cells, rest + 1);
    return 1;
}

static FILE *opened(const char *path) {
    FILE *f = fopen(path, "r");
    if (!f) unreadable(path);
    return f;
}

/* The row of an answer is that of the order put last, if it had none yet. */
static void read_answer(const struct line *l, size_t n, size_t waiting, int restarted) {
    struct order *o = order(n);
    if (n == 0 || n != waiting) unasked++;
    o->restarted = restarted;
    if (strcmp(l->word, "OK") == 0) {
        o->ok = l->when;
        oks++;
        kept_ok += (unsigned long)restarted;
    } else if (strcmp(l->word, "LOST") == 0) {
        o->lost = l->when;
        losts++;
        unsure += (unsigned long)restarted;
    } else {
        unreadable("rows.log");
    }
}

static void read_rows(void) {
    FILE *f = opened("rows.log");
    struct line l;
    size_t waiting = 0, last = 0;
    int restarted = 0; /* since the last put */
    while (next_line(f, &l, "rows.log")) {
        size_t n = number_of(l.cells);
        if (strcmp(l.word, "BACK") == 0) {
            restarted = 1;
        } else if (strcmp(l.word, "PUT") == 0) {
            if (n <= last) unreadable("rows.log: orders in their order");
            order(n)->put = l.when;
            waiting = last = n;
            restarted = 0;
            put++;
            quiet_put += l.when < first_cut;
        } else {
            read_answer(&l, n, waiting, restarted);
            waiting = 0;
        }
    }
    fclose(f);
}

static void read_doses(void) {
    FILE *f = opened("doses.log");
    struct line l;
    size_t latest = 0, room = 0;
    while (next_line(f, &l, "doses.log")) {
        if (strcmp(l.word, "BACK") == 0) {
            if (back_count == room) {
                room = 2 * room + 64;
                backs = realloc(backs, room * sizeof *backs);
                if (!backs) unreadable("memory");
            }
            backs[back_count++] = l.when;
            continue;
        }
        if (strcmp(l.word, "ALARM") == 0) {
            alarms++;
            continue;
        }
        if (strcmp(l.word, "DOSE") != 0) unreadable("doses.log");
        size_t n = number_of(l.cells);
        struct order *o = order(n);
        doses++;
        if (n == 0 || o->put == 0 || l.when < o->put) unasked++;
        if (o->dosed) twice++;
        if (n < latest) astray++;
        int late = o->lost && l.when > o->lost;
        if (late && o->restarted) dosed_after++;
        if (late && !o->restarted) after_lost++;
        if (!o->dosed) o->dosed = l.when;
        if (n > latest) latest = n;
    }
    fclose(f);
}

static int came_back(uint64_t from, uint64_t to) {
    for (size_t i = 0; i < back_count; i++)
        if (from < backs[i] && backs[i] < to) return 1;
    return 0;
}

static void judge_answers(void) {
    for (size_t n = 0; n < known; n++) {
        const struct order *o = &orders[n];
        if (o->ok && (!o->dosed || o->dosed > o->ok)) early_ok++;
        if (o->lost && !o->restarted && !came_back(o->put, o->lost)) no_reason++;
    }
}

static void count_cuts(void) {
    FILE *f = opened("cuts.log");
    struct line l;
    while (next_line(f, &l, "cuts.log")) {
        if (strcmp(l.cells, "version 1") == 0) {
            old_starts++;
            continue;
        }
        if (cuts++ == 0) first_cut = l.when;
        if (strcmp(l.cells, "keeping") == 0) keeping++;
    }
    fclose(f);
}

static void count_writes(void) {
    FILE *f = opened("keeps.log");
    struct line l;
    for (; next_line(f, &l, "keeps.log"); writes++) quiet_writes += l.when < first_cut;
    fclose(f);
}

/* Of number records, in a time with so many cuts and orders. */
static void print_writes(unsigned long in_cuts, unsigned long in_orders, unsigned long count) {
    printf("in %lu cuts and %lu orders %lu writes of number records", in_cuts, in_orders, count);
    if (in_orders > 0) printf(", %.3f an order", (double)count / (double)in_orders);
    printf("\n");
}

static void print_counts(void) {
    printf("%lu cuts, %lu of them between a step and its keeping; %lu orders, %lu doses, %lu OK, %lu lost, %lu without an answer\n", cuts,
           keeping, put, doses, oks, losts, put - oks - losts);
    printf("%lu of the lost after a restart of the console, %lu of these delivered afterwards\n", unsure, dosed_after);
    printf("delivered twice %lu, out of order %lu, OK without delivery %lu, OK after a restart of the console %lu, delivered after lost %lu\n",
           twice, astray, early_ok, kept_ok, after_lost);
    printf("delivered or answered unasked %lu, lost with no restart since the put %lu\n", unasked, no_reason);
    printf("numbers that the controller had not given %lu\n", alarms);
    print_writes(0, quiet_put, quiet_writes);
    print_writes(cuts, put - quiet_put, writes - quiet_writes);
    printf("records of version 1 that a start found %lu\n", old_starts);
}

int main(int argc, char **argv) {
    if (argc != 5) {
        fprintf(stderr, "usage: judge CUTS ORDERS OKS LOSTS\n");
        return 2;
    }
    count_cuts();
    count_writes();
    read_rows();
    read_doses();
    judge_answers();
    print_counts();
    if (twice + astray + early_ok + kept_ok + after_lost + unasked + no_reason > 0) return 1;
    if (alarms > 0) return 4;
    if (quiet_writes > 4 + quiet_put / 16) return 5;
    unsigned long wanted = strtoul(argv[4], NULL, 10);
    if (cuts < strtoul(argv[1], NULL, 10) || put < strtoul(argv[2], NULL, 10) || oks < strtoul(argv[3], NULL, 10) ||
        losts - unsure < wanted || unsure < wanted) {
        printf("too little happened for this to say anything\n");
        return 3;
    }
    return 0;
}
