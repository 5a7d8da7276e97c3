/* The generator, what its lists reach, and the link along them. */
#include "../generate.h"
#include "tests.h"

#include <string.h>

#define SEEDS 63u
#define RECORDS 600u

void test_generator(void)
{
    static Generator one;
    static Generator other;
    uint8_t piece[PIECE_BYTES];
    uint8_t again[PIECE_BYTES];
    bool same = true;
    bool room_kept = true;

    for (uint64_t seed = 0; seed < 2 * STYLES; seed++) {
        start_generator(&one, seed);
        start_generator(&other, seed);
        for (size_t n = 0; n < RECORDS; n++) {
            size_t room = 1 + n % 30;
            size_t records = next_piece(&one, piece, room);

            same = same && records == next_piece(&other, again, room) &&
                   memcmp(piece, again, records * RECORD_BYTES) == 0;
            room_kept = room_kept && records >= 1 && records <= room;
        }
    }
    CHECK(same);
    CHECK(room_kept);
    start_generator(&one, 1);
    start_generator(&other, 1 + STYLES);
    CHECK(draw(&one, UINT64_MAX) != draw(&other, UINT64_MAX));
}

/* Numbers of a packet against those of the end that takes it. */
typedef enum { NO_MATCH, MATCHES_J, MATCHES_I, MATCHES } Match;

static size_t console_mode(const Bench *bench)
{
    return bench->console.j != 0 ? 1 : bench->console.last != 0 ? 2 : 0;
}

static size_t controller_mode(const Bench *bench)
{
    return bench->controller.i != 0 ? 1 : bench->controller.last != 0 ? 2 : 0;
}

/* What has been met: counted before the step, by its outcome. */
static struct {
    unsigned taken[7][3][MATCHES];   /* kind, mode of the end, match */
    unsigned no_room[7][3][MATCHES]; /* the same, refused with 9 */
    unsigned refused[256][16];       /* letter, refusal */
    unsigned copies[256][4];         /* letter, copies; accepted */
    unsigned crash[256][3][3];       /* letter, both modes; accepted */
    unsigned down_again[256];        /* C or X on an end already down */
    unsigned place[PLACES];          /* R or S accepted there */
    unsigned full_to_controller;
    unsigned full_to_console;
    unsigned read[2][2][2]; /* OK, the put's answer, console restarted */
} met;

static Match match_of(const Bench *bench, const Packet *packet)
{
    if (packet->kind == NEED_I) {
        return packet->first == bench->controller.j ? MATCHES_J : NO_MATCH;
    }
    if (packet->kind == DATA || packet->kind == DONE) {
        return packet->first == bench->controller.i ||
                       packet->first == bench->controller.last
                   ? MATCHES_I
                   : NO_MATCH;
    }
    if (packet->kind == OFFER) {
        return packet->first == bench->console.j       ? MATCHES_J
               : packet->second == bench->console.last ? MATCHES_I
                                                       : NO_MATCH;
    }
    return packet->first == bench->console.last ? MATCHES_I : NO_MATCH;
}

static void meet_packet(const Bench *before, const ListRecord *record,
                        const Packet *packet, int refusal)
{
    size_t mode =
        record->letter == 'R' ? controller_mode(before) : console_mode(before);
    Match match = match_of(before, packet);

    if (refusal == ACCEPTED) {
        met.taken[packet->kind][mode][match] += 1;
        met.place[record->place] += 1;
    }
    if (refusal == NO_ROOM) {
        met.no_room[packet->kind][mode][match] += 1;
    }
}

static void meet(const Bench *before, const Packet *packet,
                 const ListRecord *record, int refusal)
{
    bool down = record->letter == 'C' ? before->console.down
                                      : before->controller.down;

    met.refused[record->letter][refusal] += 1;
    met.full_to_controller += before->to_controller.count == PLACES;
    met.full_to_console += before->to_console.count == PLACES;
    if (packet != NULL && (record->letter == 'R' || record->letter == 'S')) {
        meet_packet(before, record, packet, refusal);
    }
    if (refusal == ACCEPTED) {
        met.copies[record->letter][record->copies] += 1;
        met.down_again[record->letter] += down;
        met.crash[record->letter][console_mode(before)]
                 [controller_mode(before)] += !down || record->letter == 'V' ||
                                              record->letter == 'Y';
    }
}

/* A list as it is run here: its puts are told apart by their messages. */
typedef struct {
    Fixture f;
    uint32_t puts;
    uint32_t delivered; /* the newest put that was delivered */
    bool answered;      /* an A since the newest put, or no put at all */
    bool went_down[2];  /* console and controller, since the newest put */
    bool restarted[2];  /* down and back, likewise */
    bool given_up[RECORDS + 1]; /* answered lost by a console that stayed up */
} Run;

static void number_the_put(Run *run, ListRecord *record)
{
    clear_message(record->message);
    for (size_t n = 0; n < 8; n++) {
        record->message[n] = (uint8_t)('A' + ((run->puts + 1) >> 4 * n) % 16);
    }
}

static uint32_t number_of_put(const uint8_t message[CELLS])
{
    uint32_t number = 0;

    for (size_t n = 0; n < 8; n++) {
        number += (uint32_t)(message[n] - 'A') << 4 * n;
    }
    return number;
}

/* A put's answer is the first A after it. OK only if delivered, and by a
 * console that stayed up; lost only after a restart of either end since the
 * put. Any other reading is lost. */
static void check_answer(Run *run, bool ok)
{
    met.read[ok][!run->answered][run->restarted[CONSOLE]] += 1;
    if (ok) {
        CHECK(!run->answered && run->delivered == run->puts);
        CHECK(!run->went_down[CONSOLE]);
    } else if (!run->answered) {
        CHECK(run->restarted[CONSOLE] || run->restarted[CONTROLLER]);
        run->given_up[run->puts] = !run->went_down[CONSOLE];
    }
    run->answered = true;
}

/* At most once and in order, and never after a console that stayed up read
 * lost. */
static void check_report(Run *run, uint8_t letter, const Outcome *outcome)
{
    if (outcome->report == DELIVERED) {
        uint32_t put = number_of_put(outcome->message);

        CHECK(put > run->delivered && put <= run->puts &&
              !run->given_up[put]);
        run->delivered = put;
    } else {
        CHECK(message_is(outcome->message, ""));
    }
    bool answer = outcome->report == ANSWERED_OK ||
                  outcome->report == ANSWERED_LOST;
    CHECK(answer == (letter == 'A'));
    if (answer) {
        check_answer(run, outcome->report == ANSWERED_OK);
    }
}

static void follow_end(Run *run, Actor end, bool down_before, bool down)
{
    run->went_down[end] = run->went_down[end] || (down && !down_before);
    run->restarted[end] =
        run->restarted[end] || (run->went_down[end] && down_before && !down);
}

static void follow(Run *run, uint8_t letter, const Bench *before)
{
    if (letter == 'P') {
        run->puts += 1;
        run->answered = false;
        memset(run->went_down, 0, sizeof run->went_down);
        memset(run->restarted, 0, sizeof run->restarted);
    }
    follow_end(run, CONSOLE, before->console.down, run->f.bench.console.down);
    follow_end(run, CONTROLLER, before->controller.down,
               run->f.bench.controller.down);
}

static void check_step(Run *run, ListRecord *record)
{
    Fixture before;
    uint8_t bytes[PACKET_BYTES] = {0};
    bool packet_there = get_packet(&run->f.bench, record, bytes);
    Packet packet = read_packet(bytes, PACKET_BYTES).packet;
    bool in_box = find_action(record->letter)->actor != AIR &&
                  (packet_there || !find_action(record->letter)->place);

    if (record->letter == 'P') {
        number_the_put(run, record);
    }
    memcpy(&before, &run->f, sizeof before);
    Outcome outcome = bench_step(&run->f.bench, record->letter, record->place,
                                 record->copies, record->message);
    meet(&before.bench, packet_there ? &packet : NULL, record, outcome.refusal);
    if (outcome.refusal != ACCEPTED) {
        CHECK(is_refusal(&outcome, outcome.refusal));
        CHECK(same_bench(&run->f, &before));
    } else {
        follow(run, record->letter, &before.bench);
        CHECK(outcome.report != REFUSED);
        check_report(run, record->letter, &outcome);
    }
    if (in_box && outcome.refusal != NO_ROOM) {
        check_alone(&before.bench, &run->f.bench, record, bytes, &outcome);
    }
}

static void check_piece(Run *run, const uint8_t *piece, size_t records)
{
    for (size_t n = 0; n < records; n++) {
        ListRecord record;

        if (read_list_record(piece + n * RECORD_BYTES, RECORD_BYTES, &record)) {
            check_step(run, &record);
        } else {
            met.refused['?'][BAD_RECORD] += 1;
        }
    }
}

/* The generator's own bench goes the same way, but for the messages. */
static bool same_way(const Bench *one, const Bench *other)
{
    const Console *console = &other->console;
    const Controller *controller = &other->controller;

    return same_numbers(&one->console.numbers, &console->numbers) &&
           console_is(&one->console, console->numbers.last_used, console->held,
                      console->j, console->last, console->down) &&
           one->console.ack_ok == console->ack_ok &&
           same_numbers(&one->controller.numbers, &controller->numbers) &&
           controller_is(&one->controller, controller->numbers.last_used,
                         controller->j, controller->i, controller->last,
                         controller->down) &&
           one->to_controller.count == other->to_controller.count &&
           one->to_console.count == other->to_console.count;
}

void test_generated_lists(void)
{
    static Generator generator;
    static Run run;

    for (uint64_t seed = 0; seed < SEEDS; seed++) {
        uint8_t piece[PIECE_BYTES];

        memset(&run, 0, sizeof run);
        run.answered = true;
        start(&run.f, 0, 0);
        start_generator(&generator, seed);
        for (size_t n = 0; n < RECORDS;) {
            size_t records = next_piece(&generator, piece, RECORDS - n);

            check_piece(&run, piece, records);
            n += records;
        }
        CHECK(bench_well_formed(&run.f.bench));
        CHECK(same_way(&run.f.bench, &generator.bench));
    }
}

static void check_taken(void)
{
    for (uint8_t kind = NEED_I; kind <= DONE; kind++) {
        for (size_t mode = 0; mode < 3; mode++) {
            /* An idle end awaits nothing; otherwise both can come. */
            bool by_j = (kind == NEED_I || kind == OFFER) && mode == 1;
            bool by_i = kind == DATA || kind == DONE ? mode != 0
                        : kind != NEED_I             ? mode == 2
                                                     : false;

            CHECK(met.taken[kind][mode][NO_MATCH] > 0);
            CHECK((met.taken[kind][mode][MATCHES_J] > 0) == by_j);
            CHECK((met.taken[kind][mode][MATCHES_I] > 0) == by_i);
        }
    }
    for (size_t place = 0; place < PLACES; place++) {
        CHECK(met.place[place] > 0);
    }
}

/* 9 for every packet that has a reply, in every mode. */
static void check_no_room(void)
{
    for (size_t mode = 0; mode < 3; mode++) {
        CHECK(met.no_room[DATA][mode][NO_MATCH] > 0);
        CHECK(met.no_room[OFFER][mode][NO_MATCH] > 0);
        CHECK(met.no_room[OK][mode][NO_MATCH] > 0);
    }
    CHECK(met.no_room[DATA][1][MATCHES_I] > 0);
    CHECK(met.no_room[OK][2][MATCHES_I] > 0);
    CHECK(met.full_to_controller > 0 && met.full_to_console > 0);
}

static void check_refused(void)
{
    static const struct {
        int refusal;
        const char *letters;
    } refusals[] = {{1, "?"},        {3, "RSLM"},   {4, "PQDSOKRA"},
                    {5, "VY"},       {6, "PQDOKA"}, {9, "QDSOKR"},
                    {0, "PQDSCVOKRXYLMA"}};

    for (size_t n = 0; n < sizeof refusals / sizeof refusals[0]; n++) {
        for (unsigned letter = 1; letter < 256; letter++) {
            bool wanted = strchr(refusals[n].letters, (int)letter) != NULL;

            CHECK((met.refused[letter][refusals[n].refusal] > 0) == wanted);
        }
    }
}

/* OK is the answer of a put whose console stayed up; lost is any reading. */
static void check_read(void)
{
    for (size_t answer = 0; answer < 2; answer++) {
        for (size_t restarted = 0; restarted < 2; restarted++) {
            CHECK(met.read[false][answer][restarted] > 0);
            CHECK((met.read[true][answer][restarted] > 0) ==
                  (answer == 1 && restarted == 0));
        }
    }
}

/* Looks at what the lists of the group before have met. */
void test_reach(void)
{
    static const char sends[] = "QDSOKR";
    static const char crashes[] = "CVXY";

    check_taken();
    check_no_room();
    check_refused();
    check_read();
    for (size_t n = 0; n < sizeof sends - 1; n++) {
        for (size_t copies = 0; copies <= MOST_COPIES; copies++) {
            CHECK(met.copies[(uint8_t)sends[n]][copies] > 0);
        }
    }
    for (size_t n = 0; n < sizeof crashes - 1; n++) {
        for (size_t modes = 0; modes < 9; modes++) {
            CHECK(met.crash[(uint8_t)crashes[n]][modes / 3][modes % 3] > 0);
        }
    }
    CHECK(met.down_again['C'] > 0 && met.down_again['X'] > 0);
}
