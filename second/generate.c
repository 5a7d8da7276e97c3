/* The choice of the next record. */
#include "generate.h"

#include <string.h>

typedef enum { FORWARD, REPEAT, TAKE, LOSE, CRASH, READ, ANY, SPOIL } Intent;

#define INTENTS 8u

/* How often, of 100. A mixed list goes by the other rows in turn. */
static const uint8_t weights[MIXED][INTENTS] = {
    /* forward, repeat, take, lose, crash, read, any, spoil */
    [CALM] = {80, 6, 3, 2, 2, 4, 2, 1},
    [NOISY] = {36, 16, 24, 8, 3, 4, 7, 2},
    [CRASHES] = {58, 6, 10, 3, 12, 6, 4, 1},
    [FLOOD] = {28, 36, 22, 2, 2, 4, 5, 1},
    [STALE] = {58, 12, 18, 1, 4, 4, 2, 1},
    [JUNK] = {44, 6, 6, 2, 2, 4, 6, 30},
};

/* splitmix64 */
static uint64_t next_random(Generator *generator)
{
    generator->random += 0x9E3779B97F4A7C15u;
    uint64_t z = generator->random;
    z = (z ^ (z >> 30)) * 0xBF58476D1CE4E5B9u;
    z = (z ^ (z >> 27)) * 0x94D049BB133111EBu;
    return z ^ (z >> 31);
}

uint64_t draw(Generator *generator, uint64_t below)
{
    return next_random(generator) % below;
}

static bool chance(Generator *generator, uint64_t of_hundred)
{
    return draw(generator, 100) < of_hundred;
}

void start_generator(Generator *generator, uint64_t seed)
{
    memset(generator, 0, sizeof *generator);
    generator->random = seed;
    generator->style = (Style)(seed % STYLES);
    generator->current = generator->style == MIXED ? CALM : generator->style;
    fresh_bench(&generator->bench, 0, 0, generator->to_controller, TABLE_BYTES,
                generator->to_console, TABLE_BYTES);
}

/* Mostly some hundreds, now and then none or around the 9,999. */
size_t draw_list_records(Generator *generator)
{
    uint64_t lot = draw(generator, 40);

    if (lot == 0) {
        return 0;
    }
    if (lot <= 2) {
        return MOST_RECORDS - 1 + (size_t)draw(generator, 4);
    }
    return 1 + (size_t)draw(generator, 1200);
}

static size_t draw_copies(Generator *generator)
{
    if (generator->current == FLOOD) {
        return chance(generator, 80) ? 3 : (size_t)draw(generator, 4);
    }
    if (generator->current == CALM) {
        return chance(generator, 90) ? 1 : (size_t)draw(generator, 4);
    }
    return chance(generator, 50) ? 1 : (size_t)draw(generator, 4);
}

/* A packet that moves the end it comes to, as far as the bench is now. */
static bool is_live(const Bench *bench, const Packet *packet)
{
    const Console *console = &bench->console;
    const Controller *controller = &bench->controller;

    switch (packet->kind) {
    case NEED_I:
        return controller->i == 0 && controller->last == 0 &&
               packet->first == console->j;
    case OFFER:
        return packet->first == console->j;
    case DATA:
        return packet->first == controller->i;
    case DONE:
        return packet->first == controller->i ||
               packet->first == controller->last;
    default:
        return packet->first == console->last;
    }
}

/* The first live packet from a place on, or that place. */
static size_t find_live(const Bench *bench, const Channel *channel, size_t from)
{
    for (size_t n = 0; n < channel->count; n++) {
        size_t place = (from + n) % channel->count;
        PacketRead read = read_packet(place_in(channel, place), PACKET_BYTES);

        if (is_live(bench, &read.packet)) {
            return place;
        }
    }
    return from;
}

/* Calm lists take the oldest packet, stale ones leave it where it is. */
static size_t draw_place(Generator *generator, const Channel *channel)
{
    size_t count = channel->count;

    if (count == 0 || (generator->current == CALM && chance(generator, 95))) {
        return 0;
    }
    size_t place = (size_t)draw(generator, count);
    if (generator->current == STALE && chance(generator, 50)) {
        place = count - 1;
    }
    if (chance(generator, 60)) {
        place = find_live(&generator->bench, channel, place);
    }
    return place;
}

/* Few different messages, so that orders with the same cells meet. */
static void draw_message(Generator *generator, uint8_t message[CELLS])
{
    static const char *const words[] = {"START FILLER 03", "STOP", "VALVE 7",
                                        "~~~~~~~~~~~~~~~~", " ~", ""};
    uint64_t lot = draw(generator, 8);

    memset(message, ' ', CELLS);
    if (lot < 6) {
        memcpy(message, words[lot], strlen(words[lot]));
        return;
    }
    for (size_t n = 0; n < CELLS; n++) {
        message[n] = lot == 6 ? (uint8_t)(0x20 + draw(generator, 0x5F))
                              : (uint8_t)('0' + (generator->puts >> n) % 2);
    }
}

static void set_action(Generator *generator, ListRecord *record, char letter)
{
    const Action *action = find_action((uint8_t)letter);
    const Bench *bench = &generator->bench;

    memset(record, 0, sizeof *record);
    clear_message(record->message);
    record->letter = (uint8_t)letter;
    if (action->place) {
        record->place =
            draw_place(generator, letter == 'R' || letter == 'L'
                                      ? &bench->to_controller
                                      : &bench->to_console);
    }
    if (action->copies) {
        record->copies = draw_copies(generator);
    }
    if (action->message) {
        draw_message(generator, record->message);
        generator->puts += 1;
    }
}

/* What an end that is up sends again and again in its mode, or 0. */
static char repeat_of_console(const Bench *bench)
{
    if (bench->console.j != 0) {
        return 'Q';
    }
    return bench->console.last != 0 ? 'D' : '\0';
}

static char repeat_of_controller(const Bench *bench)
{
    if (bench->controller.i != 0) {
        return 'O';
    }
    return bench->controller.last != 0 ? 'K' : '\0';
}

static char draw_repeat(Generator *generator)
{
    char console = repeat_of_console(&generator->bench);
    char controller = repeat_of_controller(&generator->bench);

    if (console == '\0' && controller == '\0') {
        return 'P';
    }
    if (controller == '\0' || (console != '\0' && chance(generator, 50))) {
        return console;
    }
    return controller;
}

/* What brings the link on: return, take, read the answer, put or send. */
static char draw_forward(Generator *generator)
{
    const Bench *bench = &generator->bench;
    bool console_up = !bench->console.down;
    bool controller_up = !bench->controller.down;

    if (!(console_up && controller_up) && chance(generator, 40)) {
        return console_up ? 'Y' : 'V';
    }
    if (controller_up && bench->to_controller.count > 0 &&
        chance(generator, 50)) {
        return 'R';
    }
    if (console_up && bench->to_console.count > 0 && chance(generator, 60)) {
        return 'S';
    }
    if (console_up && !bench->console.held && chance(generator, 90)) {
        return chance(generator, 30) ? 'A' : 'P';
    }
    return draw_repeat(generator);
}

static char draw_letter(Generator *generator, Intent intent)
{
    static const char letters[] = "PPPQDSCVOKRXYLMA";

    switch (intent) {
    case REPEAT:
        return draw_repeat(generator);
    case TAKE:
        return chance(generator, 50) ? 'R' : 'S';
    case LOSE:
        return chance(generator, 50) ? 'L' : 'M';
    case CRASH:
        return "CCXXVY"[draw(generator, 6)];
    case READ:
        return 'A';
    case ANY:
        return letters[draw(generator, sizeof letters - 1)];
    case SPOIL:
        return draw_letter(generator, chance(generator, 50) ? ANY : FORWARD);
    default:
        return draw_forward(generator);
    }
}

static Intent draw_intent(Generator *generator)
{
    uint64_t lot = draw(generator, 100);
    size_t intent = 0;

    if (generator->style == MIXED && chance(generator, 2)) {
        generator->current = (Style)draw(generator, MIXED);
    }
    while (lot >= weights[generator->current][intent]) {
        lot -= weights[generator->current][intent];
        intent += 1;
    }
    return (Intent)intent;
}

static void run_piece(Generator *generator, const uint8_t *piece,
                      size_t records)
{
    for (size_t n = 0; n < records; n++) {
        run_record(&generator->bench, piece + n * RECORD_BYTES, RECORD_BYTES);
    }
}

size_t next_piece(Generator *generator, uint8_t piece[PIECE_BYTES],
                  size_t room)
{
    Intent intent = draw_intent(generator);
    ListRecord record;
    uint8_t good[RECORD_BYTES];
    size_t records = 1;

    set_action(generator, &record, draw_letter(generator, intent));
    if (intent == ANY && record.place + 1 < PLACES && chance(generator, 50)) {
        record.place += find_action(record.letter)->place ? 1 : 0;
    }
    write_list_record(good, &record);
    memcpy(piece, good, RECORD_BYTES);
    if (intent == SPOIL && chance(generator, 10)) {
        records = write_shifted(generator, good, piece, room);
    } else if (intent == SPOIL) {
        spoil_record(generator, piece);
    }
    run_piece(generator, piece, records);
    return records;
}
