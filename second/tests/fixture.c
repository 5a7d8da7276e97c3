/* The bench played by a script, and small comparisons. */
#include "tests.h"

#include <string.h>

void start(Fixture *fixture, JNumber last_used_j, INumber last_used_i)
{
    memset(fixture, 0, sizeof *fixture);
    fresh_bench(&fixture->bench, last_used_j, last_used_i,
                fixture->to_controller, TABLE_BYTES, fixture->to_console,
                TABLE_BYTES);
}

void set_message(uint8_t message[CELLS], const char *text)
{
    memset(message, ' ', CELLS);
    memcpy(message, text, strlen(text));
}

bool message_is(const uint8_t message[CELLS], const char *text)
{
    uint8_t wanted[CELLS];

    set_message(wanted, text);
    return memcmp(message, wanted, CELLS) == 0;
}

/* A word of a script. */
typedef struct {
    uint8_t letter;
    size_t place;
    size_t copies;
    uint8_t message[CELLS];
    char printed[2];
} Word;

static const char *read_figure(const char *script, size_t *figure)
{
    *figure = 0;
    while (*script >= '0' && *script <= '9') {
        *figure = *figure * 10 + (size_t)(*script - '0');
        script += 1;
    }
    return script;
}

static const char *read_arguments(const char *script, Word *word)
{
    if (word->letter == 'P') {
        size_t length = strcspn(script, "= ");

        memcpy(word->message, script, length);
        return script + length;
    }
    if (strchr("RSLM", word->letter) == NULL) {
        return read_figure(script, &word->copies);
    }
    script = read_figure(script, &word->place);
    if (*script == ':') {
        script = read_figure(script + 1, &word->copies);
    }
    return script;
}

static const char *read_word(const char *script, Word *word)
{
    memset(word, 0, sizeof *word);
    clear_message(word->message);
    memcpy(word->printed, "--", 2);
    word->letter = (uint8_t)*script;
    script = read_arguments(script + 1, word);
    if (*script == '=') {
        memcpy(word->printed, script + 1, 2);
        script += 3;
    }
    return *script == ' ' ? script + 1 : script;
}

bool play(Fixture *fixture, const char *script)
{
    bool as_said = true;

    while (*script != '\0') {
        Word word;
        uint8_t line[LINE_BYTES];

        script = read_word(script, &word);
        fixture->last = bench_step(&fixture->bench, word.letter, word.place,
                                   word.copies, word.message);
        write_line(line, 1, word.letter, &fixture->last);
        as_said = as_said && memcmp(line + 7, word.printed, 2) == 0 &&
                  bench_well_formed(&fixture->bench);
    }
    return as_said;
}

bool play_fresh(Fixture *fixture, const char *script)
{
    start(fixture, 0, 0);
    return play(fixture, script);
}

void copy_fixture(Fixture *to, const Fixture *from)
{
    memcpy(to, from, sizeof *to);
    if (to->bench.to_controller.table != NULL) {
        to->bench.to_controller.table = to->to_controller;
    }
    if (to->bench.to_console.table != NULL) {
        to->bench.to_console.table = to->to_console;
    }
}

bool same_bench(const Fixture *one, const Fixture *other)
{
    return memcmp(&one->bench, &other->bench, sizeof one->bench) == 0 &&
           memcmp(one->to_controller, other->to_controller, TABLE_BYTES) == 0 &&
           memcmp(one->to_console, other->to_console, TABLE_BYTES) == 0;
}

bool numbers_are(const Numbers *numbers, uint32_t last_used, uint32_t reserved,
                 uint16_t block)
{
    return numbers->last_used == last_used && numbers->reserved == reserved &&
           numbers->block == block;
}

bool same_numbers(const Numbers *one, const Numbers *other)
{
    return numbers_are(one, other->last_used, other->reserved, other->block);
}

bool console_is(const Console *console, JNumber last_used, bool held, JNumber j,
                INumber last, bool down)
{
    return console->numbers.last_used == last_used && console->held == held &&
           console->j == j && console->last == last && console->down == down;
}

bool controller_is(const Controller *controller, INumber last_used, JNumber j,
                   INumber i, INumber last, bool down)
{
    return controller->numbers.last_used == last_used && controller->j == j &&
           controller->i == i && controller->last == last &&
           controller->down == down;
}

bool packet_at_is(const Channel *channel, size_t place, uint8_t kind,
                  uint32_t first, uint32_t second)
{
    PacketRead read = read_packet(place_in(channel, place), PACKET_BYTES);

    return place < channel->count && read.refusal == ACCEPTED &&
           read.packet.kind == kind && read.packet.first == first &&
           read.packet.second == second;
}

void set_packet(Channel *channel, size_t place, const Packet *packet)
{
    write_packet(packet, place_in(channel, place), PACKET_BYTES);
    if (channel->count <= place) {
        channel->count = place + 1;
    }
}

void fill_channel(Channel *channel, uint8_t kind)
{
    Packet packet = make_packet(kind, 1, kind == OFFER ? 1 : 0);

    while (channel->count < PLACES) {
        set_packet(channel, channel->count, &packet);
    }
}

bool is_refusal(const Outcome *outcome, int refusal)
{
    return outcome->report == REFUSED && outcome->refusal == refusal &&
           message_is(outcome->message, "") && !outcome->written;
}
