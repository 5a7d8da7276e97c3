/* Channels, room, the fresh bench and showing a packet. */
#include "tests.h"

#include <string.h>

/* The first J of the blocks that these digits name: 1, 65, 129. */
static bool firsts_are(const Channel *channel, const char *digits)
{
    for (size_t n = 0; n < channel->count; n++) {
        uint32_t first = get_number(place_in(channel, n) + 8);
        uint32_t before = (uint32_t)(digits[n] - '1') * FRESH_BLOCK;

        if (digits[n] == '\0' || first != before + 1) {
            return false;
        }
    }
    return digits[channel->count] == '\0';
}

/* needI packets of three puts, copies of each side by side; a console that
 * came back takes its number from the next block. */
static void check_order(void)
{
    Fixture f;
    const Channel *channel = &f.bench.to_controller;

    CHECK(play_fresh(&f, "P Q2 C V P Q1 C V P Q3"));
    CHECK(firsts_are(channel, "112333"));
    CHECK(play(&f, "L2"));
    CHECK(firsts_are(channel, "11333"));
    CHECK(play(&f, "L4 L0"));
    CHECK(firsts_are(channel, "133"));
    CHECK(play(&f, "R1 Q1 L0"));
    CHECK(firsts_are(channel, "33"));
    CHECK(controller_is(&f.bench.controller, 1, 129, 1, 0, false));
    CHECK(play(&f, "L1 L0 L0=03"));
    CHECK(all_bytes_are(f.to_controller, TABLE_BYTES, 0));
}

/* Replies go to the end of the other channel, side by side. */
static void check_replies(void)
{
    Fixture f;

    CHECK(play_fresh(&f, "Pa Q1 R0 O2 S0 D2 R0:2=DL"));
    CHECK(f.bench.to_console.count == 3);
    CHECK(packet_at_is(&f.bench.to_console, 0, OFFER, 1, 1));
    CHECK(packet_at_is(&f.bench.to_console, 1, OK, 1, 0));
    CHECK(packet_at_is(&f.bench.to_console, 2, OK, 1, 0));
    CHECK(play(&f, "S1:3 A=OK"));
    CHECK(f.bench.to_controller.count == 4);
    CHECK(packet_at_is(&f.bench.to_controller, 0, DATA, 1, 0));
    CHECK(packet_at_is(&f.bench.to_controller, 1, DONE, 1, 0));
    CHECK(packet_at_is(&f.bench.to_controller, 3, DONE, 1, 0));
    CHECK(play(&f, "M0 S0:1 M0=03 S0=03"));
    CHECK(f.bench.to_controller.count == 5);
}

/* A full channel can be emptied from any place, and stays in order. */
static void check_take_out_anywhere(void)
{
    for (size_t place = 0; place < PLACES; place++) {
        Fixture f;
        Channel *channel = &f.bench.to_controller;
        bool in_order = true;

        start(&f, 0, 0);
        for (uint32_t n = 0; n < PLACES; n++) {
            Packet packet = make_packet(DONE, n + 1, 0);

            set_packet(channel, n, &packet);
        }
        bench_step(&f.bench, 'L', place, 0, NULL);
        for (uint32_t n = 0; n + 1 < PLACES; n++) {
            uint32_t first = get_number(place_in(channel, n) + 8);

            in_order = in_order && first == (n < place ? n + 1 : n + 2);
        }
        CHECK(in_order && channel->count == 63);
        CHECK(all_bytes_are(place_in(channel, 63), PACKET_BYTES, 0));
        CHECK(bench_well_formed(&f.bench));
    }
}

void test_channels(void)
{
    check_order();
    check_replies();
    check_take_out_anywhere();
}

static void leave_free(Channel *channel, uint8_t kind, size_t free_places)
{
    fill_channel(channel, kind);
    while (PLACES - channel->count < free_places) {
        take_out(channel, channel->count - 1);
    }
}

/* Copies 0 to 3 against 0 to 3 free places, for one script and target. */
static void check_room_of(const char *before, const char *word, bool to_console)
{
    for (size_t free_places = 0; free_places <= 3; free_places++) {
        for (size_t copies = 0; copies <= 3; copies++) {
            Fixture f;
            char last[32] = {0};
            Channel *target =
                to_console ? &f.bench.to_console : &f.bench.to_controller;

            play_fresh(&f, before);
            leave_free(target, to_console ? LOST : DONE, free_places);
            size_t count = target->count;
            memcpy(last, word, strlen(word));
            last[strlen(word)] = (char)('0' + copies);
            play(&f, last);
            CHECK((f.last.refusal == NO_ROOM) == (copies > free_places));
            CHECK(target->count ==
                  (copies > free_places ? count : count + copies));
        }
    }
}

/* The state changes although not one copy of the reply fits or is asked. */
static void check_reply_in_no_copies(void)
{
    Fixture f;

    CHECK(play_fresh(&f, "Pa Q1 R0 O1 S0 D1"));
    fill_channel(&f.bench.to_console, LOST);
    CHECK(play(&f, "R0:1=09"));
    CHECK(controller_is(&f.bench.controller, 1, 1, 1, 0, false));
    CHECK(f.bench.to_controller.count == 1);
    CHECK(play(&f, "R0:0=DL"));
    CHECK(controller_is(&f.bench.controller, 1, 0, 0, 1, false));
    CHECK(f.bench.to_controller.count == 0 && f.bench.to_console.count == 64);
}

/* Where no reply is made, copies is without effect on the room. */
static void check_no_reply_no_room(void)
{
    Fixture f;

    CHECK(play_fresh(&f, "Pa Q2 R0 O1 S0 D2 R1:1=DL"));
    fill_channel(&f.bench.to_console, LOST);
    CHECK(play(&f, "R1:3 R0:3"));
    CHECK(f.bench.to_controller.count == 0);
    CHECK(play_fresh(&f, "Pa Q1 R0 O2 S0 D1 R0:1=DL"));
    fill_channel(&f.bench.to_controller, DONE);
    CHECK(play(&f, "S0:3 S0:1=09 S0:0 A=OK"));
    CHECK(play_fresh(&f, "Pa Q1 R0 O1"));
    fill_channel(&f.bench.to_controller, DONE);
    CHECK(play(&f, "S0:3"));
    CHECK(console_is(&f.bench.console, 1, true, 0, 1, false));
}

/* A taken packet frees no room for its own reply: it is the other channel. */
static void check_other_channel(void)
{
    Fixture f;

    CHECK(play_fresh(&f, "Pa Q1 R0 O1 S0 D1"));
    fill_channel(&f.bench.to_controller, DONE);
    CHECK(play(&f, "R0:3=DL"));
    CHECK(f.bench.to_controller.count == 63 && f.bench.to_console.count == 3);
    CHECK(play(&f, "S0:1 A=OK S0:1=09"));
    CHECK(f.bench.to_controller.count == 64 && f.bench.to_console.count == 2);
}

void test_room(void)
{
    check_room_of("P", "Q", false);
    check_room_of("P Q1 R0 O1 S0", "D", false);
    check_room_of("P Q1 R0", "O", true);
    check_room_of("P Q1 R0 O1 S0 D1 R0=DL", "K", true);
    check_room_of("P Q1 R0 O1 S0 D1", "R0:", true);
    check_room_of("P Q1 R0 O1 S0 D1 X Y", "R0:", true);
    check_room_of("P Q1 R0 O1 S0 D1 R0:1=DL", "S0:", false);
    check_room_of("P Q1 R0 O1 C V", "S0:", false);
    check_room_of("P Q1 R0 O1 S0 D1 R0:1=DL C V P", "S0:", false);
    check_reply_in_no_copies();
    check_no_reply_no_room();
    check_other_channel();
}

void test_fresh_bench(void)
{
    static const size_t lengths[] = {0, 2047, 2049, SIZE_MAX};
    Fixture f;
    Fixture before;

    memset(&f, 0xA5, sizeof f);
    memcpy(&before, &f, sizeof f);
    for (size_t n = 0; n < sizeof lengths / sizeof lengths[0]; n++) {
        CHECK(fresh_bench(&f.bench, 7, 9, f.to_controller, lengths[n],
                          f.to_console, TABLE_BYTES) == ILL_FORMED);
        CHECK(fresh_bench(&f.bench, 7, 9, f.to_controller, TABLE_BYTES,
                          f.to_console, lengths[n]) == ILL_FORMED);
    }
    CHECK(fresh_bench(&f.bench, 7, 9, NULL, 0, NULL, 0) == ILL_FORMED);
    CHECK(memcmp(&f, &before, sizeof f) == 0);
    CHECK(fresh_bench(&f.bench, 7, LARGEST_NUMBER, f.to_controller, TABLE_BYTES,
                      f.to_console, TABLE_BYTES) == ACCEPTED);
    CHECK(bench_well_formed(&f.bench));
    CHECK(console_is(&f.bench.console, 7, false, 0, 0, false));
    CHECK(numbers_are(&f.bench.console.numbers, 7, 7, 64));
    CHECK(controller_is(&f.bench.controller, LARGEST_NUMBER, 0, 0, 0, false));
    CHECK(numbers_are(&f.bench.controller.numbers, LARGEST_NUMBER,
                      LARGEST_NUMBER, 64));
    CHECK(f.bench.to_controller.count == 0 && f.bench.to_console.count == 0);
    CHECK(f.bench.to_controller.table == f.to_controller);
    CHECK(f.bench.to_console.table == f.to_console);
}

static bool shows(const Bench *bench, Direction direction, size_t place,
                  const uint8_t *wanted)
{
    Shown shown = show(direction, place, bench->to_controller,
                       bench->to_console);

    return shown.refusal == ACCEPTED && shown.bytes == wanted &&
           shown.length == PACKET_BYTES;
}

static bool show_refuses(const Bench *bench, Direction direction, size_t place,
                         int refusal)
{
    Shown shown = show(direction, place, bench->to_controller,
                       bench->to_console);

    return shown.refusal == refusal && shown.bytes == NULL && shown.length == 0;
}

/* Each length and count counts, whichever table is asked for, before 3. */
static void check_show_ill_formed(void)
{
    for (unsigned way = 0; way < 6; way++) {
        Fixture f;
        Channel *channel;

        play_fresh(&f, "P Q3 R0 O3");
        channel = way % 2 == 0 ? &f.bench.to_controller : &f.bench.to_console;
        channel->count = way < 2 ? PLACES + 1 : channel->count;
        channel->length = way == 2 || way == 3 ? 0 : channel->length;
        channel->length = way >= 4 ? TABLE_BYTES + 1 : channel->length;
        for (size_t place = 0; place < 100; place += 33) {
            CHECK(show_refuses(&f.bench, TO_CONTROLLER, place, ILL_FORMED));
            CHECK(show_refuses(&f.bench, TO_CONSOLE, place, ILL_FORMED));
        }
    }
}

void test_show(void)
{
    Fixture f;

    CHECK(play_fresh(&f, "P Q3 R0 O3"));
    CHECK(shows(&f.bench, TO_CONTROLLER, 1, f.to_controller + 32));
    CHECK(show_refuses(&f.bench, TO_CONTROLLER, 2, NO_SUCH_PLACE));
    CHECK(shows(&f.bench, TO_CONSOLE, 2, f.to_console + 64));
    CHECK(show_refuses(&f.bench, TO_CONSOLE, 3, NO_SUCH_PLACE));
    CHECK(show_refuses(&f.bench, TO_CONSOLE, SIZE_MAX, NO_SUCH_PLACE));
    /* contents and ends are not looked at */
    f.bench.console.j = LARGEST_NUMBER;
    memset(f.to_console, 0xFF, TABLE_BYTES);
    f.bench.to_console.count = PLACES;
    CHECK(shows(&f.bench, TO_CONSOLE, 63, f.to_console + 2016));
    CHECK(show_refuses(&f.bench, TO_CONSOLE, 64, NO_SUCH_PLACE));
    CHECK(shows(&f.bench, TO_CONTROLLER, 0, f.to_controller));
    check_show_ill_formed();
}
