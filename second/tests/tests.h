/* What the tests share: counting, and a bench that is played by a script. */
#ifndef TESTS_H
#define TESTS_H

#include "../second.h"

#define CHECK(good) check((good), __FILE__, __LINE__, #good)

void check(bool good, const char *file, int line, const char *what);

typedef struct {
    Bench bench;
    uint8_t to_controller[TABLE_BYTES];
    uint8_t to_console[TABLE_BYTES];
    Outcome last; /* of the last action played */
} Fixture;

void start(Fixture *fixture, JNumber last_used_j, INumber last_used_i);

/* Plays words like "Pa Q1 R0:1=DL L0=03". After P the message; after Q D O K
 * the copies; after R S L M the place, and after a colon the copies; after =
 * what the list would print, otherwise "--". True if all printed as said. */
bool play(Fixture *fixture, const char *script);

/* As play, on a fresh bench that started with 0 and 0. */
bool play_fresh(Fixture *fixture, const char *script);

/* The copy's channels lie in its own tables. */
void copy_fixture(Fixture *to, const Fixture *from);
bool same_bench(const Fixture *one, const Fixture *other);
void set_message(uint8_t message[CELLS], const char *text);
bool message_is(const uint8_t message[CELLS], const char *text);
bool numbers_are(const Numbers *numbers, uint32_t last_used, uint32_t reserved,
                 uint16_t block);
bool same_numbers(const Numbers *one, const Numbers *other);
bool console_is(const Console *console, JNumber last_used, bool held, JNumber j,
                INumber last, bool down);
bool controller_is(const Controller *controller, INumber last_used, JNumber j,
                   INumber i, INumber last, bool down);
bool packet_at_is(const Channel *channel, size_t place, uint8_t kind,
                  uint32_t first, uint32_t second);
void set_packet(Channel *channel, size_t place, const Packet *packet);
void fill_channel(Channel *channel, uint8_t kind); /* up to 64, number 1 */
bool is_refusal(const Outcome *outcome, int refusal);

/* The bytes at the place that the record names, if there is a packet. */
bool get_packet(const Bench *bench, const ListRecord *record,
                uint8_t bytes[PACKET_BYTES]);

/* The same action on a lone end gives the same as the step that was not 3, 9
 * or 10, and the packet that the bench has added at the end of its channel. */
void check_alone(const Bench *before, const Bench *after,
                 const ListRecord *record, const uint8_t *packet,
                 const Outcome *outcome);

/* The groups. */
void test_packets(void);
void test_number_records(void);
void test_carried_records(void);
void test_numbers(void);
void test_ill_formed_numbers(void);
void test_power_loss(void);
void test_starts(void);
void test_ill_formed_ends(void);
void test_console_rules(void);
void test_answers(void);
void test_controller_rules(void);
void test_alone_refusals(void);
void test_alone_buffers(void);
void test_starred_checks(void);
void test_unstarred_checks(void);
void test_easy_mistakes(void);
void test_bench_refusals(void);
void test_ill_formed_benches(void);
void test_arbitrary_benches(void);
void test_unused_fields(void);
void test_channels(void);
void test_room(void);
void test_fresh_bench(void);
void test_show(void);
void test_listing(void);
void test_list_records(void);
void test_list_lengths(void);
void test_generator(void);
void test_generated_lists(void);
void test_reach(void);

#endif
