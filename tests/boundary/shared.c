#include "shared.h"

#include <stdio.h>
#include <stdlib.h>
#include <string.h>

#include "../../examples/chance.h"

struct tally ends, benches;
const char *entry;
static struct chance chance;
static unsigned long at;

void seed(uint64_t state) { chance.state = state; }

uint32_t roll(uint32_t n) { return (uint32_t)below(&chance, n); }

void next_case(void) { at++; }

void check(int same) {
    if (same) return;
    printf("boundary: case %lu, %s: not as the second program says\n", at, entry);
    exit(1);
}

void scribble(uint8_t *bytes, size_t n) {
    for (size_t i = 0; i < n; i++) bytes[i] = (uint8_t)roll(256);
}

/* One byte by chance, or one bit. */
void damage(uint8_t *bytes, size_t n) {
    if (n == 0) return;
    size_t i = roll((uint32_t)n);
    if (roll(2) == 0) bytes[i] = (uint8_t)roll(256);
    else bytes[i] ^= (uint8_t)(1u << roll(8));
}

/* Few numbers, so that they meet; the ends of their range; any. */
uint32_t some_number(void) {
    switch (roll(12)) {
    case 0: return 0;
    case 1: return UINT32_MAX - roll(2);
    case 2: return (uint32_t)below(&chance, (uint64_t)UINT32_MAX + 1);
    default: return 1 + roll(4);
    }
}

uint16_t some_block(void) {
    static const uint16_t corners[] = {1, 2, 63, 64, 65, 1023, 1024};
    return roll(2) ? (uint16_t)(1 + roll(1024)) : corners[roll(sizeof corners / sizeof *corners)];
}

uint16_t no_block(void) {
    static const uint16_t corners[] = {0, 1025, 65535};
    return roll(2) ? (uint16_t)(1025 + roll(UINT16_MAX - 1024)) : corners[roll(sizeof corners / sizeof *corners)];
}

/* Equal, which makes the next one grow; one apart; any way apart; the largest, and so near to it that the block may fit, just fit or not. */
Numbers good_numbers(void) {
    Numbers n = fresh_numbers(roll(8) == 0 ? UINT32_MAX : some_number());
    n.block = some_block();
    switch (roll(6)) {
    case 0: n.reserved += n.reserved != UINT32_MAX; break;
    case 1: n.reserved += roll(2) ? (uint32_t)below(&chance, (uint64_t)UINT32_MAX - n.last_used + 1) : UINT32_MAX - n.last_used; break;
    case 2: n.last_used = n.reserved = UINT32_MAX - n.block + roll(3) - 1; break;
    case 3:
        n.reserved = UINT32_MAX - roll(1025);
        n.last_used = n.reserved - (roll(2) ? roll(2) : roll(1025));
        break;
    default: break;
    }
    return n;
}

Numbers some_numbers(void) {
    Numbers n = good_numbers();
    if (roll(24) == 0) n.block = no_block();
    if (roll(24) == 0 && n.last_used) n.reserved = roll(2) ? n.last_used - 1 : (uint32_t)below(&chance, n.last_used);
    return n;
}

Numbers corner(size_t k) {
    static const uint32_t pairs[][2] = {{4, 4}, {4, 5}, {4, 3}, {0, 0}, {4, UINT32_MAX}, {UINT32_MAX, UINT32_MAX}, {UINT32_MAX, UINT32_MAX - 1},
        {UINT32_MAX - 1, UINT32_MAX}, {UINT32_MAX - 1, UINT32_MAX - 1}, {UINT32_MAX - 64, UINT32_MAX - 64}, {UINT32_MAX - 65, UINT32_MAX - 65},
        {UINT32_MAX - 1023, UINT32_MAX - 1023}, {UINT32_MAX - 1024, UINT32_MAX - 1024}, {UINT32_MAX - 1025, UINT32_MAX - 1025},
        {UINT32_MAX - 1024, UINT32_MAX}};
    static const uint16_t blocks[] = {0, 1, 63, 64, 1023, 1024, 1025, 65535};
    enum { BLOCKS = sizeof blocks / sizeof *blocks };
    _Static_assert(CORNERS == BLOCKS * sizeof pairs / sizeof *pairs, "each pair with each block");
    return (Numbers){pairs[k / BLOCKS][0], pairs[k / BLOCKS][1], blocks[k % BLOCKS]};
}

void good_message(uint8_t m[CELLS]) {
    for (size_t i = 0; i < CELLS; i++) m[i] = (uint8_t)(0x20 + roll(0x5F));
}

void some_message(uint8_t m[CELLS]) {
    static const uint8_t edge[] = {0x00, 0x1F, 0x20, 0x7E, 0x7F, 0xFF};
    good_message(m);
    if (roll(5) == 0) m[roll(CELLS)] = edge[roll(sizeof edge)];
    if (roll(12) == 0) memset(m, edge[roll(sizeof edge)], CELLS);
}

size_t some_length(size_t right) {
    if (roll(20) == 0) return roll(ROOM);
    return roll(20) == 0 ? right - 1 + 2 * roll(2) : right;
}

uint8_t some_letter(const char *own) {
    if (roll(16) == 0) return (uint8_t)roll(256);
    if (roll(10) == 0) return (uint8_t)LETTERS[roll(ACTIONS)];
    return (uint8_t)own[roll((uint32_t)strlen(own))];
}

/* A packet whose numbers are often those in the state's bytes. */
void some_packet(uint8_t *bytes, const uint8_t *state) {
    static const size_t numbers_at[] = {AT_USED, AT_RESERVED, AT_J, CONSOLE_LAST, CONTROLLER_I, CONTROLLER_LAST};
    Packet p = make_packet((uint8_t)(1 + roll(6)), some_number(), 0);
    scribble(bytes, ROOM);
    if (roll(3) != 0) p.first = get_number(state + numbers_at[roll(6)]);
    if (p.first == 0 && roll(8) != 0) p.first = 1 + roll(4);
    if (p.kind == OFFER) p.second = roll(4) == 0 ? some_number() : 1 + roll(4);
    if (p.kind == DATA) some_message(p.message);
    if (roll(20) != 0) write_packet(&p, bytes, PACKET_BYTES);
    if (roll(4) == 0) damage(bytes, PACKET_BYTES);
    if (roll(16) == 0) bytes[roll(3)] ^= 1;
    if (roll(16) == 0) bytes[3 + roll(2)] ^= 2;
    if (roll(16) == 0) bytes[6 + roll(2)] ^= 4;
}

/* Each fault by its own chance, so that they meet. */
int some_record(uint8_t *bytes) {
    NumberRecord r = {(uint8_t)(1 + roll(2)), roll(2), some_number(), some_block()};
    size_t n = r.old ? OLD_NUMBER_RECORD_BYTES : NUMBER_RECORD_BYTES;
    scribble(bytes, ROOM);
    write_number_record(&r, bytes, n);
    if (roll(8) == 0) damage(bytes, n);
    if (roll(5) == 0) bytes[roll(3)] ^= 1;
    if (roll(5) == 0) bytes[3 + roll(2)] ^= roll(2) ? 3 : 4;
    if (roll(5) == 0) bytes[5 + roll(3)] ^= 4;
    if (roll(5) == 0 && !r.old) {
        uint16_t block = no_block();
        bytes[12] = (uint8_t)(block >> 8);
        bytes[13] = (uint8_t)block;
    }
    if (roll(10) == 0 && !r.old) bytes[14 + roll(2)] ^= 1;
    return r.old;
}

/* Of that version; now and then of the other, or of neither. */
size_t some_record_length(int old) {
    if (roll(12) == 0) old = !old;
    return some_length(old ? OLD_NUMBER_RECORD_BYTES : NUMBER_RECORD_BYTES);
}

/* ---- states, laid out a second time ---- */

void numbers_to(const Numbers *n, uint8_t *s) {
    set_number(s + AT_USED, n->last_used);
    set_number(s + AT_RESERVED, n->reserved);
    s[AT_BLOCK] = (uint8_t)(n->block >> 8);
    s[AT_BLOCK + 1] = (uint8_t)n->block;
}

static Numbers numbers_from(const uint8_t *s) {
    return (Numbers){get_number(s + AT_USED), get_number(s + AT_RESERVED), (uint16_t)(s[AT_BLOCK] << 8 | s[AT_BLOCK + 1])};
}

void console_to(const Console *c, uint8_t *s) {
    numbers_to(&c->numbers, s);
    set_number(s + AT_J, c->j);
    set_number(s + CONSOLE_LAST, c->last);
    s[CONSOLE_HELD] = c->held;
    s[CONSOLE_UP] = !c->down;
    s[CONSOLE_ACK] = c->ack_ok;
    memcpy(s + CONSOLE_MESSAGE, c->message, CELLS);
}

/* Bytes that are no state are read as a console that is not well formed. */
Console console_from(const uint8_t *s, size_t n) {
    Console c = fresh_console(0);
    c.j = 1;
    if (n != NOOSELESS_CONSOLE_STATE_LEN || s[CONSOLE_HELD] > 1 || s[CONSOLE_UP] > 1 || s[CONSOLE_ACK] > 1) return c;
    c.numbers = numbers_from(s);
    c.j = get_number(s + AT_J);
    c.last = get_number(s + CONSOLE_LAST);
    c.held = s[CONSOLE_HELD];
    c.down = !s[CONSOLE_UP];
    c.ack_ok = s[CONSOLE_ACK];
    memcpy(c.message, s + CONSOLE_MESSAGE, CELLS);
    return c;
}

void controller_to(const Controller *c, uint8_t *s) {
    numbers_to(&c->numbers, s);
    set_number(s + AT_J, c->j);
    set_number(s + CONTROLLER_I, c->i);
    set_number(s + CONTROLLER_LAST, c->last);
    s[CONTROLLER_UP] = !c->down;
}

Controller controller_from(const uint8_t *s, size_t n) {
    Controller c = fresh_controller(0);
    c.j = 1;
    if (n != NOOSELESS_CONTROLLER_STATE_LEN || s[CONTROLLER_UP] > 1) return c;
    c.numbers = numbers_from(s);
    c.j = get_number(s + AT_J);
    c.i = get_number(s + CONTROLLER_I);
    c.last = get_number(s + CONTROLLER_LAST);
    c.down = !s[CONTROLLER_UP];
    return c;
}

/* ---- which refusals apply ---- */

unsigned rule(int n, int applies) { return applies ? 1u << n : 0; }

int first_of(unsigned rules) {
    static const int order[] = {1, 2, 12, 13, 14, 15, 11, 10, 4, 5, 6, 8, 3, 7, 9};
    for (size_t i = 0; i < sizeof order / sizeof *order; i++)
        if (rules >> order[i] & 1u) return order[i];
    return 0;
}

/* ---- tallies ---- */

uint8_t told_by(struct tally *t, const Outcome *o, int keep) {
    static const uint8_t number[] = {0, 64, 65, 66};
    t->told[o->report]++;
    if (o->report == REFUSED) return (uint8_t)o->refusal;
    t->kept += keep != 0;
    t->sent += o->written;
    return (uint8_t)(number[o->report] | (keep ? 0x20 : 0) | (o->written ? 0x80 : 0));
}

void moved(struct tally *t, uint8_t letter, const Numbers *before, const Numbers *after) {
    uint32_t more = after->reserved - before->reserved;
    if (after->last_used == before->last_used) return;
    if (letter == 'V' || letter == 'Y') t->back++;
    else if (more == 0) t->within++;
    else t->grown++;
    t->capped += more != 0 && more < before->block;
}

/* S that lets go of the message has its answer. What was so before shows nothing, but for an OK that is left. */
void answered(struct tally *t, uint8_t letter, const Console *before, const Console *after) {
    int has_answer = letter == 'S' && before->held && !after->held;
    if (before->ack_ok && after->ack_ok && !has_answer) t->ok_left[letter]++;
    if (before->ack_ok == after->ack_ok) return;
    if (has_answer) t->acks[after->ack_ok ? OK_STORED : LOST_STORED]++;
    else if (letter == 'V') t->acks[LOST_BY_BACK]++;
    else if (letter == 'A') t->acks[LOST_BY_READING]++;
}

void count(struct tally *t, int refusal, unsigned rules) {
    t->met[refusal]++;
    for (unsigned a = 1; a < 16; a++)
        for (unsigned b = a + 1; b < 16; b++)
            if ((rules >> a & 1u) && (rules >> b & 1u)) t->pairs[a][b]++;
}

/* Whether each of these refusals and pairs, and none, was met LEAST times, and no other pair. */
int enough_rules(struct tally *t, const char *name, unsigned refusals, const Pair *known, size_t n) {
    int all = t->met[0] >= LEAST;
    printf("%s: %lu accepted\n  refusals met ", name, t->met[0]);
    for (unsigned r = 1; r < 16; r++) {
        if (!(refusals >> r & 1u)) continue;
        if (t->met[r] < LEAST) all = 0;
        printf(" %u: %lu", r, t->met[r]);
    }
    printf("\n  pairs met ");
    for (size_t i = 0; i < n; i++) {
        unsigned long *met = &t->pairs[known[i][0]][known[i][1]];
        if (*met < LEAST) all = 0;
        printf(" %d/%d: %lu", known[i][0], known[i][1], *met);
        *met = 0;
    }
    printf("\n");
    for (unsigned a = 1; a < 16; a++)
        for (unsigned b = 1; b < 16; b++)
            if (t->pairs[a][b]) {
                printf("a pair not thought of: %u/%u\n", a, b);
                all = 0;
            }
    return all;
}

/* Whether each report came, and numbers moved in each way, LEAST times. */
int enough_steps(struct tally *t, const char *name) {
    int all = t->within >= LEAST && t->grown >= LEAST && t->capped >= LEAST && t->back >= LEAST;
    printf("%s: %lu delivered, %lu OK, %lu lost\n", name, t->told[DELIVERED], t->told[ANSWERED_OK], t->told[ANSWERED_LOST]);
    printf("  numbers taken within the block: %lu, by growing: %lu, by growing less than the block: %lu, used up by coming back: %lu\n", t->within,
           t->grown, t->capped, t->back);
    for (int i = NOTHING; i <= ANSWERED_LOST; i++)
        if (t->told[i] < LEAST) all = 0;
    return all;
}

/* Whether the ack moved in each way, and was left by each of these letters, LEAST times. */
int enough_answers(struct tally *t, const char *name, const char *leaving) {
    static const char *const ways[ACK_WAYS] = {"OK stored over lost", "lost stored over OK", "OK lost by coming back", "by reading",
        "an ack that is no flag"};
    int all = 1;
    printf("%s: ", name);
    for (int way = 0; way < ACK_WAYS; way++) {
        if (t->acks[way] < LEAST) all = 0;
        printf("%s%s: %lu", way ? ", " : "", ways[way], t->acks[way]);
    }
    printf("\n  OK left by");
    for (; *leaving; leaving++) {
        unsigned long left = t->ok_left[(uint8_t)*leaving];
        if (left < LEAST) all = 0;
        printf(" %c: %lu", *leaving, left);
    }
    printf("\n");
    return all;
}
