/* An end run alone, with everything that is handed to it. */
#include "box.h"

#include <string.h>

static void start_box(Box *box, Actor end)
{
    memset(box, 0, sizeof *box);
    box->end = end;
    box->console = fresh_console(0);
    box->controller = fresh_controller(0);
    set_message(box->message, "ABCDEFGHIJKLMNOP");
    box->packet_length = PACKET_BYTES;
    memset(box->reply, 0xA5, sizeof box->reply);
    box->reply_length = PACKET_BYTES;
}

void start_console_box(Box *box, JNumber last_used)
{
    start_box(box, CONSOLE);
    box->console.numbers = fresh_numbers(last_used);
}

void start_controller_box(Box *box, INumber last_used)
{
    start_box(box, CONTROLLER);
    box->controller.numbers = fresh_numbers(last_used);
}

void set_console(Box *box, JNumber j, INumber last)
{
    box->console.held = j != 0 || last != 0;
    box->console.j = j;
    box->console.last = last;
    set_message(box->console.message, box->console.held ? "HELD" : "");
}

void set_packet_in(Box *box, uint8_t kind, uint32_t first, uint32_t second)
{
    Packet packet = make_packet(kind, first, second);

    if (kind == DATA) {
        set_message(packet.message, "ORDER");
    }
    write_packet(&packet, box->packet, PACKET_BYTES);
}

Outcome run_box(Box *box, char letter)
{
    if (box->end == CONSOLE) {
        return console_alone(&box->console, (uint8_t)letter, box->message,
                             box->packet, box->packet_length, box->reply,
                             box->reply_length);
    }
    return controller_alone(&box->controller, (uint8_t)letter, box->packet,
                            box->packet_length, box->reply, box->reply_length);
}

void check_all_letters(Box *box, bool good)
{
    const char *letters = box->end == CONSOLE ? "PQDSCVA" : "OKRXY";

    for (size_t n = 0; letters[n] != '\0'; n++) {
        Box before;
        Outcome outcome;

        memcpy(&before, box, sizeof before);
        outcome = run_box(box, letters[n]);
        CHECK((outcome.refusal == ILL_FORMED) != good);
        CHECK(good || (is_refusal(&outcome, ILL_FORMED) &&
                       same_box(box, &before)));
        memcpy(box, &before, sizeof before);
    }
}

bool same_box(const Box *one, const Box *other)
{
    return memcmp(one, other, sizeof *one) == 0;
}

bool reply_is(const Box *box, uint8_t kind, uint32_t first, uint32_t second)
{
    PacketRead read = read_packet(box->reply, PACKET_BYTES);

    return read.refusal == ACCEPTED && read.packet.kind == kind &&
           read.packet.first == first && read.packet.second == second &&
           box->reply[PACKET_BYTES] == 0xA5;
}

bool reply_untouched(const Box *box)
{
    return all_bytes_are(box->reply, sizeof box->reply, 0xA5);
}
