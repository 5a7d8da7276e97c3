/* The controller end, the receiver: idle, accept (i set), ack (last set). */
#include "second.h"

#include <string.h>

Controller fresh_controller(INumber last_used)
{
    Controller controller = {0};

    controller.numbers = fresh_numbers(last_used);
    return controller;
}

Controller controller_after_power_loss(const NumberRecord *record)
{
    Controller controller = fresh_controller(0);

    controller.numbers = recorded_numbers(record);
    controller.down = true;
    return controller;
}

bool controller_well_formed(const Controller *controller)
{
    if (!numbers_well_formed(&controller->numbers)) {
        return false;
    }
    if ((controller->j != 0) != (controller->i != 0)) {
        return false;
    }
    if (controller->i != 0 && controller->last != 0) {
        return false;
    }
    return controller->i <= controller->numbers.last_used &&
           controller->last <= controller->numbers.last_used;
}

NumberRecord controller_record(const Controller *controller)
{
    return record_numbers(CONTROLLER_RECORD, &controller->numbers);
}

int controller_refusal(const Controller *controller, uint8_t letter)
{
    if (letter == 'X') {
        return ACCEPTED;
    }
    if (letter == 'Y') {
        return controller->down ? ACCEPTED : END_IS_UP;
    }
    if (controller->down) {
        return END_IS_DOWN;
    }
    if (letter == 'O' && controller->i == 0) {
        return WRONG_MODE;
    }
    if (letter == 'K' && controller->last == 0) {
        return WRONG_MODE;
    }
    return ACCEPTED;
}

/* A needI bears a J, which is compared with nothing here. */
int controller_packet_refusal(const Controller *controller, const Packet *in)
{
    if (in->kind == NEED_I) {
        return ACCEPTED;
    }
    return in->first > controller->numbers.last_used ? I_ABOVE_LAST_USED
                                                     : ACCEPTED;
}

static Effect takes_need_i(Controller *controller, JNumber j)
{
    bool idle = controller->i == 0 && controller->last == 0;

    if (idle && !numbers_spent(&controller->numbers)) {
        controller->j = j;
        controller->i = take_number(&controller->numbers);
    }
    return no_effect();
}

static Effect delivers(Controller *controller, const Packet *data)
{
    Effect effect = sending(make_packet(OK, data->first, 0));

    controller->j = 0;
    controller->i = 0;
    controller->last = data->first;
    effect.outcome.report = DELIVERED;
    memcpy(effect.outcome.message, data->message, CELLS);
    return effect;
}

static Effect takes_data(Controller *controller, const Packet *data)
{
    if (data->first == controller->i) {
        return delivers(controller, data);
    }
    if (data->first == controller->last) {
        return no_effect();
    }
    return sending(make_packet(LOST, data->first, 0));
}

static Effect takes_done(Controller *controller, INumber i)
{
    if (i == controller->i) {
        controller->j = 0;
        controller->i = 0;
    } else if (i == controller->last) {
        controller->last = 0;
    }
    return no_effect();
}

static Effect takes(Controller *controller, const Packet *in)
{
    if (in->kind == NEED_I) {
        return takes_need_i(controller, in->first);
    }
    if (in->kind == DATA) {
        return takes_data(controller, in);
    }
    return takes_done(controller, in->first);
}

static Effect goes_down(Controller *controller)
{
    controller->down = true;
    return no_effect();
}

static Effect comes_back(Controller *controller)
{
    controller->j = 0;
    controller->i = 0;
    controller->last = 0;
    controller->down = false;
    numbers_come_back(&controller->numbers);
    return no_effect();
}

Effect controller_acts(Controller *controller, uint8_t letter,
                       const Packet *in)
{
    switch (letter) {
    case 'O':
        return sending(make_packet(OFFER, controller->j, controller->i));
    case 'K':
        return sending(make_packet(OK, controller->last, 0));
    case 'R':
        return takes(controller, in);
    case 'X':
        return goes_down(controller);
    default:
        return comes_back(controller);
    }
}
