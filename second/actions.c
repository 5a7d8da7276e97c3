/* The fourteen letters, and what an action answers. */
#include "second.h"

static const Action actions[] = {
    /* letter, actor, place, copies, message */
    {'P', CONSOLE, false, false, true},
    {'Q', CONSOLE, false, true, false},
    {'D', CONSOLE, false, true, false},
    {'S', CONSOLE, true, true, false},
    {'C', CONSOLE, false, false, false},
    {'V', CONSOLE, false, false, false},
    {'O', CONTROLLER, false, true, false},
    {'K', CONTROLLER, false, true, false},
    {'R', CONTROLLER, true, true, false},
    {'X', CONTROLLER, false, false, false},
    {'Y', CONTROLLER, false, false, false},
    {'L', AIR, true, false, false},
    {'M', AIR, true, false, false},
    {'A', CONSOLE, false, false, false},
};

const Action *find_action(uint8_t letter)
{
    for (size_t n = 0; n < sizeof actions / sizeof actions[0]; n++) {
        if (actions[n].letter == letter) {
            return &actions[n];
        }
    }
    return NULL;
}

Outcome refused(int refusal)
{
    Outcome outcome = {0};

    outcome.report = REFUSED;
    outcome.refusal = refusal;
    clear_message(outcome.message);
    return outcome;
}

Effect no_effect(void)
{
    Effect effect = {0};

    effect.outcome.report = NOTHING;
    clear_message(effect.outcome.message);
    return effect;
}

Effect sending(Packet packet)
{
    Effect effect = no_effect();

    effect.sends = true;
    effect.packet = packet;
    return effect;
}
