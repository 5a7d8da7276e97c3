/* An end's numbers: last used, reserved, and the block that it grows by. */
#include "second.h"

Numbers fresh_numbers(uint32_t last_used)
{
    return (Numbers){last_used, last_used, FRESH_BLOCK};
}

/* A record does not say how many of its numbers were used: all may be. */
Numbers recorded_numbers(const NumberRecord *record)
{
    NumberRecord kept = renewed(*record);

    return (Numbers){kept.number, kept.number, kept.block};
}

bool numbers_well_formed(const Numbers *numbers)
{
    return block_in_range(numbers->block) &&
           numbers->last_used <= numbers->reserved;
}

/* Numbers that are reserved and not used are still to be given. */
bool numbers_spent(const Numbers *numbers)
{
    return numbers->last_used == LARGEST_NUMBER;
}

/* At most to the largest, and without a sum that goes round. */
static void reserve_block(Numbers *numbers)
{
    uint32_t left = LARGEST_NUMBER - numbers->reserved;

    numbers->reserved += numbers->block < left ? numbers->block : left;
}

uint32_t take_number(Numbers *numbers)
{
    if (numbers->last_used == numbers->reserved) {
        reserve_block(numbers);
    }
    numbers->last_used += 1;
    return numbers->last_used;
}

void numbers_come_back(Numbers *numbers)
{
    numbers->last_used = numbers->reserved;
}

NumberRecord record_numbers(uint8_t end, const Numbers *numbers)
{
    return (NumberRecord){end, false, numbers->reserved, numbers->block};
}
