/* Cells and big-endian numbers. */
#include "second.h"

#include <string.h>

bool is_cell(uint8_t byte)
{
    return byte >= 0x20 && byte <= 0x7E;
}

bool all_cells(const uint8_t message[CELLS])
{
    for (size_t n = 0; n < CELLS; n++) {
        if (!is_cell(message[n])) {
            return false;
        }
    }
    return true;
}

/* The first byte is the value, and each byte is as the one before it. */
bool all_bytes_are(const uint8_t *bytes, size_t length, uint8_t value)
{
    if (length == 0) {
        return true;
    }
    return bytes[0] == value && memcmp(bytes, bytes + 1, length - 1) == 0;
}

void clear_message(uint8_t message[CELLS])
{
    memset(message, ' ', CELLS);
}

uint32_t get_number(const uint8_t bytes[4])
{
    return (uint32_t)bytes[0] << 24 | (uint32_t)bytes[1] << 16 |
           (uint32_t)bytes[2] << 8 | (uint32_t)bytes[3];
}

void set_number(uint8_t bytes[4], uint32_t number)
{
    bytes[0] = (uint8_t)(number >> 24);
    bytes[1] = (uint8_t)(number >> 16);
    bytes[2] = (uint8_t)(number >> 8);
    bytes[3] = (uint8_t)number;
}
