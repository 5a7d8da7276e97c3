/* Numbers, big-endian, for the peers, and how far they are reserved. */
#ifndef NUMBERS_H
#define NUMBERS_H

#include <stdint.h>

static inline uint32_t number(const uint8_t *p) {
    return (uint32_t)p[0] << 24 | (uint32_t)p[1] << 16 | (uint32_t)p[2] << 8 | p[3];
}

static inline void put_number(uint8_t *p, uint32_t n) {
    p[0] = (uint8_t)(n >> 24);
    p[1] = (uint8_t)(n >> 16);
    p[2] = (uint8_t)(n >> 8);
    p[3] = (uint8_t)n;
}

/* Reserved by a block more, at most to the largest number. */
static inline uint32_t grown(uint32_t reserved, uint32_t block) {
    uint32_t left = UINT32_MAX - reserved;
    return reserved + (block < left ? block : left);
}

#endif
