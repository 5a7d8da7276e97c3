#ifndef PEER_H
#define PEER_H

#include <stddef.h>
#include <stdint.h>

uint8_t peer_r(uint8_t *state, size_t n, const uint8_t *packet, size_t packet_len, uint8_t *reply, size_t reply_len, uint8_t *delivered);
uint8_t peer_s(uint8_t *state, size_t n, const uint8_t *packet, size_t packet_len, uint8_t *reply, size_t reply_len);
uint8_t peer_p(uint8_t *state, size_t n, const uint8_t *message);
uint8_t peer_a(uint8_t *state, size_t n);
uint8_t peer_bench_step(uint8_t *state, size_t n, uint8_t *out, size_t out_len, uint8_t *back, size_t back_len, uint8_t letter, size_t place,
                        size_t copies, const uint8_t *message, uint8_t *delivered);

#endif
