// Plain C compression functions that the benchmark compares ours with.
// They work in place on a state of words and take the block ready-made.
#ifndef PLAIN_H
#define PLAIN_H

#include <stdint.h>

// The SHA-256 compression function (FIPS 180-4, section 6.2.2).
void plain_sha256(uint32_t state[8], const uint8_t block[64]);

// Function F of BLAKE2b (RFC 7693, section 3.2) with a loop over the rounds.
// t_low and t_high are the halves of the offset counter.
void plain_blake2b(uint64_t h[8], const uint8_t block[128], uint64_t t_low, uint64_t t_high, int last);

// The same function with its twelve rounds written out.
void plain_blake2b_unrolled(uint64_t h[8], const uint8_t block[128], uint64_t t_low, uint64_t t_high, int last);

#endif
