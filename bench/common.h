// What the programs of the benchmark share.
#ifndef COMMON_H
#define COMMON_H

#include <stddef.h>
#include <stdint.h>

#define REPETITIONS 31

// Says what went wrong and ends the program.
_Noreturn void fail(const char *what);

// Bytes of no particular pattern, the same in each run.
void fill(uint8_t *bytes, size_t count);

// The time that this process has had, in nanoseconds: what others run meanwhile
// does not count.
double now(void);

// The processor's ticks, whoever runs; 0 where it has none.
uint64_t tick(void);

// Sorts the values.
double median(double values[REPETITIONS]);

void stay_on_one_cpu(void);

// A chain runs n compressions with one block from the state and leaves the
// last output there. key_len, the key's length within the block, is for ours.
typedef void chain(uint8_t *state, const uint8_t *block, size_t key_len, size_t n);

chain chain_ours_sha256, chain_ours_blake2b;

#endif
