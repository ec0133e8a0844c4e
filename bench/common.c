#define _GNU_SOURCE
#include "common.h"
#include <sched.h>
#include <stdio.h>
#include <stdlib.h>
#include <string.h>
#include <time.h>
#ifdef __x86_64__
#include <x86intrin.h>
#endif

// Ours. Both return 0, or the number of a refusal.
uint32_t timing_sha256(const uint8_t *key, size_t key_len, const uint8_t *chaining, size_t chaining_len,
                       const uint8_t *message, size_t message_len, uint8_t *place, size_t place_len);
uint32_t timing_blake2b(const uint8_t *key, size_t key_len, const uint8_t *chaining, size_t chaining_len,
                        const uint8_t *message, size_t message_len, uint8_t *place, size_t place_len);

void fail(const char *what)
{
    fprintf(stderr, "bench: %s\n", what);
    exit(1);
}

void fill(uint8_t *bytes, size_t count)
{
    static uint64_t x = 0x9e3779b97f4a7c15;
    for (size_t i = 0; i < count; i++) {
        x ^= x << 13;
        x ^= x >> 7;
        x ^= x << 17;
        bytes[i] = (uint8_t)(x >> 32);
    }
}

double now(void)
{
    struct timespec t;
    clock_gettime(CLOCK_PROCESS_CPUTIME_ID, &t);
    return (double)t.tv_sec * 1e9 + (double)t.tv_nsec;
}

uint64_t tick(void)
{
#ifdef __x86_64__
    return __rdtsc();
#else
    return 0;
#endif
}

static int ascending(const void *a, const void *b)
{
    double x = *(const double *)a, y = *(const double *)b;
    return (x > y) - (x < y);
}

double median(double values[REPETITIONS])
{
    qsort(values, REPETITIONS, sizeof values[0], ascending);
    return values[REPETITIONS / 2];
}

void stay_on_one_cpu(void)
{
    int cpu = sched_getcpu();
    cpu_set_t set;
    if (cpu < 0)
        return;
    CPU_ZERO(&set);
    CPU_SET(cpu, &set);
    (void)sched_setaffinity(0, sizeof set, &set);
}

// Ours on states of `half` bytes and blocks of twice that.
#define OURS(name, function, half)                                                              \
    void name(uint8_t *state, const uint8_t *block, size_t key_len, size_t n)                   \
    {                                                                                           \
        uint8_t places[2][half];                                                                \
        uint8_t *from = places[0], *to = places[1];                                             \
        memcpy(from, state, half);                                                              \
        for (size_t i = 0; i < n; i++) {                                                        \
            if (function(block, key_len, from, half, block + half, half, to, half) != 0)        \
                fail(#function " refused");                                                     \
            uint8_t *swap = from;                                                               \
            from = to;                                                                          \
            to = swap;                                                                          \
        }                                                                                       \
        memcpy(state, from, half);                                                              \
    }

OURS(chain_ours_sha256, timing_sha256, 32)
OURS(chain_ours_blake2b, timing_blake2b, 64)
