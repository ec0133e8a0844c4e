// Times our compression functions beside plain C and OpenSSL in one process,
// after checking that all give the same results. Prints rows of a Markdown
// table and OpenSSL's version.
//
// Each timing is a chain: every output is the next chaining value. Ours takes
// key and message apart and copies them into a block on each call; the peers
// get the block ready-made and are not charged for that.
#define OPENSSL_SUPPRESS_DEPRECATED // SHA256_Transform is deprecated since 3.0
#include <openssl/crypto.h>
#include <openssl/evp.h>
#include <openssl/sha.h>
#include <stdint.h>
#include <stdio.h>
#include <stdlib.h>
#include <string.h>
#include "common.h"
#include "plain.h"

#define BLOCKS 200000 // compressions in one timed chain

#ifdef WITH_CLANG
// The files of plain C once more, compiled by clang under other names.
void clang_sha256(uint32_t state[8], const uint8_t block[64]);
void clang_blake2b(uint64_t h[8], const uint8_t block[128], uint64_t t_low, uint64_t t_high, int last);
void clang_blake2b_unrolled(uint64_t h[8], const uint8_t block[128], uint64_t t_low, uint64_t t_high, int last);
#endif

// States as bytes (SHA-256 big-endian, BLAKE2b little-endian) and as words.

static void to_words32(uint32_t words[8], const uint8_t bytes[32])
{
    for (int i = 0; i < 8; i++)
        words[i] = (uint32_t)bytes[4 * i] << 24 | (uint32_t)bytes[4 * i + 1] << 16
                 | (uint32_t)bytes[4 * i + 2] << 8 | (uint32_t)bytes[4 * i + 3];
}

static void to_bytes32(uint8_t bytes[32], const uint32_t words[8])
{
    for (int i = 0; i < 32; i++)
        bytes[i] = (uint8_t)(words[i / 4] >> (24 - 8 * (i % 4)));
}

static void to_words64(uint64_t words[8], const uint8_t bytes[64])
{
    for (int i = 0; i < 8; i++) {
        words[i] = 0;
        for (int j = 0; j < 8; j++)
            words[i] |= (uint64_t)bytes[8 * i + j] << (8 * j);
    }
}

static void to_bytes64(uint8_t bytes[64], const uint64_t words[8])
{
    for (int i = 0; i < 64; i++)
        bytes[i] = (uint8_t)(words[i / 8] >> (8 * (i % 8)));
}

#define PLAIN_SHA256(name, function)                                                            \
    static void name(uint8_t *state, const uint8_t *block, size_t key_len, size_t n)            \
    {                                                                                           \
        (void)key_len;                                                                          \
        uint32_t words[8];                                                                      \
        to_words32(words, state);                                                               \
        for (size_t i = 0; i < n; i++)                                                          \
            function(words, block);                                                             \
        to_bytes32(state, words);                                                               \
    }

#define PLAIN_BLAKE2B(name, function)                                                           \
    static void name(uint8_t *state, const uint8_t *block, size_t key_len, size_t n)            \
    {                                                                                           \
        (void)key_len;                                                                          \
        uint64_t words[8];                                                                      \
        to_words64(words, state);                                                               \
        for (size_t i = 0; i < n; i++)                                                          \
            function(words, block, 128, 0, 0);                                                  \
        to_bytes64(state, words);                                                               \
    }

PLAIN_SHA256(chain_plain_sha256, plain_sha256)
PLAIN_BLAKE2B(chain_plain_blake2b, plain_blake2b)
PLAIN_BLAKE2B(chain_plain_blake2b_unrolled, plain_blake2b_unrolled)
#ifdef WITH_CLANG
PLAIN_SHA256(chain_clang_sha256, clang_sha256)
PLAIN_BLAKE2B(chain_clang_blake2b, clang_blake2b)
PLAIN_BLAKE2B(chain_clang_blake2b_unrolled, clang_blake2b_unrolled)
#endif

static void chain_openssl(uint8_t *state, const uint8_t *block, size_t key_len, size_t n)
{
    (void)key_len;
    SHA256_CTX context;
    SHA256_Init(&context);
    to_words32(context.h, state);
    for (size_t i = 0; i < n; i++)
        SHA256_Transform(&context, block);
    to_bytes32(state, context.h);
}

struct implementation {
    const char *compression;
    const char *name;
    size_t half; // bytes of the state, half of those of a block
    chain *run;
    uint8_t state[64];
    double ns[REPETITIONS], ticks[REPETITIONS]; // of one compression
};

// Ours comes first for each compression.
static struct implementation all[] = {
    { .compression = "SHA-256", .name = "ours", .half = 32, .run = chain_ours_sha256 },
    { .compression = "SHA-256", .name = "plain C (gcc -O3)", .half = 32, .run = chain_plain_sha256 },
#ifdef WITH_CLANG
    { .compression = "SHA-256", .name = "plain C (clang -O3)", .half = 32, .run = chain_clang_sha256 },
#endif
    { .compression = "SHA-256", .name = "OpenSSL", .half = 32, .run = chain_openssl },
    { .compression = "BLAKE2b", .name = "ours", .half = 64, .run = chain_ours_blake2b },
    { .compression = "BLAKE2b", .name = "plain C, loop (gcc -O3)", .half = 64, .run = chain_plain_blake2b },
    { .compression = "BLAKE2b", .name = "plain C, rounds written out (gcc -O3)", .half = 64,
      .run = chain_plain_blake2b_unrolled },
#ifdef WITH_CLANG
    { .compression = "BLAKE2b", .name = "plain C, loop (clang -O3)", .half = 64, .run = chain_clang_blake2b },
    { .compression = "BLAKE2b", .name = "plain C, rounds written out (clang -O3)", .half = 64,
      .run = chain_clang_blake2b_unrolled },
#endif
};
#define COUNT (sizeof all / sizeof all[0])

static void must_agree(const struct implementation *ours)
{
    for (const struct implementation *it = ours + 1; it < all + COUNT && it->half == ours->half; it++)
        if (memcmp(it->state, ours->state, it->half) != 0) {
            fprintf(stderr, "bench: %s: ours and %s differ\n", ours->compression, it->name);
            exit(1);
        }
}

// BLAKE2b-512 of a message of two blocks by plain C against OpenSSL's.
static void check_blake2b(void)
{
    static const uint64_t start[8] = { // the initial state for 64 bytes of digest and no key
        0x6a09e667f3bcc908 ^ 0x01010040, 0xbb67ae8584caa73b, 0x3c6ef372fe94f82b, 0xa54ff53a5f1d36f1,
        0x510e527fade682d1, 0x9b05688c2b3e6c1f, 0x1f83d9abfb41bd6b, 0x5be0cd19137e2179,
    };
    uint8_t message[256] = { 0 }, digest[64], expected[64];
    uint64_t h[8];
    fill(message, 200);
    memcpy(h, start, sizeof h);
    plain_blake2b(h, message, 128, 0, 0);
    plain_blake2b(h, message + 128, 200, 0, 1);
    to_bytes64(digest, h);
    if (!EVP_Digest(message, 200, expected, NULL, EVP_blake2b512(), NULL))
        fail("OpenSSL gives no BLAKE2b");
    if (memcmp(digest, expected, 64) != 0)
        fail("plain BLAKE2b and OpenSSL's differ");
}

// All implementations against ours, with keys of every length.
static void check(void)
{
    uint8_t state[64], block[128];
    check_blake2b();
    for (size_t i = 0; i < COUNT; i++) {
        struct implementation *ours = &all[i];
        if (strcmp(ours->name, "ours") != 0)
            continue;
        for (size_t key_len = 16; key_len <= ours->half; key_len++) {
            fill(state, ours->half);
            fill(block, 2 * ours->half);
            memset(block + key_len, 0, ours->half - key_len);
            for (struct implementation *it = ours; it < all + COUNT && it->half == ours->half; it++) {
                memcpy(it->state, state, it->half);
                it->run(it->state, block, key_len, 1 + key_len % 7);
            }
            must_agree(ours);
        }
    }
}

// Whether OpenSSL uses SHA instructions, by its own word (leaf 7, EBX bit 29).
static int openssl_has_sha(void)
{
    const char *settings = OPENSSL_info(OPENSSL_INFO_CPU_SETTINGS);
    unsigned long long first, second;
    if (!settings || sscanf(settings, "OPENSSL_ia32cap=%llx:%llx", &first, &second) != 2)
        fail("OpenSSL does not tell which instructions it uses");
    return second >> 29 & 1;
}

int main(void)
{
    uint8_t block[128];

    stay_on_one_cpu();
    check();

    fill(block, sizeof block);
    for (size_t i = 0; i < COUNT; i++)
        memset(all[i].state, 0, sizeof all[i].state);
    for (int r = 0; r < REPETITIONS; r++)
        for (size_t i = 0; i < COUNT; i++) {
            struct implementation *it = &all[i];
            double ns = now();
            uint64_t ticks = tick();
            it->run(it->state, block, it->half, BLOCKS);
            it->ticks[r] = (double)(tick() - ticks) / BLOCKS;
            it->ns[r] = (now() - ns) / BLOCKS;
        }

    uint64_t checksum = 0;
    double ours = 0;
    for (size_t i = 0; i < COUNT; i++) {
        struct implementation *it = &all[i];
        double ns = median(it->ns), ticks = median(it->ticks);
        const char *name = it->name;
        if (strcmp(name, "ours") == 0) {
            must_agree(it);
            ours = ns;
        } else if (strcmp(name, "OpenSSL") == 0) {
            name = openssl_has_sha() ? "OpenSSL with SHA instructions" : "OpenSSL without SHA instructions";
        }
        printf("| %s | %s | %.1f | ", it->compression, name, ns);
        if (ticks > 0)
            printf("%.2f", ticks / (double)(2 * it->half));
        else
            printf("-");
        printf(" | %.2f |\n", ours / ns);
        for (size_t j = 0; j < it->half; j++)
            checksum = checksum * 31 + it->state[j];
    }
    printf("%s\n", OpenSSL_version(OPENSSL_VERSION));
    fprintf(stderr, "checksum %016llx\n", (unsigned long long)checksum);
    return 0;
}
