// Times our sealing and opening beside as many bare compressions as they need,
// in one process, after checking that what was sealed opens and that with one
// bit changed it does not. After them, OpenSSL seals messages of the same
// sizes. Prints rows of two Markdown tables; those of OpenSSL begin with its name.
//
// Every message is sealed from its key: ours work out their masks in each
// call, and OpenSSL's context, kept for all messages, gets key and nonce anew.
#include <openssl/evp.h>
#include <stdint.h>
#include <stdio.h>
#include <string.h>
#include "common.h"

#define LONGEST 65535
#define DATA_LEN 80
#define NONCE_LEN 12
#define TAG_LEN 16
#define TAG_MISMATCH 23

// Ours. All return 0, or the number of a refusal.
typedef uint32_t sealing(const uint8_t *key, size_t key_len, const uint8_t *nonce, size_t nonce_len,
                         const uint8_t *data, size_t data_len, const uint8_t *message, size_t message_len,
                         size_t tag_len, uint8_t *ciphertext, size_t ciphertext_len, uint8_t *tag, size_t tag_room);
typedef uint32_t opening(const uint8_t *key, size_t key_len, const uint8_t *nonce, size_t nonce_len,
                         const uint8_t *data, size_t data_len, const uint8_t *ciphertext, size_t ciphertext_len,
                         const uint8_t *tag, size_t tag_len, uint8_t *message, size_t message_len);
sealing timing_seal_sha256, timing_seal_blake2b;
opening timing_open_sha256, timing_open_blake2b;

static const struct size {
    const char *name;
    size_t len;   // bytes of the message
    size_t calls; // in one timing
} sizes[] = {
    { "64 KiB", LONGEST, 30 },
    { "card", 96, 8000 },
};
#define SIZES (sizeof sizes / sizeof sizes[0])

struct kind {
    const char *name;
    size_t block; // bytes of a block, and of the key
    chain *compressions;
    sealing *seal;
    opening *open;
    struct {
        double seal[REPETITIONS], open[REPETITIONS];             // ns a message
        double seal_ratio[REPETITIONS], open_ratio[REPETITIONS]; // to the compressions
    } of[SIZES];
};

static struct kind kinds[] = {
    { .name = "1 (SHA-256)", .block = 32, .compressions = chain_ours_sha256,
      .seal = timing_seal_sha256, .open = timing_open_sha256 },
    { .name = "2 (BLAKE2b)", .block = 64, .compressions = chain_ours_blake2b,
      .seal = timing_seal_blake2b, .open = timing_open_blake2b },
};
#define KINDS (sizeof kinds / sizeof kinds[0])

struct peer {
    const char *name;
    const EVP_CIPHER *(*cipher)(void);
    EVP_CIPHER_CTX *context;
    double ns[SIZES][REPETITIONS]; // a message
};

static struct peer peers[] = {
    { .name = "OpenSSL AES-256-GCM", .cipher = EVP_aes_256_gcm },
    { .name = "OpenSSL ChaCha20-Poly1305", .cipher = EVP_chacha20_poly1305 },
};
#define PEERS (sizeof peers / sizeof peers[0])

static uint8_t key[64], nonce[NONCE_LEN], data[DATA_LEN], message[LONGEST];
static uint8_t ciphertext[LONGEST], tag[TAG_LEN], opened[LONGEST];
static uint8_t peer_ciphertext[LONGEST], peer_tag[TAG_LEN];
static uint8_t state[64], block[128]; // of the bare compressions

static uint32_t seal_once(const struct kind *kind, size_t len)
{
    return kind->seal(key, kind->block, nonce, NONCE_LEN, data, DATA_LEN, message, len, TAG_LEN,
                      ciphertext, len, tag, TAG_LEN);
}

static uint32_t open_once(const struct kind *kind, size_t len)
{
    return kind->open(key, kind->block, nonce, NONCE_LEN, data, DATA_LEN, ciphertext, len, tag, TAG_LEN,
                      opened, len);
}

static void peer_seal_once(const struct peer *peer, size_t len)
{
    int n, rest;
    if (!EVP_EncryptInit_ex(peer->context, NULL, NULL, key, nonce)
        || !EVP_EncryptUpdate(peer->context, NULL, &n, data, DATA_LEN)
        || !EVP_EncryptUpdate(peer->context, peer_ciphertext, &n, message, (int)len)
        || !EVP_EncryptFinal_ex(peer->context, peer_ciphertext + n, &rest)
        || !EVP_CIPHER_CTX_ctrl(peer->context, EVP_CTRL_AEAD_GET_TAG, TAG_LEN, peer_tag))
        fail("OpenSSL does not seal");
}

// A message opens as it was sealed, and with one bit changed anywhere it is
// refused and the place zeroed.
static void check(const struct kind *kind, size_t len)
{
    static const uint8_t zeros[LONGEST];
    uint8_t *const changed[] = { key, key + kind->block - 1, nonce, nonce + NONCE_LEN - 1, data, data + DATA_LEN - 1,
                                 ciphertext, ciphertext + len / 2, ciphertext + len - 1, tag, tag + TAG_LEN - 1 };
    memset(opened, 0xa5, len);
    if (seal_once(kind, len) != 0 || open_once(kind, len) != 0)
        fail("sealing or opening refused");
    if (memcmp(opened, message, len) != 0)
        fail("what was sealed opens to something else");
    if (memcmp(ciphertext, message, len) == 0)
        fail("the ciphertext is the message");
    for (size_t i = 0; i < sizeof changed / sizeof changed[0]; i++) {
        uint8_t bit = (uint8_t)(1 << i % 8);
        *changed[i] ^= bit;
        memset(opened, 0xa5, len);
        if (open_once(kind, len) != TAG_MISMATCH)
            fail("a changed bit is not refused as a wrong tag");
        if (memcmp(opened, zeros, len) != 0)
            fail("a refused message is not zeroed");
        *changed[i] ^= bit;
    }
}

// The compressions that a message which is not empty needs: one for each block
// of message and of data (the latter of twice the length), and three more.
static size_t needed(const struct kind *kind, size_t len)
{
    size_t b = kind->block;
    return (len + b - 1) / b + (DATA_LEN + 2 * b - 1) / (2 * b) + 3;
}

// One repetition. The three follow each other closely, so that a change of the
// processor's clock meets all.
static void time_ours(struct kind *kind, size_t s, int r)
{
    size_t len = sizes[s].len, calls = sizes[s].calls;
    uint32_t refused = 0;

    double start = now();
    kind->compressions(state, block, kind->block, calls * needed(kind, len));
    double compressed = now();
    for (size_t i = 0; i < calls; i++)
        refused |= seal_once(kind, len);
    double sealed = now();
    for (size_t i = 0; i < calls; i++)
        refused |= open_once(kind, len);
    double end = now();

    if (refused)
        fail("sealing or opening refused");
    kind->of[s].seal[r] = (sealed - compressed) / (double)calls;
    kind->of[s].open[r] = (end - sealed) / (double)calls;
    kind->of[s].seal_ratio[r] = (sealed - compressed) / (compressed - start);
    kind->of[s].open_ratio[r] = (end - sealed) / (compressed - start);
}

static void time_peer(struct peer *peer, size_t s, int r)
{
    double start = now();
    for (size_t i = 0; i < sizes[s].calls; i++)
        peer_seal_once(peer, sizes[s].len);
    peer->ns[s][r] = (now() - start) / (double)sizes[s].calls;
}

int main(void)
{
    stay_on_one_cpu();

    fill(key, sizeof key);
    fill(nonce, sizeof nonce);
    fill(data, sizeof data);
    fill(message, sizeof message);
    fill(block, sizeof block);
    for (size_t k = 0; k < KINDS; k++)
        for (size_t s = 0; s < SIZES; s++)
            check(&kinds[k], sizes[s].len);
    for (size_t p = 0; p < PEERS; p++) {
        peers[p].context = EVP_CIPHER_CTX_new();
        if (!peers[p].context || !EVP_EncryptInit_ex(peers[p].context, peers[p].cipher(), NULL, NULL, NULL))
            fail("OpenSSL has no such cipher");
    }

    for (int r = 0; r < REPETITIONS; r++)
        for (size_t s = 0; s < SIZES; s++)
            for (size_t k = 0; k < KINDS; k++)
                time_ours(&kinds[k], s, r);
    // OpenSSL after ours: timed between them, it raises their ratios by about 0.01.
    for (int r = 0; r < REPETITIONS; r++)
        for (size_t s = 0; s < SIZES; s++)
            for (size_t p = 0; p < PEERS; p++)
                time_peer(&peers[p], s, r);

    for (size_t k = 0; k < KINDS; k++)
        for (size_t s = 0; s < SIZES; s++)
            printf("| %s | %s | %.0f | %.3f | %.0f | %.3f |\n", kinds[k].name, sizes[s].name,
                   median(kinds[k].of[s].seal), median(kinds[k].of[s].seal_ratio),
                   median(kinds[k].of[s].open), median(kinds[k].of[s].open_ratio));
    for (size_t p = 0; p < PEERS; p++) {
        for (size_t s = 0; s < SIZES; s++)
            printf("| %s | %s | %.0f |\n", peers[p].name, sizes[s].name, median(peers[p].ns[s]));
        EVP_CIPHER_CTX_free(peers[p].context);
    }
    return 0;
}
