/* Hurbezki for C programs: opening card images. docs/CARD_FORMAT.md has the bytes of a card. */
#ifndef HURBEZKI_H
#define HURBEZKI_H

#include <stddef.h>
#include <stdint.h>

#ifdef __cplusplus
extern "C" {
#endif

/* The kinds of card. */
enum {
    HURBEZKI_KIND_SHA256 = 1,  /* keys of 16 to 32 bytes */
    HURBEZKI_KIND_BLAKE2B = 2  /* keys of 16 to 64 bytes */
};

/* The longest image, and the longest message on one: a place of so many bytes is never too short. */
enum {
    HURBEZKI_LONGEST_IMAGE = 192,
    HURBEZKI_LONGEST_MESSAGE = 96
};

/* Every number that `refusal` can hold. Where several apply it is the smallest. */
enum {
    HURBEZKI_ACCEPTED = 0,
    HURBEZKI_KEY_LENGTH = 5,     /* a key that is shorter or longer than the kind takes (an unknown kind takes any) */
    HURBEZKI_IMAGE_LENGTH = 15,  /* an image of under 32 or over 192 bytes, or lengths in it that do not add up */
    HURBEZKI_KIND_MISMATCH = 16, /* an image of another kind than asked for, or a kind that there is none of */
    HURBEZKI_IMAGE_NUMBER = 17,  /* a site, block, code or station of zero, a code over 4096, a station over 8 */
    HURBEZKI_PLACE_LENGTH = 18,  /* a place that is shorter than the message */
    HURBEZKI_TAG_MISMATCH = 23   /* not sealed under this key, or changed since */
};

struct hurbezki_opened {
    uint32_t refusal; /* one of the numbers above */
    uint32_t length;  /* bytes of the message, or 0 where the image was refused */
};

/*
 * Opens the image of a card of a kind under a key: checks all of it, writes the message to the front of the place, and
 * answers the message's length. A message may be empty: refusal 0 and length 0 is an accepted card.
 *
 * The kind is compared as the whole number: 257 is no kind 1.
 *
 * What the place holds afterwards: the message at its front where the image was accepted; as many zero bytes as the
 * message would have at its front where the tag differs (23); otherwise what it held before. The rest of it stays, and
 * no byte outside it is written.
 *
 * What is asked of the caller, and cannot be tested here:
 * - each pointer is valid for its length: so many bytes from it on may be read, and those of the place written;
 * - the place overlaps neither the key nor the image (key and image may overlap);
 * - NULL is passed only with a length of 0, and is then as good as any other pointer.
 *
 * It allocates nothing, keeps no pointer, and has no state: threads may call it at once, each with a place of its own.
 */
struct hurbezki_opened hurbezki_open_image(uint32_t kind, const uint8_t *key, size_t key_length,
                                           const uint8_t *image, size_t image_length,
                                           uint8_t *place, size_t place_length);

#ifdef __cplusplus
}
#endif

#endif
