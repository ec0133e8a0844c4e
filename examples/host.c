/*
 * A small host program: opens the card image in a file and prints what it finds.
 *
 *     examples/build-host
 *     target/host/host 1 examples/card.key examples/card.bin
 *
 * Its status is 0 where the card was accepted, 1 where it was refused, and 2 where it could not be tried.
 */
#include <errno.h>
#include <inttypes.h>
#include <stdio.h>
#include <stdlib.h>
#include <string.h>

#include "hurbezki.h"

/* One byte more than the longest image: a file that is too long is then seen to be. */
enum { MOST_BYTES = HURBEZKI_LONGEST_IMAGE + 1 };

struct bytes {
    uint8_t data[MOST_BYTES];
    size_t length;
};

/* Reads a file, or as much of it as there is room for. */
static int read_file(const char *path, struct bytes *into)
{
    FILE *file = fopen(path, "rb");
    if (file == NULL) {
        perror(path);
        return 0;
    }
    into->length = fread(into->data, 1, MOST_BYTES, file);
    int good = !ferror(file);
    if (!good)
        perror(path);
    fclose(file);
    return good;
}

/* Reads a decimal number of 32 bits. */
static int read_kind(const char *text, uint32_t *kind)
{
    size_t digits = strspn(text, "0123456789");
    errno = 0;
    unsigned long long number = strtoull(text, NULL, 10);
    if (digits == 0 || text[digits] != '\0' || errno != 0 || number > UINT32_MAX) {
        fprintf(stderr, "%s: no kind\n", text);
        return 0;
    }
    *kind = (uint32_t)number;
    return 1;
}

static const char *in_words(uint32_t refusal)
{
    switch (refusal) {
    case HURBEZKI_ACCEPTED: return "accepted";
    case HURBEZKI_KEY_LENGTH: return "the key is too short or too long for this kind";
    case HURBEZKI_IMAGE_LENGTH: return "the image has a wrong length";
    case HURBEZKI_KIND_MISMATCH: return "the card is not of this kind";
    case HURBEZKI_IMAGE_NUMBER: return "a number on the card is none that cards have";
    case HURBEZKI_PLACE_LENGTH: return "the place is too short for the message";
    case HURBEZKI_TAG_MISMATCH: return "the card was not sealed under this key, or was changed";
    default: return "no number that hurbezki.h names";
    }
}

/* A number of four bytes, the highest first. */
static uint32_t number_at(const uint8_t *bytes)
{
    return (uint32_t)bytes[0] << 24 | (uint32_t)bytes[1] << 16 | (uint32_t)bytes[2] << 8 | bytes[3];
}

/* Bytes as hex, and as text with a dot for each byte that is no plain character. */
static void print_bytes(const char *name, const uint8_t *bytes, size_t length)
{
    printf("%s: %zu bytes", name, length);
    for (size_t i = 0; i < length; i++)
        printf("%s%02x", i == 0 ? ", " : "", bytes[i]);
    printf(", \"");
    for (size_t i = 0; i < length; i++)
        putchar(bytes[i] >= ' ' && bytes[i] <= '~' ? bytes[i] : '.');
    printf("\"\n");
}

int main(int count, char **arguments)
{
    struct bytes key, image;
    uint32_t kind;
    if (count != 4) {
        fprintf(stderr, "usage: host KIND KEY_FILE CARD_FILE\n");
        return 2;
    }
    if (!read_kind(arguments[1], &kind) || !read_file(arguments[2], &key) || !read_file(arguments[3], &image))
        return 2;

    uint8_t message[HURBEZKI_LONGEST_MESSAGE] = {0};
    struct hurbezki_opened opened =
        hurbezki_open_image(kind, key.data, key.length, image.data, image.length, message, sizeof message);

    /* The refusal tells, not the length: a message may be empty. */
    printf("refusal %" PRIu32 ": %s\n", opened.refusal, in_words(opened.refusal));
    if (opened.refusal != HURBEZKI_ACCEPTED)
        return 1;
    /* The image was accepted, so it has its fields, and they were sealed with the message. */
    printf("site %" PRIu32 ", block %" PRIu32 ", code %" PRIu32 ", station %d\n", number_at(image.data + 1),
           number_at(image.data + 5), number_at(image.data + 9), image.data[13]);
    print_bytes("header", image.data + 16, image.data[14]);
    print_bytes("message", message, opened.length);
    return 0;
}
