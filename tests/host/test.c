/*
 * Opens the images of a file of cases (cases.py) and compares with the answers in it: test FILE COUNT, of which the
 * first COUNT cases are tried. Each image is opened twice: to a place that is allocated as long as it is, where
 * valgrind sees every byte read or written outside, and to one between guard bytes.
 */
#include <stdio.h>
#include <stdlib.h>
#include <string.h>

#include "hurbezki.h"

enum { GUARD = 64, GUARD_BYTE = 0xA5 };

/* The function as the library has it: with another declaration in the header this does not compile. */
static struct hurbezki_opened (*const open_image)(uint32_t, const uint8_t *, size_t, const uint8_t *, size_t, uint8_t *,
                                                  size_t) = hurbezki_open_image;

/* What is asked, and what the reference answers. Each string is allocated as long as it is; an empty one is NULL. */
struct test_case {
    uint32_t kind, refusal, length;
    uint32_t key_length, image_length, place_length;
    uint8_t *key, *image, *before, *after;
};

static const uint32_t named[] = {
    HURBEZKI_ACCEPTED,     HURBEZKI_KEY_LENGTH,   HURBEZKI_IMAGE_LENGTH, HURBEZKI_KIND_MISMATCH,
    HURBEZKI_IMAGE_NUMBER, HURBEZKI_PLACE_LENGTH, HURBEZKI_TAG_MISMATCH,
};
enum { NAMED = sizeof named / sizeof named[0] };

static void fail(const char *what)
{
    fprintf(stderr, "tests/host: %s\n", what);
    exit(1);
}

static uint8_t *allocate(size_t length)
{
    uint8_t *bytes = length == 0 ? NULL : malloc(length);
    if (length != 0 && bytes == NULL)
        fail("no memory");
    return bytes;
}

static uint8_t *copy(const uint8_t *bytes, size_t length)
{
    uint8_t *made = allocate(length);
    if (length != 0)
        memcpy(made, bytes, length);
    return made;
}

static int same(const uint8_t *x, const uint8_t *y, size_t length)
{
    return length == 0 || memcmp(x, y, length) == 0;
}

static uint8_t *read_bytes(FILE *file, size_t length)
{
    uint8_t *bytes = allocate(length);
    if (length != 0 && fread(bytes, 1, length, file) != length)
        fail("the file of cases ends too early");
    return bytes;
}

static uint32_t read_number(FILE *file)
{
    uint8_t b[4];
    if (fread(b, 1, 4, file) != 4)
        fail("the file of cases ends too early");
    return b[0] | (uint32_t)b[1] << 8 | (uint32_t)b[2] << 16 | (uint32_t)b[3] << 24;
}

static struct test_case read_case(FILE *file)
{
    struct test_case c;
    c.kind = read_number(file);
    c.refusal = read_number(file);
    c.length = read_number(file);
    c.key_length = read_number(file);
    c.image_length = read_number(file);
    c.place_length = read_number(file);
    c.key = read_bytes(file, c.key_length);
    c.image = read_bytes(file, c.image_length);
    c.before = read_bytes(file, c.place_length);
    c.after = read_bytes(file, c.place_length);
    return c;
}

static void free_case(struct test_case *c)
{
    free(c->key);
    free(c->image);
    free(c->before);
    free(c->after);
}

/* Opens to a place that holds what it held before, and says whether all is as the reference says. */
static int opens_as_expected(const struct test_case *c, uint8_t *place)
{
    struct hurbezki_opened got =
        open_image(c->kind, c->key, c->key_length, c->image, c->image_length, place, c->place_length);
    return got.refusal == c->refusal && got.length == c->length && same(place, c->after, c->place_length);
}

/* To a place between guard bytes, at every alignment in turn. */
static int good_between_guards(const struct test_case *c, size_t number)
{
    size_t front = GUARD + number % 16, total = front + c->place_length + GUARD;
    uint8_t *whole = allocate(total);
    memset(whole, GUARD_BYTE, total);
    if (c->place_length != 0)
        memcpy(whole + front, c->before, c->place_length);
    int good = opens_as_expected(c, whole + front);
    for (size_t i = 0; i < total; i++)
        if (i < front || i >= front + c->place_length)
            good = good && whole[i] == GUARD_BYTE;
    free(whole);
    return good;
}

/* To a place of exactly its length; key and image stay as they were. */
static int good_on_its_own(const struct test_case *c)
{
    uint8_t *place = copy(c->before, c->place_length);
    uint8_t *key = copy(c->key, c->key_length), *image = copy(c->image, c->image_length);
    int good = opens_as_expected(c, place);
    good = good && same(key, c->key, c->key_length) && same(image, c->image, c->image_length);
    free(place);
    free(key);
    free(image);
    return good;
}

/* Counts an answer under its name in the header. */
static void count_answer(uint32_t refusal, unsigned long *counts)
{
    for (size_t i = 0; i < NAMED; i++) {
        if (named[i] == refusal) {
            counts[i]++;
            return;
        }
    }
    fail("an answer that hurbezki.h does not name");
}

static void print_counts(unsigned long count, const unsigned long *counts)
{
    printf("C: %lu images answered as by the reference (", count);
    for (size_t i = 0; i < NAMED; i++) {
        if (counts[i] == 0)
            fail("a number of hurbezki.h is never answered");
        printf("%srefusal %u: %lu", i == 0 ? "" : ", ", (unsigned)named[i], counts[i]);
    }
    printf(")\n");
}

int main(int count, char **arguments)
{
    unsigned long counts[NAMED] = {0};
    if (count != 3)
        fail("usage: test FILE COUNT");
    FILE *file = fopen(arguments[1], "rb");
    if (file == NULL)
        fail("the file of cases cannot be read");
    unsigned long cases = strtoul(arguments[2], NULL, 10);
    for (unsigned long i = 0; i < cases; i++) {
        struct test_case c = read_case(file);
        count_answer(c.refusal, counts);
        if (!good_on_its_own(&c) || !good_between_guards(&c, i)) {
            fprintf(stderr, "tests/host: case %lu differs, kind %u, refusal %u expected\n", i, (unsigned)c.kind,
                    (unsigned)c.refusal);
            return 1;
        }
        free_case(&c);
    }
    fclose(file);
    print_counts(cases, counts);
    return 0;
}
