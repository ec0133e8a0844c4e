"""Card images, good ones and damaged ones, and what the reference answers to opening them: cases.py FILE SEED CARDS.

Each case in the file is six numbers of four bytes, little-endian (the kind, the refusal and the length answered, and
the lengths of key, image and place), then the key, the image, the place before and the place after.
"""

import os
import random
import struct
import sys
from multiprocessing import Pool
from typing import NamedTuple

sys.path.insert(0, os.path.join(os.path.dirname(os.path.abspath(__file__)), "../../reference"))

from image_lines import LAWFUL, UNLAWFUL, patched  # noqa: E402
from images import build, open_image  # noqa: E402
from omd import BLOCK  # noqa: E402
from omd_lines import flip  # noqa: E402

HEAD = struct.Struct("<6I")
CHUNK = 250  # cards that one worker makes at once
LABEL_FIELDS = ((1, 4), (5, 4), (9, 4), (13, 1))  # offset and length of site, block, code and station


class Case(NamedTuple):
    """What an opening is given."""

    kind: int
    key: bytes
    image: bytes
    place: bytes


def some_length(rng, most):
    """A length up to `most`, often one of its ends or near the end of a block."""
    return min(most, rng.choice([0, 1, 31, 32, 33, 63, 64, most - 1, most] + 9 * [rng.randint(0, most)]))


def some_label(rng):
    """Site, block, code and station, mostly lawful ones."""
    label = (rng.randrange(1, 2**32), rng.randrange(1, 2**32), rng.randint(1, 4096), rng.randint(1, 8))
    return rng.choice(LAWFUL + UNLAWFUL + 60 * [label])


def some_card(rng):
    """A sealed card, mostly one that is accepted, with a place that is long enough."""
    kind = rng.choice([1, 2])
    key = rng.randbytes(rng.choice([16, BLOCK[kind], rng.randint(16, BLOCK[kind])]))
    h, w = rng.choice([(65, 0), (65, 95), (64, 97), (0, 97)] + 60 * [(some_length(rng, 64), some_length(rng, 96))])
    image = build(kind, key, some_label(rng), rng.randbytes(h), rng.randbytes(w))
    return Case(kind, key, image, rng.randbytes(rng.choice([w, w, w, w + 1, w + 7, w + 300, 256])))


# Damages. Each takes an image of 16 bytes or more and a key of one or more.


def turned_bit(rng, case):
    """A bit turned anywhere."""
    return case._replace(image=flip(case.image, rng.randrange(8 * len(case.image))))


def turned_fixed_bit(rng, case):
    """A bit turned in the bytes before the header."""
    return case._replace(image=flip(case.image, 8 * len(case.image) - 1 - rng.randrange(128)))


def turned_tag_bit(rng, case):
    """A bit turned in the last 16 bytes."""
    return case._replace(image=flip(case.image, rng.randrange(128)))


def turned_key_bit(rng, case):
    """A bit turned in the key."""
    return case._replace(key=flip(case.key, rng.randrange(8 * len(case.key))))


def exchanged_numbers(rng, case):
    """Site and block exchanged, or the bytes of both turned round."""
    site, block = case.image[1:5], case.image[5:9]
    return case._replace(image=patched(case.image, 1, rng.choice([block + site, site[::-1] + block[::-1]])))


def other_byte(rng, case):
    """Another byte, mostly, anywhere."""
    return case._replace(image=patched(case.image, rng.randrange(len(case.image)), rng.randbytes(1)))


def other_number(rng, case):
    """A number of the label that is zero, too large, or another."""
    at, size = rng.choice(LABEL_FIELDS)
    number = rng.choice([0, 1, 8, 9, 255] if size == 1 else [0, 1, 4096, 4097, 65537, 2**32 - 1])
    return case._replace(image=patched(case.image, at, number.to_bytes(size, "big")))


def other_kind(rng, case):
    """Another kind in the image."""
    return case._replace(image=patched(case.image, 0, bytes([rng.choice([0, 1, 2, 3, 129, 130, 255])])))


def other_reader(rng, case):
    """A reader of another kind, with the image left or given the low byte of that kind."""
    kinds = [case.kind + 256, case.kind + 65536, case.kind + 2**31, 0, 1, 2, 3, 7, 2**32 - 1, rng.randrange(2**32)]
    kind = rng.choice(kinds) % 2**32
    return case._replace(kind=kind, image=rng.choice([case.image, patched(case.image, 0, bytes([kind % 256]))]))


def other_lengths(rng, case):
    """Other lengths in the image: most do not add up, some do."""
    h, w = case.image[14:16]
    step = rng.choice([1, 2, 16, rng.randint(1, 96)])
    pairs = [(h + step, w - step), (h - step, w + step), (h + step, w), (h, w - step), (w, h), (65, w), (h, 97),
             (255, w), (h, 255), (0, h + w), (h + w, 0), rng.randbytes(2)]
    return case._replace(image=patched(case.image, 14, bytes(n % 256 for n in rng.choice(pairs))))


def cut(rng, case):
    """Bytes lost from the end."""
    lengths = [0, 1, 14, 16, 31, len(case.image) - 1, rng.randrange(len(case.image))]
    return case._replace(image=case.image[: rng.choice(lengths)])


def extended(rng, case):
    """Bytes added to the end."""
    lengths = 8 * [1, 2, 16, 256, max(1, 193 - len(case.image))] + [65536]
    return case._replace(image=case.image + rng.randbytes(rng.choice(lengths)))


def one_too_few_or_many(rng, case):
    """An image of 31 bytes, or one of 193 in which the lengths add up."""
    front = case.image[:14]
    return case._replace(image=rng.choice([(front + bytes(17))[:31], front + b"\x40\x61" + rng.randbytes(177)]))


def other_key(rng, case):
    """A key of another length, or another key; a zero byte added may change nothing."""
    other = rng.randbytes(rng.choice([0, 1, 15, 16, 17, 32, 33, 64, 65, 256 + 16, 65536 + 16]))
    return case._replace(key=rng.choice([other, other, case.key + b"\0", case.key[:-1]]))


def shorter_place(rng, case):
    """A place that is shorter than the message, if it has any."""
    w = case.image[15]
    return case._replace(place=case.place[: rng.choice([0, 1, w // 2, max(0, w - 1)])])


def random_image(rng, case):
    """Random or even bytes, with the front of a card or without."""
    length = rng.choice([rng.randrange(300), len(case.image)])
    images = [rng.randbytes(length), bytes(length), b"\xff" * length, case.image[:16] + rng.randbytes(length)]
    return case._replace(image=rng.choice(images))


# Most of the first get as far as the tag, which takes the reference a millisecond; the others take it nothing.
SLOW = [turned_bit, turned_fixed_bit, turned_tag_bit, turned_key_bit, exchanged_numbers, other_byte]
FAST = [other_number, other_kind, other_reader, other_lengths, cut, extended, one_too_few_or_many, other_key,
        shorter_place, random_image]


def two_faults(rng, case):
    """A card damaged twice, so that the smaller number has to be told."""
    first, second = rng.sample(SLOW + FAST, 2)
    case = first(rng, case)
    return second(rng, case) if len(case.image) >= 16 and case.key else case


def cases_of(rng, number):
    """A card and what becomes of it: as it is, with one slow damage, with four fast ones, and with two faults."""
    card = some_card(rng)
    yield card
    yield SLOW[number % len(SLOW)](rng, card)
    for i in range(4):
        yield FAST[(4 * number + i) % len(FAST)](rng, card)
    yield two_faults(rng, card)


def packed(case):
    """The bytes of a case in the file."""
    kind, key, image, place = case
    refusal, length, after = open_image(kind, key, image, place)
    return HEAD.pack(kind, refusal, length, len(key), len(image), len(place)) + key + image + place + after


def chunk(task):
    """The cases of some cards."""
    seed, first, count = task
    rng = random.Random(f"{seed} {first}")
    return b"".join(packed(case) for number in range(first, first + count) for case in cases_of(rng, number))


def unpacked(data):
    """The cases of a file, each as (case, refusal, length, place afterwards)."""
    at = 0
    while at < len(data):
        kind, refusal, length, *lengths = HEAD.unpack_from(data, at)
        at += HEAD.size
        parts = []
        for n in lengths + lengths[-1:]:
            parts.append(data[at : at + n])
            at += n
        yield Case(kind, *parts[:3]), refusal, length, parts[3]


def main():
    """Makes the cases, on two processors, and writes them."""
    path, seed, cards = sys.argv[1], int(sys.argv[2]), int(sys.argv[3])
    tasks = [(seed, first, min(CHUNK, cards - first)) for first in range(0, cards, CHUNK)]
    with Pool(2) as pool, open(path, "wb") as file:
        for data in pool.imap(chunk, tasks):
            file.write(data)


if __name__ == "__main__":
    main()
