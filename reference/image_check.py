"""Checks of looks and of openings of card images by other ways than those of images.py."""

from struct import unpack

from image_lines import card
from images import look, open_image
from omd_check import numbers_met, work_out
from omd_lines import flip
from vectors import read_fields, write_bytes


def applying(kind, key, image, place):
    """The numbers of all refusals that apply, save 23; the fields that an image is too short for count as zero."""
    own, site, block, code, station, h, w = unpack(">B3I3B", image[:16].ljust(16, b"\0"))
    tests = {
        5: kind in (1, 2) and len(key) not in range(16, 32 * kind + 1),
        15: len(image) not in range(32, 193) or h > 64 or w > 96 or len(image) - h - w != 32,
        16: own != kind or own not in (1, 2),
        17: min(site, block, code, station) == 0 or code > 4096 or station > 8,
        18: len(place) < w,
    }
    return {number for number, applies in tests.items() if applies}


def look_expected(kind, image):
    """The answer to a look: its offsets are counted from the image's end."""
    number = min(applying(kind, b"", image, b"") & {15, 16, 17}, default=0)
    if number != 0:
        return b"look %d - - -" % number
    tag = len(image) - 16
    ciphertext = tag - image[15]
    spans = [(16, ciphertext), (ciphertext, tag), (tag, len(image))]
    return b"look 0" + b"".join(b" %d:%b" % (start, write_bytes(image[start:end])) for start, end in spans)


def image_expected(kind, key, image, place):
    """The answer to an opening."""
    number = min(applying(kind, key, image, place), default=0)
    if number != 0:
        return b"image %d 0 %b" % (number, write_bytes(place))
    w = image[15]
    front, ciphertext, tag = image[: len(image) - 16 - w], image[len(image) - 16 - w : -16], image[-16:]
    message, right = work_out(kind, key, image[1:13], front, ciphertext, 16, True)
    after = bytearray(place)
    after[:w] = message if tag == right else bytes(w)
    return (b"image 0 %d " % w if tag == right else b"image 23 0 ") + write_bytes(after)


def flips_are_told(kind, rng):
    """Whether a card opens, and after a turn of any one bit of its image or its key does not."""
    _, key, image, place = card(rng, kind, 3, 5, 16).values()
    good = open_image(kind, key, image, place)[:2] == (0, 5)
    turned = [(key, flip(image, bit)) for bit in range(8 * len(image))]
    turned += [(flip(key, bit), image) for bit in range(8 * len(key))]
    for other_key, other_image in turned:
        number, length, after = open_image(kind, other_key, other_image, place)
        left = bytes(len(place)) if number == 23 else place
        good = good and number in (15, 16, 17, 23) and (length, after) == (0, left)
    return good


def parts_are_whole(kind, image):
    """Whether the parts of an accepted image lie behind one another, from byte 16 to its end."""
    number, *parts = look(kind, image)
    at = 16
    for offset, part in parts if number == 0 else []:
        if offset != at or image[at : at + len(part)] != part:
            return False
        at += len(part)
    return number != 0 or at == len(image)


def check_images(lines, answers, rng):
    """Whether the answers to looks and openings are those of the ways above, and have their properties."""
    good = True
    expected = {b"look": look_expected, b"image": image_expected}
    for line, printed in zip(lines, answers, strict=True):
        name, values = read_fields(line)
        if printed != b"?" and name in expected:
            good = good and printed == expected[name](*values)
        if name == b"look":
            good = good and parts_are_whole(*values)
    for kind in (1, 2):
        good = good and numbers_met(lines, answers, b"look", b"%d" % kind) == {0, 15, 16, 17}
        good = good and numbers_met(lines, answers, b"image", b"%d" % kind) == {0, 5, 15, 16, 17, 18, 23}
        good = good and flips_are_told(kind, rng)
    return good
