"""The test lines for looking at and opening card images."""

from itertools import product

from images import build
from omd import BLOCK
from omd_lines import NO_NUMBERS, SAME_NUMBERS, broken_lines, flip, with_field, write_line
from sample_card import sample_lines

# Lines of no form; L and I stand for the fields of a good look and of a good opening.
BAD = [
    b"look", b"look ", b"look 1", b"look 1 ", b" look L", b"look  L", b"look L ", b"look L -", b"look\tL", b"look L\r",
    b"look L\0", b"Look L", b"LOOK L", b"looks L", b"loo L", b"look I", b"image", b"image ", b"image 1", b"image 1 -",
    b"image 1 - -", b"image 1 - - ", b" image I", b"image  I", b"image I ", b"image I -", b"image\tI", b"image I\r",
    b"image I\0", b"Image I", b"IMAGE I", b"images I", b"imag I", b"image L", b"open I", b"seal L", b"L", b"I",
    b"\xef\xbb\xbflook L", b"\xef\xbb\xbfimage I",
]

UNKNOWN_KINDS = [0, 3, 7, 128, 129, 255, 256, 257, 258, 513, 65537, 65538, 2**31 + 1, 2**32 - 1, 2**32, 2**32 + 1,
                 2**32 + 2, 2**64 + 1, 2**64 + 2, 10**60 + 2, 10**400 + 1]

# Numbers that cards may have at their ends, and with one byte that is not zero; and numbers that no card has.
LAWFUL = [(1, 1, 1, 1), (2**32 - 1, 2**32 - 1, 4096, 8), (2**24, 2**16, 2**8, 4), (2**8, 2**24, 255, 2),
          (2**16, 2**8, 4095, 7), (2**31, 1, 2**12, 5), (1, 2**31, 257, 6)]
UNLAWFUL = [(0, 5, 6, 7), (5, 0, 6, 7), (5, 6, 0, 7), (5, 6, 7, 0), (0, 0, 0, 0), (5, 6, 4097, 7), (5, 6, 8192, 7),
            (5, 6, 2**16 + 1, 7), (5, 6, 2**24 + 1, 7), (5, 6, 2**31 + 1, 7), (5, 6, 2**32 - 1, 7), (5, 6, 7, 9),
            (5, 6, 7, 16), (5, 6, 7, 129), (5, 6, 7, 255), (5, 6, 4097, 9), (0, 6, 4097, 9)]


def card(rng, kind, h=9, w=21, key_length=24, label=None):
    """The values of an opening: a sealed card, its key, and a place of random bytes as long as the message."""
    key = rng.randbytes(key_length)
    label = label or (rng.randrange(1, 2**32), rng.randrange(1, 2**32), rng.randint(1, 4096), rng.randint(1, 8))
    image = build(kind, key, label, rng.randbytes(h), rng.randbytes(w))
    return {"kind": kind, "key": key, "image": image, "place": rng.randbytes(w)}


def look_line(values):
    """The line of a look."""
    return write_line(b"look", {"kind": values["kind"], "image": values["image"]})


def both(values):
    """The line of a look, and that of an opening."""
    return [look_line(values), write_line(b"image", values)]


def patched(image, at, data):
    """The image with other bytes from an offset on."""
    return image[:at] + data + image[at + len(data) :]


def with_images(values, images):
    """The lines of both requests with each of the images."""
    return [line for image in images for line in both(values | {"image": image})]


def good_lines(rng, kind):
    """Cards that are accepted: lengths, numbers and keys at their ends."""
    cards = [card(rng, kind, h, w) for h in (0, 1, 63, 64) for w in (0, 1, 31, 32, 33, 64, 95, 96)]
    cards += [card(rng, kind, label=label) for label in LAWFUL]
    cards += [card(rng, kind, key_length=n) for n in (16, 17, BLOCK[kind] - 1, BLOCK[kind])]
    return [line for values in cards for line in both(values)]


def cut_lines(rng, kind):
    """Cards that lost bytes or have more, and cards whose lengths were changed: most no longer add up."""
    lines = []
    for h, w in ((0, 0), (9, 21), (64, 96)):
        values = card(rng, kind, h, w)
        image = values["image"]
        images = [image[:-1], image[1:], image[:-16], image[:31], image[:16], image[:14]]
        images += [image + b"\0", b"\0" + image, image + rng.randbytes(16), image + bytes(256)]
        pairs = [(h + 1, w), (h, w + 1), (h + 1, w - 1), (h - 1, w + 1), (h - 1, w), (h, w - 1), (w, h), (h, 255),
                 (255, w)]
        images += [patched(image, 14, bytes(pair)) for pair in pairs if min(pair) >= 0]
        lines += with_images(values, images)
    return lines


def length_lines(rng, kind):
    """Cards sealed with lengths over their limits; and bytes that were never sealed, of lengths around the ends."""
    over = ((65, 0), (0, 97), (65, 95), (63, 97), (65, 96), (64, 97), (65, 97), (66, 2), (2, 98), (255, 0), (0, 255))
    lines = [line for h, w in over for line in both(card(rng, kind, h, w))]
    front = bytes([kind]) + bytes([0, 0, 0, 1] * 3) + b"\x01"
    lengths = (0, 1, 2, 13, 14, 15, 16, 17, 30, 31, 32, 33, 191, 192, 193, 256, 288)
    images = [front[:n].ljust(n, b"\0") for n in lengths] + [rng.randbytes(n) for n in lengths]
    return lines + with_images(card(rng, kind), images + [b"\0" * 32, b"\xff" * 192])


def field_lines(rng, kind):
    """Numbers that no card has, sealed rightly and put in afterwards; and other kinds in the image."""
    lines = [line for label in UNLAWFUL for line in both(card(rng, kind, 2, 3, label=label))]
    values = card(rng, kind, 1, 2)
    image = values["image"]
    labels = [build(kind, values["key"], label, b"", b"")[1:14] for label in UNLAWFUL + LAWFUL]
    images = [patched(image, 1, label) for label in labels]
    images += [patched(image, 0, bytes([other])) for other in (0, 3 - kind, 3, 128 + kind, 255)]
    images.append(patched(image, 1, image[5:9] + image[1:5]))  # site and block exchanged
    return lines + with_images(values, images)


def flip_lines(rng, kind):
    """A bit turned in each byte of an image, and in each of a key."""
    values = card(rng, kind, 5, 7, 16) | {"place": rng.randbytes(9)}
    image, key = values["image"], values["key"]
    lines = with_images(values, [flip(image, 8 * i + rng.randrange(8)) for i in range(len(image))])
    keys = [flip(key, 8 * i + rng.randrange(8)) for i in range(len(key))]
    keys += [key[:-1] + b"\0", key + b"\0", key + b"\x01", b"\0" + key, key[1:] + key[:1]]
    return lines + [write_line(b"image", values | {"key": other}) for other in keys]


def fault(rng, values, name):
    """The values with one thing made wrong."""
    kind, image, place = values["kind"], values["image"], values["place"]
    changes = {
        "key": {"key": rng.randbytes(rng.choice([0, 15, BLOCK[kind] + 1]))},
        "length": {"image": rng.choice([image + b"\0", image[:-1]])},
        "kind": {"image": patched(image, 0, bytes([rng.choice([0, 3 - kind, 3])]))},
        "number": {"image": patched(image, *rng.choice([(1, bytes(4)), (9, b"\0\0\x10\x01"), (13, b"\x09")]))},
        "place": {"place": place[: rng.choice([0, 1, 20])]},
        "tag": {"image": flip(image, rng.randrange(128))},
    }
    return values | changes[name]


def fault_lines(rng, kind):
    """Every set of faults at once, and each length of key beside each fault."""
    names = ("key", "length", "kind", "number", "place", "tag")
    lines = []
    for present in product((False, True), repeat=len(names)):
        values = card(rng, kind, 3)
        for name in [name for name, here in zip(names, present) if here]:
            values = fault(rng, values, name)
        lines += both(values)
    for key_length, name in product((0, 15, 16, BLOCK[kind], BLOCK[kind] + 1), names[1:]):
        good = card(rng, kind, 3, key_length=max(16, min(key_length, BLOCK[kind])))
        values = fault(rng, good, name)
        key = good["key"] if len(good["key"]) == key_length else rng.randbytes(key_length)
        lines.append(write_line(b"image", values | {"key": key}))
    return lines


def place_lines(rng, kind):
    """Openings to shorter, equal and longer places, with the right tag and a wrong one."""
    lines = []
    for w in (0, 1, 21, 96):
        good = card(rng, kind, 2, w)
        wrong = good | {"image": flip(good["image"], rng.randrange(128))}
        for length in sorted({0, 1, w - 1, w, w + 1, w + 9, 96, 256 + w} - {-1}):
            place = {"place": rng.randbytes(length)}
            lines += [write_line(b"image", values | place) for values in (good, wrong)]
        for fill in (b"\x00", b"\xff"):
            lines += [write_line(b"image", values | {"place": fill * (w + 2)}) for values in (good, wrong)]
    return lines


def kind_lines(rng):
    """Readers of other kinds than the card's, and of kinds that there is no compression for."""
    lines = []
    for kind in (1, 2):
        for key_length in (15, 16, 32, 33, 64, 65):
            values = card(rng, kind) | {"kind": 3 - kind, "key": rng.randbytes(key_length)}
            lines += both(values) + both(fault(rng, values, "length"))
    for kind in UNKNOWN_KINDS:
        values = card(rng, 1 + (kind - 1) % 2, 1, 2)
        here = values | {"kind": kind}
        same = here | {"image": patched(values["image"], 0, bytes([kind % 256]))}
        cut = here | {"image": values["image"][:-1], "key": b""}
        zero = same | {"image": patched(same["image"], 1, bytes(4)), "key": rng.randbytes(65), "place": b""}
        lines += [line for asked in (here, same, cut, zero) for line in both(asked)]
        lines.append(write_line(b"image", same | {"key": b""}))
    return lines


def bad_lines(rng):
    """Lines of a form that is none, or nearly, and numbers written in other ways."""
    good = both(card(rng, 1, 1, 2, 16))
    fields = {b"L": good[0].partition(b" ")[2], b"I": good[1].partition(b" ")[2]}
    lines = [b" ".join(fields.get(word, word) for word in line.split(b" ")) for line in BAD]
    for line in good:
        lines += broken_lines(line)
        lines += [with_field(line, 1, form.replace(b"N", b"1")) for form in NO_NUMBERS + SAME_NUMBERS]
        for _ in range(40):  # one byte changed
            changed = bytearray(line)
            changed[rng.randrange(len(line))] = rng.choice(b"0123456789abcdefABCDEFg -+\r\t\0\xff")
            lines.append(bytes(changed))
    return lines


def image_lines(rng):
    """Every line for looking at and opening card images."""
    lines = kind_lines(rng) + bad_lines(rng)
    for kind in BLOCK:
        for make in (good_lines, cut_lines, length_lines, field_lines, flip_lines, fault_lines, place_lines):
            lines += make(rng, kind)
    lines = list(dict.fromkeys(lines))  # none twice
    rng.shuffle(lines)
    return sample_lines() + lines
