"""The test lines for doubling, sealing and opening."""

import re
from itertools import product

from omd import BLOCK, pad, seal
from vectors import write_bytes

USUAL = {"key": 24, "nonce": 12, "data": 9, "message": 21, "tag_length": 16}

# Lines of no form; D stands for a good string of 32 bytes, S and O for the fields of a good seal and open.
BAD = [
    b"double", b"double ", b" double D", b"double  D", b"double D ", b"double D D", b"double\tD", b"double D\r",
    b"Double D", b"DOUBLE D", b"doubled D", b"doubl D", b"double 1 D", b"seal", b"seal ", b"seal 1", b"seal D",
    b" seal S", b"seal  S", b"seal S ", b"seal S -", b"seal\tS", b"seal S\r", b"seal S\0", b"Seal S", b"SEAL S",
    b"sealed S", b"sea S", b"seal O", b"open", b"open ", b"open 1", b"open D", b" open O", b"open  O", b"open O ",
    b"open O -", b"open O 16", b"open\tO", b"open O\r", b"open O\0", b"Open O", b"OPEN O", b"opened O", b"ope O",
    b"open S", b"compress S", b"S", b"O", b"double S", b"\xef\xbb\xbfseal S", b"\xef\xbb\xbfopen O",
]

# What is no number, with N for its digits, and what is the same number.
NO_NUMBERS = [b"", b"-", b"+N", b"-N", b"N-", b"N.", b"N.0", b"N,", b"N_", b"0xN", b"N\0", b"N\t", b"N\r", b"Na",
              b"N\xd9\xa1"]
SAME_NUMBERS = [b"0N", b"000N", b"0" * 40 + b"N", b"0" * 400 + b"N"]

UNKNOWN_KINDS = [0, 3, 4, 5, 6, 7, 8, 10, 16, 21, 255, 256, 257, 258, 513, 65537, 65538, 2**32, 2**32 + 1, 2**32 + 2,
                 2**64 + 1, 2**64 + 2, 2**128 + 1, 10**60 + 2]
# Tag lengths that are too large, beside those next to a block; some would be right ones if they wrapped.
LARGE_TAGS = [100, 128, 255, 256, 260, 272, 65535, 65552, 2**31, 2**31 + 16, 2**32 - 1, 2**32, 2**32 + 16, 2**61 + 2,
              2**64 - 1, 2**64, 2**64 + 16, 2**128 + 20, 10**60, 10**400 + 16]


def write_line(name, values):
    """The line of a request, from its values in order."""
    fields = [b"%d" % value if isinstance(value, int) else write_bytes(value) for value in values.values()]
    return b" ".join([name] + fields)


def with_field(line, index, field):
    """The line with another field at an index."""
    fields = line.split(b" ")
    return b" ".join(fields[:index] + [field] + fields[index + 1 :])


def request(rng, kind, **lengths):
    """The values of a seal: random bytes, of the usual lengths where none is given."""
    values = {"kind": kind} | USUAL | lengths
    for name in ("key", "nonce", "data", "message"):
        values[name] = rng.randbytes(values[name])
    return values


def sealed(rng, values):
    """The values of an open of what a seal gives, with a place of random bytes as long as the message."""
    _, ciphertext, tag = seal(*values.values())
    kept = {name: values[name] for name in ("kind", "key", "nonce", "data")}
    return kept | {"ciphertext": ciphertext, "tag": tag, "place": rng.randbytes(len(ciphertext))}


def seal_and_open(rng, values):
    """The line of a seal, and that of the open of what it gives."""
    return [write_line(b"seal", values), write_line(b"open", sealed(rng, values))]


def flip(data, bit):
    """The string with one bit turned."""
    return (int.from_bytes(data, "big") ^ 1 << bit).to_bytes(len(data), "big")


def double_lines(rng):
    """Doublings: single bits at the ends, even fills, random strings, and strings of other lengths."""
    strings = [rng.randbytes(n) for n in (0, 1, 2, 16, 30, 31, 33, 34, 48, 62, 63, 65, 66, 96, 128, 256)]
    for size in (32, 64):
        bits = 8 * size
        numbers = [1 << bit for bit in list(range(17)) + list(range(bits - 17, bits))]
        numbers += [0, 2**bits - 1, 2 ** (bits - 1) - 1, 2 ** (bits - 1) + 1, 0x0425, 0x0125]
        strings += [number.to_bytes(size, "big") for number in numbers]
        strings += [bytes([fill]) * size for fill in (0x01, 0x7F, 0x80, 0x55, 0xAA)]
        strings += [rng.randbytes(size) for _ in range(20)]
    return [b"double " + write_bytes(string) for string in strings]


def accepted_lengths(size):
    """Lengths that are accepted: each at its ends, and the texts around the ends of their blocks."""
    messages = [0, 1, 2, size - 1, size, size + 1, 2 * size - 1, 2 * size, 2 * size + 1, 3 * size + 5, 4 * size,
                17 * size, 3000]
    datas = [1, 2, size - 1, size, size + 1, 2 * size - 1, 2 * size, 2 * size + 1, 3 * size, 4 * size - 1, 4 * size,
             4 * size + 1, 14 * size + 1, 16 * size, 16 * size + 3]
    lengths = [{"message": n} for n in messages] + [{"data": n} for n in datas]
    lengths += [{"nonce": n} for n in (1, 2, 11, 12, 13, 16, size // 2, size - 2, size - 1)]
    lengths += [{"tag_length": n, "key": 16 + n % (size - 15)} for n in range(4, size + 1)]  # every key length too
    lengths += [{"message": m, "data": d} for m in (0, size, size + 1) for d in (2 * size, 4 * size + 1)]
    least = {"key": 16, "nonce": 1, "data": 1, "message": 0, "tag_length": 4}
    full = {"key": size, "nonce": size - 1, "data": 2 * size, "message": size, "tag_length": size}
    return lengths + [least, full]


def accepted_lines(rng, kind):
    """Seals that are accepted, and the opens of what they give."""
    size = BLOCK[kind]
    asked = [request(rng, kind, **lengths) for lengths in accepted_lengths(size)]
    for _ in range(10):
        ranges = {"key": (16, size), "nonce": (1, size - 1), "data": (1, 5 * size), "message": (0, 3 * size),
                  "tag_length": (4, size)}
        asked.append(request(rng, kind, **{name: rng.randint(*ends) for name, ends in ranges.items()}))
    for fill in (b"\x00", b"\x80", b"\xff"):
        strings = {"key": fill * size, "nonce": fill * 12, "data": fill * (2 * size + 1), "message": fill * (size + 1)}
        asked.append({"kind": kind} | strings | {"tag_length": size})
    # What padding makes of a text is another text.
    short = request(rng, kind, message=size - 5, data=size + 5)
    asked += [short, short | {"message": pad(short["message"], size)}, short | {"data": pad(short["data"], 2 * size)}]
    return [line for values in asked for line in seal_and_open(rng, values)]


def wrong_strings(rng, size):
    """Strings of lengths that are refused, the nearest first; three of the last are right ones and 256 more."""
    lengths = {"key": (15, size + 1, 0, 1, 2 * size, 256 + 16), "nonce": (0, size, size + 1, 2 * size, 256 + 12),
               "data": (0,), "tag": (3, size + 1, 0, 1, 2, 2 * size, 256 + 16)}
    return {name: [rng.randbytes(n) for n in wrong] for name, wrong in lengths.items()}


def each_and_all(rng, name, values, wrong):
    """The lines of a request with each wrong value alone, and with every set of wrong fields at once."""
    lines = [write_line(name, values | {field: value}) for field in wrong for value in wrong[field]]
    for present in product((False, True), repeat=len(wrong)):
        faults = {field: rng.choice(wrong[field][:2]) for field, here in zip(wrong, present) if here}
        lines.append(write_line(name, values | faults))
    return lines


def refused_lines(rng, kind):
    """Seals and opens that are refused, for one reason and for every set of reasons."""
    size = BLOCK[kind]
    wrong = wrong_strings(rng, size)
    tags = wrong.pop("tag")
    asked = request(rng, kind)
    lengths = [3, size + 1, 0, 1, 2, size + 2] + LARGE_TAGS
    lines = each_and_all(rng, b"seal", asked, wrong | {"tag_length": lengths})
    lines += each_and_all(rng, b"seal", asked, wrong | {"tag_length": [0, 2**64 + 16]})
    good = sealed(rng, asked) | {"place": rng.randbytes(23)}
    wrong |= {"tag": tags, "place": [rng.randbytes(n) for n in (20, 0, 1)]}
    return lines + each_and_all(rng, b"open", good, wrong | {"ciphertext": [flip(good["ciphertext"], 0)]})


def changed_lengths(values, size):
    """Changes of the lengths of a seal's parts; a zero byte after the key is the one that changes nothing."""
    c, tag, nonce, data, key = [values[name] for name in ("ciphertext", "tag", "nonce", "data", "key")]
    texts = [c[:-1], c[:size], c[: size - 1], c[:1], b"", c[1:], c + b"\0", c + b"\x80", c + c[-9:]]
    texts.append(c[size:] + c[:size])
    changes = [{"ciphertext": text} for text in texts]
    changes += [{"tag": other} for other in (tag[:-1], tag[:4], tag + b"\0", tag.ljust(size, b"\0"), tag[1:])]
    changes += [{"nonce": other} for other in (nonce[:-1], nonce + b"\0", nonce + b"\x80", nonce[1:], data[:12])]
    datas = [data[:-1], data[: 2 * size], data[:size], data[1:], data + b"\0", data + b"\x80", pad(data, 4 * size)]
    changes += [{"data": other} for other in datas + [nonce]]
    return changes + [{"key": other} for other in (key[:-1], key + b"\0", key + b"\x01", b"\0" + key)]


def altered_lines(rng, kind):
    """Opens of a seal in which something was changed."""
    size = BLOCK[kind]
    good = sealed(rng, request(rng, kind, message=size + 5, data=2 * size + 3))
    changes = changed_lengths(good, size) + [{"kind": 3 - kind}]
    for name in ("key", "nonce", "data", "ciphertext", "tag"):
        last = 8 * len(good[name]) - 1
        changes += [{name: flip(good[name], bit)} for bit in [0, last] + rng.sample(range(1, last), 4)]
    longest = max(len(change.get("ciphertext", b"")) for change in changes)
    lines = [write_line(b"open", good | {"place": rng.randbytes(longest + 2)} | change) for change in changes]
    small = sealed(rng, request(rng, kind, key=16, nonce=1, data=1, message=2, tag_length=size))
    for i in range(size):  # every byte of a tag counts
        lines.append(write_line(b"open", small | {"tag": flip(small["tag"], 8 * i + rng.randrange(8))}))
    return lines


def place_lines(rng, kind):
    """Opens to longer, equal and shorter places, with the right tag and a wrong one."""
    size = BLOCK[kind]
    lines = []
    for length in (0, 1, size - 1, size, 2 * size + 3):
        good = sealed(rng, request(rng, kind, message=length, data=3))
        for place_length in sorted({0, 1, length - 1, length, length + 1, length + 9, 256 + length} - {-1}):
            values = good | {"place": rng.randbytes(place_length)}
            lines.append(write_line(b"open", values))
            lines.append(write_line(b"open", values | {"tag": flip(good["tag"], rng.randrange(128))}))
        for fill in (b"\x00", b"\xff"):
            lines.append(write_line(b"open", good | {"place": fill * (length + 2), "nonce": b"\x01"}))
    return lines


def number_lines(rng):
    """Kinds that there are none of, and numbers written in other ways."""
    lines = []
    for kind in UNKNOWN_KINDS:
        values = request(rng, 1 + kind % 2)
        good = sealed(rng, values)
        for faults in ({}, {"key": b"", "nonce": b"", "data": b""}):
            place = rng.randbytes(rng.choice([0, 3, 21]))
            lines.append(write_line(b"seal", values | {"kind": kind} | faults))
            lines.append(write_line(b"open", good | {"kind": kind, "place": place} | faults))
        lines.append(write_line(b"seal", values | {"kind": kind, "tag_length": 2**64 + 16}))
    for form in NO_NUMBERS + SAME_NUMBERS:
        for kind in (b"1", b"2"):
            made, opened = seal_and_open(rng, request(rng, int(kind)))
            lines += [with_field(line, 1, form.replace(b"N", kind)) for line in (made, opened)]
            lines.append(with_field(made, 6, form.replace(b"N", b"16")))
    return lines


def broken_lines(line):
    """The line with each field left out, written twice, emptied, or changed by a character or two."""
    fields = line.split(b" ")
    for i, field in enumerate(fields):
        instead = [[], [field, field], [b""], [b"-"], [field + b"0"], [b"0" + field], [field[:-1]], [field + b"AB"],
                   [field + b"0g"], [field + b"-"], [b"-" + field], [field.upper()], [field + b"\r"], [b"0x" + field]]
        for changed in instead:
            yield b" ".join(fields[:i] + changed + fields[i + 1 :])


def bad_lines(rng):
    """Lines of a form that is none, or nearly."""
    made, opened = seal_and_open(rng, request(rng, 1, key=16, nonce=4, data=2, message=3, tag_length=8))
    doubling = b"double " + write_bytes(rng.randbytes(32))
    good = {b"D": b"5a" * 32, b"S": made.partition(b" ")[2], b"O": opened.partition(b" ")[2]}
    lines = [re.sub(rb"\b[DSO]\b", lambda letter: good[letter[0]], line) for line in BAD]
    for line in (doubling, made, opened):
        lines += broken_lines(line)
        for _ in range(40):  # one byte changed
            changed = bytearray(line)
            changed[rng.randrange(len(line))] = rng.choice(b"0123456789abcdefABCDEFg -+\r\t\0\xff")
            lines.append(bytes(changed))
    return lines


def long_lines(rng):
    """Texts of the greatest length, and of one byte more."""
    asked = [(1, "message", 65535), (2, "message", 65536), (1, "data", 65536)]
    lines = [write_line(b"seal", request(rng, kind, **{name: length})) for kind, name, length in asked]
    lines.append(write_line(b"open", sealed(rng, request(rng, 2, data=65535))))
    text = {"ciphertext": rng.randbytes(65536), "place": rng.randbytes(65536)}
    return lines + [write_line(b"open", sealed(rng, request(rng, 1)) | text)]


def omd_lines(rng):
    """Every line for doubling, sealing and opening."""
    lines = double_lines(rng) + number_lines(rng) + bad_lines(rng) + long_lines(rng)
    for kind in BLOCK:
        for make in (accepted_lines, refused_lines, altered_lines, place_lines):
            lines += make(rng, kind)
    return list(dict.fromkeys(lines))  # none twice
