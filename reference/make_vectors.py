"""Writes the test lines and their answers: make_vectors.py STDIN_FILE STDOUT_FILE."""

import hashlib
import random
import re
import sys

from compressions import BLAKE2B_IV, SHA256_IV, blake2b_f, compress, to_bytes, to_words
from vectors import answer, read_bytes, split_lines, write_bytes

TWO_BLOCKS = b"abcdbcdecdefdefgefghfghighijhijkijkljklmklmnlmnomnopnopq"
LONG = (b"abcdefghbcdefghicdefghijdefghijkefghijklfghijklmghijklmn"
        b"hijklmnoijklmnopjklmnopqklmnopqrlmnopqrsmnopqrstnopqrstu")

# The published digests: hash, message, digest.
PUBLISHED = [
    (b"sha256", b"abc", b"ba7816bf8f01cfea414140de5dae2223b00361a396177a9cb410ff61f20015ad"),
    (b"sha256", TWO_BLOCKS, b"248d6a61d20638b8e5c026930c3e6039a33ce45964ff2167f6ecedd419db06c1"),
    (b"sha256", LONG, b"cf5b16a778af8380036ce59e7b0492370b249b11e8f07a51afac45037afee9d1"),
    (b"sha256", b"", b"e3b0c44298fc1c149afbf4c8996fb92427ae41e4649b934ca495991b7852b855"),
    (b"blake2b", b"abc", b"ba80a53f981c4d0d6a2797b69f12f6e94c212f14685ac4b74b12bb6fdbffa2d1"
                         b"7d87c5392aab792dc252d5de4533cc9518d38aa8dbf1925ab92386edd4009923"),
    (b"blake2b", b"", b"786a02f742015903c6c6fd852552d272912f4740e15847618a86e217f71f5419"
                      b"d25e1031afee585313896444934eb04b903a685b1448b755d56f701afe9be2ce"),
]

# Lines that are answered with a question mark; G stands for a good 32-byte field.
BAD = [
    b"", b" ", b"-", b"?", b"\r", b"\t", b"\0", b"sha256", b"blake2b", b"compress", b"sha256 ", b" sha256 -",
    b"sha256  -", b"sha256 - ", b"sha256 -\r", b"sha256 61\r", b"sha256\t61", b"sha256 61\t", b"sha256 - -",
    b"sha256 61 62", b"sha256 --", b"sha256 -61", b"sha256 61-", b"sha256 6", b"sha256 616", b"sha256 AB",
    b"blake2b Ab", b"sha256 6g", b"sha256 /0", b"sha256 0:", b"sha256 `a", b"blake2b 6\0", b"sha256 \xc3\xa9",
    b"blake2b \xff\xff", b"sha25 61", b"sha2566 61", b"SHA256 61", b"blake2s 61", b"\xef\xbb\xbfsha256 61",
    b"compress 1", b"compress 1 G", b"compress 1 G G G G", b"compress 1 G G G ", b" compress 1 G G G",
    b"compress  1 G G G", b"compress  G G G", b"compress 1  G G", b"compress 1 G  G", b"compress 1 G G ",
    b"compress 1 G G G\r", b"compress 1\tG G G", b"compress +1 G G G", b"compress -1 G G G",
    b"compress - G G G", b"compress 1. G G G", b"compress 1_0 G G G", b"compress 0x1 G G G",
    b"compress a G G G", b"compress 1\0 G G G", b"compress \xd9\xa1 G G G", b"compress \xb9 G G G",
    b"compress 1 G0 G G", b"compress 1 G G0 G", b"compress 1 G G G0", b"compress 1 AB G G",
    b"compress 1 G AB G", b"compress 1 G G AB", b"compress 9 x G G", b"compress G G G", b"Compress 1 G G G",
    b"compression 1 G G G", b"sha256 1 G G G",
]


def compress_line(rng, kind, key_length, chaining_length, message_length):
    """A line that asks for a compression of random bytes of the lengths given."""
    fields = [write_bytes(rng.randbytes(n)) for n in (key_length, chaining_length, message_length)]
    return b" ".join([b"compress", kind] + fields)


def make_lines(rng):
    """Every test line, in order."""
    lines = [name + b" " + write_bytes(message) for name, message, _ in PUBLISHED]
    for length in list(range(131)) + [255, 256, 257]:
        message = write_bytes(rng.randbytes(length))
        lines += [b"sha256 " + message, b"blake2b " + message]
    rest = []
    for kind, size in ((b"1", 32), (b"2", 64)):
        for key_length in [0, 1, 15, 16, size, size + 1] + 2 * (list(range(14, 35)) + list(range(62, 67))):
            rest.append(compress_line(rng, kind, key_length, size, size))
        for key_length in (15, 20):
            for wrong in (0, 1, size - 1, size + 1, 96 - size, 128):
                for blocks in ((wrong, size), (size, wrong), (wrong, wrong)):
                    rest.append(compress_line(rng, kind, key_length, *blocks))
        for fill in (b"00", b"ff", b"80", b"01"):
            rest.append(b" ".join([b"compress", kind] + 3 * [fill * size]))
    absent = [0, 3, 4, 5, 6, 7, 8, 9, 10, 11, 12, 21, 256, 257, 258, 513, 65537, 2**32, 2**32 + 1, 2**32 + 2]
    absent += [2**64, 2**64 + 1, 2**64 + 2, 2**128 + 1, 2**128 + 2, 10**49 + 1, 7 * 10**400 + 2]
    for kind in [b"%d" % number for number in absent] + [b"00", b"0" * 60, b"003", b"1" * 5000]:
        rest.append(compress_line(rng, kind, 20, 32, 32))
        rest.append(compress_line(rng, kind, rng.choice([0, 15, 64]), 64, rng.choice([0, 64])))
    for kind in (b"01", b"001", b"0" * 50 + b"1", b"0" * 5000 + b"1"):
        rest += [compress_line(rng, kind, 32, 32, 32), compress_line(rng, kind[:-1] + b"2", 17, 64, 64)]
    for length in (2500, 5000):
        message = write_bytes(rng.randbytes(length))
        rest += [b"sha256 " + message, b"blake2b " + message, b"sha256 " + message[1:]]
    rest += [line.replace(b"G", b"5a" * 32) for line in BAD]
    for _ in range(60):  # a good line with one byte changed
        line = bytearray(compress_line(rng, rng.choice([b"1", b"2"]), 16, 32, 32))
        line[rng.randrange(len(line))] = rng.choice(b"0123456789abcdefABCDEFg -+\r\t\0\xff")
        rest.append(bytes(line))
    for _ in range(40):
        rest.append(rng.randbytes(rng.randrange(1, 120)).replace(b"\n", b"\x0b"))
    rng.shuffle(rest)
    return lines + rest + [compress_line(rng, b"2", 33, 64, 64)]


def check(lines, answers, rng):
    """Whether the answers are those of the published digests, of hashlib and of the grammar."""
    good = all(answers[i] == name + b" " + digest for i, (name, _, digest) in enumerate(PUBLISHED))
    data = rb"(-|([0-9a-f]{2})+)"
    grammar = re.compile(rb"(sha256|blake2b) %b|compress [0-9]+ %b %b %b" % (data, data, data, data))
    for line, printed in zip(lines, answers, strict=True):
        good = good and (printed != b"?") == (grammar.fullmatch(line) is not None)
        name, _, message = line.partition(b" ")
        if printed != b"?" and name in (b"sha256", b"blake2b"):
            digest = hashlib.new(name.decode("ascii"), read_bytes(message)).digest()
            good = good and printed == name + b" " + write_bytes(digest)
    # A whole hash that goes through compress: its first block is one compression.
    iv = to_bytes(SHA256_IV, 4, "big")
    for n in range(16, 33):
        key, message = rng.randbytes(n), rng.randbytes(32)
        out = compress(1, key, iv, message)[1]
        out = compress(1, b"\x80" + bytes(31), out, bytes(30) + b"\x02\0")[1]  # the padding of 512 bits
        good = good and out == hashlib.sha256(key + bytes(32 - n) + message).digest()
    iv = to_bytes([BLAKE2B_IV[0] ^ 0x01010040] + BLAKE2B_IV[1:], 8, "little")
    for n in range(16, 65):
        key, message = rng.randbytes(n), rng.randbytes(64)
        h = to_words(compress(2, key, iv, message)[1], 8, "little")
        out = to_bytes(blake2b_f(h, b"x" + bytes(127), 129, True), 8, "little")
        good = good and out == hashlib.blake2b(key + bytes(64 - n) + message + b"x").digest()
    return good


def main():
    """Makes the lines, checks the answers, and writes both files."""
    rng = random.Random(20140819)
    stdin = b"\n".join(make_lines(rng))
    lines = split_lines(stdin)
    answers = [answer(line) for line in lines]
    if not check(lines, answers, rng):
        sys.exit("The answers are not those of the standards: nothing is written.")  # status 1
    with open(sys.argv[1], "wb") as file:
        file.write(stdin)
    with open(sys.argv[2], "wb") as file:
        file.write(b"".join(printed + b"\n" for printed in answers))


if __name__ == "__main__":
    main()
