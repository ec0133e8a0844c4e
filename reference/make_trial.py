"""Writes the test lines of the trial and their answers: make_trial.py STDIN_FILE STDOUT_FILE."""

import random
import sys

from trial import answer, open_block
from vectors import split_lines

# What every trial begins with: refusals of a fresh block, all codes taken, and some given back.
BEGINNING = [
    b"R 1 0", b"V 2", b"R 1 6", b"R 2 6", b"R 1 1", b"G 1 7", b"G 1 2", b"R 1 2", b"R 2 4", b"R 2 1", b"G 2 4", b"G 1 6",
]

# Requests that are refused, or write their numbers with zeros, or with more bits than a cell has.
ODD = [
    b"R 0 1", b"R 3 1", b"R 8 1", b"R 9 1", b"R 10 1", b"R 99999 1", b"R 65535 1", b"R 65536 1", b"R 65537 1", b"R 65538 1",
    b"R 0 0", b"R 3 0", b"R 00000 00000", b"R 1 0", b"R 2 00000", b"R 1 7", b"R 2 7", b"R 1 99999", b"R 2 65536",
    b"R 1 65537", b"R 2 65535", b"R 1 32768", b"R 00001 00001", b"R 002 1", b"R 1 01", b"R 257 1",
    b"G 0 1", b"G 3 1", b"G 99999 1", b"G 65537 1", b"G 65538 1", b"G 0 0", b"G 1 0", b"G 2 000", b"G 1 7", b"G 2 10",
    b"G 1 99999", b"G 2 65536", b"G 1 65537", b"G 00001 00001", b"G 02 1", b"G 257 1",
    b"V 0", b"V 3", b"V 9", b"V 99999", b"V 65536", b"V 65537", b"V 65538", b"V 00000", b"V 257",
]

# Lines of another form.
BAD = [
    b"", b" ", b"  ", b"?", b"? 0 0", b"\r", b"\t", b"\0", b"R", b"G", b"V", b"S", b"R ", b"G ", b"V ", b"R  ", b"V  ",
    b"R 1", b"G 2", b"R 1 ", b"G 2 ", b"R  1", b"R  1 1", b"R 1  1", b"G 1  1", b" R 1 1", b" V 1", b"R 1 1 ", b"G 1 1 ",
    b"V 1 ", b"V  1", b"V 1  ", b"R 1 1 1", b"G 1 1 1", b"V 1 1", b"V 1 x", b"R1 1", b"R11", b"V1", b"R 1\t1", b"R\t1 1",
    b"V\t1", b"R 1 6\r", b"G 1 1\r", b"V 1\r", b"R 1\r1", b"\rR 1 1", b"R 1 1\0", b"V 1\0", b"R\x001 1", b"\0V 1",
    b"r 1 1", b"g 1 1", b"v 1", b"RR 1 1", b"VV 1", b"RG 1 1", b"1 1 1", b"1", b"1 1", b"D 1", b"T 1", b"Q 1 1", b"S 1 1",
    b"H 1 1", b"F 1 1", b"U 1", b"W 1", b"S 1", b"S 1 ", b"S 1 text", b"S 2 some text", b"S 000001 text",
    b"R 000001 1", b"R 1 000001", b"G 000001 1", b"G 1 000001", b"V 000001", b"R 123456 1", b"R 1 100000", b"V 100000",
    b"R 4294967297 1", b"R 1 4294967297", b"V 18446744073709551617", b"G 1 18446744073709551617", b"V 0000000000000001",
    b"R +1 1", b"R -1 1", b"R 1 -1", b"R 1 +1", b"V +1", b"V -1", b"R 1. 1", b"R 1.0 1", b"R 1 1.", b"R 0x1 1", b"R 1 0x1",
    b"R 1_0 1", b"R 1 1_0", b"R 1,1", b"R 1;1", b"R a 1", b"R 1 a", b"V a", b"V 1a", b"R 1a 1", b"R 1 1a", b"R /1 1",
    b"R :1 1", b"R 1/ 1", b"R 1: 1", b"V /", b"V :", b"V 1:", b"R 1 /", b"R 1 :", b"R 1!1", b"R!1 1", b"Q!1", b"V!1",
    b"\xff", b"\xff\xfe", b"\xc3\xa9", b"R \xd9\xa1 1", b"R 1 \xb9", b"V \xc2\xb2", b"R 1\xa01", b"R\xa01 1",
    b"\xef\xbb\xbfR 1 1", b"\xd2 1 1", b"R 1 \xb1", b"V \xb1", b"R \x81 1", b"R 1 1\x0b", b"V 1\x0c", b"R 1 1\x85",
]


def long_lines():
    """Lines around 200 bytes, and far longer ones."""
    lines = []
    for length in (199, 200, 201, 202, 255, 256, 257, 261, 456):
        for start, fill in ((b"R 1 ", b"0"), (b"R ", b"1"), (b"V ", b"0"), (b"S 1 ", b"x"), (b"R 1 1", b" "), (b"", b"\xff")):
            lines.append(start + fill * (length - len(start)))
    return lines + [b"R 1 1" + b"1" * 5000, b"V 1" + bytes(65536)]


def request(rng):
    """A reserve or a give back that may well be accepted."""
    letter, station = rng.choice(b"RG"), rng.choice([1, 2])
    return b"%c %d %d" % (letter, station, rng.choice([1, 1, 1, 2, 2, 3, 4, 5, 6]))


def changed(rng, line):
    """The line with one byte changed, taken out or put in."""
    at, byte = rng.randrange(len(line)), bytes([rng.choice(b"0123456789RGVS  -\r\t\0\xff")])
    return rng.choice([line[:at] + byte + line[at + 1:], line[:at] + line[at + 1:], line[:at] + byte + line[at:]])


def make_lines(rng):
    """Every test line, in order."""
    others = 2 * ODD + BAD + long_lines()
    others += [rng.randbytes(rng.randrange(1, 120)).replace(b"\n", b"\x0b") for _ in range(40)]
    others += [request(rng) for _ in range(1500)]
    rng.shuffle(others)
    # A void takes its code out of the block for good: one comes every 150 lines.
    lines = []
    for i, line in enumerate(others):
        lines.append(line)
        if i % 150 == 149:
            lines += [b"V %d" % rng.choice([1, 2]), b"V %05d" % rng.choice([0, 3])]
    # No code is left after these; then what nearly is a request.
    lines += 6 * [b"R 1 1", b"V 1", b"R 2 1", b"V 2"] + ODD
    lines += [changed(rng, rng.choice([request(rng), b"V 1", b"V 2"])) for _ in range(150)]
    return BEGINNING + [line for line in lines if b"\n" not in line] + [b"", b"", b"V 1"]


def check_examples():
    """The worked examples of a block of ten codes with two stations, guarantee 4 and limit 6 each."""
    block = open_block()
    assert block.reserve(1, 0) == (7, 0)
    assert block.draw(2) == (11, 0)
    assert block.reserve(1, 6) == (0, 4)
    assert block.reserved == [[6, 5, 4, 3, 2, 1], []]
    assert block.reserve(2, 6) == (10, 0)
    assert block.reserve(1, 1) == (9, 0)
    assert block.give_back(1, 7) == (8, 0)
    assert block.reserve(2, 4) == (0, 0)
    assert block.reserved[1] == [10, 9, 8, 7] and block.free == []
    block = open_block()
    assert block.reserve(1, 6) == (0, 4)
    assert block.give_back(1, 2) == (0, 6) and block.free == [5, 6, 7, 8, 9, 10]
    block = open_block()
    assert block.reserve(1, 6) == (0, 4)
    assert block.draw(1) == (0, (1, 1, 6, 1))
    assert block.void((1, 1, 5, 1)) == block.void((1, 1, 6, 2)) == block.void((2, 1, 6, 1)) == (12, 0)
    assert block.void((1, 1, 6, 3)) == (6, 0)
    assert block.void((1, 1, 6, 1)) == (0, 6) and block.void((1, 1, 6, 1)) == (12, 0)


def check_block(block):
    """Each code stands in one list, or in none once it is drawn, and its status says so."""
    rows = [("free", 0, block.free)] + [("reserved", i + 1, row) for i, row in enumerate(block.reserved)]
    listed = {code: (status, station) for status, station, row in rows for code in row}
    assert len(listed) == sum(len(row) for _, _, row in rows)
    for code, status in block.status.items():
        assert listed.get(code, status) == status and (code in listed) == (status[0] in ("free", "reserved"))
    for station, (_, limit) in enumerate(block.stations, 1):
        assert block.taken(station) <= limit
    assert sum(block.lacking(station) for station in (1, 2)) <= len(block.free)


def is_request(line):
    """Whether a line is a request, worked out field by field."""
    letter, *numbers = line.split(b" ")
    wanted = {b"R": 2, b"G": 2, b"V": 1}.get(letter)
    return len(numbers) == wanted and all(0 < len(n) < 6 and not n.strip(b"0123456789") for n in numbers)


def check_answers(lines, answers):
    """The lines that are no requests have their answer, every refusal is met, and all codes are void in the end."""
    for line, printed in zip(lines, answers, strict=True):
        assert (printed == b"? 0 0") == (not is_request(line))
        assert printed[:1] in (line[:1], b"?")
    met = {tuple(printed.split(b" ")[:2]) for printed in answers}
    wanted = {b"R": (0, 6, 7, 9, 10), b"G": (0, 6, 7, 8), b"V": (0, 6, 11), b"?": (0,)}
    assert met == {(letter, b"%d" % number) for letter, numbers in wanted.items() for number in numbers}
    voided = [int(printed[4:]) for printed in answers if printed.startswith(b"V 0 ")]
    assert sorted(voided) == list(range(1, 11))


def main():
    """Makes the lines, checks the answers, and writes both files."""
    check_examples()
    stdin = b"\n".join(make_lines(random.Random(19070412)))
    lines, block, answers = split_lines(stdin), open_block(), []
    for line in lines:
        answers.append(answer(block, line))
        check_block(block)
    check_answers(lines, answers)
    with open(sys.argv[1], "wb") as file:
        file.write(stdin)
    with open(sys.argv[2], "wb") as file:
        file.write(b"".join(printed + b"\n" for printed in answers))


if __name__ == "__main__":
    main()
