"""Answers the lines of standard input over one block, one printed line for each."""

import re
import sys

from book import Block
from vectors import split_lines

LONGEST = 200

# Each form is a letter and its numbers.
FORM = re.compile(rb"([RG]) ([0-9]{1,5}) ([0-9]{1,5})|(V) ([0-9]{1,5})")


def open_block():
    """The block of the trial: ten codes, two stations with guarantee 4 and limit 6 each."""
    return Block(1, 1, 10, [(4, 6), (4, 6)])


def read_request(line):
    """The letter of a line and the list of its numbers, or two times None where it is no request."""
    form = FORM.fullmatch(line)
    if len(line) > LONGEST or form is None:
        return None, None
    letter, *numbers = [field for field in form.groups() if field is not None]
    return letter, [int(number) for number in numbers]


def draw_and_void(block, station):
    """What V answers: the refusal of the draw, or what the void answers."""
    refusal, slip = block.draw(station)
    return (refusal, 0) if refusal else block.void(slip)


def answer(block, line):
    """The line printed for one line of input, neither with its byte 10."""
    letter, numbers = read_request(line)
    if letter is None:
        return b"? 0 0"
    call = {b"R": Block.reserve, b"G": Block.give_back, b"V": draw_and_void}[letter]
    return letter + b" %d %d" % call(block, *numbers)


def main():
    """Answers all of standard input."""
    block = open_block()
    for line in split_lines(sys.stdin.buffer.read()):
        sys.stdout.buffer.write(answer(block, line) + b"\n")


if __name__ == "__main__":
    main()
