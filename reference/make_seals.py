"""Writes the test lines for doubling, sealing, opening and card images, with their answers; it fails where a check of
the answers does."""

import random
import re
import sys

from image_check import check_images
from image_lines import image_lines
from omd_check import check_omd
from omd_lines import omd_lines
from vectors import answer, split_lines

# The lines that are answered with more than a mark, N being a number and B a byte string.
GRAMMAR = (rb"(sha256|blake2b) B|compress N B B B|double ([0-9a-f]{64}){1,2}|seal N B B B B N|open N B B B B B B"
           rb"|look N B|image N B B B")


# The worked example of docs/SEALING.md.
WORKED = b"seal 1 6c2a9ea491ab781cfd8878adf10458c4 4380ecdb ae9f e25c8d 8"


def check(lines, answers, rng):
    """Whether the answers are those of the grammar and of the other checks."""
    grammar = re.compile(GRAMMAR.replace(b"N", rb"[0-9]+").replace(b"B", rb"(-|([0-9a-f]{2})+)"))
    good = all((printed != b"?") == (grammar.fullmatch(line) is not None)
               for line, printed in zip(lines, answers, strict=True))
    return good and check_omd(lines, answers, rng) and check_images(lines, answers, rng)


def main():
    """Makes the lines, checks the answers, and writes both files."""
    rng = random.Random(20140819)
    sealed = omd_lines(rng)
    rng.shuffle(sealed)
    stdin = b"\n".join([WORKED] + sealed + image_lines(rng))
    lines = split_lines(stdin)
    answers = [answer(line) for line in lines]
    if not check(lines, answers, rng):
        sys.exit("A check of the answers fails: nothing is written.")  # status 1
    with open(sys.argv[1], "wb") as file:
        file.write(stdin)
    with open(sys.argv[2], "wb") as file:
        file.write(b"".join(printed + b"\n" for printed in answers))


if __name__ == "__main__":
    main()
