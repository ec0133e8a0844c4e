"""The sample card of examples/ and docs/CARD_FORMAT.md. Writes its files: sample_card.py FOLDER."""

import os
import sys

from images import FIXED_BYTES, TAG_BYTES, build
from omd_lines import write_line

KIND, KEY = 1, bytes(range(16))
LABEL = (7, 2, 1234, 3)  # site, block, code, station
HEADER, MESSAGE = b"T4", b"doors 1-9"
IMAGE = build(KIND, KEY, LABEL, HEADER, MESSAGE)


def sample_lines():
    """The lines of `vectors` that seal the card's message, look at the card, and open it to a place of 12 bytes."""
    front = IMAGE[: FIXED_BYTES + len(HEADER)]
    sealing = {"kind": KIND, "key": KEY, "nonce": front[1:13], "data": front, "message": MESSAGE, "tag": TAG_BYTES}
    opening = {"kind": KIND, "key": KEY, "image": IMAGE, "place": b"\xff" * 12}
    looking = {"kind": KIND, "image": IMAGE}
    return [write_line(b"seal", sealing), write_line(b"look", looking), write_line(b"image", opening)]


def main():
    """Writes the card, its key, and the lines."""
    files = {"card.bin": IMAGE, "card.key": KEY, "card-lines.txt": b"".join(line + b"\n" for line in sample_lines())}
    for name, data in files.items():
        with open(os.path.join(sys.argv[1], name), "wb") as file:
            file.write(data)


if __name__ == "__main__":
    main()
