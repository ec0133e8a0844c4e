"""Answers the test lines of standard input, one printed line for each."""

import sys

from compressions import blake2b, compress, sha256
from images import look, open_image
from omd import double, open_sealed, seal

# The lines by their first field: the forms of the others, B for a byte string and N for a number.
FORMS = {
    b"sha256": "B",
    b"blake2b": "B",
    b"compress": "NBBB",
    b"double": "B",
    b"seal": "NBBBBN",
    b"open": "NBBBBBB",
    b"look": "NB",
    b"image": "NBBB",
}


def read_bytes(field):
    """The byte string a field writes, or None where it writes none."""
    if field == b"-":
        return b""
    if field == b"" or len(field) % 2 != 0:
        return None
    if any(digit not in b"0123456789abcdef" for digit in field):
        return None
    return bytes.fromhex(field.decode("ascii"))


def read_number(field):
    """The number a field writes, or None; those above 18 digits all read as 10**18."""
    if field == b"" or any(digit not in b"0123456789" for digit in field):
        return None
    digits = field.lstrip(b"0")
    if len(digits) > 18:
        return 10**18
    return int(b"0" + digits)


def write_bytes(data):
    """The field that writes a byte string."""
    return data.hex().encode("ascii") if data else b"-"


def write_part(part):
    """The field that writes a part of an image: its offset and its bytes, or nothing."""
    return b"-" if part is None else b"%d:%b" % (part[0], write_bytes(part[1]))


def read_fields(line):
    """The first field of a line and the list of what the others write, or two times None where it is no request."""
    name, *fields = line.split(b" ")
    form = FORMS.get(name, "")
    values = [read_number(field) if kind == "N" else read_bytes(field) for kind, field in zip(form, fields)]
    if form == "" or len(fields) != len(form) or None in values:
        return None, None
    return name, values


def answer(line):
    """The line printed for one line of input, neither with its byte 10."""
    name, values = read_fields(line)
    if name == b"sha256":
        return b"sha256 " + write_bytes(sha256(*values))
    if name == b"blake2b":
        return b"blake2b " + write_bytes(blake2b(*values))
    if name == b"compress":
        number, out = compress(*values)
        return b"compress %d %b" % (number, write_bytes(out))
    if name == b"double" and len(values[0]) in (32, 64):
        return b"double " + write_bytes(double(*values))
    if name == b"seal":
        number, ciphertext, tag = seal(*values)
        return b"seal %d %b %b" % (number, write_bytes(ciphertext), write_bytes(tag))
    if name == b"open":
        number, length, place = open_sealed(*values)
        return b"open %d %d %b" % (number, length, write_bytes(place))
    if name == b"look":
        number, *parts = look(*values)
        return b" ".join([b"look %d" % number] + [write_part(part) for part in parts])
    if name == b"image":
        number, length, place = open_image(*values)
        return b"image %d %d %b" % (number, length, write_bytes(place))
    return b"?"


def split_lines(data):
    """The lines of the input: byte 10 ends a line, and so does the end of the input."""
    lines = data.split(b"\n")
    return lines[:-1] if lines[-1] == b"" else lines


if __name__ == "__main__":
    for input_line in split_lines(sys.stdin.buffer.read()):
        sys.stdout.buffer.write(answer(input_line) + b"\n")
