"""The same through Python's ctypes: test.py SHARED_OBJECT CASES_FILE COUNT."""

import ctypes
import sys

from cases import unpacked

GUARD = b"\xa5" * 64


class Opened(ctypes.Structure):
    """struct hurbezki_opened."""

    _fields_ = [("refusal", ctypes.c_uint32), ("length", ctypes.c_uint32)]


def load(path):
    """The function of the shared object, declared as in include/hurbezki.h."""
    function = ctypes.CDLL(path).hurbezki_open_image
    string = [ctypes.c_char_p, ctypes.c_size_t]
    function.argtypes = [ctypes.c_uint32] + string + string + [ctypes.c_void_p, ctypes.c_size_t]
    function.restype = Opened
    return function


def opened(function, case):
    """(refusal, length, place afterwards with the guard bytes around it)."""
    buffer = ctypes.create_string_buffer(GUARD + case.place + GUARD, 2 * len(GUARD) + len(case.place))
    place = ctypes.addressof(buffer) + len(GUARD)
    got = function(case.kind, case.key, len(case.key), case.image, len(case.image), place, len(case.place))
    return got.refusal, got.length, buffer.raw


def main():
    """Compares every case of the file."""
    function = load(sys.argv[1])
    with open(sys.argv[2], "rb") as file:
        data = file.read()
    count = 0
    for case, refusal, length, after in unpacked(data):
        if opened(function, case) != (refusal, length, GUARD + after + GUARD):
            sys.exit(f"tests/host: case {count} differs through ctypes, refusal {refusal} expected")
        count += 1
    if count != int(sys.argv[3]):
        sys.exit(f"tests/host: {count} cases and not {sys.argv[3]}")
    print(f"Python: {count} images answered as by the reference")


if __name__ == "__main__":
    main()
