"""Sealing and opening by Offset Merkle-Damgard (OMD) over the keyed compressions, and its doubling."""

from compressions import compress

# The block length of each kind, in bytes.
BLOCK = {1: 32, 2: 64}
# What doubling folds in where a 1 falls out, by the length of the string.
FOLD = {32: 0x0425, 64: 0x0125}
LONGEST_TEXT = 65535


def xor(x, y):
    """The XOR of two strings of bytes; the longer one is cut to the shorter."""
    return bytes(a ^ b for a, b in zip(x, y))


def double(data):
    """A string of 32 or 64 bytes moved one bit to the left, with the fold XORed in where a 1 falls out."""
    bits = 8 * len(data)
    out, rest = divmod(2 * int.from_bytes(data, "big"), 2**bits)
    return (rest ^ (FOLD[len(data)] if out else 0)).to_bytes(len(data), "big")


def step(base, i):
    """L(n), n being the number of zero bits that i ends with: L(0) is 4L, and L(n) is L(n - 1) doubled."""
    base = double(double(base))
    while i % 2 == 0:
        base, i = double(base), i // 2
    return base


def blocks(data, size):
    """The blocks of `size` bytes of a string: only the last may be shorter, the empty string is one empty block."""
    return [data[i : i + size] for i in range(0, len(data), size)] or [b""]


def pad(block, size):
    """A block of fewer than `size` bytes with a byte 0x80 and zeros added, up to `size` bytes."""
    return (block + b"\x80").ljust(size, b"\0")


def sum_of_data(f, base, data):
    """G: the XOR of one compression for each block, of twice the length, of the associated data."""
    size = len(base)
    mask, total = bytes(size), bytes(size)
    for i, block in enumerate(blocks(data, 2 * size), 1):
        if len(block) == 2 * size:
            mask = xor(mask, step(base, i))
        else:
            mask = xor(mask, base)
            block = pad(block, 2 * size)
        total = xor(total, f(xor(block[:size], mask), block[size:]))
    return total


def last_value(f, base, d, h, block):
    """E: what the last message block makes of the mask D and the chaining value H."""
    size = len(base)
    if block == b"":
        return h
    if len(block) == size:
        return f(xor(xor(h, d), double(base)), block)
    return f(xor(xor(h, d), xor(double(base), base)), pad(block, size))


def run(kind, key, nonce, data, text, tag_length, opening):
    """(text, tag): of a message its ciphertext, or of a ciphertext its message where `opening`; both the same tag."""
    size = BLOCK[kind]

    def f(chaining, message):
        return compress(kind, key, chaining, message)[1]

    base = f(bytes(size), bytes(size))
    d = xor(f(pad(nonce, size), bytes(size)), step(base, 1))
    h = f(d, (8 * tag_length).to_bytes(size, "big"))
    given = blocks(text, size)
    made = []
    for i, block in enumerate(given, 1):
        made.append(xor(h, block))
        message = made[-1] if opening else block
        if i < len(given):
            d = xor(d, step(base, i + 1))
            h = f(xor(h, d), message)
    tag = xor(last_value(f, base, d, h, message), sum_of_data(f, base, data))
    return b"".join(made), tag[:tag_length]


def refusal(kind, key, nonce, data, text, tag_length, place_length):
    """The number of the refusal, or 0; the smallest where several apply, but an unknown kind before all."""
    if kind not in BLOCK:
        return 16  # no compression of that kind
    if len(key) < 16 or len(key) > BLOCK[kind]:
        return 5  # a key length outside the kind's range
    if place_length < len(text):
        return 18  # a place too short for the text
    if len(nonce) < 1 or len(nonce) >= BLOCK[kind]:
        return 20  # no nonce, or a whole block or more
    if tag_length < 4 or tag_length > BLOCK[kind]:
        return 21  # a tag of under 4 bytes, or of more than a block
    if len(data) < 1 or max(len(data), len(text)) > LONGEST_TEXT:
        return 22  # no associated data, or a text too long
    return 0


def seal(kind, key, nonce, data, message, tag_length):
    """(refusal number, ciphertext, tag), with no bytes on a refusal."""
    number = refusal(kind, key, nonce, data, message, tag_length, len(message))
    if number != 0:
        return number, b"", b""
    return 0, *run(kind, key, nonce, data, message, tag_length, False)


def open_sealed(kind, key, nonce, data, ciphertext, tag, place):
    """(refusal number, length of the message, the place afterwards), the message at the front of the place."""
    number = refusal(kind, key, nonce, data, ciphertext, len(tag), len(place))
    if number != 0:
        return number, 0, place
    message, right = run(kind, key, nonce, data, ciphertext, len(tag), True)
    rest = place[len(message) :]
    if tag != right:
        return 23, 0, bytes(len(message)) + rest  # a tag that sealing does not give
    return 0, len(message), message + rest
