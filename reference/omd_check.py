"""Checks of doubling, sealing and opening by other ways than those of omd.py: numbers, and products of polynomials."""

from compressions import compress
from omd_lines import flip, request, sealed, write_line
from vectors import answer, read_bytes, read_fields, write_bytes

# The polynomials that strings of 256 and 512 bits are multiplied modulo, a bit for each term.
MODULUS = {
    256: 2**256 + 2**10 + 2**5 + 2**2 + 1,
    512: 2**512 + 2**8 + 2**5 + 2**2 + 1,
}


def remainder(x, y):
    """The remainder of the polynomial x divided by y."""
    for shift in reversed(range(x.bit_length() - y.bit_length() + 1)):
        if x >> (shift + y.bit_length() - 1) & 1:
            x ^= y << shift
    return x


def times(x, y, bits):
    """The product of two polynomials modulo that of `bits` bits."""
    total = 0
    for shift in range(y.bit_length()):
        total ^= (x << shift) * (y >> shift & 1)
    return remainder(total, MODULUS[bits])


def is_field(bits):
    """Whether the modulus has no factors, so that the products are those of a field (Rabin's test)."""
    powers = [2]  # x, squared again and again
    for _ in range(bits):
        powers.append(times(powers[-1], powers[-1], bits))
    x, y = MODULUS[bits], powers[bits // 2] ^ 2
    while y != 0:
        x, y = y, remainder(x, y)
    return powers[bits] == 2 and x == 1


def number_of(block, size):
    """A block as a number of `size` bytes: a shorter one is followed by a bit 1 and by bits 0."""
    missing = 8 * (size - len(block))
    number = int.from_bytes(block, "big")
    return (2 * number + 1) << (missing - 1) if missing > 0 else number


def parts(text, size):
    """The blocks of a text, each with its number from 1 on and whether it is the last; the empty text has none."""
    count = -(-len(text) // size)
    return [(i, i == count, text[size * (i - 1) : size * i]) for i in range(1, count + 1)]


def work_out(kind, key, nonce, data, text, tag_length, opening):
    """The other text and the tag, on numbers, each mask being a product: i steps add up to 4L times i's Gray code."""
    size = 32 * kind
    bits = 8 * size

    def f(chaining, message):
        out = compress(kind, key, chaining.to_bytes(size, "big"), message.to_bytes(size, "big"))[1]
        return int.from_bytes(out, "big")

    def mask(steps, extra):
        return times(base, 4 * (steps ^ steps >> 1) ^ extra, bits)

    base = f(0, 0)
    start = f(number_of(nonce, size), 0)
    h = f(start ^ mask(1, 0), 8 * tag_length)
    made = []
    for i, last, part in parts(text, size):
        other = int.from_bytes(part, "big") ^ h >> 8 * (size - len(part))
        made.append(other.to_bytes(len(part), "big"))
        offset = mask(i + 1, 0) if not last else mask(i, 2 if len(part) == size else 3)
        h = f(h ^ start ^ offset, number_of(made[-1] if opening else part, size))
    for i, _, part in parts(data, 2 * size):
        left, right = divmod(number_of(part, 2 * size), 2**bits)
        h ^= f(left ^ (mask(i, 0) if len(part) == 2 * size else mask(i - 1, 1)), right)
    return b"".join(made), h.to_bytes(size, "big")[:tag_length]


def number_expected(kind, key, nonce, data, text, tag_length, room):
    """The number of the refusal that lengths give, the least of all that apply, or 0."""
    size = 32 * kind
    applies = {
        22: len(data) not in range(1, 65536) or len(text) not in range(65536),
        21: tag_length not in range(4, size + 1),
        20: len(nonce) not in range(1, size),
        18: room < len(text),
        5: len(key) not in range(16, size + 1),
    }
    return min((number for number in applies if applies[number]), default=0)


def seal_expected(kind, key, nonce, data, message, tag_length):
    """The answer to a seal."""
    number = 16
    if kind in (1, 2):
        number = number_expected(kind, key, nonce, data, message, tag_length, len(message))
    if number != 0:
        return b"seal %d - -" % number
    ciphertext, tag = work_out(kind, key, nonce, data, message, tag_length, False)
    return b"seal 0 %b %b" % (write_bytes(ciphertext), write_bytes(tag))


def open_expected(kind, key, nonce, data, ciphertext, tag, place):
    """The answer to an open."""
    number = 16
    if kind in (1, 2):
        number = number_expected(kind, key, nonce, data, ciphertext, len(tag), len(place))
    if number != 0:
        return b"open %d 0 %b" % (number, write_bytes(place))
    message, right = work_out(kind, key, nonce, data, ciphertext, len(tag), True)
    after = bytearray(place)
    after[: len(message)] = message if tag == right else bytes(len(message))
    return (b"open 0 %d " % len(message) if tag == right else b"open 23 0 ") + write_bytes(after)


def double_expected(data):
    """The answer to a doubling of 32 or 64 bytes: the product with the polynomial x."""
    product = times(int.from_bytes(data, "big"), 2, 8 * len(data))
    return b"double " + write_bytes(product.to_bytes(len(data), "big"))


def opens_again(values, printed, rng):
    """Whether a seal's ciphertext and tag have their lengths, and open to the message; the rest of the place stays."""
    kind, key, nonce, data, message, tag_length = values
    ciphertext, tag = [read_bytes(field) for field in printed.split(b" ")[2:]]
    place = rng.randbytes(len(message) + 3)
    sent = {"kind": kind, "key": key, "nonce": nonce, "data": data}
    opened = answer(write_line(b"open", sent | {"ciphertext": ciphertext, "tag": tag, "place": place}))
    lengths_hold = len(ciphertext) == len(message) and len(tag) == tag_length
    return lengths_hold and opened == b"open 0 %d %b" % (len(message), write_bytes(message + place[-3:]))


def flips_are_told(kind, rng, stride, **lengths):
    """Whether an open gives 23 and zeros after a turn of any one bit, or of each of those `stride` apart."""
    good = sealed(rng, request(rng, kind, **lengths))
    told = b"open 23 0 " + write_bytes(bytes(len(good["place"])))
    return all(
        answer(write_line(b"open", good | {name: flip(good[name], bit)})) == told
        for name in ("key", "nonce", "data", "ciphertext", "tag")
        for bit in range(0, 8 * len(good[name]), stride)
    )


def numbers_met(lines, answers, name, kind):
    """The numbers that the requests of a name and a kind are answered with."""
    start = name + b" " + kind + b" "
    met = [printed for line, printed in zip(lines, answers) if line.startswith(start) and printed != b"?"]
    return {int(printed.split(b" ")[1]) for printed in met}


def check_omd(lines, answers, rng):
    """Whether the answers to doublings, seals and opens are those of the ways above, and have their properties."""
    good = is_field(256) and is_field(512)
    expected = {b"double": double_expected, b"seal": seal_expected, b"open": open_expected}
    for line, printed in zip(lines, answers, strict=True):
        name, values = read_fields(line)
        if printed != b"?" and name in expected:
            good = good and printed == expected[name](*values)
        if printed.startswith(b"seal 0 "):
            good = good and opens_again(values, printed, rng)
    for kind in (1, 2):
        good = good and numbers_met(lines, answers, b"seal", b"%d" % kind) == {0, 5, 20, 21, 22}
        good = good and numbers_met(lines, answers, b"open", b"%d" % kind) == {0, 5, 18, 20, 21, 22, 23}
        good = good and flips_are_told(kind, rng, 1, key=16, nonce=2, data=3, message=5, tag_length=4)
        good = good and flips_are_told(kind, rng, 7, message=32 * kind + 1, data=64 * kind + 1, tag_length=32 * kind)
    return good
