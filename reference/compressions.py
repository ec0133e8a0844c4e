"""SHA-256's compression function and BLAKE2b's function F, and what is built on them."""

from math import isqrt

MASK32 = 2**32 - 1
MASK64 = 2**64 - 1

# The first 64 primes.
PRIMES = [n for n in range(2, 312) if all(n % d != 0 for d in range(2, n))]

# RFC 7693, 2.7: the order of the message words in each round.
SIGMA = [
    [0, 1, 2, 3, 4, 5, 6, 7, 8, 9, 10, 11, 12, 13, 14, 15],
    [14, 10, 4, 8, 9, 15, 13, 6, 1, 12, 0, 2, 11, 7, 5, 3],
    [11, 8, 12, 0, 5, 2, 15, 13, 10, 14, 3, 6, 7, 1, 9, 4],
    [7, 9, 3, 1, 13, 12, 11, 14, 2, 6, 5, 10, 4, 0, 15, 8],
    [9, 0, 5, 7, 2, 4, 10, 15, 14, 1, 11, 12, 6, 8, 3, 13],
    [2, 12, 6, 10, 0, 11, 8, 3, 4, 13, 7, 5, 15, 14, 1, 9],
    [12, 5, 1, 15, 14, 13, 4, 10, 0, 7, 6, 3, 9, 2, 8, 11],
    [13, 11, 7, 14, 12, 1, 3, 9, 5, 0, 15, 4, 8, 6, 2, 10],
    [6, 15, 14, 9, 11, 3, 0, 8, 12, 2, 13, 7, 1, 4, 10, 5],
    [10, 2, 8, 4, 7, 6, 1, 5, 15, 11, 9, 14, 3, 12, 13, 0],
]

# RFC 7693, 3.2: the four words that each of a round's eight mixings takes.
MIXED = [(0, 4, 8, 12), (1, 5, 9, 13), (2, 6, 10, 14), (3, 7, 11, 15),
         (0, 5, 10, 15), (1, 6, 11, 12), (2, 7, 8, 13), (3, 4, 9, 14)]


def cube_root(n):
    """The largest integer whose cube is at most n, found bit by bit from the top."""
    root = 0
    for bit in reversed(range(n.bit_length())):
        if (root + 2**bit) ** 3 <= n:
            root += 2**bit
    return root


# FIPS 180-4, 4.2.2 and 5.3.3: the first 32 bits of the fractional parts of
# the cube roots of 64 primes, and of the square roots of 8 primes.
SHA256_K = [cube_root(p << 96) & MASK32 for p in PRIMES]
SHA256_IV = [isqrt(p << 64) & MASK32 for p in PRIMES[:8]]
# RFC 7693, 2.6: the first 64 bits of the fractional parts of the square roots.
BLAKE2B_IV = [isqrt(p << 128) & MASK64 for p in PRIMES[:8]]


def to_words(data, size, order):
    """The words of `size` bytes that `data` holds in the byte order `order`."""
    return [int.from_bytes(data[i : i + size], order) for i in range(0, len(data), size)]


def to_bytes(words, size, order):
    """The bytes of the words, each of `size` bytes in the byte order `order`."""
    return b"".join(word.to_bytes(size, order) for word in words)


def rotr(x, n, bits):
    """The word x of `bits` bits rotated right by n."""
    return (x >> n) | ((x << (bits - n)) & (2**bits - 1))


def sha256_compress(h, block):
    """FIPS 180-4, 6.2.2: eight words and a 64-byte block to eight words."""
    w = to_words(block, 4, "big")
    for t in range(16, 64):
        s0 = rotr(w[t - 15], 7, 32) ^ rotr(w[t - 15], 18, 32) ^ (w[t - 15] >> 3)
        s1 = rotr(w[t - 2], 17, 32) ^ rotr(w[t - 2], 19, 32) ^ (w[t - 2] >> 10)
        w.append((s1 + w[t - 7] + s0 + w[t - 16]) & MASK32)
    a, b, c, d, e, f, g, last = h
    for t in range(64):
        choose = (e & f) ^ ((e ^ MASK32) & g)
        t1 = last + (rotr(e, 6, 32) ^ rotr(e, 11, 32) ^ rotr(e, 25, 32)) + choose + SHA256_K[t] + w[t]
        majority = (a & b) ^ (a & c) ^ (b & c)
        t2 = (rotr(a, 2, 32) ^ rotr(a, 13, 32) ^ rotr(a, 22, 32)) + majority
        a, b, c, d, e, f, g, last = (t1 + t2) & MASK32, a, b, c, (d + t1) & MASK32, e, f, g
    return [(x + y) & MASK32 for x, y in zip(h, [a, b, c, d, e, f, g, last])]


def blake2b_f(h, block, offset, final):
    """RFC 7693, 3.2: function F, eight words and a 128-byte block to eight words."""
    m = to_words(block, 8, "little")
    v = h + BLAKE2B_IV
    v[12] ^= offset & MASK64
    v[13] ^= offset >> 64
    if final:
        v[14] ^= MASK64
    for i in range(12):
        s = SIGMA[i % 10]
        for j in range(8):
            a, b, c, d = MIXED[j]
            # RFC 7693, 3.1: function G is these two halves, a message word in each.
            for word, first, second in ((m[s[2 * j]], 32, 24), (m[s[2 * j + 1]], 16, 63)):
                v[a] = (v[a] + v[b] + word) & MASK64
                v[d] = rotr(v[d] ^ v[a], first, 64)
                v[c] = (v[c] + v[d]) & MASK64
                v[b] = rotr(v[b] ^ v[c], second, 64)
    return [h[i] ^ v[i] ^ v[i + 8] for i in range(8)]


def sha256(message):
    """FIPS 180-4, 5.1.1 and 6.2: the SHA-256 digest of a message of bytes."""
    zeros = bytes((55 - len(message)) % 64)
    padded = message + b"\x80" + zeros + (8 * len(message)).to_bytes(8, "big")
    h = SHA256_IV
    for i in range(0, len(padded), 64):
        h = sha256_compress(h, padded[i : i + 64])
    return to_bytes(h, 4, "big")


def blake2b(message):
    """RFC 7693, 3.3: the BLAKE2b digest of 64 bytes, with no key, of a message of bytes."""
    h = [BLAKE2B_IV[0] ^ 0x01010000 ^ 64] + BLAKE2B_IV[1:]
    start = 0
    while len(message) - start > 128:
        h = blake2b_f(h, message[start : start + 128], start + 128, False)
        start += 128
    h = blake2b_f(h, message[start:].ljust(128, b"\0"), len(message), True)
    return to_bytes(h, 8, "little")


def compress(kind, key, chaining, message):
    """One compression under a key: (refusal number, bytes), with no bytes on a refusal."""
    if kind not in (1, 2):
        return 16, b""  # no compression of that kind
    size = 32 if kind == 1 else 64
    if len(key) < 16 or len(key) > size:
        return 5, b""  # a key length outside the kind's range
    if len(chaining) != size or len(message) != size:
        return 18, b""  # a block of another length than the kind's
    block = key + bytes(size - len(key)) + message
    if kind == 1:
        return 0, to_bytes(sha256_compress(to_words(chaining, 4, "big"), block), 4, "big")
    return 0, to_bytes(blake2b_f(to_words(chaining, 8, "little"), block, 128, False), 8, "little")
