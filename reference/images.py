"""The card image: building one, looking at one, and opening one."""

from omd import BLOCK, open_sealed, seal

FIXED_BYTES, TAG_BYTES = 16, 16
LONGEST_HEADER, LONGEST_MESSAGE = 64, 96
LAST_CODE, LAST_STATION = 4096, 8


def build(kind, key, label, header, message):
    """The image of a label (site, block, code, station), a header and a message. It refuses no number and no length."""
    nonce = b"".join(number.to_bytes(4, "big") for number in label[:3])
    front = bytes([kind]) + nonce + bytes([label[3], len(header), len(message)]) + header
    _, ciphertext, tag = seal(kind, key, nonce, front, message, TAG_BYTES)
    return front + ciphertext + tag


def label_of(image):
    """The site, block, code and station that an image names."""
    return [int.from_bytes(image[at : at + 4], "big") for at in (1, 5, 9)] + [image[13]]


def length_is_wrong(image):
    """Whether the image is too short or too long, or the lengths in it do not add up to its own."""
    if len(image) < 32 or len(image) > 192:
        return True
    h, w = image[14], image[15]
    return h > LONGEST_HEADER or w > LONGEST_MESSAGE or len(image) != 32 + h + w


def refusal(kind, image):
    """The number of the refusal of a look, or 0; the smallest where several apply."""
    if length_is_wrong(image):
        return 15
    if image[0] != kind or kind not in BLOCK:
        return 16  # another kind than the reader's, or no compression of the reader's
    site, block, code, station = label_of(image)
    if 0 in (site, block, code, station) or code > LAST_CODE or station > LAST_STATION:
        return 17
    return 0


def look(kind, image):
    """(refusal number, header, ciphertext, tag), each part as (offset, bytes), or None on a refusal."""
    number = refusal(kind, image)
    if number != 0:
        return number, None, None, None
    c = FIXED_BYTES + image[14]
    t = c + image[15]
    return 0, (FIXED_BYTES, image[FIXED_BYTES:c]), (c, image[c:t]), (t, image[t:])


def open_image(kind, key, image, place):
    """(refusal number, length of the message, the place afterwards), the message at the front of the place."""
    if kind in BLOCK and not 16 <= len(key) <= BLOCK[kind]:
        return 5, 0, place  # a key length outside the range of the reader's kind
    number, _, ciphertext, tag = look(kind, image)
    if number != 0:
        return number, 0, place
    return open_sealed(kind, key, image[1:13], image[: ciphertext[0]], ciphertext[1], tag[1], place)
