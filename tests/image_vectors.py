"""Cases of the reader: the chosen images, and every change of one byte of the blank image.

The settings that the reader answers are written again. The eighty bytes for it are lent where an image is accepted or has
another length; a refused image of eighty bytes lends none, which keeps the stream short."""
import itertools

from cases import READ, Case, pattern, settings_bytes, verdict_bytes
from image_model import ACCEPTED, CHANNELS, LENGTH, family, normal_image, reading
from image_model import reserved_bits, settings_verdict, writing

# The values on each side of each field's edges, tried on one group of each kind.
KINDS_TRIED = [2, 4, 6]
EDGES = {
    0: [1, 128],
    1: [1, 31],
    2: [1, 128],
    3: [1, 31],
    4: [1, 2, 3, 4, 28, 31],
    5: [1, 2, 3],
    6: [7, 24, 32, 64, 127],
    7: [1, 3, 12, 13, 0x3F, 0x4C, 0x8C, 0xC0],
}

# The last value that some kind of group accepts and the first that it refuses, tried on every group.
LIMITS = {0: [255], 1: [31, 32], 2: [255], 3: [31, 32], 4: [31, 32], 5: [3, 4], 6: [127, 128], 7: [0x13, 0x3F, 0x40, 0x80]}

# Bytes that are refused, at addresses in ascending order, with both numbers among them.
BAD = [(0x01, 0x20), (0x06, 0x01), (0x07, 0x0C), (0x09, 0xE0), (0x25, 0x02), (0x2E, 0x80), (0x2F, 0xC0), (0x4F, 0x70)]

# Bytes that are accepted.
GOOD = [(0x00, 0xC8), (0x05, 0x03), (0x27, 0x33), (0x2E, 0x7F), (0x4F, 0x3F)]


def image_case(*changes, length=LENGTH):
    """The blank image cut or followed by zeros to the length, and changed at addresses to values."""
    image = bytearray(length)
    for address, value in changes:
        image[address] = value
    parts = [] if length == LENGTH else [f"length-{length}"]
    parts += [f"{place_name(address)}-0x{value:02x}" for address, value in changes]
    return read_case("-".join(["read", *(parts or ["blank"])]), bytes(image))


def place_name(address):
    return f"{CHANNELS[address // 8]}-byte-{address % 8}" if address < LENGTH else f"address-{address}"


def read_case(name, image):
    verdict, settings = reading(image)
    lent = b"" if verdict != ACCEPTED and len(image) == LENGTH else pattern(LENGTH)
    write_verdict, written = writing(settings, lent)
    assert verdict != ACCEPTED or written == normal_image(image), name
    verdicts = verdict_bytes(settings_verdict(settings)) + verdict_bytes(write_verdict)
    return Case(name, READ, image, lent, verdict_bytes(verdict) + settings_bytes(settings) + verdicts + written)


def length_cases():
    for length in (0, 1, 79, 80, 81, 255):
        yield image_case(length=length)
    for length in (1, 79, 81):
        yield image_case((0x00, 0xFF), length=length)
    for length in (79, 81):
        yield image_case((0x01, 0xFF), (0x07, 0x40), length=length)
    yield image_case((0x50, 0xFF), length=81)


def edge_cases():
    """The edges of each kind of group, each reserved bit alone, and the limits of every group."""
    for k in KINDS_TRIED:
        for j, values in EDGES.items():
            alone = [1 << bit for bit in range(8) if reserved_bits(k, j) >> bit & 1]
            yield from one_byte_cases(k, j, values + alone)
    for k in range(len(CHANNELS)):
        for j, values in LIMITS.items():
            yield from one_byte_cases(k, j, values)


def code_cases():
    """Every code of every field of bytes 4, 6 and 7, on one group of each kind; byte 5's are edges. Then the paper's output bytes."""
    for k in KINDS_TRIED:
        yield from one_byte_cases(k, 4, [4 * code + code % 4 for code in range(8)])
        if family(k) == "VX":
            yield from one_byte_cases(k, 6, [32 * (code % 4) + 8 * (code // 2) + code for code in range(8)])
        yield from one_byte_cases(k, 7, range(0x10, 0x20))
        yield from one_byte_cases(k, 7, range(0x00, 0x80, 0x10))
    yield from one_byte_cases(0, 7, [0x10, 0x11, 0x1C, 0x40, 0x80, 0xC0])


def one_byte_cases(k, j, values):
    for value in values:
        yield image_case((8 * k + j, value))


def pair_cases():
    """Two changes at once: the lowest bad address is reported, whatever its number."""
    for pair in (*itertools.combinations(BAD, 2), *itertools.combinations(GOOD, 2), *itertools.product(GOOD, BAD[1::3])):
        yield image_case(*sorted(pair))


def chosen_cases():
    return [*length_cases(), *edge_cases(), *code_cases(), *pair_cases()]


def all_cases():
    for address in range(LENGTH):
        yield from one_byte_cases(address // 8, address % 8, range(1, 256))
