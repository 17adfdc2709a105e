"""Bits, and the packing of records and indexes from their parts, whatever rules these break.

A bit is the character 0 or 1, so a bit string is a string. Blocks are lists of neighbour numbers, terminal by terminal.
"""

SAMPLE = [[3, 2], [1, 3], [2, 4, 1], [3], [6], [5]]
WIRE = [[2], [1]]


# Bits

def binary(value, width):
    return f"{value:0{width}b}"


def number(bits):
    return int(bits or "0", 2)


def bits_of(data):
    """The bits of the bytes, most significant first."""
    return binary(int.from_bytes(data, "big"), 8 * len(data)) if data else ""


def whole(places):
    """The bytes that so many bits take."""
    return -(-places // 8)


def packed(bits):
    """The bytes of the bits, most significant first, with zero bits to the end of the last byte."""
    size = whole(len(bits))
    return number(bits.ljust(8 * size, "0")).to_bytes(size, "big")


def fields_of(bits):
    """The numbers of 12 bits each; what is left over at the end is no field."""
    return [number(bits[i : i + 12]) for i in range(0, len(bits) - 11, 12)]


def of_fields(numbers):
    return "".join(binary(k, 12) for k in numbers)


def flipped(data, *places):
    """The bytes with the bits at these places turned over; places count from 1, or back from -1, the last bit."""
    bits = list(bits_of(data))
    for place in places:
        i = place - 1 if place > 0 else place
        bits[i] = "10"[int(bits[i])]
    return packed("".join(bits))


# Records

def layout(n, m, d, fields):
    return packed(binary(n, 13) + binary(m, 15) + d + of_fields(fields))


def unary(blocks):
    return "".join("1" + "0" * len(block) for block in blocks)


def record(blocks):
    """The record of these blocks."""
    listed = [w for block in blocks for w in block]
    assert len(listed) % 2 == 0
    return layout(len(blocks), len(listed) // 2, unary(blocks), [w - 1 for w in listed])


def record_length(n, m):
    return whole(13 + 15 + n + 2 * m + 12 * 2 * m)


# Indexes

def index_layout(e, p, b, numbers):
    """E, P and B as bits, and the stored numbers; each section starts on a byte of its own."""
    return packed(e) + packed(p) + packed(b) + packed(of_fields(numbers))


def index_length(n, m):
    return 3 * whole(n + 2 * m) + whole(12 * n)


def ones_at(places, chosen):
    """That many bits, with ones at the chosen places, which count from 1."""
    return "".join("01"[i in chosen] for i in range(1, places + 1))
