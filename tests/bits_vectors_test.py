"""Compares the stored output of the program bits_vectors with a plain computation, written from document 01's words alone.

The stored output is what `rt ci` holds the proved program to. Here each of its lines is found again, a bit string being a string of
characters. With an argument it prints the lines instead.
"""
from packing import binary, bits_of, number, packed
from plain import rank, select, string
from stored import main

SAMPLE = bytes.fromhex("00300059 22A00200 10000020 01003000 00200500 40")
MIXED = bytes.fromhex(
    "FFFFFFFFFFFFFFFF 0000000000000000 80010000 08107FFE A55AC33C 12345678 9ABCDEF0 00000000 00000000 01000080"
)
LARGEST = 2**64 - 1
ASKED = [0, 1, 2, 3, 7, 8, 9, 15, 16, 17, 63, 64, 65, 72, 100, 128, 129, 200, 384, LARGEST]


def ask(data, start, places):
    s = string(data, start, places)
    yield f"string {start} {places}: " + " ".join(f"{rank(s, n)}/{select(s, n)}" for n in ASKED)


def fields(data, start):
    s = bits_of(data)[start:]
    found = [number(s[:width]) for width in (1, 12, 13, 15) if len(s) >= width]
    yield f"fields {start}: " + " ".join(map(str, found))


def write(start, v):
    s = put("0" * 32 + "1" * 32, start, binary(v, 12))
    yield f"field {start}: " + packed(s).hex(" ")
    s = put(s, start, "1")
    yield f"bit {start}: " + packed(s).hex(" ")


def put(s, start, bits):
    """The string with these bits from the start on."""
    return s[:start] + bits + s[start + len(bits) :]


def lines():
    yield from fields(SAMPLE, 0)
    yield from fields(SAMPLE, 13)
    yield from ask(SAMPLE, 28, 16)
    for start in (44, 56, 153, 155, 156, 167):
        yield from fields(SAMPLE, start)
    for start, places in ((0, 168), (168, 0), (1, 168), (169, 0), (1, LARGEST), (LARGEST, LARGEST)):
        yield from ask(SAMPLE, start, places)
    yield from ask(b"", 0, 0)
    for shift in range(9):
        yield from ask(MIXED, shift, 375)
        yield from ask(MIXED, 190 + shift, 130)
        yield from ask(MIXED, 60 + shift, 5)
        yield from fields(MIXED, 192 + shift)
        yield from fields(MIXED, 361 + shift)
        # a field that begins in byte 26 ends in byte 27 or in byte 28
        yield from fields(MIXED[:28], 208 + shift)
        yield from fields(MIXED[:29], 208 + shift)
        yield from write(shift, 0xABC)
        yield from write(20 + shift, 0x543)
        yield from write(44 + shift, 0xABC)


if __name__ == "__main__":
    main("bits_vectors", lines())
