"""Compares the stored output of the program record_vectors with a plain computation, written from the words of
documents 01 and 02 alone.

The stored output is what `rt ci` holds the proved program to. Here each record is packed from its blocks, damaged where it must be, and
asked by plain.py. With an argument it prints the lines instead.
"""
from packing import SAMPLE, WIRE, flipped, layout, record
from plain import answer, check, degree, file, neighbours, unpack
from shapes import FIXED
from stored import main, told

TRIANGLE = [[2, 3], [1, 3], [1, 2]]


# The lines

def row(start, numbers):
    return " ".join([start] + [str(k) for k in numbers])


def ask_list(name, data, length, vertices):
    given = [901 + i for i in range(length)]
    refusal, written = answer(unpack, data, length)
    after = given if refusal else written
    yield row(f"{name} unpack {length}: {told(refusal, 'accepted')},", after)
    for v in vertices:
        yield row(f"{name} neighbours {length} {v}:", neighbours(data, after, v))


def ask(name, data, n, m):
    """All calls on one record, n and m being the sizes to ask with."""
    yield f"{name} check: {told(answer(check, data)[0], 'accepted')}"
    for v in range(n + 2):
        yield f"{name} degree {v}: {told(*answer(degree, data, v))}"
    yield from ask_list(name, data, 2 * m, range(n + 2))
    if m > 0:
        yield from ask_list(name, data, 2 * m - 1, [1])
    yield from ask_list(name, data, 2 * m + 1, [1])


def records():
    """Name, bytes and the sizes to ask with."""
    # accepted
    for name, blocks in (
        ("sample", SAMPLE),
        ("empty", []),
        ("single", [[]]),
        ("isolated", [[], [], [], []]),
        ("wire", WIRE),
        ("triangle", TRIANGLE),
        ("star", [[2, 3, 4, 5], [1], [1], [1], [1]]),
        ("hub", [[4], [4], [4], [3, 1, 2]]),
        ("components", [[2], [1], [4, 5], [5, 3], [3, 4]]),
        ("apart", [[], [4], [], [2], []]),
        # with several wires between the same terminals
        *((name, FIXED[name]) for name in ("pair", "triple", "tail", "crossed")),
    ):
        yield name, record(blocks), len(blocks), sum(map(len, blocks)) // 2
    # 1
    yield "none", b"", 1, 1
    yield "one_byte", record(SAMPLE)[:1], 1, 1
    yield "two_bytes", record(SAMPLE)[:2], 1, 1
    yield "three_bytes", record([])[:3], 0, 0
    # 2, and the limits themselves, which only have a wrong length
    yield "wide", layout(4097, 0, "", []), 1, 0
    yield "wide_limit", layout(4096, 0, "", []), 1, 0
    yield "wired", layout(0, 16385, "", []), 0, 1
    yield "wired_limit", layout(0, 16384, "", []), 0, 1
    yield "all_ones", b"\xff" * 4, 1, 1
    # 3
    yield "sample_short", record(SAMPLE)[:-1], 6, 5
    yield "sample_long", record(SAMPLE) + b"\0", 6, 5
    yield "empty_long", record([]) + b"\0", 0, 0
    # 4: the ones of D are the bits 29, 32, 35, 39, 41 and 43 of the sample, and 29 and 31 of the wire
    yield "few_ones", flipped(record(SAMPLE), 43), 6, 5
    yield "many_ones", flipped(record(SAMPLE), 44), 6, 5
    yield "zero_first", flipped(record(WIRE), 29, 30), 2, 1
    yield "no_ones", layout(0, 1, "00", [0, 0]), 0, 1
    # 5
    yield "spare_last", flipped(record(SAMPLE), -1), 6, 5
    yield "spare_first", flipped(record(TRIANGLE), -3), 3, 3
    yield "spare_single", flipped(record([[]]), -2), 1, 0
    # 6
    yield "over", record([[3], [1]]), 2, 1
    yield "far_over", record([[2], [4096]]), 2, 1
    yield "own", record([[1], [2]]), 2, 1
    yield "own_last", record(SAMPLE[:5] + [[6]]), 6, 5
    # 8: a neighbour that doesn't mention the terminal; two that mention each other, one more often than the other
    yield "one_sided", record([[2, 3], [1], [2]]), 3, 2
    yield "round", record([[2], [3], [4], [1]]), 4, 2
    yield "round_twice", record([[2, 2], [3, 3], [1, 1]]), 3, 3
    yield "doubled_sided", record([[2], [], [2, 1, 2]]), 3, 2
    yield "more", record([[2, 2, 2], [1]]), 2, 2
    yield "less", record([[2], [1, 1, 1]]), 2, 2
    yield "more_last", record([[3, 2], [1, 3], [1, 2, 1, 2]]), 3, 4
    # several rules at once
    yield "3_and_4", flipped(record(SAMPLE), 43)[:-1], 6, 5
    yield "4_and_5", flipped(record(SAMPLE), 43, -1), 6, 5
    yield "5_and_6", flipped(record([[2, 9], [1, 3], [1, 2]]), -1), 3, 3
    yield "6_after_8", record([[2, 2], [1, 3]]), 2, 2
    yield "5_6_and_8", flipped(record([[2, 2, 3], [1], [3, 9]]), -1), 3, 3


def filed(name, degrees, numbers, length):
    """File, with the buffer after it."""
    refusal, written = answer(file, degrees, numbers, length)
    after = bytes([0xA5]) * length if refusal else written
    return row(f"{name} file {length}: {told(refusal, 'accepted')},", (f"{b:02x}" for b in after))


def filings():
    """Name, degrees, neighbours and the buffer's length."""
    def of(blocks):
        return [len(b) for b in blocks], sum(blocks, [])
    for length in (21, 20, 22):
        yield "sample", *of(SAMPLE), length
    yield "empty", [], [], 4
    for name, blocks in ("apart", [[], [4], [], [2], []]), ("triple", FIXED["triple"]):
        yield name, *of(blocks), len(record(blocks))
    # 16
    yield "odd", [1, 1, 1], [2, 1, 2], 9
    yield "wrapped", [65535, 3], [2, 1], 7
    yield "many", [0] * 4097, [], 4
    # 6 and 8, and several at once
    yield "zero", [1, 1], [2, 0], 7
    yield "cut", [1, 1], [2, 4097], 7
    yield "one_sided", [2, 1, 1], [2, 3, 1, 2], 11
    yield "8_and_17", [2, 1, 1], [2, 3, 1, 2], 10
    yield "6_after_8", [2, 2], [2, 2, 1, 3], 11


def lines():
    for name, data, n, m in records():
        yield from ask(name, data, n, m)
    widest = record([[]] * 4096)
    yield from ask("widest", widest, 0, 0)
    for v in (4096, 4097):
        yield f"widest degree {v}: {told(*answer(degree, widest, v))}"
    for case in filings():
        yield filed(*case)


if __name__ == "__main__":
    main("record_vectors", lines())
