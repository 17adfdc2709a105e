"""Compares the stored output of the program forest_vectors with a plain search, written from the words of documents 01
and 02 alone.

The stored output is what `rt ci` holds the proved program to. Here the index is plain.py's, where a wire is a bridge if taking it out
leaves its ends unjoined; for the large trees and the ring that is told from the shape. With an argument it prints the lines instead.
"""
from packing import SAMPLE, bits_of, flipped, index_length, layout, record, whole
from plain import answer, bridges, build, check, index_of, is_bridge, loop_figure, sizes, wires
from shapes import DOUBLED, FIXED
from stored import main, told

N = 4096
LARGEST = 2**64 - 1
OFFSETS = [3, -1, 4, -2, -4, 1, -3, 2]


# Build

def line(name, before, data, start, work, given):
    refusal, index = answer(build, data, start, work, len(given))
    shown = "".join(f" {byte:02x}" for byte in (given if refusal else index))
    return f"{name} {before} {start} {work} {len(given)}: {told(refusal, 'accepted')},{shown}"


def figure(name, data):
    return f"{name} loops: {told(*answer(loop_figure, data))}"


def accepted():
    """Each record from its first terminal, and some from others, with zeros in the work slice and in the buffer, with
    ones, and with ones and more work than is asked; and its loop figure."""
    starts = [(name, min(1, len(blocks))) for name, blocks in FIXED.items()]
    starts += [("sample", start) for start in range(2, 7)]
    starts += [("wire", 2), ("path", 5), ("hub", 6), ("chord", 7), ("apart", 9), ("apart", 10)]
    starts += [(name, start) for name in DOUBLED for start in range(2, len(FIXED[name]) + 1)]
    for name, start in starts:
        data = record(FIXED[name])
        cells, length = 8 * len(FIXED[name]), index_length(*sizes(data))
        yield line(name, "zeros", data, start, cells, bytes(length))
        yield line(name, "ones", data, start, cells, b"\xff" * length)
        yield line(name, "ones", data, start, cells + 3, b"\xff" * length)
        yield figure(name, data)


def refused():
    """Calls that are refused, and two that are not, by the start and the lengths of the work slice and of the buffer,
    which holds marks; and the loop figure of each record."""
    sample, single, empty = record(SAMPLE), record([[]]), record([])
    spare = flipped(sample, -1)
    one_sided = record([[2, 3], [1], [2]])
    for name, data, start, work, length in (
        # 1 to 6, and 8
        ("none", b"", 1, 0, 0),
        ("wide", layout(4097, 0, "", []), 1, 64, 16),
        ("short", sample[:-1], 1, 48, 15),
        ("few_ones", flipped(sample, 43), 1, 48, 15),
        ("spare", spare, 1, 48, 15),
        ("own", record(SAMPLE[:5] + [[6]]), 1, 48, 15),
        ("one_sided", one_sided, 1, 24, 8),
        ("more", record([[2, 2, 2], [1]]), 1, 16, 6),
        # 9
        ("sample", sample, 1, 47, 15),
        ("sample", sample, 1, 0, 15),
        ("single", single, 1, 7, 5),
        # 10
        ("sample", sample, 1, 48, 14),
        ("sample", sample, 1, 48, 16),
        ("sample", sample, 1, 48, 0),
        ("empty", empty, 0, 0, 1),
        # 9 before 10, and Check's before both
        ("sample", sample, 1, 47, 14),
        ("spare", spare, 1, 47, 15),
        ("spare", spare, 1, 48, 16),
        ("one_sided", one_sided, 1, 23, 9),
        # accepted: the marks are written over
        ("sample", sample, 1, 48, 15),
        # 14
        ("sample", sample, 0, 48, 15),
        ("sample", sample, 7, 48, 15),
        ("sample", sample, 65537, 48, 15),
        ("sample", sample, LARGEST, 48, 15),
        ("single", single, 0, 8, 5),
        ("single", single, 2, 8, 5),
        ("empty", empty, 1, 0, 0),
        ("empty", empty, LARGEST, 0, 0),
        # Check's, 9 and 10 before 14
        ("spare", spare, 0, 48, 15),
        ("one_sided", one_sided, 4, 24, 8),
        ("sample", sample, 0, 47, 15),
        ("sample", sample, 7, 48, 14),
        ("sample", sample, 7, 47, 14),
        ("empty", empty, 1, 0, 1),
        # accepted
        ("sample", sample, 6, 48, 15),
    ):
        yield line(name, "marks", data, start, work, bytes(range(0xA1, 0xA1 + length)))
        yield figure(name, data)


# The largest sizes

def around(v, step):
    """The terminal that many steps on from v, from the last on to the first."""
    return (v - 1 + step) % N + 1


def shapes():
    """Name, blocks and bridges."""
    terminals = range(1, N + 1)
    # in a tree a second way between the ends of a wire would close a circle, and there is none: every wire is a bridge
    path = [[w for w in (v + 1, v - 1) if 1 <= w <= N] for v in terminals]
    star = [[N]] * (N - 1) + [list(range(N - 1, 0, -1))]
    yield "path", path, wires(path)
    yield "star", star, wires(star)
    # in a ring the way round the other side joins the ends of each wire
    yield "ring", [[around(v, -1), around(v, 1)] for v in terminals], set()
    # here a way of a few wires, or the lack of one, is found at once, and every wire is tried
    for name, blocks in (
        ("circulant", [[around(v, OFFSETS[(5 * (v - 1) + 3 * j) % 8]) for j in range(8)] for v in terminals]),
        ("isolated", [[] for v in terminals]),
        ("pairs", [[v + 1 if v % 2 else v - 1] for v in terminals]),
    ):
        yield name, blocks, bridges(blocks)


def digest(data):
    d = 0
    for byte in data:
        d = (d * 65599 + byte) % 2**32
    return f"{d:08x}"


def large(name, blocks, single, start):
    """A line for the record, one for its index with the ones of E, P and B, and its loop figure."""
    # what is said of the shape holds of a few wires that are tried
    assert all((wire in single) == is_bridge(blocks, wire) for wire in wires(blocks)[::1000])
    data = record(blocks)
    yield f"{name} record {len(data)}: {digest(data)}"
    refusal, _ = answer(check, data)
    index = index_of(blocks, single, start)
    size = whole(len(blocks) + sum(map(len, blocks)))
    ones = [bits_of(index[i * size : i * size + size]).count("1") for i in range(3)]
    lengths = f"{start} {8 * N} {len(index)}"
    yield f"{name} ones {lengths}: {told(refusal, 'accepted')}, {ones[0]} {ones[1]} {ones[2]}, {digest(index)}"
    yield figure(name, data)


def lines():
    yield from accepted()
    yield from refused()
    known = list(shapes())
    for shape in known:
        yield from large(*shape, 1)
    for shape in known:
        yield from large(*shape, 2048 if shape[0] == "path" else N)


if __name__ == "__main__":
    main("forest_vectors", lines())
