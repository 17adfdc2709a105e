"""Compares the stored output of the program queries_vectors with a plain reading of the sentences of documents 01 and
02.

The stored output is what `rt ci` holds the proved program to. Here the answers are plain.py's, and a query's refusal is shown as its number
in brackets. With an argument it prints the lines instead.
"""
from itertools import product

from packing import SAMPLE, WIRE, flipped, index_layout, layout, ones_at, record, whole
from plain import ancestor, answer, blocks_of, bridges, check, child, children, head, index_of, lookup, parent, refuse
from plain import refuse_14, sizes, visit, visited
from shapes import DOUBLED, FIXED, filled, places, with_ones
from stored import main
from stored import told as verdict

LARGEST = 2**64 - 1


# The lines of a pair

def told(query, *given):
    refusal, value = answer(query, *given)
    if refusal:
        return f"({refusal})"
    return "ny"[value] if query is ancestor else str(value)


def asked(name, title, query, *given):
    """A line with the answers for each number of the last of the arguments."""
    *before, numbers = given
    return f"{name} {title}: " + " ".join(told(query, *before, k) for k in numbers)


def answers(name, data, index, last):
    """Every query for the terminals from 0 to the last; Child for j from 0 to one above the count."""
    terminals = range(last + 1)
    for query in (parent, head, children, visit, visited):
        yield asked(name, query.__name__, query, data, index, terminals)
    for v in terminals:
        count = told(children, data, index, v)
        upper = int(count) + 2 if count.isdigit() else 2
        yield asked(name, f"child {v}", child, data, index, v, range(upper))
        yield asked(name, f"ancestor {v}", ancestor, data, index, v, terminals)


def largest(name, data, index):
    """Each query with the largest number; Child with it as j too, and Ancestor with it as u and as v."""
    single = [told(query, data, index, LARGEST) for query in (parent, head, children, visit, visited)]
    double = [told(child, data, index, LARGEST, 1), told(child, data, index, 1, LARGEST)]
    pairs = [told(ancestor, data, index, LARGEST, 1), told(ancestor, data, index, 1, LARGEST)]
    return f"{name} largest: " + " ".join(single + double + pairs)


# Indexes

def built(blocks, start=1):
    return index_of(blocks, bridges(blocks), start)


def made(blocks, e, p, b, numbers):
    """The index with marks at these places, which count from 1, and these stored numbers."""
    return index_layout(*(ones_at(places(blocks), chosen) for chosen in (e, p, b)), numbers)


# The pairs: name, record, index and last terminal asked for

# accepted records
BUILT = ("sample", "wire", "single", "empty", "path", "apart", "joined", "chord")


def as_built():
    for name in BUILT:
        blocks = FIXED[name]
        yield name, record(blocks), built(blocks), len(blocks) + 1


def started(*starts):
    """From other starts."""
    for name, start in starts:
        yield f"{name}_from_{start}", record(FIXED[name]), built(FIXED[name], start), len(FIXED[name]) + 1


def doubled():
    """Several wires between the same terminals, from the first terminal and some from others."""
    for name in DOUBLED:
        yield name, record(FIXED[name]), built(FIXED[name]), len(FIXED[name]) + 1
    yield from started(("tail", 3), ("crossed", 2), ("joined_twice", 4), ("feeds", 3))


def on_pair():
    """Marks at the second mentions; in E at both, with B at the second ones; with B at the first ones; in P at both."""
    pair = FIXED["pair"]
    for name, e, p, b in (
        ("pair_second", {3}, {6}, {}),
        ("pair_both", {2, 3}, {5}, {3, 6}),
        ("pair_bridge", {2}, {5}, {2, 5}),
        ("pair_two_marks", {2}, {5, 6}, {5}),
    ):
        yield name, record(pair), made(pair, e, p, b, [0, 1]), 3


# the marks and stored numbers of the sample's index
SAMPLE_E, SAMPLE_P, SAMPLE_B, SAMPLE_NUMBERS = {2, 8, 9, 14}, {6, 10, 12, 16}, {9, 12, 14, 16}, [0, 2, 1, 3, 4, 5]
RING = [[2, 4], [3, 1], [4, 2], [1, 3]]


def on_sample():
    """Two marks in the block of 3, then both in B too; 1 and 3 each other's parent, then with B at 1's; stored numbers of 6 and more, and
    equal ones; marks at the places of D's ones; every bit of the index clear, and set; the index of another record."""
    for name, index in (
        ("two_marks", made(SAMPLE, SAMPLE_E, SAMPLE_P | {8}, SAMPLE_B, SAMPLE_NUMBERS)),
        ("two_marks_bridges", made(SAMPLE, SAMPLE_E, SAMPLE_P | {8}, SAMPLE_B | {8, 10}, SAMPLE_NUMBERS)),
        ("cycle", made(SAMPLE, SAMPLE_E, SAMPLE_P | {2}, SAMPLE_B, SAMPLE_NUMBERS)),
        ("cycle_bridge", made(SAMPLE, SAMPLE_E, SAMPLE_P | {2}, SAMPLE_B | {2}, SAMPLE_NUMBERS)),
        ("numbers", made(SAMPLE, SAMPLE_E, SAMPLE_P, SAMPLE_B, [0, 6, 0, 4095, 5, 5])),
        ("ones_of_d", with_ones(SAMPLE, built(SAMPLE))),
        ("clear", bytes(15)),
        ("full", b"\xff" * 15),
        ("foreign", built(FIXED["path"])),
    ):
        yield name, record(SAMPLE), index, 7


def climbs():
    """A ring of parents, then with B at 4's; a path that is climbed to its root, with no mark in B."""
    yield "ring", record(RING), made(RING, {}, {2, 5, 8, 11}, {}, range(4)), 5
    yield "ring_bridge", record(RING), made(RING, {}, {2, 5, 8, 11}, {11}, range(4)), 5
    path = FIXED["path"]
    size = whole(places(path))
    index = built(path)
    yield "path_no_bridges", record(path), index[: 2 * size] + bytes(size) + index[3 * size :], 7


def unaccepted():
    """Records that Check refuses and order R does not: fields of n and more, a terminal's own number, a wire listed at
    one end only, a neighbour that is mentioned more often than it mentions, spare bits."""
    stray = [[3, 7], [1, 3], [2, 4, 1], [3], [7], [5]]
    yield "stray", record(stray), made(stray, SAMPLE_E, SAMPLE_P | {14}, {9, 12, 14}, SAMPLE_NUMBERS), 7
    far = [[3, 2], [1, 3], [2, 4096, 1], [4096], [6], [4096]]
    yield "far", record(far), made(far, SAMPLE_E, SAMPLE_P, SAMPLE_B, SAMPLE_NUMBERS), 7
    own = [[1, 1]]
    for name, p, b in (("own", {2}, {}), ("own_bridge", {2}, {2}), ("own_other", {2}, {3}), ("own_twice", {2, 3}, {2, 3})):
        yield name, record(own), made(own, {2, 3}, p, b, [0]), 2
    one_sided = [[2, 3], [1], [2]]
    yield "one_sided", record(one_sided), made(one_sided, {2, 3}, {5, 7}, {7}, [0, 1, 2]), 4
    more = [[2, 2, 2], [1]]
    yield "more", record(more), made(more, {2, 4}, {6}, {4, 6}, [0, 1]), 3
    yield "spare", flipped(record(SAMPLE), -1, -2, -3, -4), built(SAMPLE), 7


def fills():
    """Every fill bit set; then every bit of the index."""
    for name in ("single", "wire", "joined"):
        yield f"{name}_filled", record(FIXED[name]), filled(FIXED[name], built(FIXED[name])), len(FIXED[name]) + 1
    yield "single_full", record([[]]), b"\xff" * 5, 2
    yield "wire_full", record(WIRE), b"\xff" * 6, 3


def refusals():
    sample, index = record(SAMPLE), built(SAMPLE)
    for name, data, given in (
        # 1 to 4, and before 10
        ("none", b"", b""),
        ("three_bytes", bytes(3), b""),
        ("wide", layout(4097, 0, "", []), b""),
        ("wired", layout(0, 16385, "", []), b""),
        ("short", sample[:-1], index),
        ("long", sample + b"\x00", index),
        ("few_ones", flipped(sample, 43), index),
        ("zero_first", flipped(record(WIRE), 29, 30), built(WIRE)),
        ("short_both", sample[:-1], index[:-1]),
        # 10, before 11
        ("index_short", sample, index[:-1]),
        ("index_long", sample, index + b"\x00"),
        ("index_none", sample, b""),
        ("empty_long", record([]), b"\x00"),
    ):
        yield name, data, given, 2


def pairs():
    yield from as_built()
    yield from started(("sample", 4), ("path", 5))
    yield from doubled()
    yield from on_pair()
    yield from on_sample()
    yield from climbs()
    yield from unaccepted()
    yield from fills()
    yield from refusals()


# Table

def table(data, start, work, *rooms):
    """The four lists, for the lengths of the work slice and of the lists."""
    check(data)
    n, _ = sizes(data)
    refuse(9, work < 8 * n)
    refuse(10, any(room != n for room in rooms))
    refuse_14(data, start)
    index = built(blocks_of(data), start)
    return [[query(data, index, v) for v in range(1, n + 1)] for query in (visit, parent, children, head)]


def tabled(name, data, start, work, *rooms):
    """The verdict, and then each list; a refused call leaves the marks that it held: from 901 on, from 911 on, and so on."""
    refusal, lists = answer(table, data, start, work, *rooms)
    marks = [range(first, first + room) for first, room in zip((901, 911, 921, 931), rooms)]
    given = " ".join(map(str, (start, work, *rooms)))
    yield f"{name} table {given}: " + (f"refused {refusal}" if refusal else "accepted")
    for title, numbers in zip(("visits", "parents", "counts", "heads"), marks if refusal else lists):
        yield " ".join([f"{name} {title}:", *map(str, numbers)])


def tables():
    """Accepted records and some for each of 1 to 6 and 8, with what they ask for. The sample with one number of work
    more; with 9, before 10; with 10, for each list in turn, too short and too long; and 5 before both. Then other
    starts: accepted; 14; and after 9, 10 and 5."""
    data = {name: given for name, given, _, _ in pairs()}
    accepted = [(name, len(FIXED[name])) for name in [*BUILT, "pair", "feeds"]]
    bad = [("three_bytes", 2), ("wide", 2), ("short", 6), ("few_ones", 6), ("spare", 6), ("stray", 6)]
    bad += [("one_sided", 3), ("more", 2)]
    for name, n in accepted + bad:
        yield name, data[name], min(1, n), 8 * n, n, n, n, n
    for work, first in (49, 6), (47, 6), (47, 5):
        yield "sample", data["sample"], 1, work, first, 6, 6, 6
    for other in range(4):
        for room in 5, 7:
            yield "sample", data["sample"], 1, 48, *(room if i == other else 6 for i in range(4))
    yield "spare", data["spare"], 1, 47, 6, 6, 6, 7
    others = [("wire", 2), ("path", 5), ("apart", 9), ("pair", 2), ("feeds", 3)]
    for name, start in *(("sample", start) for start in range(2, 7)), *others:
        n = len(FIXED[name])
        yield name, data[name], start, 8 * n, n, n, n, n
    for start in 0, 7, 65537, LARGEST:
        yield "sample", data["sample"], start, 48, 6, 6, 6, 6
    yield "empty", data["empty"], 1, 0, 0, 0, 0, 0
    for start, work, first, last in (0, 47, 6, 6), (7, 48, 6, 5), (0, 48, 7, 6):
        yield "sample", data["sample"], start, work, first, 6, 6, last
    yield "spare", data["spare"], 0, 48, 6, 6, 6, 6


# Lookup

def spaced(numbers):
    """Each behind a space, of more than six the first six."""
    return "".join(f" {k}" for k in numbers[:6])


def looked_up(name, data, index, asked, *rooms):
    """The list, the lengths of the answer lists, the verdict and then these lists; a refused call leaves the marks that
    they held, 901 and 911."""
    refusal, found = answer(lookup, data, index, asked, *rooms)
    heads, visits = [[mark] * room for mark, room in zip((901, 911), rooms)] if refusal else found
    said = verdict(refusal, "accepted")
    return f"{name} lookup{spaced(asked)} to{spaced(rooms)}: {said},{spaced(heads)},{spaced(visits)}"


# lists, and the lengths of the answer lists where they are others
ASKED = [([1, 2, 3, 4, 5, 6],), ([4, 1, 4, 4],), ([],), ([1, 5, 3, 0],), ([0, 3],), ([4, 7, 1],), ([1, 2, 65535],)]
ASKED += [([1, 5], 1, 2), ([1, 5], 2, 3), ([0, 3], 3, 2), ([3], 1, 0)]
LONG = [([2] * 512,), ([2] * 511 + [7],), ([2] * 513,)]


def lookups():
    """The same lists for several pairs. On two_marks Head refuses 3 and 2, and on numbers Visit alone refuses 2 and 4.
    Then the longest lists."""
    given = {name: (name, data, index) for name, data, index, _ in pairs()}
    names = "sample", "two_marks", "numbers", "index_short", "three_bytes", "short_both"
    for name, (asked, *rooms) in [*product(names, ASKED), *product(["sample"], LONG)]:
        yield looked_up(*given[name], asked, *rooms or 2 * [len(asked)])


def lines():
    for name, data, index, last in pairs():
        yield from answers(name, data, index, last)
    yield largest("sample", record(SAMPLE), built(SAMPLE))
    for given in tables():
        yield from tabled(*given)
    yield from lookups()


if __name__ == "__main__":
    main("queries_vectors", lines())
