"""Compares every function of the C header with plain.py: on accepted and damaged records, on indexes that Build wrote and on others.

The numbers passed in vary, and so do the lengths of the lent slices and what they hold before. A refusal leaves the buffer for the result
as it was, and nothing is written outside what is lent.
"""
import sys
from array import array
from itertools import chain, combinations, product
from random import Random

import shapes
from families import fail, summed, tally
from header import ANSWERS, FUNCTIONS, LISTS, Compared, exported, header_version, lent, load, with_library
from loops_test import WORKED as WORKED_FIGURES, starts_of
from packing import WIRE, bits_of, index_layout, index_length, layout, packed, record
from plain import MOST_ASKED, MOST_TERMINALS, MOST_WIRES, answer, blocks_of, bridges_of, build, built, check, children
from plain import columns, head, index_by, joined, lookup, ones_of_b, order_r, places_of, sections_of, sizes, table
from plain import unmarked, unpack, visit, wires, without
from programs import ARCHIVE

LARGE = [65536, 65537, 2**32 + 1, 2**63, 2**64 - 1]
# the largest number that a list can hold
TOP = 65535


# The numbers and the slices of a call

def terminals(rng, n, most):
    """0 to n + 1, or some of them."""
    return sorted({0, 1, n, n + 1, *rng.sample(range(1, n + 1), min(n, most))})


def first(n):
    """The start that gives document 01's index."""
    return 1 if n else 0


def starts(rng, n):
    """Every start of a small record, or some of them, and starts that are refused."""
    return terminals(rng, n, 12 if n <= 12 else 2) + LARGE


def no_starts(n):
    """Starts that are refused."""
    return [0, n + 1, 2**64 - 1] if n else [1, 2, 2**64 - 1]


def junk(rng, size):
    return rng.choice([bytes(size), b"\xff" * size, rng.randbytes(size)])


def asked_sizes(data):
    """The n and m to ask with, also where the record says more than it may."""
    n, m = sizes(data)
    return min(n, MOST_TERMINALS), min(m, MOST_WIRES)


def cells(numbers):
    """The bytes of these numbers of 16 bits each."""
    return array("H", numbers).tobytes()


# A record

def alone(data):
    """The operations that take no index."""
    rng, compared = Random(data), Compared(data)
    n, m = asked_sizes(data)
    compared.ask("check")
    compared.ask("loop_figure")
    other = [0, 1, 2 * m + 1, abs(2 * m - 1), 2 * m + 65536, 2 * m + 2**32, 2**63, 2**64 - 1]
    for v in terminals(rng, n, 40) + LARGE:
        compared.ask("degree", v)
        compared.part(2 * m, v)
        compared.part(rng.choice(other), v)
    for room in sorted({0, m, 2 * m, 2 * m + 1, 2 * m + 2, abs(2 * m - 1)}):
        refusal, numbers = answer(unpack, data, room)
        compared.write("unpack", (refusal, [cells(numbers or [])]), junk(rng, 2 * room))
    return compared.result()


def building(data):
    """Build with every start, or some; and with a work slice and a buffer of other lengths, with a start that is taken
    and with one that is not."""
    rng, compared = Random(data), Compared(data)
    n, m = asked_sizes(data)
    least, length = 8 * n, index_length(n, m)
    short = abs(least - 1)
    fitting = product((least, least + rng.randint(1, 99), short, 0), [length])
    other = product((least, short), (length + 1, abs(length - 1), 0))
    trials = [(start, least, length) for start in starts(rng, n)]
    trials += [(start, *rooms) for rooms in [*fitting, *other] for start in (first(n), rng.choice(no_starts(n)))]
    for start, work, room in trials:
        refusal, index = answer(build, data, start, work, room)
        compared.write("build", (refusal, [index]), start, junk(rng, 2 * work), junk(rng, room))
    return compared.result()


def tabling(data):
    """The table with every start, or some; and with a work slice and lists of other lengths, each of the lists one
    shorter or longer, with a start that is taken and with one that is not."""
    rng, compared = Random(data), Compared(data)
    n, _ = asked_sizes(data)
    least = 8 * n
    short, fitting = abs(least - 1), [n] * len(LISTS)
    other = [[*fitting[:i], length, *fitting[i + 1 :]] for i in range(len(LISTS)) for length in (abs(n - 1), n + 1)]
    rooms = [(work, fitting) for work in (least + rng.randint(1, 99), short, 0)] + [(short, rng.choice(other))]
    rooms += [(least, lists) for lists in [*other, [n + 1] * len(LISTS), [0] * len(LISTS)]]
    trials = [(start, least, fitting) for start in starts(rng, n)]
    trials += [(start, work, lists) for work, lists in rooms for start in (first(n), rng.choice(no_starts(n)))]
    for start, work, lists in trials:
        refusal, filled = answer(table, data, start, work, *lists)
        held = [junk(rng, 2 * room) for room in lists]
        outcome = refusal, [cells(column) for column in filled or []]
        compared.write("table", outcome, start, junk(rng, 2 * work), *held)
    if n <= 40 and not answer(check, data)[0]:
        start = rng.randint(first(n), n)
        climbed = [head(data, built(data, start), v) for v in range(1, n + 1)]
        compared.settle(columns(data, start)[3] == climbed, "plain.py's table has other heads than its climbs")
    return compared.result()


# A record and an index

def asking(pair, most=14, large=LARGE):
    """Every query, for all terminals or for some; for some children where there are more; and for the large numbers.
    Then Lookup of several lists."""
    data, index = pair
    rng, compared = Random(data + index), Compared(data, index)
    numbers = terminals(rng, asked_sizes(data)[0], most) + large
    for v in numbers:
        for name in ("parent", "head", "children", "visit", "visited"):
            compared.query(name, v)
        for u in numbers:
            compared.query("ancestor", u, v)
        _, count = answer(children, data, index, v)
        for j in terminals(rng, count or 0, most) + large:
            compared.query("child", v, j)
    for asked, rooms in asked_lists(rng, asked_sizes(data)[0], most):
        look_up(compared, rng, asked, *rooms)
    return compared.result()


def as_built(data):
    """On the index from the first terminal or from another one."""
    rng, (n, _) = Random(data), sizes(data)
    return asking((data, built(data, rng.choice([first(n), rng.randint(first(n), n)]))))


# Lookup

def right_rooms(asked):
    """The lengths that the answer lists of this list have."""
    return [len(asked)] * len(ANSWERS)


def other_rooms(asked):
    """Other lengths: each of the answer lists alone shorter, longer, empty; both."""
    k = len(asked)
    short = [k - 1, 0] if k else []
    alone = [rooms for length in [*short, k + 1, 2 * k + 1] for rooms in ((length, k), (k, length))]
    return alone + [(k + 1, k + 1)] + [(length, other) for length in short for other in (length, k + 1)]


def no_terminals(n):
    """Numbers that are refused with 11."""
    return [0, n + 1, TOP]


def asked_lists(rng, n, most):
    """Lists for Lookup, each with the lengths of the answer lists: none; one terminal; all, or some; some of them again
    and again; with a number that is no terminal in front, among them and last; and with other lengths."""
    some = rng.sample(range(1, n + 1), min(n, most))
    again = rng.choices(some, k=2 * most) if some else []
    middle = len(some) // 2
    bad = [[k, *some] for k in no_terminals(n)] + [[*some, k] for k in no_terminals(n)]
    bad += [[*some[:middle], k, *some[middle:]] for k in no_terminals(n)]
    found = [[], some[:1], some, again, *rng.sample(bad, 3)]
    other = rng.choice([some, again, *bad])
    trials = [(asked, right_rooms(asked)) for asked in found]
    return trials + [(other, rooms) for rooms in rng.sample(other_rooms(other), 2)]


def look_up(compared, rng, asked, *rooms):
    """Lookup of this list, with answer lists of these lengths. Gives the refusal's number, 0 for none."""
    refusal, found = answer(lookup, compared.data, compared.index, asked, *rooms)
    outcome = refusal, [cells(column) for column in found or []]
    held = [junk(rng, 2 * room) for room in rooms]
    compared.write("lookup", outcome, compared.index, cells(asked), *held)
    return refusal


def expect(compared, rng, number, asked, *rooms):
    """The same, and this is the refusal's number, 0 for none."""
    refusal = look_up(compared, rng, asked, *rooms)
    compared.settle(refusal == number, "plain.py's Lookup of", asked[:8], f"refuses with {refusal} for {number}")


def lengths(data, index, number=0):
    """Lists of all lengths, also with a number that is no terminal in front, among the others or last. This refusal, or
    none, comes before that of the lengths."""
    rng, compared, (n, _) = Random(data + index), Compared(data, index), sizes(data)
    some = rng.sample(range(1, n + 1), min(n, 12)) or no_terminals(n)
    for k in (0, 1, 2, MOST_ASKED - 1, MOST_ASKED, MOST_ASKED + 1, 2 * MOST_ASKED, TOP + 1 + rng.randrange(3)):
        asked = rng.choices(some, k=k)
        bad = zip(sorted({0, k // 2, k - 1}), rng.sample(no_terminals(n), 3)) if k else []
        trials = [asked] + [[*asked[:i], v, *asked[i + 1 :]] for i, v in bad]
        for given in trials:
            refused = 0 if {*no_terminals(n)}.isdisjoint(given) else 11
            expect(compared, rng, number or (15 if k > MOST_ASKED else refused), given, *right_rooms(given))
        for rooms in rng.sample(other_rooms(asked), 4) + [(TOP + 1 + k, k), (k, TOP + 1 + k)]:
            expect(compared, rng, number or 15, rng.choice(trials), *rooms)
    return compared.result()


def on_lengths(data):
    """On an index from any start, and on one that is too long."""
    n, _ = sizes(data)
    index = built(data, Random(data).randint(first(n), n))
    return summed([lengths(data, index), lengths(data, index + b"\0", 10)])


def spoilt(rng, data):
    """An index with every place of one block marked in P, and some stored numbers of n and more; and terminals by the
    refusals of their Head and their Visit there, some for each: by 12 for either alone, and by none."""
    n, _ = sizes(data)
    while True:
        e, p, b, numbers = sections_of(data, built(data, rng.randint(1, n)))
        block = rng.choice([places for places in places_of(data) if len(places) > 1])
        p = "".join("1" if place in block else bit for place, bit in enumerate(p))
        numbers = [rng.choice([n, 4095]) if rng.random() < 0.3 else k for k in numbers]
        index, found = index_layout(e, p, b, numbers), {}
        for v in rng.sample(range(1, n + 1), min(n, 40)):
            refusals = tuple(answer(single, data, index, v)[0] for single in (head, visit))
            found.setdefault(refusals, []).append(v)
        if {(12, 0), (0, 12), (0, 0)} <= found.keys():
            return index, found


def two_refused(rng, n, found):
    """Lists with every two that are refused in one order and in the other, each with the refusal of the first: alone,
    with others in front, between and behind, and at the ends of the longest list."""
    good = found[0, 0]
    refused = [(12, vs[0]) for refusals, vs in found.items() if 12 in refusals] + [(11, v) for v in no_terminals(n)]
    for (number, u), (_, v) in product(refused, repeat=2):
        front, between, behind = (rng.choices(good, k=rng.randint(0, 3)) for _ in range(3))
        yield number, [u, v]
        yield number, [*front, u, *between, v, *behind]
        yield number, [u, *rng.choices(good, k=MOST_ASKED - 2), v]
    for number, u in refused:
        yield number, [*rng.choices(good, k=MOST_ASKED - 1), u]


def in_order(data):
    """Every two refusals in every order: of two terminals; 15 before them; 10 before all these; order R before all."""
    rng, (n, m) = Random(data), sizes(data)
    index, found = spoilt(rng, data)
    trials = list(two_refused(rng, n, found))

    def tried(data, index, number, trials):
        compared = Compared(data, index)
        for own, asked in trials:
            expect(compared, rng, number or own, asked, *right_rooms(asked))
            expect(compared, rng, number or 15, asked, *rng.choice(other_rooms(asked)))
        return compared.result()

    results = [tried(data, index, 0, trials)]
    for other in index[:-1], index + b"\0":
        results.append(tried(data, other, 10, rng.sample(trials, 12)))
        for rule in 1, 2, 3, 4:
            damaged = shapes.break_early(rng, data, rule, n, m)
            results += [tried(damaged, given, rule, rng.sample(trials, 4)) for given in (index, other)]
    return summed(results)


# Lookup beside the library's own single calls

def singly(compared, asked):
    """What the single calls come to, in the order of the list: the first refusal's number, 0 for none, and the heads
    and visit numbers before it."""
    found = [], []
    for v in asked:
        for name, column in zip(("head", "visit"), found):
            refusal, value = divmod(compared.call(name, *compared.both, v), 1 << 16)
            if refusal:
                return refusal, found
            column.append(value)
    return 0, found


def beside(data, index):
    """Lists of the most terminals, of fewer, and with one that is no terminal."""
    rng, compared, (n, _) = Random(data + index), Compared(data, index), sizes(data)
    some = rng.choices(range(1, n + 1), k=MOST_ASKED)
    middle = rng.randrange(MOST_ASKED)
    for asked in some, some[:middle], [*some[:middle], rng.choice(no_terminals(n)), *some[middle + 1 :]], some[:3]:
        refusal, found = singly(compared, asked)
        held = [junk(rng, 2 * room) for room in right_rooms(asked)]
        compared.write("lookup", (refusal, [cells(column) for column in found]), index, cells(asked), *held)
    return compared.result()


def beside_singles(data):
    """On an index from any start, on the same altered, and on others that nobody built."""
    rng, blocks = Random(data), blocks_of(data)
    index = built(data, rng.randint(1, len(blocks)))
    given = [index, *shapes.altered(rng, blocks, index)[:2], *shapes.unbuilt(rng, blocks)[2:4]]
    return summed(beside(data, index) for index in given)


# Starts

def former_search(blocks):
    """Document 01's search, which has no start: the terminals in order of first visit, and the parent of each. It goes
    down and back without a call inside a call."""
    order, parent, left = [], {}, [iter(block) for block in blocks]
    for root in range(1, len(blocks) + 1):
        v, found = 0, root if root not in parent else 0
        while v or found:
            if found:
                parent[found] = v
                order.append(found)
            v = found or parent[v]
            found = next((w for w in left[v - 1] if w not in parent), 0) if v else 0
    return order, parent


def groups(heads):
    """For each terminal the least one with the same head."""
    least = {}
    return [least.setdefault(head, v) for v, head in enumerate(heads, 1)]


def tabled(compared, start, n):
    """The table's columns by the library, for a start that is taken."""
    rooms = {"work": 8 * n, **dict.fromkeys(LISTS, n)}
    slices = [lent[name].hold(bytes(2 * room)) for name, room in rooms.items()]
    found = compared.call("table", *compared.record, start, *chain(*slices))
    compared.settle(found == 0, "table from", start, "gives", hex(found))
    return [array("H", lent[name].held()) for name in LISTS]


def started(data):
    """The first start gives the index of a search that has none. From every start, or from some, that terminal is
    visited first, and is a root, and the heads make the same groups."""
    rng, compared = Random(data), Compared(data)
    n, m = sizes(data)
    index = index_by(blocks_of(data), bridges_of(data), *former_search(blocks_of(data)))
    compared.write("build", (0, [index]), first(n), bytes(16 * n), bytes(index_length(n, m)))
    *_, heads = tabled(compared, first(n), n)
    for start in range(1, n + 1) if n <= 40 else {2, n, *rng.sample(range(1, n + 1), 3)}:
        visits, parents, _, others = tabled(compared, start, n)
        compared.settle((visits[start - 1], parents[start - 1]) == (1, 0), f"the search from {start} begins elsewhere")
        compared.settle(groups(others) == groups(heads), f"the heads from {start} make other groups")
    return compared.result()


def indexed(compared, start):
    """The index by the library, for a start that is taken."""
    n, m = sizes(compared.data)
    work, index = lent["work"].hold(bytes(16 * n)), lent["index"].hold(bytes(index_length(n, m)))
    found = compared.call("build", *compared.record, start, *work, *index)
    compared.settle(found == 0, "build from", start, "gives", hex(found))
    return bytes(lent["index"].held())


def counts(data):
    """From every start, or from some, the loop figure is the number of wires without a mark in the E that Build writes,
    and m − n plus the number of zeros among the table's parents. The different heads are as many as those zeros and
    half the ones of the B that Build writes."""
    compared, (n, m) = Compared(data), sizes(data)
    compared.ask("loop_figure")
    figure = compared.call("loop_figure", *compared.record)
    for start in starts_of(data):
        index = indexed(compared, start)
        left, ones = unmarked(data, index), ones_of_b(data, index)
        compared.settle(figure == left, f"the figure is {figure}, and from {start} Build leaves {left} wires unmarked")
        _, parents, _, heads = tabled(compared, start, n)
        roots, different = parents.count(0), len(set(heads))
        compared.settle(figure == m - n + roots, f"the figure is {figure}, and from {start} there are {roots} roots")
        told = f"from {start} there are {different} different heads, {roots} roots, and B has {ones} ones"
        compared.settle(2 * different == 2 * roots + ones, told)
    return compared.result()


def from_start(data, start, together):
    """On the index that Build writes, heads are equal exactly for these pairs."""
    compared, (n, _) = Compared(data), sizes(data)
    compared.index = indexed(compared, start)
    index = lent["index"].hold(compared.index)
    heads = {v: compared.call("head", *compared.record, *index, v) for v in range(1, n + 1)}
    for (u, v), same in together.items():
        told = f"the heads of {u} and {v} are {heads[u]} and {heads[v]}"
        compared.settle((heads[u] == heads[v]) == same, f"from {start}", told)
    return compared.result()


def sections(data):
    """From every start, heads are equal exactly where two terminals are joined, and stay so whichever single wire is
    taken out, also one of several between the same terminals."""
    blocks = blocks_of(data)
    looms = [blocks] + [without(blocks, wire) for wire in wires(blocks)]
    everyone = range(1, len(blocks) + 1)
    together = {(u, v): all(joined(loom, u, v) for loom in looms) for u, v in combinations(everyone, 2)}
    return summed(from_start(data, start, together) for start in everyone)


# All of it on one record

def largest(data):
    """Every operation on a record of the largest size, and the queries on its indexes from the first and the last
    terminal."""
    results = [alone(data), building(data), tabling(data)]
    if not answer(check, data)[0]:
        indexes = [built(data, start) for start in (1, sizes(data)[0])]
        results += [asking((data, index), most=8) for index in indexes] + [started(data), counts(data)]
        results += [beside(data, index) for index in indexes]
    return summed(results)


# Other indexes

def on_altered(data):
    return summed(asking((data, index)) for index in shapes.altered(Random(data), blocks_of(data), built(data)))


def on_unbuilt(data):
    """Indexes that nobody built, for a record that order R lets pass."""
    most = 14 if len(data) < 1000 else 3
    return summed(asking((data, index), most) for index in shapes.unbuilt(Random(data), blocks_of(data)))


def on_foreign(case):
    """Of two records with one n and m, each with the other's index."""
    here, there = case
    return summed(asking(pair) for pair in ((here, built(there)), (there, built(here))))


def on_climbs(n):
    blocks, indexes = shapes.climbs(n)
    return summed(asking((record(blocks), index)) for index in indexes)


def on_every_mark(blocks):
    """Every set of marks in P and B, at the places of D's ones too, with as many marks in E."""
    places = ["".join(bits) for bits in product("01", repeat=shapes.places(blocks))]
    numbers = [0] * len(blocks)
    return summed(asking((record(blocks), index_layout(p, p, b, numbers)), large=[]) for p, b in product(places, repeat=2))


def on_other_lengths(data):
    """Indexes that are too short or too long, and for a record that order R refuses any index."""
    n, m = asked_sizes(data)
    size = index_length(n, m)
    return summed(asking((data, bytes(length)), most=2) for length in sorted({0, 1, size, size + 1, size + 2, 2 * size, abs(size - 1)}))


# Document 01's own words, the sample from another start, and doubled wires

SAMPLE_BYTES = "00 30 00 59 22 A0 02 00 10 00 00 20 01 00 30 00 00 20 05 00 40"
# a record that is accepted, its index and its heads
STATED = [
    (SAMPLE_BYTES, "41 84 04 51 00 95 00 00 02 00 10 03 00 40 05", [1, 1, 1, 4, 5, 6]),
    ("00 00 00 00", "", []),
    ("00 08 00 08", "00 00 00 00 00", [1]),
    ("00 10 00 1A 00 10 00", "40 10 50 00 00 01", [1, 2]),
]
# the same, worked by hand
WORKED = [
    # the sample from 4: the order of visits is 4, 3, 2, 1, 5, 6
    (SAMPLE_BYTES, "09 14 24 81 00 95 00 30 02 00 10 00 00 40 05", [3, 3, 3, 4, 5, 6], 4),
    # 1: 2 2; 2: 1 1
    ("00 10 00 29 00 04 00 40 00 00 00", "40 08 00 00 00 01", [1, 1]),
    # 1: 2 2; 2: 1 3 1; 3: 2, from 1 and from 3
    ("00 18 00 39 10 00 80 08 00 00 10 00 00 08", "44 00 08 80 04 80 00 00 01 00 20", [1, 1, 3]),
    ("00 18 00 39 10 00 80 08 00 00 10 00 00 08", "08 80 44 00 04 80 00 20 01 00 00", [2, 2, 3], 3),
]
# a record that is refused, and the number
STATED_REFUSALS = [
    (bytes.fromhex("00 30 00 59 22 A0 02 00 10 00 00 20 01 00 30 00 00 20 05 00 41"), 5),
    (bytes.fromhex("00 30 00"), 1),
    (layout(4097, 0, "", []), 2),
    (record([[2, 3], [1], [2]]), 8),
    (record([[2, 2, 2], [1]]), 8),
]


def stated(case):
    """The functions, and plain.py too, against the bytes and numbers that are given."""
    data, index, heads, *given = bytes.fromhex(case[0]), bytes.fromhex(case[1]), *case[2:]
    compared, terminals = Compared(data, index), range(1, len(heads) + 1)
    start = given[0] if given else first(len(heads))
    found = answer(build, data, start, 8 * len(heads), len(index))
    compared.settle(found == (0, index), "plain.py builds another index")
    compared.settle([head(data, index, v) for v in terminals] == heads, "plain.py finds other heads")
    compared.write("build", (0, [index]), start, bytes(16 * len(heads)), bytes(len(index)))
    found = [compared.call("head", *compared.both, v) for v in terminals]
    compared.settle(found == heads, "heads", found)
    return compared.result()


def stated_figure(case):
    blocks, figure = case
    compared = Compared(record(blocks))
    found = compared.call("loop_figure", *compared.record)
    compared.settle(found == figure, "loop_figure gives", hex(found), "for", hex(figure))
    return compared.result()


def stated_refusal(case):
    data, number = case
    compared = Compared(data)
    compared.settle(answer(check, data) == (number, None), "plain.py refuses otherwise")
    compared.ask("check")
    return compared.result()


def version(numbers):
    compared = Compared(b"")
    found, expected = compared.call("version"), int.from_bytes(bytes(numbers), "big")
    compared.settle(found == expected, "version gives", hex(found), "for", hex(expected))
    return compared.result()


# Bits

def counting(case):
    data, strings, numbers = case
    compared = Compared(data)
    for start, places in strings:
        compared.rank_and_select(start, places, numbers)
    return compared.result()


def short_strings():
    """Every string in three bytes."""
    rng = Random("short strings")
    return [(data, list(product(range(27), repeat=2)), [*range(27), 2**64 - 1]) for data in (b"\0\0\0", b"\xff\xff\xff", rng.randbytes(3))]


def dotted(rng, size, share):
    """Bytes with about this share of ones."""
    return packed("".join("01"[rng.random() < share] for _ in range(8 * size)))


def strings(name, sizes, count):
    """Strings that start and end anywhere, for bytes of these sizes, and numbers up to the places and up to the ones that there are."""
    rng = Random(name)
    found = []
    for size in sizes:
        data = dotted(rng, size, rng.choice([0.01, 0.1, 0.5, 0.9, 1]))
        places, ones = 8 * size, bits_of(data).count("1")
        starts = [1, 7, 8] + [rng.randrange(places) for _ in range(count)]
        bounds = [(0, places)] + [(start, rng.choice([places - start, rng.randint(0, places - start)])) for start in starts]
        numbers = [0, 1, 64, ones, ones + 1, places, 2**64 - 1] + [rng.randint(1, most) for most in (ones, places) for _ in range(count)]
        found.append((data, bounds, numbers))
    return found


def not_held():
    rng = Random("not held")
    found = []
    for size in (0, 1, 8, 9, 64, 500):
        end, top = 8 * size, 2**64
        bounds = [(0, end + 1), (end, 1), (end + 1, 0), (1, end), (end, 0), (0, end)]
        bounds += [(1, top - 1), (0, top - 1), (top - 1, 0), (top - 1, top - 1), (top // 2, top // 2), (8, top - 8)]
        bounds += [(top - k, k + j) for k in (1, 8, 64) for j in (0, 1, 8, end)]
        found.append((rng.randbytes(size), bounds, [0, 1, 2, 8, 9, 64, end, end + 1, *LARGE]))
    return found


# All of it

def records(*families):
    return [data for cases in families for _, data in cases]


def some(rng, given, most, count):
    """Some of the records that order R lets pass and that have from 1 to so many terminals."""
    return rng.sample([data for data in given if not answer(order_r, data)[0] and 1 <= sizes(data)[0] <= most], count)


def is_doubled(data):
    """Whether a neighbour stands several times in a block."""
    return any(len(set(block)) < len(block) for block in blocks_of(data))


def one_loom(rng):
    """A record of some terminals that are all joined."""
    graph = rng.choice([shapes.loose(rng), shapes.bridged(rng, *shapes.several(rng, 6, 12))])
    return record(shapes.shuffled(rng, shapes.renamed(rng, graph)))


def twins(rng):
    """Two records with one n and m."""
    n = rng.randint(2, 14)
    m = rng.randint(1, min(20, n * (n - 1) // 2))
    kinds = rng.choices([shapes.sparse, shapes.scattered], k=2)
    return tuple(record(shapes.shuffled(rng, kind(rng, n, m))) for kind in kinds)


def families():
    rng = Random("header")
    every = records(shapes.every(4), shapes.every_doubled())
    large, large_damaged = records(shapes.largest()), records(shapes.largest_damaged())
    small, medium, damaged = (records(*named.values()) for named in (shapes.small(), shapes.medium(), shapes.damaged()))
    doubled = [data for data in small if is_doubled(data)]
    marked = [[[1, 1]], WIRE, [[3], [1]], [[2], [1], []], [[2, 2], [1, 1]]]
    return {
        "document 01's records, and others by hand": (stated, STATED + WORKED),
        "loop figures worked by hand, the documents' too": (stated_figure, WORKED_FIGURES),
        "the documents' refusals": (stated_refusal, STATED_REFUSALS),
        "the header's version": (version, [header_version()]),
        "largest": (largest, large),
        "largest damaged": (largest, large_damaged),
        "largest, indexes that nobody built": (on_unbuilt, some(rng, large_damaged, MOST_TERMINALS, 3)),
        "without an index": (alone, every + small + medium + damaged),
        "Build": (building, every + small + medium + damaged),
        "table": (tabling, every[::4] + small[::2] + medium[::4] + damaged[::2]),
        "built indexes": (as_built, every[::8] + small[::3] + medium[::4]),
        "altered indexes": (on_altered, some(rng, small, 14, 150)),
        "indexes of other records": (on_foreign, [twins(rng) for _ in range(150)]),
        "indexes that nobody built": (on_unbuilt, some(rng, small, 14, 60) + some(rng, damaged, 14, 120)),
        "climbs": (on_climbs, range(3, 15)),
        "every set of marks": (on_every_mark, marked),
        "indexes of other lengths": (on_other_lengths, some(rng, small, 40, 60) + rng.sample(damaged, 300)),
        "sections": (sections, some(rng, small, 12, 400) + some(rng, doubled, 12, 100)),
        "starts": (started, every + small + medium),
        "loop figures and sections, counted": (counts, every + small + medium[::4]),
        "lengths of Lookup's lists": (on_lengths, small[: len(shapes.FIXED)] + medium[::60]),
        "two refusals in Lookup's list": (in_order, [one_loom(rng) for _ in range(60)] + medium[7::60]),
        "Lookup beside the single calls": (beside_singles, some(rng, small, 40, 40) + medium[::30]),
        "short strings": (counting, short_strings()),
        "strings": (counting, strings("strings", range(8, 200, 3), 20)),
        "long strings": (counting, strings("long strings", (1000, 6720, 53764, 100000), 4)),
        "strings that are not held": (counting, not_held()),
    }


def compare(library, room):
    if exported(library) != set(FUNCTIONS):
        return fail(f"exported: {sorted(exported(library))}, compared here: {sorted(FUNCTIONS)}")
    return tally(families(), "calls", load, [library])


if __name__ == "__main__":
    sys.exit(with_library(ARCHIVE, compare))
