"""Compares File, which writes a record from a list of degrees and one list of neighbours, with plain.py: on the lists
of records of every shape, which are written again with the same bytes, at the borders of each refusal and of each room
that File takes, with every set of refusals at once, and on lists of every kind.

A refusal leaves the buffer as it was. Else all of it is written, whatever it held before, and nothing outside of it.
"""
import ctypes
import mmap
import sys
from array import array
from collections import Counter
from functools import lru_cache
from itertools import chain, combinations, product
from random import Random

import shapes
from families import summed, tally
from header import FILED, Compared, lent, load, with_library
from header_test import TOP, cells, junk, records
from packing import SAMPLE, WIRE, record, record_length
from plain import MOST_LISTED, MOST_TERMINALS, MOST_WIRES, answer, blocks_of, check, file, order_r, sizes
from programs import ARCHIVE

# What File may give, 0 for no refusal
OUTCOMES = [0, 6, 8, 16, 17]


# Calls

def lists(blocks):
    """The degrees, and the neighbours in a row."""
    return [len(block) for block in blocks], [w for block in blocks for w in block]


def fitting(degrees, listed):
    """The length of the record with so many terminals and wires."""
    return record_length(len(degrees), len(listed) // 2)


def written(compared, degrees, listed, held):
    """File of these lists to a buffer that holds these bytes before. Gives the refusal's number, 0 for none."""
    refusal, data = answer(file, degrees, listed, len(held))
    compared.write("file", (refusal, [data]), cells(degrees), cells(listed), held)
    return refusal


def refused(degrees, listed):
    """The refusal's number by plain.py, 0 for none, with a buffer of the record's length."""
    return answer(file, degrees, listed, fitting(degrees, listed))[0]


def expect(compared, rng, number, degrees, listed, room=None):
    """The same with a buffer of this length, or of the record's, and this is the refusal's number."""
    size = fitting(degrees, listed) if room is None else room
    refusal = written(compared, degrees, listed, junk(rng, size))
    shown = f"{degrees[:8]} of {len(degrees)}, {listed[:8]} of {len(listed)}"
    compared.settle(refusal == number, "plain.py's File of", shown, "to", size, f"refuses with {refusal} for {number}")


def stated(case):
    """A refusal's number, 0 for none, the lists, and the length of the buffer where it isn't the record's."""
    number, degrees, listed, *_ = case
    rng, compared = Random(f"{number} {len(degrees)} {sum(degrees)} {len(listed)}"), Compared(b"")
    expect(compared, rng, *case)
    return compared.result()


# There and back

def filed_again(data):
    """The lists that Degree and Unpack give of an accepted record, which are plain.py's, are written to its bytes,
    whatever the buffer held before. What is written is accepted, and gives the same lists."""
    rng, compared = Random(data), Compared(data)
    degrees, listed = lists(blocks_of(data))
    compared.settle(answer(file, degrees, listed, len(data)) == (0, data), "plain.py files another record")
    given = unfiled(compared, compared.record)
    compared.settle(given == (degrees, listed), "the library gives other lists than plain.py")
    passed = cells(degrees), cells(listed)
    for held in bytes(len(data)), b"\xff" * len(data), rng.randbytes(len(data)):
        compared.write("file", (0, [data]), *passed, held)
    # what the last call has written
    again = lent["filed"].end - len(data), len(data)
    found = compared.call("check", *again)
    compared.settle(found == 0, "check gives", hex(found), "of what file has written")
    compared.settle(unfiled(compared, again) == given, "what file has written gives other lists")
    for room in {0, len(data) - 1, len(data) + 1, 2 * len(data)}:
        compared.write("file", (17, []), *passed, junk(rng, room))
    expect(compared, rng, 17, degrees, listed, rng.choice([0, len(data) - 1, len(data) + 1]))
    return compared.result()


def unfiled(compared, held):
    """The degrees and the neighbours of the record in this slice, by the library."""
    n, m = sizes(compared.data)
    found = [compared.call("degree", *held, v) for v in range(1, n + 1)]
    filled = compared.call("unpack", *held, *lent["list"].hold(b"\xee" * 4 * m))
    compared.settle(filled == 0, "unpack gives", hex(filled))
    return found, array("H", lent["list"].held()).tolist()


def as_checked(data):
    """The lists of a record that order R lets pass. Where Check refuses it with 6 or 8, so does File; where a spare bit
    is set, File knows of none."""
    rng, compared = Random(data), Compared(data)
    degrees, listed = lists(blocks_of(data))
    known, _ = answer(check, data)
    rooms = len(data), len(data) + 1, len(data) - 1, 0
    for room in rooms:
        refusal = written(compared, degrees, listed, junk(rng, room))
        if known in (6, 8):
            compared.settle(refusal == known, f"plain.py's File refuses with {refusal}, and its Check with {known}")
    return compared.result()


# The borders of 16

def summing(total):
    """Degrees that have this sum, as few as can be."""
    return [TOP] * (total // TOP) + [total % TOP]


def of_degrees():
    """At most 4,096 degrees, all 0 or with one wire; a longer list that would do if its length were cut."""
    n = MOST_TERMINALS
    found = [(0, [0] * n, []), (0, [1, 1] + [0] * (n - 2), [2, 1]), (0, [0] * (n - 2) + [1, 1], [n, n - 1])]
    for more in 1, 2, n, n + 2, 3 * n, 2 * n + 2, 16 * n - n, 16 * n - n + 2:
        found += [(16, [0] * (n + more), []), (16, [1, 1] + [0] * (n + more - 2), [2, 1])]
        found += [(16, [0] * (n + more), [], 4), (16, [1, 1] + [0] * (n + more - 2), [2, 1], record_length(2, 1))]
    return found


def of_sums():
    """Sums of at most 32,768 and above it, odd sums, and sums that would do if they were cut to fewer bits."""
    m, n = MOST_WIRES, MOST_TERMINALS
    rings = [[(v + step) % n + 1 for step in (1, n - 1, 2, n - 2, 3, n - 3, 4, n - 4)] for v in range(n)]
    found = [(0, *lists(blocks)) for blocks in ([[2] * m, [1] * m], rings, [[], [3] * m, [2] * m])]
    found += [(0, *lists([[2] * (m - 1), [1] * (m - 1)]))]
    for over in 1, 2, 10, m:
        found.append((16, *lists([[2] * (m + over), [1] * (m + over)])))
        found.append((16, *lists([*rings[:-2], rings[-2] + [n] * over, rings[-1] + [n - 1] * over])))
    # odd: with as many neighbours, with one fewer and with one more
    for degrees in [1], [0, 1], [1, 2], [2, 1], [3], [1, 1, 1], [MOST_LISTED - 1], [m, m - 1], [m, m, 1], [TOP]:
        total = sum(degrees)
        found += [(16, degrees, [2, 1] * (count // 2) + [1] * (count % 2)) for count in (total - 1, total, total + 1)]
    # degrees that add up to a power of two, few and 4,096 of them, with no wire or with one
    for power in range(1, 28):
        found += [(16, summing(2**power), []), (16, [1, 1, *summing(2**power)], [2, 1])]
    for power in range(16):
        found += [(16, [2**power] * n, []), (16, [2**power + 1] * 2 + [2**power] * (n - 2), [2, 1])]
    # each degree the largest, and one of them less, so that the sum ends in so many zeros or in one wire's 2
    found += [(16, [TOP] * n, []), (16, [TOP] * n, [2, 1] * (n * TOP % 65536 // 2))]
    found += [(16, [TOP] * (n - 1) + [n - 1], []), (16, [n - 1] + [TOP] * (n - 1), [])]
    found += [(16, [TOP] * (n - 1) + [n + 1], [2, 1]), (16, [TOP] * (n - 1) + [n + 1], [n, n])]
    # the sum is 2^32, or that and a wire's 2, which takes more than 4,096 degrees
    return found + [(16, summing(2**32), []), (16, [1, 1, *summing(2**32)], [2, 1])]


def of_neighbours():
    """Neighbours that are too few or too many."""
    found = []
    for blocks in SAMPLE, WIRE, [], [[]], [[], []], [[2, 2], [1, 1]], [[2] * MOST_WIRES, [1] * MOST_WIRES]:
        degrees, listed = lists(blocks)
        found.append((0, degrees, listed))
        for other in [], listed[:-2], listed[:-1], listed[1:], listed + [1], listed + [2, 1], listed + listed:
            if len(other) != len(listed):
                found += [(16, degrees, other), (16, degrees, other, fitting(degrees, listed))]
        # so many more that a cut length would do
        found += [(16, degrees, (listed + [1] * 2**power)[: len(listed) + 2**power]) for power in (8, 15, 16, 17)]
    return found


# Lists, and instead of some how many zeros they have: other lists if their lengths were cut to 32 bits
VAST = [([], 2**32), (2**32, []), (2**32, 2**32), (2**32 + 1, []), ([1, 1], 2**32 + 2), ([2, 0], 2**32 + 2)]


@lru_cache
def zeros():
    """Where memory begins that has more than 2^32 zeros of 16 bits each, and can only be read."""
    given = ctypes.CDLL(None).mmap
    given.restype = ctypes.c_void_p
    given.argtypes = [ctypes.c_void_p, ctypes.c_size_t, *3 * [ctypes.c_int], ctypes.c_long]
    found = given(None, 2 * (2**32 + 2), mmap.PROT_READ, mmap.MAP_PRIVATE | mmap.MAP_ANONYMOUS, -1, 0)
    assert found != ctypes.c_void_p(-1).value, "there is no room for so many numbers"
    return found


def vast(case):
    """They are refused with 16."""
    rng, compared = Random(str(case)), Compared(b"")
    named = zip(FILED, case)
    slices = [(zeros(), given) if isinstance(given, int) else lent[name].hold(cells(given)) for name, given in named]
    for room in record_length(0, 0), record_length(2, 1), 0:
        held = junk(rng, room)
        found = compared.call("file", *chain(*slices, lent["filed"].hold(held)))
        compared.settle(found == 16 << 16, "file of", case, "gives", hex(found))
        compared.settle(lent["filed"].holds(held), "file of", case, "leaves other bytes in the buffer")
    return compared.result()


# The borders of 6 and 8

def replaced(listed, i, w):
    return [*listed[:i], w, *listed[i + 1 :]]


def strays(n, w):
    """Numbers for the neighbour w that are 0 or above n; cut to 12 bits, or less 1, some of them are that neighbour."""
    high = {n + 1, n + w, 4097, n + 4096, w + 4096, w + 8192, w + 15 * 4096, 2 * n + 1, 32768, 32768 + w, TOP - 1, TOP}
    return [0, *sorted(v for v in high if n < v <= TOP)]


def owners_of(blocks):
    """For each neighbour in a row the terminal in whose block it stands."""
    return [v for v, block in enumerate(blocks, 1) for _ in block]


def some_places(rng, listed):
    """Each place of a short list; else the first, the last and two more."""
    places = range(len(listed))
    return places if len(places) <= 40 else sorted({places[0], places[-1], *rng.sample(places, 2)})


def on_strays(data):
    """At each place of a small record, or at some, a neighbour becomes a number that is no terminal, or the terminal
    itself; and all neighbours do so at once."""
    rng, compared, blocks = Random(data), Compared(data), blocks_of(data)
    n, (degrees, listed), owners = len(blocks), lists(blocks), owners_of(blocks)
    for i in some_places(rng, listed):
        for w in [owners[i], *strays(n, listed[i])]:
            expect(compared, rng, 6, degrees, replaced(listed, i, w))
            expect(compared, rng, 6, degrees, replaced(listed, i, w), rng.choice([0, len(data) - 1, len(data) + 1]))
    for every in owners, [w + 4096 for w in listed], [0] * len(listed), [TOP] * len(listed):
        expect(compared, rng, 6 if listed else 0, degrees, every)
    # one less, as the record has it, is 0 for terminal 1
    if 1 in listed:
        expect(compared, rng, 6, degrees, [w - 1 for w in listed])
    # the highest terminal where it would be cut to 0
    if n in listed:
        expect(compared, rng, 6, degrees, [0 if w == n else w for w in listed])
    return compared.result()


def on_one_sided(data):
    """At each place of a small record, or at some, a neighbour becomes another terminal, of three or more."""
    rng, compared, blocks = Random(data), Compared(data), blocks_of(data)
    n, (degrees, listed), owners = len(blocks), lists(blocks), owners_of(blocks)
    for i in some_places(rng, listed):
        others = sorted({*range(1, n + 1)} - {owners[i], listed[i]})
        for w in {others[0], others[-1], rng.choice(others)}:
            expect(compared, rng, 8, degrees, replaced(listed, i, w))
            expect(compared, rng, 8, degrees, replaced(listed, i, w), rng.choice([0, len(data) - 1, len(data) + 1]))
    return compared.result()


UNEVEN = [
    # one-sided wires
    [[2, 3], [1], [2]],
    [[2, 2], []],
    [[], [1, 1]],
    [[2], [3], [1], [3]],
    [[2, 3], [], []],
    # mentions that differ in number, and that are as many in all
    [[2, 2, 2], [1]],
    [[2], [1, 1, 1]],
    [[2, 2], [3, 3], [1, 1]],
    [[2] * (MOST_WIRES + 1), [1] * (MOST_WIRES - 1)],
    [[2] * (2 * MOST_WIRES), []],
]


# The borders of the rooms

# The most terminals and wires of each room but the largest, which takes all
ROOMS = [(128, 256), (512, 1024), (MOST_TERMINALS, 4096)]
# So many where the other number is at a border
FEW_TERMINALS, FEW_WIRES = 5, 9


def border_sizes():
    """Terminals and wires: one of them at a border or one above it, and few of the other; both at the borders of one
    room; the one at its border, and the other one above."""
    found = []
    for n, m in ROOMS:
        found += [(FEW_TERMINALS, m), (FEW_TERMINALS, m + 1), (n, FEW_WIRES), (n, m), (n, m + 1)]
        if n < MOST_TERMINALS:
            found += [(n + 1, FEW_WIRES), (n + 1, m)]
    return found


def along(rng, n, m):
    """So many wires along a path, one of them at each of its ends."""
    _, wires = shapes.path(n)
    return shapes.shuffled(rng, (n, [wires[0], wires[-1], *rng.choices(wires, k=m - 2)]))


def at_border(size):
    """A record of this size, and its lists with a stray neighbour and with a one-sided wire."""
    data = record(along(Random(f"rooms {size}"), *size))
    return summed(test(data) for test in (filed_again, on_strays, on_one_sided))


# Every set of refusals at once

def odd(rng, degrees, listed):
    v = rng.randrange(len(degrees))
    at = sum(degrees[: v + 1])
    return replaced(degrees, v, degrees[v] + 1), [*listed[:at], rng.choice([1, 2]), *listed[at:]]


def too_many(rng, degrees, listed):
    return degrees + [0] * (MOST_TERMINALS + 1 - len(degrees)), listed


def too_large(rng, degrees, listed):
    n = len(degrees)
    return [*degrees, MOST_WIRES, MOST_WIRES], [*listed, *[n + 2] * MOST_WIRES, *[n + 1] * MOST_WIRES]


def of_other_length(rng, degrees, listed):
    return degrees, rng.choice([listed[:-1], listed[:-2], listed + [1], listed + listed[-2:]])


GROUNDS = [odd, too_many, too_large, of_other_length]
SETS = [set(some) for size in range(1, 5) for some in combinations((16, 6, 8, 17), size)]


def first_of(rules):
    """The one that is tried first."""
    return next(rule for rule in (16, 6, 8, 17) if rule in rules)


def several(case):
    """Lists and a buffer that break these rules: 16 on each ground, 8 in each way, and 6 in any block that keeps its
    neighbours where 8 is broken. So 6 and 8 are broken each by itself too, where the other is put right."""
    rules, ground, way, seed = case
    names = [function.__name__ for function in (ground, way) if function]
    drawn_by = f"{sorted(rules)} {names} {seed}"
    rng, compared = Random(drawn_by), Compared(b"")
    blocks = blocks_of(shapes.broken(rng, rules & {8}, way=way))
    # the same record with 8 kept
    even = blocks_of(shapes.broken(Random(drawn_by), set()))
    kept = [(v, j) for v, block in enumerate(even, 1) if block == blocks[v - 1] for j in range(len(block))]
    v, j = rng.choice([kept[0], kept[-1], rng.choice(kept)])
    stray = rng.choice([v, *strays(len(even), even[v - 1][j])])
    alone = {0: even, 6: shapes.changed(even, v, j, stray), 8: shapes.changed(blocks, v, j, even[v - 1][j])}
    for number in sorted(alone.keys() & {0, *rules}):
        found = refused(*lists(alone[number]))
        compared.settle(found == number, f"plain.py's File of {alone[number]} refuses with {found} for {number}")
    degrees, listed = lists(shapes.changed(blocks, v, j, stray) if 6 in rules else blocks)
    if 16 in rules:
        degrees, listed = ground(rng, degrees, listed)
    room = fitting(degrees, listed)
    rooms = [0, room - 1, room + 1] if 17 in rules else [room]
    for given in rooms:
        expect(compared, rng, first_of(rules), degrees, listed, given)
    return compared.result()


def sets_of_refusals():
    found = []
    for rules in SETS:
        grounds = GROUNDS if 16 in rules else [None]
        ways = shapes.UNEQUAL if 8 in rules else [None]
        found += [(rules, *drawn, seed) for drawn in product(grounds, ways) for seed in range(8)]
    return found


# Lists of every kind

def every_small(n):
    """Every list of degrees up to 2 and every list of at most 4 neighbours up to n + 1, for n terminals, with a buffer
    of the record's length and with another."""
    rng, compared = Random(n), Compared(b"")
    for degrees in product(range(3), repeat=n):
        for count in range(5):
            for listed in product(range(n + 2), repeat=count):
                size = fitting(degrees, listed)
                for room in (size, rng.choice([0, size - 1, size + 1])) if count == sum(degrees) else [size]:
                    written(compared, degrees, listed, junk(rng, room))
    return compared.result()


def scattered(rng):
    """Blocks of a few terminals that are accepted."""
    n = rng.randint(0, 9)
    graph = shapes.scattered(rng, n, rng.randint(0, 2 * n)) if n > 1 else (n, [])
    return shapes.shuffled(rng, graph)


def drawn(rng):
    """Lists of few numbers: of an accepted record; the same changed a little; any."""
    degrees, listed = lists(scattered(rng))
    change = rng.choice(["none", "neighbour", "neighbour", "swap", "move", "degree", "length", "any"])
    n, count = len(degrees), len(listed)
    if change == "neighbour" and listed:
        i = rng.randrange(count)
        listed[i] = rng.choice([0, n + 1, rng.randint(1, n), rng.randint(1, n), listed[i] + 4096, rng.randint(0, TOP)])
    elif change == "swap" and listed:
        i, j = rng.choices(range(count), k=2)
        listed[i], listed[j] = listed[j], listed[i]
    elif change == "move" and listed:
        # the sum stays
        degrees[rng.choice([v for v in range(n) if degrees[v]])] -= 1
        degrees[rng.randrange(n)] += 1
    elif change == "degree" and degrees:
        v = rng.randrange(n)
        degrees[v] = rng.choice([abs(degrees[v] - 1), degrees[v] + 1, degrees[v] + 2, 65536 - 2, rng.randint(0, TOP)])
    elif change == "length":
        listed = rng.choice([listed[:-1], listed[:-2], listed + [1], listed + listed])
    elif change == "any":
        degrees = [rng.randint(0, 2) for _ in range(rng.randint(0, 4))]
        listed = [rng.randint(0 if rng.random() < 0.2 else 1, max(len(degrees), 1)) for _ in range(sum(degrees))]
    return degrees, listed


def random_lists(seed):
    """Each outcome comes often."""
    rng, compared, outcomes = Random(f"lists {seed}"), Compared(b""), Counter()
    for _ in range(1500):
        degrees, listed = drawn(rng)
        size = fitting(degrees, listed)
        room = rng.choice([size, size, size, size + 1, size - 1, rng.randint(0, 2 * size)])
        outcomes[written(compared, degrees, listed, junk(rng, room))] += 1
    rare = [number for number in OUTCOMES if outcomes[number] < 100]
    compared.settle(not rare and set(outcomes) == set(OUTCOMES), f"so often comes each outcome: {dict(outcomes)}")
    return compared.result()


# All of it

def families():
    every = records(shapes.every(4), shapes.every_doubled())
    small, medium, damaged = (records(*named.values()) for named in (shapes.small(), shapes.medium(), shapes.damaged()))
    large, large_damaged = records(shapes.largest()), records(shapes.largest_damaged())
    passing = [data for data in damaged + large_damaged if not answer(order_r, data)[0]]
    strayed = small[: len(shapes.FIXED)] + small[::25] + medium[::20] + large[::6]
    return {
        "largest": (filed_again, large),
        "vast lists": (vast, VAST),
        "number of degrees": (stated, of_degrees()),
        "sum of degrees": (stated, of_sums()),
        "number of neighbours": (stated, of_neighbours()),
        "every small record": (filed_again, every),
        "small": (filed_again, small),
        "medium": (filed_again, medium),
        "damaged records": (as_checked, passing),
        "neighbours that are no terminals": (on_strays, strayed),
        "unequal mentions": (stated, [(8, *lists(blocks)) for blocks in UNEVEN]),
        "borders of the rooms": (at_border, border_sizes()),
        "every set of refusals": (several, sets_of_refusals()),
        "every list of few numbers": (every_small, range(4)),
        "random lists": (random_lists, range(24)),
    }


def compare(library, room):
    return tally(families(), "calls", load, [library])


if __name__ == "__main__":
    sys.exit(with_library(ARCHIVE, compare))
