"""Compares the loop figure of plain.py, which is by the number of looms, with what its forests tell: the wires without
a mark in E, and the roots. Nothing that is built is needed.

The records are accepted ones of every shape, searched from several starts.
"""
import sys
from random import Random

import shapes
from families import shown, tally
from packing import SAMPLE, WIRE, record
from plain import MOST_TERMINALS, MOST_WIRES, blocks_of, index_of, loop_figure, looms, reached, search, sizes, unmarked

# Blocks and the figure, worked by hand
WORKED = [
    # the documents' own: 1, 2 and 3 close a loop; the empty record
    (SAMPLE, 1),
    ([], 0),
    # no wires, one terminal, two, and the most; one wire; wires between two of the terminals
    ([[]], 0),
    ([[], []], 0),
    ([[]] * MOST_TERMINALS, 0),
    (WIRE, 0),
    ([[], [4], [], [2], []], 0),
    # one loop beside terminals by themselves, which come first or last
    ([[], [3, 4], [2, 4], [2, 3]], 1),
    ([[2, 3], [1, 3], [1, 2], []], 1),
    # two loops, in one loom or in two
    ([[2, 3], [1, 3], [1, 2, 4, 5], [3, 5], [3, 4]], 2),
    ([[2, 3], [1, 3], [1, 2], [5, 6], [4, 6], [4, 5]], 2),
    # two wires between the same terminals, three, and two pairs
    ([[2, 2], [1, 1]], 1),
    ([[2, 2, 2], [1, 1, 1]], 2),
    ([[3, 3], [4, 4], [1, 1], [2, 2]], 2),
    # the largest figure: all wires between the same terminals, also with other terminals by themselves
    ([[2] * MOST_WIRES, [1] * MOST_WIRES], MOST_WIRES - 1),
    ([[]] * (MOST_TERMINALS - 2) + [[4096] * MOST_WIRES, [4095] * MOST_WIRES], MOST_WIRES - 1),
]


def starts_of(data, most=12):
    """Every start of a record of at most so many terminals. Of a larger one the first and the last terminal, two others
    and, where there are several looms, one outside of the first terminal's."""
    rng, (n, _) = Random(data), sizes(data)
    if n <= most:
        return list(range(1, n + 1)) or [0]
    outside = sorted({*range(1, n + 1)}.difference(reached(blocks_of(data), 1)))
    return sorted({1, n, *rng.sample(range(1, n + 1), 2), *rng.sample(outside, min(1, len(outside)))})


def compare(case):
    """From each start there are as many roots as looms, and as many wires have no mark in E as the figure says."""
    _, data = case
    blocks, figure, count, found = blocks_of(data), loop_figure(data), looms(blocks_of(data)), []
    for start in starts_of(data, 40):
        _, parent = search(blocks, start)
        roots = list(parent.values()).count(0)
        if roots != count:
            found.append(f"there are {count} looms, and from {start} {roots} roots; record {shown(data)}")
    for start in starts_of(data):
        # E is the same whatever the bridges are
        left = unmarked(data, index_of(blocks, set(), start))
        if left != figure:
            found.append(f"the figure is {figure}, and from {start} {left} wires have no mark; record {shown(data)}")
    if not 0 <= figure < MOST_WIRES:
        found.append(f"the figure {figure} is out of its limits; record {shown(data)}")
    return len(starts_of(data, 40)) + len(starts_of(data)), found


def worked(case):
    """The figure is the one that is given, and so is what the forests tell."""
    blocks, figure = case
    data = record(blocks)
    count, found = compare((0, data))
    if loop_figure(data) != figure:
        found.append(f"the figure is {loop_figure(data)} for {figure}; record {shown(data)}")
    return 1 + count, found


def counted(worked, cases, compare):
    """The exit status of a test that compares counts: of these cases, and of every family of accepted records."""
    records = {name: (compare, family) for name, family in shapes.all_accepted().items()}
    return tally({"worked by hand": (worked, cases), **records}, "comparisons")


if __name__ == "__main__":
    sys.exit(counted(worked, WORKED, compare))
