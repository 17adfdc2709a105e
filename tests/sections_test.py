"""Compares the different heads of plain.py with its roots and the ones of its B, from several starts. Nothing that is
built is needed.

They are compared with a third count too, in which no head stands: the looms that are left once every bridge is out.
The records are accepted ones of every shape.
"""
import sys

from families import shown
from loops_test import counted, starts_of
from packing import SAMPLE, WIRE, record
from plain import MOST_TERMINALS, MOST_WIRES, blocks_of, bridges_of, built, different_heads, looms, ones_of_b, roots_of

# Blocks, and the different heads, the roots and the ones of B, worked by hand
WORKED = [
    # the sample: 1, 2 and 3; 4; 5; 6
    (SAMPLE, 4, 2, 4),
    ([], 0, 0, 0),
    # no wires, and one
    ([[]], 1, 1, 0),
    ([[]] * MOST_TERMINALS, MOST_TERMINALS, MOST_TERMINALS, 0),
    (WIRE, 2, 1, 2),
    # two wires between the same terminals, alone, with a single one behind them, and beside one in another loom
    ([[2, 2], [1, 1]], 1, 1, 0),
    ([[2, 2], [1, 3, 1], [2]], 2, 1, 2),
    ([[2, 2], [1, 1], [4], [3]], 3, 2, 2),
    # two doubled wires joined by a single one, whose heads need not stand side by side
    ([[3, 3], [4, 4, 3], [1, 2, 1], [2, 2]], 2, 1, 2),
    # one wire between two rings, and two
    ([[2, 3], [1, 3], [1, 2, 4], [3, 5, 6], [4, 6], [4, 5]], 2, 1, 2),
    ([[2, 3, 6], [1, 3], [1, 2, 4], [3, 5, 6], [4, 6], [4, 5, 1]], 1, 1, 0),
    # the most wires, all between the same terminals
    ([[2] * MOST_WIRES, [1] * MOST_WIRES], 1, 1, 0),
]


def apart(data):
    """The blocks with every bridge taken out."""
    blocks, out = blocks_of(data), {place for ends in bridges_of(data) for place in ends}
    return [[w for j, w in enumerate(block) if (v, j) not in out] for v, block in enumerate(blocks, 1)]


def compare(case):
    """From each start the ones of B are even, and the different heads are as many as the roots and half of them."""
    _, data = case
    left, found = looms(apart(data)), []
    for start in starts_of(data):
        heads, roots, ones = different_heads(data, start), roots_of(data, start), ones_of_b(data, built(data, start))
        if 2 * heads != 2 * roots + ones or heads != left:
            told = f"{heads} different heads, {roots} roots, {ones} ones in B"
            found.append(f"from {start} {told}, and {left} looms without bridges; record {shown(data)}")
    return len(starts_of(data)), found


def worked(case):
    """The counts are those that are given, from the first start, and the two sides agree from every one."""
    blocks, heads, roots, ones = case
    data, start = record(blocks), 1 if blocks else 0
    count, found = compare((0, data))
    counts = different_heads(data, start), roots_of(data, start), ones_of_b(data, built(data, start))
    if counts != (heads, roots, ones):
        found.append(f"the counts are {counts} for {(heads, roots, ones)}; record {shown(data)}")
    return 1 + count, found


if __name__ == "__main__":
    sys.exit(counted(worked, WORKED, compare))
