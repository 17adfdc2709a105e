"""A plain program for document 01, in its order and from its sentences: bits, record, forest, operations, listing. From
document 02 are the start of the search, what a wire is where several run between the same two terminals, Lookup, what
the loop figure counts, File, and what is counted against the different heads.

It shares no idea with the product: a bit string is a string of characters, the search is a recursion, a wire is its two
places, and it has its marks in B where taking it out leaves its ends unjoined. An operation returns its answer, or
raises Refused with the refusal's number.
"""
import re
import sys
from collections import Counter
from functools import lru_cache
from itertools import cycle

from packing import bits_of, fields_of, index_layout, index_length, layout, number, record_length, whole

MOST_TERMINALS, MOST_WIRES = 4096, 16384
# so many terminals may one call of Lookup ask for
MOST_ASKED = 512
# so large may the sum of the degrees be that File takes
MOST_LISTED = 32768

# the search enters the terminals of a path one inside the other
sys.setrecursionlimit(2 * MOST_TERMINALS)

# what is found in a record or an index is kept for the next questions about it
kept = lru_cache(maxsize=16)


# Bits

def string(data, start, places):
    """The bit string; empty where the bytes don't hold it in full."""
    return bits_of(data)[start : start + places] if start + places <= 8 * len(data) else ""


def rank(s, p):
    return s[:p].count("1")


@kept
def ones(s):
    """The places of the ones."""
    return [place for place, bit in enumerate(s, 1) if bit == "1"]


def select(s, k):
    return ones(s)[k - 1] if 1 <= k <= len(ones(s)) else 0


# Record

@kept
def sizes(data):
    """n and m."""
    bits = bits_of(data[:4])
    return number(bits[:13]), number(bits[13:28])


@kept
def parts(data):
    """D, the neighbour fields and the bits after them."""
    n, m = sizes(data)
    bits = bits_of(data)[28:]
    return bits[: n + 2 * m], fields_of(bits[n + 2 * m : n + 26 * m]), bits[n + 26 * m :]


@kept
def places_of(data):
    """The places of each terminal's block, counted from 0: those of the zeros after its one in D."""
    d, _, _ = parts(data)
    return [range(found.start() + 1, found.end()) for found in re.finditer("10*", d)]


@kept
def blocks_of(data):
    """The neighbours of each terminal. The fields follow the zeros in order."""
    _, fields, _ = parts(data)
    neighbours = (field + 1 for field in fields)
    return [[next(neighbours) for _ in places] for places in places_of(data)]


# Wires

def mentions(blocks):
    """By u and v, the places where u's block mentions v, in order. A place is a terminal and a position in its block,
    from 0."""
    found = {}
    for u, block in enumerate(blocks, 1):
        for j, v in enumerate(block):
            found.setdefault((u, v), []).append((u, j))
    return found


def wire(found, u, v, k):
    """A wire is its two ends: the k-th mention of v at u, and the k-th mention of u at v."""
    return found[u, v][k - 1], found[v, u][k - 1]


def wires(blocks):
    """Each wire once, the place at its lower terminal first."""
    found = mentions(blocks)
    return [wire(found, u, v, k) for (u, v), places in found.items() if u < v for k in range(1, len(places) + 1)]


def without(blocks, ends):
    """The blocks with the wire that has these ends taken out: its two listings are left out and nothing else."""
    left = list(blocks)
    for u, j in ends:
        left[u - 1] = blocks[u - 1][:j] + blocks[u - 1][j + 1 :]
    return left


# Forest

def search(blocks, start=1):
    """The terminals in order of first visit, and the parent of each, 0 for a root. It begins at the start and then
    takes the unvisited terminals from 1 upward; where there is no terminal, there is nothing to begin at."""
    order, parent = [], {}

    def enter(v, above):
        order.append(v)
        parent[v] = above
        for w in blocks[v - 1]:
            if w not in parent:
                enter(w, v)

    for v in [start, *range(1, len(blocks) + 1)] if blocks else []:
        if v not in parent:
            enter(v, 0)
    return order, parent


def tree_wires(blocks, parent):
    """For each child the wire of the tree that leads to it: the child's first mention, at the parent, and the other end
    of that wire."""
    found = mentions(blocks)
    return {v: wire(found, u, v, 1) for v, u in parent.items() if u}


def reached(blocks, start):
    """The terminals that chains of wires lead to from this one, one after the other, itself first."""
    found, seen = [start], {start}
    yield start
    for v in found:
        for w in blocks[v - 1]:
            if w not in seen:
                found.append(w)
                seen.add(w)
                yield w


def joined(blocks, u, w):
    """Whether a chain of wires, possibly of none, leads from u to w. It is looked for from both ends in turn; there is none once nothing
    more is reached from one of them."""
    walks, met = (reached(blocks, u), reached(blocks, w)), (set(), set())
    for side in cycle((0, 1)):
        x = next(walks[side], None)
        if x is None:
            return False
        if x in met[1 - side]:
            return True
        met[side].add(x)


def looms(blocks):
    """How many looms there are: terminals that are joined are in one loom. No search forest is looked at."""
    seen, count = set(), 0
    for v in range(1, len(blocks) + 1):
        if v not in seen:
            seen.update(reached(blocks, v))
            count += 1
    return count


def is_bridge(blocks, ends):
    """Whether the removal of the wire that has these ends leaves them unjoined. Of several wires between the same
    terminals this one alone is taken out."""
    (u, _), (w, _) = ends
    return not joined(without(blocks, ends), u, w)


def bridges(blocks):
    return {ends for ends in wires(blocks) if is_bridge(blocks, ends)}


def marks(blocks, marked):
    """The bits of E, P or B: a zero for a terminal's own one, and for each place of its block whether it is marked."""
    bits = [["0"] + ["0"] * len(block) for block in blocks]
    for v, j in marked:
        bits[v - 1][1 + j] = "1"
    return "".join("".join(block) for block in bits)


def index_by(blocks, single, order, parent):
    """The index of a record with these blocks, for the set of its bridges and for what a search found. A child is
    marked in E at its first mention, and P marks the other end of that wire; B marks both ends of a bridge."""
    visits = {v: i for i, v in enumerate(order, 1)}
    tree = tree_wires(blocks, parent).values()
    return index_layout(
        marks(blocks, [place for place, _ in tree]),
        marks(blocks, [place for _, place in tree]),
        marks(blocks, [place for ends in single for place in ends]),
        [visits[v] - 1 for v in range(1, len(blocks) + 1)],
    )


def index_of(blocks, single, start=1):
    return index_by(blocks, single, *search(blocks, start))


@kept
def bridges_of(data):
    return bridges(blocks_of(data))


@kept
def built(data, start=1):
    """The index of an accepted record."""
    return index_of(blocks_of(data), bridges_of(data), start)


@kept
def sections_of(data, index):
    """E, P, B and the stored numbers, as they stand in an index of the right length."""
    n, m = sizes(data)
    size = whole(n + 2 * m)
    e, p, b = (bits_of(index[i * size : i * size + size]) for i in range(3))
    return e, p, b, fields_of(bits_of(index[3 * size :])[: 12 * n])


@kept
def wires_of(data):
    """The two ends of each wire as places of D, counted from 0."""
    places = places_of(data)
    return [[places[v - 1][j] for v, j in ends] for ends in wires(blocks_of(data))]


def unmarked(data, index):
    """How many wires have no mark in E at either end."""
    e, _, _, _ = sections_of(data, index)
    return sum(all(e[place] == "0" for place in ends) for ends in wires_of(data))


# Refusals

class Refused(Exception):
    """A refusal, with its number."""

    def __init__(self, number):
        super().__init__(number)
        self.number = number


def refuse(number, broken):
    if broken:
        raise Refused(number)


def answer(operation, *given):
    """The number of the refusal, 0 where nothing is refused, and the value, None where there is none."""
    try:
        return 0, operation(*given)
    except Refused as refusal:
        return refusal.number, None


@kept
def order_r(data):
    refuse(1, len(data) < 4)
    n, m = sizes(data)
    refuse(2, n > MOST_TERMINALS or m > MOST_WIRES)
    refuse(3, len(data) != record_length(n, m))
    d, _, _ = parts(data)
    refuse(4, d.count("1") != n or d.startswith("0"))


def order_q(data, index, v):
    order_r(data)
    refuse_10(data, index)
    refuse_11(data, v)


def refuse_10(data, index):
    refuse(10, len(index) != index_length(*sizes(data)))


def refuse_11(data, v):
    n, _ = sizes(data)
    refuse(11, v == 0 or v > n)


def refuse_14(data, start):
    n, _ = sizes(data)
    refuse(14, start == 0 or start > n if n else start != 0)


# Operations on a record, and Build

@kept
def check(data):
    order_r(data)
    n, _ = sizes(data)
    _, _, spare = parts(data)
    blocks = blocks_of(data)
    # how often v mentions w
    counts = Counter((v, w) for v, block in enumerate(blocks, 1) for w in block)
    refuse(5, "1" in spare)
    refuse(6, any(w > n or w == v for v, w in counts))
    # 7 is given no longer
    refuse(8, any(counts[w, v] != count for (v, w), count in counts.items()))


def build(data, start, work, room):
    """The index, for the lengths of the work slice and of the index buffer."""
    check(data)
    n, m = sizes(data)
    refuse(9, work < 8 * n)
    refuse(10, room != index_length(n, m))
    refuse_14(data, start)
    return built(data, start)


def degree(data, v):
    order_r(data)
    refuse_11(data, v)
    return len(blocks_of(data)[v - 1])


def unpack(data, room):
    """The neighbour numbers, for the length of the list."""
    check(data)
    _, m = sizes(data)
    refuse(10, room != 2 * m)
    return [w for block in blocks_of(data) for w in block]


def file(degrees, neighbours, room):
    """The record of a list of degrees and one list of neighbours, for the length of the buffer."""
    n, total = len(degrees), sum(degrees)
    refuse(16, n > MOST_TERMINALS or total % 2 == 1 or total > MOST_LISTED or len(neighbours) != total)
    refuse(6, any(w == 0 or w > n for w in neighbours))
    d = "".join("1" + "0" * degree for degree in degrees)
    data = layout(n, total // 2, d, [w - 1 for w in neighbours])
    check(data)
    refuse(17, room != len(data))
    return data


def part(data, room, v):
    """Where v's block stands in an unpacked list of so many numbers: how many are before it, and how many it has. It is the empty part at the
    front where Degree refuses or the list is not 2·m long."""
    refusal, count = answer(degree, data, v)
    if refusal or room != 2 * sizes(data)[1]:
        return 0, 0
    return sum(len(block) for block in blocks_of(data)[: v - 1]), count


def neighbours(data, unpacked, v):
    """The part of the list that belongs to v's block."""
    before, count = part(data, len(unpacked), v)
    return unpacked[before : before + count]


def loop_figure(data):
    """m − n plus the number of roots, which is that of the looms: each has one root, wherever the search begins."""
    check(data)
    n, m = sizes(data)
    return m - n + looms(blocks_of(data))


# Queries, on any index

def marked_in(section, places):
    """The positions in the block, from 0, of the places that the section marks."""
    return [j for j, place in enumerate(places) if section[place] == "1"]


def neighbour(data, v, j):
    """The neighbour at position j of v's block; 12 where the field is n or more."""
    n, _ = sizes(data)
    w = blocks_of(data)[v - 1][j]
    refuse(12, w > n)
    return w


def step(data, index, v):
    """The parent, 0 for a root, and whether the marked place of P is also marked in B."""
    _, p, b, _ = sections_of(data, index)
    places = places_of(data)[v - 1]
    found = marked_in(p, places)
    refuse(12, len(found) > 1)
    return (neighbour(data, v, found[0]), b[places[found[0]]] == "1") if found else (0, False)


def parent(data, index, v):
    order_q(data, index, v)
    above, _ = step(data, index, v)
    return above


def head(data, index, v):
    order_q(data, index, v)
    n, _ = sizes(data)
    for _ in range(n):
        above, single = step(data, index, v)
        if above == 0 or single:
            return v
        v = above
    raise Refused(12)


def ancestor(data, index, u, v):
    order_q(data, index, u)
    refuse_11(data, v)
    n, _ = sizes(data)
    for _ in range(n):
        if v == u:
            return True
        v, _ = step(data, index, v)
        if v == 0:
            return False
    raise Refused(12)


def children(data, index, v):
    order_q(data, index, v)
    e, _, _, _ = sections_of(data, index)
    return len(marked_in(e, places_of(data)[v - 1]))


def child(data, index, v, j):
    order_q(data, index, v)
    e, _, _, _ = sections_of(data, index)
    found = marked_in(e, places_of(data)[v - 1])
    refuse(13, j == 0 or j > len(found))
    return neighbour(data, v, found[j - 1])


def visit(data, index, v):
    order_q(data, index, v)
    n, _ = sizes(data)
    _, _, _, stored = sections_of(data, index)
    refuse(12, stored[v - 1] >= n)
    return stored[v - 1] + 1


def visited(data, index, i):
    order_q(data, index, i)
    _, _, _, stored = sections_of(data, index)
    refuse(12, i - 1 not in stored)
    return stored.index(i - 1) + 1


# Lookup

@lru_cache(maxsize=MOST_TERMINALS)
def head_and_visit(data, index, v):
    """What the single calls answer. The first of their refusals is the refusal."""
    return head(data, index, v), visit(data, index, v)


def lookup(data, index, asked, *rooms):
    """The heads and the visit numbers of the terminals in a list, for the lengths of the two answer lists. The first
    refusal in the order of the list is the refusal."""
    order_r(data)
    refuse_10(data, index)
    refuse(15, len(asked) > MOST_ASKED or rooms != (len(asked), len(asked)))
    found = [head_and_visit(data, index, v) for v in asked]
    return [top for top, _ in found], [i for _, i in found]


# Table

@kept
def columns(data, start=1):
    """What Visit, Parent, Children and Head answer for each terminal of an accepted record, on the start's index."""
    index = built(data, start)
    visits, parents, counts = ([asked(data, index, v) for v in range(1, sizes(data)[0] + 1)] for asked in (visit, parent, children))
    heads = {}
    # a parent is visited before its children; where Head doesn't stop, it goes to the parent and stops where it stops from there
    for _, v in sorted((i, v) for v, i in enumerate(visits, 1)):
        above, single = step(data, index, v)
        heads[v] = v if above == 0 or single else heads[above]
    return visits, parents, counts, [heads[v] for v in sorted(heads)]


def table(data, start, work, *rooms):
    """The four columns, for the lengths of the work slice and of the four lists."""
    check(data)
    n, _ = sizes(data)
    refuse(9, work < 8 * n)
    refuse(10, rooms != (n, n, n, n))
    refuse_14(data, start)
    return columns(data, start)


# Sections

def different_heads(data, start):
    """How many different heads an accepted record has, on the start's index."""
    *_, heads = columns(data, start)
    return len(set(heads))


def roots_of(data, start):
    """How many roots: terminals for which Parent answers 0."""
    _, parents, _, _ = columns(data, start)
    return parents.count(0)


def ones_of_b(data, index):
    """The ones of the string B of an index."""
    n, m = sizes(data)
    _, _, b, _ = sections_of(data, index)
    return b[: n + 2 * m].count("1")


# Listing

def rows(blocks, start=1):
    """The forest's own answers for each terminal: its number, visit number, parent, count of children and head."""
    order, parent = search(blocks, start)
    visits = {v: i for i, v in enumerate(order, 1)}
    tree, heads = tree_wires(blocks, parent), {}
    # a parent is visited before its children
    for v in order:
        stops = parent[v] == 0 or is_bridge(blocks, tree[v])
        heads[v] = v if stops else heads[parent[v]]
    counts = Counter(parent.values())
    return [(v, visits[v], parent[v], counts[v], heads[v]) for v in range(1, len(blocks) + 1)]


def listing(data):
    """What loomlist prints."""
    refusal, figure = answer(loop_figure, data)
    if refusal:
        return f"refused {refusal}\n"
    lines = ["terminal visit parent children head"]
    lines += [" ".join(map(str, row)) for row in rows(blocks_of(data))]
    lines += [f"loops {figure}"]
    return "".join(line + "\n" for line in lines)
