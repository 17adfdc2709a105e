"""Records of many shapes, accepted and damaged, and indexes that nobody built; the same ones on every run.

A graph is its number of terminals and its wires, which are pairs of terminals; a pair that stands several times is as
many wires. A family is a list of pairs: the refusal that Check must give by the way in which the record was made, 0 for
none and None where that doesn't tell, and the record.
"""
from itertools import combinations, combinations_with_replacement, permutations, product
from random import Random

from packing import SAMPLE, WIRE, binary, bits_of, flipped, index_layout, index_length, layout, packed, record, record_length, unary

# Fixed records that are accepted, by their blocks
FIXED = {
    "sample": SAMPLE,
    "empty": [],
    "single": [[]],
    "wire": WIRE,
    # labels not in order; the hub last; two trees
    "path": [[5, 3], [6, 5], [1], [6], [2, 1], [4, 2]],
    "hub": [[6], [6], [6], [6], [6], [4, 1, 5, 3, 2]],
    "trees": [[6, 3], [7, 4], [8, 1], [9, 2, 5], [4], [1], [2], [3], [4]],
    # two triangles that share a terminal; two joined by a bridge
    "bowtie": [[5, 3], [3, 4], [4, 1, 2, 5], [2, 3], [3, 1]],
    "joined": [[6, 4], [5, 3], [5, 4, 2], [3, 1, 6], [2, 3], [4, 1]],
    "ladder": [[3, 2], [4, 1], [5, 1, 4], [3, 6, 2], [6, 7, 3], [8, 4, 5], [8, 5], [7, 6]],
    "clique": [[3, 4, 2], [4, 1, 3], [2, 1, 4], [1, 3, 2]],
    # three ways between 2 and 5; a cycle with a chord and a tail; bridges and cycles in turn; isolated terminals between components
    "theta": [[5, 2], [4, 1, 3], [2, 5], [6, 2], [3, 6, 1], [5, 4]],
    "chord": [[4, 3], [6, 5, 4], [4, 6, 1], [2, 1, 3], [7, 2], [3, 2], [5]],
    "mixed": [[7, 10], [3, 5], [4, 2, 5, 11], [11, 6, 9, 3], [2, 12, 3], [4], [8, 1], [9, 7], [4, 8], [1], [4, 12, 3], [11, 5]],
    "apart": [[], [9, 6], [5], [], [3], [8, 2, 9], [], [6], [6, 2], []],
    # two wires between two terminals; three; two with a single one behind them; mentions with others between them
    "pair": [[2, 2], [1, 1]],
    "triple": [[2, 2, 2], [1, 1, 1]],
    "tail": [[2, 2], [1, 3, 1], [2]],
    "crossed": [[2, 3, 2], [3, 1, 1], [1, 2]],
    # two triangles joined by two wires; a path with single wires between doubled and tripled ones
    "joined_twice": [[6, 4], [5, 3], [4, 5, 4, 2], [1, 3, 6, 3], [2, 3], [4, 1]],
    "feeds": [[4, 5, 4], [5, 6, 5, 5], [6, 6], [1, 1], [2, 2, 1, 2], [3, 2, 3]],
}

# Those of them with several wires between the same terminals
DOUBLED = [name for name, blocks in FIXED.items() if any(len(set(block)) < len(block) for block in blocks)]


# Graphs

def path(n):
    return n, [(v, v + 1) for v in range(1, n)]


def ring(n):
    return n, path(n)[1] + [(n, 1)]


def star(n):
    return n, [(1, v) for v in range(2, n + 1)]


def hubs(n, k):
    """The first k terminals, joined to one another and to all others."""
    return n, [(u, v) for u in range(1, k + 1) for v in range(u + 1, n + 1)]


def clique(n):
    return hubs(n, n)


def sides(n, k):
    """Each of the first k terminals joined to each of the others."""
    return n, list(product(range(1, k + 1), range(k + 1, n + 1)))


def tree(rng, n):
    return n, [(rng.randrange(1, v), v) for v in range(2, n + 1)]


def binary_tree(n):
    return n, [(v // 2, v) for v in range(2, n + 1)]


def caterpillar(n):
    """A path of the odd terminals, with an even one at each."""
    return n, [(v - 2 if v % 2 else v - 1, v) for v in range(2, n + 1)]


def grid(width, height):
    across = [(v, v + 1) for v in range(1, width * height) if v % width]
    return width * height, across + [(v, v + width) for v in range(1, width * (height - 1) + 1)]


def up_to(rng, graph, m):
    """The graph with wires added up to m, or up to all that it can have."""
    n, wires = graph
    found = {tuple(sorted(wire)): wire for wire in wires}
    while len(found) < min(m, n * (n - 1) // 2):
        u, v = rng.sample(range(1, n + 1), 2)
        found.setdefault((min(u, v), max(u, v)), (u, v))
    return n, list(found.values())


def sparse(rng, n, m):
    return up_to(rng, (n, []), m)


def apart(*graphs):
    """The graphs one after the other, with no wire between them."""
    total, wires = 0, []
    for n, own in graphs:
        wires += [(total + u, total + v) for u, v in own]
        total += n
    return total, wires


def bridged(rng, *graphs, count=1):
    """The graphs with so many wires, all between the same two terminals, from each to one before it."""
    starts = [sum(n for n, _ in graphs[:i]) for i in range(len(graphs))]

    def some(i):
        return starts[i] + rng.randrange(1, graphs[i][0] + 1)

    n, wires = apart(*graphs)
    return n, wires + count * [(some(rng.randrange(i)), some(i)) for i in range(1, len(graphs))]


def several(rng, most, total):
    """Graphs of different kinds, with at most so many terminals each, and so many in all."""
    found = []
    while total:
        n = min(rng.randint(1, most), total)
        total -= n
        kinds = [path(n), (n, [])] if n < 3 else [ring(n), clique(n), up_to(rng, ring(n), n + n // 3), tree(rng, n)]
        found.append(rng.choice(kinds))
    return found


def any_kind(rng, n):
    """A graph of any kind."""
    kinds = [path(n), star(n), hubs(n, 2), ring(n), tree(rng, n), binary_tree(n), caterpillar(n), grid(3, n // 3)]
    kinds += [sides(n, min(n // 3, 9)), up_to(rng, ring(n), n + n // 4), sparse(rng, n, n)]
    return rng.choice([*kinds, apart(*several(rng, 5, n)), bridged(rng, *several(rng, 5, n))])


# Several wires between the same terminals

def times(count, graph):
    """Each wire so many times."""
    n, wires = graph
    return n, count * wires


def all_doubled(graphs):
    return [times(2, graph) for graph in graphs]


def doubled(rng, graph):
    """Some wires doubled, some tripled, and the wires in any order."""
    n, wires = graph
    more = [wire for wire in wires for _ in range(2) if rng.random() < 0.3]
    return n, rng.sample(wires + more, len(wires + more))


def together(*graphs):
    """The wires of all of them, between the same terminals."""
    return graphs[0][0], [wire for _, wires in graphs for wire in wires]


def heavy(n, count):
    """A star with so many wires more to its first leaf."""
    return n, star(n)[1] + count * [(1, 2)]


def scattered(rng, n, m):
    """So many wires, each between any two terminals."""
    return n, [tuple(rng.sample(range(1, n + 1), 2)) for _ in range(m)]


# Records of graphs

def listed(graph):
    """The blocks, each in the order of the wires."""
    n, wires = graph
    blocks = [[] for _ in range(n)]
    for u, v in wires:
        blocks[u - 1].append(v)
        blocks[v - 1].append(u)
    return blocks


def shuffled(rng, graph):
    """The blocks with the neighbours in any order."""
    return [rng.sample(block, len(block)) for block in listed(graph)]


def renamed(rng, graph):
    n, wires = graph
    name = rng.sample(range(1, n + 1), n)
    return n, [(name[u - 1], name[v - 1]) for u, v in wires]


def variants(rng, graphs):
    """Each graph in order, with every block turned round, with the neighbours in any order, and with other names too."""
    found = []
    for graph in graphs:
        in_order = listed(graph)
        turned = [block[::-1] for block in in_order]
        found += [in_order, turned, shuffled(rng, graph), shuffled(rng, renamed(rng, graph))]
    return [(0, record(blocks)) for blocks in found]


# Families of accepted records

def ordered(graph):
    """The blocks with the neighbours in each order."""
    return product(*(dict.fromkeys(permutations(block)) for block in listed(graph)))


def every(most):
    """Every accepted record of at most so many terminals with no doubled wire: each set of wires, and each order of
    each block."""
    found = []
    for n in range(most + 1):
        pairs = list(combinations(range(1, n + 1), 2))
        for size in range(len(pairs) + 1):
            for wires in combinations(pairs, size):
                found += ordered((n, wires))
    return [(0, record(blocks)) for blocks in found]


def every_doubled():
    """Every accepted record with a doubled wire of 2 or 3 terminals and at most 5 wires, or of 4 and at most 4."""
    found = []
    for n, most in (2, 5), (3, 5), (4, 4):
        pairs = list(combinations(range(1, n + 1), 2))
        for size in range(2, most + 1):
            for wires in combinations_with_replacement(pairs, size):
                if len(set(wires)) < size:
                    found += ordered((n, wires))
    return [(0, record(blocks)) for blocks in found]


def accepted(rng, sizes):
    """By name, records of each kind with terminals of these sizes."""
    def grown(*kinds):
        return variants(rng, [kind(n) for n in sizes for kind in kinds])

    return {
        "isolated": [(0, record([[]] * n)) for n in sizes],
        "paths": grown(path),
        "stars": grown(star),
        "hubs": grown(lambda n: hubs(n, 2), lambda n: hubs(n, 3)),
        "rings": grown(ring),
        "rings with chords": grown(lambda n: up_to(rng, ring(n), n + 1 + n // 4)),
        "trees": grown(lambda n: tree(rng, n), binary_tree, caterpillar),
        "components": grown(lambda n: apart(*several(rng, 1 + n // 3, n))),
        "blocks and bridges": grown(lambda n: bridged(rng, *several(rng, 2 + n // 4, n))),
        "grids": grown(lambda n: grid(2, n // 2), lambda n: grid(3, n // 3)),
        "two sides": grown(lambda n: sides(n, min(n // 3, 20))),
        "sparse": grown(lambda n: sparse(rng, n, n // 2), lambda n: sparse(rng, n, n), lambda n: sparse(rng, n, n + n // 2)),
    }


def multigraphs(rng, sizes):
    """By name, records with several wires between the same terminals, with terminals of these sizes."""
    def grown(kind):
        return variants(rng, [kind(n) for n in sizes])

    return {
        "some wires doubled": grown(lambda n: doubled(rng, any_kind(rng, n))),
        "each wire doubled": grown(lambda n: times(rng.choice((2, 2, 3)), any_kind(rng, n))),
        "trees with doubled wires": grown(lambda n: doubled(rng, tree(rng, n))),
        "doubled trees with other wires": grown(lambda n: together(times(2, tree(rng, n)), sparse(rng, n, n // 2))),
        "doubled bridges": grown(lambda n: bridged(rng, *several(rng, 2 + n // 4, n), count=2)),
        "bridges among doubled wires": grown(lambda n: bridged(rng, *all_doubled(several(rng, 2 + n // 4, n)))),
        "heavy wires": grown(lambda n: heavy(n, n)),
        "scattered wires": grown(lambda n: scattered(rng, n, n + n // 2)),
    }


def small():
    """The families of up to 40 terminals."""
    rng = Random("small")
    return {
        "fixed": [(0, record(blocks)) for blocks in FIXED.values()],
        **accepted(rng, range(3, 41, 2)),
        **multigraphs(rng, range(3, 41, 3)),
        "dense": variants(rng, [sparse(rng, n, n * (n - 1) // 3) for n in range(5, 41, 2)]),
        "cliques": variants(rng, [clique(n) for n in range(3, 25)]),
    }


def medium():
    rng = Random("medium")
    families = {**accepted(rng, (70, 160, 301, 600)), **multigraphs(rng, (80, 350))}
    families["dense"] = variants(rng, [sparse(rng, n, n * (n - 1) // 3) for n in (60, 90)])
    families["cliques"] = variants(rng, [clique(n) for n in (64, 100)])
    return families


def largest():
    """Records with the most terminals, with the most wires, and with both."""
    rng = Random("largest")
    n, m = 4096, 16384
    graphs = [
        (n, []),
        path(n),
        renamed(rng, path(n)),
        ring(n),
        up_to(rng, ring(n), n + 9),
        star(n),
        renamed(rng, star(n)),
        tree(rng, n),
        renamed(rng, binary_tree(n)),
        renamed(rng, caterpillar(n)),
        apart(*[path(2)] * (n // 2)),
        renamed(rng, apart(*several(rng, 12, n))),
        renamed(rng, bridged(rng, *several(rng, 9, n))),
        renamed(rng, grid(64, 64)),
        grid(2, n // 2),
        sparse(rng, n, n // 2),
        sparse(rng, n, n),
        hubs(n, 4),
        clique(181),
        sides(256, 128),
        sparse(rng, 182, m),
        sparse(rng, 1000, m),
        sparse(rng, n, m),
        up_to(rng, ring(n), m),
        renamed(rng, up_to(rng, hubs(n, 3), m)),
        renamed(rng, up_to(rng, apart(clique(157), path(n - 157)), m)),
        renamed(rng, apart(sparse(rng, 200, m - n + 202), tree(rng, n - 295), path(95))),
        # several wires between the same terminals
        times(m, path(2)),
        times(4, path(n)),
        heavy(n, m - n + 1),
        scattered(rng, n, m),
        times(2, tree(rng, n)),
        renamed(rng, bridged(rng, *all_doubled(several(rng, 6, n)))),
    ]
    return [(0, record(shuffled(rng, graph))) for graph in graphs]


def all_accepted():
    """By name, every family of accepted records."""
    return {
        "largest": largest(),
        "every record of at most 4 terminals without a doubled wire": every(4),
        "every small record with a doubled wire": every_doubled(),
        **small(),
        **{f"medium {name}": cases for name, cases in medium().items()},
    }


# Damaged records

def changed(blocks, v, j, *neighbours):
    """The blocks with these neighbours, one, several or none, for the one at position j of v's block."""
    block = blocks[v - 1]
    return [*blocks[: v - 1], [*block[:j], *neighbours, *block[j + 1 :]], *blocks[v:]]


def position(rng, blocks, v):
    return rng.randrange(len(blocks[v - 1]))


def strayed(rng, blocks, v):
    """A neighbour of v becomes v itself or a number above n."""
    n = len(blocks)
    stray = rng.choice([v, n + 1, rng.randint(n + 1, 4096)] if n < 4096 else [v])
    return changed(blocks, v, position(rng, blocks, v), stray)


# Ways to break rule 8, in blocks that keep it

def replaced(rng, blocks, v):
    """A neighbour of v becomes a terminal that v does not mention."""
    others = {*range(1, len(blocks) + 1)} - {v, *blocks[v - 1]}
    return changed(blocks, v, position(rng, blocks, v), rng.choice(sorted(others)))


def repeated(rng, blocks, v):
    """A neighbour of v becomes another one that v mentions."""
    j = position(rng, blocks, v)
    return changed(blocks, v, j, rng.choice([w for w in blocks[v - 1] if w != blocks[v - 1][j]]))


def uneven(rng, blocks, v):
    """A neighbour of v stands in its block once more, and v once less in the neighbour's."""
    j = position(rng, blocks, v)
    w = blocks[v - 1][j]
    return changed(changed(blocks, v, j, w, w), w, blocks[w - 1].index(v))


def exchanged(rng, blocks, v):
    """v and another terminal exchange a neighbour: all together mention each terminal as often as before."""
    while True:
        w = rng.randint(1, len(blocks))
        i, j = position(rng, blocks, v), position(rng, blocks, w)
        x, y = blocks[v - 1][i], blocks[w - 1][j]
        if len({v, w, x, y}) == 4:
            return changed(changed(blocks, v, i, y), w, j, x)


UNEQUAL = [replaced, repeated, uneven, exchanged]


def break_early(rng, data, rule, n, m):
    """The record of n terminals and m wires, damaged so that the rule, one of 1 to 5, is broken."""
    bits, d = bits_of(data), range(29, 29 + n + 2 * m)
    if rule == 5:
        return flipped(data, -rng.randint(1, spare(n, m)))
    if rule == 4:
        zeros = [place for place in d if bits[place - 1] == "0"]
        return rng.choice([flipped(data, rng.choice(d)), flipped(data, d[-1]), flipped(data, d[0], rng.choice(zeros))])
    if rule == 3:
        return rng.choice([data[: -rng.randint(1, 4)], data[:-1], data + b"\0", data + rng.randbytes(rng.randint(1, 9))])
    if rule == 2:
        return flipped(data, *rng.choice([[1], [14], [1, 14]]))
    return data[: rng.randrange(4)]


def spare(n, m):
    """How many bits are left over in the last byte."""
    return 8 * record_length(n, m) - (28 + n + 26 * m)


def loose(rng):
    """A small ring with chords or with doubled wires, whose record has spare bits."""
    n = rng.randint(8, 14)
    m = rng.choice([m for m in range(n, n + 4) if spare(n, m)])
    return rng.choice([up_to(rng, ring(n), m), together(ring(n), (n, rng.choices(ring(n)[1], k=m - n)))])


def broken(rng, rules, graph=None, way=None):
    """A record that breaks these rules of 1 to 6 and 8, and 8 in this way or in any. 8 is broken from one block on and
    6 in another, each often the first or the last."""
    n, wires = graph or loose(rng)
    blocks = shuffled(rng, renamed(rng, (n, wires)))
    u, v = rng.choice([[n, 1], [1, n], rng.sample(range(1, n + 1), 2)])
    if 8 in rules:
        blocks = (way or rng.choice(UNEQUAL))(rng, blocks, v)
    if 6 in rules:
        blocks = strayed(rng, blocks, u)
    data = record(blocks)
    for rule in sorted(rules & {1, 2, 3, 4, 5}, reverse=True):
        data = break_early(rng, data, rule, n, len(wires))
    return data


# Families of damaged records

def limits():
    """Records at the edges of the rules."""
    return [
        (1, b""),
        (1, b"\0" * 3),
        (1, b"\xff" * 3),
        # 2 before 3, and the limits themselves
        (2, b"\xff" * 4),
        (2, layout(4097, 0, "", [])),
        (2, layout(0, 16385, "", [])),
        (2, layout(8191, 32767, "", [])),
        (2, layout(4097, 0, "1" * 4097, [])),
        (3, layout(4096, 16384, "", [])),
        (3, layout(4096, 0, "", [])),
        (3, layout(0, 16384, "", [])),
        (3, bytes(5)),
        (3, bytes(53764)),
        (0, layout(4096, 0, "1" * 4096, [])),
        (4, layout(4096, 0, "1" * 4095, [])),
        # no terminals and some wires; as many ones as terminals, but the first bit is a zero; all wires at one terminal
        (4, layout(0, 1, "00", [0, 0])),
        (4, layout(0, 1, "10", [0, 0])),
        (4, layout(0, 16384, "0" * 32768, [0] * 32768)),
        (4, layout(2, 1, "0110", [1, 0])),
        (4, layout(2, 1, "0011", [1, 0])),
        (6, layout(2, 1, "1100", [0, 1])),
        (6, layout(4096, 16384, "1" + "0" * 32768 + "1" * 4095, [0] * 32768)),
        (8, layout(4096, 16384, "1" * 4096 + "0" * 32768, [0] * 32768)),
        # fields at their own limit
        (0, record([[]] * 4094 + [[4096], [4095]])),
        (0, record([[]] * 4093 + [[4095], [4094]])),
        (6, record([[]] * 4093 + [[4096], [4094]])),
        # a terminal's own number, the first number too large, the largest field
        (6, record([[1, 1]])),
        (6, record([[1], [2]])),
        (6, record([[3], [1]])),
        (6, record([[2], [4096]])),
        (6, record([[2, 2], [1, 3]])),
        # mentions: as many on either side, more on one side, as many in all but not between every two
        (0, record([[2, 2], [1, 1]])),
        (0, record([[3, 2, 3], [1], [1, 1]])),
        (8, record([[2, 2, 2], [1]])),
        (8, record([[2], [1, 1, 1]])),
        (8, record([[2] * 16385, [1] * 16383])),
        (8, record([[2], [], [2, 1, 2]])),
        (8, record([[2, 2], [3, 3], [1, 1]])),
        (8, record([[2, 2, 2], [1, 3, 3], [1, 1]])),
        (8, record([[2, 3], [1], [2]])),
        (8, record([[2], [3], [4], [1]])),
        (8, record([[2, 3], [], []])),
    ]


def cuts(rng, records):
    """Every record cut to each length, lengthened, and with another one behind it."""
    found = []
    for data in records:
        found += [(1 if size < 4 else 3, data[:size]) for size in range(len(data))]
        found += [(3, data + bytes(size)) for size in range(1, 6)]
        found += [(3, data + b"\xff"), (3, data + rng.randbytes(100)), (3, data + data)]
    return found


def flips(rng, records, count):
    """Each bit of every record turned over, and so many times two to four of them."""
    found = [(None, flipped(data, place)) for data in records for place in range(1, 8 * len(data) + 1)]
    for _ in range(count):
        data = rng.choice(records)
        found.append((None, flipped(data, *rng.sample(range(1, 8 * len(data) + 1), rng.randint(2, 4)))))
    return found


def moved(rng, count):
    """Records whose D has its ones at other places, the first one kept, or whose fields stand in another order."""
    found = []
    for _ in range(count):
        kind = rng.choice([sparse, scattered])
        blocks = shuffled(rng, kind(rng, rng.randint(3, 12), rng.randint(2, 14)))
        d, fields = unary(blocks), [w - 1 for block in blocks for w in block]
        if rng.random() < 0.5:
            d = d[0] + "".join(rng.sample(d[1:], len(d) - 1))
        else:
            i, j = sorted(rng.sample(range(len(fields)), 2))
            fields[i], fields[j] = fields[j], fields[i]
        found.append((None, layout(len(blocks), len(fields) // 2, d, fields)))
    return found


def chance(rng, count):
    """Random bytes; then with n and m that give the length; then with a right D too; then with fields below n too."""
    found = []
    for _ in range(count):
        n, m = rng.randint(1, 12), rng.randint(0, 8)
        start = binary(n, 13) + binary(m, 15)
        bits = bits_of(rng.randbytes(record_length(n, m)))
        d = "1" + "".join(rng.sample("1" * (n - 1) + "0" * (2 * m), n - 1 + 2 * m))
        found += [
            rng.randbytes(rng.randrange(60)),
            packed(start + bits[28:]),
            packed(start + d + bits[28 + len(d) :]),
            layout(n, m, d, [rng.randrange(n) for _ in range(2 * m)]),
        ]
    return [(None, data) for data in found]


def listings(n, m):
    """Every record of n terminals and m wires that keeps rules 1 to 6."""
    found = []
    # the terminal of each field in turn
    for owners in combinations_with_replacement(range(1, n + 1), 2 * m):
        for fields in product(*([w for w in range(1, n + 1) if w != v] for v in owners)):
            found.append([[w for owner, w in zip(owners, fields) if owner == v] for v in range(1, n + 1)])
    return [(None, record(blocks)) for blocks in found]


def damaged():
    """The families of damaged records, all but a few of them small."""
    rng = Random("damaged")
    rules = [1, 2, 3, 4, 5, 6, 8]
    named = ("sample", "wire", "single", "empty", "bowtie", "theta", "clique", "pair", "crossed")
    bases = [record(FIXED[name]) for name in named]
    sets = [set(rng.sample(rules[2:], rng.randint(3, 5))) for _ in range(200)]
    return {
        "limits": limits(),
        **{f"refused {rule}": [(rule, broken(rng, {rule})) for _ in range(60)] for rule in rules},
        "two rules": [(a, broken(rng, {a, b})) for a, b in combinations(rules, 2) for _ in range(10)],
        "several rules": [(min(some), broken(rng, some)) for some in sets],
        "unequal mentions": [(8, broken(rng, {8}, way=way)) for way in UNEQUAL for _ in range(30)],
        "all mentions": [case for n, m in ((2, 1), (2, 2), (2, 3), (3, 1), (3, 2)) for case in listings(n, m)],
        "cut and lengthened": cuts(rng, bases),
        "flipped bits": flips(rng, bases, 400),
        "moved": moved(rng, 300),
        "random": chance(rng, 150),
    }


def largest_damaged():
    rng = Random("largest damaged")
    graphs = [up_to(rng, ring(4096), 16384), up_to(rng, ring(4096), 5000), up_to(rng, ring(200), 16000)]
    found = [(rule, broken(rng, {rule, 8}, graph)) for graph in graphs for rule in (3, 4, 5, 6, 8)]
    return found + [(8, broken(rng, {8}, times(4, ring(4096)), way)) for way in UNEQUAL]


# Indexes that nobody built

def places(blocks):
    return len(blocks) + sum(map(len, blocks))


def thin(rng, blocks, share):
    """Marks anywhere, also at the places of D's ones."""
    return "".join("01"[rng.random() < share] for _ in range(places(blocks)))


def one_each(rng, blocks):
    """One mark in each block that has a place."""
    found = ""
    for block in blocks:
        marked = rng.randrange(len(block)) if block else None
        found += "0" + "".join("01"[j == marked] for j in range(len(block)))
    return found


def numbers(rng, n):
    """Stored numbers: each once, some twice, around n, any."""
    return rng.choice([
        rng.sample(range(n), n),
        [rng.randrange(n) for _ in range(n)],
        [rng.choice([0, n - 1, n % 4096, 4095]) for _ in range(n)],
        [rng.randrange(4096) for _ in range(n)],
    ])


def unbuilt(rng, blocks):
    """Indexes of the right length for a record with these blocks, which may break rules 5, 6 and 8."""
    n, size = len(blocks), index_length(len(blocks), sum(map(len, blocks)) // 2)
    return [
        bytes(size),
        b"\xff" * size,
        rng.randbytes(size),
        index_layout(one_each(rng, blocks), one_each(rng, blocks), thin(rng, blocks, 0.1), numbers(rng, n)),
        index_layout(thin(rng, blocks, 0.5), one_each(rng, blocks), thin(rng, blocks, 0), numbers(rng, n)),
        index_layout(thin(rng, blocks, 0.3), thin(rng, blocks, 0.2), thin(rng, blocks, 0.2), numbers(rng, n)),
    ]


def laid_over(index, *sections):
    """The index with every bit set that is set in these sections."""
    return bytes(x | y for x, y in zip(index, b"".join(map(packed, sections))))


def with_ones(blocks, index):
    """The index with E, P and B marked at the places of D's ones too."""
    return laid_over(index, *3 * [unary(blocks)], "0" * 12 * len(blocks))


def filled(blocks, index):
    """The index with every fill bit set."""
    return laid_over(index, *("0" * size + "1" * (-size % 8) for size in 3 * [places(blocks)] + [12 * len(blocks)]))


def altered(rng, blocks, index):
    """The index with a few bits turned over, and in those two other ways."""
    some = [flipped(index, *rng.sample(range(1, 8 * len(index) + 1), count)) for count in (1, 1, 2, 3)]
    return some + [with_ones(blocks, index), filled(blocks, index)]


def climbs(n):
    """A ring in which each terminal's parent is the next one: all the way round, and with one mark of P left out or also in B."""
    blocks = listed(ring(n))
    round_it = ["0" + "".join("01"[w == v % n + 1] for w in block) for v, block in enumerate(blocks, 1)]
    none = ["0" + "0" * len(block) for block in blocks]
    found = [(round_it, none)]
    for v in range(n):
        cut = round_it[:v] + [none[v]] + round_it[v + 1 :]
        found += [(cut, none), (round_it, none[:v] + [round_it[v]] + none[v + 1 :])]
    return blocks, [index_layout("".join(none), "".join(p), "".join(b), range(n)) for p, b in found]
