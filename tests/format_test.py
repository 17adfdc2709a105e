"""Compares docs/FORMAT.md with plain.py: the sample's record and index bit by bit, the other records and indexes of the
page, every call that it gives with an answer, the listing, at several sizes the offsets and lengths, and at each
starting bit the formula of a field.
"""
import re
import sys
from itertools import product
from math import floor
from random import Random

import plain
from packing import SAMPLE, binary, bits_of, fields_of, index_layout, index_length, layout, record, record_length
from packing import unary, whole
from plain import answer, built, check, rows, sizes
from programs import ROOT, demand

PAGE = ROOT / "docs/FORMAT.md"
REFUSALS = ROOT / "rust/src/refusal.rs"
SAMPLE_RECORD = record(SAMPLE)
SAMPLE_INDEX = built(SAMPLE_RECORD)


def same(what, expected, found):
    demand(expected == found, f"{what}: expected {expected!r}, the page has {found!r}")


# The page

def titled(page, title):
    """The text below a heading, up to the next one."""
    found = re.search(rf"^#+ {re.escape(title)}\n(.*?)(?=^#|\Z)", page, re.MULTILINE | re.DOTALL)
    demand(found, f"there is no heading {title!r}")
    return found[1]


def tabled(text, *columns):
    """The rows of the table with these columns, each a list of its cells."""
    lines = text.splitlines()
    heading = "| " + " | ".join(columns) + " |"
    demand(heading in lines, f"there is no table {heading!r}")
    found = []
    for line in lines[lines.index(heading) + 2 :]:
        if not line.startswith("|"):
            break
        found.append([cell.strip() for cell in line[1:-1].split("|")])
        same(f"cells of {line!r}", len(columns), len(found[-1]))
    demand(found, f"the table {heading!r} is empty")
    return found


def drawn(text):
    """The lines of the text that are set off by four signs."""
    return [line[4:] for line in text.splitlines() if line.startswith("    ")]


def sought(pattern, text):
    found = re.findall(pattern, text)
    demand(found, f"there is no {pattern!r}")
    return found


def hexadecimal(data):
    return data.hex(" ").upper()


def spaced(numbers):
    return " ".join(map(str, numbers))


def blocks_in(text):
    """Blocks as the page writes them, 1: 2 3; 2: 1; 3: none."""
    found = [(int(v), block.replace("none", "").split()) for v, block in re.findall(r"(\d+): ([\d ]+|none)", text)]
    same(f"terminals of {text!r}", list(range(1, len(found) + 1)), [v for v, _ in found])
    return [[int(w) for w in block] for _, block in found]


def definitions(page):
    """Each file that is named is there."""
    for names, _ in tabled(titled(page, "The format"), "files, below `crates`", "what they define"):
        first, *others = re.findall(r"`([^`]+)`", names)
        folder = (ROOT / "crates" / first).parent
        for file in (ROOT / "crates" / first, *(folder / name for name in others)):
            demand(file.is_file(), f"there is no {file.relative_to(ROOT)}")


# The sample, bit by bit

def taken_apart(text, data, parts):
    """What the table says of the data. Every bit must stand in it once, in order, as a bit of the named part."""
    passed, left, facts = 0, {name: 1 for name in parts}, []
    for numbers, shown, bits, names, words in tabled(text, "bytes", "hex", "bits", "parts", "what it comes to"):
        piece = bytes.fromhex(shown)
        first, passed = passed, passed + len(piece)
        same("the numbers of bytes", f"{first}" if len(piece) == 1 else f"{first} to {passed - 1}", numbers)
        same(f"bytes {numbers}", hexadecimal(data[first:passed]), shown)
        groups, names = bits.strip("`").split(), names.split(", ")
        same(f"bits of bytes {numbers}", bits_of(piece), "".join(groups))
        same(f"groups of bits in bytes {numbers}", len(names), len(groups))
        for name, group in zip(names, groups):
            part, _, reach = name.partition(" ")
            demand(part in parts, f"bytes {numbers}: there is no part {part!r}")
            start, end = map(int, reach.split(" to ")) if reach else (1, len(parts[part]))
            same(f"first bit of {part} in bytes {numbers}", left[part], start)
            same(f"number of bits of {part} in bytes {numbers}", end - start + 1, len(group))
            same(f"bits {start} to {end} of {part}", parts[part][start - 1 : end], group)
            left[part] = end + 1
        facts += words.split("; ") if words else []
    same("bytes that are taken apart", len(data), passed)
    same("the next bit of each part", {name: len(bits) + 1 for name, bits in parts.items()}, left)
    return facts


def sample_record(page):
    text = titled(page, "The sample, byte by byte")
    same("the sample's blocks", SAMPLE, blocks_in(sought(r"Blocks: (.*?)\. ", text)[0]))
    same("the sample", [hexadecimal(SAMPLE_RECORD)], drawn(text))
    same("the sample's length", [str(len(SAMPLE_RECORD))], sought(r"The record has (\d+) bytes", text))
    listings = [(v, w) for v, block in enumerate(SAMPLE, 1) for w in block]
    n, m, d = len(SAMPLE), len(listings) // 2, unary(SAMPLE)
    parts = {"n": binary(n, 13), "m": binary(m, 15), "D": d}
    parts.update((f"f{k}", binary(w - 1, 12)) for k, (_, w) in enumerate(listings, 1))
    parts["spare"] = "0000"
    expected = [f"n = {n}", f"m = {m}", f"D = {d}"]
    expected += [f"f{k} = {w - 1}: {v} lists {w}" for k, (v, w) in enumerate(listings, 1)]
    same("what the sample comes to", expected, taken_apart(text, SAMPLE_RECORD, parts))


def marks_under_d(lines):
    """D with the terminals, the neighbours and the marks below it, a column for each place."""
    e, p, b, _ = plain.sections_of(SAMPLE_RECORD, SAMPLE_INDEX)
    terminals = [str(sign) for v, block in enumerate(SAMPLE, 1) for sign in [v] + ["."] * len(block)]
    neighbours = [str(sign) for block in SAMPLE for sign in ["."] + block]
    d = unary(SAMPLE)
    places = range(1, len(d) + 1)
    expected = {"place": places, "D": d, "terminal": terminals, "neighbour": neighbours, "E": e, "P": p, "B": b}
    same("the lines under D", list(expected), [line.split()[0] for line in lines])
    for (name, signs), line in zip(expected.items(), lines):
        same(f"the line of {name}", f"{name:9}" + "".join(f"{sign:>3}" for sign in signs), line)


def sample_index(page):
    text = titled(page, "The sample's index, byte by byte")
    shown, *lines = drawn(text)
    same("the sample's index", hexadecimal(SAMPLE_INDEX), shown)
    marks_under_d(lines)
    *marks, stored = plain.sections_of(SAMPLE_RECORD, SAMPLE_INDEX)
    parts = dict(zip("EPB", marks))
    parts.update((f"v{v}", binary(number, 12)) for v, number in enumerate(stored, 1))
    listed = [(w, v) for v, block in enumerate(SAMPLE, 1) for w in [None] + block]
    expected = [
        f"{words}: " + ", ".join(f"{w} of {v}" for (w, v), mark in zip(listed, section) if mark == "1")
        for words, section in zip(("children", "parents", "bridges, at both ends"), marks)
    ]
    expected += [f"v{v} = {number}: visit number {number + 1}" for v, number in enumerate(stored, 1)]
    same("what the index comes to", expected, taken_apart(text, SAMPLE_INDEX, parts))
    heads = [head for *_, head in rows(SAMPLE)]
    same("the heads", [spaced(heads)], sought(r"The heads of 1 to 6 are ([\d ]+):", text))
    same("the sections", grouped(heads), sections_in(text))


def grouped(heads):
    """The terminals by their heads, in order of the least of each."""
    return [[v for v, h in enumerate(heads, 1) if h == head] for head in dict.fromkeys(heads)]


def sections_in(text):
    shown = sought(r"the\ssections are (.*?)\.", text)[0].split("; ")
    return [[int(v) for v in re.findall(r"\d+", section)] for section in shown]


def sample_from_4(page):
    """The bytes, and what is told of them in words."""
    text = titled(page, "The sample's index from start 4")
    order, _ = plain.search(SAMPLE, 4)
    _, _, parents, _, heads = zip(*rows(SAMPLE, 4))
    same("the index", [hexadecimal(built(SAMPLE_RECORD, 4))], drawn(text))
    same("the order of visits", [spaced(order)], sought(r"In order\sof\svisits the terminals are ([\d ]+)\.", text))
    same("the parents", [spaced(parents)], sought(r"The parents of 1 to 6 are ([\d ]+)\.", text))
    same("the heads", [spaced(heads)], sought(r"The heads of 1 to 6 are ([\d ]+):", text))
    same("the sections", grouped(heads), sections_in(text))


def starts(page):
    """What the page says of every start holds of its records: the start is visited first, B and the groups of terminals
    with one head are the same, the loop figure counts the wires with no mark in E, and the different heads are as many
    as roots and half the ones of B."""
    for name, data in small_records(page).items():
        if answer(check, data)[0]:
            continue
        terminals, first = range(1, sizes(data)[0] + 1), built(data)
        groups = lambda index: grouped([plain.head(data, index, v) for v in terminals])
        for start in terminals:
            index = built(data, start)
            same(f"the first visit in {name} from {start}", start, plain.visited(data, index, 1))
            same(f"B of {name} from {start}", plain.sections_of(data, first)[2], plain.sections_of(data, index)[2])
            same(f"the groups in {name} from {start}", groups(first), groups(index))
            same(f"the figure of {name} from {start}", plain.unmarked(data, index), plain.loop_figure(data))
            heads, roots, ones = len(groups(index)), plain.roots_of(data, start), plain.ones_of_b(data, index)
            same(f"the sections of {name} from {start}", 2 * heads, 2 * roots + ones)


def section_counts(page):
    """The sums that are told: the roots, the ones of B, and the sections."""
    records = {"The sample": SAMPLE_RECORD, **{f"`{name}`": data for name, data in small_records(page).items()}}
    told = sought(r"(The sample|`\w+`)\shas\s(\d+) \+ (\d+) / 2 = (\d+)", page)
    same("the records", ["The sample", "`wire`", "`doubled`", "`empty`"], [name for name, *_ in told])
    for name, *numbers in told:
        data = records[name]
        start = 1 if sizes(data)[0] else 0
        ones = plain.ones_of_b(data, built(data, start))
        expected = [plain.roots_of(data, start), ones, plain.different_heads(data, start)]
        same(f"the sections of {name}", expected, [int(number) for number in numbers])


# Offsets and lengths

def value(formula, **names):
    """What a formula of the page comes to."""
    text = re.sub(r"⌈(.+?) / 8⌉", r"whole(\1)", formula)
    for sign, meant in {"·": "*", "−": "-", "^": "**", "⌊": "floor(", "⌋": ")", "mod": "%"}.items():
        text = text.replace(sign, meant)
    return eval(text, {"__builtins__": {}}, dict(names, whole=whole, floor=floor))


def width(text, **names):
    """So many bits, or so many each of so many."""
    each = re.fullmatch(r"(.*) each, (.*) of them", text)
    return value(each[1], **names) * value(each[2], **names) if each else value(text, **names)


SIZES = [(0, 0), (1, 0), (2, 1), (6, 5), (7, 9), (4096, 0), (4096, 16384)]


def record_layout(page):
    text = titled(page, "Record")
    parts = tabled(text, "part", "first bit", "bits", "meaning")
    same("parts of a record", ["n", "m", "D", "fields", "spare bits"], [row[0] for row in parts])
    [length], [field] = sought(r"A record has (.*?) bytes", text), sought(r"begins at bit\s(.*)\.\n", text)
    for n, m in SIZES:
        firsts = [0, 13, 28, 28 + n + 2 * m, 28 + n + 26 * m]
        same(f"the first bits at n = {n}, m = {m}", firsts, [value(row[1], n=n, m=m) for row in parts])
        widths = [after - first for first, after in zip(firsts, firsts[1:])]
        same(f"the bits at n = {n}, m = {m}", widths, [width(row[2], n=n, m=m) for row in parts[:-1]])
        same(f"a record's length at n = {n}, m = {m}", record_length(n, m), value(length, n=n, m=m))
        same(f"field 3 at n = {n}, m = {m}", firsts[3] + 24, value(field, n=n, m=m, k=3))


def index_sections(page):
    text = titled(page, "Index")
    sections = tabled(text, "section", "first byte", "bits", "meaning")
    same("sections of an index", ["E", "P", "B", "stored numbers"], [row[0] for row in sections])
    [short], [length] = sought(r"With s = (.*):\n", text), sought(r"An index has (.*?) bytes", text)
    [number] = sought(r"begins at bit\s(.*)\.\n", text)
    for n, m in SIZES:
        s = value(short, n=n, m=m)
        same(f"s at n = {n}, m = {m}", whole(n + 2 * m), s)
        same(f"the first bytes at n = {n}, m = {m}", [0, s, 2 * s, 3 * s], [value(row[1], s=s) for row in sections])
        same(f"the bits at n = {n}, m = {m}", [n + 2 * m] * 3 + [12 * n], [width(row[2], n=n, m=m) for row in sections])
        same(f"an index's length at n = {n}, m = {m}", index_length(n, m), value(length, n=n, s=s))
        same(f"the number of terminal 3 at n = {n}, m = {m}", 24 * s + 24, value(number, s=s, v=3))


def field_formula(page):
    """It gives the field at each starting bit, here in bytes that end with it."""
    text = titled(page, "Bits")
    [(first, offset)], [formula] = sought(r"with i = (.*?) and r = (.*?),", text), drawn(text)
    rng = Random("fields")
    for b in range(24):
        size = whole(b + 12)
        for data in bytes(size), b"\xff" * size, *(rng.randbytes(size) for _ in range(50)):
            found = value(formula, i=value(first, b=b), r=value(offset, b=b), byte=data.__getitem__)
            same(f"the field at bit {b} of {hexadecimal(data)}", fields_of(plain.string(data, b, 12)), [found])


def limits(page):
    n, m = plain.MOST_TERMINALS, plain.MOST_WIRES
    longest = record_length(n, m)
    text = titled(page, "Record")
    most = [row[3] for row in tabled(text, "part", "first bit", "bits", "meaning")[:2]]
    same("the limits", [f"the number of terminals, at most {n:,}", f"the number of wires, at most {m:,}"], most)
    rules = tabled(titled(page, "Rules"), "number", "name", "is broken where")
    same("rule 2", f"n is over {n:,}, or m is over {m:,}", rules[1][2])
    same("the longest record", [f"{longest:,}"], sought(r"bytes, so at most\s([\d,]+)\.", text))
    text = titled(page, "Index")
    same("the longest index", [f"{index_length(n, m):,}"], sought(r"bytes, so at most\s([\d,]+)\.", text))
    rules = tabled(titled(page, "Refusals"), "number", "name", "is broken where", "given by")
    asked = f"the list has more than {plain.MOST_ASKED} terminals, or an answer list has another length than it"
    same("rule 15", ["15", "`BadList`", asked, "Lookup"], rules[-3])
    summed = f"their sum is odd, above {plain.MOST_LISTED:,}, or not the number of neighbours"
    same("rule 16", ["16", "`BadLists`", f"more than {n:,} degrees; {summed}", "File"], rules[-2])
    filed = "the buffer for the record has another length than it"
    same("rule 17", ["17", "`WrongRecordBuffer`", filed, "File"], rules[-1])
    told = sought(r"(?m)^- (1[67]): ([^.]*)\.", titled(page, "Operations"))
    lent = "the buffer has another length than n and m give"
    same("what File refuses", [("16", f"there are more than {n:,} degrees, or {summed}"), ("17", lent)], told)
    same("the longest list", [str(plain.MOST_ASKED)], sought(r"takes a list of at most ([\d,]+) terminals", page))
    same("what the program reads", [f"{longest + 1:,}"], sought(r"reads at most ([\d,]+) bytes", page))
    same("the largest loop figure", [f"{m - 1:,}"], sought(r"number of looms, 0 to ([\d,]+) \|", page))


# The other records and indexes

def small_records(page):
    """The records of the page, by their names."""
    found = {"sample": SAMPLE_RECORD}
    columns = "name", "record", "blocks", "Check", "index"
    for name, shown, blocks, verdict, index in tabled(titled(page, "Small records"), *columns):
        data = found[name.strip("`")] = record(blocks_in(blocks))
        same(f"the record {name}", hexadecimal(data), shown)
        refusal, _ = answer(check, data)
        same(f"Check of {name}", f"refused {refusal}" if refusal else "accepted", verdict.partition(",")[0])
        same(f"the index of {name}", "" if refusal else hexadecimal(built(data)) or "none", index)
    return found


def refused_records(page):
    """The sentences that need no blocks."""
    made = {
        "three bytes": bytes(3),
        "n = 4,097": layout(4097, 0, "", []),
        "`wire` without its last byte": small_records(page)["wire"][:-1],
        "`wire` with D = 0110: two ones, but a zero first": layout(2, 1, "0110", [1, 0]),
        "n = 0, m = 1": layout(0, 1, "00", [0, 0]),
        "the sample with last byte 41": SAMPLE_RECORD[:-1] + b"\x41",
    }
    expected = [[hexadecimal(data), words, str(answer(check, data)[0])] for words, data in made.items()]
    same("the refused records", expected, tabled(titled(page, "Small records"), "record", "what it is", "refused"))


def used_bits(n, m):
    """How many bits of each byte of an index are no fill bits."""
    for bits in [n + 2 * m] * 3 + [12 * n]:
        yield from (min(8, bits - at) for at in range(0, bits, 8))


def indexes(page):
    """The indexes of the page, by their names."""
    records, found = small_records(page), {"index": SAMPLE_INDEX}
    columns = "name", "record", "bytes", "E", "P", "B", "stored numbers"
    for name, of, shown, *marks, stored in tabled(titled(page, "Examples"), *columns):
        n, m = sizes(records[of.strip("`")])
        numbers = [int(k) for k in stored.split()]
        same(f"the bits of {name}", [n + 2 * m] * 3 + [n], [len(bits) for bits in marks] + [len(numbers)])
        index = index_layout(*marks, numbers)
        if name == "`filled`":
            index = bytes(byte | 255 >> used for byte, used in zip(index, used_bits(n, m)))
        same(f"the index {name}", hexadecimal(index), shown)
        found[name.strip("`")] = index
    return found


# Refusals and operations

def refusals(page):
    """Numbers and names, as the Rust package has them."""
    found = [row[:2] for row in tabled(titled(page, "Rules"), "number", "name", "is broken where")]
    found += [row[:2] for row in tabled(titled(page, "Refusals"), "number", "name", "is broken where", "given by")]
    named = sought(r"(?m)^    (\w+) = (\d+),$", REFUSALS.read_text())
    same("refusals", [[number, f"`{name}`"] for name, number in named], found)


CALLS = {
    "Check": check,
    "Degree": plain.degree,
    "Unpack": plain.unpack,
    "File": plain.file,
    "Neighbours": plain.part,
    "Loop figure": plain.loop_figure,
    "Build": plain.build,
    "Table": plain.table,
    "Parent": plain.parent,
    "Head": plain.head,
    "Ancestor": plain.ancestor,
    "Children": plain.children,
    "Child": plain.child,
    "Visit": plain.visit,
    "Visited": plain.visited,
    "Lookup": plain.lookup,
    "Rank": lambda data, start, places, p: plain.rank(plain.string(data, start, places), p),
    "Select": lambda data, start, places, k: plain.select(plain.string(data, start, places), k),
}

# An answer in the page's words, where these are not just its number.
WORDS = {
    "Unpack": spaced,
    "File": hexadecimal,
    "Neighbours": lambda part: f"{part[1]} numbers from number {part[0] + 1} on",
    "Build": hexadecimal,
    "Table": lambda columns: "; ".join(map(spaced, columns)),
    "Ancestor": lambda yes: "yes" if yes else "no",
    "Lookup": lambda lists: "; ".join(spaced(numbers) or "none" for numbers in lists),
}


def orders(page):
    """The refusals of each order that has a letter."""
    text = titled(page, "Operations")
    [r] = sought(r"Rules (\d+) to (\d+) are called \*\*order R", page)
    [c] = sought(r'"Order C" is rules (\d+) to (\d+) and (\d+)', text)
    found = {letter: {*range(int(first), int(last) + 1), *map(int, more)}
             for letter, (first, last, *more) in (("R", r), ("C", c))}
    [q] = sought(r"\*\*Order Q\*\* is order R; then (\d+),[^;]*; then (\d+),", text)
    return {**found, "Q": found["R"] | {*map(int, q)}}


def operations(page):
    """Each refuses just what its row tries: on the page's records and indexes, with numbers that fit or not."""
    shown = tabled(titled(page, "Operations"), "operation", "takes", "tries, in order", "answers")
    same("the operations", sorted(set(CALLS) - {"Rank", "Select"}), sorted(row[0] for row in shown))
    refused = tabled(titled(page, "Small records"), "record", "what it is", "refused")
    lengths = [0, 1, 2, 5, 6, 7, 10, 15, 48]
    pool = {
        "record": [*small_records(page).values(), *(bytes.fromhex(row[0]) for row in refused)],
        "index": [*indexes(page).values()],
        "list": lengths,
        "work": lengths,
        "index buffer": lengths,
        "four lists": [(6, 6, 6, 6), (5, 6, 6, 6), (6, 5, 6, 6), (6, 6, 5, 6), (6, 6, 6, 5)],
        "degrees": [[], [1, 1], [2, 0], [2, 1], [0] * (plain.MOST_TERMINALS + 1)],
        "neighbours": [[], [2, 1], [2, 2], [1, 2], [0, 1], [3, 1], [2, 1, 1]],
        "record buffer": lengths,
        "terminals": [[], [1], [2], [0], [1, 2], [1, 7], [1] * (plain.MOST_ASKED + 1)],
        "two lists": [(0, 0), (1, 1), (2, 2), (1, 2), (2, 1), (plain.MOST_ASKED + 1, plain.MOST_ASKED + 1)],
    }
    letters = orders(page)
    for operation, takes, tries, _ in shown:
        found = set()
        for given in product(*(pool.get(name, range(8)) for name in takes.split(", "))):
            flat = [x for argument in given for x in (argument if isinstance(argument, tuple) else [argument])]
            found.add(answer(CALLS[operation], *flat)[0])
        expected = {0}.union(*(letters[letter] for letter in re.findall("order ([A-Z])", tries)))
        expected |= {int(number) for number in re.findall(r"(?:^|[;:] )(\d+)", tries)}
        # it refuses without a number
        same(f"the refusals of {operation}", found, {0} if operation == "Neighbours" else expected)


def numbers_in(text):
    """A list of numbers as the page writes it, [6 2], or [1 × 3] for [1 1 1]."""
    times = re.fullmatch(r"\[(\d+) × (\d+)\]", text)
    return [int(times[1])] * int(times[2]) if times else [int(v) for v in text[1:-1].split()]


def given_as(word, names):
    """What a call is given: a number, a list of numbers, or what has this name."""
    return int(word) if word.isdigit() else numbers_in(word) if word.startswith("[") else names[word]


def called(page, call):
    """The operation of a call as the page writes it, the refusal and the value."""
    found = re.fullmatch(r"`?([A-Z][a-z ]+)\((.*)\)`?", call)
    demand(found and found[1] in CALLS, f"there is no operation {call!r}")
    names = {**small_records(page), **indexes(page)}
    given = [given_as(word, names) for word in found[2].split(", ")]
    return found[1], *answer(CALLS[found[1]], *given)


def examples(page):
    shown = tabled(titled(page, "Examples"), "call", "answer", "why")
    for call, words, _ in shown:
        operation, refusal, found = called(page, call)
        same(call, f"refused {refusal}" if refusal else WORDS.get(operation, str)(found), words)
    missing = {f"refused {number}" for number in range(9, 18)} - {row[1] for row in shown}
    demand(not missing, f"there is no example of {missing}")


def results(page):
    """Results in C: 32 bits, and 64 bits of Neighbours."""
    for call, result in sought(r"(`[A-Z][^`]+`) is\s(\w+)", titled(page, "Results in C")):
        operation, refusal, found = called(page, call)
        if operation == "Neighbours":
            same(call, f"0x{found[0] << 32 | found[1]:016X}", result)
        else:
            same(call, f"0x{refusal << 16 | int(found or 0):08X}", result)


def figures(page):
    """The loop figures that are told in words."""
    text = titled(page, "Operations")
    [(formula, figure)] = sought(r"The sample\shas the figure ([^=]*) = (\d+)", text)
    same("the sample's figure", [plain.loop_figure(SAMPLE_RECORD)] * 2, [value(formula), int(figure)])
    same("the empty record's", [str(plain.loop_figure(record([])))], sought(r"empty record has the figure (\d+)", text))
    m = plain.MOST_WIRES
    most = plain.loop_figure(record([[2] * m, [1] * m]))
    told = sought(r"The largest is ([\d,]+), as of\stwo terminals with ([\d,]+) wires", text)
    same("the largest", [(f"{most:,}", f"{m:,}")], told)


def program(page):
    same("the listing", plain.listing(SAMPLE_RECORD).splitlines(), drawn(titled(page, "The program `loomlist`")))


TESTS = [definitions, sample_record, sample_index, sample_from_4, starts, record_layout, index_sections, field_formula]
TESTS += [limits, small_records, refused_records, indexes, refusals, operations, section_counts, examples, results]
TESTS += [figures, program]


def main():
    passed = failed = 0
    page = PAGE.read_text()
    for test in TESTS:
        try:
            test(page)
            passed += 1
        # a page that can't be read is wrong too
        except Exception as wrong:
            failed += 1
            print(f"FAILED: {test.__name__.replace('_', ' ')}: {type(wrong).__name__}: {wrong}")
    print(f"{passed} passed, {failed} failed")
    return 1 if failed else 0


if __name__ == "__main__":
    sys.exit(main())
