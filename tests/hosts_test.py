"""Compiles and runs what C, C++ and Rust programs are given: the header, the example and the Rust package.

The sections that the example must print are found by a plain search: terminals that are joined in the record, and in it without each one of
its wires.
"""
import os
import random
import re
import subprocess
import sys

from forest_vectors_test import shapes
from header import header_version
from packing import SAMPLE, flipped, layout, record
from plain import answer, check, wires, without
from programs import C, CPP, HEADER, ROOT, archive, cargo, demand, linked, run, rust_program, tally
from shapes import FIXED

EXAMPLE = ROOT / "examples/sections.c"
CALLS = ROOT / "tests/hosts_calls.c"


# The header

def header_alone(compiler, room):
    """It needs no other include before it, and may be included twice."""
    source = room / "alone"
    source.write_text('#include "celduga.h"\n#include "celduga.h"\nint main(void) { return 0; }\n')
    run([*compiler, "-fsyntax-only", source])


def functions():
    """The names of the functions that the header declares, and of those that it defines."""
    text = run([*C, "-E", "-P", HEADER])
    while re.search(r"\{[^{}]*\}", text):
        text = re.sub(r"\{[^{}]*\}", ";", text)
    found = [(re.search(r"\b(celduga_\w+)\s*\(", part), part) for part in text.split(";")]
    named = {(name[1], bool(re.match(r"\s*static inline\b", part))) for name, part in found if name}
    return {name for name, inline in named if not inline}, {name for name, inline in named if inline}


def header_exports():
    """The header declares just the functions that the archive has."""
    listed = run(["nm", "-g", "--defined-only", archive()])
    exported = {line.split()[2] for line in listed.splitlines() if len(line.split()) == 3}
    declared, _ = functions()
    demand(exported, f"nm lists nothing that is defined:\n{listed}")
    demand(declared == exported, f"declared alone: {sorted(declared - exported)}, exported alone: {sorted(exported - declared)}")


def header_is_called():
    """Every function is called in tests/hosts_calls.c."""
    text = CALLS.read_text()
    uncalled = [name for names in functions() for name in sorted(names) if not re.search(rf"\b{name}\(", text)]
    demand(not uncalled, f"{CALLS.name} does not call {uncalled}")


def header_inline(compiler, room):
    """The code of each function that the header defines is made, and linked."""
    _, inline = functions()
    demand(inline and len(inline) == HEADER.read_text().count("static inline"), f"some are not found: {sorted(inline)}")
    source, pointer = room / "inline", "void (*)(void)"
    kept = ", ".join(f"({pointer})&{name}" for name in sorted(inline))
    source.write_text(f'#include "celduga.h"\nvoid (*volatile kept[])(void) = {{{kept}}};\nint main(void) {{ return kept[0] == 0; }}\n')
    run([linked(compiler, source, room / "inline.run")])


def lengths(n, m):
    return -(-(28 + n + 26 * m) // 8), 3 * -(-(n + 2 * m) // 8) + -(-12 * n // 8), 8 * n, 2 * m


def header_sizes(data):
    """n and m, the first 13 bits and the next 15."""
    bits = "".join(f"{byte:08b}" for byte in data)
    return int(bits[:13], 2), int(bits[13:28], 2)


def calls():
    """What the program of tests/hosts_calls.c must print; the answers on the sample from 1 are those of document 01."""
    spaced = lambda numbers: " ".join(map(str, numbers))
    version = header_version()
    whole = int.from_bytes(bytes(version), "big")
    yield f"version: {spaced(version)}, {whole}, {whole}"
    yield f"largest: 4096 16384 {spaced(lengths(4096, 16384))} 512"
    for n, m in (0, 0), (1, 0), (2, 1), (6, 5), (7, 9), (4096, 16384), (8191, 32767):
        yield f"lengths {n} {m}: {spaced(lengths(n, m))}"
    for data in record(SAMPLE), b"\xa5\x1c\x5a\xc3", b"\xff" * 4:
        yield f"header: {spaced(header_sizes(data))}"
    yield from ("check: 0 0", "check short: 1 0")
    # 1, 2 and 3 close a loop
    yield from ("figure: 0 1", "figure short: 1 0", "figure of the empty record: 0 0")
    yield "unpack: 0 0"
    yield f"list: {spaced(w for block in SAMPLE for w in block)}"
    parts = [("0 2 at 0", [3, 2]), ("2 2 at 2", [1, 3]), ("4 3 at 4", [2, 4, 1]), ("7 1 at 7", [3]), ("8 1 at 8", [6]), ("9 1 at 9", [5])]
    for v, (place, block) in enumerate([("0 0 at 0", []), *parts, ("0 0 at 0", [])]):
        yield from (f"part {v} of 10: {place}", f"neighbours:{''.join(f' {w}' for w in block)}")
    for room in 9, 11:
        yield from (f"part 3 of {room}: 0 0 at 0", "neighbours:")
    yield from files()
    yield from ("build from 0: 14 0", "build from 7: 14 0", "build from the largest: 14 0")
    yield from ("build from 0 in 47: 9 0", "build from 0 to 14: 10 0", f"index: {spaced(['A5'] * 15)}")
    # 4 enters 3, 3 enters 2 and 2 enters 1; then come 5 and 6
    yield from ("build from 4: 0 0", "index: 09 14 24 81 00 95 00 30 02 00 10 00 00 40 05")
    yield from ("build from 1: 0 0", "index: 41 84 04 51 00 95 00 00 02 00 10 03 00 40 05")
    yield from ("table of 5: 10 0", "table in 47: 9 0", "table from 7: 14 0", "table from the largest of 5: 10 0")
    yield from (f"heads: {spaced([257] * 6)}", "table from 4: 0 0")
    yield from ("visits: 4 3 2 1 5 6", "parents: 2 3 4 0 0 5", "children: 0 1 1 1 1 0", "heads: 3 3 3 4 5 6")
    yield "table from 1: 0 0"
    yield from ("visits: 1 3 2 4 5 6", "parents: 0 3 1 3 0 5", "children: 1 0 2 0 1 0", "heads: 1 1 1 4 5 6")
    for refusal in 0, 14, 14:
        yield from (f"build of the empty record: {refusal} 0", f"its table: {refusal} 0")
    rows = [(1, 1, 1, 0, 1, 1), (2, 3, 3, 3, 0, 1), (3, 2, 2, 1, 2, 1), (4, 4, 4, 3, 0, 4), (5, 5, 5, 0, 1, 5), (6, 6, 6, 5, 0, 6)]
    for v, *answers in rows:
        for call, answer in zip(("degree", "visit", "visited", "parent", "children", "head"), (len(SAMPLE[v - 1]), *answers)):
            yield f"{call}: 0 {answer}"
    for call in "degree", "visit", "visited", "parent", "children", "head":
        yield f"{call}: 11 0"
    yield from ("second child of 3: 0 4", "third child of 3: 13 0", "1 above 4: 0 1", "4 above 1: 0 0")
    yield from lookups(spaced)
    # D is 1001001000101010: places 1, 4 and 7 are the first three ones, and 11 is the fourth
    yield from ("rank: 3", "select: 11")


def files():
    """What it must print of File on the sample's lists. Where that refuses, nothing is written; 16 comes before 6, 8
    and 17, and 17 behind them. The byte behind the buffer stays."""
    shown = lambda data: f"filed: {data.hex(' ').upper()}"
    before, sample = b"\xa5" * 22, record(SAMPLE)
    refused = {"of 5 degrees": 16, "of 9 neighbours": 16, "of 11 neighbours": 16, "to 20": 17, "to 22": 17}
    refused.update({"with 7": 6, "with 7 to 20": 6, "with 4 for 5": 8, "with 4 for 5 of 11 neighbours to 20": 16})
    for call, refusal in refused.items():
        yield from (f"file {call}: {refusal} 0", shown(before))
    yield from ("file: 0 0", shown(sample + b"\xa5"), "the same: 1")
    longer = record([*SAMPLE, []])
    yield from ("file of 7 degrees: 0 0", shown(longer + before[len(longer) :]))
    yield from ("file of none: 0 0", shown(bytes(4) + (longer + before[len(longer) :])[4:]))


def lookups(spaced):
    """What it must print of Lookup. Where that refuses, nothing is written; 10 comes before 15, and 15 before 11."""
    lists = lambda heads, visits: (f"heads: {spaced(heads)}", f"visits: {spaced(visits)}")
    refused = {"in 14 to 3 and 4": 10, "to 3 and 4": 15, "to 4 and 5": 15, "of 513": 15}
    refused.update({"of 6 5 4 7": 11, "of 6 5 4 7 to 5 and 5": 15, "of none": 0})
    for call, refusal in refused.items():
        yield from (f"lookup {call}: {refusal} 0", *lists([0x101] * 6, [0x202] * 6))
    yield from ("lookup of 6 5 4 2 2: 0 0", *lists([6, 5, 4, 1, 1, 0x101], [6, 5, 4, 3, 3, 0x202]))
    # 6 5 4 2 2 1, and from then on 6 5 4 3 2 1 again and again: the last ones are 6 and 5
    yield from ("lookup of 512: 0 0", *lists([6, 5, 4, 1, 1, 1], [6, 5, 4, 3, 3, 1]))
    yield from (f"the last heads: 6 5 {0x101}", f"the last visits: 6 5 {0x202}")
    yield from ("lookup short: 1 0", "lookup in the empty record: 0 0")


def called(compiler, room):
    """The lines that the program prints, those with the refusals in words by themselves."""
    lines = run([linked(compiler, CALLS, room / "calls")]).splitlines()
    words = [line for line in lines if line.startswith("refusal ")]
    return [line for line in lines if line not in words], words


def same_lines(found, expected):
    for i in range(max(len(found), len(expected))):
        demand(found[i : i + 1] == expected[i : i + 1], f"line {i + 1}: expected {expected[i : i + 1]}, printed {found[i : i + 1]}")


def header_calls(compiler, room):
    same_lines(called(compiler, room)[0], list(calls()))


RUST_WORDS = """
fn main() {
    for number in 0..=19 {
        match celduga::Refusal::from_number(number) {
            Some(refusal) => println!("{refusal}"),
            None => println!(),
        }
    }
}
"""


def refusals_in_words(room):
    """The header's words for a refusal are those of the Rust package, 1 to 17, and it has others for 0 and for all
    above."""
    rust = rust_program(room, "words", RUST_WORDS).splitlines()
    known = rust[1:18]
    whole = len(rust) == 20 and len(set(known)) == 17 and all(known)
    demand(whole, f"the Rust package has other refusals than 1 to 17: {rust}")
    demand(not rust[0] and not any(rust[18:]), f"the Rust package has more refusals than 1 to 17: {rust}")
    none = "no refusal has this number"
    expected = [f"refusal {number}: {words}" for number, words in enumerate(["nothing is refused", *known, none, none])]
    for compiler in C, CPP:
        same_lines(called(compiler, room)[1], [*expected, f"refusal {2**32 - 1}: {none}"])


def same_version(room):
    """The version is one in the header, in the archive, in the Rust package and at the head of the list of changes."""
    sources = {
        "rust/Cargo.toml": r'^\[package\]\n(?:[^\[].*\n)*?version = "(.*)"$',
        "rust/Cargo.lock": r'^name = "celduga"\nversion = "(.*)"$',
        "CHANGELOG.md": r"\A(?:(?!## ).*\n)*## \[?([^\s\]]*)",
    }
    found = {name: re.findall(pattern, (ROOT / name).read_text(), re.MULTILINE) for name, pattern in sources.items()}
    found["include/celduga.h"] = [".".join(map(str, header_version()))]
    printed = re.fullmatch(r"version: .*, .*, (\d+)", called(C, room)[0][0])
    found["celduga_version()"] = [".".join(map(str, int(printed[1]).to_bytes(3, "big")))]
    demand(all(len(versions) == 1 for versions in found.values()) and len({versions[0] for versions in found.values()}) == 1, str(found))


# The example

def looms(blocks):
    """For each terminal the least one that it is joined with."""
    least = {}
    for root in range(1, len(blocks) + 1):
        if root not in least:
            least[root] = root
            reached = [root]
            for v in reached:
                for w in blocks[v - 1]:
                    if w not in least:
                        least[w] = root
                        reached.append(w)
    return [least[v] for v in range(1, len(blocks) + 1)]


def sections(blocks):
    """The classes of terminals that are joined with all wires and without each one, in order of their least terminals."""
    trials = [looms(blocks)] + [looms(without(blocks, wire)) for wire in wires(blocks)]
    classes = {}
    for v, marks in enumerate(zip(*trials), 1):
        classes.setdefault(marks, []).append(v)
    return list(classes.values())


def listing(classes):
    return "".join(f"section {i}: {' '.join(map(str, terminals))}\n" for i, terminals in enumerate(classes, 1))


def random_blocks(chance, n, m):
    """A graph of n terminals and at most m wires, with the neighbours of each in any order."""
    blocks = [[] for _ in range(n)]
    for v, w in {tuple(sorted(chance.sample(range(1, n + 1), 2))) for _ in range(m)}:
        blocks[v - 1].append(w)
        blocks[w - 1].append(v)
    for block in blocks:
        chance.shuffle(block)
    return blocks


def example_runs(program, data, output, status):
    done = subprocess.run([program], input=data, stdout=subprocess.PIPE, stderr=subprocess.PIPE)
    demand(done.stderr == b"", f"it complains: {done.stderr!r}")
    demand(done.stdout.decode() == output, f"expected {output[:400]!r}, printed {done.stdout.decode()[:400]!r}")
    demand(done.returncode == status, f"expected status {status}, ended with {done.returncode}")


def example_accepts(program):
    chance = random.Random(4096)
    small = list(FIXED.values()) + [random_blocks(chance, n, n + extra) for n in range(2, 26) for extra in (-n // 2, 0, n // 3)]
    # the head of 2, 3 and 4 is 3
    small.append([[3], [4, 3], [1, 2, 4], [3, 2]])
    for blocks in small:
        demand(answer(check, record(blocks))[0] == 0, f"the test has a record that is not accepted: {blocks}")
        example_runs(program, record(blocks), listing(sections(blocks)), 0)


def example_takes_the_largest(program):
    """The shapes tell the sections: all terminals, where a ring joins them, and else, where the wires make trees, each by itself."""
    for name, blocks, _ in shapes():
        terminals = range(1, len(blocks) + 1)
        whole = name in ("ring", "circulant")
        example_runs(program, record(blocks), listing([terminals] if whole else [[v] for v in terminals]), 0)
        example_runs(program, record(blocks) + b"\0", "refused 3\n", 1)


def example_refuses(program):
    sample = record(SAMPLE)
    refused = [
        (1, b""),
        (1, sample[:3]),
        (2, b"\xff" * 4),
        (2, layout(4097, 0, "", [])),
        (3, sample[:-1]),
        (3, sample + b"\0"),
        (3, b"\0" * 100000),
        (4, flipped(sample, 43)),
        (5, flipped(sample, -1)),
        (6, record(SAMPLE[:5] + [[6]])),
        (8, record([[2, 3], [1], [2]])),
        (8, record([[2, 2, 2], [1]])),
    ]
    for refusal, data in refused:
        demand(answer(check, data)[0] == refusal, f"the test has a record that is not refused with {refusal}")
        example_runs(program, data, f"refused {refusal}\n", 1)


def example_says_errors(program):
    """What can't be read or written is said on standard error, with exit status 2."""
    folder = os.open("/", os.O_RDONLY)
    done = subprocess.run([program], stdin=folder, capture_output=True)
    os.close(folder)
    demand((done.returncode, done.stdout) == (2, b""), f"reading a folder ends with {done.returncode}, and prints {done.stdout}")
    demand(done.stderr == b"sections: standard input: Is a directory\n", f"reading a folder says {done.stderr}")
    for data in record(SAMPLE), b"":
        with open("/dev/full", "wb") as full:
            done = subprocess.run([program], input=data, stdout=full, stderr=subprocess.PIPE)
        demand(done.returncode == 2, f"writing to a full device ends with {done.returncode}")
        demand(done.stderr == b"sections: standard output: No space left on device\n", f"writing to a full device says {done.stderr}")


def example(test, room):
    test(linked(C, EXAMPLE, room / "sections"))


def example_is_short():
    lines = len(EXAMPLE.read_text().splitlines())
    demand(lines < 60, f"{EXAMPLE.name} has {lines} lines")


# The Rust package

def rust_package(room):
    output = cargo(room, ROOT / "rust", "test", "--locked")
    passed = [int(count) for count in re.findall(r"^test result: ok\. (\d+) passed", output, re.MULTILINE)]
    # the tests in src, each program in tests, and the examples of the pages
    demand(len(passed) >= 3 and all(passed), f"a part of the package has no test that passed: {passed}\n{output}")


def tests(room):
    yield "the header as C99", header_alone, C, room
    yield "the header as C++11", header_alone, CPP, room
    yield "the header declares what the archive has", header_exports,
    yield "every function of the header is called", header_is_called,
    yield "the header's inline functions as C99", header_inline, C, room
    yield "the header's inline functions as C++11", header_inline, CPP, room
    yield "the header's calls from C99", header_calls, C, room
    yield "the header's calls from C++11", header_calls, CPP, room
    yield "the refusals in words", refusals_in_words, room
    yield "the version", same_version, room
    yield "the example is short", example_is_short,
    for test in example_accepts, example_takes_the_largest, example_refuses, example_says_errors:
        yield test.__name__.replace("_", " "), example, test, room
    yield "the Rust package", rust_package, room


if __name__ == "__main__":
    sys.exit(tally(tests))
