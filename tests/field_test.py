"""The reader of 12-bit fields, `bits_read12` of libbits_export.a: its instructions are looked at for a branch, and its
numbers are compared with plain strings of bits. It is called where all bytes behind the field, or all before it, are
closed. The archive for users does not have it.
"""
import ctypes
import faulthandler
import mmap
import re
import sys
from pathlib import Path
from random import Random

import shapes
from families import shown, summed, tally
from header import Lent, address, close, with_library
from packing import bits_of, number, packed, whole
from plain import built, parts, sections_of, sizes
from programs import ARCHIVE, C, FIELD_ARCHIVE, demand, run

READER = "bits_read12"


# The instructions

# The names of some that lead to the next one
STRAIGHT = re.compile(r"(mov\w*|(lea|add|sub|and|or|xor|not|neg|test|sh[lr]|ro[lr]|bswap|nop)[bwlq]?|set\w+|endbr64)\b")
RETURN = re.compile(r"(repz? )?ret")


def instructions(file, function):
    """The function's instructions, in order."""
    listed = run(["objdump", "--disassemble-zeroes", "--no-show-raw-insn", "-d", file])
    found = re.search(rf"^\w+ <{function}>:\n((?:.+\n?)*)", listed, re.MULTILINE)
    demand(found, f"{file} has no {function}")
    return [line.split("\t", 1)[1] for line in found[1].splitlines()]


def branches(code):
    """Those that may lead elsewhere, but for a return at the end."""
    return [text for text in (code[:-1] if RETURN.match(code[-1]) else code) if not STRAIGHT.match(text)]


def no_branch(file):
    code = instructions(file, READER)
    differences = [f"{READER} has {text!r}" for text in branches(code)]
    if not RETURN.match(code[-1]):
        differences.append(f"{READER} ends with {code[-1]!r}")
    return len(code), differences


# Readers in C, to see that a branch is found: the first has one, the second calls, the third jumps to another function,
# and the last has none
READERS = """
#include <stddef.h>
#include <stdint.h>

size_t elsewhere(const uint8_t *p, size_t off);

size_t branching(const uint8_t *p, size_t off)
{
    if (off <= 4)
        return ((size_t)p[0] << 8 | p[1]) >> (4 - off) & 4095;
    return ((size_t)p[0] << 16 | (size_t)p[1] << 8 | p[2]) >> (12 - off) & 4095;
}

size_t calling(const uint8_t *p, size_t off) { return elsewhere(p, off) & 4095; }

size_t leaving(const uint8_t *p, size_t off) { return elsewhere(p, off); }

size_t straight(const uint8_t *p, size_t off)
{
    return ((size_t)p[0] << 16 | (size_t)p[1] << 8 | p[(off + 11) / 8]) >> (12 - off) & 4095;
}
"""
# How each is compiled, and what is found in it
FOUND = {
    "branching": ("-O0", "j(?!mp)"),
    "calling": ("-O0", "call"),
    "leaving": ("-O2", "jmp"),
    "straight": ("-O2", None),
}


def seen(case):
    """Whether the branch of a reader in C is seen, or that it has none."""
    function, room = case
    level, expected = FOUND[function]
    compiled = Path(room) / f"{function}.o"
    run([*C, level, "-ffunction-sections", "-c", "-", "-o", compiled], input=READERS)
    found = branches(instructions(compiled, function))
    right = any(re.match(expected, text) for text in found) if expected else not found
    return 1, [] if right else [f"in {function} these were found: {found}"]


# The numbers

class Fronted:
    """Memory for slices that begin behind a closed page."""

    def __init__(self):
        self.pages = mmap.mmap(-1, 2 * mmap.PAGESIZE)
        close(address(self.pages))

    def hold(self, data):
        self.pages[mmap.PAGESIZE : mmap.PAGESIZE + len(data)] = data
        return address(self.pages) + mmap.PAGESIZE, len(data)


# The function and the memory of this process
made = {}


def load(library):
    faulthandler.enable()
    made["read"] = ctypes.CDLL(str(library))[READER]
    made["read"].restype, made["read"].argtypes = ctypes.c_size_t, [ctypes.c_void_p, ctypes.c_size_t, ctypes.c_size_t]
    made["end"], made["front"] = Lent(1), Fronted()


def compared(data, asked):
    """How many were asked, and what differs: each has a slice, a starting bit and the number that stands there. The
    slice's bytes that are not closed are these."""
    differences = []
    for held, start, expected in asked:
        found = made["read"](*held, start)
        if found != expected:
            differences.append(f"at bit {start} of {held[1]} bytes {found} is read for {expected}; bytes {shown(data)}")
    return len(asked), differences


def field_bytes(s):
    """The bytes of a field from bit s of the first one on: zeros, ones, one bit set, one not, and drawn ones."""
    rng, size = Random(f"field {s}"), whole(s + 12)
    single = [packed("".join("01"[i == k] for i in range(8 * size))) for k in range(8 * size)]
    lacking = [bytes(255 - byte for byte in data) for data in single]
    return [bytes(size), b"\xff" * size, *single, *lacking, *(rng.randbytes(size) for _ in range(2000))]


def alone(case):
    """The field's bytes stand at a closed page. They are the whole slice, or all its other bytes are closed."""
    s, name = case
    closed = [(0, 0), *(((0, k) if name == "end" else (k, 0)) for k in (1, 2, 8, mmap.PAGESIZE))]
    results = []
    for data in field_bytes(s):
        at, size = made[name].hold(data)
        expected = number(bits_of(data)[s : s + 12])
        results.append(compared(data, [((at - k, k + size + j), 8 * k + s, expected) for k, j in closed]))
    return summed(results)


def every_start(data):
    """All fields of a slice that ends at a closed page."""
    held, bits = made["end"].hold(data), bits_of(data)
    return compared(data, [(held, start, number(bits[start : start + 12])) for start in range(len(bits) - 11)])


def slices():
    rng = Random("slices")
    return [rng.randbytes(size) for size in [*range(2, 40), 300, 4096] for _ in range(4 if size < 40 else 1)]


def of_record(data):
    """The fields of a record and the stored numbers of its index, which end at a closed page."""
    (n, m), index = sizes(data), built(data)
    *_, stored = sections_of(data, index)
    first, numbers = 28 + n + 2 * m, 24 * whole(n + 2 * m)
    results = []
    for held, start, expected in (data, first, parts(data)[1]), (index, numbers, stored):
        at = made["end"].hold(held)
        results.append(compared(held, [(at, start + 12 * k, value) for k, value in enumerate(expected)]))
    return summed(results)


# The archives

def exports(case):
    """All that an archive exports begins so."""
    file, start = case
    listed = run(["nm", "--extern-only", "--defined-only", file])
    names = re.findall(r"^[0-9a-f]+ \w (.+)$", listed, re.MULTILINE)
    return len(names), [f"{file.name} exports {name}" for name in names if not name.startswith(start)]


# All of it

def families(room):
    records = [data for cases in shapes.small().values() for known, data in cases if known == 0]
    return {
        "branches in C": (seen, [(function, room) for function in FOUND]),
        "instructions": (no_branch, [FIELD_ARCHIVE]),
        "exports": (exports, [(FIELD_ARCHIVE, READER), (ARCHIVE, "celduga_")]),
        "closed bytes behind the field": (alone, [(s, "end") for s in range(8)]),
        "closed bytes before the field": (alone, [(s, "front") for s in range(8)]),
        "every start of a slice": (every_start, slices()),
        "records and indexes": (of_record, records),
    }


def compare(library, room):
    return tally(families(room), "comparisons", load, [library])


if __name__ == "__main__":
    sys.exit(with_library(FIELD_ARCHIVE, compare))
