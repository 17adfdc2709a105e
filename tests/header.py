"""The functions of the C header, called by ctypes and each compared with plain.py.

Every slice is lent from memory of its own, which ends at a page that can't be touched and has guard bytes in front.
"""
import ctypes
import faulthandler
import mmap
import re
import subprocess
import tempfile
from itertools import chain
from pathlib import Path

import plain
from families import fail, shown
from programs import HEADER

GUARD = bytes(range(0xC0, 0x100))

# The four lists of the table, the two that Lookup writes, the two that File reads, and of every slice the bytes of one
# number; "asked" is the list of the terminals that Lookup is asked for, and "filed" the buffer to which File writes
LISTS, ANSWERS, FILED = ["visits", "parents", "children", "heads"], ["heads", "visits"], ["degrees", "listed"]
WIDTHS = {"record": 1, "index": 1, "work": 2, "list": 2, "asked": 2, "filed": 1, **dict.fromkeys(LISTS + FILED, 2)}

# What each returns, and what it takes: slices by their names above, all others are numbers
FUNCTIONS = {
    "version": (ctypes.c_uint32, []),
    "check": (ctypes.c_uint32, ["record"]),
    "build": (ctypes.c_uint32, ["record", "start", "work", "index"]),
    "table": (ctypes.c_uint32, ["record", "start", "work", *LISTS]),
    "parent": (ctypes.c_uint32, ["record", "index", "v"]),
    "head": (ctypes.c_uint32, ["record", "index", "v"]),
    "ancestor": (ctypes.c_uint32, ["record", "index", "u", "v"]),
    "children": (ctypes.c_uint32, ["record", "index", "v"]),
    "child": (ctypes.c_uint32, ["record", "index", "v", "j"]),
    "visit": (ctypes.c_uint32, ["record", "index", "v"]),
    "visited": (ctypes.c_uint32, ["record", "index", "i"]),
    "lookup": (ctypes.c_uint32, ["record", "index", "asked", *ANSWERS]),
    "degree": (ctypes.c_uint32, ["record", "v"]),
    "unpack": (ctypes.c_uint32, ["record", "list"]),
    "file": (ctypes.c_uint32, [*FILED, "filed"]),
    "neighbours": (ctypes.c_uint64, ["record", "room", "v"]),
    "loop_figure": (ctypes.c_uint32, ["record"]),
    "rank": (ctypes.c_size_t, ["record", "start", "places", "p"]),
    "select": (ctypes.c_size_t, ["record", "start", "places", "k"]),
}
SLICE, NUMBER = [ctypes.c_void_p, ctypes.c_size_t], [ctypes.c_size_t]
# Those whose result has a refusal's number, and what each writes its result to
REFUSING = {name for name, (kind, taken) in FUNCTIONS.items() if kind is ctypes.c_uint32 and taken}
WRITTEN = {"build": ["index"], "table": LISTS, "unpack": ["list"], "lookup": ANSWERS, "file": ["filed"]}


# The library

def shared(archive, room):
    """A shared library of the archive, in this directory."""
    library = Path(room) / f"{Path(archive).stem}.so"
    whole = ["-Wl,--whole-archive", archive, "-Wl,--no-whole-archive"]
    subprocess.run(["cc", "-shared", "-o", library, *whole], check=True)
    return library


def with_library(archive, test):
    """The exit status of a test that is given a shared library of the archive and a scratch folder."""
    if not archive.is_file():
        return fail(f"the archive is missing: {archive}")
    with tempfile.TemporaryDirectory() as room:
        try:
            library = shared(archive, room)
        except (OSError, subprocess.CalledProcessError) as error:
            return fail(f"no shared library could be made of the archive: {error}")
        return test(library, room)


def exported(library):
    """The names of its functions, without the prefix."""
    listed = subprocess.run(["nm", "-D", "--defined-only", library], check=True, capture_output=True, text=True).stdout
    return {line.split()[-1].removeprefix("celduga_") for line in listed.splitlines() if "celduga_" in line}


def header_version():
    """The header's version: the numbers of its macros."""
    found = dict(re.findall(r"^#define CELDUGA_VERSION_(MAJOR|MINOR|PATCH) (\d+)$", HEADER.read_text(), re.MULTILINE))
    return tuple(int(found[part]) for part in ("MAJOR", "MINOR", "PATCH"))


# The functions and the memory of this process
calls, lent = {}, {}


def load(library):
    """Makes them ready."""
    faulthandler.enable()
    opened = ctypes.CDLL(str(library))
    for name, (kind, taken) in FUNCTIONS.items():
        calls[name] = opened[f"celduga_{name}"]
        calls[name].restype = kind
        calls[name].argtypes = [part for argument in taken for part in (SLICE if argument in WIDTHS else NUMBER)]
    for name, width in WIDTHS.items():
        lent[name] = Lent(width)


def address(memory):
    return ctypes.addressof(ctypes.c_char.from_buffer(memory))


def close(page):
    """From then on a touch of the page at this address ends the process."""
    failed = ctypes.CDLL(None).mprotect(ctypes.c_void_p(page), ctypes.c_size_t(mmap.PAGESIZE), 0)
    assert not failed, "no page could be closed"


class Lent:
    """Memory for slices of numbers of this many bytes each."""

    ROOM = 1 << 20

    def __init__(self, width):
        self.width = width
        self.pages = mmap.mmap(-1, self.ROOM + mmap.PAGESIZE)
        self.end = address(self.pages) + self.ROOM
        close(self.end)
        self.hold(b"")

    def hold(self, data):
        """Puts these bytes there; gives the slice, which is its address and its length."""
        self.size = len(data)
        self.pages[self.ROOM - self.size - len(GUARD) : self.ROOM] = GUARD + data
        return self.end - self.size, self.size // self.width

    def held(self):
        """What the slice holds."""
        return self.pages[self.ROOM - self.size : self.ROOM]

    def holds(self, data):
        return self.held() == data

    def guarded(self):
        """Whether nothing was written before the slice."""
        start = self.ROOM - self.size
        return self.pages[start - len(GUARD) : start] == GUARD


# Calls

def returned(refusal, value):
    """The number that a call returns: the refusal in the high half, the value in the low one."""
    return refusal << 16 | (value or 0)


def told(argument, value):
    """A number, or in a few words what a slice holds before the call."""
    if argument not in WIDTHS:
        return value
    return shown(value) if argument in ("asked", *FILED) else f"of {len(value)} bytes"


class Compared:
    """Calls on one record, and for the queries on one index: how many, and what differs from plain.py."""

    def __init__(self, data, index=None):
        self.data, self.index = data, index
        self.calls, self.differences = 0, []
        self.record = lent["record"].hold(data)
        self.both = self.record + lent["index"].hold(index or b"")

    def settle(self, right, *text):
        if not right:
            held = f"record {shown(self.data)}" + ("" if self.index is None else f", index {shown(self.index)}")
            self.differences.append(" ".join(map(str, text)) + "; " + held)

    def call(self, name, *given):
        """What the function returns. None refuses with 7."""
        self.calls += 1
        found = calls[name](*given)
        self.settle(name not in REFUSING or found >> 16 != 7, name, "refuses with 7")
        return found

    def ask(self, name, *numbers):
        """An operation on the record that only reads."""
        expected = returned(*plain.answer(getattr(plain, name), self.data, *numbers))
        found = self.call(name, *self.record, *numbers)
        self.settle(found == expected, name, *numbers, "gives", hex(found), "for", hex(expected))

    def query(self, name, *numbers):
        expected = returned(*plain.answer(getattr(plain, name), self.data, self.index, *numbers))
        found = self.call(name, *self.both, *numbers)
        self.settle(found == expected, name, *numbers, "gives", hex(found), "for", hex(expected))

    def part(self, room, v):
        """Where terminal v's part of a list of so many numbers stands."""
        before, count = plain.part(self.data, room, v)
        found, expected = self.call("neighbours", *self.record, room, v), before << 32 | count
        self.settle(found == expected, "neighbours", room, v, "gives", hex(found), "for", hex(expected))

    def write(self, name, outcome, *given):
        """An operation that writes: the refusal and what is written to each buffer of the result, as plain.py says.
        Behind the record, where it takes one, come in order its numbers and what the lent slices hold before. All but
        those buffers, and the work slice, hold the same after the call."""
        refusal, written = outcome
        names = FUNCTIONS[name][1]
        of_record = names[0] == "record"
        taken = list(zip(names[1:] if of_record else names, given))
        held = {argument: data for argument, data in taken if argument in WIDTHS}
        passed = [lent[argument].hold(value) if argument in held else (value,) for argument, value in taken]
        given = chain(self.record if of_record else (), *passed)
        found, expected = self.call(name, *given), returned(refusal, None)
        words = "with " + ", ".join(f"{argument} {told(argument, value)}" for argument, value in taken)
        self.settle(found == expected, name, words, "gives", hex(found), "for", hex(expected))
        assert refusal or len(written) == len(WRITTEN[name])
        left = held if refusal else {**held, **dict(zip(WRITTEN[name], written))}
        for argument, data in left.items():
            kept = argument == "work" or lent[argument].holds(data)
            self.settle(kept, name, words, f"leaves other bytes in the {argument}")
        self.settle(all(lent[argument].guarded() for argument in held), name, words, "writes outside a slice")

    def rank_and_select(self, start, places, numbers):
        """Of a string in these bytes, for each of the numbers."""
        s = plain.string(self.data, start, places)
        for name in ("rank", "select"):
            for k in numbers:
                found, expected = self.call(name, *self.record, start, places, k), getattr(plain, name)(s, k)
                self.settle(found == expected, name, start, places, k, "gives", found, "for", expected)

    def result(self):
        self.settle(lent["record"].holds(self.data), "the record has changed")
        self.settle(self.index is None or lent["index"].holds(self.index), "the index has changed")
        self.settle(all(memory.guarded() for memory in lent.values()), "something was written outside the slices")
        return self.calls, self.differences
