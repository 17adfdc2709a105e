"""Compares what the program loomlist prints with the listing of plain.py, byte for byte, on records of every shape, accepted and damaged.

What it can't read or write, and a call with an argument, it says in one line on standard error. It must always end with status 0.
"""
import os
import resource
import signal
import socket
import subprocess
import sys
import tempfile
import time
from itertools import zip_longest
from random import Random

import shapes
from families import fail, shown, tally
from packing import SAMPLE, record
from plain import answer, check, listing
from programs import LOOMLIST as PROGRAM

SAMPLE_LISTING = """\
terminal visit parent children head
1 1 0 1 1
2 3 3 0 1
3 2 1 2 1
4 4 3 0 4
5 5 0 1 5
6 6 5 0 6
loops 1
"""


# One record

def printed(data):
    """What the program prints for the record; its errors too, and how it ended where that was not with status 0."""
    ended = subprocess.run([PROGRAM], input=data, capture_output=True, timeout=30)
    return text(ended.stdout + ended.stderr, ended.returncode)


def text(output, status):
    ended = f"ended by signal {-status}\n" if status < 0 else f"ended with status {status}\n"
    return output.decode(errors="replace") + (ended if status else "")


def difference(data, expected, found):
    """The record and the first line that differs, or nothing."""
    if expected == found:
        return []
    lines = zip_longest(expected.split("\n"), found.split("\n"), fillvalue="nothing")
    number, (right, wrong) = next((i, pair) for i, pair in enumerate(lines, 1) if pair[0] != pair[1])
    return [f"record {shown(data)}: line {number}: expected {right!r}, printed {wrong!r}"]


def compare(case):
    known, data = case
    refusal, _ = answer(check, data)
    doubt = [] if known in (None, refusal) else [f"record {shown(data)}: made to give {known}, and plain.py gives {refusal}"]
    return 1, doubt + difference(data, listing(data), printed(data))


def exact(case):
    """The program, and plain.py too, against a listing in so many words."""
    data, words = case
    return 1, difference(data, words, printed(data)) + difference(data, words, listing(data))


# Other ways to hand a record in

def in_pieces(case):
    """Through a pipe, so many bytes at a time, with a pause after each piece."""
    data, size = case
    with subprocess.Popen([PROGRAM], stdin=subprocess.PIPE, stdout=subprocess.PIPE, stderr=subprocess.STDOUT) as program:
        for i in range(0, len(data), size):
            try:
                program.stdin.write(data[i : i + size])
                program.stdin.flush()
            # it need not read on once it knows the answer
            except BrokenPipeError:
                break
            time.sleep(0.003)
        output, _ = program.communicate(timeout=30)
    return 1, difference(data, listing(data), text(output, program.returncode))


def from_file(data):
    with tempfile.TemporaryFile() as file:
        file.write(data)
        file.seek(0)
        ended = subprocess.run([PROGRAM], stdin=file, stdout=subprocess.PIPE, stderr=subprocess.STDOUT, timeout=30)
    return 1, difference(data, listing(data), text(ended.stdout, ended.returncode))


def byte_by_byte(data):
    """So that each read gives one byte: every byte is a message of its own."""
    near, far = socket.socketpair(socket.AF_UNIX, socket.SOCK_SEQPACKET)
    with near, subprocess.Popen([PROGRAM], stdin=far, stdout=subprocess.PIPE, stderr=subprocess.STDOUT) as program:
        far.close()
        try:
            for i in range(len(data)):
                near.send(data[i : i + 1])
        # it need not read on once it knows the answer
        except ConnectionError:
            pass
        near.close()
        output, _ = program.communicate(timeout=30)
    return 1, difference(data, listing(data), text(output, program.returncode))


def pieces():
    rng = Random("pieces")
    large = record(shapes.shuffled(rng, shapes.sparse(rng, 4096, 16384)))
    found = [(record(blocks), size) for blocks in shapes.FIXED.values() for size in (1, 2, 5)]
    found += [(b"", 1), (bytes(3), 1), (bytes(5), 1), (record(SAMPLE) + b"\0", 1), (record(SAMPLE)[:-1], 1)]
    return found + [(large, 1000), (large, 4096), (large, 53763), (large + b"\0", 53764), (large + bytes(200000), 4096)]


def too_long():
    """Inputs as long as the longest record or longer, refused by their length or by what comes before it."""
    rng = Random("too long")
    longest = record(shapes.shuffled(rng, shapes.sparse(rng, 4096, 16384)))
    assert len(longest) == 53764
    found = [(0, longest)]
    for size in (53764, 53765, 53766, 60000, 65536, 65537, 2**17 + 1, 2**20, 2**20 + 1):
        found += [(3, bytes(size)), (2, b"\xff" * size), (3, record(SAMPLE).ljust(size, b"\0"))]
        found += [(3, longest.ljust(size, b"\0"))] if size > 53764 else []
    return found


# Inputs that are far too long

MUCH, ENOUGH, SECONDS = 100_000_000, 1_000_000, 20


def little_memory():
    resource.setrlimit(resource.RLIMIT_AS, (MUCH // 3, MUCH // 3))


def endless(start):
    """The record with zeros behind it, much more than memory is given for, from a pipe and from a file: it stops reading soon."""
    expected = listing(start.ljust(ENOUGH, b"\0"))
    found, given = [], {"stdout": subprocess.PIPE, "stderr": subprocess.STDOUT, "preexec_fn": little_memory}
    with subprocess.Popen([PROGRAM], stdin=subprocess.PIPE, **given) as program:
        sent = 0
        try:
            while sent < MUCH:
                sent += os.write(program.stdin.fileno(), start[sent:] or bytes(65536))
        except BrokenPipeError:
            pass
        output, _ = program.communicate(timeout=SECONDS)
    found += difference(start, expected, text(output, program.returncode))
    found += [f"of a pipe it read {sent:,} bytes"] if sent > ENOUGH else []
    with tempfile.TemporaryFile() as file:
        file.write(start)
        file.truncate(MUCH)
        file.seek(0)
        ended = subprocess.run([PROGRAM], stdin=file, timeout=SECONDS, **given)
        read = os.lseek(file.fileno(), 0, os.SEEK_CUR)
    found += difference(start, expected, text(ended.stdout, ended.returncode))
    found += [f"of a file it read {read:,} bytes"] if read > ENOUGH else []
    return 2, found


# Errors

IN, OUT, USAGE = "loomlist: standard input: ", "loomlist: standard output: ", "usage: loomlist < RECORD\n"


def differs(what, found, output, errors):
    """Whether standard output and standard error are these, and the status is 0."""
    expected = (output.encode(), errors.encode(), 0)
    return [] if found == expected else [f"{what}: expected {expected}, found {found}"]


def redirected(case):
    """By the shell, for an input; what is then written to the two outputs."""
    words, data, output, errors = case
    ended = subprocess.run(["sh", "-c", f'exec "$0" {words}', PROGRAM], input=data, capture_output=True, timeout=30)
    return 1, differs(f"{words} for {shown(data)}", (ended.stdout, ended.stderr, ended.returncode), output, errors)


def redirections():
    sample, closed, full = record(SAMPLE), "Bad file descriptor\n", "No space left on device\n"
    found = [("</", b"", "", IN + "Is a directory\n"), ("<&-", b"", "", IN + closed), ("0>/dev/null", b"", "", IN + closed)]
    for data in sample, b"", b"\xff" * 4, sample[:-1], record([]):
        found += [(">/dev/full", data, "", OUT + full), (">&-", data, "", OUT + closed), ("1</dev/null", data, "", OUT + closed)]
    # the input is read first, and nothing is written where that fails
    found += [("<&- >&-", b"", "", IN + closed), ("</ >/dev/full", b"", "", IN + "Is a directory\n")]
    # nowhere to say it
    found += [("</ 2>&-", b"", "", ""), (">/dev/full 2>&-", sample, "", ""), ("</ 2>/dev/full", b"", "", "")]
    # and where there is nothing to say
    return found + [("</dev/null", sample, "refused 1\n", ""), ("</dev/zero", b"", "refused 3\n", ""), ("2>&-", sample, SAMPLE_LISTING, "")]


def unready(data):
    """The input fails after these bytes: a pipe that has no more, is still open, and may not be waited for."""
    read, write = os.pipe()
    os.set_blocking(read, False)
    os.write(write, data)
    ended = subprocess.run([PROGRAM], stdin=read, capture_output=True, timeout=30)
    os.close(read)
    os.close(write)
    found = (ended.stdout, ended.stderr, ended.returncode)
    return 1, differs(f"unready after {len(data)} bytes", found, "", IN + "Resource temporarily unavailable\n")


def unheard(data):
    """Nobody reads the output; the signal that would end the program is passed over."""
    read, write = os.pipe()
    os.close(read)
    ignore = lambda: signal.signal(signal.SIGPIPE, signal.SIG_IGN)
    ended = subprocess.run([PROGRAM], input=data, stdout=write, stderr=subprocess.PIPE, preexec_fn=ignore, timeout=30)
    os.close(write)
    return 1, differs(f"unheard {shown(data)}", (b"", ended.stderr, ended.returncode), "", OUT + "Broken pipe\n")


def filling(data):
    """A disk that is full after so many bytes: what fits is the front of the listing."""
    whole, found = listing(data), []
    limits = [0, 1, 40, 512, 4096, 65536, len(whole) // 2, len(whole) - 1, len(whole), len(whole) + 1]
    for limit in limits:
        def full():
            signal.signal(signal.SIGXFSZ, signal.SIG_IGN)
            resource.setrlimit(resource.RLIMIT_FSIZE, (limit, limit))

        with tempfile.TemporaryFile() as file:
            ended = subprocess.run([PROGRAM], input=data, stdout=file, stderr=subprocess.PIPE, preexec_fn=full, timeout=30)
            file.seek(0)
            written = file.read()
        errors = OUT + "File too large\n" if limit < len(whole) else ""
        found += differs(f"room for {limit} of {len(whole)} bytes", (written, ended.stderr, ended.returncode), whole[:limit], errors)
    return len(limits), [difference[:500] for difference in found]


def with_arguments(words):
    """It says how it is called, and doesn't read."""
    with tempfile.TemporaryFile() as file:
        file.write(record(SAMPLE))
        file.seek(0)
        ended = subprocess.run([PROGRAM, *words], stdin=file, capture_output=True, timeout=30)
        read = os.lseek(file.fileno(), 0, os.SEEK_CUR)
    found = differs(f"arguments {words}", (ended.stdout, ended.stderr, ended.returncode), "", USAGE)
    return 1, found + ([f"arguments {words}: it read {read} bytes"] if read else [])


# All of it

def families():
    large, damaged = shapes.largest(), shapes.largest_damaged()
    rng, sample = Random("families"), record(SAMPLE)
    longest = record(shapes.shuffled(rng, shapes.sparse(rng, 4096, 16384)))
    # of every terminal the numbers are large in the listing of a tree
    tree = record(shapes.shuffled(rng, shapes.renamed(rng, shapes.binary_tree(4096))))
    return {
        "sample": (exact, [(record(SAMPLE), SAMPLE_LISTING)]),
        **{name: (compare, cases) for name, cases in shapes.all_accepted().items()},
        "largest damaged": (compare, damaged),
        **{name: (compare, cases) for name, cases in shapes.damaged().items()},
        "too long": (compare, too_long()),
        "in pieces": (in_pieces, pieces()),
        "byte by byte": (byte_by_byte, [b"", sample, sample[:-1], sample + b"\0", longest, longest[:-1], longest + bytes(100)]),
        "endless": (endless, [b"", sample, b"\xff" * 4, longest]),
        "redirected": (redirected, redirections()),
        "unready": (unready, [b"", sample[:3], sample, longest[:50000]]),
        "unheard": (unheard, [b"", sample, longest]),
        "a disk that fills": (filling, [tree]),
        "with arguments": (with_arguments, [["record"], [""], ["--help"], ["-"], ["1", "2", "3"]]),
        "from a file": (from_file, [data for _, data in large[20:24] + damaged] + [record(blocks) for blocks in shapes.FIXED.values()]),
    }


if __name__ == "__main__":
    sys.exit(tally(families(), "records") if PROGRAM.is_file() else fail(f"the program is missing: {PROGRAM}"))
