"""What the tests that compile and run programs share: the compilers, what the gate has built, scratch copies of the
tree, and a tally.

The archive is target/staticlib/libcelduga.a, or the file that CELDUGA_ARCHIVE names; the one of the field reader, which
is not for users, is target/staticlib/libbits_export.a, or what CELDUGA_FIELD_ARCHIVE names; the listing program is
target/bin/loomlist, or the one that CELDUGA_LOOMLIST names.
"""
import os
import shlex
import shutil
import subprocess
import tempfile
from pathlib import Path

ROOT = Path(__file__).resolve().parent.parent
ARCHIVE = Path(os.environ.get("CELDUGA_ARCHIVE") or ROOT / "target/staticlib/libcelduga.a").resolve()
FIELD_ARCHIVE = Path(os.environ.get("CELDUGA_FIELD_ARCHIVE") or ROOT / "target/staticlib/libbits_export.a").resolve()
LOOMLIST = Path(os.environ.get("CELDUGA_LOOMLIST") or ROOT / "target/bin/loomlist").resolve()
HEADER = ROOT / "include/celduga.h"
STRICT = ["-Wall", "-Wextra", "-pedantic", "-Werror", "-O1", f"-I{ROOT / 'include'}"]
C = [os.environ.get("CC", "cc"), "-std=c99", "-x", "c", *STRICT]
CPP = [os.environ.get("CXX", "c++"), "-std=c++11", "-x", "c++", *STRICT]


# Tests

class Wrong(Exception):
    """What a test found."""


def demand(holds, words):
    if not holds:
        raise Wrong(words)


def tally(tests):
    """Runs the tests, each a name, a function and what it is given; they share a scratch folder. Prints the tally as
    the last line and gives the exit status."""
    passed = failed = 0
    with tempfile.TemporaryDirectory() as folder:
        try:
            planned = list(tests(Path(folder)))
        except (Wrong, OSError) as wrong:
            planned = [("the tests can't be made ready", demand, False, wrong)]
        for name, test, *given in planned:
            try:
                test(*given)
                passed += 1
            except (Wrong, OSError, subprocess.TimeoutExpired) as wrong:
                failed += 1
                print(f"FAILED: {name}: {wrong}", flush=True)
    print(f"{passed} passed, {failed} failed")
    return 1 if failed else 0


# Programs

def run(command, **given):
    """What the command prints; wrong where it fails."""
    done = subprocess.run(command, stdout=subprocess.PIPE, stderr=subprocess.STDOUT, text=True, **given)
    demand(done.returncode == 0, f"{' '.join(map(str, command))} ends with status {done.returncode}\n{done.stdout}")
    return done.stdout


def built(file, command, variable):
    demand(file.is_file(), f"there is no {file}: `{command}` makes it, or {variable} names another")
    return file


def archive():
    return built(ARCHIVE, "./build celduga", "CELDUGA_ARCHIVE")


def field_archive():
    return built(FIELD_ARCHIVE, "./build bits_export", "CELDUGA_FIELD_ARCHIVE")


def loomlist():
    return built(LOOMLIST, "./build loomlist", "CELDUGA_LOOMLIST")


def linked(compiler, source, program):
    run([*compiler, source, "-x", "none", archive(), "-o", program])
    return program


def cargo(room, folder, *words):
    """What cargo prints in this folder; it builds below the room."""
    given = {"CELDUGA_ARCHIVE": str(archive()), "CARGO_TARGET_DIR": str(room / "rust"), "CARGO_TERM_COLOR": "never"}
    return run(["cargo", *words, "--offline"], cwd=folder, env={**os.environ, **given})


def rust_program(room, name, source):
    """What a Rust program prints that depends on the package by its path."""
    folder = room / name
    (folder / "src").mkdir(parents=True)
    (folder / "src/main.rs").write_text(source)
    package = f'[package]\nname = "{name}"\nversion = "0.0.0"\nedition = "2021"\n'
    (folder / "Cargo.toml").write_text(f"{package}\n[dependencies]\ncelduga = {{ path = '{ROOT / 'rust'}' }}\n")
    return cargo(room, folder, "run", "--quiet")


# The tree

def tree(folder):
    """A copy of the tree in this folder, without what was built."""
    shutil.copytree(ROOT, folder, ignore=shutil.ignore_patterns("target", "out", ".git", "__pycache__"), symlinks=True)
    return folder


def stand_in(folder):
    """Puts an `rt` into this folder that stands in for the toolchain. Called in the folder of a crate, it copies what
    the gate has built into place and adds the crate and its words to the file `calls`; it fails for all other words."""
    folder.mkdir(parents=True)
    program = folder / "rt"
    files = ARCHIVE, FIELD_ARCHIVE, LOOMLIST, folder / "calls"
    archive, field_archive, loomlist, calls = (shlex.quote(str(file)) for file in files)
    program.write_text(f"""#!/bin/sh
set -eu
[ -f ../../crates.txt ]
called="${{PWD##*/}} $*"
echo "$called" >>{calls}
mkdir -p out
case "$called" in
    'celduga lib') cp {archive} out/libcelduga.a ;;
    'bits_export lib') cp {field_archive} out/libbits_export.a ;;
    'loomlist run') cp {loomlist} out/loomlist ;;
    *) echo "rt $called: it is not known here" >&2 && exit 2 ;;
esac
""")
    program.chmod(0o755)
    return folder
