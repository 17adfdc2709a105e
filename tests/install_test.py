"""Runs the script `install` in a scratch copy of the tree, whose folder has a space in its name, and builds the C
example from what it installs. A stand-in for `rt` copies the archive that the gate has built.
"""
import os
import shlex
import shutil
import subprocess
import sys

from header import header_version
from hosts_test import example_accepts, example_refuses
from programs import demand, run, stand_in, tally, tree

VERSION = ".".join(map(str, header_version()))
ARCHIVE = "target/staticlib/libcelduga.a"
PC = "lib/pkgconfig/celduga.pc"
# What is installed, and the file of the tree that it is
FILES = {
    "include/celduga.h": "include/celduga.h",
    "lib/libcelduga.a": ARCHIVE,
    "share/celduga/examples/sections.c": "examples/sections.c",
    "share/doc/celduga/README.md": "README.md",
    "share/doc/celduga/FORMAT.md": "docs/FORMAT.md",
    "share/doc/celduga/LICENSE": "LICENSE",
}


class Site:
    """A tree to install from, and the stand-in."""

    def __init__(self, room):
        self.root, self.tools = tree(room / "a tree"), stand_in(room / "tools")

    def install(self, *words, cwd=None, tools=None, **env):
        """The status, standard output and standard error of the script."""
        path = f"{tools or self.tools}{os.pathsep}{os.environ['PATH']}"
        given = {name: value for name, value in os.environ.items() if name != "DESTDIR"} | {"PATH": path} | env
        done = subprocess.run([self.root / "install", *words], cwd=cwd, env=given, capture_output=True, text=True)
        return done.returncode, done.stdout, done.stderr

    def installs(self, *words, **given):
        ended = self.install(*words, **given)
        demand(ended == (0, "", ""), f"install {words} ends with {ended}")

    def calls(self):
        """How often `rt` was called since the last time, always for the archive."""
        log = self.tools / "calls"
        lines = log.read_text().splitlines() if log.exists() else []
        log.unlink(missing_ok=True)
        demand(set(lines) <= {"celduga lib"}, f"rt is called otherwise: {lines}")
        return len(lines)

    def same_files(self, below, prefix):
        """Just these files are there, with the tree's bytes, open to all readers; the one for pkg-config names the
        prefix and the version."""
        found = {str(file.relative_to(below)) for file in below.rglob("*") if not file.is_dir()}
        demand(found == {*FILES, PC}, f"installed: {sorted(found)}")
        for name, source in FILES.items():
            demand((below / name).read_bytes() == (self.root / source).read_bytes(), f"{name} is not {source}")
        for name in found:
            mode = (below / name).stat().st_mode & 0o777
            demand(mode == 0o644, f"{name} has the mode {mode:o}")
        lines = (below / PC).read_text().splitlines()
        demand(f"prefix={prefix}" in lines and f"Version: {VERSION}" in lines, f"{PC} has {lines}")


# What is installed

def into_a_folder(site, prefix):
    """The archive is made where it is missing or old, and only then."""
    shutil.rmtree(site.root / "target", ignore_errors=True)
    site.installs(prefix)
    demand(site.calls() == 1, "the archive was missing, and was not made just once")
    site.same_files(prefix, prefix)
    (prefix / "include/celduga.h").write_text("old\n")
    (prefix / PC).write_text("old\n")
    site.installs(prefix)
    demand(site.calls() == 0, "the archive was made again with nothing changed")
    site.same_files(prefix, prefix)
    later = (site.root / ARCHIVE).stat().st_mtime + 1
    for name in "crates.txt", "crates/bits/specs/Bits.antt":
        before = (site.root / name).stat()
        os.utime(site.root / name, (later, later))
        site.installs(prefix)
        demand(site.calls() == 1, f"{name} was newer than the archive, and it was not made just once")
        os.utime(site.root / name, (before.st_atime, before.st_mtime))


def with_spaces(site, room):
    """A prefix that counts from the folder of the caller."""
    (room / "some where").mkdir()
    site.installs("pre fix", cwd=room / "some where")
    site.same_files(room / "some where/pre fix", room / "some where/pre fix")


def with_destdir(site, room):
    """The files stand below it, and the prefix is as if it were not there."""
    prefix = room / "later"
    for name, given in ("dest 1", str(room / "dest 1")), ("dest 2", "dest 2"):
        site.installs(prefix, cwd=room, DESTDIR=given)
        demand(not prefix.exists(), "something was put to the prefix itself")
        site.same_files(room / name / prefix.relative_to("/"), prefix)


# What it is good for

def example_by_folders(prefix, room):
    flags = [f"-I{prefix / 'include'}", f"-L{prefix / 'lib'}", "-lcelduga"]
    example_runs(prefix, room / "by folders", flags)


def example_by_pkg_config(prefix, room):
    """Where there is a pkg-config, as a caller writes it."""
    env = dict(os.environ, PKG_CONFIG_PATH=str(prefix / "lib/pkgconfig"))
    asked = lambda *words: run(["pkg-config", *words, "celduga"], env=env).strip()
    if shutil.which("pkg-config"):
        demand(asked("--modversion") == VERSION, f"pkg-config has the version {asked('--modversion')}")
        demand(asked("--variable=prefix") == str(prefix), f"pkg-config has the prefix {asked('--variable=prefix')}")
        example_runs(prefix, room / "by pkg-config", shlex.split(asked("--cflags", "--libs")))


def example_runs(prefix, program, flags):
    source = prefix / "share/celduga/examples/sections.c"
    run([os.environ.get("CC", "cc"), "-std=c99", "-O2", source, *flags, "-o", program])
    example_accepts(program)
    example_refuses(program)


# Wrong calls and errors

def wrong_calls(site, room):
    for words in [], [""], ["--help"], ["-x"], [room / "not", room / "there"], [room / "not"] * 12:
        status, output, errors = site.install(*words)
        demand((status, output) == (2, ""), f"{words} ends with {status}, and prints {output!r}")
        demand(errors.startswith("usage: ") and errors.count("\n") == 1, f"{words} says {errors!r}")
    demand(not (room / "not").exists(), "a wrong call has put something there")


def fails(site, prefix, **given):
    """It ends with another status than 0 and says something."""
    status, _, errors = site.install(prefix, **given)
    demand(status != 0 and errors, f"it ends with status {status} and says {errors!r}")


def fails_untouched(site, prefix, **given):
    fails(site, prefix, **given)
    demand(not prefix.exists(), "something was put to the prefix")


def without_archive(site, room):
    """Where `rt` fails or makes nothing, and where it fails and there is an archive that is older than the crates."""
    for status, old in (1, False), (0, False), (1, True):
        tools = room / f"tools {status} {old}"
        tools.mkdir()
        (tools / "rt").write_text(f"#!/bin/sh\nexit {status}\n")
        (tools / "rt").chmod(0o755)
        shutil.rmtree(site.root / "target", ignore_errors=True)
        if old:
            site.installs(room / "before")
            os.utime(site.root / ARCHIVE, (0, 0))
        fails_untouched(site, room / "without", tools=tools)


def without_a_file(site, room):
    site.installs(room / "whole")
    for name in sorted(set(FILES.values()) - {ARCHIVE}) + ["crates.txt"]:
        os.rename(site.root / name, room / "away")
        fails_untouched(site, room / "without")
        os.rename(room / "away", site.root / name)
    header = site.root / "include/celduga.h"
    text = header.read_text()
    for macro in "MAJOR", "MINOR", "PATCH":
        header.write_text(text.replace(f"#define CELDUGA_VERSION_{macro} ", f"#define CELDUGA_{macro} "))
        fails_untouched(site, room / "without")
    header.write_text(text)


def where_it_cannot(site, room):
    """Below a file, over a folder, and where the file for pkg-config can't name the prefix."""
    (room / "file").write_text("")
    fails(site, room / "file" / "prefix")
    for name in [*FILES, PC]:
        (room / "over" / name).mkdir(parents=True)
        fails(site, room / "over")
        shutil.rmtree(room / "over")
    for sign in '"#$\\\n':
        fails_untouched(site, room / f"a{sign}b")


def tests(room):
    site, prefix = Site(room), room / "installed"
    yield "into a folder", into_a_folder, site, prefix
    yield "the example by folders", example_by_folders, prefix, room
    yield "the example by pkg-config", example_by_pkg_config, prefix, room
    yield "with spaces", with_spaces, site, room
    yield "with DESTDIR", with_destdir, site, room
    yield "wrong calls", wrong_calls, site, room
    yield "without an archive", without_archive, site, room
    yield "without a file", without_a_file, site, room
    yield "where it cannot", where_it_cannot, site, room


if __name__ == "__main__":
    sys.exit(tally(tests))
