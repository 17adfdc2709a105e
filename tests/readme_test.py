"""Compiles and runs what README.md tells a reader to, as it stands there: every fenced block, every indented block, and
the commands of tables.

The commands run in order in a scratch copy of the tree, with a stand-in for `rt` that copies what the gate has built. A
block of an unknown kind, an unknown command, and a function that nothing here calls fail the test. Of all pages the
links and the names of files and crates are looked up.
"""
import os
import re
import shlex
import shutil
import subprocess
import sys
from itertools import product
from typing import NamedTuple

import hosts_test
from families import shown
from packing import SAMPLE, record
from plain import answer, blocks_of, built, check, head, listing, sizes
from programs import C, CPP, ROOT, archive, demand, field_archive, loomlist, run, stand_in, tally, tree
from shapes import FIXED, limits, listed, ring

README = ROOT / "README.md"
PAGES = [README, *(ROOT / name for name in ("CONTRIBUTING.md", "CHANGELOG.md")), *sorted((ROOT / "docs").glob("*.md"))]
FENCES = {"c", "rust", "toml", "sh", "text"}
# They are what runs this test, and are looked for
LOOKED_FOR = {"tests/run", ".ci/run"}
# What a line may call. These print nothing; what the others print is either computed here or not compared.
SILENT = {"rt", "cc", "c++", "cd", "cp", "mkdir", "export", "./build", "./install"}
COMMANDS = SILENT | {"./sections", "target/bin/loomlist", "bench/run", "cargo", "pkg-config", "printf", "cat"}
# What `rt` is called with, a crate behind it or not
RT = {"check", "ci", "fmt", "lib", "must-fail", "tidy", "try", "version"}


# The page

class Block(NamedTuple):
    kind: str
    text: str
    line: int


def blocks(page):
    """Its fenced blocks by their languages, its indented blocks as commands or output, and the commands in the first
    column of tables."""
    found, lines, i = [], page.splitlines(), 0
    while i < len(lines):
        start, line = i, lines[i]
        i += 1
        if line.startswith("```"):
            while i < len(lines) and lines[i] != "```":
                i += 1
            demand(i < len(lines), f"the block of line {start + 1} has no end")
            found.append(Block(line[3:], joined(lines[start + 1 : i]), start + 1))
            i += 1
        elif line.startswith("    "):
            while i < len(lines) and (lines[i].startswith("    ") or not lines[i].strip()):
                i += 1
            text = joined(line[4:] for line in lines[start:i]).rstrip("\n") + "\n"
            found.append(Block("sh" if calls(text.splitlines()[0]) else "text", text, start + 1))
        elif re.match(r"\| commands? \|", line):
            while i < len(lines) and lines[i].startswith("|"):
                cell = re.match(r"\| `([^`]+)` \|", lines[i])
                demand(cell or lines[i].startswith("|---"), f"line {i + 1} has no command")
                found += [Block("sh", cell[1] + "\n", i + 1)] if cell else []
                i += 1
        else:
            otherwise = "```" in line or "~~~" in line or line.startswith("\t")
            demand(not otherwise, f"line {i} begins a block in another way")
    return found


def joined(lines):
    return "".join(line + "\n" for line in lines)


def spans(page):
    """The pieces of code inside its sentences."""
    return re.findall(r"(?<!`)`([^`\n]+)`(?!`)", page)


# Commands

def commands(line):
    """The simple commands of a line: for each its words, redirections too, without variables that are set in front."""
    lexer = shlex.shlex(line, posix=True, punctuation_chars="();<>|&")
    lexer.whitespace_split = True
    found = [[]]
    for word in lexer:
        if word in ("&&", "|"):
            found.append([])
        elif found[-1] or not re.match(r"[A-Za-z_]\w*=", word):
            found[-1].append(word)
    return found


def calls(line):
    """Whether a line is commands that are known, and write nowhere but to the scratch folder."""
    try:
        parts = commands(line)
    except ValueError:
        return False
    known = all(words and words[0] in COMMANDS | LOOKED_FOR for words in parts)
    inner = "`" not in line and set(re.findall(r"\$\(\s*([^\s)]*)", line)) <= COMMANDS | {"pwd"}
    alone = len(parts) == 1 or not any(words[0] in LOOKED_FOR for words in parts)
    inside = not any(word.startswith("/") or ".." in word or word == "--open" for words in parts for word in words)
    return known and inner and alone and inside


def printed(words, folder):
    """What a command must print; nothing that is known for some."""
    if ">" in words or words[0] in SILENT | LOOKED_FOR:
        return ""
    if words[0] in ("./sections", "target/bin/loomlist") and words[1:2] == ["<"] and len(words) == 3:
        data = (folder / words[2]).read_bytes()
        return listing(data) if words[0] != "./sections" else hosts_test.listing(hosts_test.sections(blocks_of(data)))
    return None


class Reader:
    """Who does what the page says, in a folder of his own: the tree stands there as `celduga`, beside his package."""

    def __init__(self, room):
        self.folder = room / "reader"
        self.root, self.tools, self.outputs = tree(self.folder / "celduga"), stand_in(room / "tools"), []
        # a record of his
        shutil.copy(ROOT / "crates/loomlist/stdin", self.root / "record")
        home, changed = os.environ.get("HOME", "/"), re.compile("CELDUGA_|PKG_CONFIG_|DESTDIR$|CARGO_TARGET_DIR$")
        self.env = {
            "CARGO_HOME": f"{home}/.cargo",
            "RUSTUP_HOME": f"{home}/.rustup",
            **{name: value for name, value in os.environ.items() if not changed.match(name)},
            "CARGO_NET_OFFLINE": "true",
            "HOME": str(room / "home"),
            "PATH": f"{self.tools}{os.pathsep}{os.environ['PATH']}",
        }

    def runs(self, block):
        """The lines of a block, in one shell: all end with status 0, and print what they must."""
        archive(), field_archive(), loomlist()
        whole = block.text.replace("\\\n", " ").splitlines()
        lines = [line for line in whole if line.strip() and not line.startswith("#")]
        unknown = [line for line in lines if not calls(line)]
        demand(not unknown, f"it is not known how to run {unknown}")
        if "pkg-config" in block.text and not shutil.which("pkg-config"):
            return
        steps = [f"test -x {line.split()[0]}" if line.split()[0] in LOOKED_FOR else line for line in lines]
        # each line must end well, and a sign follows what it prints
        script = joined(f"{{ {step}\n}} || exit $?\nprintf '\\036'" for step in steps)
        done = subprocess.run(["sh", "-eu", "-c", script], cwd=self.root, env=self.env, capture_output=True, text=True)
        outputs = done.stdout.split("\036")
        last = (lines + ["nothing"])[len(outputs) - 1]
        demand(done.returncode == 0, f"{last!r} ends with status {done.returncode}: {done.stdout[-2000:]}{done.stderr}")
        for line, output in zip(lines, outputs):
            expected = [printed(words, self.root) for words in commands(line)]
            if None not in expected:
                demand(output == "".join(expected), f"{line!r} prints {output!r}, and must print {''.join(expected)!r}")
        self.outputs += outputs

    def shown(self, block):
        """The block is what one of the commands printed."""
        demand(block.text in self.outputs, "it is no known command, and no command of the page prints it")


def whole_listing(found):
    """The page shows the listing of the sample, as the program prints it."""
    with open(ROOT / "crates/loomlist/stdin") as sample:
        text = run([loomlist()], stdin=sample)
    demand(text == listing(record(SAMPLE)), f"the program prints {text!r}")
    outputs = [block.text for block in found if block.kind == "text"]
    demand(text in outputs, "the page does not show the listing of the sample")


# Snippets. Each function has a program that calls it: a line of its input is a record, as x and its bytes in
# hexadecimal, and two numbers; a line of its output is 1 for yes, 0 for no and -1 for a refusal.

C_CALLS = {
    "doubly_joined": """
#define _DEFAULT_SOURCE
#include <stdint.h>
#include <stdio.h>
#include <string.h>
#include <sys/mman.h>
#include <unistd.h>

int doubly_joined(const uint8_t *record, size_t len, size_t u, size_t v);

static char hex[200000];

/* The record ends where a page begins that can't be touched. */
int main(void)
{
    size_t page = (size_t)sysconf(_SC_PAGESIZE), room = 100 * page, u, v;
    uint8_t *start = (uint8_t *)mmap(NULL, room + page, PROT_READ | PROT_WRITE, MAP_PRIVATE | MAP_ANONYMOUS, -1, 0);
    if ((void *)start == MAP_FAILED || mprotect(start + room, page, PROT_NONE) != 0)
        return 2;
    while (scanf("%199999s %zu %zu", hex, &u, &v) == 3) {
        size_t len = (strlen(hex) - 1) / 2;
        uint8_t *record = start + room - len;
        for (size_t i = 0; i < len; i++) {
            unsigned byte;
            if (sscanf(hex + 1 + 2 * i, "%2x", &byte) != 1)
                return 2;
            record[i] = (uint8_t)byte;
        }
        printf("%d\\n", doubly_joined(record, len, u, v));
    }
    return 0;
}
""",
}

RUST_CALLS = {
    "doubly_joined": """
fn main() {
    for line in std::io::read_to_string(std::io::stdin()).unwrap().lines() {
        let words: Vec<&str> = line.split(' ').collect();
        let byte = |i: usize| u8::from_str_radix(&words[0][2 * i + 1..2 * i + 3], 16).unwrap();
        let record: Vec<u8> = (0..words[0].len() / 2).map(byte).collect();
        let [u, v] = [1, 2].map(|i| celduga::Vertex(words[i].parse().unwrap()));
        println!("{}", doubly_joined(&record, u, v).map_or(-1, i32::from));
    }
}
""",
}

LARGE = [65537, 2**32 + 1, 2**64 - 1]


def asked():
    """Records with two terminals, and whether these stay joined whichever one wire is taken out."""
    found, sample = [], record(SAMPLE)
    records = [record(blocks) for blocks in FIXED.values()] + [data for _, data in limits()]
    for data in [*records, sample + b"\0", sample[:-1]]:
        refused, n = answer(check, data)[0], min(sizes(data)[0], 4096)
        numbers = [*range(n + 2), *LARGE] if n < 20 and not refused else [1, n, n + 1]
        for u, v in product(numbers, repeat=2):
            heads = [(1, None)] if refused else [answer(head, data, built(data), x) for x in (u, v)]
            found.append((data, u, v, -1 if any(refusal for refusal, _ in heads) else int(heads[0] == heads[1])))
    large = record(listed(ring(4096)))
    return found + [(large, 1, 4096, 1), (large, 4096, 2000, 1), (large, 4096, 4097, -1), (large, 0, 1, -1)]


def answers(command, **given):
    """Compares what a program answers to all that is asked."""
    cases = asked()
    questions = joined(f"x{data.hex()} {u} {v}" for data, u, v, _ in cases)
    done = subprocess.run(command, input=questions, capture_output=True, text=True, **given)
    demand(done.returncode == 0, f"it ends with status {done.returncode}: {done.stderr}")
    found = done.stdout.splitlines()
    demand(len(found) == len(cases), f"it gives {len(found)} answers to {len(cases)} questions")
    for output, (data, u, v, expected) in zip(found, cases):
        demand(output == str(expected), f"for {u} and {v} it gives {output}, and not {expected}; record {shown(data)}")


def callers(functions, known):
    """The programs that call the functions of a snippet."""
    demand(functions and set(functions) <= set(known), f"nothing here calls all of {functions}")
    return [known[name] for name in functions]


def c_snippet(block, compiler, room):
    functions = re.findall(r"^\w[\w *]*?(\w+)\([^;{}]*\)\s*\{", block.text, re.MULTILINE)
    for i, caller in enumerate(callers(functions, C_CALLS)):
        snippet, main, program = (room / f"{name}-{block.line}-{i}" for name in ("snippet", "main", "program"))
        snippet.write_text(block.text)
        main.write_text(caller)
        run([*compiler, "-O2", "-c", snippet, "-o", f"{snippet}.o"])
        run([*compiler, main, "-x", "none", f"{snippet}.o", archive(), "-o", program])
        answers([program])


def rust_snippet(block, dependencies, reader):
    """As a package beside the tree, with the dependency that the page gives."""
    demand(len(dependencies) == 1, f"the page gives the package in other than one way: {dependencies}")
    functions = re.findall(r"^(?:pub )?fn (\w+)", block.text, re.MULTILINE)
    for caller in callers(functions, RUST_CALLS):
        (reader.folder / "src").mkdir(exist_ok=True)
        (reader.folder / "src/main.rs").write_text(f"#![deny(warnings)]\n{block.text}{caller}")
        package = '[package]\nname = "reader"\nversion = "0.0.0"\nedition = "2021"\n\n[dependencies]\n'
        (reader.folder / "Cargo.toml").write_text(package + joined(dependencies))
        run(["cargo", "build", "--offline", "--quiet"], cwd=reader.folder, env=reader.env)
        answers(["cargo", "run", "--offline", "--quiet"], cwd=reader.folder, env=reader.env)


# Names

def slug(heading):
    """A heading's name in a link."""
    return re.sub(r"[^\w\- ]", "", heading.lower()).replace(" ", "-")


def links(file):
    """Every link leads to a file that is there, and to a heading that it has."""
    for link in re.findall(r"\]\(([^)\s]+)\)", file.read_text()):
        name, _, place = link.partition("#")
        if not re.match(r"\w+:", link):
            there = file.parent / name if name else file
            demand(there.exists(), f"there is no {name}")
            headings = re.findall(r"^#+ (.*)$", there.read_text(), re.MULTILINE) if place else []
            demand(not place or place in map(slug, headings), f"{there.name} has no heading {place}")


def names(file):
    """Every file or folder of the tree that a sentence names is there, but for what is built; `rt` is called in a known
    way, for a crate that is there. NAME stands for any."""
    tops = {entry.name for entry in ROOT.iterdir()} - {"target"}
    crates = {line.split(":")[0].split()[0] for line in (ROOT / "crates.txt").read_text().splitlines()} | {"NAME"}
    for span in spans(file.read_text()):
        if re.fullmatch(r"[\w./-]+", span) and "/" in span and span.split("/")[0] in tops:
            demand(any(ROOT.glob(span.replace("NAME", "*").rstrip("/"))), f"there is no {span}")
        if span.split()[0] == "rt" and len(span.split()) > 1:
            word, *given = span.split("&&")[0].split()[1:]
            # what was once called, on the pages that tell of it
            former = {"staticlib"} if file.name in ("CHANGELOG.md", "PORT.md") else set()
            demand(word in RT | former and set(given) <= crates | {"--allow-holes"}, f"`{span}` is no known call")
    if file == README:
        closed = [name for name in LOOKED_FOR if not os.access(ROOT / name, os.X_OK)]
        demand(not closed, f"{closed} cannot be run")


# All of it

def all_known(found):
    unknown = [(block.line, block.kind) for block in found if block.kind not in FENCES]
    demand(not unknown, f"blocks of an unknown kind, by line: {unknown}")
    missing = {"c", "rust", "sh", "text"} - {block.kind for block in found}
    demand(not missing, f"the page has no block of the kinds {missing}")


def told(page, found):
    """A command inside a sentence is one of the lines that are run; a word in capitals stands for any."""
    lines = [line for block in found if block.kind == "sh" for line in block.text.splitlines()]
    for span in spans(page):
        words = span.split()
        if len(words) > 1 and words[0] in COMMANDS:
            pattern = " ".join(".+" if word.isupper() else re.escape(word) for word in words)
            demand(any(re.fullmatch(pattern, line) for line in lines), f"`{span}` is run nowhere")


def tests(room):
    page = README.read_text()
    found, reader = blocks(page), Reader(room)
    packages = "\n".join(spans(page) + [block.text for block in found if block.kind == "toml"])
    dependencies = re.findall(r"^celduga = .*$", packages, re.MULTILINE)
    yield "the kinds of blocks", all_known, found
    yield "the commands inside sentences", told, page, found
    for block in found:
        if block.kind == "sh":
            yield f"the commands of line {block.line}", reader.runs, block
    for block in found:
        name = f"line {block.line}"
        if block.kind == "text":
            yield f"the output of {name}", reader.shown, block
        elif block.kind == "c":
            yield f"{name} as C99", c_snippet, block, C, room
            yield f"{name} as C++11", c_snippet, block, CPP, room
        elif block.kind == "rust":
            yield f"{name} as Rust", rust_snippet, block, dependencies, reader
        elif block.kind == "toml":
            yield f"{name} as a dependency", demand, dependencies, "it names no package"
    yield "the listing", whole_listing, found
    for file in PAGES:
        yield f"the links of {file.name}", links, file
        yield f"the names of {file.name}", names, file


if __name__ == "__main__":
    sys.exit(tally(tests))
