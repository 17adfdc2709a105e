#!/usr/bin/env python3
"""Respells the names that the definitions and lemmas of this repository declare: words are joined by '_', in lower case.

usage: python3 tools/respell.py      at the top, once, after the toolchain's port.py

`recordOf` becomes record_of, `take-append` becomes take_append, `marksE` becomes marks_e. Types, modules and the names that Rattle makes keep their
spelling, and so do functions of src/, strings and exported names. A lemma that would get a definition's name gets `_lem` behind it, and an import
under a name that falls together with a declared one gets the_ before it. Where a definition
would get the name of a function or a variable of a source file, that file imports it as NAME_of, or as the_NAME where NAME ends in _of.
"""
import collections
import os
import re

LETTER = r"\w'\-"
DECLARED = re.compile(r"^(\s*)(?:abbrev |unfoldable )?(?:pub )?(?:abbrev |unfoldable )?([^\s:(){}=,;]+)((?: +[({][^:]*:.*)?) +:(?: |$)")
HEADED = re.compile(r"^(?:pub )?(?:record|data) ")
ALIAS = re.compile(r"\bas ([a-z][\w'\-]*)")
OWN = "Rattle."


def snake(name):
    parts = re.sub(r"([a-z0-9])([A-Z]+)", lambda m: m.group(1) + "_" + m.group(2), name)
    return parts.replace("-", "_").lower()


def files(*endings):
    for top in ("crates",):
        for folder, dirs, names in os.walk(top):
            dirs[:] = sorted(d for d in dirs if d != "out")
            for n in sorted(names):
                if n.endswith(endings):
                    yield os.path.join(folder, n)


def of_function(path):
    return re.search(r"/proofs/.+/(Proof|Answers|Invariants)\.antt$", path) is not None


def declared():
    """The names that are declared in specs/ and proofs/, but for what Rattle asks for, each with whether it is a definition."""
    found = collections.defaultdict(set)
    for path in files(".antt"):
        with open(path, encoding="utf-8") as f:
            for line in f:
                if of_function(path) and re.search(r"\b(tie|goal|in_room_lts)\.|statement M$|: Measures |: In |Claims$", line):
                    continue
                m = DECLARED.match(line)
                if m and not HEADED.match(line) and len(m.group(1)) <= 12 and m.group(2) not in ("let", "use", "where"):
                    found[m.group(2)].add(bool(re.match(r"\s*(abbrev|unfoldable)", line)))
    return found


def wanted(found):
    """Old name to new name."""
    taken = collections.defaultdict(list)
    for name in found:
        if name[0].isupper() and "-" not in name:
            continue
        taken[snake(name)].append(name)
    turned = {}
    for new, names in taken.items():
        definitions = [n for n in names if True in found[n]]
        rest = sorted(n for n in names if n not in definitions)
        if len(definitions) > 1 or (len(names) > 1 and not definitions):
            raise SystemExit(f"two definitions fall together: {names}")
        for n in definitions:
            turned[n] = new
        for n in rest:
            turned[n] = new + "_lem" if definitions else new
    return {old: new for old, new in turned.items() if old != new}


TOKEN = re.compile(r"[" + LETTER + r"]+")


class Names:
    """The tokens of a text that are respelled, as a pattern has them: sub calls back for these alone."""

    def __init__(self, names):
        self.names = names

    def sub(self, one, text):
        return TOKEN.sub(lambda m: one(m) if m.group(0) in self.names else m.group(0), text)


def turn(text, names, pattern, made):
    """The text with each name respelled. After a dot a name is respelled in a path, in a projection of a field, and not where Rattle made it."""

    def one(m):
        old = m.group(0)
        before = text[: m.start()]
        if before.endswith("."):
            owner = re.search(r"([\w'\-◌]+)\.$", before)
            if made and "-" in old and not (owner and owner.group(1)[0].isupper()):
                return old
        return names[old]

    return pattern.sub(one, text)


def rust_names(text):
    code = "\n".join(l.split("//")[0] for l in text.split("\n") if not l.lstrip().startswith("ghost use"))
    return set(re.findall(r"\bfn (\w+)", code)) | set(re.findall(r"\b([a-z]\w*)\s*: ", code)) | set(re.findall(r"\blet (?:mut )?\(?(\w+)", code))


def in_source(text, names, pattern):
    """A source file: ghost imports, clauses and comments; no string."""
    here = rust_names(text)
    clash = set()
    lines = []
    for line in text.split("\n"):
        if line.startswith("ghost use"):
            for m in TOKEN.finditer(line):
                old = m.group(0)
                if old in names and names[old] in here and not line[m.end() :].startswith(" as "):
                    clash.add(old)
    local = dict(names)
    for old in clash:
        local[old] = "the_" + names[old] if names[old].endswith("_of") else names[old] + "_of"
    for line in text.split("\n"):
        if line.startswith("ghost use"):
            line = pattern.sub(lambda m: names[m.group(0)] + (f" as {local[m.group(0)]}" if m.group(0) in clash else ""), line)
        else:
            pieces = re.split(r'("(?:[^"\\]|\\.)*")', line)
            line = "".join(p if k % 2 else pattern.sub(lambda m: local[m.group(0)], p) for k, p in enumerate(pieces))
        lines.append(line)
    return "\n".join(lines)


def in_page(word, names, known):
    """A word between backticks: a name of this repository, also one that port.py respelled."""
    if word in names:
        return names[word]
    return snake(word) if not word[0].isupper() and snake(word) in known else word


def main():
    found = declared()
    names = wanted(found)
    known = {names.get(n, n) for n in found}
    for path in files(".antt", ".rt"):
        with open(path, encoding="utf-8") as f:
            for alias in ALIAS.findall("\n".join(l for l in f if re.match(r"\s*(pub |unfoldable |ghost )*use ", l))):
                if snake(alias) != alias:
                    names.setdefault(alias, "the_" + snake(alias) if snake(alias) in known else snake(alias))
    pattern = Names(names)
    pages = [os.path.join(d, n) for d in ("docs", "docs/landings", ".") for n in sorted(os.listdir(d)) if n.endswith(".md")]
    for path in list(files(".antt", ".rt", ".edit")) + pages:
        with open(path, encoding="utf-8") as f:
            text = f.read()
        if path.endswith(".md"):
            new = re.sub(r"`[^`\n]+`", lambda m: TOKEN.sub(lambda n: in_page(n.group(0), names, known), m.group(0)), text)
        elif path.endswith((".rt", ".edit")):
            new = in_source(text, names, pattern)
        else:
            new = turn(text, names, pattern, of_function(path))
        if new != text:
            with open(path, "w", encoding="utf-8") as f:
                f.write(new)
    print(f"{len(names)} names respelled")


main()
