#!/usr/bin/env python3
"""Spells the repository's own definitions and lemmas as the Rattle of today does: words in snake case.

usage: tools/respell.py [--dry]    at the top of the repository, once, right after /opt/rattle/port/port.py

A name that the specs/ and proofs/ of the crates declare, with a hyphen or a capital inside, gets underscores in their
place (`lineOf` and `line-of` become `line_of`). Where a definition and a law would fall together so, the definition
(in camel case before, or already in snake case) has the name and the law gets `_holds` after it. A law that stands in
a file under the same spelling as one imported from a library keeps the library's name there. Functions of src/,
exported C names, strings, types and modules stay. The map is printed, one name a line.
"""

import collections
import os
import re
import sys

TOKEN = re.compile(r"[^\s(){}\[\],;.`\"«»‵⟦⟧<>&|!?#$*/+]+")
WORD = re.compile(r"^[a-z_][\w'₀-₉]*(?:-[\w'₀-₉]+)*$")
DECLARED = re.compile(r"^\s*(?:pub |abbrev |unfoldable |[|] )*((?:[^\s(){}:;=]+\s+)+):\s")
ALIAS = re.compile(r"(?<=\bas )[a-z][A-Za-z0-9]*[A-Z-][A-Za-z0-9-]*")
FIELD = re.compile(r"[({;]\s*((?:[^\s(){}:;=,]+\s+)+):\s")
USE = re.compile(r"use\s+([^\s{}]+)\.\{([^}]*)\}")
GENERATED = re.compile(r"^(?:returns|entry|exit)$|-(?:init|preserved|requires|ensures|result|measure)$|^(?:loop|invariant|measure|overflow|expect)[-_]")
# Words of the language that look like names, and members that Rattle makes.
KEPT = {"also-owns"}


def snake(name):
    name = name.replace("-", "_")
    return re.sub(r"(?<=[a-z0-9₀-₉'])([A-Z])", lambda m: "_" + m.group(1).lower(), name)


def old_spelling(name):
    return bool(WORD.match(name)) and ("-" in name or bool(re.search(r"[a-z0-9₀-₉'][A-Z]", name)))


def sources(kinds):
    for folder, dirs, files in os.walk("crates"):
        dirs[:] = sorted(d for d in dirs if d != "out")
        for f in sorted(files):
            if f.endswith(kinds):
                yield os.path.join(folder, f)


def without_comments(text):
    return re.sub(r"--(?=\s).*", "", text)


def own_crates():
    return {d for d in os.listdir("crates") if os.path.isdir(os.path.join("crates", d, "src"))}


def imports(text, own):
    """The names that a file brings from libraries."""
    found = set()
    for m in USE.finditer(without_comments(text)):
        path = m.group(1).split(".")
        if not (path[0] == "Rattle" and len(path) > 1 and path[1] in own):
            found |= {w.strip().split(" as ")[0].strip() for w in m.group(2).split(",")}
    return found


def declared(text):
    for line in without_comments(text).split("\n"):
        if line.lstrip().startswith(("use ", "pub use ", "open ")):
            continue
        m = DECLARED.match(line)
        for part in ([m.group(1)] if m else []) + [g.group(1) for g in FIELD.finditer(line)]:
            yield from part.split()


def plan():
    """Each name with an old spelling, with its new one."""
    where = collections.defaultdict(set)
    for path in sources(".antt"):
        parts = path.split(os.sep)
        own_file = parts[2] == "specs" or len(parts) == 4
        with open(path, encoding="utf-8") as f:
            for name in declared(f.read()):
                where[name].add(parts[2] if own_file else "function")
    groups = collections.defaultdict(set)
    for name in where:
        groups[snake(name)].add(name)
    turned = {}
    for new, names in groups.items():
        olds = {n for n in names if old_spelling(n) and n not in KEPT}
        if len(names) == 1:
            turned |= {n: new for n in olds}
            continue
        stated = {n for n in names if "specs" in where[n]}
        camel = {n for n in olds if "-" not in n}
        owner = sorted(stated & camel) or sorted(stated) or sorted(camel) or sorted(names - olds)
        for n in sorted(names):
            turned[n] = new if n == owner[0] else new + "_holds"
    return {a: b for a, b in turned.items() if a != b and not GENERATED.search(a)}


def respelled(text, turned, kept, code=False):
    """The text in new spelling. A name without an old spelling is a law's that makes way: it is no part of a path, and none
    of a source file."""
    def word(m):
        w = m.group(0)
        if w in kept or w not in turned:
            return w
        line = text[text.rfind("\n", 0, m.start()) + 1:m.start()]
        in_path = line.lstrip().startswith(("use ", "pub use ")) and text[m.end():m.end() + 1] == "." or text[m.start() - 1:m.start()] == "."
        return w if not old_spelling(w) and (code or in_path) else turned[w]
    return TOKEN.sub(word, text)


def main():
    dry = "--dry" in sys.argv[1:]
    own = own_crates()
    turned = plan()
    for a, b in sorted(turned.items()):
        print(a, b)
    for path in sources((".antt", ".rt")):
        with open(path, encoding="utf-8") as f:
            text = f.read()
        aliases = {a: snake(a) for a in ALIAS.findall(text)}
        new = respelled(text, turned | aliases, imports(text, own), path.endswith(".rt"))
        if new != text and not dry:
            with open(path, "w", encoding="utf-8") as f:
                f.write(new)


if __name__ == "__main__":
    main()
