#!/usr/bin/env python3
"""Every statement in the table "What is proved" of docs/READING.md is ensured by a function. Run from the repository's root.

A row has four columns: what is proved; the file and the names of the statements; where the proofs are; the file and the
names of the functions. A name without a file stands in the file named last, in the row or above it. Every statement
stands in its file and in the `ensures` of a function of its row; every function there ensures one of them. A `?` is a
function that is still missing.
Last line: 'N passed, M failed', of rows.
"""
import os
import re
import sys

QUOTED = re.compile(r"`([^`]+)`")


def rows(text):
    """The rows of the table, as lists of columns, each with its line number."""
    lines = text.splitlines()
    at = lines.index("## What is proved")
    first = next(i for i in range(at, len(lines)) if lines[i].startswith("| statement |"))
    for i in range(first + 2, len(lines)):
        if not lines[i].startswith("|"):
            return
        yield i + 1, [column.strip() for column in lines[i].strip("|").split("|")]


def read(path):
    """The text of a file of a crate, its ending left out where it is .antt."""
    for end in ("", ".antt"):
        if os.path.isfile(f"crates/{path}{end}"):
            with open(f"crates/{path}{end}", encoding="utf-8") as file:
                return file.read()
    return ""


def named(column, path):
    """The names in a column, each with its file, which is `path` until another is named; and the last file."""
    found = []
    for word in QUOTED.findall(column):
        if "/" in word:
            path = word
        else:
            found.append((path, word))
    return found, path


def stated(path, name):
    return re.search(rf"^\s*(?:(?:abbrev|unfoldable) )?pub (?:record |data )?{re.escape(name)}(?=[ :])", read(path), re.M)


def ensures(path, name):
    """What a function or a method ensures, or None where it is not in the file."""
    head = re.search(rf"^( *)(?:pub )?(?:extern \"C\" )?fn {re.escape(name)}\((.*?)^\1\{{", read(path), re.M | re.S)
    return head and "".join(head[2].partition("ensures")[1:])


def says(text, name):
    return re.search(rf"(?<![\w·.]){re.escape(name)}(?![\w·])", text)


def faults(columns, path):
    if len(columns) != 4:
        yield f"{len(columns)} columns, not 4"
        return
    statements = named(columns[1], path)[0]
    functions = named(columns[3], "")[0]
    if not statements or not functions or "?" in columns[3]:
        yield "no statement or no function is named"
    said = {at: ensures(*at) for at in functions}
    for file, name in statements:
        if not stated(file, name):
            yield f"{name} is not stated in {file}"
        if not any(text and says(text, name) for text in said.values()):
            yield f"no function of the row ensures {name}"
    for (file, name), text in said.items():
        if text is None:
            yield f"no function {name} in {file}"
        elif not any(says(text, statement) for _, statement in statements):
            yield f"{name} ensures no statement of the row"


def main():
    with open("docs/READING.md", encoding="utf-8") as document:
        text = document.read()
    seen, bad, path = 0, 0, ""
    for number, columns in rows(text):
        seen += 1
        wrong = list(faults(columns, path))
        for fault in wrong:
            print(f"docs/READING.md:{number}: {fault}")
        bad += bool(wrong)
        path = named(columns[1], path)[1] if len(columns) > 1 else path
    print(f"{seen - bad} passed, {bad} failed")
    sys.exit(1 if bad or seen == 0 else 0)


main()
