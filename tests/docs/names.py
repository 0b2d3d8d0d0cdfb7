#!/usr/bin/env python3
"""Every file of a crate and every slip that the documents name is there. Run from the repository's root.

A path is in back quotes and begins with a crate: `ledger/specs/Checks`, `call_credentials/src/lib.rt`. Slips stand in back quotes
before their crate, or crates: `keeps_holds`, `one_serial` (call_book_steps), `tally_invented` (call_credentials, formula_tally).
Last line: 'N passed, M failed', of paths and slips.
"""
import glob
import os
import re
import sys
from collections import Counter

PATH = re.compile(r"`((?:crates/)?[a-z_]+/(?:specs|proofs|src|slips|must-fail)(?:/[A-Za-z0-9_+./]+)?)`")
SLIPS = re.compile(r"((?:`[a-z0-9_]+`(?:, | and )?)+) \(([a-z_]+(?:, [a-z_]+)*)\)")


def paths(text, crates):
    """What is wrong with each path that is named; '' where it is there."""
    for path in PATH.findall(text):
        path = path.removeprefix("crates/")
        if path.split("/")[0] in crates:
            there = any(os.path.exists(f"crates/{path}{end}") for end in ("", ".antt"))
            yield "" if there else f"no file {path}"
        else:
            yield "" if path.split("/")[0] in ("target", "tests") else f"no crate for {path}"


def slips(text, crates):
    """What is wrong with each slip that is named; '' where it is there."""
    for labels, named in SLIPS.findall(text):
        for crate in named.split(", ") if crates.issuperset(named.split(", ")) else []:
            for label in re.findall(r"`([a-z0-9_]+)`", labels):
                there = os.path.exists(f"crates/{crate}/slips/{label}.edit")
                yield "" if there else f"no slip {label} in {crate}"


def main():
    crates = set(os.listdir("crates"))
    seen, bad = Counter(), 0
    for name in sorted(glob.glob("docs/*.md")) + ["README.md"]:
        with open(name, encoding="utf-8") as document:
            text = document.read()
        for look in (paths, slips):
            for fault in look(text, crates):
                seen[look] += 1
                if fault:
                    print(f"{name}: {fault}")
                    bad += 1
    print(f"{seen[paths]} paths, {seen[slips]} slips")
    print(f"{seen.total() - bad} passed, {bad} failed")
    sys.exit(1 if bad or 0 in (seen[paths], seen[slips]) else 0)


main()
