#!/usr/bin/env python3
"""Makes the edits of theorems.txt in the definitions, one by one: each must be refused where its `at` says.

    tests/slips/run --definitions [PATTERN ..]        the edits that stand for a slip whose name matches a pattern
    tests/slips/run --definitions --at [PATTERN ..]   writes the places at which each is refused into theorems.txt

theorems.txt names what refuses each slip of slips.txt that no proved session tells. An entry has lines

    slip NAME NAME ..      the slips; more lines may follow
    by STATEMENT, FUNCTION of CRATE: WHY
    edit CRATE             the slip made in the definitions of that crate, alike in all that repeat it:
    at PLACE PLACE ..      the places at which that is refused, of tests/edits/proofs.py
    in FILE                a file of the crate, `- ` its old text, which stands there just once, `+ ` the new one
    - OLD
    + NEW

or, in place of the edit, `held CRATE/LABEL`, a slip of the crate that is the same and that the gate tries; or, in place
of all that, `none REASON`, where the slip has no counterpart in the definitions.

The edit is put into a copy of the crate, which `rt check` then checks (tests/edits/copies.py); what it printed is in
target/slips/NAME.log.
"""
import concurrent.futures
import fnmatch
import os
import sys

sys.dont_write_bytecode = True
HERE = os.path.dirname(os.path.abspath(__file__))
sys.path.insert(0, f"{HERE}/../edits")
from copies import Copies
from log import Log
from slips import ROOT, Bad, Crate, crates, each_place, read

LIST = f"{HERE}/theorems.txt"


class Entry:
    def __init__(self):
        self.slips, self.by, self.none, self.held, self.crate, self.at, self.pairs = [], "", "", "", "", [], []

    def name(self):
        return self.slips[0]


def entries():
    """The entries of theorems.txt."""
    found, file, last = [], "", ""
    for number, line in enumerate(read(LIST).split("\n"), 1):
        key, _, rest = line.partition(" ")
        if key == "slip" and last != "slip":
            found.append(Entry())
        entry = found[-1] if found else None
        if key == "slip":
            entry.slips += rest.split()
        elif key in ("by", "none", "held"):
            setattr(entry, key, rest)
        elif key == "edit":
            entry.crate = rest
        elif key == "at":
            entry.at += [place for word in rest.split() for place in each_place(word)]
        elif key == "in":
            file = rest
        elif key == "-" and last == "-":
            entry.pairs[-1][1] += "\n" + line[2:]
        elif key == "-":
            entry.pairs.append([file, line[2:], None])
        elif key == "+":
            before = entry.pairs[-1][2]
            entry.pairs[-1][2] = line[2:] if before is None else f"{before}\n{line[2:]}"
        elif line and not line.startswith("#"):
            raise Bad(f"theorems.txt:{number}: not understood: {line}")
        last = key
    return found


def fault(entry):
    """What is wrong with an entry before it is tried; nothing where it may be."""
    if bool(entry.by) == bool(entry.none):
        return "`by` or `none`"
    if entry.held and not os.path.isfile(f"{ROOT}/crates/{entry.held.replace('/', '/slips/', 1)}.edit"):
        return f"no slip {entry.held}"
    if entry.by and bool(entry.held) == bool(entry.crate):
        return "NOT TRIED: neither `edit` nor `held`"
    if entry.crate and (entry.crate not in crates() or not entry.pairs):
        return f"no crate, or nothing to edit: {entry.crate}"
    return ""


def judged(entry, crate, said):
    """Whether the edit is refused where its `at` says, and a line on it."""
    with open(f"{ROOT}/target/slips/{entry.name().replace('/', '-')}.log", "w", encoding="utf-8") as out:
        out.write(said)
    log = Log(crate, said)
    if "logic=not-proved" not in said:
        return set(), "NOT REFUSED" if "logic=proved" in said else "DID NOT REACH THE PROVER"
    if not entry.at or not set(entry.at) <= log.refused:
        return log.refused, "refused elsewhere: " + " ".join(sorted(log.refused))
    return log.refused, "refused"


def try_all(copies, name, chosen):
    """Tries the edits of a crate: each with where it is refused and a line on it."""
    crate = Crate(name)
    if "logic=proved" not in copies.as_it_stands(name):
        sys.exit(f"{name} is not proved as it stands: rt check in crates/{name}")

    def attempt(entry):
        try:
            return judged(entry, crate, copies.edited(crate, entry.pairs))
        except Bad as bad:
            return set(), f"unfit: {bad}"

    with concurrent.futures.ThreadPoolExecutor(copies.number) as workers:
        yield from zip(chosen, workers.map(attempt, chosen))


def note(entry, places):
    """Writes the places of an entry into theorems.txt, after its line `edit`."""
    lines, held = read(LIST).split("\n"), []
    start = next(k for k, line in enumerate(lines) if line.startswith("slip ") and entry.name() in line.split()[1:])
    edit = next(k for k in range(start, len(lines)) if lines[k].startswith("edit "))
    end = next(k for k in range(edit + 1, len(lines)) if not lines[k].startswith("at "))
    for place in sorted(places):
        if not held or len(f"{held[-1]} {place}") > 120:
            held.append("at")
        held[-1] += f" {place}"
    lines[edit + 1:end] = held
    with open(LIST, "w", encoding="utf-8") as out:
        out.write("\n".join(lines))


def main(words):
    at = words[:1] == ["--at"]
    patterns = words[1:] if at else words
    chosen = [entry for entry in entries()
              if not patterns or any(fnmatch.fnmatch(slip, word) for slip in entry.slips for word in patterns)]
    os.makedirs(f"{ROOT}/target/slips", exist_ok=True)
    passed = failed = 0
    for entry in chosen:
        why = fault(entry)
        failed += bool(why)
        if why:
            print(f"{entry.name()}: {why}", flush=True)
    with Copies() as copies:
        for name in crates():
            mine = [entry for entry in chosen if entry.crate == name and not fault(entry)]
            for entry, (places, how) in try_all(copies, name, mine) if mine else ():
                if at and places:
                    note(entry, places)
                    how = "refused"
                print(f"{entry.name()}: {how}", flush=True)
                passed, failed = passed + (how == "refused"), failed + (how != "refused")
    others = [entry for entry in chosen if not entry.crate and not fault(entry)]
    print(f"{passed + failed} tried; {sum(bool(entry.held) for entry in others)} that the gate tries,"
          f" {sum(bool(entry.none) for entry in others)} without counterpart")
    print(f"{passed + len(others)} passed, {failed} failed")
    return failed or not passed + len(others)


try:
    sys.exit(1 if main(sys.argv[1:]) else 0)
except Bad as bad:
    sys.exit(str(bad))
