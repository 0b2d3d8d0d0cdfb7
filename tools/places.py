#!/usr/bin/env python3
"""Counts, in crates/*/src, the places that docs/DESIGN-PASS.md speaks of, point by point, and prints each.

    tools/places.py [TREE]        the counts; TREE is another checkout's top
    tools/places.py [TREE] N ..   each place of the points N too

1  enums of two cases, types of a number where an enum could stand (constants of bytes, numbers of refusals in answers),
   structs with a `bool` beside a value
2  functions of one shape: the same text once names, numbers and letters are taken out of it
3  loops by `while`
4  functions that compare, order, copy, convert or print by hand, by what their bodies are
5  facts that stand in the `requires` of three functions or more; pairs of parameters that travel through five or more
6  arrays of numbers with a width, and counts that are passed beside an array or a slice
7  matches that choose by a step's number, a letter's number or a request what to run
8  answers `search rules` in proof files, which a check finds alone
"""
import collections
import glob
import os
import re
import signal
import sys

KINDS = {
    "a compare by fields": r"^\s*\(*\(?[a-z]\.\w+ == [a-z]\.\w+\)",
    "an order by hand": r"^\s*if (\w+) < (\w+) \{ (?:\1|\2) \} else \{ (?:\1|\2) \}$",
    "a bool as a number": r"^\s*if \w+ \{ 1 \} else \{ 0 \}$",
    "a match of two enums": r"^\s*match \w \{\n(?:.*=> match \w \{\n)",
    "a digit by hand": r"48 \+ |- 48\)|b - HEX_SHIFT",
    "an interval cell by cell": r"from: \w+\[at|\[at[^\]]*\] = \w\.from",
}
CONVERTERS = {"kind_from", "kind_number", "edition_digit", "hypothesis", "sequent", "tell", "op_of", "bit_of"} | {
    "refusal"}


def functions(text):
    """Each function: name, parameters, clauses, body, line."""
    for m in re.finditer(r"^\s*(?:pub )?(?:const )?(?:extern \"C\" )?fn (\w+)(?:<[^>]*>)?\(", text, re.M):
        end, depth = m.end(), 1
        while depth:
            depth += {"(": 1, ")": -1}.get(text[end], 0)
            end += 1
        params = text[m.end():end - 1]
        indent = re.match(r" *", m.group(0).lstrip("\n")).group(0)
        # the body begins at a line that is '{' alone, or at a '{' that ends the head, and ends at a '}' as far in
        body = re.compile(rf"^{indent}\{{|(?<=[\w>)]) \{{$", re.M).search(text, end)
        close = re.compile(rf"^{indent}\}}|(?<=\{{)\}}$", re.M).search(text, body.end()) if body else None
        if not close:
            continue
        yield (m.group(1), params, text[end:body.start()], text[body.end():close.start()],
               text.count("\n", 0, m.start() + 1) + 1)


def shape(body):
    """The body with names, numbers and letters taken out."""
    tokens = re.findall(r"b?'[^']+'|[A-Za-z_]\w*(?:::\w+)*|\d[\d_]*|[^\s\w]", re.sub(r"//.*", "", body))
    return " ".join("_" if re.match(r"[\w']", t) else t for t in tokens)


def pairs(params):
    names = [p.split(":")[0].strip().removeprefix("mut ") for p in params.split(",") if ":" in p]
    return [(a, b) for i, a in enumerate(names) for b in names[i + 1:]]


def places(tree):
    found = collections.defaultdict(list)
    shapes, facts, travel = (collections.defaultdict(list) for _ in range(3))
    for path in sorted(glob.glob(os.path.join(tree, "crates/*/src/*.rt"))):
        text = open(path, encoding="utf-8").read()
        name = os.path.relpath(path, tree)

        def note(point, at, what):
            found[point].append(f"{name}:{text.count(chr(10), 0, at) + 1}: {what}")

        for m in re.finditer(r"^(?:pub )?enum (\w+)(?:<[^>]*>)? \{\n((?:    .*\n)+?)\}", text, re.M):
            cases = [c for c in m.group(2).split("\n") if c.strip() and not c.strip().startswith("//")]
            if len(cases) == 2:
                note(1, m.start(), f"enum {m.group(1)} of two cases")
        for m in re.finditer(r"^(?:pub )?const \w+: u32 = (?:b'.*;|\d+;)", text, re.M):
            if re.search(r"b'", m.group(0)) or name.endswith("ops.rt") or "LINEAR" in m.group(0) or "GAP" in m.group(0):
                note(1, m.start(), m.group(0))
        for m in re.finditer(r"(?:Answer::Refused|Outcome::Stopped|Checked::Stopped)\(\d+", text):
            note(1, m.start(), m.group(0) + "..)")
        for m in re.finditer(r"^(?:pub )?struct (\w+) \{\n((?:    .*\n)+?)\}", text, re.M):
            if ": bool" in m.group(2) and not re.fullmatch(r"(?:    (?:pub )?\w+: bool,\n)+", m.group(2)):
                note(1, m.start(), f"struct {m.group(1)}: a bool beside values")
        for m in re.finditer(r"^\s*while .*", text, re.M):
            note(3, m.start() + 1, m.group(0).strip())
        for m in re.finditer(r"\bmatch (?:x|op|letter|row\.letter|n|first|fresh|plan|\(a, b\)) \{", text):
            note(7, m.start(), m.group(0))
        for m in re.finditer(r"^(?:pub )?type \w+ = \[.*|^(?:pub )?const \w*WIDTH: .*", text, re.M):
            note(6, m.start(), m.group(0))
        for fn, params, clauses, body, line in functions(text):
            if len(shape(body).split()) >= 8:
                shapes[shape(body)].append(f"{name}:{line}: {fn}")
            for kind, pattern in KINDS.items():
                if re.search(pattern, body, re.M):
                    found[4].append(f"{name}:{line}: {fn}: {kind}")
            if fn in CONVERTERS:
                found[4].append(f"{name}:{line}: {fn}: a conversion")
            counted = re.search(r"\b(?:count|filled|at): (?:u32|usize)", params)
            if counted and re.search(r"\[u8\]|Serials|StepRows", params):
                found[6].append(f"{name}:{line}: {fn}: a count beside an array")
            for pair in pairs(params):
                travel[pair].append(f"{name}:{line}: {fn}")
            for req in re.findall(r"requires(?: \w+)? \{((?:[^{}]|\{[^}]*\})*)\}", clauses):
                for fact in re.split(r" × ", " ".join(req.split())):
                    facts[re.sub(r"\b(?:old|entry)\b", "now", fact.strip("() "))].append(f"{name}:{line}: {fn}")
    for group in shapes.values():
        if len(group) > 1:
            found[2] += [f"{g}  (of {len(group)})" for g in group]
    for fact, group in facts.items():
        if len(group) > 2:
            found[5].append(f"{len(group)} functions require {fact}")
    for pair, group in travel.items():
        if len(group) > 4:
            found[5].append(f"{len(group)} functions take {pair[0]}, {pair[1]}")
    for path in sorted(glob.glob(os.path.join(tree, "crates/*/proofs/*/*.antt"))):
        n = len(re.findall(r"λ c(?: κs)?\. search rules\)|= search rules$", open(path, encoding="utf-8").read(), re.M))
        if n:
            found[8] += [f"{os.path.relpath(path, tree)}: search rules"] * n
    return found


def main():
    args = sys.argv[1:]
    here = os.path.join(os.path.dirname(os.path.abspath(__file__)), "..")
    tree = args.pop(0) if args and not args[0].isdigit() else here
    found = places(tree)
    for point in range(1, 9):
        print(f"{point}: {len(found[point])}")
        if str(point) in args:
            for place in found[point]:
                print("    " + place)


signal.signal(signal.SIGPIPE, signal.SIG_DFL)
main()
