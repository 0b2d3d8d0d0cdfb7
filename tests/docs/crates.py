#!/usr/bin/env python3
"""The crates: what each names, and what is made of that: crates/README.md, the map docs/crates.svg, its words in
docs/READING.md.

    tests/docs/crates.py           writes them
    tests/docs/crates.py --check   says where crates.txt or one of these is not what the crates give, and where what is
                                   to stay shut is open
    tests/docs/crates.py --list    prints the lines of crates.txt as they should be

A crate is listed in crates.txt with those that it uses: the ones that its files name, and the ones that declare a type
which a function that it calls takes or returns. The README's sentences are the first ones of each src/lib.rt (or
main.rt). The map has a line from a crate to each that it uses and does not reach through another, and the way of a
sheet's bytes: from crate to crate, the calls that hand bytes on.
"""
import glob
import os
import re
import sys

sys.dont_write_bytecode = True
ROOT = os.path.dirname(os.path.dirname(os.path.dirname(os.path.abspath(__file__))))
sys.path.insert(0, f"{ROOT}/tests/edits")
from slips import Crate, brought, read

KIT = {"io", "libc", "os", "bytes", "check"}
# where a booking's bytes come in, and the calls that are no booking
ENTRY = ("entry_c", "till_call")
OTHER_REQUESTS = {"word", "issue", "withdraw", "tally"}
# a crate whose definitions one other alone may open: it passes their names on shut, and no law of them
SHUT = {"stream_passed": "stream_console"}
README = f"{ROOT}/crates/README.md"
MAP = f"{ROOT}/docs/crates.svg"
READING = f"{ROOT}/docs/READING.md"
WAY = re.compile(r"(<!-- made by tests/docs/crates.py -->\n).*?(<!-- end -->\n)", re.S)
# the map: width of a column and of a crate's box, height of a box, of the gap between floors and of the head, in pixels
COLUMN, BOX, HIGH, GAP, HEAD = 152, 126, 20, 34, 44
COLOURS = ["#eef3fb", "#eaf6ee", "#fdf3e3", "#f6ecf7", "#e8f6f6", "#fbeceb", "#f4f4e4", "#f0f0f0", "#efeafa"]


def listed():
    """From each crate of crates.txt to those that it is listed with, in the file's order."""
    found = {}
    for line in read(f"{ROOT}/crates.txt").splitlines():
        name, colon, uses = line.partition("#")[0].partition(":")
        if colon:
            found[name.split()[0]] = uses.split()
    return found


def kinds():
    """From each crate of crates.txt to what stands before the colon: its name, and `staticlib` after that of a static library."""
    lines = (line.partition("#")[0].partition(":") for line in read(f"{ROOT}/crates.txt").splitlines())
    return {before.split()[0]: " ".join(before.split()) for before, colon, _ in lines if colon}


def sources(name):
    """The texts of a crate's files: from the path inside the crate to the text."""
    found = {}
    for part in ("src", "specs", "proofs"):
        for folder, _, files in sorted(os.walk(f"{ROOT}/crates/{name}/{part}")):
            for file in sorted(files):
                path = f"{folder}/{file}"
                found[os.path.relpath(path, f"{ROOT}/crates/{name}")] = read(path)
    return found


def plain(text):
    """A source without its comments."""
    return re.sub(r"//.*", "", text)


class Types:
    """Which crates' types a type is made of, and which a function takes and returns."""

    def __init__(self, names):
        self.names, self.parts, self.signatures = names, {}, {}
        for name in names:
            for path, text in sources(name).items():
                if path.endswith(".rt"):
                    self.take(name, plain(text))

    def take(self, name, text):
        self.brought = {last: crate for crate, last in brought(text) if crate in self.names}
        for kind, own, body in re.findall(r"^(?:pub )?(struct|enum) (\w+)\s*\{(.*?)^\}", text, re.M | re.S):
            self.parts[name, own] = self.used(name, body)
        for own, body in re.findall(r"^(?:pub )?type (\w+) = (.*?);", text, re.M | re.S):
            self.parts[name, own] = self.used(name, body)
        for own, head in re.findall(r'^(?:pub )?(?:extern "C" )?fn (\w+)\((.*?)^(?=\{|    requires|    ensures)', text,
                                    re.M | re.S):
            self.signatures[name, own] = self.used(name, head)

    def used(self, name, text):
        """The types, each with its crate, that a text names."""
        found = set()
        for before, own in re.findall(r"(?:(\w+)::)?(?:\w+::)*\b([A-Z]\w*)\b", text):
            crate = before if before in self.names else self.brought.get(own, name)
            found.add((crate, own))
        return found

    def crates(self, start):
        """The crates of these types and of all that they are made of."""
        seen, todo = set(), list(start)
        while todo:
            at = todo.pop()
            if at not in seen:
                seen.add(at)
                todo += self.parts.get(at, ())
        return {crate for crate, own in seen if (crate, own) in self.parts}


def named(name, names):
    """The crates that a crate's files name, and the functions of others that it calls."""
    crates, calls = set(), set()
    for path, text in sources(name).items():
        crates.update(re.findall(r"Rattle\.([a-z0-9_]+)", text))
        if path.endswith(".rt"):
            text = plain(text)
            modules = {last: crate for crate, last in brought(text)}
            crates.update(word for word in re.findall(r"(?<![\w:])([a-z0-9_]+)::", text) if word not in modules)
            for before, middle, own in re.findall(r"(?<![\w:])(?:(\w+)::)?(?:(\w+)::)?(\w+)\(", text):
                crate = modules.get(before or own) or (before if before in names else None)
                if crate:
                    calls.add((crate, own))
    return (crates - {name}) & (set(names) | KIT), calls


def needed():
    """From each crate of crates.txt to those that it has to be listed with, in the file's order."""
    names = list(listed())
    types = Types(names)
    found = {}
    for name in names:
        crates, calls = named(name, names)
        for call in calls:
            crates |= types.crates(types.signatures.get(call, ()))
        crates.discard(name)
        found[name] = [other for other in [*names, *sorted(KIT)] if other in crates]
    return found


def groups():
    """The groups of crates.txt: a heading, `## NAME: what it is`, and the crates below it."""
    found = []
    for line in read(f"{ROOT}/crates.txt").splitlines():
        heading = re.match(r"## (.*)", line)
        if heading:
            found.append((heading[1], []))
        elif re.match(r"\w[^#]*:", line) and found:
            found[-1][1].append(re.match(r"\w+", line)[0])
    return found


def sentence(name):
    """The first sentence of the comment at the head of a crate's lib.rt or main.rt."""
    folder = f"{ROOT}/crates/{name}/src"
    path = f"{folder}/lib.rt" if os.path.isfile(f"{folder}/lib.rt") else f"{folder}/main.rt"
    lines = []
    for line in read(path).splitlines():
        if not line.startswith("//"):
            break
        lines.append(line[2:].strip())
    return re.match(r".*?\.(?= |$)", " ".join(lines) + " ")[0].strip()


def floors(uses):
    """How many crates stand below one another under each."""
    found = {}

    def floor(name):
        if name not in found:
            found[name] = max((floor(other) + 1 for other in uses[name] if other in uses), default=0)
        return found[name]

    for name in uses:
        floor(name)
    return found


def nearest(uses):
    """The crates that each uses, without those that it reaches through another."""
    reached = {}

    def reach(name):
        if name not in reached:
            reached[name] = set(uses.get(name, ())).union(*map(reach, uses.get(name, ())))
        return reached[name]

    return {name: [one for one in used if not any(one in reach(other) for other in used)] for name, used in uses.items()}


def drawing(uses):
    """A column for each group, a line for each floor, the lowest at the bottom."""
    at, columns = floors(uses), groups()
    heads = [head.partition(":")[0] for head, _ in columns]

    def short(head, name):
        return name[len(head) :] if head.endswith("_") and name.startswith(head) else name

    cells = [[[short(head, name) for name in names if at[name] == floor] for head, (_, names) in zip(heads, columns)]
             for floor in range(max(at.values()) + 1)]
    widths = [max([len(head), *(len(name) for row in cells for name in row[k])]) for k, head in enumerate(heads)]
    lines = ["    " + "  ".join(head.ljust(width) for head, width in zip(heads, widths)).rstrip()]
    for floor in reversed(range(len(cells))):
        for k in range(max(len(names) for names in cells[floor])):
            row = [names[k] if k < len(names) else "" for names in cells[floor]]
            number = str(floor) if k == 0 else ""
            lines.append(number.rjust(2) + "  " + "  ".join(map(str.ljust, row, widths)).rstrip())
    return lines


class Calls:
    """Who calls whom: functions as (crate, name), in the order of the caller's text."""

    def __init__(self, names):
        self.bodies, self.brought, self.crates, self.methods = {}, {}, set(names), {}
        for name in names:
            crate = Crate(name)
            for function in crate.functions.values():
                *outer, own = function.name.split("::")
                self.bodies[name, own] = function
                if outer and outer[-1][0].isupper():
                    self.methods[name, own] = outer[-1]
                uses = brought("\n".join(crate.lines(function.file)))
                self.brought[name, own] = {last: other for other, last in uses if other in self.crates}

    def of(self, at):
        found, text = [], self.bodies[at].text
        for call in re.finditer(r"(?<![\w:])(?:(\w+)::(?:\w+::)*)?(\w+)\(", text):
            before, own = call.groups()
            if text[call.start() - 1] == ".":
                # a method, of this crate or of a type that is brought in
                brought_in = (other for last, other in self.brought[at].items() if self.methods.get((other, own)) == last)
                crate = at[0] if (at[0], own) in self.methods else next(brought_in, None)
            else:
                crate = self.brought[at].get(before or own) or (before if before in self.crates else at[0])
            if (crate, own) in self.bodies and (crate, own) not in found:
                found.append((crate, own))
        return found


def way(names):
    """A booking's bytes on their way: functions below the one that calls them, each where it first stands."""
    calls, seen, lines = Calls(names), set(), []

    def walk(at, depth):
        new = [other for other in calls.of(at) if other not in seen and other[1] not in OTHER_REQUESTS]
        seen.update(new)
        row = None
        for crate, own in new:
            inner = [other for other in calls.of((crate, own)) if other not in seen]
            if row is None or inner or row[0] != crate:
                lines.append("  " * depth + f"{crate}::{own}")
            else:
                lines[-1] += f", {own}"
            row = None if inner else (crate,)
            walk((crate, own), depth + 1)

    lines.append("::".join(ENTRY))
    walk(ENTRY, 1)
    return lines


def handed(names):
    """The calls, from ENTRY on, that hand bytes on to another function that takes a `&[u8]` or a `Reader`: pairs of
    functions, each function reached once, in the order of the callers' texts."""
    calls, takes, seen, found = Calls(names), set(), set(), []
    for name in names:
        for path, text in sources(name).items():
            if path.endswith(".rt"):
                heads = re.findall(r'^(?:pub )?(?:extern "C" )?fn (\w+)\((.*?)\)(?= ->|\n| \{)', plain(text), re.M | re.S)
                takes.update((name, own) for own, head in heads if "&[u8]" in head or "Reader" in head)
    takes.update(at for at, owner in calls.methods.items() if owner == "Reader")

    def walk(at):
        for other in calls.of(at):
            if other in takes:
                found.append((at, other))
                if other not in seen:
                    seen.add(other)
                    walk(other)

    walk(ENTRY)
    return found


def hops(names):
    """The same from crate to crate, each pair once."""
    return list(dict.fromkeys((at[0], to[0]) for at, to in handed(names) if at[0] != to[0]))


def places(uses):
    """Where each crate stands on the map: x and y of its box; and the height of the map."""
    at, found, y = floors(uses), {}, HEAD
    for floor in reversed(range(max(at.values()) + 1)):
        rows = [[name for name in names if at[name] == floor] for _, names in groups()]
        for column, names in enumerate(rows):
            for k, name in enumerate(names):
                found[name] = (column * COLUMN + (COLUMN - BOX) // 2, y + k * (HIGH + 6))
        y += max(map(len, rows)) * (HIGH + 6) + GAP
    return found, y


def line(place, name, other, style):
    """A curve from below a box to above another; it bends aside where boxes of its own column lie between."""
    (x, y), (to_x, to_y) = place[name], place[other]
    between = any(x == to_x == at and y < down < to_y for at, down in place.values())
    x, y, to_x, aside = x + BOX // 2, y + HIGH, to_x + BOX // 2, (BOX // 2 + 14) * between
    bend = max(GAP // 2, (to_y - y) // 3)
    return f'<path d="M{x} {y} C{x + aside} {y + bend} {to_x + aside} {to_y - bend} {to_x} {to_y}" {style}/>'


def drawn():
    """The text of docs/crates.svg."""
    uses = listed()
    place, high = places(uses)
    own = {name: [other for other in used if other in uses] for name, used in uses.items()}
    wide = COLUMN * len(groups())
    out = [f'<svg xmlns="http://www.w3.org/2000/svg" viewBox="0 0 {wide} {high}" '
           'font-family="monospace" font-size="12">',
           "<!-- made by tests/docs/crates.py from crates.txt -->",
           '<defs><marker id="tip" markerWidth="8" markerHeight="8" refX="6" refY="3" orient="auto">'
           '<path d="M0 0 L7 3 L0 6 Z" fill="#b3261e"/></marker></defs>',
           f'<rect width="{wide}" height="{high}" fill="#ffffff"/>']
    for column, (heading, _) in enumerate(groups()):
        x, name = column * COLUMN, heading.partition(":")[0]
        out.append(f'<rect x="{x + 3}" width="{COLUMN - 6}" height="{high}" fill="{COLOURS[column % len(COLOURS)]}"/>')
        out.append(f'<text x="{x + COLUMN // 2}" y="24" text-anchor="middle" font-weight="bold">{name}</text>')
    for name, used in nearest(own).items():
        out += [line(place, name, other, 'fill="none" stroke="#8a8f98"') for other in used]
    way = hops(list(uses))
    for at, to in way:
        out.append(line(place, at, to, 'fill="none" stroke="#b3261e" stroke-width="2" marker-end="url(#tip)"'))
    reached = {name for pair in way for name in pair}
    for name, (x, y) in place.items():
        edge = 'stroke="#b3261e" stroke-width="2"' if name in reached else 'stroke="#4a4f57"'
        out.append(f'<rect x="{x}" y="{y}" width="{BOX}" height="{HIGH}" rx="3" fill="#ffffff" {edge}/>')
        out.append(f'<text x="{x + BOX // 2}" y="{y + 14}" text-anchor="middle">{name}</text>')
    return "\n".join(out + ["</svg>"]) + "\n"


def told():
    """The words beside the map: from crate to crate, with the functions that are handed bytes."""
    names = list(listed())
    rows = ["| from | to | functions that are handed bytes, in the order in which they are first called |", "|---|---|---|"]
    for at, to in hops(names):
        own = dict.fromkeys(f"`{other[1]}`" for caller, other in handed(names) if (caller[0], other[0]) == (at, to))
        rows.append(f"| `{at}` | `{to}` | {', '.join(own)} |")
    return "\n".join(rows) + "\n"


def made():
    """The files that are made of the crates: from the path to the text."""
    reading = WAY.sub(lambda found: found[1] + told() + found[2], read(READING))
    return {README: written(), MAP: drawn(), READING: reading}


def written():
    """The text of crates/README.md."""
    uses = listed()
    near = nearest({name: [other for other in used if other in uses] for name, used in uses.items()})
    out = ["# The crates", "", "Made by `tests/docs/crates.py` from crates.txt and the head of each crate's `src/lib.rt`; a test compares.",
           "Names group them; in a group the lower ones come first. \"Uses\" leaves out what is used through another. A",
           "slip is a wrong edit that the proofs must refuse; those that can be told apart share an edit (docs/CONTRIBUTING.md).", ""]
    for heading, names in groups():
        out += [f"## {heading}", "", "| crate | what it is | uses | slips | edits |", "|---|---|---|---|---|"]
        for name in names:
            slips, edits = (len(glob.glob(f"{ROOT}/crates/{name}/{part}/*.edit")) for part in ("slips", "must-fail"))
            used = ", ".join(f"`{other}`" for other in near[name])
            out.append(f"| `{name}` | {sentence(name)} | {used} | {slips} | {edits} |")
        out.append("")
    out += ["## Who stands on whom", "", "A column for each group; a crate uses crates of lower lines only.", "", "```text"]
    out += drawing(uses) + ["```", "", "## The way of a booking's bytes", "",
                            "From the call that C makes down to the cells: functions below the one that calls them, each where it first",
                            "stands, in the order of the caller's text; the other four requests are left out.", "", "```text"]
    return "\n".join(out + way(list(uses)) + ["```"]) + "\n"


def opened():
    """Where the definitions of a crate of SHUT are open to more than the one."""
    for name, alone in SHUT.items():
        for other, uses in listed().items():
            if name in uses and other != alone:
                yield f"crates.txt: {other} is listed with {name}, which {alone} alone may be"
        files = sources(alone)
        if "pub mod" in files.get("proofs/Lib.antt", ""):
            yield f"crates/{alone}/proofs/Lib.antt passes laws on, so that {name} is open above it"
        for path, text in files.items():
            if path.startswith("specs/") and "unfoldable pub use" in text:
                yield f"crates/{alone}/{path} passes {name} on open"


def looked_at():
    """What is wrong with each line of crates.txt, its groups, each file that is made and the place in READING."""
    there, right = listed(), needed()
    for name in there:
        more, fewer = sorted(set(right[name]) - set(there[name])), sorted(set(there[name]) - set(right[name]))
        yield [f"crates.txt: {name} uses {other}" for other in more] + [
            f"crates.txt: {name} does not use {other}" for other in fewer]
    grouped = [name for _, names in groups() for name in names]
    yield [] if sorted(grouped) == sorted(there) else ["crates.txt: a crate stands in no group"]
    for path, text in made().items():
        same = os.path.isfile(path) and read(path) == text
        yield [] if same else [f"{os.path.relpath(path, ROOT)} is not what the crates give: run tests/docs/crates.py"]
    yield [] if WAY.search(read(READING)) else ["docs/READING.md has no place for the way of a sheet's bytes"]
    yield list(opened())


def main(words):
    if words == ["--list"]:
        kind = kinds()
        print("\n".join(" ".join([f"{kind[name]}:", *uses]) for name, uses in needed().items()))
    elif words == ["--check"]:
        looked = list(looked_at())
        for fault in (fault for faults in looked for fault in faults):
            print(fault)
        failed = sum(map(bool, looked))
        print(f"{len(looked) - failed} passed, {failed} failed")
        return failed == 0 and bool(listed())
    elif not words:
        for path, text in made().items():
            if not os.path.isfile(path) or read(path) != text:
                with open(path, "w", encoding="utf-8") as file:
                    file.write(text)
    else:
        sys.exit(__doc__)
    return True


if __name__ == "__main__":
    sys.exit(0 if main(sys.argv[1:]) else 1)
