"""Slips: small wrong edits of a crate, each of which its proofs must refuse. What make, refusals and run share.

A slip is a file crates/NAME/slips/LABEL.edit:

    # what is wrong
    # refused: FUNCTION FUNCTION ..
    # at: LAW LAW ..
    file: src/lib.rt
    old: text that stands in the file just once, in one line
    new: what takes its place

The functions are named as a check prints them, without the crate: `book_steps`, `formulas::interval`. A slip of a
definition that only laws for other crates rest on names such a law: `CellWrites.stays_credential`, of proofs/CellWrites.antt.

The line '# at:' names every place at which the slip is refused when it is tried by itself (proofs.py says what a place
is called); tests/edits/run NAME --at writes it. A line '# apart: LABEL LABEL ..' names slips that hide it if they are
tried with it: wrong together, they come out right. A line '# gives up: WHY' says of a slip in a function whose proof the
check finds by itself why the fact is false, where the check only gives up at it: that was read, and is not shown. So does a
line '# misfits: WHY' of a slip that takes away a name which Rattle makes of the code, and which the proof cites.
"""
import glob
import os
import re

from proofs import FILES, Proofs, declaration_of

ROOT = os.path.dirname(os.path.dirname(os.path.dirname(os.path.abspath(__file__))))
FUNCTION = re.compile(r'(?:pub )?(?:extern "C" )?fn (\w+)')
IMPL = re.compile(r"impl(?:<.*?>)? (?:\w+(?:<.*>)? for )?(\w+)")
CYCLE = re.compile(r"#\[cycle\((\w+)\)\]")
BODY = re.compile(r"[^\s/].*\{\}?$|\{\}?$")
CALL = re.compile(r"(?:(\w+)::)?(\w+)\(")


USE = re.compile(r"^(?:pub )?use (\w+(?:::\w+)*)::(\w+|\{[^}]*\})(?: as (\w+))?;", re.M)


class Bad(Exception):
    """A slip that cannot be used, and why."""


def read(path):
    with open(path, encoding="utf-8") as file:
        return file.read()


def crates():
    """The crates that crates.txt lists."""
    return re.findall(r"^(\w+)[^:#\n]*:", read(f"{ROOT}/crates.txt"), re.M)


def brought(text):
    """What a source brings in by `use`: pairs of a crate (or `crate`) and the last word of a path in it, by which it is called here."""
    found = []
    for path, last, renamed in USE.findall(text):
        for word in last.strip("{}").split(","):
            there, _, here = word.strip().partition(" as ")
            if there:
                found.append((path.split("::")[0], renamed or here or there.split("::")[-1]))
    return found


def each_place(word):
    """FILE.DECLARATION:A,B,.. is each of FILE.DECLARATION:A, FILE.DECLARATION:B, ..; any other word is itself."""
    declaration, _, names = word.partition(":")
    return [f"{declaration}:{name}" for name in names.split(",")] if "." in declaration and names else [word]


def write_at(path, places):
    """Writes the '# at:' lines of a slip, after its '# refused:' line, none wider than 120 columns."""
    words, wrapped = [], [["# at:"]]
    for place in sorted(places, key=lambda place: [int(n) if n.isdigit() else n for n in re.split(r"(\d+)", place)]):
        declaration, _, name = place.partition(":")
        if name and "." in declaration and words and words[-1].startswith(f"{declaration}:"):
            words[-1] += f",{name}"
        else:
            words.append(place)
    for word in words:
        if len(" ".join(wrapped[-1] + [word])) > 120:
            wrapped.append(["# at:"])
        wrapped[-1].append(word)
    lines = [line for line in read(path).splitlines() if not line.startswith("# at:")]
    after = next(k for k, line in enumerate(lines) if line.startswith("# refused:")) + 1
    lines[after:after] = [" ".join(words) for words in wrapped if len(words) > 1]
    with open(path, "w", encoding="utf-8") as file:
        file.write("\n".join(lines) + "\n")


class Function:
    """A function of a crate: its name, its file, the lines where its body begins and ends, the body's text, and the name
    of the cycle of functions that it is in, `#[cycle(NAME)]`; its own where it is in none."""

    def __init__(self, name, file, body, end, text, cycle):
        self.name, self.file, self.body, self.end, self.text, self.cycle = name, file, body, end, text, cycle


class Crate:
    def __init__(self, name):
        self.name, self.folder, self.files, self.functions = name, f"{ROOT}/crates/{name}", {}, {}
        for folder, _, names in sorted(os.walk(f"{self.folder}/src")):
            for file in sorted(names):
                self.take_functions(os.path.relpath(f"{folder}/{file}", self.folder))
        self.reached = self.reach()
        self.proofs = Proofs(self)

    def lines(self, file):
        if file not in self.files:
            path = f"{self.folder}/{file}"
            if not os.path.isfile(path):
                raise Bad(f"no file {file}")
            self.files[file] = read(path).split("\n")
        return self.files[file]

    def take_functions(self, file):
        module = file[len("src/") : -len(".rt")].replace("/", "::")
        module = "" if module in ("lib", "main") else module + "::"
        lines, i, cycle, owner, margin = self.lines(file), 0, "", "", ""
        while i < len(lines):
            impl = IMPL.match(lines[i])
            if impl or lines[i] == "}":
                # a method's margin is one step in, and its name is the type's with its own
                owner, margin = (f"{impl[1]}::", "    ") if impl else ("", "")
            line = lines[i].removeprefix(margin)
            found, attribute = FUNCTION.match(line), CYCLE.match(line)
            if attribute:
                cycle = attribute[1]
            if found:
                # the body opens in a line at the margin, alone or after the head, and closes in one
                body = next(k for k in range(i, len(lines)) if BODY.match(lines[k].removeprefix(margin)))
                end = body if lines[body].endswith("{}") else lines.index(margin + "}", body)
                text = re.sub(r"//.*", "", "\n".join(lines[body + 1 : end + 1]))
                name = module + owner + found[1]
                self.functions[name] = Function(name, file, body, end, text, cycle or found[1])
                i, cycle = end, ""
            i += 1

    def reach(self):
        """For each function those of the crate that it calls, itself or through others."""
        modules = {part for name in self.functions for part in name.split("::")[:-1]}
        others = set(crates()) - {self.name} - modules
        last = {}
        for name in self.functions:
            last.setdefault(name.split("::")[-1], set()).add(name)
        reached = {}
        for name, function in self.functions.items():
            called = (last.get(word, set()) for before, word in CALL.findall(function.text) if before not in others)
            reached[name] = set().union(*called)
        grown = True
        while grown:
            grown = False
            for name, called in reached.items():
                more = set().union(called, *(reached[other] for other in called))
                if more != called:
                    reached[name], grown = more, True
        return reached

    def has(self, name):
        """Whether it has this function, or this law, FILE.LAW of its proofs."""
        file, law = name.partition(".")[::2]
        path = f"{self.folder}/proofs/{file}.antt"
        if law and os.path.isfile(path):
            return re.search(rf"^ *(?:pub )?(?:abbrev )?{re.escape(law)} :", read(path), re.M) is not None
        return name in self.functions

    def using(self, file, k):
        """The functions that use what line k of a file brings in, `use crate::NAME;`; none if it is used elsewhere."""
        names = [name for crate, name in brought(self.lines(file)[k]) if crate == "crate"]
        if not names:
            return []
        word = re.compile(rf"\b(?:{'|'.join(names)})\b")
        uses = {n for n, line in enumerate(self.lines(file)) if n != k and word.search(line)}
        found = [f for f in self.functions.values() if f.file == file and uses & set(range(f.body, f.end + 1))]
        return found if uses == {n for n in uses for f in found if f.body <= n <= f.end} else []

    def proof(self, function):
        """The folder of the proof files of a function, its own or that of the cycle it is in; '' where it has none."""
        path, cycle = function.replace("::", "/"), self.functions[function].cycle
        module = path.rpartition("/")[0]
        for folder in (path, f"{module}/+{cycle}".lstrip("/")):
            if any(os.path.isfile(f"{self.folder}/proofs/{folder}/{file}.antt") for file in FILES):
                return folder
        return ""

    def slips(self):
        return [Slip(self, path) for path in sorted(glob.glob(f"{self.folder}/slips/*.edit"))]


def replaced(text, pairs):
    """The texts of files after the pairs, one after another, each old text standing just once; text(FILE): before."""
    after = {}
    for file, old, new in pairs:
        before = after[file] if file in after else text(file)
        if not old or before.count(old) != 1:
            raise Bad(f"the text stands {before.count(old) if old else 0} times in {file}: {old.strip()}")
        after[file] = before.replace(old, new)
    return after


class Slip:
    def __init__(self, crate, path):
        self.crate, self.label = crate, os.path.basename(path)[: -len(".edit")]
        self.says, self.refused, self.at, self.apart, self.gives_up, self.pairs, self.body = "", [], [], [], "", [], []
        self.misfits = ""
        file = old = ""
        for line in read(path).splitlines():
            if line.startswith("# refused:"):
                self.refused = line[len("# refused:") :].split()
            elif line.startswith("# at:"):
                self.at += [place for word in line[len("# at:") :].split() for place in each_place(word)]
            elif line.startswith("# misfits:"):
                self.misfits = line[len("# misfits:") :].strip()
            elif line.startswith("# gives up:"):
                self.gives_up = line[len("# gives up:") :].strip()
            elif line.startswith("# apart:"):
                self.apart += line[len("# apart:") :].split()
            elif line.startswith("#"):
                self.says = self.says or line[1:].strip()
            else:
                self.body.append(line)
            if line.startswith("file: "):
                file = line[len("file: ") :]
            elif line.startswith("old: "):
                old = line[len("old: ") :]
            elif line.startswith("new:"):
                self.pairs.append((file, old, line[len("new:") :].removeprefix(" ")))
                old = ""
        self.changes, self.touched, self.bodies = self.look()

    def fault(self, why):
        return Bad(f"crates/{self.crate.name}/slips/{self.label}.edit: {why}")

    def look(self):
        """The lines that it changes, the functions whose bodies they are in, whether all of them are in bodies."""
        if not self.says or not self.pairs:
            raise self.fault("its first line says what is wrong, and a pair 'old:' and 'new:' follows")
        if self.label.startswith("together_"):
            raise self.fault("the name is one of those that tests/edits/make gives")
        if any(not file.startswith(("src/", "specs/")) for file, _, _ in self.pairs):
            raise self.fault("it edits src/ or specs/, never a proof")
        try:
            after = replaced(lambda file: "\n".join(self.crate.lines(file)), self.pairs)
        except Bad as bad:
            raise self.fault(bad) from None
        changes, touched, bodies = {}, set(), True
        for file, text in after.items():
            for k, (before, now) in enumerate(zip(self.crate.lines(file), text.split("\n"))):
                if before != now:
                    changes[file, k] = now
                    found = [f for f in self.crate.functions.values() if f.file == file and f.body <= k <= f.end]
                    found = found or self.crate.using(file, k)
                    touched.update(f.name for f in found)
                    bodies = bodies and bool(found)
        return changes, touched, bodies

    def check_refused(self):
        """Its '# refused:' line names functions, or laws, of the crate; for a slip of bodies those that it changes."""
        unknown = [name for name in self.refused if not self.crate.has(name)]
        if unknown or not self.refused:
            raise self.fault("'# refused:' names no function of the crate: " + " ".join(unknown))
        if not self.at or not all(self.crate.proofs.has(place) for place in self.at):
            raise self.fault("'# at:' names the places at which it is refused: tests/edits/run NAME --at writes it")
        if self.bodies and set(self.refused) != self.touched:
            raise self.fault("'# refused:' must name the functions that it changes: " + " ".join(sorted(self.touched)))

    def own(self, group):
        """Its places at which no other slip of the group is refused, and which rest on none that another is refused at."""
        others = {place for other in group if other is not self for place in other.at}
        declared, under = {declaration_of(place) for place in others}, self.crate.proofs.under
        return {place for place in self.at if place not in others and not under(declaration_of(place)) & declared}

    def seen(self, places):
        """Whether it is known by these places to be refused: a slip of bodies by one of each function, else by any."""
        if not self.bodies:
            return bool(places)
        return all(any(self.crate.proofs.in_proof(place, function) for place in places) for function in self.refused)


def apart(group):
    """Whether each slip of the group is known to be refused by its own places, and none is to be kept from another."""
    labels = {slip.label for slip in group}
    return all(slip.seen(slip.own(group)) and not labels & set(slip.apart) for slip in group)


def fit(slips):
    """Whether the pairs of the slips, one slip after another, change the lines that each changes by itself."""
    crate = slips[0].crate
    wanted = {}
    for slip in slips:
        wanted.update(slip.changes)
    try:
        after = replaced(lambda file: "\n".join(crate.lines(file)), [pair for slip in slips for pair in slip.pairs])
    except Bad:
        return False
    for file, text in after.items():
        for k, (before, now) in enumerate(zip(crate.lines(file), text.split("\n"))):
            if now != wanted.get((file, k), before):
                return False
    return True


def together(slips):
    """The runs in which the slips of a crate are tried: lists of slips, those of a run apart from one another."""
    groups = []
    met = {slip.label: sum(not apart([slip, other]) for other in slips if other is not slip) for slip in slips}
    for slip in sorted(slips, key=lambda slip: (-met[slip.label], slip.label)):
        for group in groups:
            grown = sorted(group + [slip], key=lambda slip: slip.label)
            if apart(grown) and fit(grown):
                group[:] = grown
                break
        else:
            groups.append([slip])
    return groups
