#!/usr/bin/env python3
"""Writes out the sessions that are computed in the proofs, for tests/slips/proved.rs to play. From the root:

    tests/slips/sessions.py > LIST

It begins at what the functions of crates/ledger, crates/snapshot and crates/hall ensure: every clause `ensures { .. }` that names something of
their files of sessions, those with a `List Turn` or a `Session`. Each such statement is computed as far as these files
define it, until it speaks of calls: a ledger is then what was done with it since it was empty, and an equality asks
what an answer, a text or a ledger is. What it does not know stops it, and so does a statement that gives no session, a
list of turns that no statement uses, a statement that no function ensures. `theorem NAME` on standard error names those
that ask no session: they hold for all numbers, or of a range.

LIST has a line `S NAME` for each session, then what is done, its bytes in hexadecimal digits:
`C BYTES TAB ANSWER` a call and its answer, `c BYTES` a call whose answer is not asked, `O`, `o` opening likewise,
`W BUFFER TAB ANSWER TAB BUFFER` closing into a buffer, `N NUMBER` calls until that serial comes next, `K` keeps the text
of the ledger and begins anew, `Q` asks that the ledger's text is the one kept.
"""
import glob
import os
import re
import sys
from collections import namedtuple

CRATES = ("ledger", "snapshot", "hall")
TURNS = re.compile(r"(?:^|→ )(?:List )?\(?(?:List )?(?:Turn|Session)\)?$")
TOKEN = re.compile(r'\s+|--[^\n]*|"((?:[^"\\]|\\.)*)"|(\.\w+|λ|[(){}\[\],;=∷×≡≤→⇒⇛:+]+|[^\s(){}\[\],;"∷]+)')
# operators from the loosest on, each taking the same or a tighter one at its right
LEVELS = (("→",), ("×",), ("≡",), ("≤",), ("∷", "++"), ("+",), ("⇒", "⇛"))

Ledger = namedtuple("Ledger", "done")  # what was done with it since it was empty
Asked = namedtuple("Asked", "ledger kind given")  # an answer, a text: what is asked of a ledger


class Bad(Exception):
    """What is not understood, or is not as it should be."""


class Named(list):
    """A list that has a name in a file of sessions, or was made of one item by item."""

    def __init__(self, items, name):
        super().__init__(items)
        self.name = name


# Reading the files

def tokens(text):
    found, at = [], 0
    while at < len(text):
        match = TOKEN.match(text, at)
        if not match:
            raise Bad(f"not understood: {text[at:at + 40]}")
        at = match.end()
        if match[1] is not None:
            found.append(("text", re.sub(r"\\(.)", lambda m: {"n": "\n", "r": "\r", "t": "\t"}.get(m[1], m[1]), match[1])))
        elif match[2] and re.fullmatch(r"[(){}\[\],;=∷×≡≤→⇒⇛:+]+", match[2]) and match[2] != "++":
            found += [("word", sign) for sign in match[2]]
        elif re.fullmatch(r"[a-z][\w']*(?:\.\w+)+", match[2] or ""):  # `s.requests`: a name and fields of it
            name, *fields = match[2].split(".")
            found += [("word", name), *(("word", f".{field}") for field in fields)]
        elif match[2]:
            found.append(("word", match[2]))
    return found


class Parser:
    def __init__(self, text):
        self.tokens, self.at = tokens(text), 0

    def peek(self):
        return self.tokens[self.at] if self.at < len(self.tokens) else ("end", "")

    def take(self, wanted=None):
        kind, word = self.peek()
        if kind == "end" or (wanted and word != wanted):
            raise Bad(f"{wanted} expected, not {word}")
        self.at += 1
        return word

    def whole(self):
        tree = self.level(0)
        if self.peek()[0] != "end":
            raise Bad(f"not understood: {self.peek()[1]}")
        return tree

    def level(self, n):
        if n == len(LEVELS):
            return self.applied()
        left = self.level(n + 1)
        if self.peek()[0] == "word" and self.peek()[1] in LEVELS[n]:
            return ("binary", self.take(), left, self.level(n))
        return left

    def applied(self):
        tree = self.atom()
        while True:
            kind, word = self.peek()
            if kind == "word" and word == "{":  # an argument that is otherwise found by itself
                while self.take() != "}":
                    pass
            elif kind == "text" or word in ("(", "[", "λ") or kind == "word" and not re.match(r"[)}\],;=∷×≡≤→⇒⇛:+]", word):
                tree = ("apply", tree, self.atom())
            else:
                return tree

    def atom(self):
        """One that is not applied, with the fields that are asked of it: `s.requests`, `(f x).0`."""
        tree = self.bare()
        while self.peek()[0] == "word" and re.fullmatch(r"\.\w+", self.peek()[1]):
            tree = ("field", tree, self.take()[1:])
        return tree

    def bare(self):
        kind, word = self.peek()
        self.take()
        if kind == "text":
            return ("value", word)
        if word.isdigit():
            return ("value", int(word))
        if word == "[":
            self.take("]")
            return ("value", [])
        if word == "λ":
            name = self.take()
            return ("lambda", name.rstrip("."), self.level(0))
        if word == "(":
            tree = self.level(0)
            if self.peek()[1] == ":":  # `(n : ℕ) → ..`: it holds for all of them
                self.at = len(self.tokens)
                return ("all",)
            if self.peek()[1] == ",":
                self.take()
                tree = ("pair", tree, self.level(0))
            self.take(")")
            return tree
        if word == "record":
            return self.record()
        return ("name", word)

    def record(self):
        fields = {}
        self.take("{")
        while self.peek()[1] != "}":
            name = self.take()
            self.take("=")
            fields[name] = self.level(0)
            if self.peek()[1] == ";":
                self.take()
        self.take("}")
        return ("record", fields)


class Declaration:
    """A name of a file: its type, its clauses (patterns and what is right of `=`), the fields of a record."""

    def __init__(self, file, name, kind):
        self.file, self.name, self.kind, self.clauses, self.fields, self.used = file, name, kind, [], {}, False


class File:
    def __init__(self, path):
        self.path, self.crate, self.name = path, path.split("/")[1], os.path.basename(path)[: -len(".antt")]
        self.declared, self.taken = {}, {}
        with open(path, encoding="utf-8") as text:
            lines = [line for line in text.read().split("\n") if line.strip() and not line.lstrip().startswith("--")]
        items = []
        for line in lines:
            if line[0] in " })":
                items[-1] += "\n" + line
            else:
                items.append(line)
        for item in items:
            self.item(item)

    def item(self, item):
        brought = re.fullmatch(r"use Rattle\.(\w+)\.specs\.([\w.-]+)\.\{([^}]*)\}", item)
        record = re.match(r"(?:pub )?record (\S+) : Type 0 where\n", item)
        head = re.match(r"(?:(?:abbrev|unfoldable) )?(?:pub )?(\S+) :\s+(.*)", item, re.S)
        if item.startswith(("use ", "infix")):
            for name in brought[3].split(",") if brought else ():
                self.taken[name.strip()] = (brought[1], brought[2])
        elif record:
            declaration = self.declared[record[1]] = Declaration(self, record[1], "Type 0")
            for name, text in re.findall(r"^ +pub (\S+) :((?:.*(?:\n    )?)*)", item[record.end():], re.M):
                declaration.fields[name] = text
        elif head:
            self.declared[head[1]] = Declaration(self, head[1], " ".join(head[2].split()))
        else:
            self.clause(item)

    def clause(self, item):
        left, _, right = item.partition("=")
        words = left.split()
        operator = next((name for name in self.declared if "◌" in name and name.strip("◌") in words), None)
        if operator:
            patterns = [Parser(part).whole() for part in left.split(operator.strip("◌"))]
        elif words[0] in self.declared:
            parser, patterns = Parser(left.partition(words[0])[2]), []
            while parser.peek()[0] != "end":
                patterns.append(parser.atom())
        else:
            raise Bad(f"{self.path}: not understood: {item}")
        self.declared[operator or words[0]].clauses.append((patterns, Parser(right).whole()))


# Computing

def answer(said):
    """The answer as it is printed; of a number and its step, or of numbers."""
    return ("no,%d,%d" % said[1:]) if said[0] == "no" else "ok," + ",".join(map(str, said[1]))


def mapped(function):
    def over(items):
        if isinstance(items, Asked):  # what all calls answer, told, is what they answer
            return items
        return Named((function(item) for item in items), getattr(items, "name", ""))
    return over


def reopened(ledger):
    return lambda text: {"ledger": Ledger(ledger.done + (("o", text),)), "answer": Asked(ledger, "opened", text)}


def after(ledger):
    return lambda calls: Ledger(ledger.done + tuple(("c", call) for call in calls))


KNOWN = {
    "zero": 0,
    "suc": lambda n: n + 1,
    "map": mapped,
    "bytes": lambda text: list(text.encode()),
    "digits": lambda n: list(str(n).encode()),
    "ok": lambda numbers: ("ok", numbers),
    "Told.no": lambda number: lambda step: ("no", number, step),
    "Accepted": lambda number: ("ok", [number]),
    "Refused": lambda number: lambda step: ("no", number, step),
    "told": lambda said: said,
    "answers": lambda ledger: lambda calls: Asked(ledger, "answers", calls),
    "after": after,
    "empty": Ledger(()),
    "reopen": reopened,
    "text": lambda ledger: Asked(ledger, "text", None),
    "close": lambda ledger: lambda buffer: dict.fromkeys(("answer", "buffer"), Asked(ledger, "closed", buffer)),
    "Linear": "s",
    "Unrestricted": "r",
    "span": lambda i: lambda j: lambda p: lambda q: f"{i},{j},{p},{q}",
    "Line.atom": lambda predicate: lambda session: ("a", predicate, session),
    "Unit": [],
}
THEOREMS = ("Ends",)  # what asks no session


class Sessions:
    def __init__(self, root):
        self.root, self.files, self.found, self.theorems = root, {}, [], []
        for path in sorted(glob.glob(f"{root}/crates/*/specs/*.antt")):
            path = os.path.relpath(path, root)
            if path.split("/")[1] in CRATES and re.search(r"\bTurn\b|\bSession\b", self.read(path)):
                file = File(f"{root}/{path}") if root == "." else self.at(path)
                self.files[path.split("/")[1], file.name] = file

    def at(self, path):
        here = os.getcwd()
        os.chdir(self.root)
        try:
            return File(path)
        finally:
            os.chdir(here)

    def read(self, path):
        with open(f"{self.root}/{path}", encoding="utf-8") as text:
            return text.read()

    def named(self, file, name):
        """The declaration that a name stands for in a file; None where it is of no file of sessions."""
        if name in file.declared:
            return file.declared[name]
        there = self.files.get(file.taken.get(name))
        return there.declared.get(name) if there else None

    def value(self, file, tree, bound):
        kind = tree[0]
        if kind == "value":
            return tree[1]
        if kind == "name":
            return bound[tree[1]] if tree[1] in bound else self.known(file, tree[1])
        if kind == "pair":
            return {"0": self.value(file, tree[1], bound), "1": self.value(file, tree[2], bound)}
        if kind == "lambda":
            return lambda given: self.value(file, tree[2], {**bound, tree[1]: given})
        if kind == "field":
            return self.value(file, tree[1], bound)[tree[2]]
        if kind == "record":
            return self.record({name: self.value(file, part, bound) for name, part in tree[1].items()})
        if kind == "apply":
            return self.value(file, tree[1], bound)(self.value(file, tree[2], bound))
        if kind == "binary":
            return self.binary(file, tree, bound)
        raise Bad(f"{file.path}: not understood: {tree}")

    @staticmethod
    def record(fields):
        """A ledger that is written down has one wording, and its live coupons were issued last, one after the other."""
        if set(fields) != {"lines", "live", "next"}:
            return fields
        (letter, predicate, session), = fields["lines"]
        first = fields["next"] - len(fields["live"])
        if letter != "a" or [coupon["serial"] for coupon in fields["live"]] != list(range(first, fields["next"])):
            raise Bad("a ledger that is not known")
        issues = [f"issue,{coupon['kind']},{coupon['formula']},{coupon['interval']}\n" for coupon in fields["live"]]
        return Ledger((("c", list(b"word,a,%d,%d\n" % (predicate, session))), ("N", first),
                       *(("c", list(issue.encode())) for issue in issues)))

    def binary(self, file, tree, bound):
        sign, left, right = tree[1:]
        if sign in ("⇒", "⇛"):
            return self.known(file, f"◌{sign}◌")(self.value(file, left, bound))(self.value(file, right, bound))
        a, b = self.value(file, left, bound), self.value(file, right, bound)
        if sign == "∷":
            return [a] + b
        if sign in ("++", "×", "+"):
            return a + b
        if sign == "≡":
            return [(a, b)]
        raise Bad(f"{file.path}: not understood: {sign}")

    def known(self, file, name):
        declaration = self.named(file, name)
        if declaration is None and name in KNOWN:
            return KNOWN[name]
        if declaration is None or declaration.fields:
            raise Bad(f"{file.path}: not known: {name}")
        declaration.used = True
        count = len(declaration.clauses[0][0]) if declaration.clauses else 0
        value = self.function(declaration, count, ())
        return Named(value, name) if isinstance(value, list) else value

    def function(self, declaration, count, given):
        if len(given) < count:
            return lambda more: self.function(declaration, count, given + (more,))
        for patterns, right in declaration.clauses:
            bound = {}
            if all(self.fits(pattern, one, bound) for pattern, one in zip(patterns, given)):
                return self.value(declaration.file, right, bound)
        raise Bad(f"{declaration.file.path}: no clause of {declaration.name} fits")

    def fits(self, pattern, given, bound):
        if pattern[0] == "value":
            return given == pattern[1]
        if pattern == ("name", "zero"):
            return given == 0
        if pattern[0] == "apply" and pattern[1] == ("name", "suc"):
            return given > 0 and self.fits(pattern[2], given - 1, bound)
        if pattern[0] == "binary" and pattern[1] == "∷":
            return bool(given) and self.fits(pattern[2], given[0], bound) and self.fits(pattern[3], given[1:], bound)
        if pattern[0] != "name":
            raise Bad(f"not understood: {pattern}")
        bound[pattern[1]] = given
        return True

    # Statements

    def statements(self):
        """What the functions ensure that names something of a file of sessions: the crate, the statement."""
        for crate in CRATES:
            text = self.read(f"crates/{crate}/src/lib.rt")
            brought = {name.strip(): self.files[crate, file].declared[name.strip()]
                       for file, names in re.findall(rf"use Rattle\.{crate}\.specs\.(\w+)\.\{{([^}}]*)\}};", text)
                       if (crate, file) in self.files for name in names.split(",")}
            for said in re.findall(r"^    ensures (?:\w+ )?\{\s(.*?)\s\}$", text, re.M | re.S):
                said = " ".join(said.split())
                if set(re.findall(r"[\w·.]+", said)) & set(brought):
                    yield brought, said

    def asked(self, brought, said):
        """The equalities that a statement asks, each with a name."""
        words = said.split()
        declaration = brought[words[0]]
        declaration.used = True
        if declaration.fields:
            for field, text in declaration.fields.items():
                yield f"{words[0]}.{field}", self.equal(declaration.file, Parser(text).whole(), f"{words[0]}.{field}")
        elif len(words) > 1:
            holder = File.__new__(File)
            holder.path, holder.declared, holder.taken = "lib.rt", brought, {}
            yield said, self.equal(holder, Parser(said).whole(), said)
        else:
            yield said, self.equal(declaration.file, declaration.clauses[0][1], said)

    def equal(self, file, tree, name):
        head = tree
        while head[0] == "apply":
            head = head[1]
        if head[0] == "all" or head[0] == "binary" and head[2] == ("all",) or head == ("name", THEOREMS[0]):
            self.theorems.append(name)
            return []
        return self.value(file, tree, {})

    def session(self, name, asked, wanted):
        """The sessions of one equality."""
        if isinstance(asked, Ledger):
            lines = self.done(wanted) + ["K"] + self.done(asked) + ["Q"]
        elif isinstance(asked, dict) and asked["0"].kind == "closed":  # what is told and the buffer after
            return self.session(name, asked["0"], wanted)
        elif isinstance(asked, dict):  # of an opening: what is told, and the text after
            return self.session(name, [asked["0"], asked["1"]], [wanted["0"], wanted["1"]])
        elif isinstance(asked, list):
            if len(asked) != len(wanted):
                raise Bad(f"{name}: {len(asked)} asked, {len(wanted)} answers")
            for number, (one, said) in enumerate(zip(asked, wanted), 1):
                self.session(f"{name} {number}", one, said)
            return
        else:
            lines = self.done(asked.ledger) + getattr(self, asked.kind)(name, asked.given, wanted)
        own = getattr(asked.given, "name", "") if isinstance(asked, Asked) else ""
        self.found.append((f"{name} ({own})" if own else name, lines))

    @staticmethod
    def done(ledger):
        return [f"{how} {given if how == 'N' else bytes(given).hex()}" for how, given in ledger.done]

    @staticmethod
    def answers(name, calls, wanted):
        if len(calls) != len(wanted):
            raise Bad(f"{name}: {len(calls)} calls, {len(wanted)} answers")
        return [f"C {bytes(call).hex()}\t{answer(said)}" for call, said in zip(calls, wanted)]

    @staticmethod
    def opened(name, text, wanted):
        return [f"O {bytes(text).hex()}\t{answer(wanted)}"]

    @staticmethod
    def text(name, _, wanted):
        buffer = bytes(wanted) + b"\n~"  # the two bytes past the text stay
        return [f"W {(b'#' * len(wanted) + buffer[-2:]).hex()}\tok,{len(wanted)}\t{buffer.hex()}"]

    @staticmethod
    def closed(name, buffer, wanted):
        return [f"W {bytes(buffer).hex()}\t{answer(wanted['0'])}\t{bytes(wanted['1']).hex()}"]

    def all(self):
        ensured = set()
        for brought, said in self.statements():
            ensured.add(said.split()[0])
            for name, equalities in self.asked(brought, said):
                before = len(self.found)
                for number, (asked, wanted) in enumerate(equalities, 1):
                    self.session(name if len(equalities) == 1 else f"{name} {number}", asked, wanted)
                if len(self.found) == before and name not in self.theorems:
                    raise Bad(f"{name}: no session in it")
        for file in self.files.values():
            for declaration in file.declared.values():
                if declaration.kind == "Type 0" and declaration.name not in ensured | {"Turn", "Session"}:
                    raise Bad(f"{file.path}: no function ensures {declaration.name}")
                if TURNS.search(declaration.kind) and not declaration.used:
                    raise Bad(f"{file.path}: no statement uses {declaration.name}")
        return self.found


def main():
    sys.setrecursionlimit(100000)
    sessions = Sessions(os.path.dirname(os.path.dirname(os.path.dirname(os.path.abspath(__file__)))))
    for name, lines in sessions.all():
        print(f"S {name}", *lines, sep="\n")
    for name in sessions.theorems:
        print(f"theorem {name}", file=sys.stderr)


try:
    main()
except Bad as bad:
    sys.exit(str(bad))
