"""The declarations in the proofs of a crate: which rests on which, and what a place in one is called.

A place is where a check says that something is refused: FILE.DECLARATION, of proofs/FILE.antt; or a function, where the
check has to find what it ensures by itself. A declaration that has nothing but `refl` is computed, and each `refl` is a
place of its own: FILE.DECLARATION:FIELD, or :N for the N-th.
"""
import os
import re
from collections import defaultdict

HEAD = re.compile(r"^ *(?:pub |abbrev |unfoldable |opaque )*(?:(?:record|data) ([^\s{]+)|([^\s(){}λ]\S*) :(?: |$))")
USE = re.compile(r"^ *use Rattle\.(\w+)\.proofs\.([\w.+]+)\.\{([^}]*)\}", re.M)
FILES = ("Proof", "Answers", "Invariants")  # what a function's folder of proofs/ may hold
WORD = re.compile(r"[^\s(){}.,;]+")


class Declaration:
    """A declaration: its name, the line it begins in, its lines from there on."""

    def __init__(self, name, line):
        self.name, self.line, self.lines = name, line, []

    def words(self):
        return {word for line in self.lines for word in WORD.findall(line.split("--")[0])}

    def computed(self):
        """From the line and column of each `refl` to its name, if the declaration has nothing else; else nothing."""
        body = next((k for k, line in enumerate(self.lines) if re.match(rf" *{re.escape(self.name)} =", line)), None)
        if body is None:
            return {}
        found, path, count = {}, [], 0
        for k, line in enumerate(self.lines[body:], body):
            text = line if k > body else line.replace(f"{self.name} =", " " * len(f"{self.name} ="), 1)
            for word in re.finditer(r"([\w'-]+) =|record \{|\}|[^\s(){},;]+", text):
                if word[1]:
                    path[-1:] = [word[1]]
                elif word[0] == "record {":
                    path.append("")
                elif word[0] == "}":
                    path.pop()
                elif word[0] == "refl":
                    count += 1
                    found[self.line + k, word.start() + 1] = ".".join(path) or str(count)
                elif word[0] != "tt":
                    return {}
        return found


def declarations(text):
    """The declarations of a file, and what its modules take, which all that follow may rest on."""
    found, taken, inner = [], set(), 0  # a head that stands deeper than `inner` belongs to the declaration before it
    for number, line in enumerate(text.split("\n"), 1):
        head, indent = HEAD.match(line), len(line) - len(line.lstrip())
        if re.match(r" *(use|mod|pub mod) ", line):
            continue
        if re.match(r" *module ", line):
            taken |= set(WORD.findall(line))
            found.append(Declaration("", number))
            inner = indent + 2
        elif head and indent <= inner:
            found.append(Declaration(head[1] or head[2], number))
            inner = indent
        if found:
            found[-1].lines.append(line)
    return [declaration for declaration in found if declaration.name], taken


class Proofs:
    """The proofs of a crate, of slips.Crate."""

    def __init__(self, crate):
        self.crate, self.declared, self.rests, self.known, self.theorems = crate, {}, defaultdict(set), {}, {}
        taken, brought = {}, {}
        for folder, _, names in sorted(os.walk(f"{crate.folder}/proofs")):
            for name in sorted(names):
                file = os.path.relpath(f"{folder}/{name}", f"{crate.folder}/proofs").removesuffix(".antt")
                text = open(f"{folder}/{name}", encoding="utf-8").read()
                found, taken[file] = declarations(text)
                self.declared.update({(file, declaration.name): declaration for declaration in found})
                brought[file] = [(module, names) for name, module, names in USE.findall(text) if name == crate.name]
        for (file, name), declaration in self.declared.items():
            scope = {part: (file, other) for at, other in self.declared if at == file for part in parts(other)}
            for module, names in brought[file]:
                for word in names.split(","):
                    there, _, here = word.strip().partition(" as ")
                    for part in parts(here or there):
                        scope[part] = (module.replace(".", "/"), there)
            words = declaration.words() | taken[file]
            self.rests[file, name] |= {scope[word] for word in words if word in scope} - {(file, name)}
        for function, called in crate.reached.items():
            own = self.theorem(function)
            self.rests[own] |= {self.theorem(other) for other in called} - {own}
            if not own[0]:
                self.rests[own] |= {at for at in self.declared if self.in_proof(".".join(at), function)}

    def theorem(self, function):
        """Where it is proved that the function meets its contract: in its Proof.antt; or by the check, from its answers."""
        if function not in self.theorems:
            folder = self.crate.proof(function)
            wanted = f"{folder.rpartition('/')[2]}_spec"
            found = (at for at in self.declared if at[0] == f"{folder}/Proof" and at[1].replace("-", "_") == wanted)
            self.theorems[function] = next(found, ("", function))
        return self.theorems[function]

    def in_proof(self, place, function):
        """Whether the place is the function itself or in its proof files."""
        file, name = declaration_of(place)
        folder = self.crate.proof(function)
        return file in [f"{folder}/{one}" for one in FILES] if file else name == function

    def under(self, at):
        """What a declaration rests on, itself or through others."""
        if at not in self.known:
            found, ahead = set(), [at]
            while ahead:
                more = self.rests.get(ahead.pop(), set()) - found
                found |= more
                ahead += more
            self.known[at] = found
        return self.known[at]

    def has(self, place):
        """Whether there is this place."""
        file, name = declaration_of(place)
        if not file:
            return name in self.crate.functions
        declaration = self.declared.get((file, name))
        names = set(declaration.computed().values()) if declaration else set()
        return declaration is not None and place.partition(":")[2] in (names or {""})

    def place(self, file, name, line, column):
        """What the place at a line and a column of a declaration is called."""
        declaration = self.declared.get((file, name))
        refl = declaration.computed().get((line, column)) if declaration else None
        return f"{file}.{name}:{refl}" if refl else f"{file}.{name}"


def parts(name):
    """The words by which a declaration is named: itself, or the parts of an operator."""
    return [part for part in name.split("◌") if part] if "◌" in name else [name]


def declaration_of(place):
    """The declaration that a place is in: its file and its name; no file where the place is a function."""
    if "." not in place:
        return "", place
    file, _, name = place.partition(":")[0].rpartition(".")
    return file, name
