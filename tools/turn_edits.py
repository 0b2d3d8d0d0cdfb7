#!/usr/bin/env python3
"""Turns the edits of the crates, slips/*.edit and must-fail/*.edit, when the files that they edit are spelled anew.

usage: tools/turn_edits.py FROM TODAY [--dry] [--only CRATE ..]

FROM and TODAY are folders that hold the repository: FROM as it was when the edits fitted, TODAY as it is now. An edit of
TODAY that differs from FROM's and whose texts fit is left alone. Any other is made from FROM's: where its old text stood
in FROM's file, the line of TODAY's file that came of that line is found, and old and new text are written as it is
written. tools/names.txt has the names that were spelled anew, OLD NEW a line. Lines '# at:' follow, where the declaration
that they name still stands. Then each edit of must-fail/ is made again from the slips that it has, in their order.

What could not be turned is printed, and what was turned by more than names. Last line: 'N turned, M left alone, K by hand'.
"""
import difflib
import glob
import os
import re
import sys

sys.dont_write_bytecode = True
HERE = os.path.dirname(os.path.abspath(__file__))
TOKEN = re.compile(r"[^\s(){}\[\],;.`\"«»‵⟦⟧<>&|!?#$*/+]+")
OLD = re.compile(r"^[a-z_][\w'₀-₉]*(?:-[\w'₀-₉]+)+$|^[a-z_][\w'₀-₉]*[a-z0-9₀-₉'][A-Z][\w'₀-₉]*$")
PIECE = re.compile(r"\s+|[\w'◌·₀-₉-]+|λ|\"[^\"]*\"|.", re.S)
PROJECTION = re.compile(r"\.[a-z0-9][\w'-]*$")


def read(path):
    with open(path, encoding="utf-8") as file:
        return file.read()


def names():
    return dict(line.split() for line in read(f"{HERE}/names.txt").splitlines() if line.strip())


MAP = names()


def snake(name):
    return re.sub(r"(?<=[a-z0-9₀-₉'])([A-Z])", lambda m: "_" + m.group(1).lower(), name.replace("-", "_"))


# -- the spelling -------------------------------------------------------------------------------------------------------


def turned_names(text, words, code):
    """The names of the map. A law that makes way for a definition (all_lines, all_lines_holds) is none of a source file.
    A name that stands as it is in TODAY's crate stays."""

    def word(m):
        w = m.group(0).replace("″", "''").replace("′", "'")
        if w not in MAP:
            return snake(w) if OLD.match(w) and w not in words and snake(w) in words else w
        if code and not OLD.match(w):
            return w
        if text[m.start() - 1 : m.start()] == "." and not OLD.match(w):
            return w
        return w if w in words and MAP[w] not in words else MAP[w]

    return TOKEN.sub(word, text)


OPENS, CLOSES = "([{⟦", ")]}⟧"


def atom(piece, infix):
    """Whether a piece can stand in an application, as its head or an argument."""
    if piece in infix or piece in ("let", "in", "where", "do", "λ", "of", "if", "then", "else"):
        return False
    return bool(re.match(r"[\w'\"]", piece))


def projections(text, infix):
    """`x .f` becomes `x.f`, `g x .f` becomes `(g x).f`, and `(x .f)` among arguments loses its brackets."""
    for _ in range(40):
        m = re.search(r" \.(?=[a-z0-9])([\w'-]+)", text)
        if not m:
            return text
        # what stands before: atoms and groups back to an operator, an opening bracket, or the start
        end, start, count, at = m.start(), m.start(), 0, m.start()
        while at > 0:
            if text[at - 1] in CLOSES:
                depth, k = 0, at - 1
                while k >= 0:
                    depth += (text[k] in CLOSES) - (text[k] in OPENS)
                    if depth == 0:
                        break
                    k -= 1
                if k < 0 or text[k] != "(":
                    break
                at = k
            elif re.search(r"\)?(?:\.[a-z0-9][\w'-]*)+$", text[:at]) and text[: at][re.search(r"(?:\.[a-z0-9][\w'-]*)+$", text[:at]).start() - 1 :][:1] == ")":
                at = re.search(r"(?:\.[a-z0-9][\w'-]*)+$", text[:at]).start()
                continue
            else:
                w = re.search(r"(?:[\w'·-]|(?<=[\w'])\.(?=[\w]))+$", text[:at])
                if not w or not atom(w.group(0), infix):
                    break
                at = w.start()
            start, count = at, count + 1
            if at and text[at - 1] == " ":
                at -= 1
            else:
                break
        if count == 0:
            return text
        spine = text[start:end]
        made = (spine if count == 1 else f"({spine})") + "." + m.group(1)
        before, after = text[:start], text[m.end() :]
        if before.endswith("(") and after.startswith(")") and not re.match(r"\) \.", after):
            text = before[:-1] + made + after[1:]
        elif before.endswith("(") and after.startswith(") ."):
            text = before[:-1] + made + after[1:]
        else:
            text = before + made + after
    return text


def turned(text, words, code, infix):
    """A piece of a file, as it would be written today, but for what only its place tells."""
    text = re.sub(r"Rattle·(\w+)·(specs|proofs)\.\2\b", r"Rattle.\1.\2", text)
    text = re.sub(r"Rattle·(\w+)", r"Rattle.\1", text).replace("the-variants", "TheVariants")
    text = re.sub(r"⌜ (.*?) ⌝", r"\1", text)
    text = re.sub(r"(?<![\w-])getD(?![\w-])", "get_or", text)
    text = re.sub(r"(?<![\w])_([^\w\s_(),.{}\[\]]+|\w+)_(?=[,} :]|$)", r"◌\1◌", text)
    if code:
        if re.match(r"\s*(requires|ensures|invariant|decreases|ghost|prove|requires|measure)\b", text):
            text = projections(text, infix)
            text = re.sub(r"\bnow \(?([a-z_]+)\.entry\)?", r"\1.old", text)
            text = re.sub(r"\bnow \(?([a-z_]+)\.exit\)?", r"\1.new", text)
            text = re.sub(r"\(([a-z_]+\.(?:old|new))\)", r"\1", text)
            text = re.sub(r"\{ λ _\. ", "{ ", text)
            m = re.search(r"\{ λ (\w+)\. ", text)
            if m:
                text = re.sub(rf"(?<![\w.]){m.group(1)}(?![\w'])", "result", text.replace(m.group(0), "{ ", 1))
    else:
        text = projections(text, infix)
    return turned_names(text, words, code)


# -- where a line went --------------------------------------------------------------------------------------------------


def pieces(text):
    return [p for p in PIECE.findall(text)]


def solid(text):
    return re.sub(r"\s+", " ", text.strip())


class File:
    """A file of a crate as it was and as it is."""

    def __init__(self, crate, name, before, now):
        self.code = name.endswith(".rt")
        self.before, self.now = read(f"{before}/crates/{crate.name}/{name}"), read(f"{now}/crates/{crate.name}/{name}")
        self.crate = crate
        self.old, self.new = self.before.split("\n"), self.now.split("\n")
        left = [solid(crate.turned(line, self.code)) for line in self.old]
        right = [solid(line) for line in self.new]
        self.left = left
        self.blocks = difflib.SequenceMatcher(None, left, right, autojunk=False).get_opcodes()

    def lines(self, k):
        """The lines of today that line k became: the first, and the one after the last; and the lines of the block."""
        for tag, a, b, c, d in self.blocks:
            if a <= k < b:
                return (c + k - a, c + k - a + 1, k, k + 1) if tag == "equal" else (c, d, a, b)
        return 0, 0, k, k + 1


class Crate:
    def __init__(self, name, before, now):
        self.name, self.before, self.today, self.files = name, before, now, {}
        self.words, self.infix = set(), set()
        for path in glob.glob(f"{now}/crates/{name}/**/*", recursive=True):
            if path.endswith((".rt", ".antt")):
                text = re.sub(r"--(?=\s).*", "", read(path)) if path.endswith(".antt") else read(path)
                self.words |= set(TOKEN.findall(text))
                self.infix |= set(re.findall(r"◌(\w+)◌", text))

    def turned(self, text, code):
        return turned(text, self.words, code, self.infix)

    def file(self, name):
        if name not in self.files:
            self.files[name] = File(self, name, self.before, self.today)
        return self.files[name]


class Hand(Exception):
    """An edit that has to be turned by hand, and why."""


def hunks(old, new):
    a, b = pieces(old), pieces(new)
    return a, [(i, j, "".join(b[k:l])) for tag, i, j, k, l in difflib.SequenceMatcher(None, a, b, autojunk=False).get_opcodes() if tag != "equal"]


def turned_pair(file, now, k, line, old, new):
    """The pairs of today, old and new text, for one whose old text stands in line k, `line` as it is when its turn comes; and
    how they were found."""
    crate, code = file.crate, file.code
    o, n = crate.turned(old, code), crate.turned(new, code)
    c, d, a, b = file.lines(k)
    lines = now.split("\n")
    there = [j for j in range(c, d) if o in lines[j]]
    if now.count(o) == 1 and (there or d == c):
        return [(o, n)], "names" if there else "names, elsewhere"
    if len(there) == 1 and d - c == 1:  # the text stands elsewhere too: take more of the line
        wide = lines[c]
        if now.count(wide) == 1 and wide.count(o) == 1:
            return [(wide, wide.replace(o, n))], "whole line"
    if d == c:
        raise Hand("its line is gone")
    # by the pieces of the block
    was = [crate.turned(line if i == k else file.old[i], code) for i in range(a, b)]
    offset = sum(len(pieces(t)) for t in was[: k - a])
    full_old = crate.turned(line, code)
    full_new = crate.turned(line.replace(old, new), code)
    _, changed = hunks(full_old, full_new)
    left = [p for t in was for p in pieces(t)]
    right = [p for j in range(c, d) for p in pieces(lines[j] + "\n")]
    solid_left = [(i, p) for i, p in enumerate(left) if p.strip()]
    solid_right = [(i, p) for i, p in enumerate(right) if p.strip()]
    match = {}
    for i, j, size in difflib.SequenceMatcher(None, [p for _, p in solid_left], [p for _, p in solid_right], autojunk=False).get_matching_blocks():
        for s in range(size):
            match[solid_left[i + s][0]] = solid_right[j + s][0]
    starts, at = [], 0
    for p in right:
        starts.append(at)
        at += len(p)
    starts.append(at)
    text = "".join(right)
    spans = []
    for i, j, put in changed:
        i, j = i + offset, j + offset
        inner = [match.get(x) for x in range(i, j) if left[x].strip()]
        if i < j and inner and None not in inner and inner == sorted(inner):
            lead = left[i].strip() == ""
            trail = left[j - 1].strip() == ""
            x, y = starts[inner[0]], starts[inner[-1] + 1]
            spans.append((x, y, put.lstrip() if lead else put, lead, trail))
            continue
        before = next((match[x] for x in range(i - 1, -1, -1) if left[x].strip() and x in match), None)
        after = next((match[x] for x in range(j, len(left)) if left[x].strip() and x in match), None)
        if before is None or after is None or before >= after:
            raise Hand("no place for the change")
        x, y = starts[before + 1], starts[after]
        if i == j:  # put in: keep the blank on its side
            gap = text[x:y]
            spans.append((x, y, (gap if put[:1].isspace() or not put[-1:].isspace() else "") + put + (gap if put[-1:].isspace() else ""), 0, 0)) if not gap.strip() and not gap else spans.append((y, y, put, 0, 0) if put[-1:].isspace() else (x, x, put, 0, 0))
            continue
        spans.append((x, y, put, 0, 0))
    made_of = {}
    for x, y, put, _, _ in sorted(spans, reverse=True):
        row = text[:x].count("\n")
        if text[:y].count("\n") != row:
            raise Hand("the change is on several lines")
        low = sum(len(lines[c + r]) + 1 for r in range(row))
        made = made_of.get(row, lines[c + row])
        made_of[row] = made[: x - low] + put + made[y - low :]
    found = []
    for row, made in sorted(made_of.items()):
        wide = lines[c + row]
        if "( " not in wide:
            made = re.sub(r"\(([a-z_]+\.(?:now|old|new))\)", r"\1", made.replace("( ", "("))
        if wide.endswith(" }"):
            made = re.sub(r"(?<=\S)}$", " }", made)
        if re.match(r"(?:pub |ghost )*use ", wide):
            wide, made = smallest(now, wide, made)
        if not wide or now.count(wide) != 1:
            raise Hand("its line stands more than once")
        if made == wide:
            raise Hand("nothing changes")
        now = now.replace(wide, made)
        found.append((wide, made))
    return found, "pieces"


def smallest(now, wide, made):
    """The piece of a line that stands just once, around what changes, for several edits of one line."""
    a, b = pieces(wide), pieces(made)
    low = next(k for k in range(min(len(a), len(b)) + 1) if k == min(len(a), len(b)) or a[k] != b[k])
    high = next(k for k in range(min(len(a), len(b)) - low + 1) if k == min(len(a), len(b)) - low or a[-1 - k] != b[-1 - k])
    while low or high:
        low, high = max(low - 1, 0), max(high - 1, 0)
        old, new = "".join(a[low : len(a) - high]), "".join(b[low : len(b) - high])
        if old.strip() == old and now.count(old) == 1:
            return old, new
    return wide, made


def pairs(text):
    """The pairs of an edit: file, old, new."""
    file, old, found = "", "", []
    for line in text.splitlines():
        if line.startswith("file: "):
            file = line[6:]
        elif line.startswith("old:"):
            old = line[4:].removeprefix(" ")
        elif line.startswith("new:"):
            found.append((file, old, line[4:].removeprefix(" ")))
    return found


def misfit(text, folder):
    """Why an edit does not fit the crate in the folder, or None."""
    now = {}
    for file, old, new in pairs(text):
        if file not in now:
            if not os.path.isfile(f"{folder}/{file}"):
                return f"no file {file}"
            now[file] = read(f"{folder}/{file}")
        count = now[file].count(old) if old else 0
        if count != 1:
            return f"stands {count} times in {file}: {old}"
        now[file] = now[file].replace(old, new)
    if not now:
        return "has no pair"
    same = [file for file in now if now[file] == read(f"{folder}/{file}")]
    return f"changes nothing in {' '.join(same)}" if same else None


def turned_edit(crate, text):
    """An edit of FROM as it is for TODAY, and how its pairs were found."""
    was, now, said, out = {}, {}, set(), []
    done = iter(pairs(text))
    for line in text.splitlines():
        if line.startswith("old:"):
            name, old, new = next(done)
            file = crate.file(name)
            before = was.setdefault(name, file.before)
            now.setdefault(name, file.now)
            if before.count(old) != 1:
                raise Hand(f"did not fit: {old}")
            k = before[: before.index(old)].count("\n")
            found, how = turned_pair(file, now[name], k, before.split("\n")[k], old, new)
            said.add(how)
            was[name] = before.replace(old, new)
            for o, n in found:
                now[name] = now[name].replace(o, n)
                out += [f"old: {o}", f"new: {n}" if n else "new:"]
        elif not line.startswith("new:"):
            out.append(line)
    return "\n".join(out) + "\n", said


def as_today(crate, text):
    """Whether no name in the pairs of an edit is spelled as it was."""
    return all(crate.turned(t, file.endswith(".rt")) == t for file, old, new in pairs(text) for t in (old, new))


# -- places ---------------------------------------------------------------------------------------------------------------

HEAD = r"(?m)^ *(?:pub |abbrev |unfoldable )*(?:(?:record|data) )?{}(?= |$)[^=\n]*?(?: :|$|\()"


def place(crate, word):
    """A word of a line '# at:', as its declaration is called now; where there is none, as it is."""
    declaration, colon, fields = word.partition(":")
    if "." not in declaration:
        return word
    file, _, name = declaration.rpartition(".")
    found = file
    if not os.path.isfile(f"{crate.today}/crates/{crate.name}/proofs/{file}.antt") and "+" in file:
        found = "/".join("+" + p[1:].replace("+", "_") if p.startswith("+") else p for p in file.split("/"))
    path = f"{crate.today}/crates/{crate.name}/proofs/{found}.antt"
    if not os.path.isfile(path):
        return word
    text = read(path)
    now = MAP.get(name, name)
    for new in dict.fromkeys((name, now, MAP.get(snake(name), snake(name)), snake(name), f"{now}_holds")):
        if re.search(HEAD.format(re.escape(new)), text):
            fields = ",".join(".".join(MAP.get(p, snake(p)) for p in f.split(".")) for f in fields.split(",")) if colon else ""
            return f"{found}.{new}{colon}{fields}"
    return word


def turned_places(crate, text):
    out = []
    for line in text.splitlines():
        if line.startswith("# at:"):
            line = " ".join(["# at:"] + [place(crate, w) for w in line[5:].split()])
        out.append(line)
    return "\n".join(out) + "\n"


def pack(folder, text):
    """An edit of must-fail/ of the crate in a folder, made again from the slips that it names."""
    out = []
    for label in re.findall(r"(?m)^# slip (\S+):", text):
        lines = read(f"{folder}/slips/{label}.edit").splitlines()
        says = next(l[1:].strip() for l in lines if l.startswith("#") and not l.startswith(("# refused:", "# at:", "# apart:")))
        out += [f"# slip {label}: {says}", *[l for l in lines if l.startswith("# refused:")], *[l for l in lines if not l.startswith("#")]]
    return "\n".join(out) + "\n"


def main(before, now, dry, only):
    made, left, hand = 0, 0, 0
    for folder in sorted(glob.glob(f"{now}/crates/*/")):
        name = os.path.basename(folder[:-1])
        if only and name not in only or not os.path.isdir(f"{before}/crates/{name}"):
            continue
        crate = Crate(name, before, now)
        for path in sorted(glob.glob(f"{folder}slips/*.edit")):
            label = os.path.basename(path)
            was, is_now = f"{before}/crates/{name}/slips/{label}", read(path)
            fits = not misfit(is_now, folder)
            if fits and (not os.path.isfile(was) or read(was) != is_now):
                left += 1
                continue
            try:
                if not os.path.isfile(was):
                    raise Hand("it is not in FROM")
                text, said = (is_now, {"names"}) if fits and as_today(crate, is_now) else turned_edit(crate, read(was))
                text = turned_places(crate, text)
                wrong = misfit(text, folder)
                if wrong:
                    raise Hand(wrong)
            except Hand as why:
                print(f"by hand: crates/{name}/slips/{label}: {why}")
                hand += 1
                continue
            if said != {"names"}:
                print(f"{'; '.join(sorted(said))}: crates/{name}/slips/{label}")
            made += 1
            if text != is_now and not dry:
                with open(path, "w", encoding="utf-8") as file:
                    file.write(text)
        if not dry:
            for path in sorted(glob.glob(f"{folder}must-fail/*.edit")):
                text = pack(folder, read(path))
                if text != read(path):
                    with open(path, "w", encoding="utf-8") as file:
                        file.write(text)
    print(f"{made} turned, {left} left alone, {hand} by hand")


if __name__ == "__main__":
    words = sys.argv[1:]
    only = words[words.index("--only") + 1 :] if "--only" in words else []
    plain = [w for w in words if not w.startswith("--") and w not in only]
    if len(plain) != 2:
        sys.exit(__doc__)
    main(plain[0], plain[1], "--dry" in words, only)
