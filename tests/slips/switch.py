#!/usr/bin/env python3
"""Puts many slips into one copy of the reference program, each to be switched on by its number.

    switch.py FOLDER < LIST

FOLDER/reference has the program as it is, FOLDER/edited/NUMBER the text of a file with a slip; LIST has a line
`NUMBER FILE` for each. It writes FOLDER/switched/reference: each function that a slip changes stands there once more
with that slip, and the function itself begins by asking `crate::slip()` which to go on with. It prints the numbers of
the slips that need a copy of their own: those that change more than bodies, or a body that cannot ask.
"""
import os
import re
import shutil
import sys
from collections import defaultdict

HEAD = re.compile(r"^( *)((?:pub )?(?:const )?fn (\w+))")


def functions(text):
    """The functions of a file in the house's layout, as lists of lines, and the lines beside them, each in its place."""
    lines, found, beside, at = text.split("\n"), [], [], 0
    while at < len(lines):
        head = HEAD.match(lines[at])
        if head and not lines[at].endswith("}"):
            end = lines.index(head[1] + "}", at)
            found.append(lines[at:end + 1])
            beside.append(len(found))
            at = end
        else:
            beside.append(lines[at])
        at += 1
    return found, beside


def head_of(function):
    """The lines of a function up to the one that opens its body."""
    end = next((at for at, line in enumerate(function) if line.endswith("{")), len(function))
    return function[:end + 1]


def changed(before, after):
    """The places of the functions whose bodies differ; None where anything else does."""
    (old, beside), (new, other) = functions(before), functions(after)
    if beside != other:
        return None
    found = [at for at in range(len(old)) if old[at] != new[at]]
    heads = ["\n".join(head_of(old[at])) for at in found]
    if any(head_of(old[at]) != head_of(new[at]) for at in found):
        return None
    # a constant cannot ask, and one type cannot stand for two
    return None if any("const fn" in head or "-> impl" in head for head in heads) else found


def call(head, method, name):
    """How a function is called with its own arguments, under another name."""
    arguments, depth, part = [], 0, ""
    for sign in head[head.index("("):].replace("->", ""):
        depth += (sign in "([<") - (sign in ")]>")
        if depth == 0 or depth == 1 and sign in "(,":
            arguments.append(part.strip())
            part = ""
        else:
            part += sign
        if depth == 0:
            break
    names = [re.sub(r"\bmut ", "", re.split(r":(?!:)", argument)[0]).strip() for argument in arguments if argument]
    taker = [name for name in names if re.fullmatch(r"&?\s*(?:mut )?self", name)]
    given = ", ".join(name for name in names if name not in taker)
    return f"{'self.' if taker else 'Self::' if method else ''}{name}({given})"


def switched(function, slips):
    """The function, asking which slip is made, and its copies with the slips: NUMBER, lines."""
    head = head_of(function)
    indent = re.match(" *", function[0])[0]
    name = HEAD.match(function[0])[3]
    lines = head + [f"{indent}    match crate::slip() {{"]
    for number, _ in slips:
        made = call("\n".join(head), bool(indent), f"{name}_slip{number}")
        lines.append(f"{indent}        {number} => return {made},")
    lines += [f"{indent}        _ => {{}}", f"{indent}    }}"] + function[len(head):]
    for number, copy in slips:
        lines += [re.sub(rf"\bfn {name}\b", f"fn {name}_slip{number}", copy[0], count=1)] + copy[1:]
    return lines


def main(folder):
    texts, slips, alone = {}, defaultdict(lambda: defaultdict(list)), []
    for line in sys.stdin:
        number, file = line.split()
        if file not in texts:
            texts[file] = open(f"{folder}/reference/{file}", encoding="utf-8").read()
        edited = open(f"{folder}/edited/{number}", encoding="utf-8").read()
        found = changed(texts[file], edited)
        if not found:
            alone.append(number)
        for at in found or ():
            slips[file][at].append((number, functions(edited)[0][at]))
    shutil.copytree(f"{folder}/reference", f"{folder}/switched/reference", dirs_exist_ok=True)
    for file, text in texts.items():
        found, beside = functions(text)
        lines = []
        for line in beside:
            if isinstance(line, int):
                here = slips[file][line - 1]
                lines += switched(found[line - 1], here) if here else found[line - 1]
            else:
                lines.append(line)
        with open(f"{folder}/switched/reference/{file}", "w", encoding="utf-8") as out:
            out.write("\n".join(lines))
    print(*alone, sep="\n")


main(os.path.abspath(sys.argv[1]))
