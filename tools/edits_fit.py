#!/usr/bin/env python3
"""Whether the edits of the crates, slips/*.edit and must-fail/*.edit, fit the files that they edit.

usage: tools/edits_fit.py [FOLDER]    of the repository in FOLDER, else of the one that this file is in

Prints each edit of which an old text does not stand just once in its file when its pair's turn comes, or which leaves a
file as it was; and each of must-fail/ that differs from the slips that it has. Last line: 'N fit, M do not'. Exit status 1
if any does not.
"""
import glob
import os
import sys

sys.dont_write_bytecode = True
from turn_edits import Crate, misfit, pack, read


def main(top):
    fit, wrong = 0, 0
    for folder in sorted(glob.glob(f"{top}/crates/*/")):
        name = os.path.basename(folder[:-1])
        for kind in ("slips", "must-fail"):
            for path in sorted(glob.glob(f"{folder}{kind}/*.edit")):
                text = read(path)
                why = misfit(text, folder)
                if not why and kind == "must-fail" and pack(folder, text) != text:
                    why = "differs from its slips"
                if why:
                    print(f"crates/{name}/{kind}/{os.path.basename(path)}: {why}")
                wrong += bool(why)
                fit += not why
    print(f"{fit} fit, {wrong} do not")
    return wrong == 0


if __name__ == "__main__":
    sys.exit(0 if main(sys.argv[1] if sys.argv[1:] else os.path.dirname(os.path.dirname(os.path.abspath(__file__)))) else 1)
