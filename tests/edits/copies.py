"""Copies of the repository in which a wrong edit of one crate is checked over what is proved of it. Shared by edits/run,
edits/refusals and slips/definitions.py.

Names that Rattle makes of a function's steps have what the code compares in them (`if-d-eq0`, of `if d == 0`). Where an edit
changes that, the function's proof file names what is no longer there, and a refusal for that says nothing: so in the copy
such a name becomes the one that stands in its place now, as the check's own help gives it, and the crate is checked again.

A copy lies among the temporary files: below the repository's top rt ci wants no second crates.txt and no source that it
does not check. It has the sources of every crate and, as second names of the same files, the libraries that `rt all
check` built; rt removes such a file before it makes it anew, and never writes into it.
"""
import os
import queue
import re
import shutil
import subprocess
import tempfile

from slips import ROOT, crates, replaced

PARTS = ("src", "specs", "proofs")
# what is said of a name that is gone, and the nearest one
ERROR = re.compile(r"^(?:.*/)?(proofs/\S+\.antt):\d+:\d+: error: (.*(?:\n  .*)*)$", re.M)
GONE = [re.compile(r"has\s+no\s+field\s+`([^`]+)`\s+\(nearest:\s+\.([^\s,)]+)"),
        re.compile(r"has\s+no\s+`([^`]+)`\s+that\s+can\s+be\s+named\s+from\s+here\s+\(did\s+you\s+mean\s+`([^`]+)`\?\)")]
TURNS = 12  # of renaming and checking again


def renamed(folder, said):
    """Gives the names that are gone, as a check said, those that stand in their place; returns a line for each."""
    told = []
    for file, why in ERROR.findall(said):
        for old, new in (pair for gone in GONE for pair in gone.findall(why)):
            if old == new or old.split("-")[0] != new.split("-")[0]:
                continue
            with open(f"{folder}/{file}", encoding="utf-8") as own:
                text = own.read()
            after = re.sub(rf"(?<=\.){re.escape(old)}(?![\w'-])", lambda _, new=new: new, text)
            if after != text:
                told.append(f"{file}: {old} is {new} with the edit")
                with open(f"{folder}/{file}", "w", encoding="utf-8") as own:
                    own.write(after)
    return told


def linked(there, here):
    """Copies a folder of what was kept or built, if it is there; what was proved by second names where these can be made."""

    def copy(one, other):
        try:
            if one.endswith(".oantt") or "/rlib/" in one:
                return os.link(one, other)
        except OSError:
            pass
        return shutil.copy2(one, other)

    shutil.rmtree(here, ignore_errors=True)
    if os.path.isdir(there):
        shutil.copytree(there, here, copy_function=copy)


class Copy:
    """One copy of the repository, in a folder."""

    def __init__(self, folder):
        self.folder = folder
        os.makedirs(f"{folder}/crates")
        shutil.copyfile(f"{ROOT}/crates.txt", f"{folder}/crates.txt")
        for name in crates():
            self.restore(name)
            linked(f"{ROOT}/crates/{name}/out/rlib", f"{folder}/crates/{name}/out/rlib")

    def restore(self, name):
        """The crate's sources are those of the repository again."""
        for part in PARTS:
            shutil.rmtree(f"{self.folder}/crates/{name}/{part}", ignore_errors=True)
            if os.path.isdir(f"{ROOT}/crates/{name}/{part}"):
                shutil.copytree(f"{ROOT}/crates/{name}/{part}", f"{self.folder}/crates/{name}/{part}")

    def check(self, name):
        """What a check of the crate prints."""
        done = subprocess.run(["rt", "check", "--jobs", "1"], cwd=f"{self.folder}/crates/{name}", stdin=subprocess.DEVNULL,
                              stdout=subprocess.PIPE, stderr=subprocess.STDOUT)
        return done.stdout.decode("utf-8", "replace")

    def kept(self, name):
        return f"{self.folder}/crates/{name}/out/incremental"


class Copies:
    """As many copies as there are processors, or CHECKS says, made when first wanted. `with Copies() as copies`."""

    def __init__(self):
        self.number = int(os.environ.get("CHECKS") or os.cpu_count())
        self.free = queue.Queue()

    def __enter__(self):
        self.folder = tempfile.mkdtemp(prefix="oysterbrim-copies-")
        for number in range(self.number):
            self.free.put(number)
        return self

    def __exit__(self, *_):
        shutil.rmtree(self.folder, ignore_errors=True)

    def one(self, number):
        path = f"{self.folder}/{number}"
        return Copy(path) if not os.path.isdir(path) else self.known(path)

    @staticmethod
    def known(path):
        copy = Copy.__new__(Copy)
        copy.folder = path
        return copy

    def use(self, work):
        """Calls work with a copy that nothing else uses meanwhile, and returns what it returns."""
        number = self.free.get()
        try:
            return work(self.one(number))
        finally:
            self.free.put(number)

    def as_it_stands(self, name):
        """Checks the crate without an edit, and keeps what is proved of it for `edited`; returns what the check printed."""

        def work(copy):
            linked(f"{ROOT}/crates/{name}/out/incremental", copy.kept(name))
            said = copy.check(name)
            if "logic=proved" in said:
                linked(copy.kept(name), f"{self.folder}/kept/{name}")
            shutil.rmtree(copy.kept(name), ignore_errors=True)
            return said

        return self.use(work)

    def edited(self, crate, pairs, text=None):
        """What a check of the crate, of slips.Crate, prints with the pairs of an edit, over what is proved of it."""

        def work(copy):
            text_of = text or (lambda file: "\n".join(crate.lines(file)))
            try:
                linked(f"{self.folder}/kept/{crate.name}", copy.kept(crate.name))
                for file, after in replaced(text_of, pairs).items():
                    with open(f"{copy.folder}/crates/{crate.name}/{file}", "w", encoding="utf-8") as out:
                        out.write(after)
                said, told = copy.check(crate.name), []
                for _ in range(TURNS):
                    more = renamed(f"{copy.folder}/crates/{crate.name}", said)
                    if not more:
                        break
                    told += more
                    said = copy.check(crate.name)
                return "".join(f"{line}\n" for line in told) + said
            finally:
                copy.restore(crate.name)
                shutil.rmtree(copy.kept(crate.name), ignore_errors=True)

        return self.use(work)

    def forget(self, name):
        """What was kept of the crate goes."""
        shutil.rmtree(f"{self.folder}/kept/{name}", ignore_errors=True)
