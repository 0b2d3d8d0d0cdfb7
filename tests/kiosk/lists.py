"""The lists of sheets that the kiosk's tests play, and the kiosks that they start."""
import os
import re
import subprocess

from shared import ROOT, SESSIONS, read

KIOSK = ROOT + "/target/kiosk/kiosk"
LIBRARY = ROOT + "/target/library/liboysterbrim.a"


def sheets_of(data):
    """The sheets of an input, as the paper parts them."""
    sheets, sheet = [], b""
    for line in re.findall(rb"[^\n]*\n|[^\n]+", data):
        if line == b"\n":
            sheets.append(sheet)
            sheet = b""
        else:
            sheet += line
    return sheets + [sheet] if sheet else sheets


M1 = sheets_of(read(SESSIONS + "m1.in"))
ANSWERS = read(SESSIONS + "m1.out").decode().split()
BOOKING = next(sheet for sheet in M1 if sheet.startswith(b"book"))
WRONG = BOOKING.replace(b"tr,0000000000000002", b"tr,0000000000000006")  # M3: no,40,7
M1_WORDINGS = [sheet[5:] for sheet in M1[:8]]
BEFORE = b"".join([b"till,1,4,8,3\n", *M1_WORDINGS, b"1,r,7,0,9999,0,0\n2,s,3,0,600,0,0\n3,s,4,0,600,0,0\n"])
AFTER = b"".join([b"till,1,5,8,2\n", *M1_WORDINGS, b"1,r,7,0,9999,0,0\n4,s,5,540,600,0,0\n"])

FIRST, MANY = 100, 40
LAST = FIRST + MANY - 1
TOUR = []  # a house seat in each of forty sessions: serial 1 in session 100, serial 2 in 101, ..
for at in range(MANY):
    TOUR += [b"word,a,1,%d\n" % (FIRST + at), b"word,s,1,%d\n" % (2 * at), b"issue,s,%d,0,9999,0,0\n" % (2 * at + 1)]

# M1 in each of 25 sessions, 200 wordings in all: offer, seat and token of each, then a booking of each.
HOUSES = range(25)


def moved(sheet, session):
    """M1's sheet for another session: its wordings are the eight from 8 * session on."""
    f = sheet.split(b",")
    at = 8 * session
    if f[0] == b"word" and f[1] == b"a":
        f[3] = b"%d\n" % session
    elif f[0] == b"word":
        f[3] = b"%d\n" % (int(f[3]) + at)
        f[2] = f[2] if f[1] == b"s" else b"%d" % (int(f[2]) + at)
    elif f[0] == b"issue":
        f[2] = b"%d" % (int(f[2]) + at)
    elif f[0] == b"book":
        f[2] = b"%d" % (int(f[2]) + at)
        for serial in (3, 2, 1):
            f = b",".join(f).replace(b"hold,%d\n" % serial, b"hold,%d\n" % (serial + 3 * session)).split(b",")
    return b",".join(f)


PANEL = [moved(sheet, session) for session in HOUSES for sheet in M1 if sheet.startswith(b"word")]
PANEL += [moved(sheet, session) for session in HOUSES for sheet in M1 if sheet.startswith(b"issue")]
PANEL_BOOKINGS = [moved(BOOKING, session) for session in HOUSES]


def wrote(name, data):
    with open(name, "wb") as file:
        file.write(data)
    return name.encode()


class Kiosks:
    """Kiosks that are compiled otherwise, in a folder; each once."""

    def __init__(self, folder):
        self.folder, self.objects = folder, []
        self.sources = [f"{ROOT}/kiosk/{file}" for file in sorted(os.listdir(ROOT + "/kiosk")) if file.endswith(".c")]

    def cc(self, *parts):
        command = ["cc", "-std=c11", "-g", "-I", ROOT + "/include", *parts]
        subprocess.run(command, cwd=self.folder, check=True)

    def compiled(self, name, *flags):
        self.cc(*flags, *self.sources, LIBRARY, "-o", name)
        return f"{self.folder}/{name}"

    def liar(self, *lies):
        """With a library that lies: tests/kiosk/liar.c."""
        name = "_".join(["liar", *lies]).replace("=", "_")
        if not self.objects:
            self.cc("-c", *self.sources)
            self.objects = [file for file in os.listdir(self.folder) if file.endswith(".o")]
        if not os.path.exists(f"{self.folder}/{name}"):
            call = "till_open" if "EMPTIED" in lies else "till_call"
            flags = [f"-Wl,--wrap={call}", *("-D" + lie for lie in lies)]
            self.cc(*flags, *self.objects, ROOT + "/tests/kiosk/liar.c", LIBRARY, "-o", name)
        return f"{self.folder}/{name}"
