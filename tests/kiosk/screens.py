"""The kiosk on a screen: typed sheets, the panel at several sizes, the log, questions, and libraries that lie."""
import os
import random
import re
import signal
import termios
import time

from lists import AFTER, ANSWERS, BEFORE, BOOKING, FIRST, KIOSK, LAST, M1, MANY, TOUR, WRONG, wrote
from shared import check, read
from terminal import GARBAGE, Terminal

SIZES = [(24, 80), (12, 80), (40, 100)]
LEAST, WIDE = 8, 78  # fewer rows have no panel, fewer columns a narrow one
MARKS = {"adds up": "ok", "adds up again": "ok!", "DOES NOT ADD UP": "NO", "IS NOT AS COUNTED": "NO"}
UP, DOWN, PAGE_UP, PAGE_DOWN, HOME, END = b"\x1b[A", b"\x1b[B", b"\x1b[5~", b"\x1b[6~", b"\x1b[H", b"\x1b[F"


class Kiosk(Terminal):
    """The panel stands at the top and a place to type in the last row, whatever else is there."""

    def __init__(self, rows=24, columns=80, program=KIOSK, folder=None):
        super().__init__(program, rows, columns, folder=folder)
        self.sheets, self.banner = 0, False
        self.expect("^nothing was issued$" if rows >= LEAST else "^TILL", "the panel of an empty till")

    def odd(self):
        """What is not as it has to be on every screen."""
        lines, odd = self.screen.lines(), list(self.screen.odd)
        banner = bool(re.match("DOES NOT ADD UP: |IS NOT AS COUNTED: ", lines[1])) and self.screen.marked[1]
        panel = any(line.startswith(("session house open ", "sess. open ")) for line in lines[1:5])
        odd += [] if re.match(r"TILL  minute \d", lines[0]) else ["no title"]
        odd += [] if re.match(r"(\(y\) |\(sheet\) )?>", lines[-1]) else ["no place to type"]
        odd += [] if panel or self.screen.rows < LEAST else ["no panel"]
        odd += [] if banner == self.banner else ["a banner" if banner else "no banner"]
        odd += ["something else is left"] if any(GARBAGE in line for line in lines) else []
        return odd + (["a mark without a banner"] if any(self.screen.marked) and not self.banner else [])

    def expect(self, pattern, what):
        found = re.compile(pattern, re.M)
        return self.until(lambda: found.search(self.text()) and not self.odd(), what,
                          lambda: f"no {pattern!r}, or {self.odd()}, in\n{self.text()}")

    def cut(self, text):
        """As much of a line as there is room for."""
        return re.escape(text[:self.screen.columns - 1].rstrip()) + ("$" if len(text) < self.screen.columns else "")

    def command(self, line, pattern, what=None):
        self.type(line + b"\n")
        return self.expect(pattern, what or line.decode("latin-1"))

    def sheet(self, sheet, answer):
        """Types a sheet and the empty line; the answer stands with it."""
        self.sheets += 1
        self.type(sheet + b"\n")
        shown = " / ".join(sheet.decode().split("\n")[:-1])
        self.expect("^" + self.cut(f"{self.sheets} {shown}") + "\n" + self.cut(f"   {answer}").rstrip("$"),
                    f"sheet {self.sheets}, {sheet[:30]!r}")

    def changed(self, text):
        self.expect("^" + self.cut("last answer: " + text), f"what sheet {self.sheets} changed")

    def row(self, session, figures, mark="adds up"):
        numbers = r" +".join(str(n) for n in [session, *figures])
        mark = mark if self.screen.columns >= WIDE else MARKS[mark]
        self.expect(rf"^ *{numbers} +{mark}$", f"the row of session {session}")

    def rows(self):
        """The sessions that have a row, from the first on."""
        lines = self.screen.lines()
        at = next(n for n, line in enumerate(lines) if line.startswith(("session house", "sess.")))
        return [int(found[1]) for found in (re.match(r" *(\d+) +\d+ +\d+", line) for line in lines[at + 1:]) if found]

    def order(self, sessions, what):
        """These have the first rows."""
        self.until(lambda: not self.odd() and self.rows()[:len(sessions)] == sessions, what,
                   lambda: f"not {self.rows()}")

    def below(self):
        """What stands below the rule."""
        lines = self.screen.lines()
        return lines[next(n for n, line in enumerate(lines) if line.startswith("-- ")) + 1:-1]

    def tour(self):
        """A seat in each of forty sessions."""
        self.type(b"\n".join(TOUR) + b"\n")
        self.sheets += len(TOUR)
        self.expect(rf"^{self.sheets} issue.*\n   ok,{MANY} serial", "forty sessions")


# ---- Sheets and the panel ----

def typed(rows, columns):
    """M1, with the panel before and after its booking."""
    t = Kiosk(rows, columns)
    for sheet, answer in zip(M1[:12], ANSWERS):
        t.sheet(sheet, answer + " ")
        if sheet.startswith(b"issue,s,3"):
            t.changed("session 7: open 0 -> 1, issued 0 -> 1; coupons 1 -> 2")
    t.changed("nothing changed")
    t.row(7, [1, 0, 0, 0, 1])
    t.sheet(WRONG, "no,40,7 refused: a step breaks its rule (step 7); nothing changed")
    t.changed("nothing changed")
    t.row(7, [1, 0, 0, 0, 1])
    t.sheet(BOOKING, "ok,4 serial 4; session 7: open 1 -> 0, placed 0 -> 1; coupons 3 -> 2")
    t.changed("session 7: open 1 -> 0, placed 0 -> 1; coupons 3 -> 2")
    t.row(7, [0, 0, 1, 0, 1])
    t.sheet(BOOKING, "no,24,0 refused: the serial is not live; nothing changed")
    t.sheet(b"withdraw,4\n", "ok,4 serial 4; session 7: placed 1 -> 0, withdrawn 0 -> 1; coupons 2 -> 1")
    t.row(7, [0, 0, 0, 1, 1])
    minutes(t)
    t.command(b":quit", r"^\d live coupons are not saved")
    t.type(b"y\n")
    t.leave(0, f"M1 at {rows} rows")


def minutes(t):
    """A seat that is shut at the panel's minute, one of nobody, and a session of which nothing was issued."""
    t.sheet(b"issue,s,3,0,539,0,0\n", "ok,5 serial 5")
    t.row(7, [1, 0, 0, 1, 2])
    t.command(b":minute 540", r"^TILL  minute 540 ")
    t.row(7, [0, 1, 0, 1, 2])
    t.changed("session 7: open 0 -> 1, issued 1 -> 2; coupons 1 -> 2")
    t.sheet(b"issue,s,0,0,9999,0,0\n", "ok,6 serial 6")
    t.row(7, [0, 2, 0, 1, 3])
    t.changed("session 7: shut 1 -> 2, issued 2 -> 3; coupons 2 -> 3")
    t.command(b":session 263", "^ *263 +0 +0 +0 +0 +0 ")
    t.order([263, 7], "a session that is kept in view stands first")


def resized():
    """The panel is drawn anew, whatever the size; nothing is left of what was there."""
    t = Kiosk(24, 80)
    t.tour()
    sizes = [(12, 80), (24, 40), (12, 40), (8, 60), (7, 60), (3, 10), (2, 2), (60, 300), (300, 500), (24, 80)]
    for rows, columns in sizes:
        t.resize(rows, columns)
        if columns < 40:  # no room for what a screen has to have
            t.until(lambda: GARBAGE not in t.text(), f"{rows} rows of {columns}", t.text)
            continue
        t.expect("^TILL ", f"{rows} rows of {columns}")
        if rows >= LEAST:
            t.expect("^" + t.cut(f"last answer: session {LAST}: open 0 -> 1, issued 0 -> 1; coupons 39 -> 40"),
                     f"what changed, in {rows} rows of {columns}")
        if rows >= 12:
            t.row(LAST, [1, 0, 0, 0, 1])
    t.type(b"\x03")
    t.expect("40 live coupons are not saved", "Ctrl-C")
    t.type(b"\x03")
    t.leave(0, "Ctrl-C twice")


def many(rows, columns):
    """More sessions than there are rows: those that changed last come first, and the rest is counted."""
    t = Kiosk(rows, columns)
    t.tour()
    shown = t.rows()
    check(shown == list(range(LAST, LAST - len(shown), -1)), f"the order: {shown}")
    check(rows // 4 <= len(shown) < MANY, f"{len(shown)} sessions in {rows} rows")
    t.expect(f"^and {MANY - len(shown)} more sessions, all add up$", "the sessions without a row")
    t.sheet(b"withdraw,5\n", "ok,5 serial 5; session 104: open 1 -> 0, withdrawn 0 -> 1; coupons 40 -> 39")
    t.order([104, LAST], "the session that changed last stands first")
    t.command(b":session 100", "^ +100 +1 +0 +0 +0 +1 ")
    t.order([100, 104], "the session that is kept in view stands first")
    t.type(b":quit\n:quit\n")
    t.leave(0, ":quit twice")


# ---- Libraries that lie ----

def robbed(kiosks, rows, columns):
    """A refusal takes the seat of a session that is not in view. The banner stays, whatever comes."""
    t = Kiosk(rows, columns, kiosks.liar("ROBS=1"))
    t.tour()
    check(FIRST not in t.rows(), f"session {FIRST} is not in view: {t.rows()}")
    t.banner = True
    t.sheet(BOOKING, "no,40,1 refused")
    said = f"DOES NOT ADD UP: session {FIRST} at minute 0, since sheet {t.sheets}: open 0 + shut 0 + placed 0"
    said += " + withdrawn 0, issued 1"
    lines = t.screen.lines()[1:4]
    check("".join(lines).startswith(said), f"the banner: {lines}")
    t.row(FIRST, [0, 0, 0, 0, 1], "DOES NOT ADD UP")
    t.order([FIRST], "what does not add up stands first")
    t.changed(f"session {FIRST}: open 1 -> 0")
    t.sheet(b"withdraw,9\n", "ok,9 serial 9")
    t.order([FIRST], "what does not add up stays first")
    for line in [b":minute 5", b":log 1", b":wordings", b":coupons", b":help", b":panel"]:
        t.command(line, "^DOES NOT ADD UP", f"the banner after {line!r}")
    t.resize(rows + 3, columns + 7)
    t.expect("^DOES NOT ADD UP", "the banner at another size")
    t.command(b":new", "^39 live coupons are not saved")
    t.command(b"y", "^nothing was issued$", "the banner over an empty till")
    t.type(b":quit\n")
    t.leave(1, "a library that robs")
    check(t.raw.rstrip().decode().endswith(said), "the banner is the last line")


def returned(kiosks):
    """What was taken is there again at the next sheet: the banner stays."""
    t = Kiosk(24, 80, kiosks.liar("ROBS=1", "RETURNS"))
    t.tour()
    t.banner = True
    t.sheet(BOOKING, "no,40,1 refused")
    t.row(FIRST, [0, 0, 0, 0, 1], "DOES NOT ADD UP")
    t.sheet(b"tally,100,0\n", "ok,0,0,0 open 0")
    t.sheet(b"word,o\n", "ok,80 wording 80; session 100: open 0 -> 1; wordings 80 -> 81")
    t.row(FIRST, [1, 0, 0, 0, 1], "adds up again")
    t.expect(f"^DOES NOT ADD UP: session {FIRST} at minute 0, since sheet {len(TOUR) + 1}: ", "the banner stays")
    t.type(b":quit\n:quit\n")
    t.leave(1, "a library that robs and returns")


# ---- The log and the lists ----

def scrolled(rows, columns):
    """The log by keys and by the number of a sheet; an answer brings its end back."""
    t = Kiosk(rows, columns)
    t.type(b"\n".join(M1 + [b"tally,7,%d\n" % n for n in range(40)]) + b"\n")
    t.sheets, last = 54, 108
    t.expect(r"^54 tally,7,39\n   ok,0,0,1 ", "M1 and tallies typed")
    height = len(t.below())
    end = rf"^-- log, {last + 1 - height} to {last} of {last} "
    t.expect(end, "the log's end")
    for keys, at, what in [(HOME, 1, "the log's first lines"), (DOWN + DOWN, 3, "two lines down"), (UP, 2, "a line up"),
                           (PAGE_DOWN, 2 + height, "a page down"), (PAGE_UP, 2, "a page up"), (PAGE_UP, 1, "its start"),
                           (b":log 3\n", 5, "from sheet 3 on")]:
        t.type(keys)
        first = f"{(at + 1) // 2} " if at % 2 else "   ok,"
        t.expect(rf"^-- log, {at} to {at + height - 1} of {last} .*\n{first}", what)
    for keys, what in [(END, "the log's end again"), (HOME + b":log 99\n", "from a sheet that is to come")]:
        t.type(keys)
        t.expect(end, what)
    t.command(b":log", rf"^-- log, {last + 1 - 2 * height} to ")
    t.sheet(b"tally,7,0\n", "ok,0,0,1 open 0")
    t.type(HOME + b"\x1b[1;5A\x1bO\x1b[99~\x1b[200~")
    t.sheet(b"tally,7,1\n", "ok,0,0,1 open 0")
    listed(t)
    t.type(b":quit\n:quit\n")
    t.leave(0, "the log")


def listed(t):
    """The wordings and the coupons, from the first on."""
    t.command(b":wordings", r"^-- wordings.*\n0 a,1,7: seat 7\n1 a,2,7: place 7\n2 a,9,7: p9 7$")
    t.type(END)
    t.expect(r"^7 l,6,5: \(<1>seat 7 \* <2>p9 7\) -o <1>place 7$", "a wording, spelled out")
    offer = r"1 standing 0\.\.9999, wording 7: \(<1>seat 7 \* <2>p9 7\) -o <1>place 7"
    t.command(b":coupons", rf"^-- coupons .*\n{offer}\n4 single 540\.\.600, wording 5: <1>place 7$")
    t.command(b":help", r"^-- commands.*\n:file FILE ")
    t.type(END)
    t.expect("^:quit ", "the last command")


# ---- Questions ----

def asked(work):
    """Leaving, opening and beginning anew ask where live coupons are in no file; any other line is a no."""
    t, name = Kiosk(), work.encode() + b"/kept"
    t.sheet(M1[0], "ok,0")
    t.sheet(b"issue,s,0,0,9,0,0\n", "ok,1")
    for no in [b"n", b""]:
        t.command(b":quit", r"^1 live coupon is not saved(?s:.*)^\(y\) >$")
        t.command(no, "^not done\n(?s:.*)^>$", f"{no!r} is no")
        t.sheet(b"tally,7,0\n", "ok,0,1,0")
    t.command(b":quit", r"^1 live coupon is not saved(?s:.*)^\(y\) >$")
    t.command(b":minute 5", r"^TILL  minute 5 (?s:.*)^>$", "another command is no")
    for line in [b":quit", b":new", b":open " + name, b"\x03", b"\x04"]:
        t.type(line + (b"\n" if line.startswith(b":") else b""))
        t.expect(r"^1 live coupon is not saved(?s:.*)^\(y\) >$", f"{line!r} asks")
        t.sheet(b"tally,7,0\n", "ok,0,1,0")
        t.row(7, [0, 1, 0, 0, 1])
    t.command(b":save " + name, r"^   ok,\d+ bytes of text saved")
    t.sheet(b"withdraw,9\n", "no,24,0")
    t.command(b":open " + name, r"^   ok,\d+ bytes of text opened", "a till that is saved is not asked for")
    t.command(b":new", "^:new: an empty till")
    t.expect("^TILL .*  coupons 0  wordings 0  ", "an empty till")
    t.expect("^last answer: an empty till: 0 wordings, 0 coupons$", "that it is empty")
    t.sheet(M1[0], "ok,0")
    t.type(b":quit\n")
    t.leave(0, "wordings alone are not asked for")


def ways_out(work):
    """Every way out, with a coupon in no file and with one in a file."""
    ways = [(b":quit\n", b":quit\n"), (b":quit\n", b"y\n"), (b"\x03", b"\x03"), (b"\x03", b"y\n"), (b"\x04", b"\x04"),
            (b"\x04", b"y\n"), (b":quit\n", b"\x03"), (b"\x03", b"\x04"),
            (b"half a line\x04", b"y\n")]
    for first, second in ways:
        t = Kiosk()
        t.tour()
        t.type(first)
        t.expect(r"^40 live coupons are not saved(?s:.*)^\(y\) >$", f"{first!r} asks")
        t.type(second)
        t.leave(0, f"{first!r}, {second!r}")
    for way in [b":quit\n", b"\x03", b"\x04"]:
        t = Kiosk()
        t.tour()
        t.command(b":save " + work.encode() + b"/kept", "bytes of text saved")
        t.type(way)
        t.leave(0, f"{way!r} of a till that is saved")
    t = Kiosk()
    t.command(b":open " + wrote(work + "/opened", BEFORE), "bytes of text opened")
    t.type(b"\x03")
    t.leave(0, "Ctrl-C of a till that was opened")


def saved(work):
    """M1 saved before its booking and after it, opened again, and texts that are refused."""
    t, before, after = Kiosk(40, 160), work.encode() + b"/before", work.encode() + b"/after"
    t.type(b"\n".join(M1[:11]) + b"\n:minute 540\n:save " + before + b"\n")
    t.sheets = 11
    t.expect("^   ok,110 bytes of text saved", "M1 saved before its booking")
    check(read(before) == BEFORE, "M1's text before its booking")
    t.sheet(BOOKING, "ok,4 serial 4")
    t.command(b":save " + after, "^   ok,96 bytes of text saved")
    check(read(after) == AFTER, "M1's text after its booking")
    t.sheet(b"withdraw,4\n", "ok,4 serial 4")
    t.type(b":open " + before + b"\ny\n")
    t.expect("^   ok,110 bytes of text opened; issued begins at what its singles hold", "M1 opened")
    t.changed("that text's till: 8 wordings, 3 coupons")
    t.row(7, [1, 0, 0, 0, 1])
    refused(t, work)
    t.sheet(BOOKING, "ok,4 serial 4")
    t.row(7, [0, 0, 1, 0, 1])
    t.type(b":open " + after + b"\ny\n")
    t.expect("^   ok,96 bytes of text opened", "M1 opened after its booking")
    t.sheet(BOOKING, "no,24,0 refused: the serial is not live")
    t.row(7, [0, 0, 1, 0, 1])
    t.type(b":quit\n")
    t.leave(0, ":quit after an opening")


def refused(t, work):
    """What is not opened or saved, and why; the till stays."""
    texts = [(b"till,1,1,0,1\n", 50), (BEFORE[:-1], 50), (b"", 50), (BEFORE.replace(b"till,1,4", b"till,1,3"), 51)]
    for number, (text, refusal) in enumerate(texts + [(b"x" * 40000, 50), (BEFORE + b"\n" * 36153, 50)]):
        name = wrote(f"{work}/bad{number}", text)
        t.command(b":open " + name, rf"^:open {name.decode()}\n   no,{refusal},0 refused: .* text", f"{text[:20]!r}")
        t.row(7, [1, 0, 0, 0, 1])
    for line, why in [(b"/none", "No such file"), (b"", "Is a directory")]:
        t.command(b":open " + work.encode() + line, f"cannot read that file: {why}")
    t.command(b":open", "^:open: cannot read that file: No such file")
    for line, why in [(b"/none/x", "No such file"), (b"", "Is a directory")]:
        t.command(b":save " + work.encode() + line, f"cannot save to that file: {why}")
    t.command(b":save", "^:save: cannot save to that file: No such file")
    check(not os.path.exists(work + ".new"), "nothing is left of a save that failed")
    t.row(7, [1, 0, 0, 0, 1])


# ---- Keys, bytes and ends ----

def commands():
    t = Kiosk()
    for line in [b":session 65536", b":session", b":session -1", b":session 99999999999999999999", b":session 7x"]:
        t.command(b":drop\n" + line, r"^dropped .*\na session is a number from 0 to 65535$", line.decode())
    t.command(b":drop\n:minute 10000000", "^dropped .*\na minute is a number from 0 to 9999999$")
    t.command(b":drop\n:log x", "^dropped .*\n:log takes the number of a sheet$")
    for line in [b":", b":qui", b":quitx", b":\xff\xfe", b":" + b"x" * 3000]:
        t.command(b":drop\n" + line, r"^dropped .*\nno such command; :help lists them$", f"{line[:20]!r}")
    t.command(b"word,o\n:drop", "^dropped what was typed of a sheet: 7 bytes$")
    t.sheet(b"word,a,1,7\n", "ok,0 wording 0")
    t.type(b"word,a,2,7\n:minute 9\n")
    t.expect(r"^TILL  minute 9 (?s:.*)^> word,a,2,7\n(?s:.*)^\(sheet\) >$", "a command in a sheet")
    t.sheets += 1
    t.type(b"\n")
    t.expect("^2 word,a,2,7\n   ok,1 wording 1", "the sheet with its empty line")
    t.type(b"word,x\x7f\x08,a,3,7\x15word,a,3,6\x7f7")
    t.expect("^> word,a,3,7$", "a line that was erased in parts")
    t.type(b"\n\n")
    t.expect("^3 word,a,3,7\n   ok,2 wording 2", "the line that was left")
    t.type(b"word,o\nwith")
    t.expect(r"^\(sheet\) > with$", "a sheet that is begun")
    t.type(b"\x04")
    t.leave(0, "Ctrl-D in the middle of a sheet")
    check(b"The sheet that was begun was not handed over." in t.raw, "Ctrl-D in the middle: said so")


def files(work):
    name = wrote(work + "/sheets", b"\n".join(M1) + b"\n" + BOOKING)
    t = Kiosk()
    t.command(b":file " + name, rf"^:file {name.decode()}: 14 sheets accepted, 1 refused$")
    t.expect(r"^14 tally,7,540\n   ok,0,0,1 open 0 \(house seats\), shut 0, placed 1; nothing changed\n15 book,",
             "its last answers")
    t.row(7, [0, 0, 1, 0, 1])
    t.command(b":file " + work.encode() + b"/none", "cannot open that file: No such file")
    t.command(b":file " + work.encode(), "cannot read that file to its end: Is a directory")
    t.command(b":file", "^:file: cannot open that file: No such file")
    t.type(b":file /dev/zero\n")
    time.sleep(0.2)
    t.type(b"\x03")
    t.expect("^:file /dev/zero: cannot read that file to its end: Interrupted", "Ctrl-C ends a file that has no end")
    t.type(b":quit\n:quit\n")
    t.leave(0, ":quit after files")


def any_bytes(work):
    """What a sheet has in it does not reach the terminal as it is, typed or in a file."""
    sheet = bytes(range(256)).replace(b"\n", b"") + b"\x1b[2J\x1b]0;x\x07\x9b2J\n"
    t = Kiosk(24, 80)
    t.command(b":file " + wrote(work + "/bytes", sheet), r"^1 \\x00\\x01\\x02.*\n   no,2,0 refused: ")
    wrote(work + "/ends", b"word,o")
    t.command(b":file " + work.encode() + b"/ends", r"^2 word,o \(no line end\)\n   no,2,0 refused: ")
    t.type(b"\x00\x01\t\x7f\\\xff\xc3\xa4%s%n")
    t.expect(r"^> \\x00\\x01\\\\\\xff\\xc3\\xa4%s%n$", "bytes that are typed")
    t.type(b"\n\n")
    t.expect(r"^3 \\x00\\x01\\\\\\xff\\xc3\\xa4%s%n\n   no,2,0 ", "a sheet of these")
    t.type(b"\n")
    t.expect(r"^4 \(empty\)\n   no,2,0 ", "an empty sheet")
    t.type(b"word,o,this,is,too,much\n" * 800 + b"\n")
    t.expect(r"^5 word,o,this,is,too,much / word.*\n   no,1,0 refused: over 16,384 bytes", "many lines")
    t.type(b"x" * 9000 + b"yz")
    t.expect(r"^> <x{70,}yz$", "the end of a long line is in view")
    t.type(b"\n\n")
    t.expect(r"^6 x{70,}\n   no,2,0 ", "a long line")
    t.command(b":open \xff\x9b2J", r"^:open \\xff\\x9b2J: cannot read")
    t.type(b":quit\n")
    t.leave(0, "any bytes")


def ends():
    """The terminal goes away, or the kiosk is ended from outside: the terminal's settings are as they were."""
    t = Kiosk()
    os.close(t.fd)
    end = time.time() + t.patience
    while time.time() < end and not os.waitpid(t.pid, os.WNOHANG)[0]:
        time.sleep(0.02)
    check(time.time() < end, "the terminal goes away")
    for number in [signal.SIGTERM, signal.SIGHUP]:
        t = Kiosk()
        before = termios.tcgetattr(t.fd)[3]
        t.tour()
        os.kill(t.pid, number)
        t.until(lambda: termios.tcgetattr(t.fd)[3] & termios.ECHO, f"signal {number}: the echo", lambda: "is off")
        check(not before & termios.ECHO, "a screen has no echo of its own")
        t.leave(1, f"signal {number}")


# ---- A terminal that knows no escapes ----

def plain(kiosks):
    """TERM=dumb, an empty TERM, or none: lines and a prompt, no byte 27, and the same questions."""
    for term in ["dumb", "", None]:
        t = Terminal(KIOSK, term=term)

        def said(pattern, what):
            t.until(lambda: re.search(pattern, t.raw), f"TERM={term}: {what}", lambda: t.raw[-300:])

        t.type(b"word,a,1,7\n\nissue,s,0,0,9,0,0\n\n\x16\x1b[2J\n\n:panel\n:help\n")
        said(rb"1\tword,a,1,7\tok,0\twording 0\twordings 0 -> 1\r\n", "a wording")
        said(rb"2\tissue,s,0,0,9,0,0\tok,1\tserial 1\tsession 7: shut 0 -> 1, issued 0 -> 1; coupons 0 -> 1", "a seat")
        said(rb"3\t\\x1b\[2J\tno,2,0\trefused: not the form of a sheet\tnothing changed\r\n", "an escape")
        said(rb"panel session 7 minute 0: open 0 \(house seats\) \+ shut 1 .*adds up\r\n", ":panel")
        said(rb":quit  (?s:.*)> ", ":help")
        for way in [b":quit\n", b"\x03", b"\x04"]:
            t.raw = b""
            t.type(way)
            said(rb"1 live coupon is not saved.*\r\n\(y\) > ", f"{way!r} asks")
            t.type(b"n\n")
            said(rb"not done\r\n> ", "no")
        t.type(b"\x03")
        said(rb"\(y\) > $", "Ctrl-C asks again")
        t.type(b"y\n")
        t.leave(0, f"TERM={term}")
        check(b"\x1b" not in t.raw, f"TERM={term}: no escapes")
    plain_banner(kiosks)


def plain_banner(kiosks):
    """Without a screen the banner stands before every prompt."""
    t = Terminal(kiosks.liar("ROBS=1"), term="dumb")
    said = rb"DOES NOT ADD UP: session 100 at minute 0, since sheet 121: [^\n]*\r\n"
    t.type(b"\n".join(TOUR) + b"\n" + BOOKING + b"\n")
    for line, prompt in [(b":minute 7\n", rb"> $"), (b":new\n", rb"\(y\) > $"), (b"y\n", rb"> $")]:
        t.until(lambda: re.search(said + rb"> $|" + said + rb"\(y\) > $", t.raw), "the banner", lambda: t.raw[-300:])
        t.raw = b""
        t.type(line)
        t.until(lambda: re.search(said + prompt, t.raw), f"the banner after {line!r}", lambda: t.raw[-300:])
    t.type(b":quit\n")
    t.leave(1, "a library that robs, on a plain terminal")
    check(b"\x1b" not in t.raw, "a plain banner has no escapes")


def meaningless(program, work):
    """Keys of no meaning, at sizes that change, with the kiosk under sanitizers."""
    pieces = [b"\n", b"\n\n", b"7", UP, DOWN, PAGE_UP, PAGE_DOWN, HOME, END, b"\x1b", b"\x7f", b"\x15", b":log 2\n",
              b":help\n", b":wordings\n", b":coupons\n", b":minute 7\n", b":session 9\n", b":panel\n", b":drop\n",
              b":save kept\n", b":open kept\n", b":open begun\n", b":new\n", b"y\n", b"n\n", b":", b"\xff\x00\t",
              b"x" * 3000, *M1, *TOUR[:9]]
    os.makedirs(work + "/keys", exist_ok=True)
    wrote(work + "/keys/begun", BEFORE)
    for seed in range(4):
        dice = random.Random(seed)
        t = Kiosk(program=program, folder=work + "/keys")
        for _ in range(200):
            t.type(dice.choice(pieces))
            if dice.random() < 0.1:
                t.resize(dice.randrange(1, 60), dice.randrange(1, 200))
        t.resize(24, 80)
        t.type(b"\x15\n:minute 5550%d\n" % seed)
        t.until(lambda: f" 5550{seed} " in t.screen.lines()[0] and not set(t.odd()) - set(t.screen.odd),
                f"keys and sizes, seed {seed}", t.text)
        t.screen.odd.clear()  # what was on its way to a screen of another size
        for _ in range(50):
            t.type(dice.choice(pieces))
        t.expect("^TILL ", f"keys of no meaning, seed {seed}")
        t.type(b"\n:drop\n:save kept\n:quit\n")
        t.leave(0, f"keys of no meaning, seed {seed}")
