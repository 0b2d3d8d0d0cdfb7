"""The kiosk as a script: beside tillrun and a recount, saved and opened, on any bytes, and with libraries that lie."""
import os
import random
import re
import subprocess
from collections import Counter

from lists import BEFORE, BOOKING, KIOSK, M1, PANEL, PANEL_BOOKINGS, TOUR, WRONG, sheets_of, wrote
from shared import ROOT, TILLRUN, check, read

LINE_MOST = 240  # kiosk/line.h
REFUSALS = dict(line.split("\t")[::2] for line in read(ROOT + "/include/refusals.txt").decode().splitlines())


def script(data, program=None, folder=None):
    done = subprocess.run([program or KIOSK], input=data, capture_output=True, timeout=120, cwd=folder)
    return done.returncode, done.stdout.decode("latin-1").splitlines()


def of_sheets(lines):
    """The fields of the lines of sheets: its number, the sheet, the answer, what it means, what it changed."""
    return [line.split("\t") for line in lines if re.match(r"\d+\t", line)]


def answers(lines):
    return [fields[2] for fields in of_sheets(lines)]


def tillrun(data):
    return subprocess.run([TILLRUN], input=data, capture_output=True, timeout=120).stdout.decode().splitlines()


# ---- A recount ----

def atoms(f, words):
    """The seats and places of a wording line, as (predicate, session, nearest principal); words has its parts."""
    if f[0] in ("a", "n"):
        return [(int(f[1]), int(f[2]), None)] if f[1] in ("1", "2") else []
    parts = {"s": f[2:3], "b": f[1:2], "h": f[1:2], "q": f[1:2], "o": [], "g": []}.get(f[0], f[1:3])
    held = [atom for part in parts for atom in words[int(part)]]
    return [(p, s, int(f[1]) if k is None else k) for p, s, k in held] if f[0] == "s" else held


class Recount:
    """From the accepted sheets and their answers: issued and withdrawn by session, and the live coupons."""

    def __init__(self):
        self.words, self.live, self.issued, self.withdrawn = {}, {}, Counter(), Counter()

    def note(self, sheet, answer):
        if not answer.startswith("ok,") or sheet.startswith(b"tally"):
            return
        lines = sheet.decode().split("\n")
        f, n = lines[0].split(","), int(answer[3:])
        if f[0] == "word":
            self.words[n] = atoms(f[1:], self.words)
        elif f[0] in ("issue", "book"):
            for hold in lines[1:1 + int(f[7])] if f[0] == "book" else []:
                if self.live[int(hold[5:])][0]:
                    del self.live[int(hold[5:])]
            single = f[0] == "book" or f[1] == "s"
            self.live[n] = single, self.words[int(f[2])], [int(m) for m in f[3:7]]
            if f[0] == "issue" and single:
                self.issued.update(s for _, s, _ in self.words[int(f[2])])
        else:
            single, held, _ = self.live.pop(n)
            self.withdrawn.update(s for _, s, _ in held if single)

    def figures(self, session, minute):
        """Open, shut and placed: open are the seats whose nearest principal is 1, in a window that has the minute."""
        figures = [0, 0, 0]
        for single, held, (start, end, first, last) in self.live.values():
            has = start <= minute <= end and not (last and first <= minute <= last)
            for predicate, _, nearest in (atom for atom in held if single and atom[1] == session):
                figures[2 if predicate == 2 else 0 if has and nearest == 1 else 1] += 1
        return figures

    def sessions(self):
        """Those that a wording names, in that order."""
        return list(dict.fromkeys(s for n in sorted(self.words) for _, s, _ in self.words[n]))


NAMES = ["open", "shut", "placed", "withdrawn", "issued"]


def state(count, minute):
    """All that a line of changes speaks of."""
    figures = {s: [*count.figures(s, minute), count.withdrawn[s], count.issued[s]] for s in count.sessions()}
    return figures, {"wordings": len(count.words), "coupons": len(count.live)}


def changes(before, after):
    """The line for it."""
    parts = []
    for session, now in after[0].items():
        was = before[0].get(session, [0] * 5)
        moved = [f"{name} {a} -> {b}" for name, a, b in zip(NAMES, was, now) if a != b]
        parts += [f"session {session}: " + ", ".join(moved)] if moved else []
    parts += [f"{name} {was} -> {after[1][name]}" for name, was in before[1].items() if was != after[1][name]]
    line = "; ".join(parts) or "nothing changed"
    return line if len(line) <= LINE_MOST else line[:LINE_MOST - 2] + ".."


def meant(sheet, answer):
    """An answer in words."""
    word, *numbers = answer.split(",")
    if word == "no":
        return f"refused: {REFUSALS[numbers[0]]}" + (f" (step {numbers[1]})" if numbers[1] != "0" else "")
    if len(numbers) == 3:
        return "open {} (house seats), shut {}, placed {}".format(*numbers)
    return ("wording " if sheet.startswith(b"word") else "serial ") + numbers[0]


def shown(sheet):
    """A sheet as it stands beside its answer."""
    def escaped(line):
        odd = {9: "\\t", 13: "\\r", 92: "\\\\"}
        return "".join(odd.get(b) or (chr(b) if 32 <= b < 127 else f"\\x{b:02x}") for b in line)
    parts = sheet.split(b"\n")
    text = " / ".join(escaped(line) for line in (parts if parts[-1] else parts[:-1])) if sheet else "(empty)"
    text += " (no line end)" if sheet and not sheet.endswith(b"\n") else ""
    return text if len(text) <= LINE_MOST else text[:LINE_MOST - 2] + ".."


# ---- Lists beside tillrun ----

def places(data):
    """Some sessions and minutes: those that occur, small and large, those that a byte would take for them, others."""
    found = sorted({int(s) for s in re.findall(rb"(?m)^word,[an],[12],(\d{1,5})(?:,\d+)?$", data) if int(s) <= 65535})
    sessions = {s for at in found[:3] + found[-2:] for s in (at, at % 256)} | {0, 255, 65535}
    minutes = {int(m) for m in re.findall(rb"(?m)^issue,.,\d+,(\d{1,6}),\d+,\d+,\d+$", data)}
    return sorted(sessions), sorted({*sorted(minutes)[:3], 540, 9999999})


def panel_line(session, minute, figures, withdrawn, issued):
    panel = "open {} (house seats) + shut {} + placed {}".format(*figures)
    return f"panel session {session} minute {minute}: {panel} + withdrawn {withdrawn} = issued {issued}, adds up"


def panels(count, data, opened):
    """What :panel says at some minutes with some session kept in view, and what was typed for it: every session of
    which there is anything to be said, and the kept one."""
    typed, due = b"", []
    sessions, minutes = places(data)
    for turn, minute in enumerate(minutes):
        kept = sessions[turn % len(sessions)]
        typed += b":minute %d\n:session %d\n:panel\n" % (minute, kept)
        lines = []
        for session in {kept, *count.sessions()}:
            figures = count.figures(session, minute)
            withdrawn, issued = (0, sum(figures)) if opened else (count.withdrawn[session], count.issued[session])
            if issued or session == kept:
                lines.append(panel_line(session, minute, figures, withdrawn, issued))
        due.append(sorted(lines))
    return typed, due


def panels_of(lines):
    """The panels at the end of what was printed, by their minutes, each in order."""
    panels = {}
    for line in lines:
        if line.startswith("panel "):
            panels.setdefault(line.split(":")[0].split(" ")[-1], []).append(line)
    return [sorted(panel) for panel in panels.values()]


def reopened(name, ended, count, data, work):
    """The list again, saved and opened: issued begins at what lives, withdrawn at 0. Another kiosk opens and saves the
    same bytes."""
    first, second = work.encode() + b"/first", work.encode() + b"/second"
    typed, due = panels(count, data, True)
    status, lines = script(ended + b":save " + first + b"\n:open " + first + b"\n" + typed)
    length = os.path.getsize(first)
    told = [line.split("\t")[2:] for line in lines if line.startswith("\t:")]
    words = [["bytes of text saved"], ["bytes of text opened; issued begins at what its singles hold"]]
    check(told == [[f"ok,{length}"] + word for word in words] and status == 0, f"{name}: saved and opened, {told}")
    check(panels_of(lines) == due, f"{name}: the panel of a text, {panels_of(lines)[:1]} for {due[:1]}")
    status, lines = script(b":open " + first + b"\n:save " + second + b"\n" + typed)
    check(panels_of(lines) == due and status == 0, f"{name}: the panel of a text, in another kiosk")
    check(read(first) == read(second), f"{name}: saved, opened and saved")


def scripted(name, data, work):
    """A list: answers beside tillrun's, then the panel at some minutes beside its tallies and a recount of all; and
    once more from its text."""
    ended = data if data.endswith(b"\n\n") or not data else data.rstrip(b"\n") + b"\n\n"
    sessions, minutes = places(data)
    asked = [(s, m) for s in sessions for m in minutes]
    due = tillrun(ended + b"".join(b"tally,%d,%d\n\n" % place for place in asked))
    sheets, played = sheets_of(ended), due[:len(due) - len(asked)]
    count = Recount()
    for sheet, answer in zip(sheets, played):
        count.note(sheet, answer)
    typed, panel = panels(count, data, False)
    status, lines = script(ended + typed)
    check(answers(lines) == played, f"{name}: the answers")
    check([fields[1] for fields in of_sheets(lines)] == [shown(sheet) for sheet in sheets], f"{name}: the sheets")
    check(panels_of(lines) == panel and status == 0, f"{name}: the panel, {panels_of(lines)[:1]} for {panel[:1]}")
    tallies = ["ok,{},{},{}".format(*count.figures(*place)) for place in asked]
    check(due[len(played):] == tallies, f"{name}: the tallies, {due[len(played):][:3]} for {tallies[:3]}")
    reopened(name, ended, count, data, work)


def followed():
    """The panel of every session after each booking, with 200 wordings (document 02, ask 9), beside a recount."""
    sheets, count, minute = PANEL + PANEL_BOOKINGS, Recount(), 540
    typed = b"".join(sheet + b"\n" for sheet in PANEL) + b":minute %d\n" % minute
    typed += b"".join(sheet + b"\n:panel\n" for sheet in PANEL_BOOKINGS)
    due = tillrun(b"".join(sheet + b"\n" for sheet in sheets))
    status, lines = script(typed)
    check(answers(lines) == due and all(answer.startswith("ok,") for answer in due), "panel: the answers")
    shown_panels = [line for line in lines if line.startswith("panel ")]
    for sheet, answer in zip(sheets, due):
        count.note(sheet, answer)
        if sheet.startswith(b"book"):
            ask = sorted(count.sessions())
            panel = [panel_line(s, minute, count.figures(s, minute), count.withdrawn[s], count.issued[s]) for s in ask]
            got, shown_panels = shown_panels[:len(panel)], shown_panels[len(panel):]
            check(sorted(got) == sorted(panel), f"panel after {answer}: {got[:1]} for {panel[:1]}")
    check(not shown_panels and status == 0, f"panel: {len(shown_panels)} lines more, status {status}")


def changed(name, data):
    """What every answer of a list means and changed."""
    count, sheets, got = Recount(), sheets_of(data), of_sheets(script(data)[1])
    for number, (sheet, fields) in enumerate(zip(sheets, got), 1):
        before = state(count, 0)
        count.note(sheet, fields[2])
        due = [str(number), shown(sheet), fields[2], meant(sheet, fields[2]), changes(before, state(count, 0))]
        check(fields == due, f"{name}, sheet {number}: {fields}, due {due}")
    check(len(got) == len(sheets), f"{name}: a line for each sheet")


def generated(folder, work):
    """Every generated session, as typed and as a file: in a file no line is a command."""
    if not folder:
        folder = work + "/generated"
        subprocess.run([ROOT + "/tests/generate/write", folder], check=True)
    names = sorted(n for n in os.listdir(folder) if n.endswith(".in"))
    check(len(names) > 50, "generated sessions")
    for name in names:
        data = read(f"{folder}/{name}")
        if not re.search(rb"(?m)^:", data):
            scripted(name, data, work)
        status, lines = script(f":file {folder}/{name}\n".encode())
        check(answers(lines) == tillrun(data) and status == 0, f"{name} as a file")


# ---- Lists of commands ----

def spelled():
    """Every letter of a wording, and the two kinds of coupons, one in a holder's name."""
    words = [b"a,1,7", b"a,2,65535", b"a,9,0", b"o", b"t,0,1", b"w,0,1", b"p,0,1", b"l,4,0", b"u,4,7", b"b,3",
             b"h,0,540,1080,720,779", b"s,2,4", b"g,0,9,0,0,1,5,2,3", b"s,1,12", b"n,2,7,65535", b"n,9,7,0",
             b"l,0,15", b"q,16", b"t,17,14"]
    due = ["0 a,1,7: seat 7", "1 a,2,65535: place 65535", "2 a,9,0: p9 0", "3 o: 1", "4 t,0,1: seat 7 * place 65535",
           "5 w,0,1: seat 7 & place 65535", "6 p,0,1: seat 7 + place 65535",
           "7 l,4,0: (seat 7 * place 65535) -o seat 7",
           "8 u,4,7: (seat 7 * place 65535) => ((seat 7 * place 65535) -o seat 7)", "9 b,3: !1",
           "10 h,0,540,1080,720,779: seat 7@[540..1080 without 720..779]", "11 s,2,4: <2>(seat 7 * place 65535)",
           "12 g,0,9,0,0,1,5,2,3: [0..9] has [1..5 without 2..3]", "13 s,1,12: <1>[0..9] has [1..5 without 2..3]",
           "14 n,2,7,65535: place 7 holder 65535", "15 n,9,7,0: p9 7 holder 0", "16 l,0,15: seat 7 -o p9 7 holder 0",
           "17 q,16: every holder: seat 7 -o p9 7 holder 0",
           "18 t,17,14: (every holder: seat 7 -o p9 7 holder 0) * place 7 holder 65535"]
    data = b"".join(b"word," + word + b"\n\n" for word in words)
    status, lines = script(data + b":wordings\n")
    check(status == 0 and lines[len(words):] == due, f"wordings spelled out: {lines[len(words):]}")
    coupons = data + b"issue,s,11,0,600,10,20\n\nissue,r,3,0,9,0,0\n\nissue,s,14,1,1,0,0\n\nwithdraw,1\n\n:coupons\n"
    status, lines = script(coupons)
    due = ["2 standing 0..9, wording 3: 1", "3 single 1..1, wording 14: place 7 holder 65535"]
    check(status == 0 and lines[-2:] == due, f"coupons: {lines[-3:]}")
    lines = script(coupons.replace(b"withdraw,1\n\n", b""))[1]
    due = "1 single 0..600 without 10..20, wording 11: <2>(seat 7 * place 65535)"
    check(lines[-3] == due, f"a break: {lines[-3:]}")
    check(script(b":wordings\n:coupons\n")[1] == ["none", "none"], "no wordings, no coupons")


def logged():
    """The log of a script, from a sheet on; its oldest lines go."""
    data = b"".join(b"word,a,1,%d\n\n" % n for n in range(3))
    lines = script(data + b":log 2\n")[1][3:]
    due = ["2 word,a,1,1", "   ok,1 wording 1; wordings 1 -> 2", "3 word,a,1,2", "   ok,2 wording 2; wordings 2 -> 3"]
    check(lines == due, f":log 2: {lines}")
    lines = script(b"tally,7,0\n\n" * 3000 + b":log\n")[1][3000:]
    ends = [lines[0], lines[-2]] == ["953 tally,7,0", "3000 tally,7,0"]
    check(len(lines) == 4096 and ends, f"the oldest lines go: {len(lines)}, {lines[:1]}")


def streams():
    """Where a script ends, and what it may hold."""
    ends = [b"", b"\n", b"word,o", b"word,o\n", b"word,o\n\n", b"\n\nword,o\n\n\n", b"x" * 16384, b"x" * 16385,
            b"x" * 3000000 + b"\n\nword,o\n", bytes(range(256)) * 9, b"\0\n\n\xff\n", b"word,o\r\n\r\nword,o\n\n"]
    for data in ends:
        status, lines = script(data)
        check(answers(lines) == tillrun(data) and status == 0, f"the script {data[:30]!r}")
    word = "1\tword,o\tok,0\twording 0\twordings 0 -> 1"
    check(script(b"word,o\n\n:quit\nword,a,1,7\n\n") == (0, [word]), "lines after :quit")
    check(script(b"word,o\n:quit") == (0, []), "a sheet before :quit, and :quit without an end")
    unknown = "no such command; :help lists them"
    check(script(b":file " + b"x" * 5000 + b"\n:session 3\0\n") == (0, [unknown, unknown]), "a long name, a byte 0")
    ended = b"\n".join(M1[:11]) + b"\n"
    check(script(ended + b":new\n:quit\n:panel\n")[1][11:] == [":new: an empty till"], "a script is not asked")


# ---- Libraries that lie ----

def lied_to(kiosks, work):
    """A till that robs a session at a refusal, and other lies: a script finds each at the sheet after which it shows,
    without a command, and ends with status 1."""
    tour = b"\n".join(TOUR) + b"\n"
    seat = "session 100 at minute 0, since sheet 121: open 0 + shut 0 + placed 0 + withdrawn 0, issued 1"
    check(script(tour + BOOKING)[0] == 0, "a library that does not lie")
    for lies in [["ROBS=1"], ["ROBS=1", "RETURNS"]]:
        status, lines = script(tour + BOOKING + b"\nword,o\n\n:new\n", kiosks.liar(*lies))
        found = [n for n, line in enumerate(lines) if re.search("DOES NOT|IS NOT", line)]
        said = {lines[n] for n in found} == {"DOES NOT ADD UP: " + seat}
        check(found == [121, len(lines) - 1] and said and status == 1, f"{lies}: {status}, {found}, {lines[120:]}")
    status, lines = script(b"\n".join(M1[:11] + [WRONG]), kiosks.liar("ROBS=1"))
    due = "IS NOT AS COUNTED: the till's text, since sheet 12: line 1 is till,1,4,8,2, counted till,1,4,8,3"
    check(lines[-2:] == [due, due] and status == 1, f"a standing coupon is taken: {status}, {lines[-2:]}")
    status, lines = script(b"\n".join(M1[:3] + TOUR[:1]), kiosks.liar())
    due = "DOES NOT ADD UP: session {} at minute 0, since sheet {}: open 1 + shut 0 + placed 0 + withdrawn 0, issued 0"
    said = [line for line in lines if "\t" not in line]
    said = said == [due.format(7, 1), due.format(100, 4), due.format(7, 1)]
    check(said and lines[-1] == due.format(7, 1) and status == 1, f"one seat too many: {status}, {lines}")
    status, lines = script(b"\n".join(M1[:11]) + b"\n:minute 601\ntally,7,601\n\n", kiosks.liar("MOVED"))
    due = "IS NOT AS COUNTED: session 7 at minute 601, since :minute after sheet 11: open 1, shut 0, placed 0,"
    marked = lines[11] == due + " counted 0, 1, 0" and lines[13] == "IS NOT AS COUNTED: the answer, since sheet 12"
    check(status == 1 and marked, f"a seat is moved: {status}, {lines[11:]}")
    status, lines = script(b":open " + wrote(work + "/m1", BEFORE) + b"\n", kiosks.liar("EMPTIED"))
    due = "DOES NOT ADD UP: session 7 at minute 0, since :open after sheet 0: open 0 + shut 0 + placed 0 + withdrawn 0,"
    check(lines[1] == due + " issued 1" and status == 1, f"a text is lost: {status}, {lines}")
    refused = b"\n".join(M1[:11]) + b"\n:open " + wrote(work + "/none", b"") + b"\n"
    status, lines = script(refused, kiosks.liar("EMPTIED"))
    due = due.replace("sheet 0", "sheet 11") + " issued 1"
    check(lines[-2:] == [due, due] and status == 1, f"a refused text empties the till: {status}, {lines[-2:]}")


def any_bytes(program, work):
    """Scripts of no meaning, with the kiosk under the address and undefined-behaviour sanitizers."""
    names = [b":session ", b":minute ", b":panel", b":drop", b":help", b":file ", b":", b":file " + work.encode(),
             b":new\n", b":log\n", b":log 3\n", b":wordings\n", b":coupons\n", b":save ", b":open ", b":save kept\n",
             b":open kept\n", b":open begun\n"]
    folder = work + "/meaningless"
    os.makedirs(folder, exist_ok=True)
    wrote(folder + "/begun", BEFORE)
    for seed in range(40):
        dice = random.Random(seed)
        pieces = [b"\n", b"\n\n", b"7", b"99999999999", b"x" * 20000, *names, *M1]
        data = b"".join(dice.choice(pieces) if dice.random() < 0.8 else dice.randbytes(dice.randrange(99))
                        for _ in range(300))
        done = subprocess.run([program], input=data, capture_output=True, timeout=120, cwd=folder)
        good = done.returncode == 0 and done.stderr == b"" and not re.search(rb"DOES NOT|IS NOT AS", done.stdout)
        check(good, f"bytes of no meaning, seed {seed}: {done.returncode}, {done.stderr[:600]}")
