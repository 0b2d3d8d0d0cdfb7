#!/usr/bin/env python3
"""Writes the lists of bench/run to a folder, one a file: sheets as tillrun reads them, those before a line `---` untimed.
Those for the whole program, NAME.in, have no such line.
bench/lists.py FOLDER
"""
import os
import sys

M1 = ["a,1,7", "a,2,7", "a,9,7", "s,1,0", "s,2,2", "s,1,1", "t,3,4", "l,6,5"]
M1_STEPS = (
    "cp,0 ll,3,0000000000000006,540,600,0,0 tr,0000000000000002 sr sl,1 af ax,4 sr sl,2 af ax,5 sr sl,6 af ax,7"
).split()


def words(lines):
    return ["word," + line for line in lines]


def book(head, holds, steps):
    lines = [f"book,{head},{len(holds)},{len(steps)}"] + [f"hold,{h}" for h in holds] + list(steps)
    return "\n".join(lines)


def m1():
    issues = ["issue,r,7,0,9999,0,0", "issue,s,3,0,600,0,0", "issue,s,4,0,600,0,0", "tally,7,540"]
    return [], words(M1) + issues + [book("540,5,540,600,0,0", [1, 2, 3], M1_STEPS), "tally,7,540"]


def full_till(most):
    """So many coupons live; then one is withdrawn and one issued, in turns, all over the till, until each has changed
    often."""
    begin = words(M1) + ["issue,s,0,0,9,0,0"] * most
    live = list(range(1, most + 1))
    turns = []
    for n in range(4 * most):
        k = (n * 173) % most
        turns += [f"withdraw,{live[k]}", "issue,s,0,0,9,0,0"]
        live[k] = most + 1 + n
    return begin, turns


def withdrawals(most):
    """So many coupons live; then each is withdrawn, all over the till. Every serial has five digits, so that sheets are as
    long however many live."""
    begin = [text(10001, M1, [])] + ["issue,s,0,0,9,0,0"] * most
    return begin, [f"withdraw,{10001 + (n * 173) % most}" for n in range(most)]


def tallies(most):
    """200 wordings of 50 sessions and so many coupons over all of them, of which each minute is in one fewer than the last.
    A session has a seat, the same under ⟨1⟩, so that half of the seats are the house's, and a place or an atom that
    counts nothing; 50 wordings are pairs of neighbours."""
    sessions = [[f"a,1,{n}", f"s,1,{3 * n}", f"a,{2 + n % 2},{n}"] for n in range(50)]
    pairs = [f"t,{n},{n + 1}" for n in range(50)]
    begin = words(sum(sessions, []) + pairs) + [f"issue,s,{n % 200},0,{n},0,0" for n in range(most)]
    return begin, [f"tally,{n % 50},{n}" for n in range(200)]


def panel(most, bookings):
    """The panel after each booking: 25 sessions with M1's eight wordings each, so many coupons over them, an offer for each
    session and then seats and tokens in turn; M1's booking in one session after another, and after each a tally of all."""
    turns = []
    for n in range(bookings):
        session, seat = n % 25, 26 + 2 * n
        turns.append(book(f"540,{8 * session + 5},540,600,0,0", [1 + session, seat, seat + 1], M1_STEPS))
        turns += [f"tally,{each},540" for each in range(25)]
    parts = [f"r,{8 * n + 7}" for n in range(25)] + [f"s,{8 * (n // 2 % 25) + 3 + n % 2}" for n in range(most - 25)]
    return words(session_lines()) + [f"issue,{part},0,{600 + n},0,0" for n, part in enumerate(parts)], turns


def bookings_alone(lists):
    begin, turns = lists
    return begin, [turn for turn in turns if turn.startswith("book")]


def three_live(rounds):
    """M1's booking, a tally and a withdrawal over and over: a seat and a token are issued, tallied and booked with the
    offer, and the place is withdrawn. Three coupons are live at the tally, and each round three come and go."""
    turns = []
    for seat in range(2, 2 + 3 * rounds, 3):
        turns += ["issue,s,3,0,600,0,0", "issue,s,4,0,600,0,0", "tally,7,540"]
        turns += [book("540,5,540,600,0,0", [1, seat, seat + 1], M1_STEPS), f"withdraw,{seat + 2}"]
    return words(M1) + ["issue,r,7,0,9999,0,0"], turns


def booked_15(times):
    """M1's booking, so many times."""
    begin = words(M1) + ["issue,r,7,0,9999,0,0"] + ["issue,s,3,0,600,0,0", "issue,s,4,0,600,0,0"] * times
    return begin, [book("540,5,540,600,0,0", [1, 2 + 2 * n, 3 + 2 * n], M1_STEPS) for n in range(times)]


def booked_256():
    """A goal under 63 affirmations, by way of an offer whose part is under 61 of them; accepted in 256 steps."""
    begin = words(["a,1,7"] + [f"s,1,{n}" for n in range(63)] + ["o"] + [f"s,1,{n}" for n in range(64, 125)])
    begin += words(["l,125,64", "h,64,0,9,0,0"]) + ["issue,r,126,0,9,0,0", "issue,r,127,0,9,0,0"]
    begin += ["issue,s,0,0,9,0,0"] * 40
    steps = ["sr", "af"] * 63 + ["cp,0", "cp,1", "hl,4", "ol,5", "ll,3,0000000000000000,0,9,0,0"] + ["sr", "af"] * 61
    steps += ["or", "ol,6", "ax,2"]
    return begin, [book("5,63,0,9,0,0", [1, 2, 3 + n], steps) for n in range(40)]


def joined(low, count):
    """Steps that join the labels from low on, a power of two of them, in halves."""
    if count == 1:
        return [f"ax,{low}"]
    half = count // 2
    return [f"tr,{sum(1 << low + k for k in range(half)):016x}", *joined(low, half), *joined(low + half, half)]


def held_32_single():
    """A party of 32: bookings of 32 single-use coupons into one, in 63 steps."""
    begin = words(["a,9,7"] + [f"t,{n},{n}" for n in range(5)]) + ["issue,s,0,0,9,0,0"] * 480
    return begin, [book("5,5,0,9,0,0", range(1 + 32 * n, 33 + 32 * n), joined(0, 32)) for n in range(15)]


def held_32_standing():
    """Bookings with 32 holds, all but one standing, and one step."""
    begin = words(M1) + ["issue,r,7,0,9999,0,0"] * 31 + ["issue,s,0,0,9,0,0"] * 100
    return begin, [book("5,0,0,9,0,0", [32 + n, *range(1, 32)], ["ax,0"]) for n in range(100)]


def text(next_serial, lines, coupons):
    """A till's text, to be opened."""
    return "\n".join([":open", f"till,{1 if len(coupons) <= 512 else 2},{next_serial},{len(lines)},{len(coupons)}", *lines, *coupons])


def session_lines():
    """M1's eight wordings for each of 25 sessions."""
    lines = []
    for session in range(25):
        at = 8 * session
        lines += [f"a,1,{session}", f"a,2,{session}", f"a,9,{session}", f"s,1,{at}", f"s,2,{at + 2}", f"s,1,{at + 1}"]
        lines += [f"t,{at + 3},{at + 4}", f"l,{at + 6},{at + 5}"]
    return lines


def full(most):
    """25 sessions with M1's eight wordings, so many coupons over their offers, seats and tokens."""
    kinds = [("r", 7), ("s", 3), ("s", 4)]
    given = [(n, *kinds[n // 25 % 3]) for n in range(most)]
    return text(3 * most + 500, session_lines(), [f"{3 * n + 1},{kind},{8 * (n % 25) + part},0,{600 + n},0,0" for n, kind, part in given])


def longest():
    """The longest text: 200 lines `g` and 2,048 coupons, every number as long as its range has one."""
    lines = [f"g,{1000000 + n},9999999,2000000,3000000,1000000,9999998,2000000,3000000" for n in range(200)]
    return text(1000000, lines, [f"{100000 + n},r,{100 + n % 100},1000000,9999999,2000000,3000000" for n in range(2048)])


def refused():
    """For each refusal sheets that get it; all but 14, 22 and 23 of a till with M1's coupons."""
    begin = words(M1 + ["t,5,5", "l,3,8"]) + ["issue,r,7,0,9999,0,0"] + ["issue,s,3,0,600,0,0", "issue,s,4,0,600,0,0"]
    head, good = "540,5,540,600,0,0", list(M1_STEPS)
    sizes = words(["a,1,7", "t,0,0", "t,1,1", "t,2,2", "t,3,3", "t,4,4"])
    all_words = words([f"a,{1 + n % 3},{n // 3}" for n in range(200)])
    atom, issue = words(["a,1,7"]), "issue,s,0,0,9,0,0"
    holders = words(M1 + ["n,2,7,0", "q,8"]) + begin[-3:]
    return {
        1: (begin, ["x" * 16384]),  # with its line end 16,385 bytes
        2: (begin, ["word,a,01,7", book(head, [1, 2, 3], good[:-1] + ["ax,64"]), "issue,s,99,0", "", "tally,1,1,1"]),
        3: (begin, ["issue,s,3,9,8,0,0", book(head, [1, 2, 3], ["ul,3,9,8,0,0"] + good)]),
        10: (begin, ["issue,s,99,0,9,0,0", "word,t,0,99", book("540,99,540,600,0,0", [1, 2, 3], good)]),
        12: (sizes, ["word,t,5,5"]),
        13: (begin, ["word,a,1,7", "word,l,6,5"]),
        14: (all_words, ["word,o"]),
        20: (begin, ["issue,s,7,0,9,0,0", book("540,7,540,600,0,0", [1, 2, 3], good)]),
        21: (begin, ["issue,r,9,0,9,0,0"]),
        22: (atom + [issue] * 2048, [issue]),
        23: (atom + [s for n in range(999999) for s in (issue, f"withdraw,{n + 1}")], [issue]),
        24: (begin, ["withdraw,99", book(head, [1, 2, 9], good)]),
        30: (begin, [book("539,5,540,600,0,0", [1, 2, 3], good)]),
        31: (begin, [book(head, [1, 2, 2], good)]),
        40: (begin, [book(head, [1, 2, 3], good[:2] + ["tr,0000000000000006"] + good[3:])]),
        41: (begin, [book(head, [1, 2, 3], ["cp,0"] * 70)]),
        42: (begin, [book(head, [1, 2, 3], good[:-1]), book(head, [1, 2, 3], good + ["or"])]),
        43: (begin, ["issue,s,3,0,9,5,9", book(head, [1, 2, 3], ["ul,3,0,9,0,5"] + good)]),
        53: (holders, ["word,q,9", "issue,s,8,0,9,0,0", book("540,8,540,600,0,0", [1, 2, 3], good)]),
    }


LISTS = {
    "M1": m1,
    "full_till": lambda: full_till(512),
    "full_hall": lambda: full_till(2048),
    "withdrawals": lambda: withdrawals(512),
    "withdrawals_hall": lambda: withdrawals(2048),
    "tallies": lambda: tallies(512),
    "tallies_few": lambda: tallies(3),
    "tallies_hall": lambda: tallies(2048),
    "panel": lambda: panel(512, 200),
    "panel_few": lambda: panel(27, 1),
    "panel_hall": lambda: panel(2048, 200),
    "bookings_15_steps": lambda: booked_15(100),
    "bookings_hall": lambda: booked_15(1000),
    "bookings_256_steps": booked_256,
    "held_32_single": held_32_single,
    "held_32_standing": held_32_standing,
    "three_live": lambda: three_live(2000),
    "starts": lambda: ([full(512)], [":start"] * 100),
    "closing": lambda: ([full(512)], [":close"] * 100),
    "closing_few": lambda: ([full(3)], [":close"] * 100),
    "closing_hall": lambda: ([full(2048)], [":close"] * 100),
    "closing_longest": lambda: ([longest()], [":close"] * 100),
    # the closings between are not timed: they show what was opened
    "opening": lambda: ([], [full(512), ":close"] * 20),
    "opening_few": lambda: ([], [full(3), ":close"] * 20),
    "opening_hall": lambda: ([], [full(2048), ":close"] * 20),
    "opening_longest": lambda: ([], [longest(), ":close"] * 20),
}

# for the whole programs: a million sheets for tillrun, the panel's bookings for the kiosk, which tallies by itself
PROGRAM = {"three_live": lambda: three_live(200000), "panel": lambda: bookings_alone(panel(2048, 1000))}


def stream(sheets):
    return "".join(sheet + "\n\n" for sheet in sheets)


def main():
    folder = sys.argv[1]
    os.makedirs(folder, exist_ok=True)
    lists = {name: make() for name, make in LISTS.items()}
    lists |= {f"refused_{number}": (begin, bad * 100) for number, (begin, bad) in refused().items()}
    for name, (begin, timed) in lists.items():
        with open(os.path.join(folder, name), "w", encoding="ascii") as out:
            out.write(stream(begin) + "---\n" + stream(timed))
    for name, make in PROGRAM.items():
        with open(os.path.join(folder, name + ".in"), "w", encoding="ascii") as out:
            out.write("".join(map(stream, make())))


main()
