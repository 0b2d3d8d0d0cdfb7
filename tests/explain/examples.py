"""Examples for explain: a refusal, sheets or a text that get it, and words that the explanation must have."""
import re
import subprocess

TOKEN = b"word,a,9,7\n\n"
SEAT = b"word,a,1,7\n\n"
SINGLE = TOKEN + b"issue,s,0,0,9,0,0\n\n"
STANDING = TOKEN + b"issue,r,0,0,9,0,0\n\n"
SAID = TOKEN + b"word,s,1,0\n\n"
PAIR = TOKEN + b"word,t,0,0\n\nissue,s,1,0,9,0,0\n\n"
OFFER = TOKEN + b"word,l,0,0\n\nissue,r,1,0,9,0,0\n\nissue,s,0,0,9,0,0\n\n"
WORDING_1 = b"book,0,1,0,9,0,0"
HOLDER_0 = b"word,n,9,7,0\n\n"
HOLDER_5 = HOLDER_0 + b"word,n,9,7,5\n\n"
EVERYONE = HOLDER_5 + b"word,q,0\n\nissue,r,2,0,9,0,0\n\n"  # wording 1 has holder 5, serial 1 is for every holder
WORDING_2 = b"book,0,2,0,9,0,0"


def booked(holds, steps, head=b"book,0,0,0,9,0,0"):
    """A booking with its counts."""
    lines = [b"%s,%d,%d" % (head, len(holds), len(steps))]
    lines += [b"hold,%d" % serial for serial in holds] + [step.encode() for step in steps]
    return b"\n".join(lines) + b"\n"


FORMS = [
    (b"word,a,1,7\r\n", ["a carriage return (byte 13)", "Windows line ends", "Line 1, column 11"]),
    (b"word,o\r\n\r\nword,a,1,7\r\n", ["Line 1, column 7", "part no sheets"]),
    (b"\xef\xbb\xbfword,o\n", ["UTF-8 byte order mark", "without BOM"]),
    (b"word,a,1, 7\n", ["a space", "Line 1, column 10", "Take it out"]),
    (b"word,a,1,7 \n", ["a space", "at the end of a line neither"]),
    (b"word,a,1\t,7\n", ["a tab (byte 9)"]),
    (b"word,a,\x001,7\n", ["a zero byte (byte 0)"]),
    (b"word,a,1\xc2\xa0,7\n", ["U+00A0"]),
    (b"word,a,1\xff,7\n", ["byte 255"]),
    (b"word,a,\x1b[31m1,7\n", ["the control byte 27"]),
    (b"Word,a,1,7\n", ["the capital letter `W`", "Write it small: `w`"]),
    (b'word,"a",1,7\n', ["a quote", "nothing is quoted"]),
    (b"word,a,+1,7\n", ["a plus sign", "predicate", "0 to 255"]),
    (b"tally,-7,0\n", ["a minus sign", "0 to 65,535"]),
    (b"word;a;1;7\n", ["the sign `;`", "parted by commas"]),
    (b"word,a,1,07\n", ["leading zero", "field 4, session", "Write 7."]),
    (b"tally,,5\n", ["an empty field", "field 2, session"]),
    (b"tally,x,5\n", ["`x` is no digit"]),
    (b"tally,65536,0\n", ["over its range, which ends with 65,535", "a session: 0 to 65,535"]),
    (b"withdraw,0\n", ["below its range, which begins with 1", "a coupon's serial"]),
    (b"withdraw,99999999999999999999999\n", ["over its range, which ends with 999,999"]),
    (b"issue,x,0,0,9,0,0\n", ["no kind", "single-use", "standing"]),
    (b"issue,s,0,0,9\n", ["too few fields", "issue,kind,wording,from,to,first,last", "0,0"]),
    (b"tally,7\n", ["too few fields", "3 fields: `tally,session,minute`"]),
    (b"tally,7,5,1\n", ["too many fields", "4 fields"]),
    (b"word,o,1\n", ["too many fields", "2 fields: `word,o`"]),
    (b"word\n", ["too few fields", "a wording line"]),
    (b"word,x,1\n", ["`x` is no wording", "one of a, o, t"]),
    (b"word,n,2,7\n", ["too few fields", "5 fields: `word,n,predicate,session,holder`"]),
    (b"word,n,2,7,65536\n", ["over its range, which ends with 65,535", "field 5, holder"]),
    (b"word,n,2,7,x\n", ["`x` is no digit", "a holder (0 is the one that `q` binds): 0 to 65,535"]),
    (b"word,n,2,7,-5\n", ["a minus sign", "field 5, holder"]),
    (booked([1], ["al,0"]), ["too few fields", "`al,L,holder`"]),
    (booked([1], ["al,0,0"]), ["below its range, which begins with 1", "the holder to be put in: 1 to 65,535"]),
    (booked([1], ["al,0,65536"]), ["over its range, which ends with 65,535", "field 3, holder"]),
    (b"wrd,a,1,7\n", ["`wrd` is no sheet", "word, issue, withdraw, book, tally"]),
    (b"a,1,7\n", ["`a` is no sheet", "word,a,1,7"]),
    (b"till,1,1,0,0\n", ["a till's text", "--till"]),
    (b"word,o\nword,a,1,7\n", ["a line too many", "an empty line is missing before it"]),
    (b"word,a,1,7", ["no line end", "byte 10"]),
    (b"word,o\n\n\n", ["The sheet is empty", "Take the empty line out"]),
    (booked([1], ["ax,64"]), ["over its range, which ends with 63", "a label: 0 to 63"]),
    (booked([1], ["tr,1"]), ["a share of 1 digit", "0000000000000001"]),
    (booked([1], ["tr,000000000000000A"]), ["the capital letter `A`", "16 digits"]),
    (booked([1], ["tr,000000000000000g"]), ["`g` is no digit of a share"]),
    (booked([1], ["zz,0"]), ["`zz` is no step"]),
    (b"book,0,0,0,9,0,0,33,1\n", ["how many hold lines follow: 0 to 32"]),
    (b"book,0,0,0,9,0,0,0,0\n", ["how many step lines follow the holds: 1 to 256"]),
    (b"book,0,0,0,9,0,0,2,1\nhold,1\nax,0\n", ["a step line where hold 2 of 2 is due", "1 hold line and 1 other line"]),
    (b"book,0,0,0,9,0,0,1,1\nhold,1\nhold,2\n", ["a hold line where step 1 of 1 is due"]),
    (b"book,0,0,0,9,0,0,1,2\nhold,1\nax,0\n", ["the sheet ends here, 1 line too early", "1 hold and 2 steps"]),
    (b"book,0,0,0,9,0,0,1,1\nhold,1\nax,0\nax,0\n", ["a line more than the head says"]),
    (b"book,0,0,0,9,0,0,1,1\nhold,1\nax,0\ntally,1,1\n", ["Another sheet begins here"]),
    (b"cp,0\n", ["`cp` is no sheet", "a line of a booking"]),
]

STEPS = [
    # M2's kind: the goal's window reaches past the coupon's
    (40, TOKEN + b"issue,s,0,0,599,0,0\n\n" + booked([1], ["ax,0"], b"book,540,0,540,600,0,0"),
     ["D, single-use: {0}", "0: pred9(7) at 0..599 (hold 1, serial 1)", "goal: pred9(7) at 540..600",
      "0..599 lacks minute 600 of 540..600: it ends at 599", "L's window ⊇ goal's"]),
    (40, TOKEN + b"issue,s,0,0,600,300,330\n\n" + booked([1], ["ax,0"], b"book,540,0,0,600,0,0"),
     ["lacks minute 300 of 0..600: it has a break, 300..330"]),
    (40, STANDING + booked([1], ["ax,0"]), ["label 0 is not in D: it is in R, standing", "`cp,0`"]),
    (40, SINGLE + booked([1], ["cp,0"]), ["label 0 is not in R: it is in D, single-use"]),
    (40, SINGLE + booked([1], ["ax,1"]),
     ["label 1 is not in D: it is not taken yet", "If serial 1 is meant, that is label 0"]),
    (40, SINGLE + b"issue,s,0,0,9,0,0\n\n" + booked([1, 2], ["ax,0"]),
     ["D holds more than label 0", "label 1 (pred9(7)) is left over"]),
    (40, SINGLE + booked([1], ["sr"]), ["the goal is not a ⟨K⟩ but an atom: pred9(7)", "proved by `ax`"]),
    (40, SINGLE + booked([1], ["af"]), ["the goal does not affirm"]),
    (40, SINGLE + booked([1], ["tl,0"]), ["label 0 is not a ⊗ but an atom", "used by `ax`"]),
    (40, SAID + b"word,s,2,0\n\nissue,s,2,0,9,0,0\n\n" + booked([1], ["sr", "sl,0", "af", "ax,1"], WORDING_1),
     ["Step 2, `sl,0`, (opens ⟨K⟩ A) breaks its rule", "2 says label 0, 1 is to affirm the goal",
      "goal: 1 affirms pred9(7) at 0..9"]),
    (40, SAID + b"issue,s,1,0,9,0,0\n\n" + booked([1], ["sr", "sl,0", "ax,1"], WORDING_1),
     ["the goal affirms: 1 affirms pred9(7)", "Put `af` before this step"]),
    (40, PAIR + booked([1], ["tl,0", "tr,0000000000000003", "ax,1", "ax,2"], WORDING_1),
     ["label 0 (pred9(7) ⊗ pred9(7)) is not in D", "all of it is the share 0000000000000006"]),
    (40, OFFER + booked([1, 2], ["cp,0", "ll,2,0000000000000006,0,9,0,0", "ax,1", "ax,3"]),
     ["has label 2 itself", "0000000000000002"]),
    (40, OFFER + booked([1, 2], ["cp,0", "ll,2,0000000000000002,0,10,0,0", "ax,1", "ax,3"]),
     ["label 2's window does not contain the step's", "lacks minute 10"]),
    (40, TOKEN + b"word,o\n\nissue,r,1,0,9,0,0\n\n" + booked([1], ["cp,0", "ol,1", "ol,1"]), ["step 2 used it up"]),
    (40, EVERYONE + booked([1], ["cp,0", "al,1,6", "ax,2"], WORDING_1),
     ["label 2 is not the goal: it is pred9(7, holder 6), the goal is pred9(7, holder 5)", "step 2",
      "0: for every holder: pred9(7, holder 0) at 0..9", "name 5 there, or book for holder 6"]),
    (40, EVERYONE + b"word,a,9,7\n\n" + booked([1], ["cp,0", "al,1,6", "ax,2"], b"book,0,3,0,9,0,0"),
     ["it is pred9(7, holder 6), the goal is pred9(7)", "(`n`) is never equal to one without (`a`)"]),
    (40, EVERYONE + booked([1], ["al,0,5", "ax,1"], WORDING_1),
     ["Step 1, `al,0,5`, (uses a ∀ for holder 5) breaks its rule", "it is in R, standing", "`cp,0`"]),
    (40, EVERYONE + booked([1], ["cp,0", "ax,1"], WORDING_1),
     ["label 1 is not the goal: it is for every holder: pred9(7, holder 0), the goal is pred9(7, holder 5)"]),
    (40, EVERYONE + booked([1], ["cp,0", "tl,1"], WORDING_1), ["label 1 is not a ⊗ but a ∀", "used by `al`"]),
    (40, HOLDER_5 + b"issue,s,1,0,9,0,0\n\n" + booked([1], ["al,0,5"], WORDING_1),
     ["label 0 is not a ∀ but an atom: pred9(7, holder 5)"]),
    (41, EVERYONE + booked([1], ["cp,0"] * 63 + ["al,1,5"], WORDING_1),
     ["Step 64, `al,1,5`, is right", "needs label 64", "new in D: pred9(7, holder 5) at 0..9"]),
    (41, STANDING + booked([1], ["cp,0"] * 64),
     ["Step 64, `cp,0`, is right", "needs label 64", "1 label by holds and 63 by steps"]),
    (42, STANDING + booked([1], ["cp,0"]),
     ["a premise is still open", "What step 2 would have to go on with", "D, single-use: {1}"]),
    (42, PAIR + booked([1], ["tl,0", "tr,0000000000000002", "ax,1"], WORDING_1),
     ["What step 4 would have to go on with", "D, single-use: {2}"]),
    (42, PAIR + booked([1], ["tl,0", "tr,0000000000000002"], WORDING_1),
     ["What step 3 would have to go on with", "After that, the second premise of step 2"]),
    (42, SINGLE + booked([1], ["ax,0", "ax,0"]), ["step 1 has closed the last premise", "1 line after the close"]),
]

CHECKS = [
    (1, b"x" * 16385, ["16,385 bytes", "16,384 bytes"]),
    (1, b"word,o\n" * 3000, ["Line 2 begins another sheet"]),
    (3, SEAT + b"issue,s,0,600,540,0,0\n", ["fields 4 and 5, from and to", "from 600, to 540", "Write 540,600"]),
    (3, SINGLE + booked([1], ["ax,0", "ul,0,5,4,0,0"]), ["Line 8", "from 5, to 4"]),
    (43, TOKEN + b"issue,s,0,0,9,6,9\n", ["ends with its window or after it", "write 0,5,0,0"]),
    (43, TOKEN + b"issue,s,0,0,9,0,5\n", ["begins with its window or before it", "first 0, last 5"]),
    (43, b"word,g,0,9,1,8,0,9,5,4\n", ["ends before it begins", "Write 4,5"]),
    (10, SEAT + b"issue,s,1,0,600,0,0\n", ["field 3, wording", "one wording is there, number 0"]),
    (10, SEAT + SEAT + b"issue,s,1,0,600,0,0\n", ["Sheet 2 is a `word` that was refused"]),
    (10, b"word,s,1,0\n", ["no wording is there yet", "field 4, wording i"]),
    (53, EVERYONE + b"word,q,2\n", ["wording 2: for every holder: pred9(7, holder 0), which is a `q` itself"]),
    (53, EVERYONE + b"word,s,1,2\n\nword,t,3,1\n\nword,q,4\n",
     ["field 3, wording i", "in it stands a `q`, wording 2: for every holder: pred9(7, holder 0)",
      "wording 4: ⟨1⟩ (for every holder: pred9(7, holder 0)) ⊗ pred9(7, holder 5)", "side by side"]),
    (53, HOLDER_0 + b"issue,s,0,0,9,0,0\n", ["wording 0: pred9(7, holder 0), in no `q`", "Word `q,0` and issue that"]),
    (53, EVERYONE + b"word,t,2,0\n\nissue,r,3,0,9,0,0\n",
     ["wording 3: (for every holder: pred9(7, holder 0)) ⊗ pred9(7, holder 0); in it, in no `q`, wording 0"]),
    (53, HOLDER_0 + b"word,s,1,0\n\n" + booked([], ["or"], WORDING_1),
     ["field 3, wording", "wording 1: ⟨1⟩ pred9(7, holder 0); in it, in no `q`, wording 0", "Book for one holder"]),
    (12, TOKEN + b"".join(b"word,t,%d,%d\n\n" % (i, i) for i in range(5)) + b"word,s,1,5\n\nword,s,1,6\n",
     ["size 65: 1 for this line, and 64", "at most 64"]),
    (13, SEAT + SEAT, ["this line is wording 0 already", "seat(7)", "Use number 0"]),
    (14, b"".join(b"word,a,9,%d\n\n" % i for i in range(200)) + b"word,o\n", ["200 wordings are there"]),
    (20, TOKEN + b"word,l,0,0\n\nissue,s,1,0,9,0,0\n", ["pred9(7) ⊸ pred9(7)", "a ⊸ (`l`)", "kind `r`"]),
    (20, TOKEN + b"word,l,0,0\n\n" + booked([1], ["ax,0"], WORDING_1),
     ["the goal of a booking is plain", "Book what the offer gives, wording 0"]),
    (21, SEAT + b"word,a,2,7\n\nword,t,1,1\n\nword,l,0,2\n\nissue,r,3,0,9999,0,0\n",
     ["seat(7) ⊸ (place(7) ⊗ place(7))", "weighs 1, not 0: 2 on the right of ⊸, less 1 on the left"]),
    (20, EVERYONE + booked([1], ["ax,0"], WORDING_2), ["which is a ∀ (`q`)", "only atoms (`a`, `n`)"]),
    (21, b"word,n,1,7,0\n\nword,q,0\n\nissue,r,1,0,9,0,0\n",
     ["for session 7 it weighs 1, not 0: as its part, wording 0: seat(7, holder 0)"]),
    (21, SEAT + b"issue,r,0,0,9,0,0\n", ["for session 7 it weighs 1", "kind `s`"]),
    (21, SEAT + b"word,o\n\nword,w,1,0\n\nissue,r,2,0,9,0,0\n",
     ["the arms of 1 & seat(7) do not weigh alike: 0 and 1 for session 7"]),
    (21, SEAT + b"word,o\n\nword,u,0,1\n\nissue,r,2,0,9,0,0\n", ["what stands left of ⊃ weighs 1 for session 7"]),
    (22, TOKEN + b"issue,s,0,0,9,0,0\n\n" * 2049,
     ["2048 coupons are live, 2048 single-use and 0 standing", "fewer than 2048"]),
    (24, SINGLE + b"withdraw,1\n\nwithdraw,1\n",
     ["given by sheet 2 and taken by the withdrawal on sheet 3", "field 2, serial"]),
    (24, SINGLE + booked([1], ["ax,0"]) + b"\n" + booked([1], ["ax,0"]),
     ["taken by the booking on sheet 3", "its answer has the new serial"]),
    (24, SINGLE + b"withdraw,2\n", ["it was never given: the last one given is 1"]),
    (30, TOKEN + b"issue,s,0,0,600,0,0\n\n" + booked([1], ["ax,0"], b"book,539,0,540,600,0,0"),
     ["field 2, now", "minute 539 is before the window begins, at 540"]),
    (30, TOKEN + b"issue,s,0,0,600,0,0\n\n" + booked([1], ["ax,0"], b"book,300,0,0,600,300,330"),
     ["minute 300 is in the window's break, 300..330"]),
    (31, SINGLE + booked([1, 1], ["ax,0"]),
     ["line 6 holds it already", "serial 1, single-use, wording 0: pred9(7), in 0..9"]),
    (31, STANDING + booked([1, 1], ["ax,0"]), ["`cp` copies"]),
]

EXAMPLES = CHECKS + [(2, *form) for form in FORMS] + STEPS

TEXTS = [
    (50, b"", ["The text is empty"]),
    (50, b"word,o\n", ["`word` is no first line", "without --till"]),
    (50, b"till,3,1,0,0\n", ["field 2, edition", "over its range, which ends with 2"]),
    (50, b"till,2,1,0,0\n", ["not the one that closing would write", "`till,1`, for there is no `n` or `q`"]),
    (50, b"till,1,1,1,0\nn,9,7,5\n", ["not the one that closing would write", "`till,2`, for line 2 is"]),
    (50, b"till,1,3,1,2\na,9,7\n1,s,0,0,9,0,0\n", ["the text ends here, 1 line too early", "1 wording and 2 coupons"]),
    (50, b"till,1,1,0,0\no\n", ["a line more than the first line says"]),
    (50, b"till,1,3,1,1\n1,s,0,0,9,0,0\na,9,7\n", ["a coupon where wording 0 is due"]),
    (50, b"till,1,3,1,2\na,9,7\n2,s,0,0,9,0,0\n2,s,0,0,9,0,0\n", ["serials do not rise", "serial 2 after serial 2"]),
    (50, b"till,1,1,201,0\n", ["over its range, which ends with 200"]),
    (50, b"till,1,1,1,0\no\r\n", ["Windows line ends", "Line 2"]),
    (50, b"till,1,2,1,1\na,9,7\n1,s,0,0,9,0,0", ["no line end"]),
    (51, b"till,1,2,1,1\na,9,7\n2,s,0,0,9,0,0\n", ["serial 2; the first line says that the next one given is 2"]),
    (51, b"till,1,1,2,0\no\no\n", ["`word` would refuse with 13", "this line is wording 0 already"]),
    (51, b"till,1,1,2,0\nb,1\no\n", ["`word` would refuse with 10", "Line 2"]),
    (51, b"till,1,2,1,1\na,1,7\n1,r,0,0,9,0,0\n", ["`issue` would refuse with 21", "for session 7 it weighs 1"]),
    (51, b"till,2,1,3,0\nn,9,7,0\nq,0\nq,1\n", ["`word` would refuse with 53", "which is a `q` itself", "Line 4"]),
    (51, b"till,2,2,1,1\nn,9,7,0\n1,s,0,0,9,0,0\n", ["`issue` would refuse with 53", "in no `q`", "Line 3"]),
    (51, b"till,1,2,1,1\na,1,7\n1,s,0,9,0,0,0\n", ["`issue` would refuse with 3", "from 9, to 0"]),
]

# a till's text and a sheet after it
OPENED = [
    (23, b"till,1,1000000,1,0\na,9,7\n", b"issue,s,0,0,9,0,0\n", ["serial 999,999 was given", "Begin a new till"]),
    (24, b"till,1,3,1,1\na,9,7\n2,s,0,0,9,0,0\n", b"withdraw,1\n", ["spent or withdrawn before"]),
    (24, b"till,1,3,1,1\na,9,7\n2,s,0,0,9,0,0\n", b"withdraw,2\n\nwithdraw,2\n",
     ["given by the opened text", "withdrawal on sheet 1"]),
]


def blocks(name):
    """The fenced blocks of a document: their heading, for a refusal its number, their kind, their lines."""
    heading, kind, lines = None, None, []
    with open(name, encoding="utf-8") as document:
        for line in document:
            if kind is None and line.startswith("## "):
                found = re.match(r"## (\d+):", line)
                heading = int(found.group(1)) if found else line[3:].strip()
            elif line.startswith("```"):
                if kind is not None:
                    yield heading, kind, "".join(lines)
                kind, lines = (line[3:].strip(), []) if kind is None else (None, [])
            elif kind is not None:
                lines.append(line)


def documented(name):
    """The examples of a document whose last sheet, or whose text, is refused: the refusal, 'sheets' or 'text', the
    bytes. What is asked of closing is left out: explain lends no buffer."""
    before = b""
    for number, kind, text in blocks(name):
        data = text.encode()
        if not isinstance(number, int) or kind.startswith("answers") or kind == "text":
            continue
        if kind == "bash":
            data = subprocess.run(["bash", "-eu"], input=data, capture_output=True, check=True).stdout
        if kind.startswith("calls"):
            for call in data.split(b"\n\n"):
                if call.startswith(b":open\n"):
                    yield number, "text", call[6:].rstrip(b"\n") + b"\n"
            continue
        before = before + b"\n" + data if kind.endswith("more") else data
        yield number, "sheets", before
