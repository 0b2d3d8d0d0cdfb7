//! Both ends of every field's range and one beyond, and from > to for every window, whatever its break.

use super::form::Kind;
use super::model::Steps;
use super::rng::Rng;
use super::session::{sheet_of, Desk, Session};
use super::wording::*;

pub const RANGES: [&str; 4] =
    ["range: low end", "range: high end", "range: beyond the high end", "range: below the low end"];
pub const BACKWARD: [&str; 7] = [
    "3: issue", "3: book head", "3: ll", "3: ul", "3: h", "3: g, first window", "3: g, second window",
];

/// Numbers above the high end: the next one, and ones that a machine word might cut to the high end.
pub fn beyond(hi: u32) -> Vec<String> {
    let mut all = vec!["99999999999999999999999".to_string(), format!("{hi}0")];
    all.extend([0, 8, 16, 32, 64].map(|bits| (u128::from(hi) + (1 << bits)).to_string()));
    all
}

/// The sheet with a field at both ends (answered as the model says, steps as told) and beyond (2).
fn field(desk: &mut Desk, text: &str, lo: u32, hi: u32, steps: Steps) {
    desk.play(&sheet_of(&text.replace("{}", &lo.to_string())), steps);
    desk.mark(&["range: low end"]);
    desk.play(&sheet_of(&text.replace("{}", &hi.to_string())), steps);
    desk.mark(&["range: high end"]);
    for beyond in beyond(hi) {
        desk.refuse(&sheet_of(&text.replace("{}", &beyond)), 2, "range: beyond the high end");
    }
    for end in [lo, hi] {
        desk.refuse(&sheet_of(&text.replace("{}", &format!("0{end}"))), 2, "leading zero");
    }
    if lo > 0 {
        desk.refuse(&sheet_of(&text.replace("{}", &(lo - 1).to_string())), 2, "range: below the low end");
    }
}

/// The fields of a break, the rest of the window in place: 43 at an end alone, in order at both; beyond, 2.
fn break_fields(desk: &mut Desk, text: &str, steps: Steps) {
    let window = |of: &str| text.replace("{}", of);
    field(desk, &window("0,9999999,{},9999998"), 0, LAST_MINUTE, steps);
    field(desk, &window("0,9999999,1,{}"), 0, LAST_MINUTE, steps);
    field(desk, &window("0,9999999,{},0"), 0, LAST_MINUTE, steps);
    field(desk, &window("0,9999999,0,{}"), 0, LAST_MINUTE, steps);
    for (of, mark) in [("0,9999999,1,1", "range: low end"), ("0,9999999,9999998,9999998", "range: high end")] {
        desk.play(&sheet_of(&window(of)), steps);
        desk.mark(&[mark]);
    }
}

fn wording_fields(desk: &mut Desk) {
    let no = Steps::Close;
    field(desk, "word,a,{},7", 0, 255, no);
    field(desk, "word,a,{},65535", 0, 255, no);
    for predicate in [1, 2, 9] {
        field(desk, &format!("word,a,{predicate},{{}}"), 0, LAST_SESSION, no);
    }
    field(desk, "word,n,{},7,5", 0, 255, no);
    field(desk, "word,n,9,{},5", 0, LAST_SESSION, no);
    for predicate in [1, 2, 9] {
        field(desk, &format!("word,n,{predicate},8,{{}}"), 0, LAST_HOLDER, no);
    }
    for letter in ["t", "w", "p", "l", "u"] {
        field(desk, &format!("word,{letter},{{}},1"), 0, 999, no);
        field(desk, &format!("word,{letter},2,{{}}"), 0, 999, no);
        let (last, next) = (desk.model.lines.len() - 1, desk.model.lines.len());
        desk.script(&format!("word,{letter},0,{last}"), &format!("ok,{next}"), "range: last wording there");
        desk.script(&format!("word,{letter},0,{}", next + 1), "no,10,0", "range: first wording not there");
        desk.script(&format!("word,{letter},{},0", next + 1), "no,10,0", "range: first wording not there");
    }
    field(desk, "word,b,{}", 0, 999, no);
    field(desk, "word,q,{}", 0, 999, no);
    field(desk, "word,h,{},0,9,0,0", 0, 999, no);
    field(desk, "word,h,1,{},9999999,0,0", 0, LAST_MINUTE, no);
    field(desk, "word,h,1,0,{},0,0", 0, LAST_MINUTE, no);
    break_fields(desk, "word,h,1,{}", no);
    field(desk, "word,s,{},0", 0, 255, no);
    field(desk, "word,s,1,{}", 0, 999, no);
    field(desk, "word,g,{},9999999,0,0,3,4,0,0", 0, LAST_MINUTE, no);
    field(desk, "word,g,0,{},0,0,3,4,0,0", 0, LAST_MINUTE, no);
    field(desk, "word,g,3,4,0,0,{},9999999,0,0", 0, LAST_MINUTE, no);
    field(desk, "word,g,3,4,0,0,0,{},0,0", 0, LAST_MINUTE, no);
    break_fields(desk, "word,g,{},3,4,0,0", no);
    break_fields(desk, "word,g,3,4,0,0,{}", no);
    for line in ["b,99", "h,99,0,9,0,0", "s,1,99", "q,99"] {
        desk.script(&format!("word,{line}"), "no,10,0", "range: first wording not there");
    }
}

fn call_fields(desk: &mut Desk) {
    let no = Steps::Close;
    for kind in ["s", "r"] {
        field(desk, &format!("issue,{kind},{{}},0,9,0,0"), 0, 999, no);
        field(desk, &format!("issue,{kind},0,{{}},9999999,0,0"), 0, LAST_MINUTE, no);
        field(desk, &format!("issue,{kind},0,0,{{}},0,0"), 0, LAST_MINUTE, no);
        break_fields(desk, &format!("issue,{kind},0,{{}}"), no);
    }
    field(desk, "tally,{},5", 0, LAST_SESSION, no);
    field(desk, "tally,7,{}", 0, LAST_MINUTE, no);
    let serial = desk.issue(Kind::Single, &atom(9, 7), window(0, 9));
    desk.script(&format!("withdraw,{}", serial + 1), "no,24,0", "range: first serial not given");
    field(desk, "withdraw,{}", 1, 999_999, no);
}

/// A booking from a standing atom, which can be made again and again.
fn book_fields(desk: &mut Desk) {
    let r = desk.issue(Kind::Standing, &atom(9, 7), window(0, LAST_MINUTE));
    let tail = format!("1,2|hold,{r}|cp,0|ax,1");
    field(desk, &format!("book,{{}},0,0,9999999,0,0,{tail}"), 0, LAST_MINUTE, Steps::Close);
    field(desk, &format!("book,5,{{}},0,9999999,0,0,{tail}"), 0, 999, Steps::Close);
    field(desk, &format!("book,9999999,0,{{}},9999999,0,0,{tail}"), 0, LAST_MINUTE, Steps::Close);
    field(desk, &format!("book,0,0,0,{{}},0,0,{tail}"), 0, LAST_MINUTE, Steps::Close);
    break_fields(desk, &format!("book,0,0,{{}},{tail}"), Steps::Close);
    let dead = "hold,{}|cp,0|ax,1";
    field(desk, &format!("book,5,0,0,9,0,0,1,2|{dead}"), 1, 999_999, Steps::Close);
    desk.script("book,5,0,0,9,0,0,0,1|ax,0", "no,40,1", "range: low end");
    desk.script("book,5,0,0,9,0,0,0,1|cp,0", "no,40,1", "range: low end");
    for (holds, name) in [(32, "range: high end"), (33, "range: beyond the high end")] {
        let mut issue = || desk.issue(Kind::Standing, &atom(9, 7), window(0, 9));
        let lines: String = (0..holds).map(|_| format!("hold,{}|", issue())).collect();
        let serial = desk.model.given + 1;
        let answer = if holds == 32 { format!("ok,{serial}") } else { "no,2,0".to_string() };
        desk.script(&format!("book,5,0,0,9,0,0,{holds},2|{lines}cp,3|ax,{holds}"), &answer, name);
    }
    desk.script(&format!("book,5,0,0,9,0,0,1,0|hold,{r}"), "no,2,0", "range: below the low end");
    let many = |n: usize| format!("book,5,0,0,9,0,0,1,{n}|hold,{r}{}", "|af".repeat(n));
    desk.script(&many(256), "no,40,1", "range: high end");
    desk.script(&many(257), "no,2,0", "range: beyond the high end");
    for number in beyond(1) {
        if number.len() > 2 {
            let (holds, steps) = (format!("{number},2"), format!("1,{number}"));
            for counts in [holds, steps] {
                let sheet = format!("book,5,0,0,9,0,0,{counts}|hold,{r}|cp,0|ax,1");
                desk.script(&sheet, "no,2,0", "range: beyond the high end");
            }
        }
    }
}

/// The fields of step lines, as a booking's first step.
fn step_fields(desk: &mut Desk) {
    let r = desk.issue(Kind::Standing, &atom(9, 7), window(0, LAST_MINUTE));
    let stop = Steps::Stop(40, 1);
    let head = format!("book,5,0,0,9,0,0,1,3|hold,{r}");
    for letters in ["ax", "tl", "ol", "w1", "w2", "pl", "bl", "hl", "sl"] {
        field(desk, &format!("{head}|{letters},{{}}|cp,0|ax,1"), 0, 63, stop);
    }
    desk.script(&format!("{head}|cp,0|cp,63|ax,1"), "no,40,2", "range: high end");
    desk.script(&format!("{head}|cp,0|cp,64|ax,1"), "no,2,0", "range: beyond the high end");
    field(desk, &format!("{head}|ll,{{}},0000000000000000,0,9,0,0|cp,0|ax,1"), 0, 63, stop);
    field(desk, &format!("{head}|ll,0,0000000000000000,{{}},9999999,0,0|cp,0|ax,1"), 0, LAST_MINUTE, stop);
    field(desk, &format!("{head}|ll,0,0000000000000000,0,{{}},0,0|cp,0|ax,1"), 0, LAST_MINUTE, stop);
    field(desk, &format!("{head}|ul,{{}},0,9,0,0|cp,0|ax,1"), 0, 63, stop);
    field(desk, &format!("{head}|ul,0,{{}},9999999,0,0|cp,0|ax,1"), 0, LAST_MINUTE, stop);
    field(desk, &format!("{head}|ul,0,0,{{}},0,0|cp,0|ax,1"), 0, LAST_MINUTE, stop);
    break_fields(desk, &format!("{head}|ll,0,0000000000000000,{{}}|cp,0|ax,1"), stop);
    break_fields(desk, &format!("{head}|ul,0,{{}}|cp,0|ax,1"), stop);
    field(desk, &format!("{head}|al,{{}},5|cp,0|ax,1"), 0, 63, stop);
    field(desk, &format!("{head}|al,0,{{}}|cp,0|ax,1"), 1, LAST_HOLDER, stop);
    for step in ["tr,{}", "ll,0,{},0,9,0,0"] {
        let line = format!("{head}|{step}|cp,0|ax,1");
        for (share, answer, name) in SHARES {
            desk.script(&line.replace("{}", share), answer, name);
        }
    }
}

const SHARES: [(&str, &str, &str); 9] = [
    ("0000000000000000", "no,40,1", "range: low end"),
    ("ffffffffffffffff", "no,40,1", "range: high end"),
    ("0123456789abcdef", "no,40,1", "range: high end"),
    ("10000000000000000", "no,2,0", "range: beyond the high end"),
    ("000000000000000", "no,2,0", "range: below the low end"),
    ("00000000000000000", "no,2,0", "range: beyond the high end"),
    ("000000000000000A", "no,2,0", "range: beyond the high end"),
    ("000000000000000g", "no,2,0", "range: beyond the high end"),
    ("0", "no,2,0", "range: below the low end"),
];

fn backward(desk: &mut Desk) {
    let r = desk.issue(Kind::Standing, &atom(9, 7), window(0, 9));
    let ends = [(1, 0), (9_999_999, 0), (9_999_999, 9_999_998), (541, 540)];
    let breaks = ["0,0", "0,5", "5,0", "1,1", "541,540", "9999999,9999999"];
    for ((from, to), pause) in ends.iter().flat_map(|w| breaks.map(|b| (w, b))) {
        let w = format!("{from},{to},{pause}");
        let hold = format!("1,2|hold,{r}");
        desk.script(&format!("issue,s,0,{w}"), "no,3,0", "3: issue");
        desk.script(&format!("issue,r,0,{w}"), "no,3,0", "3: issue");
        desk.script(&format!("book,{from},0,{w},{hold}|cp,0|ax,1"), "no,3,0", "3: book head");
        let (ll, ul) = (format!("ll,0,0000000000000000,{w}"), format!("ul,0,{w}"));
        for (line, name) in [(ll, "3: ll"), (ul, "3: ul")] {
            desk.script(&format!("book,5,0,0,9,0,0,{hold}|{line}|ax,1"), "no,3,0", name);
            let after = format!("book,5,0,0,9,0,0,1,3|hold,{r}|cp,0|ax,1|{line}");
            desk.script(&after, "no,3,0", name);
        }
        desk.script(&format!("word,h,0,{w}"), "no,3,0", "3: h");
        desk.script(&format!("word,g,{w},3,4,0,0"), "no,3,0", "3: g, first window");
        desk.script(&format!("word,g,3,4,0,0,{w}"), "no,3,0", "3: g, second window");
    }
}

/// Plays one group of fields.
type Fill = fn(&mut Desk);

pub fn sessions(seed: u64) -> Vec<Session> {
    let mut rng = Rng::new(seed);
    let mut out = vec![];
    let parts: [(Fill, &str); 5] = [
        (wording_fields, "wordings"), (call_fields, "calls"), (book_fields, "bookings"),
        (step_fields, "steps"), (backward, "windows"),
    ];
    for (fill, name) in parts {
        let mut desk = Desk::new();
        desk.words(&["a,9,7", "a,1,7", "s,1,0"]);
        fill(&mut desk);
        desk.tallies(&mut rng, 3);
        out.push(desk.session(&format!("ranges: {name}"), seed));
    }
    out
}
