//! Bookings written out by hand, each with the slip that it would let by.

use super::session::{Desk, Session};

/// Bookings: `goal,from,to` without a break, at now = from; holds, steps, answer, name.
type Try = (&'static str, &'static [u32], &'static str, &'static str, &'static str);

fn play(desk: &mut Desk, tries: &[Try]) {
    for (goal, holds, steps, answer, name) in tries {
        let from = goal.split(',').nth(1).expect("goal,from,to");
        let (h, n) = (holds.len(), steps.split('|').count());
        let holds: String = holds.iter().map(|s| format!("hold,{s}|")).collect();
        let next = format!("ok,{}", desk.model.given + 1);
        let answer = if *answer == "ok" { &next } else { *answer };
        desk.script(&format!("book,{from},{goal},0,0,{h},{n}|{holds}{steps}"), answer, name);
    }
}

const ZERO: &str = "0000000000000000";

/// A desk with these words and coupons `kind,wording,from,to`, all without a break.
fn desk(words: &[&str], issues: &[&str]) -> Desk {
    let mut desk = Desk::new();
    desk.words(words);
    for line in issues {
        let serial = desk.model.given + 1;
        desk.script(&format!("issue,{line},0,0"), &format!("ok,{serial}"), "");
    }
    desk
}

pub const ARMS: [&str; 16] = [
    "w1: wrong arm", "w2: wrong arm", "p1: wrong arm", "p2: wrong arm", "pl: second arm is another",
    "wr: D split", "wr: all of D for both", "ul: single in the first premise", "bl: part used as a single",
    "tl: labels in the other order", "goal ⊸ has no right step", "goal ⊃ has no right step",
    "ax: ⊇ equal to the goal", "af: twice", "sl: principal of the outer affirmation",
    "wr: second arm is another",
];

/// a 0, b 1, c 2: atoms; the rest are offers over them.
fn arms() -> Session {
    let words = [
        "a,9,7", "a,8,7", "a,7,7", "w,0,1", "p,0,1", "l,4,2", "w,0,0", "l,6,2", "l,3,2", "u,0,2", "b,0",
        "t,0,1", "l,0,1", "l,12,2", "u,0,1", "l,14,2", "g,0,9,0,0,1,2,0,0", "l,16,2", "s,1,0", "s,2,18",
    ];
    let w = "0,9999999";
    let offers = [3, 5, 7, 8, 9, 10, 4, 13, 15, 17, 16].map(|n| format!("r,{n},{w}"));
    let singles = [0, 1, 11, 19].map(|n| format!("s,{n},{w}"));
    let all: Vec<&str> = offers.iter().chain(&singles).map(|s| s.as_str()).collect();
    let mut desk = desk(&words, &all);
    // Serials: 1 a&b, 2 (a⊕b)⊸c, 3 (a&a)⊸c, 4 (a&b)⊸c, 5 a⊃c, 6 !a, 7 a⊕b, 8 (a⊸b)⊸c, 9 (a⊃b)⊸c,
    // 10 (⊇)⊸c, 11 ⊇; singles 12 a, 13 b, 14 a⊗b, 15 ⟨2⟩⟨1⟩a.
    let name = |n: usize| ARMS[n];
    play(&mut desk, &[
        ("0,5,6", &[1], "cp,0|w2,1|ax,2", "no,40,3", name(1)),
        ("1,5,6", &[1], "cp,0|w1,1|ax,2", "no,40,3", name(0)),
        ("2,5,6", &[2, 12], "cp,0|ll,2,0000000000000002,5,6,0,0|p2|ax,1|ax,3", "no,40,4", name(3)),
        ("2,5,6", &[2, 13], "cp,0|ll,2,0000000000000002,5,6,0,0|p1|ax,1|ax,3", "no,40,4", name(2)),
        ("0,5,6", &[7], "cp,0|pl,1|ax,2|ax,3", "no,40,4", name(4)),
        ("2,5,6", &[4, 12, 13], "cp,0|ll,3,0000000000000006,5,6,0,0|wr|ax,1|ax,2|ax,4", "no,40,4", name(5)),
        ("2,5,6", &[4, 12], "cp,0|ll,2,0000000000000002,5,6,0,0|wr|ax,1|ax,1|ax,3", "no,40,5", name(15)),
        ("2,5,6", &[5, 12], "cp,0|ul,2,5,6,0,0|ax,1|ax,3", "no,40,3", name(7)),
        ("0,5,6", &[6], "cp,0|bl,1|ax,2", "no,40,3", name(8)),
        ("11,5,6", &[14], "tl,0|tr,0000000000000004|ax,2|ax,1", "no,40,3", name(9)),
        ("2,5,6", &[8, 13], "cp,0|ll,2,0000000000000002,5,6,0,0|wr", "no,40,3", name(10)),
        ("2,5,6", &[9, 13], "cp,0|ll,2,0000000000000002,5,6,0,0|hr", "no,40,3", name(11)),
        ("2,5,6", &[10, 11], "cp,0|cp,1|ll,2,0000000000000008,5,6,0,0|ax,3|ax,4", "no,40,4", name(12)),
        ("2,5,6", &[10], "cp,0|ll,1,0000000000000000,5,6,0,0|gr|ax,2", "ok", ""),
        ("19,5,6", &[15], "sr|af|sr|sl,0", "no,40,4", name(14)),
        ("19,5,6", &[15], "sr|af|af|sr", "no,40,3", name(13)),
        ("19,5,6", &[15], "sr|sl,0|af|sr|sl,1|af|ax,2", "ok", ""),
        ("2,5,6", &[3, 12], "cp,0|ll,2,0000000000000002,5,6,0,0|wr|ax,1|ax,1|ax,3", "ok", name(6)),
    ]);
    desk.session("slips: arms and shares", 0)
}

pub const JOINED: [&str; 5] = [
    "tr: second premise copies what bl joined in the first", "wr: second premise copies what bl joined",
    "pl: second premise copies what bl joined", "ll: second premise copies what bl joined",
    "ul: second premise copies what bl joined",
];

fn joined() -> Session {
    let words = ["a,9,7", "a,8,7", "o", "b,0", "w,0,0", "l,4,1", "p,2,2", "l,0,1", "u,0,1", "t,0,0"];
    let offers = ["r,3,0,9", "r,5,0,9", "r,6,0,9", "r,7,0,9", "r,8,0,9"];
    let mut desk = desk(&words, &offers);
    let first = format!("tr,{ZERO}|cp,0|bl,1|cp,2|ax,3");
    let wr = format!("cp,0|ll,2,{ZERO},5,6,0,0|wr|cp,1|bl,3|cp,4|ax,5");
    let pl = "cp,0|pl,2|ol,3|cp,1|bl,4|cp,5|ax,6|ol,7";
    let ll = format!("cp,0|ll,2,{ZERO},5,6,0,0|cp,1|bl,3|cp,4|ax,5");
    let ul = "cp,0|ul,2,5,6,0,0|cp,1|bl,3|cp,4|ax,5";
    let mut both = |goal: u32, holds: &str, steps: &str, bad: &str, good: &str, name: &'static str| {
        let (h, n) = (holds.split('|').count(), steps.split('|').count() as u32);
        let book = |rest: &str| {
            let all = n as usize + rest.split('|').count();
            format!("book,5,{goal},5,6,0,0,{h},{all}|{holds}|{steps}|{rest}")
        };
        desk.script(&book(bad), &format!("no,40,{}", n + 1), name);
        let serial = format!("ok,{}", desk.model.given + 1);
        desk.script(&book(good), &serial, "");
    };
    both(9, "hold,1", &first, "cp,2|ax,4", "cp,0|bl,4|cp,5|ax,6", JOINED[0]);
    both(1, "hold,2|hold,1", &wr, "cp,4|ax,6|ax,7", "cp,1|bl,6|cp,7|ax,8|ax,9", JOINED[1]);
    both(0, "hold,3|hold,1", pl, "cp,5|ax,8", "cp,1|bl,8|cp,9|ax,10", JOINED[2]);
    both(1, "hold,4|hold,1", &ll, "cp,4|ax,7", "ax,6", JOINED[3]);
    both(1, "hold,5|hold,1", ul, "cp,4|ax,7", "ax,6", JOINED[4]);
    desk.session("slips: what a first premise joined", 0)
}

pub const NAMES: [&str; 6] = [
    "ax: other predicate", "ax: other session", "ax: seat for place", "ax: label 63 for a single",
    "sl: another principal", "sl: another principal within",
];

/// Singles by serial: 1 free atom, 2 its predicate of another session, 3 another predicate, 4 seat,
/// 5 place, 6 ⟨1⟩ of the free atom, 7 ⟨2⟩ of it, 8 ⟨1⟩⟨2⟩ of it.
fn names() -> Session {
    let words = ["a,9,7", "a,9,8", "a,8,7", "a,1,7", "a,2,7", "s,1,0", "s,2,0", "s,1,6", "t,0,0"];
    let singles = [0, 1, 2, 3, 4, 5, 6, 7].map(|n| format!("s,{n},0,9"));
    let all: Vec<&str> = singles.iter().map(|s| s.as_str()).collect();
    let mut desk = desk(&words, &all);
    play(&mut desk, &[
        ("0,5,6", &[3], "ax,0", "no,40,1", NAMES[0]),
        ("2,5,6", &[1], "ax,0", "no,40,1", NAMES[0]),
        ("0,5,6", &[2], "ax,0", "no,40,1", NAMES[1]),
        ("1,5,6", &[1], "ax,0", "no,40,1", NAMES[1]),
        ("4,5,6", &[4], "ax,0", "no,40,1", NAMES[2]),
        ("3,5,6", &[5], "ax,0", "no,40,1", NAMES[2]),
        ("0,5,6", &[1], "ax,63", "no,40,1", NAMES[3]),
        ("5,5,6", &[7], "sr|sl,0|af|ax,1", "no,40,2", NAMES[4]),
        ("6,5,6", &[6], "sr|sl,0|af|ax,1", "no,40,2", NAMES[4]),
        ("7,5,6", &[8], "sr|sl,0|sl,1|af|sr|af|ax,2", "no,40,3", NAMES[5]),
        ("7,5,6", &[7], "sr|sl,0|af|sr|af|ax,1", "no,40,2", NAMES[5]),
        ("7,5,6", &[7], "sr|af|sr|sl,0|af|ax,1", "ok", ""),
        ("7,5,6", &[8], "sr|sl,0|af|sr|sl,1|af|ax,2", "ok", ""),
        ("8,5,6", &[1], "tr,0000000000000001|ax,0|ax,1", "no,40,3", "missing single"),
        ("8,5,6", &[1], "tr,0000000000000003|ax,0|ax,1", "no,40,1", "missing single"),
        ("0,5,6", &[1], "ax,0", "ok", ""),
    ]);
    desk.session("slips: names", 0)
}

pub const ARROWS: [&str; 8] = [
    "ll, ul: A does not affirm", "ll, ul: the goal still affirms", "ll, ul: both under an affirming goal",
    "ll, ul: A at the goal's window", "ll, ul: A at a window not its own", "ll, ul: J beside the goal's window",
    "ll, ul: label 64 only after the first premise", "pl: the rest of D in both premises",
];

/// Coupons by serial: 1 1⊃a, 2 1⊸a, 3 1⊃⟨1⟩a, 4 b⊃1, 5 b⊸1, 6 b, 7 a⊕a; singles 8 and 9 b, 10 and 11 a.
fn arrows() -> Session {
    let words = ["a,9,7", "a,8,7", "o", "s,1,0", "u,2,0", "l,2,0", "u,2,3", "u,1,2", "l,1,2", "p,0,0", "t,0,1"];
    let offers = ["r,4,0,99", "r,5,0,99", "r,6,0,99", "r,7,0,99", "r,8,0,99", "r,1,20,30", "r,9,0,99"];
    let singles = ["s,1,20,30", "s,1,0,99", "s,0,5,6", "s,0,5,6"];
    let mut desk = desk(&words, &[&offers[..], &singles].concat());
    let name = |n: usize| ARROWS[n];
    play(&mut desk, &[
        ("3,5,6", &[1], "sr|cp,0|ul,1,5,6,0,0|af|or|ax,2", "no,40,4", name(0)),
        ("3,5,6", &[1], "sr|cp,0|ul,1,5,6,0,0|or|ax,2", "no,40,5", name(1)),
        ("3,5,6", &[1], "sr|cp,0|ul,1,5,6,0,0|or|af|ax,2", "ok", name(2)),
        ("3,5,6", &[3], "sr|cp,0|ul,1,5,6,0,0|or|sl,2|af|ax,3", "ok", name(2)),
        ("3,5,6", &[2], "sr|cp,0|ll,1,0000000000000000,5,6,0,0|af|or|ax,2", "no,40,4", name(0)),
        ("3,5,6", &[2], "sr|cp,0|ll,1,0000000000000000,5,6,0,0|or|ax,2", "no,40,5", name(1)),
        ("3,5,6", &[2], "sr|cp,0|ll,1,0000000000000000,5,6,0,0|or|af|ax,2", "ok", name(2)),
        ("0,5,6", &[4, 6, 10], "cp,0|ul,3,5,6,0,0|cp,1|ax,4|ol,5|ax,2", "no,40,4", name(3)),
        ("0,5,6", &[4, 6, 10], "cp,0|ul,3,19,30,0,0|cp,1|ax,4|ol,5|ax,2", "no,40,4", name(4)),
        ("0,5,6", &[4, 6, 10], "cp,0|ul,3,20,30,0,0|cp,1|ax,4|ol,5|ax,2", "ok", name(5)),
        ("0,5,6", &[5, 8, 11], "cp,0|ll,3,0000000000000002,5,6,0,0|ax,1|ol,4|ax,2", "no,40,3", name(3)),
        ("0,5,6", &[5, 8, 11], "cp,0|ll,3,0000000000000002,20,31,0,0|ax,1|ol,4|ax,2", "no,40,3", name(4)),
        ("0,5,6", &[5, 8, 11], "cp,0|ll,3,0000000000000002,20,30,0,0|ax,1|ol,4|ax,2", "ok", name(5)),
        (
            "10,5,6",
            &[7, 9],
            "cp,0|pl,2|tr,0000000000000008|ax,3|ax,1|tr,0000000000000010|ax,4|ax,1",
            "ok",
            name(7),
        ),
    ]);
    label_64(&mut desk);
    desk.session("slips: arrows", 0)
}

/// All labels taken by copies: the second premise wants label 64, but the first comes before it.
fn label_64(desk: &mut Desk) {
    let copies = "|cp,0".repeat(63);
    let ends = [("", "no,42,65"), ("|af", "no,40,65"), ("|or", "no,41,64"), ("|or|af", "no,41,64")];
    for (serial, line) in [(1, "ul,1,5,6,0,0"), (2, "ll,1,0000000000000000,5,6,0,0")] {
        for (end, answer) in ends {
            let n = 64 + end.matches('|').count();
            let sheet = format!("book,5,0,5,6,0,0,1,{n}|hold,{serial}{copies}|{line}{end}");
            desk.script(&sheet, answer, ARROWS[6]);
        }
    }
}

pub fn sessions() -> Vec<Session> {
    vec![arms(), joined(), names(), arrows()]
}
