//! The till's limits: sizes about 64, wordings about 200, live coupons about 2,048 (document 02, ask 8), which M10
//! reaches.

use super::papers;
use super::rng::Rng;
use super::session::{Desk, Session};

pub const CAPACITY: [&str; 21] = [
    "size 63", "size 64", "size 65", "size far over 64", "199 wordings there", "200 wordings there",
    "line there already", "line there already, 200 there", "issue about 512 live", "book at 512 live, none held",
    "issue at 2,046 live", "issue at 2,047 live", "issue at 2,048 live", "book at 2,048 live, a single held",
    "book at 2,048 live, singles held", "book at 2,048 live, none held", "book at 2,048 live, singles and standing",
    "book at 2,046 live, none held", "book at 2,047 live, none held", "place made by a withdraw",
    "place made by a booking",
];

fn sizes() -> Session {
    let mut desk = Desk::new();
    desk.words(&["a,9,7", "t,0,0", "t,1,1", "t,2,2", "t,3,3"]);
    desk.script("word,t,4,4", "ok,5", "size 63");
    desk.script("word,l,4,4", "ok,6", "size 63");
    desk.script("word,b,5", "ok,7", "size 64");
    desk.script("word,h,6,1,2,0,0", "ok,8", "size 64");
    for line in ["s,1,7", "b,8", "h,7,3,4,0,0", "q,7"] {
        desk.script(&format!("word,{line}"), "no,12,0", "size 65");
    }
    // 31 + 33 and one: 65; 31 + 32 and one: 64.
    desk.words(&["s,1,4", "s,2,9"]);
    for letter in ["t", "w", "p", "l", "u"] {
        desk.script(&format!("word,{letter},10,4"), "no,12,0", "size 65");
        desk.script(&format!("word,{letter},4,10"), "no,12,0", "size 65");
        desk.script(&format!("word,{letter},7,7"), "no,12,0", "size far over 64");
        desk.script(&format!("word,{letter},5,5"), "no,12,0", "size far over 64");
        let number = desk.model.lines.len();
        desk.script(&format!("word,{letter},9,4"), &format!("ok,{number}"), "size 64");
        desk.script(&format!("word,{letter},9,4"), "no,13,0", "line there already");
    }
    named_sizes(&mut desk);
    desk.session("sizes", 0)
}

/// The same with atoms in a holder's name, which have size 1, under `q`.
fn named_sizes(desk: &mut Desk) {
    let first = desk.model.lines.len();
    desk.words(&["n,9,7,0"]);
    for n in first..first + 4 {
        desk.words(&[&format!("t,{n},{n}")]);
    }
    let next = first + 5;
    desk.script(&format!("word,t,{},{}", next - 1, next - 1), &format!("ok,{next}"), "size 63");
    desk.script(&format!("word,q,{next}"), &format!("ok,{}", next + 1), "size 64");
    desk.script(&format!("word,s,1,{}", next + 1), "no,12,0", "size 65");
    desk.script(&format!("word,s,1,{next}"), &format!("ok,{}", next + 2), "size 64");
    desk.script(&format!("word,q,{}", next + 2), "no,12,0", "size 65");
}

fn wordings() -> Session {
    let mut desk = Desk::new();
    let lines = [
        "a,1,7", "o", "s,0,0", "h,0,0,9,0,0", "g,0,9,0,0,0,9,0,0", "b,1", "w,0,0", "p,0,0", "u,1,1", "l,0,0", "n,1,7,0",
        "n,1,7,7", "q,10",
    ];
    desk.words(&lines);
    for line in lines {
        desk.script(&format!("word,{line}"), "no,13,0", "line there already");
    }
    for n in lines.len()..199 {
        desk.words(&[&format!("a,{},{n}", n % 5)]);
    }
    desk.script("word,a,1,7", "no,13,0", "line there already");
    desk.script("word,a,250,250", "ok,199", "199 wordings there");
    for line in ["a,250,251", "t,0,1", "g,0,9,0,0,0,8,0,0", "s,7,199", "n,1,7,8", "q,11"] {
        desk.script(&format!("word,{line}"), "no,14,0", "200 wordings there");
    }
    desk.script("word,a,1,7", "no,13,0", "line there already, 200 there");
    desk.script("word,a,250,250", "no,13,0", "line there already, 200 there");
    desk.script("issue,s,199,0,9,0,0", "ok,1", "");
    desk.script("issue,s,200,0,9,0,0", "no,10,0", "");
    desk.session("wordings", 0)
}

/// A booking of the wording numbered 2, or of the ⊗ that the till has last.
fn book(desk: &mut Desk, holds: &[u32], steps: &str, good: bool, name: &'static str) {
    let (h, n) = (holds.len(), steps.split('|').count());
    let lines: String = holds.iter().map(|s| format!("hold,{s}|")).collect();
    let goal = if steps.starts_with("tr") { desk.model.lines.len() - 1 } else { 2 };
    let answer = if good { format!("ok,{}", desk.model.given + 1) } else { "no,22,0".to_string() };
    desk.script(&format!("book,3,{goal},2,8,0,0,{h},{n}|{lines}{steps}"), &answer, name);
}

/// An issue of each kind when the till is full, or one that has place.
fn issue(desk: &mut Desk, kind: char, good: bool, name: &'static str) {
    let answer = if good { format!("ok,{}", desk.model.given + 1) } else { "no,22,0".to_string() };
    desk.script(&format!("issue,{kind},2,0,9,0,0"), &answer, name);
}

fn withdraw(desk: &mut Desk, serial: u32) {
    desk.script(&format!("withdraw,{serial}"), &format!("ok,{serial}"), "");
}

/// M10, which leaves a full till: serial 1 is standing, all others are singles. What 22 says from there on.
fn coupons(seed: u64) -> Session {
    let mut rng = Rng::new(seed);
    let mut desk = papers::m10();
    issue(&mut desk, 's', false, "issue at 2,048 live");
    issue(&mut desk, 'r', false, "issue at 2,048 live");
    book(&mut desk, &[1], "cp,0|ax,1", false, "book at 2,048 live, none held");
    book(&mut desk, &[20], "ax,0", true, "book at 2,048 live, a single held");
    let last = desk.model.given;
    book(&mut desk, &[1, last], "ax,1", true, "book at 2,048 live, singles and standing");
    withdraw(&mut desk, 6);
    let kind = rng.pick(&['s', 'r']);
    issue(&mut desk, kind, true, "place made by a withdraw");
    issue(&mut desk, kind, false, "issue at 2,048 live");
    withdraw(&mut desk, 2_047);
    issue(&mut desk, 'r', true, "issue at 2,047 live");
    let second = desk.model.given;
    book(&mut desk, &[second, 1], "cp,0|ax,2", false, "book at 2,048 live, none held");
    withdraw(&mut desk, 5);
    book(&mut desk, &[second], "cp,0|ax,1", true, "book at 2,047 live, none held");
    book(&mut desk, &[second], "cp,0|ax,1", false, "book at 2,048 live, none held");
    desk.words(&["t,2,2"]);
    book(&mut desk, &[30, 1_999], "tr,0000000000000001|ax,0|ax,1", true, "book at 2,048 live, singles held");
    issue(&mut desk, 'r', true, "place made by a booking");
    issue(&mut desk, 'r', false, "issue at 2,048 live");
    withdraw(&mut desk, 700);
    withdraw(&mut desk, 1_500);
    book(&mut desk, &[1], "cp,0|ax,1", true, "book at 2,046 live, none held");
    desk.tallies(&mut rng, 5);
    desk.session("M10 and coupons", seed)
}

pub fn sessions(seed: u64) -> Vec<Session> {
    vec![sizes(), wordings(), coupons(seed)]
}
