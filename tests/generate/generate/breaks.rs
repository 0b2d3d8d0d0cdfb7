//! For the judged line that a step works on: step lines that break one clause of one rule and no other,
//! each under its name. Whatever follows, such a line must give 40 with its own step.

use super::wording::*;
use super::write::{Held, Scene, StepLine};

/// One name for each letter with the clause behind it.
macro_rules! ways {
    ($($letters:literal)*; $clause:literal) => { [$(concat!($letters, ": ", $clause)),*] };
}

macro_rules! over_break {
    ($letters:literal) => {
        [
            concat!($letters, ": window over L's break"),
            concat!($letters, ": window ends in L's break"),
            concat!($letters, ": window begins in L's break"),
            concat!($letters, ": window in L's break"),
            concat!($letters, ": break begins after L's"),
            concat!($letters, ": break ends before L's"),
            concat!($letters, ": break beside L's"),
        ]
    };
}

/// The same for every left step and `ax`.
macro_rules! lefts {
    ($clause:literal) => { ways!("ax" "tl" "ol" "w1" "w2" "pl" "ll" "ul" "bl" "hl" "sl" "al"; $clause) };
}

pub const LEFTS: [(&str, char); 12] = [
    ("ax", 'a'), ("tl", 't'), ("ol", 'o'), ("w1", 'w'), ("w2", 'w'), ("pl", 'p'),
    ("ll", 'l'), ("ul", 'u'), ("bl", 'b'), ("hl", 'h'), ("sl", 's'), ("al", 'q'),
];
pub const RIGHTS: [(&str, char); 9] = [
    ("tr", 't'), ("or", 'o'), ("wr", 'w'), ("p1", 'p'), ("p2", 'p'), ("br", 'b'),
    ("hr", 'h'), ("sr", 's'), ("gr", 'g'),
];
pub const OF_R: [&str; 12] = lefts!("label of R");
pub const SPENT: [&str; 12] = lefts!("label no longer in D");
pub const NEVER: [&str; 12] = lefts!("label never taken");
pub const OTHER: [&str; 12] = lefts!("L of another connective");
pub const GOAL_OTHER: [&str; 9] =
    ways!("tr" "or" "wr" "p1" "p2" "br" "hr" "sr" "gr"; "goal of another connective");
pub const GOAL_AFFIRMS: [&str; 9] = ways!("tr" "or" "wr" "p1" "p2" "br" "hr" "sr" "gr"; "goal affirms");
pub const REST: [&str; 27] = [
    "ax: goal affirms", "ax: more in D", "ax: goal no atom",
    "or: D not empty", "br: D not empty", "gr: D not empty", "af: goal does not affirm",
    "sl: goal does not affirm",
    "cp: label of D", "cp: label no longer in D", "cp: label never taken", "cp: label of another premise's R",
    "tr: share with label never taken", "tr: share with label of R", "tr: share with spent label",
    "ll: share with label never taken", "ll: share with label of R", "ll: share with spent label",
    "ll: share with L",
    "ll: window from too early", "ll: window to too late", "ll: window overlaps before",
    "ll: window overlaps behind",
    "ul: window from too early", "ul: window to too late", "ul: window overlaps before",
    "ul: window overlaps behind",
];

/// J against a break in L's window.
pub const OVER_BREAK: [[&str; 7]; 2] = [over_break!("ll"), over_break!("ul")];

/// Rare in a derivation that closes, and made on purpose elsewhere.
const RARE: [&str; 3] = ["sl: window", "sl: other principal", "ax: other atom"];

/// The name as it stands in the lists above.
pub fn way(text: &str) -> &'static str {
    let known = REST.iter().chain(&RARE).chain(OVER_BREAK.iter().flatten()).find(|w| **w == text);
    known.unwrap_or_else(|| panic!("no such way: {text}"))
}

pub type Broken = (&'static str, StepLine);

fn line(letters: &'static str, label: Option<u32>, w: Window) -> StepLine {
    StepLine {
        letters,
        label,
        holder: (letters == "al").then_some(5),
        share: matches!(letters, "tr" | "ll").then_some(0),
        window: matches!(letters, "ll" | "ul").then_some(w),
    }
}

fn on(letters: &'static str, h: &Held) -> StepLine {
    line(letters, Some(h.label), h.window)
}

fn bare(letters: &'static str) -> StepLine {
    line(letters, None, window(0, 0))
}

/// A wording of the connective; `n` is an atom as `a` is.
fn is(letter: char, wording: &Wording) -> bool {
    if letter == 'a' { wording.atomic().is_some() } else { wording.letter() == letter }
}

/// L would suit the step, were it only in D.
fn fits(letters: &str, letter: char, h: &Held, s: &Scene) -> bool {
    let around = h.window.contains(s.goal.window);
    is(letter, &h.wording)
        && match letters {
            "ax" => s.goal.by.is_none() && h.wording == s.goal.wording && around,
            "sl" => s.goal.by.is_some() && s.goal.by == principal(h) && around,
            _ => true,
        }
}

fn principal(h: &Held) -> Option<u32> {
    match &*h.wording {
        Wording::Says(k, _) => Some(*k),
        _ => None,
    }
}

/// All of the ways that this judged line allows.
pub fn breaks(s: &Scene) -> Vec<Broken> {
    let mut out = vec![];
    for (i, (letters, letter)) in LEFTS.iter().enumerate() {
        labels(i, letters, *letter, s, &mut out);
    }
    for (i, (letters, letter)) in RIGHTS.iter().enumerate() {
        goals(i, letters, *letter, s, &mut out);
    }
    axioms(s, &mut out);
    affirmations(s, &mut out);
    copies(s, &mut out);
    shares(s, &mut out);
    windows(s, &mut out);
    out
}

fn labels(i: usize, letters: &'static str, letter: char, s: &Scene, out: &mut Vec<Broken>) {
    for h in s.r.iter().filter(|h| fits(letters, letter, h, s)) {
        out.push((OF_R[i], on(letters, h)));
    }
    for h in s.gone.iter().filter(|h| h.label < 64 && !h.standing && fits(letters, letter, h, s)) {
        out.push((SPENT[i], on(letters, h)));
    }
    for label in [s.next, 63] {
        if s.next <= label && label <= 63 {
            out.push((NEVER[i], line(letters, Some(label), s.goal.window)));
        }
    }
    let only_fault = |h: &&Held| match letters {
        "ax" => s.d.len() == 1 && s.goal.by.is_none() && h.wording == s.goal.wording,
        "sl" => s.goal.by.is_some() && h.window.contains(s.goal.window),
        _ => true,
    };
    for h in s.d.iter().filter(|h| !is(letter, &h.wording)).filter(only_fault) {
        out.push((OTHER[i], on(letters, h)));
    }
}

fn goals(i: usize, letters: &'static str, letter: char, s: &Scene, out: &mut Vec<Broken>) {
    let wants_empty = matches!(letters, "or" | "br" | "gr");
    let holds = match &*s.goal.wording {
        Wording::Covers(outer, inner) => outer.contains(*inner),
        _ => true,
    };
    let right_goal = s.goal.wording.letter() == letter;
    let room = s.d.is_empty() || !wants_empty;
    match (s.goal.by, right_goal, room) {
        (None, false, true) => out.push((GOAL_OTHER[i], bare(letters))),
        (Some(_), true, true) if holds => out.push((GOAL_AFFIRMS[i], bare(letters))),
        (None, true, false) if holds => {
            out.push((way(&format!("{letters}: D not empty")), bare(letters)));
        }
        _ => {}
    }
}

fn axioms(s: &Scene, out: &mut Vec<Broken>) {
    for h in s.d.iter().filter(|h| is('a', &h.wording)) {
        let equal = h.wording == s.goal.wording;
        let around = h.window.contains(s.goal.window);
        let alone = s.d.len() == 1;
        let name = match (s.goal.by, equal, around, alone) {
            (Some(_), true, true, true) => "ax: goal affirms",
            (None, true, true, false) => "ax: more in D",
            (None, false, _, true) if is('a', &s.goal.wording) => "ax: other atom",
            (None, false, _, true) => "ax: goal no atom",
            _ => continue,
        };
        out.push((way(name), on("ax", h)));
    }
}

fn affirmations(s: &Scene, out: &mut Vec<Broken>) {
    if s.goal.by.is_none() {
        out.push((way("af: goal does not affirm"), bare("af")));
    }
    for h in s.d.iter().filter(|h| h.wording.letter() == 's') {
        let around = h.window.contains(s.goal.window);
        let name = match (s.goal.by, around) {
            (None, true) => "sl: goal does not affirm",
            (Some(k), true) if principal(h) != Some(k) => "sl: other principal",
            (Some(k), false) if principal(h) == Some(k) => "sl: window",
            _ => continue,
        };
        out.push((way(name), on("sl", h)));
    }
}

fn copies(s: &Scene, out: &mut Vec<Broken>) {
    for h in &s.d {
        out.push((way("cp: label of D"), on("cp", h)));
    }
    for h in s.gone.iter().filter(|h| h.label < 64) {
        let name = if h.standing { "cp: label of another premise's R" } else { "cp: label no longer in D" };
        out.push((way(name), on("cp", h)));
    }
    if s.next < 64 {
        out.push((way("cp: label never taken"), line("cp", Some(s.next), s.goal.window)));
    }
}

fn shares(s: &Scene, out: &mut Vec<Broken>) {
    let mut bits: Vec<(&str, u32)> = vec![];
    bits.extend(s.r.first().map(|h| ("label of R", h.label)));
    bits.extend(s.gone.last().map(|h| ("spent label", h.label)));
    bits.extend([s.next, 63].iter().map(|n| ("label never taken", *n)).filter(|(_, n)| *n >= s.next));
    for (what, label) in bits.into_iter().filter(|(_, label)| *label < 64) {
        if s.goal.by.is_none() && s.goal.wording.letter() == 't' {
            let share = Some(s.d.iter().map(|h| 1u64 << h.label).sum::<u64>() | 1 << label);
            out.push((way(&format!("tr: share with {what}")), StepLine { share, ..bare("tr") }));
        }
        for h in s.d.iter().filter(|h| h.wording.letter() == 'l') {
            let share = Some(1 << label);
            out.push((way(&format!("ll: share with {what}")), StepLine { share, ..on("ll", h) }));
        }
    }
    for h in s.d.iter().filter(|h| h.wording.letter() == 'l') {
        let all: u64 = s.d.iter().map(|h| 1u64 << h.label).sum();
        for share in [1 << h.label, all] {
            out.push((way("ll: share with L"), StepLine { share: Some(share), ..on("ll", h) }));
        }
    }
}

/// Windows from..to that do not lie in the outer one, by the end that sticks out.
fn sticking_out(outer: Window) -> Vec<(&'static str, Window)> {
    let mut out = vec![];
    let room_before = outer.from > 0;
    let room_behind = outer.to < LAST_MINUTE;
    if room_before {
        out.push(("window from too early", Window { from: outer.from - 1, ..outer }));
        out.push(("window overlaps before", window(outer.from - 1, outer.from)));
    }
    if room_behind {
        out.push(("window to too late", Window { to: outer.to + 1, ..outer }));
        out.push(("window overlaps behind", window(outer.to, outer.to + 1)));
    }
    out
}

/// Windows with ends in order that meet the outer one's break.
fn over_break(w: Window) -> Vec<(&'static str, Window)> {
    if !w.has_break() {
        return vec![];
    }
    let mut out = vec![
        ("window over L's break", w.whole()),
        ("window ends in L's break", window(w.from, w.first)),
        ("window begins in L's break", window(w.last, w.to)),
        ("window in L's break", window(w.first, w.last)),
    ];
    if w.first < w.last {
        out.push(("break begins after L's", Window { first: w.first + 1, ..w }));
        out.push(("break ends before L's", Window { last: w.last - 1, ..w }));
    }
    if w.from + 1 < w.first {
        out.push(("break beside L's", Window { first: w.first - 1, last: w.first - 1, ..w }));
    }
    out
}

fn windows(s: &Scene, out: &mut Vec<Broken>) {
    for (letters, letter) in [("ll", 'l'), ("ul", 'u')] {
        for h in s.d.iter().filter(|h| h.wording.letter() == letter) {
            for (what, w) in [sticking_out(h.window), over_break(h.window)].concat() {
                let name = way(&format!("{letters}: {what}"));
                out.push((name, StepLine { window: Some(w), ..on(letters, h) }));
            }
        }
    }
}
