//! Every step letter on every connective, the fitting one and all others; and what is read of a label
//! that was never taken.

use super::booking::LETTERS;
use super::breaks::{LEFTS, RIGHTS};
use super::session::{Desk, Session};

pub const MATRIX: [&str; 7] = [
    "matrix: left step", "matrix: left step, goal affirms", "matrix: right step",
    "matrix: right step, goal affirms", "matrix: ax on what equals the goal", "matrix: label never taken",
    "matrix: br keeps R",
];

/// A wording of each connective, in the order of `LETTERS`; 0 is an atom, and `OTHER` another.
const WORDS: [&str; 14] = [
    "a,9,7", "o", "t,0,0", "w,0,0", "p,0,0", "l,0,0", "u,0,0", "b,0", "h,0,0,9,0,0", "s,1,0", "g,0,9,0,0,0,9,0,0",
    "n,9,7,5", "q,11", "a,8,7",
];
const OTHER: usize = 13;
const EMPTY: &str = "0000000000000000";

/// The wordings, each as a standing coupon: serial n + 1 for wording n.
fn desk() -> Desk {
    let mut desk = Desk::new();
    desk.words(&WORDS);
    for n in 0..WORDS.len() {
        desk.script(&format!("issue,r,{n},0,9,0,0"), &format!("ok,{}", n + 1), "");
    }
    desk
}

/// The offer of `OTHER` for this one, as a standing coupon.
fn offer(desk: &mut Desk, wording: usize) -> u32 {
    let (line, serial) = (desk.model.lines.len(), desk.model.given + 1);
    desk.words(&[&format!("l,{wording},{OTHER}")]);
    desk.script(&format!("issue,r,{line},0,9,0,0"), &format!("ok,{serial}"), "");
    serial
}

/// A booking that ends with the step to be tried: wrong there, or right and left open.
fn end_with(desk: &mut Desk, head: &str, steps: &str, good: bool, name: &'static str) {
    let n = steps.split('|').count();
    let answer = if good { format!("no,42,{}", n + 1) } else { format!("no,40,{n}") };
    desk.script(&head.replace("{}", &n.to_string()).replace("{S}", steps), &answer, name);
}

fn left_line(letters: &str, label: u32) -> String {
    match letters {
        "ll" => format!("ll,{label},{EMPTY},0,9,0,0"),
        "ul" => format!("ul,{label},0,9,0,0"),
        "al" => format!("al,{label},6"),
        _ => format!("{letters},{label}"),
    }
}

/// Left steps on label 1, a copy of the coupon, for a goal without affirms and for one with.
fn lefts() -> Session {
    let mut desk = desk();
    for (letters, own) in LEFTS.iter().filter(|(letters, _)| *letters != "ax") {
        for (n, letter) in LETTERS.chars().enumerate() {
            let line = left_line(letters, 1);
            let head = |goal: u32| format!("book,5,{goal},0,9,0,0,1,{{}}|hold,{}|{{S}}", n + 1);
            let fits = letter == *own;
            let plain = fits && *letters != "sl";
            end_with(&mut desk, &head(0), &format!("cp,0|{line}"), plain, MATRIX[0]);
            end_with(&mut desk, &head(9), &format!("sr|cp,0|{line}"), fits, MATRIX[1]);
        }
    }
    desk.session("matrix: left steps", 0)
}

/// Right steps for the left part of an offer, with nothing in D; and `ax` with its copy in D.
fn rights() -> Session {
    let mut desk = desk();
    for (n, letter) in LETTERS.chars().enumerate() {
        let serial = offer(&mut desk, n);
        let start = format!("cp,0|ll,1,{EMPTY},0,9,0,0");
        let head = format!("book,5,{OTHER},0,9,0,0,1,{{}}|hold,{serial}|{{S}}");
        for (letters, own) in RIGHTS {
            let line = if letters == "tr" { format!("tr,{EMPTY}") } else { letters.to_string() };
            end_with(&mut desk, &head, &format!("{start}|{line}"), letter == own, MATRIX[2]);
        }
        let head = format!("book,5,{OTHER},0,9,0,0,2,{{}}|hold,{serial}|hold,{}|{{S}}", n + 1);
        let steps = "cp,0|cp,1|ll,2,0000000000000008,0,9,0,0|ax,3";
        end_with(&mut desk, &head, steps, matches!(letter, 'a' | 'n'), MATRIX[4]);
        if letter == 'b' {
            let (holds, next) = (format!("hold,{serial}|hold,1"), desk.model.given + 1);
            let steps = format!("cp,0|ll,2,{EMPTY},0,9,0,0|br|cp,1|ax,3|ax,4");
            desk.script(&format!("book,5,{OTHER},0,9,0,0,2,6|{holds}|{steps}"), &format!("ok,{next}"), MATRIX[6]);
        }
    }
    desk.session("matrix: right steps", 0)
}

/// Right steps and `ax` once the goal affirms: all wrong, whatever it affirms.
fn affirming() -> Session {
    let mut desk = desk();
    for n in 0..LETTERS.len() {
        let said = desk.model.lines.len();
        if n > 0 {
            desk.words(&[&format!("s,1,{n}")]);
        }
        let serial = offer(&mut desk, if n > 0 { said } else { 9 });
        let head = format!("book,5,{OTHER},0,9,0,0,1,{{}}|hold,{serial}|{{S}}");
        for (letters, _) in RIGHTS {
            let line = if letters == "tr" { format!("tr,{EMPTY}") } else { letters.to_string() };
            let steps = format!("cp,0|ll,1,{EMPTY},0,9,0,0|sr|{line}");
            end_with(&mut desk, &head, &steps, false, MATRIX[3]);
        }
        let head = format!("book,5,{OTHER},0,9,0,0,2,{{}}|hold,{serial}|hold,{}|{{S}}", n + 1);
        let steps = "cp,0|cp,1|ll,2,0000000000000008,0,9,0,0|sr|ax,3";
        end_with(&mut desk, &head, steps, false, MATRIX[3]);
        end_with(&mut desk, &head, "cp,0|cp,1|ll,2,0000000000000008,0,9,0,0|sr|af", true, "");
    }
    desk.session("matrix: right steps, goal affirms", 0)
}

/// A label that no one took stands for nothing, least of all for wording 0 at 0..0.
fn never_taken(first: &str) -> Session {
    let mut desk = Desk::new();
    desk.words(&[first, "a,8,8"]);
    let goal = u32::from(first == "o");
    desk.script("issue,s,1,0,0,0,0", "ok,1", "");
    for line in ["ax,0", "cp,0", "ol,0", "ax,63", "cp,63", "ol,63"] {
        let alone = format!("book,0,{goal},0,0,0,0,0,2|{line}|ax,0");
        desk.script(&alone, "no,40,1", MATRIX[5]);
    }
    for line in ["ax,1", "cp,1", "ol,1", "ax,63", "cp,63", "ol,63"] {
        desk.script(&format!("book,0,1,0,0,0,0,1,2|hold,1|{line}|ax,0"), "no,40,1", MATRIX[5]);
    }
    desk.script("book,0,1,0,0,0,0,1,1|hold,1|ax,0", "ok,2", "");
    desk.session("matrix: labels never taken", 0)
}

pub fn sessions() -> Vec<Session> {
    vec![lefts(), rights(), affirming(), never_taken("a,9,7"), never_taken("o")]
}
