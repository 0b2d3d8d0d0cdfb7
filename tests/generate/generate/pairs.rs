//! Sheets that break two checks at once: the first in document 01's order answers.

use super::form::Kind;
use super::model::{Answer, MOST_LIVE};
use super::rng::Rng;
use super::session::{Desk, Session};
use super::wording::*;

/// A booking sheet in pieces, so that faults can be put in one beside the other.
#[derive(Clone)]
struct Pieces {
    now: u32,
    /// The numbers of the four goals, and the one wanted; 999 stands for itself.
    goals: [u32; 4],
    goal: usize,
    window: Window,
    holds: Vec<u32>,
    /// The steps, unless `steps` says otherwise: copy label 0, close with the copy.
    steps: Option<Vec<String>>,
    damage: &'static str,
    overlong: bool,
}

/// The orders of checks for a booking, save the one for a full till.
const BOOK: [u32; 13] = [1, 2, 3, 43, 10, 53, 20, 30, 24, 31, 40, 41, 42];
/// Goals: 0 is right, 1 not plain, 2 has holder 0 outside `q`, and 3 both.
const GOALS: [&str; 4] = ["a,9,7", "o", "n,9,7,0", "t,1,2"];
/// A serial that no session here gives.
const NEVER_GIVEN: u32 = 7_777;
/// Breaks that fit neither 0..9 nor 9..8.
const BAD_BREAKS: [(u32, u32); 6] = [(0, 5), (5, 0), (6, 5), (4, 9), (9, 9), (12, 13)];

impl Pieces {
    fn good(standing: u32, goals: [u32; 4]) -> Pieces {
        Pieces {
            now: 5,
            goals,
            goal: 0,
            window: window(0, 9),
            holds: vec![standing],
            steps: None,
            damage: "",
            overlong: false,
        }
    }

    fn steps(&self) -> Vec<String> {
        let closing = vec!["cp,0".to_string(), format!("ax,{}", self.holds.len())];
        self.steps.clone().unwrap_or(closing)
    }

    /// Copies without end: label 64 is wanted after 64 less the holds.
    fn copies(&self) -> usize {
        65 - self.holds.len()
    }

    fn break_it(&mut self, number: u32, rng: &mut Rng) {
        match number {
            1 => self.overlong = true,
            2 => self.damage = rng.pick(&[",", " ", "\r", ",0", "x"]),
            3 => (self.window.from, self.window.to) = (9, 8),
            43 => (self.window.first, self.window.last) = rng.pick(&BAD_BREAKS),
            10 => self.goal = 999,
            20 => self.goal = 1,
            53 => self.goal += 2,
            30 if !self.window.has_break() && rng.chance(1, 2) => {
                (self.window.first, self.window.last) = (4, 6);
                self.now = rng.between(4, 6);
            }
            30 => self.now = if self.window.from == 0 { 10 } else { 0 },
            24 => {
                let place = rng.below(self.holds.len() + 1).max(1);
                self.holds.insert(place, NEVER_GIVEN);
            }
            31 => self.holds.push(self.holds[0]),
            40 => {
                let mut steps = self.steps();
                steps[0] = "af".to_string();
                self.steps = Some(steps);
            }
            41 => self.steps = Some(vec!["cp,0".to_string(); self.copies() + rng.below(3)]),
            _ => {
                let mut steps = self.steps();
                if rng.chance(1, 2) {
                    steps.push("or".to_string());
                } else {
                    steps.pop();
                }
                self.steps = Some(steps);
            }
        }
    }

    fn sheet(&self) -> Vec<u8> {
        let steps = self.steps();
        let (h, n) = (self.holds.len(), steps.len());
        let goal = self.goals.get(self.goal).copied().unwrap_or(999);
        let mut text = format!("book,{},{goal},{},{h},{n}{}\n", self.now, self.window.text(), self.damage);
        self.holds.iter().for_each(|s| text += &format!("hold,{s}\n"));
        steps.iter().for_each(|s| text += &format!("{s}\n"));
        if self.overlong {
            text += &"af\n".repeat(5_500);
        }
        text.into_bytes()
    }
}

pub const BOOK_PAIRS: [&str; 14] = [
    "pair: book 1", "pair: book 2", "pair: book 3", "pair: book 43", "pair: book 10", "pair: book 53", "pair: book 20",
    "pair: book 30", "pair: book 24", "pair: book 31", "pair: book 40", "pair: book 41", "pair: book 42",
    "pair: book 22",
];

/// The answer when this check is the first to fail.
fn answer_of(number: u32, pieces: &Pieces, both: &[u32]) -> Answer {
    let n = pieces.steps().len() as u32;
    match number {
        40 => Answer::Refused(40, 1),
        41 => Answer::Refused(41, pieces.copies() as u32),
        42 if both.contains(&42) => Answer::Refused(42, n.clamp(2, 3)),
        _ => Answer::Refused(number, 0),
    }
}

/// On a till with room.
fn bookings(seed: u64) -> Session {
    let mut desk = Desk::new();
    desk.words(&GOALS);
    let standing = desk.issue(Kind::Standing, &atom(9, 7), window(0, 9));
    booking_pairs(&mut desk, seed, standing, [0, 1, 2, 3]);
    desk.session("pairs: bookings", seed)
}

/// Every pair of checks that one booking can break, on a till with room or a full one.
fn booking_pairs(desk: &mut Desk, seed: u64, standing: u32, goals: [u32; 4]) {
    let mut rng = Rng::new(seed);
    for (i, first) in BOOK.iter().enumerate() {
        for second in BOOK[i..].iter() {
            // Of a wording that is not there no other check can tell.
            if (*first == 10 && matches!(second, 53 | 20)) || (*first == 41 && *second == 42) {
                continue;
            }
            for _ in 0..2 {
                let mut pieces = Pieces::good(standing, goals);
                // Faults in holds come before those in steps, which count the holds.
                let mut both = vec![*second, *first];
                both.sort_by_key(|n| (matches!(n, 40..=42), *n == 40));
                both.dedup();
                both.iter().for_each(|n| pieces.break_it(*n, &mut rng));
                let answer = answer_of(*first, &pieces, &both);
                desk.expect(&pieces.sheet(), answer, &[BOOK_PAIRS[i]]);
            }
        }
    }
    let good = Pieces::good(standing, goals).sheet();
    let full = desk.model.live.len() == MOST_LIVE;
    let answer = if full { Answer::Refused(22, 0) } else { Answer::Done(desk.model.given + 1) };
    desk.expect(&good, answer, if full { &["pair: book 22"] } else { &[] });
    step_order(desk, standing);
}

/// 40 to 42 are found step by step; 24 before 31; 3, then 43, in any line before the others, 2 before them. The last
/// serial given is a live single.
fn step_order(desk: &mut Desk, standing: u32) {
    let cps = |n: usize| vec!["cp,0"; n].join("|");
    let hold = format!("hold,{standing}");
    let tries = [
        (format!("64|{hold}|{}", cps(64)), "no,41,64", "pair: 41 on the last line"),
        (format!("65|{hold}|{}|af", cps(64)), "no,41,64", "pair: 41 before 40"),
        (format!("64|{hold}|{}|af", cps(63)), "no,40,64", "pair: 40 where no label is left"),
        (format!("64|{hold}|{}|cp,63", cps(63)), "no,40,64", "pair: 40 where no label is left"),
        (format!("63|{hold}|{}", cps(63)), "no,42,64", "pair: 42 where no label is left"),
        (format!("3|{hold}|cp,0|ax,1|af"), "no,42,3", "pair: 42 before 40"),
        (format!("4|{hold}|cp,0|ax,1|cp,9|sr"), "no,42,3", "pair: 42 before 40"),
        (format!("3|{hold}|cp,0|ax,1|ul,0,9,8,0,0"), "no,3,0", "pair: 3 after the close"),
        (format!("3|{hold}|cp,0|ax,1|ul,0,0,9,5,9"), "no,43,0", "pair: 43 after the close"),
        (format!("4|{hold}|cp,0|ax,1|ul,0,0,9,5,9|ul,0,9,8,0,0"), "no,3,0", "pair: 43, then 3 after the close"),
        (format!("3|{hold}|cp,0|ax,1|ax,64"), "no,2,0", "pair: 2 after the close"),
        (format!("3|{hold}|cp,0|ax,0|ax,1"), "no,40,2", "pair: 40 before 42"),
        (format!("1|{hold}|cp,0"), "no,42,2", "pair: 42 alone"),
        (format!("2|{hold}|cp,0|ul,0,9,8,0,0|ax,1"), "no,2,0", "pair: 2 and 3, a line too many"),
        (format!("2|{hold}|cp,0|ul,0,0,9,0,5|ax,1"), "no,2,0", "pair: 2 and 43, a line too many"),
    ];
    for (tail, answer, name) in tries {
        desk.script(&format!("book,5,0,0,9,0,0,1,{tail}"), answer, name);
    }
    for holds in ["X|hold,S|hold,S", "S|hold,S|hold,X", "S|hold,X|hold,S", "X|hold,X|hold,S"] {
        let holds = holds.replace('S', &standing.to_string()).replace('X', &NEVER_GIVEN.to_string());
        desk.script(&format!("book,5,0,0,9,0,0,3,1|hold,{holds}|af"), "no,24,0", "pair: 24 before 31");
    }
    let last = desk.model.given.to_string();
    for (holds, name) in [
        ("S|hold,S", "standing held twice"), ("S|hold,S|hold,S", "standing held twice"),
        ("L|hold,L", "single held twice"), ("S|hold,L|hold,S", "held twice, another between"),
        ("L|hold,S|hold,L", "held twice, another between"),
    ] {
        let n = holds.split('|').count();
        let holds = holds.replace('S', &standing.to_string()).replace('L', &last);
        desk.script(&format!("book,5,0,0,9,0,0,{n},1|hold,{holds}|af"), "no,31,0", name);
    }
}

pub const STEP_ORDER: [&str; 17] = [
    "pair: 41 on the last line", "pair: 41 before 40", "pair: 40 where no label is left",
    "pair: 42 where no label is left", "pair: 42 before 40", "pair: 3 after the close",
    "pair: 2 after the close", "pair: 40 before 42", "pair: 42 alone", "pair: 24 before 31",
    "standing held twice", "single held twice", "held twice, another between", "pair: 2 and 3, a line too many",
    "pair: 43 after the close", "pair: 43, then 3 after the close", "pair: 2 and 43, a line too many",
];
pub const CALL_PAIRS: [&str; 28] = [
    "pair: word 2 and 3", "pair: word 2 and 10", "pair: word 2 and 13", "pair: word 3 and 10",
    "pair: word 3 and 12", "pair: word 10 and 12", "pair: word 3 and 14", "pair: word 10 and 14",
    "pair: word 12 and 14", "pair: word 13 and 14", "pair: issue", "pair: withdraw 2 and 24",
    "pair: overlong", "pair: word 2 and 14", "pair: word 2 and 43", "pair: word 3 and 43", "pair: word 43 and 10",
    "pair: word 43 and 12", "pair: word 43 and 14", "pair: issue 43", "pair: issue 43, full till",
    "pair: word 2 and 53", "pair: word 10 and 53", "pair: word 53 and 12", "pair: word 53 and 13",
    "pair: word 53 and 14", "pair: issue 53", "pair: issue 53, full till",
];

fn words(desk: &mut Desk) {
    let long = ",".repeat(16_400);
    desk.words(&["a,9,7", "t,0,0", "t,1,1", "t,2,2", "t,3,3", "t,4,4", "s,1,5", "h,0,0,9,0,0"]);
    desk.words(&["a,1,7", "o", "l,8,9", "n,9,7,0", "t,11,9", "n,1,7,0", "l,13,9", "q,0", "q,4", "t,16,4"]);
    desk.script("word,h,0,9,8,0,0,", "no,2,0", "pair: word 2 and 3");
    desk.script("word,h,0,09,8,0,0", "no,2,0", "pair: word 2 and 3");
    desk.script("word,h,0,9,8,0,0|o", "no,2,0", "pair: word 2 and 3");
    desk.script("word,t,999,0,", "no,2,0", "pair: word 2 and 10");
    desk.script("word,t,999,1000", "no,2,0", "pair: word 2 and 10");
    desk.script("word,a,9,07", "no,2,0", "pair: word 2 and 13");
    desk.script("word,a,9,65543", "no,2,0", "pair: word 2 and 13");
    desk.script("word,a,265,7", "no,2,0", "pair: word 2 and 13");
    desk.script("word,h,0,0,09,0,0", "no,2,0", "pair: word 2 and 13");
    desk.script("word,h,0,0,9,0,5,", "no,2,0", "pair: word 2 and 43");
    desk.script("word,h,0,0,9,5,00", "no,2,0", "pair: word 2 and 43");
    desk.script("word,g,0,9,0,5,0,9,5,10000000", "no,2,0", "pair: word 2 and 43");
    desk.script("word,h,0,9,8,0,5", "no,3,0", "pair: word 3 and 43");
    desk.script("word,g,0,9,0,5,9,8,0,0", "no,3,0", "pair: word 3 and 43");
    desk.script("word,g,9,8,0,0,0,9,0,5", "no,3,0", "pair: word 3 and 43");
    desk.script("word,h,999,0,9,5,9", "no,43,0", "pair: word 43 and 10");
    desk.script("word,h,6,0,9,0,9", "no,43,0", "pair: word 43 and 12");
    desk.script("word,h,999,9,8,0,0", "no,3,0", "pair: word 3 and 10");
    desk.script("word,h,6,9,8,0,0", "no,3,0", "pair: word 3 and 12");
    desk.script("word,t,6,999", "no,10,0", "pair: word 10 and 12");
    desk.script("word,t,999,6", "no,10,0", "pair: word 10 and 12");
    for line in ["q,15,", "q,015", "q,15,0", "q, 15", "q,15|o"] {
        desk.script(&format!("word,{line}"), "no,2,0", "pair: word 2 and 53");
    }
    // Its own number would be a `q`.
    desk.script("word,q,18", "no,10,0", "pair: word 10 and 53");
    desk.script("word,q,17", "no,53,0", "pair: word 53 and 12");
    [1, 2].iter().for_each(|_| desk.script("word,q,15", "no,53,0", "pair: word 53 and 13"));
    desk.script(&format!("word,a,9,7{long}"), "no,1,0", "pair: overlong");
    desk.script(&format!("word,h,999,9,8,0,0{long}"), "no,1,0", "pair: overlong");
    for n in 18..200 {
        desk.words(&[&format!("a,10,{n}")]);
    }
    full_of_words(desk);
}

/// The same where 200 wordings are there.
fn full_of_words(desk: &mut Desk) {
    let long = ",".repeat(16_400);
    desk.script("word,a,300,0", "no,2,0", "pair: word 2 and 14");
    desk.script("word,a,0,65536", "no,2,0", "pair: word 2 and 14");
    desk.script("word,h,0,9,8,0,0", "no,3,0", "pair: word 3 and 14");
    desk.script("word,g,0,9,0,0,9,8,0,0", "no,3,0", "pair: word 3 and 14");
    desk.script("word,h,0,0,9,9,9", "no,43,0", "pair: word 43 and 14");
    desk.script("word,g,0,9,1,8,0,9,8,1", "no,43,0", "pair: word 43 and 14");
    desk.script("word,t,0,200", "no,10,0", "pair: word 10 and 14");
    desk.script("word,t,999,0", "no,10,0", "pair: word 10 and 14");
    desk.script("word,q,200", "no,10,0", "pair: word 10 and 53");
    desk.script("word,q,15", "no,53,0", "pair: word 53 and 14");
    desk.script("word,q,17", "no,53,0", "pair: word 53 and 14");
    desk.script("word,q,8", "no,14,0", "200 wordings there");
    desk.script("word,s,1,6", "no,12,0", "pair: word 12 and 14");
    desk.script("word,t,5,5", "no,12,0", "pair: word 12 and 14");
    desk.script("word,t,4,4", "no,13,0", "pair: word 13 and 14");
    desk.script("word,h,0,0,9,0,0", "no,13,0", "pair: word 13 and 14");
    desk.script("word,a,9,263", "no,14,0", "200 wordings there");
    desk.script("word,a,9,65535", "no,14,0", "200 wordings there");
    desk.script(&format!("word,t,4,4{long}"), "no,1,0", "pair: overlong");
}

/// Wording 0 is plain and balanced, 7 is not plain, 8 not balanced, 10 neither; 11 to 14 are the same with holder 0
/// outside `q`, and 15 is a `q`.
const ISSUES: [(&str, &str); 45] = [
    ("issue,s,999,9,8,0,0", "no,3,0"), ("issue,r,999,9,8,0,0", "no,3,0"), ("issue,s,7,9,8,0,0", "no,3,0"),
    ("issue,s,999,09,8,0,0", "no,2,0"), ("issue,x,999,0,8,0,0", "no,2,0"), ("issue,s,7,9,8,0,0,", "no,2,0"),
    ("issue,s,0,9,8,0,0", "no,3,0"), ("issue,r,0,9,8,0,0", "no,3,0"), ("issue,s,0,0,9,0,0,", "no,2,0"),
    ("issue,s,999,0,9,0,0", "no,10,0"), ("issue,r,999,0,9,0,0", "no,10,0"), ("issue,s,7,0,9,0,0", "no,20,0"),
    ("issue,r,8,0,9,0,0", "no,21,0"), ("issue,r,10,0,9,0,0", "no,21,0"), ("issue,r,10,9,0,0,0", "no,3,0"),
    ("issue,r,8,0,09,0,0", "no,2,0"), ("issue,s,10,0,9,0,0", "no,20,0"), ("issue,s,10,9,0,0,0", "no,3,0"),
    ("issue,s,0,9,8,0,0|o", "no,2,0"), ("issue,s,0,9,8,0,5", "no,3,0"), ("issue,r,0,9,8,8,9", "no,3,0"),
    ("issue,s,999,0,9,0,5", "no,43,0"), ("issue,r,999,0,9,5,0", "no,43,0"), ("issue,s,7,0,9,9,9", "no,43,0"),
    ("issue,r,8,0,9,6,5", "no,43,0"), ("issue,s,0,0,9,4,12", "no,43,0"), ("issue,r,0,0,9,12,13", "no,43,0"),
    ("issue,s,0,0,9,0,05", "no,2,0"), ("issue,s,0,0,9,5", "no,2,0"), ("issue,s,0,0,9,0,5|o", "no,2,0"),
    ("issue,s,999,9,8,5,0", "no,3,0"), ("issue,s,11,0,9,0,0", "no,53,0"), ("issue,r,11,0,9,0,0", "no,53,0"),
    ("issue,s,12,0,9,0,0", "no,53,0"), ("issue,r,12,0,9,0,0", "no,53,0"), ("issue,s,13,0,9,0,0", "no,53,0"),
    ("issue,r,13,0,9,0,0", "no,53,0"), ("issue,s,14,0,9,0,0", "no,53,0"), ("issue,r,14,0,9,0,0", "no,53,0"),
    ("issue,s,11,9,8,0,0", "no,3,0"), ("issue,r,13,0,9,0,5", "no,43,0"), ("issue,s,12,0,9,9,9", "no,43,0"),
    ("issue,s,011,0,9,0,0", "no,2,0"), ("issue,r,11,0,9,0,0,", "no,2,0"), ("issue,s,15,0,9,0,0", "no,20,0"),
];

fn other_calls(desk: &mut Desk) {
    let long = "0".repeat(16_400);
    let full = desk.model.live.len() == MOST_LIVE;
    for (text, answer) in ISSUES {
        let mark = match (answer, full) {
            ("no,43,0", true) => "pair: issue 43, full till",
            ("no,43,0", false) => "pair: issue 43",
            ("no,53,0", true) => "pair: issue 53, full till",
            ("no,53,0", false) => "pair: issue 53",
            _ => "pair: issue",
        };
        desk.script(text, answer, mark);
    }
    desk.script(&format!("issue,s,7,9,8,0,0{long}"), "no,1,0", "pair: overlong");
    desk.script(&format!("tally,256,5{long}"), "no,1,0", "pair: overlong");
    desk.script(&format!("tally,65536,5{long}"), "no,1,0", "pair: overlong");
    desk.script(&format!("withdraw,777777{long}"), "no,1,0", "pair: overlong");
    for text in ["withdraw,0777", "withdraw,777,", "withdraw,0", "withdraw,777|withdraw,778"] {
        desk.script(text, "no,2,0", "pair: withdraw 2 and 24");
    }
}

/// Coupon 1 is standing; then seats, and two bookings that hold no single, until the till is full.
fn fill(desk: &mut Desk) {
    desk.script("issue,r,0,0,9,0,0", "ok,1", "");
    while desk.model.live.len() < MOST_LIVE {
        let next = format!("ok,{}", desk.model.given + 1);
        match desk.model.live.len() {
            511 | 512 => {
                desk.script("book,5,0,0,9,0,0,1,2|hold,1|cp,0|ax,1", &next, "book at 512 live, none held");
            }
            _ => desk.script("issue,s,8,0,9,0,0", &next, ""),
        }
    }
}

/// All on one till, which is full in the end.
fn calls(seed: u64) -> Session {
    let mut desk = Desk::new();
    words(&mut desk);
    other_calls(&mut desk);
    fill(&mut desk);
    other_calls(&mut desk);
    desk.script("issue,s,8,0,9,0,0", "no,22,0", "pair: issue");
    booking_pairs(&mut desk, seed, 1, [0, 9, 11, 12]);
    desk.tally(7, 9);
    desk.tally(7, 10);
    desk.session("pairs: calls", seed)
}

pub fn sessions(seed: u64) -> Vec<Session> {
    vec![bookings(seed), calls(seed + 1)]
}
