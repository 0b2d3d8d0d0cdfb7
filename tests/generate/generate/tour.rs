//! Document 02, ask 1: session numbers from 0 to 65,535, at both ends, and told apart by more than a byte.

use super::papers;
use super::session::{Desk, Session};
use super::wording::{alike, LAST_SESSION};

/// What the atom's field, then tally's, must have had.
pub const ENDS: [[&str; 7]; 2] = [
    [
        "atom: session 0", "atom: session 255", "atom: session 256", "atom: session 65,535",
        "atom: session 65,536", "atom: session that a word would cut", "atom: session with leading zeros",
    ],
    [
        "tally: session 0", "tally: session 255", "tally: session 256", "tally: session 65,535",
        "tally: session 65,536", "tally: session that a word would cut", "tally: session with leading zeros",
    ],
];
pub const TOUR: [&str; 16] = [
    "predicate past 255", "principal past 255", "past 255: M1", "past 255: straight through",
    "past 255: many alike", "apart: lines", "apart: offer within a session", "apart: offer across sessions",
    "apart: tally", "apart: ax", "apart: ax after other steps", "apart: booked", "apart: withdrawn",
    "apart: withdrawn for both", "apart: tally of a third", "apart: clauses of balance",
];
/// Marks of sheets that come by chance: two sessions alike in one till.
pub const ALIKE: [&str; 6] = [
    "alike: tally of both", "alike: tally of the other", "alike: withdrawn beside the other",
    "alike: both in one booking", "alike: balanced only by a byte", "alike: balanced for each",
];

/// Sessions in range, each with its place in `ENDS`.
const GOOD: [(u32, usize); 8] =
    [(0, 0), (1, 0), (254, 1), (255, 1), (256, 2), (257, 2), (65_534, 3), (LAST_SESSION, 3)];
/// Above the range: the next ones; then ones of which 16, 24, 32, 64 or 128 bits keep a number in range.
const BEYOND: [(&str, usize); 22] = [
    ("65536", 4), ("65537", 4), ("65791", 4), ("65792", 4), ("99999", 4), ("100000", 4), ("655350", 4),
    ("65543", 5), ("131071", 5), ("131072", 5), ("196615", 5), ("16777223", 5), ("16842751", 5),
    ("4294967295", 5), ("4294967296", 5), ("4294967303", 5), ("4295032831", 5), ("18446744073709551615", 5),
    ("18446744073709551623", 5), ("18446744073709617151", 5), ("340282366920938463463374607431768211463", 5),
    ("340282366920938463463374607431768276991", 5),
];
const ZEROS: [&str; 9] = ["00", "07", "0255", "0256", "0263", "065535", "0065535", "000065535", "0000000065535"];
/// Past a byte's range, by one and by what a cut would make a seat, a place or 255.
const NO_BYTE: [u32; 9] = [256, 257, 258, 263, 511, 65_535, 65_536, 65_537, 65_791];

/// The field of an atom and that of a tally at the ends of the range and past it: a bare seat, and one to eight of the
/// house.
fn ends() -> Session {
    let mut desk = Desk::new();
    desk.words(&["a,1,7"]);
    for (n, (session, place)) in GOOD.iter().enumerate() {
        for predicate in [1, 2, 9, 255] {
            let line = format!("word,a,{predicate},{session}");
            let number = desk.model.lines.len();
            desk.script(&line, &format!("ok,{number}"), ENDS[0][*place]);
            desk.script(&line, "no,13,0", "line there already");
        }
        desk.script(&format!("tally,{session},5"), "ok,0,0,0", ENDS[1][*place]);
        let seat = desk.model.lines.len() - 4;
        desk.words(&[&format!("s,1,{seat}")]);
        for wording in std::iter::once(seat).chain(vec![seat + 4; n + 1]) {
            let serial = desk.model.given + 1;
            desk.script(&format!("issue,s,{wording},0,9,0,0"), &format!("ok,{serial}"), "");
        }
    }
    beyond(&mut desk);
    for (n, (session, place)) in GOOD.iter().enumerate() {
        desk.script(&format!("tally,{session},9"), &format!("ok,{},1,0", n + 1), ENDS[1][*place]);
        desk.script(&format!("tally,{session},10"), &format!("ok,0,{},0", n + 2), ENDS[1][*place]);
    }
    desk.script("tally,7,5", "ok,0,0,0", "apart: tally of a third");
    desk.session("tour: ends", 0)
}

/// Every one is 2 and leaves the till as before.
fn beyond(desk: &mut Desk) {
    for (number, place) in BEYOND.iter().copied().chain(ZEROS.map(|z| (z, 6))) {
        for predicate in [1, 2, 9] {
            desk.script(&format!("word,a,{predicate},{number}"), "no,2,0", ENDS[0][place]);
        }
        for minute in [0, 5, 9_999_999] {
            desk.script(&format!("tally,{number},{minute}"), "no,2,0", ENDS[1][place]);
        }
    }
    for number in NO_BYTE {
        for session in [0, 7, 256, LAST_SESSION] {
            desk.script(&format!("word,a,{number},{session}"), "no,2,0", "predicate past 255");
        }
        desk.script(&format!("word,s,{number},0"), "no,2,0", "principal past 255");
    }
    let next = desk.model.lines.len();
    desk.script("word,s,255,0", &format!("ok,{next}"), "");
}

/// M1 with another session in the place of 7: the same fourteen answers.
fn m1(session: u32) -> Session {
    let mut desk = Desk::new();
    let lines = papers::WORDS.map(|line| line.replace(",7", &format!(",{session}")));
    desk.words(&lines.each_ref().map(|line| line.as_str()));
    let tally = format!("tally,{session},540");
    desk.script("issue,r,7,0,9999,0,0", "ok,1", "");
    desk.script("issue,s,3,0,600,0,0", "ok,2", "");
    desk.script("issue,s,4,0,600,0,0", "ok,3", "");
    desk.script(&tally, "ok,1,0,0", "");
    desk.script(&papers::m1_booking(), "ok,4", "");
    desk.script(&tally, "ok,0,0,1", "past 255: M1");
    desk.script(&format!("tally,{},540", session ^ 256), "ok,0,0,0", "apart: tally of a third");
    desk.session("tour: M1", 0)
}

/// A seat's session or a place's, by turns, with so many live ones: open if they are the house's.
fn counted(k: usize, live: u32, house: bool) -> String {
    match (k.is_multiple_of(2), house) {
        (true, true) => format!("ok,{live},0,0"),
        (true, false) => format!("ok,0,{live},0"),
        _ => format!("ok,0,0,{live}"),
    }
}

/// Two hundred sessions in one till, from the first on by equal steps, one to four coupons each; or half as many, all
/// under ⟨1⟩.
fn straight(first: u32, step: u32, house: bool, mark: &'static str) -> Session {
    let mut desk = Desk::new();
    let session = |k: usize| first + k as u32 * step;
    let many = if house { 100 } else { 200 };
    let (mut live, mut firsts) = (vec![0; many], vec![0; many]);
    for k in 0..many {
        desk.words(&[&format!("a,{},{}", 1 + k % 2, session(k))]);
        if house {
            desk.words(&[&format!("s,1,{}", 2 * k)]);
        }
        let wording = desk.model.lines.len() - 1;
        firsts[k] = desk.model.given + 1;
        live[k] = 1 + k as u32 % 4;
        for serial in firsts[k]..firsts[k] + live[k] {
            desk.script(&format!("issue,s,{wording},0,9,0,0"), &format!("ok,{serial}"), "");
        }
        desk.script(&format!("tally,{},9", session(k)), &counted(k, live[k], house), mark);
    }
    for k in (0..many).step_by(3) {
        desk.script(&format!("withdraw,{}", firsts[k]), &format!("ok,{}", firsts[k]), "");
        live[k] -= 1;
    }
    for k in 0..many {
        desk.script(&format!("tally,{},9", session(k)), &counted(k, live[k], house), mark);
    }
    let named = |s: u32| (0..many).any(|k| session(k) == s);
    for other in (first % 256..=LAST_SESSION).step_by(256).filter(|s| !named(*s)) {
        desk.script(&format!("tally,{other},9"), "ok,0,0,0", mark);
    }
    desk.session("tour: straight through", 0)
}

/// The wordings of two sessions, and whether each may be a standing coupon.
const LINES: [(&str, Option<bool>); 22] = [
    ("a,1,S", None), ("a,1,T", None), ("a,2,S", None), ("a,2,T", None), ("a,9,S", Some(true)),
    ("a,9,T", Some(true)), ("s,1,0", None), ("s,1,1", None), ("t,0,1", None), ("l,0,2", Some(true)),
    ("l,1,3", Some(true)), ("l,0,3", Some(false)), ("l,1,2", Some(false)), ("t,2,3", None),
    ("l,8,13", Some(true)), ("w,0,1", Some(false)), ("l,15,2", Some(false)), ("w,0,2", None),
    ("l,17,2", Some(true)), ("t,11,12", Some(true)), ("t,0,0", None), ("l,8,20", Some(false)),
];

/// Coupons 8 to 30: wording, window and how many. From 23 on they are seats of the house, as 19 and 20 are.
const SINGLES: [(u32, &str, u32); 14] = [
    (0, "0,9", 2), (0, "0,5", 1), (1, "0,9", 3), (1, "0,5", 2), (2, "0,9", 1), (3, "0,9", 2), (6, "0,9", 1),
    (7, "0,9", 1), (8, "0,9", 1), (4, "0,9", 1), (6, "0,9", 2), (6, "0,5", 1), (7, "0,9", 3), (7, "0,5", 2),
];

/// Bookings with a coupon of the other session: goal and holds, steps, the step that is wrong.
const CROSSED: [(&str, &str, u32); 14] = [
    ("0|11", "ax,0", 1), ("1|8", "ax,0", 1), ("2|17", "ax,0", 1), ("3|16", "ax,0", 1),
    ("5|22", "ax,0", 1), ("4|2", "cp,0|ax,1", 2), ("5|1", "cp,0|ax,1", 2),
    ("6|20", "sr|sl,0|af|ax,1", 4), ("7|19", "sr|sl,0|af|ax,1", 4),
    ("8|8|11", "tr,0000000000000002|ax,1|ax,0", 2),
    ("8|21", "tl,0|tr,0000000000000004|ax,2|ax,1", 3),
    ("2|3|11", "cp,0|ll,2,0000000000000002,5,9,0,0|ax,1|ax,3", 3),
    ("3|3|8", "cp,0|ll,2,0000000000000002,5,9,0,0|ax,1|ax,3", 4),
    ("13|5|8|11", "cp,0|ll,3,0000000000000006,5,9,0,0|tr,0000000000000002|ax,1|ax,2|tl,4|tr,0000000000000040|ax,6|ax,5", 8),
];

/// The same with coupons of the right sessions, serials 31 to 40.
const STRAIGHT: [(&str, &str); 10] = [
    ("0|8", "ax,0"), ("1|11", "ax,0"),
    ("2|3|9", "cp,0|ll,2,0000000000000002,5,9,0,0|ax,1|ax,3"), ("3|4|12", "cp,0|ll,2,0000000000000002,5,9,0,0|ax,1|ax,3"),
    ("4|1", "cp,0|ax,1"), ("5|2", "cp,0|ax,1"), ("6|19", "sr|sl,0|af|ax,1"), ("7|20", "sr|sl,0|af|ax,1"),
    ("8|21", "tl,0|tr,0000000000000002|ax,1|ax,2"),
    ("13|5|31|32", "cp,0|ll,3,0000000000000006,5,9,0,0|tr,0000000000000002|ax,1|ax,2|tl,4|tr,0000000000000020|ax,5|ax,6"),
];

/// Withdrawals, each with the two tallies at minute 5 after it.
const WITHDRAWN: [(u32, &str, &str, &str); 8] = [
    (10, "ok,4,1,3", "ok,6,4,4", "apart: withdrawn"), (13, "ok,4,1,3", "ok,6,3,4", "apart: withdrawn"),
    (39, "ok,4,0,3", "ok,6,2,4", "apart: withdrawn for both"),
    (40, "ok,4,0,2", "ok,6,2,3", "apart: withdrawn for both"), (3, "ok,4,0,2", "ok,6,2,3", "apart: withdrawn"),
    (25, "ok,3,0,2", "ok,6,2,3", "apart: withdrawn"), (37, "ok,2,0,2", "ok,6,2,3", "apart: withdrawn"),
    (29, "ok,2,0,2", "ok,5,2,3", "apart: withdrawn"),
];

/// Two sessions in one till.
struct Two {
    desk: Desk,
    s: u32,
    t: u32,
}

impl Two {
    /// The tallies of both, at one minute.
    fn tallies(&mut self, minute: u32, of_s: &str, of_t: &str) {
        for (session, answer) in [(self.s, of_s), (self.t, of_t)] {
            self.desk.script(&format!("tally,{session},{minute}"), answer, "apart: tally");
        }
        for bits in [1, 2, 64, 255] {
            let third = self.s ^ (256 * bits);
            if third != self.t {
                self.desk.script(&format!("tally,{third},{minute}"), "ok,0,0,0", "apart: tally of a third");
            }
        }
    }

    /// The goal's wording and the holds, parted by `|`, and the steps; goal window 5..9.
    fn book(&mut self, goal_and_holds: &str, steps: &str, answer: &str, mark: &'static str) {
        let (goal, holds) = goal_and_holds.split_once('|').expect("a goal and its holds");
        let holds: Vec<String> = holds.split('|').map(|s| format!("hold,{s}|")).collect();
        let (h, n) = (holds.len(), steps.split('|').count());
        self.desk.script(&format!("book,5,{goal},5,9,0,0,{h},{n}|{}{steps}", holds.concat()), answer, mark);
    }

    fn coupons(&mut self) {
        let (s, t) = (self.s.to_string(), self.t.to_string());
        for (n, (line, _)) in LINES.iter().enumerate() {
            let line = format!("word,{}", line.replace('S', &s).replace('T', &t));
            self.desk.script(&line, &format!("ok,{n}"), "apart: lines");
            self.desk.script(&line, "no,13,0", "apart: lines");
        }
        for (n, good) in LINES.iter().enumerate().filter_map(|(n, (_, good))| good.map(|g| (n, g))) {
            let answer = if good { format!("ok,{}", self.desk.model.given + 1) } else { "no,21,0".to_string() };
            let mark = if good { "apart: offer within a session" } else { "apart: offer across sessions" };
            self.desk.script(&format!("issue,r,{n},0,99,0,0"), &answer, mark);
        }
        for (wording, window, times) in SINGLES {
            for _ in 0..times {
                let serial = self.desk.model.given + 1;
                self.desk.script(&format!("issue,s,{wording},{window},0,0"), &format!("ok,{serial}"), "");
            }
        }
    }
}

/// Seats and places of two sessions issued, tallied, offered, booked and withdrawn side by side.
fn apart(s: u32, t: u32) -> Session {
    let mut two = Two { desk: Desk::new(), s, t };
    two.coupons();
    two.tallies(5, "ok,4,4,1", "ok,6,6,2");
    two.tallies(6, "ok,3,5,1", "ok,4,8,2");
    two.tallies(10, "ok,0,8,1", "ok,0,12,2");
    for (head, steps, step) in CROSSED {
        let mark = if step == 1 { "apart: ax" } else { "apart: ax after other steps" };
        two.book(head, steps, &format!("no,40,{step}"), mark);
    }
    two.tallies(5, "ok,4,4,1", "ok,6,6,2");
    for (n, (head, steps)) in STRAIGHT.iter().enumerate() {
        two.book(head, steps, &format!("ok,{}", 31 + n), "apart: booked");
    }
    two.tallies(4, "ok,3,3,3", "ok,5,5,4");
    two.tallies(5, "ok,4,2,3", "ok,6,4,4");
    two.tallies(6, "ok,3,3,3", "ok,4,6,4");
    for (serial, of_s, of_t, mark) in WITHDRAWN {
        two.desk.script(&format!("withdraw,{serial}"), &format!("ok,{serial}"), mark);
        two.tallies(5, of_s, of_t);
        two.desk.script(&format!("withdraw,{serial}"), "no,24,0", "withdraw dead");
    }
    let name = if alike(s, t) { "tour: sessions alike" } else { "tour: two sessions" };
    two.desk.session(name, 0)
}

pub fn sessions() -> Vec<Session> {
    let mut all = vec![ends()];
    all.extend([0, 255, 256, 263, 65_280, LAST_SESSION].map(m1));
    let pairs = [
        (7, 263), (263, 7), (255, LAST_SESSION), (LAST_SESSION, 255), (0, 256), (256, 512), (65_279, LAST_SESSION),
        (0, 65_280), (7, 32_775), (255, 256), (7, 1_792), (4_660, 13_330), (65_534, LAST_SESSION),
    ];
    all.extend(pairs.map(|(s, t)| apart(s, t)));
    for house in [false, true] {
        let last = if house { 65_436 } else { 65_336 };
        all.extend([last, 156].map(|first| straight(first, 1, house, "past 255: straight through")));
        all.extend([7, 14_591].map(|first| straight(first, 256, house, "past 255: many alike")));
    }
    all
}
