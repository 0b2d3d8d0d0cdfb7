//! Document 02, ask 2: windows with a break. Refusal 43 in every place, what comes before it, now and tally about a
//! break, and breaks at the ends of the range.

use super::model::Steps;
use super::papers;
use super::relation::set;
use super::session::{sheet_of, Desk, Session};
use super::wording::*;

/// A name for each place where a window stands, with a clause behind it.
macro_rules! places {
    ($clause:literal) => {
        places!(@ $clause; "issue s" "issue r" "head of book" "h" "first of g" "second of g" "ll" "ul"
            "ll never reached" "ul behind the close")
    };
    (@ $clause:literal; $($place:literal)*) => { [$(concat!($place, ": ", $clause)),*] };
}

/// The sheets with that window, in the same order, and how their steps end. Serial 1 is the standing atom 0.
const PLACES: [(&str, Steps); 10] = [
    ("issue,s,0,{}", Steps::Close),
    ("issue,r,0,{}", Steps::Close),
    ("book,5,0,{},1,2|hold,1|cp,0|ax,1", Steps::Close),
    ("word,h,0,{}", Steps::Close),
    ("word,g,{},3,9,5,6", Steps::Close),
    ("word,g,3,9,5,6,{}", Steps::Close),
    ("book,5,0,0,9,0,0,1,3|hold,1|cp,0|ll,1,0000000000000000,{}|ax,1", Steps::Stop(40, 2)),
    ("book,5,0,0,9,6,7,1,3|hold,1|cp,0|ul,1,{}|ax,1", Steps::Stop(40, 2)),
    ("book,5,0,0,9,0,0,1,3|hold,1|af|cp,0|ll,0,0000000000000000,{}", Steps::Stop(40, 1)),
    ("book,5,0,0,9,6,7,1,3|hold,1|cp,0|ax,1|ul,0,{}", Steps::Stop(42, 3)),
];

/// 43, by the way in which the break does not fit.
pub const MISFITS: [[&str; 10]; 12] = [
    places!("43, break 0,n"), places!("43, break n,0"), places!("43, break touches from"),
    places!("43, break touches to"), places!("43, break first after last"), places!("43, break before"),
    places!("43, break behind"), places!("43, break over from"), places!("43, break over to"),
    places!("43, break is the window"), places!("43, break around"), places!("43, no room for a break"),
];
pub const FITS: [&str; 10] = places!("break just inside");

/// The window with every sort of break that does not fit it, each with its place in `MISFITS`.
pub fn misfits(w: Window) -> Vec<(usize, Window)> {
    let (a, b, end) = (i64::from(w.from), i64::from(w.to), i64::from(LAST_MINUTE));
    let all = [
        (0, 0, a + 1), (0, 0, b), (0, 0, end), (1, a + 1, 0), (1, b, 0), (1, end, 0), (2, a, a), (2, a, a + 1),
        (2, a, b - 1), (3, b, b), (3, b - 1, b), (3, a + 1, b), (4, a + 2, a + 1), (4, b - 1, b - 2), (4, b - 1, a + 1),
        (5, a - 1, a - 1), (5, a - 2, a - 1), (5, 1, 1), (6, b + 1, b + 1), (6, b + 1, b + 2), (6, end, end),
        (7, a - 1, a + 1), (8, b - 1, b + 1), (9, a, b), (10, a - 1, b + 1), (10, 1, end),
    ];
    let in_range = |m: i64| (0..=end).contains(&m);
    let all = all.into_iter().filter(|(_, first, last)| in_range(*first) && in_range(*last));
    let narrow = |sort: usize| if b - a < 2 && sort > 1 { 11 } else { sort };
    let made = all.map(|(sort, first, last)| (narrow(sort), with_break(w.from, w.to, first as u32, last as u32)));
    made.filter(|(_, w)| !w.break_fits()).collect()
}

/// A till with the atoms 0 and 1 and the standing coupon 1 of the first.
fn desk() -> Desk {
    let mut desk = Desk::new();
    desk.words(&["a,9,7", "a,1,7"]);
    desk.script("issue,r,0,0,9999999,0,0", "ok,1", "");
    desk
}

/// Every break that does not fit, in every place; then breaks that just fit.
fn everywhere() -> Session {
    let mut desk = desk();
    let windows = [(4, 40), (0, 9), (0, LAST_MINUTE), (9_999_990, LAST_MINUTE), (5, 5), (5, 6), (0, 2)];
    for (place, (text, steps)) in PLACES.iter().enumerate() {
        for (a, b) in windows {
            for (sort, w) in misfits(window(a, b)) {
                desk.refuse(&sheet_of(&text.replace("{}", &w.text())), 43, MISFITS[sort][place]);
            }
        }
        for (a, b) in windows.into_iter().filter(|(a, b)| b - a >= 2) {
            for (first, last) in [(a + 1, a + 1), (b - 1, b - 1), (a + 1, b - 1)] {
                let w = with_break(a, b, first, last);
                desk.play(&sheet_of(&text.replace("{}", &w.text())), *steps);
                desk.mark(&[FITS[place]]);
            }
        }
    }
    desk.session("midday: 43 everywhere", 0)
}

/// 2, by what is wrong with the window's fields.
pub const FORM: [[&str; 10]; 9] = [
    places!("old length"), places!("a field less"), places!("a field more"), places!("from past the range"),
    places!("to past the range"), places!("break first past the range"), places!("break last past the range"),
    places!("break no number"), places!("break with leading zeros"),
];
/// Fields in the place of a window; some of them misfits or from > to besides.
const BAD_FIELDS: [(usize, &str); 36] = [
    (0, "0,9"), (0, "9,0"), (0, "3,9"), (1, "0,9,0"), (1, "0,9,5"), (1, "9,0,0"), (2, "0,9,0,0,0"), (2, "0,9,4,5,0"),
    (2, "0,9,4,5,6,7"), (2, "9,0,5,0,0"), (2, "0,9,0,0,"), (3, "10000000,9,0,0"), (3, "10000000,9999999,0,5"),
    (4, "0,10000000,0,0"), (4, "5,4294967305,5,0"), (5, "0,9,10000000,0"), (5, "0,9,10000000,5"),
    (5, "9,0,10000000,10000000"), (5, "0,9,4294967300,5"), (5, "0,9,18446744073709551620,5"),
    (5, "0,9999999,99999990,5"),
    (6, "0,9,0,10000000"), (6, "0,9,5,10000000"), (6, "0,9,4,4294967301"), (6, "0,9,4,18446744073709551621"),
    (6, "0,9999999,4,99999990"), (7, "0,9,,"), (7, "0,9,,5"), (7, "0,9,4,"), (7, "0,9,-4,5"), (7, "0,9,4,+5"),
    (7, "0,9,4, 5"), (7, "0,9,4,x"), (8, "0,9,00,0"), (8, "0,9,0,00"), (8, "0,9,04,05"),
];

/// 2 before 43 and 3, in every place.
fn form() -> Session {
    let mut desk = desk();
    for (place, (text, _)) in PLACES.iter().enumerate() {
        for (sort, fields) in BAD_FIELDS {
            desk.refuse(&sheet_of(&text.replace("{}", fields)), 2, FORM[sort][place]);
        }
    }
    for text in ["g,0,9,3,4", "g,0,9,3,4,0,0", "g,0,9,0,0,3,4", "g,0,9,0,0,3", "g,0,9,0,5,3,4", "g,0,9,0,0,3,4,0,0,0"] {
        desk.refuse(&sheet_of(&format!("word,{text}")), 2, ORDER[4]);
    }
    let old = "cp,0|ll,2,0000000000000002,5,9|ax,1|ax,3";
    desk.script(&format!("book,5,0,5,9,1,4|hold,1|{old}"), "no,2,0", ORDER[4]);
    desk.script(&format!("book,5,0,5,9,0,0,1,4|hold,1|{old}"), "no,2,0", ORDER[4]);
    desk.script("book,5,0,0,9,1,2|hold,1|cp,0|ax,1", "no,2,0", ORDER[4]);
    desk.script("book,5,0,0,9,0,0,1,2|hold,1|cp,0|ax,1", "ok,2", "");
    desk.session("midday: form", 0)
}

pub const ORDER: [&str; 10] = [
    "3 before 43: g", "3 before 43: head, then step", "3 before 43: step, then head", "3 before 43: two steps",
    "2 before 43: old length", "2 before 43: another line", "longest sheet", "43 before 24, 30 and 40",
    "lines that differ by a break", "43 twice",
];

/// 3 anywhere before 43 anywhere, 2 before both, 43 before what follows.
fn order() -> Session {
    let mut desk = desk();
    let (good, back) = ("0,9,0,0", ["9,8,0,0", "9,8,0,5", "1,0,0,0", "9,0,4,5", "9,8,8,9"]);
    let book = |head: &str, a: &str, b: &str| {
        let steps = format!("cp,0|ll,1,0000000000000000,{a}|ax,1|ul,0,{b}");
        format!("book,5,0,{head},1,4|hold,1|{steps}")
    };
    for misfit in ["0,9,0,5", "0,9,5,0", "0,9,0,9", "0,9,9,9", "0,9,6,5", "0,0,0,1", "0,9,10,11"] {
        for back in back {
            desk.script(&format!("word,g,{misfit},{back}"), "no,3,0", ORDER[0]);
            desk.script(&format!("word,g,{back},{misfit}"), "no,3,0", ORDER[0]);
            desk.script(&book(misfit, back, good), "no,3,0", ORDER[1]);
            desk.script(&book(misfit, good, back), "no,3,0", ORDER[1]);
            desk.script(&book(back, misfit, good), "no,3,0", ORDER[2]);
            desk.script(&book(back, good, misfit), "no,3,0", ORDER[2]);
            desk.script(&book(good, misfit, back), "no,3,0", ORDER[3]);
            desk.script(&book(good, back, misfit), "no,3,0", ORDER[3]);
        }
        for late in ["ax,64", "ll,0,0000000000000000,0,9", "ul,0,0,9,0,10000000", "xx"] {
            let steps = format!("cp,0|ul,1,{misfit}|{late}");
            desk.script(&format!("book,5,0,{misfit},1,3|hold,1|{steps}"), "no,2,0", ORDER[5]);
        }
        desk.script(&format!("word,g,{misfit},{misfit}"), "no,43,0", ORDER[9]);
        desk.script(&book(misfit, misfit, misfit), "no,43,0", ORDER[9]);
        desk.script(&format!("book,10,0,0,9,0,0,1,2|hold,777|af|ul,0,{misfit}"), "no,43,0", ORDER[7]);
        desk.script(&format!("book,10,0,{misfit},2,1|hold,1|hold,1|af"), "no,43,0", ORDER[7]);
    }
    different_lines(&mut desk);
    longest(&mut desk);
    desk.session("midday: order", 0)
}

/// Two lines that differ in a break alone are two lines; each is there only once.
fn different_lines(desk: &mut Desk) {
    let breaks = ["0,0", "1,1", "1,2", "2,2", "1,8", "8,8"];
    let lines: Vec<String> = breaks.iter().flat_map(|b| {
        [format!("h,0,0,9,{b}"), format!("g,0,9,{b},0,9,4,5"), format!("g,0,9,4,5,0,9,{b}")]
    }).collect();
    for line in &lines {
        let number = desk.model.lines.len();
        desk.script(&format!("word,{line}"), &format!("ok,{number}"), ORDER[8]);
    }
    for line in &lines {
        desk.script(&format!("word,{line}"), "no,13,0", ORDER[8]);
    }
}

/// 32 holds and 256 steps `ll`, every field as long as can be: 14,520 bytes.
fn longest(desk: &mut Desk) {
    while desk.model.lines.len() <= 100 {
        desk.words(&[&format!("a,3,{}", desk.model.lines.len())]);
    }
    let long = "1000000,9999999,1000001,9999998";
    let sheet = |wording: u32, last: &str| {
        let steps = format!("|ll,63,ffffffffffffffff,{long}").repeat(255);
        let holds = "|hold,999999".repeat(32);
        format!("book,1000000,{wording},{long},32,256{holds}{steps}|ll,63,ffffffffffffffff,{last}")
    };
    assert_eq!(sheet_of(&sheet(999, long)).len(), 14_520);
    let tries = [
        (999, long, "no,10,0"), (100, long, "no,24,0"), (999, "1000000,9999999,1000000,9999998", "no,43,0"),
        (999, "1000000,9999999,1000001,9999999", "no,43,0"), (999, "9999999,1000000,1000001,9999998", "no,3,0"),
        (999, "1000000,9999999,1000001,10000000", "no,2,0"), (999, "1000000,9999999", "no,2,0"),
    ];
    for (wording, last, answer) in tries {
        desk.script(&sheet(wording, last), answer, ORDER[6]);
    }
}

pub const NOW: [&str; 9] = [
    "now: last minute before the break", "now: first minute of the break", "now: within the break",
    "now: last minute of the break", "now: first minute behind the break", "now: from", "now: to",
    "now in the break: 20 first", "now in the break: before 24, 31, 40",
];

/// 30 from the break's first minute to its last.
fn now() -> Session {
    let mut desk = desk();
    desk.words(&["o"]);
    let windows = [
        (0, 9, 4, 6), (0, 9, 5, 5), (0, 9, 1, 8), (0, 2, 1, 1), (540, 600, 555, 570), (0, LAST_MINUTE, 1, 9_999_998),
        (9_999_990, LAST_MINUTE, 9_999_995, 9_999_998), (9_999_997, LAST_MINUTE, 9_999_998, 9_999_998),
    ];
    for (from, to, first, last) in windows {
        let w = with_break(from, to, first, last).text();
        let minutes = [first - 1, first, first + (last - first) / 2, last, last + 1, from, to];
        for (n, now) in minutes.into_iter().enumerate() {
            let shut = (1..=3).contains(&n);
            let answer = if shut { "no,30,0".to_string() } else { format!("ok,{}", desk.model.given + 1) };
            desk.script(&format!("book,{now},0,{w},1,2|hold,1|cp,0|ax,1"), &answer, NOW[n]);
        }
        desk.script(&format!("book,{first},2,{w},1,1|hold,1|af"), "no,20,0", NOW[7]);
        desk.script(&format!("book,{first},0,{w},1,1|hold,777|af"), "no,30,0", NOW[8]);
        desk.script(&format!("book,{last},0,{w},2,1|hold,1|hold,1|af"), "no,30,0", NOW[8]);
        desk.script(&format!("book,{last},0,{w},1,1|hold,1|af"), "no,30,0", NOW[8]);
        desk.script(&format!("book,{},0,{w},1,1|hold,1|af", last + 1), "no,40,1", NOW[4]);
    }
    desk.session("midday: now", 0)
}

pub const TALLY: [&str; 4] = [
    "tally: every minute about a break", "tally: largest break", "tally: after a booking", "tally: many breaks",
];

/// Seats and places by their own minutes: wordings 0 a seat, 1 a place, 2 two seats, 3 seat and place, 4 ⟨1⟩ seat;
/// 6 and 7 are 2 and 3 under ⟨1⟩, 8 is 4 and 0 beside each other.
const COUNTED: [(u32, (u32, u32, u32, u32)); 11] = [
    (4, (0, 9, 4, 6)), (6, (0, 9, 5, 5)), (4, (2, 8, 0, 0)), (7, (3, 12, 7, 10)), (1, (0, 9, 4, 6)),
    (4, (0, 13, 1, 12)), (6, (4, 6, 5, 5)), (4, (5, 5, 0, 0)), (7, (1, 11, 6, 8)), (8, (1, 11, 4, 6)),
    (2, (0, 9, 5, 7)),
];
/// House seats, other seats and places of each.
const SEATS: [(u32, u32, u32); 9] =
    [(0, 1, 0), (0, 0, 1), (0, 2, 0), (0, 1, 1), (1, 0, 0), (0, 0, 0), (2, 0, 0), (1, 0, 1), (1, 1, 0)];

/// Every minute about the breaks, the figures from the sets.
fn tally() -> Session {
    let mut desk = Desk::new();
    desk.words(&["a,1,7", "a,2,7", "t,0,0", "t,0,1", "s,1,0", "l,4,4", "s,1,2", "s,1,3", "t,4,0"]);
    desk.script("issue,r,5,0,9,4,6", "ok,1", "");
    let mut live: Vec<(u32, Window)> = vec![];
    for (n, (wording, (from, to, first, last))) in COUNTED.iter().enumerate() {
        let w = with_break(*from, *to, *first, *last);
        live.push((*wording, w));
        desk.script(&format!("issue,s,{wording},{}", w.text()), &format!("ok,{}", n + 2), "");
        figures(&mut desk, &live, if n == 0 { TALLY[0] } else { TALLY[3] });
    }
    // Serial 2 is booked for a shorter window with a longer break: 13.
    desk.script("book,1,4,1,8,3,7,1,4|hold,2|sr|sl,0|af|ax,1", "ok,13", "");
    live[0] = (4, with_break(1, 8, 3, 7));
    figures(&mut desk, &live, TALLY[2]);
    desk.script("withdraw,3", "ok,3", "withdraw single");
    live.remove(1);
    figures(&mut desk, &live, TALLY[2]);
    desk.words(&["a,1,8", "s,1,9"]);
    desk.script("issue,s,10,0,9999999,1,9999998", "ok,14", "");
    desk.script("issue,s,10,9999997,9999999,9999998,9999998", "ok,15", "");
    let last = [
        (0, "ok,1,1,0"), (1, "ok,0,2,0"), (5_000_000, "ok,0,2,0"), (9_999_996, "ok,0,2,0"), (9_999_997, "ok,1,1,0"),
        (9_999_998, "ok,0,2,0"), (9_999_999, "ok,2,0,0"),
    ];
    for (minute, answer) in last {
        desk.script(&format!("tally,8,{minute}"), answer, TALLY[1]);
    }
    desk.session("midday: tally", 0)
}

fn figures(desk: &mut Desk, live: &[(u32, Window)], mark: &'static str) {
    for minute in 0..16 {
        let (mut open, mut shut, mut placed) = (0, 0, 0);
        for (wording, w) in live {
            let (house, other, places) = SEATS[*wording as usize];
            let has = set(*w) >> minute & 1;
            open += has * house;
            shut += (1 - has) * house + other;
            placed += places;
        }
        desk.script(&format!("tally,7,{minute}"), &format!("ok,{open},{shut},{placed}"), mark);
        desk.mark(&desk.model.breaks_at(7, minute));
    }
}

pub const JOINED: [&str; 8] = [
    "touching a break: not joined", "touching without a gap: not joined", "minutes before a break",
    "minutes behind a break", "minutes over a break", "minutes over a break, with one", "largest break: both ends",
    "part of sl keeps its break",
];

/// Goal, holds, steps, answer and name.
type Try = (&'static str, &'static [u32], &'static str, &'static str, usize);

/// Coupons of the atom 0: single 1 0..4, 2 6..9, 3 5..9, 4 and 5 0..9 without 5; standing 6 0..4, 7 6..9, 8 0..9
/// without 5, 9 all but 1..9,999,998, and 10 the same for 1⊸a; then single 11 ⟨1⟩a 0..9 without 5, standing 12 a⊸b.
const JOIN: [Try; 30] = [
    ("0,0,9,5,5", &[1], "ax,0", "no,40,1", 0), ("0,0,9,5,5", &[2], "ax,0", "no,40,1", 0),
    ("0,0,9,5,5", &[1, 2], "ax,0", "no,40,1", 0), ("0,0,9,5,5", &[1, 2], "ax,1", "no,40,1", 0),
    ("0,0,9,5,5", &[6, 7], "cp,0|ax,2", "no,40,2", 0), ("0,0,9,5,5", &[6, 7], "cp,1|ax,2", "no,40,2", 0),
    ("0,0,9,5,5", &[6, 7], "cp,0|cp,1|ax,2", "no,40,3", 0),
    ("2,0,9,5,5", &[1, 2], "tr,0000000000000001|ax,0|ax,1", "no,40,2", 0),
    ("0,0,9,0,0", &[1, 3], "ax,0", "no,40,1", 1), ("0,0,9,0,0", &[1, 3], "ax,1", "no,40,1", 1),
    ("0,0,9,4,4", &[1, 3], "ax,0", "no,40,1", 1), ("0,0,9,0,0", &[8], "cp,0|ax,1", "no,40,2", 4),
    ("0,0,9,4,4", &[8], "cp,0|ax,1", "no,40,2", 4), ("0,4,6,0,0", &[8], "cp,0|ax,1", "no,40,2", 4),
    ("0,5,5,0,0", &[8], "cp,0|ax,1", "no,40,2", 4), ("0,0,5,0,0", &[8], "cp,0|ax,1", "no,40,2", 4),
    ("0,0,4,0,0", &[8], "cp,0|ax,1", "ok", 2), ("0,0,4,2,3", &[8], "cp,0|ax,1", "ok", 2),
    ("0,6,9,0,0", &[8], "cp,0|ax,1", "ok", 3), ("0,4,6,5,5", &[8], "cp,0|ax,1", "ok", 5),
    ("0,0,9,1,8", &[8], "cp,0|ax,1", "ok", 5), ("0,0,9,5,5", &[4], "ax,0", "ok", 5),
    ("0,0,9,5,6", &[5], "ax,0", "ok", 5),
    ("0,0,9999999,1,9999998", &[9], "cp,0|ax,1", "ok", 6), ("0,0,9999999,2,9999998", &[9], "cp,0|ax,1", "no,40,2", 6),
    ("0,0,9999999,1,9999998", &[10], "cp,0|ll,1,0000000000000000,0,9999999,1,9999998|or|ax,2", "ok", 6),
    ("0,0,9999999,1,9999998", &[10], "cp,0|ll,1,0000000000000000,0,9999999,1,9999997|or|ax,2", "no,40,2", 6),
    ("6,0,4,0,0", &[11, 12], "sr|sl,0|cp,1|ll,3,0000000000000004,0,9,0,0|ax,2|af|ax,4", "no,40,5", 7),
    ("6,0,4,0,0", &[11, 12], "sr|sl,0|cp,1|ll,3,0000000000000004,0,9,4,4|ax,2|af|ax,4", "no,40,5", 7),
    ("6,0,4,0,0", &[11, 12], "sr|sl,0|cp,1|ll,3,0000000000000004,0,9,5,5|ax,2|af|ax,4", "ok", 7),
];

fn joined() -> Session {
    let mut desk = Desk::new();
    desk.words(&["a,9,7", "o", "t,0,0", "l,1,0", "s,1,0", "a,8,7", "s,1,5", "l,0,5"]);
    let coupons = [
        "s,0,0,4,0,0", "s,0,6,9,0,0", "s,0,5,9,0,0", "s,0,0,9,5,5", "s,0,0,9,5,5", "r,0,0,4,0,0", "r,0,6,9,0,0",
        "r,0,0,9,5,5", "r,0,0,9999999,1,9999998", "r,3,0,9999999,1,9999998", "s,4,0,9,5,5", "r,7,0,9999999,0,0",
    ];
    for (n, coupon) in coupons.iter().enumerate() {
        desk.script(&format!("issue,{coupon}"), &format!("ok,{}", n + 1), "");
    }
    for (goal, holds, steps, answer, name) in JOIN {
        let from = goal.split(',').nth(1).expect("a wording and its window");
        let (h, n) = (holds.len(), steps.split('|').count());
        let lines: String = holds.iter().map(|s| format!("hold,{s}|")).collect();
        let next = format!("ok,{}", desk.model.given + 1);
        let answer = if answer == "ok" { &next } else { answer };
        desk.script(&format!("book,{from},{goal},{h},{n}|{lines}{steps}"), answer, JOINED[name]);
    }
    desk.session("midday: joined", 0)
}

pub const M1: [&str; 8] = [
    "M1 with breaks: accepted", "M1 with breaks: ll", "M1 with breaks: sl, first", "M1 with breaks: sl, second",
    "M1 with breaks: sl, third", "M1 with breaks: 30", "M1 with breaks: 43", "M1 with breaks: tally in a break",
];

/// M1 with breaks for the offer, the two singles, J and the goal.
fn m1(breaks: [&str; 5], answer: &str, mark: &'static str) -> Session {
    let [offer, seat, friend, j, goal] = breaks;
    let mut desk = Desk::new();
    desk.words(&papers::WORDS);
    desk.script(&format!("issue,r,7,0,9999,{offer}"), "ok,1", "");
    desk.script(&format!("issue,s,3,0,600,{seat}"), "ok,2", "");
    desk.script(&format!("issue,s,4,0,600,{friend}"), "ok,3", "");
    let rest = "tr,0000000000000002|sr|sl,1|af|ax,4|sr|sl,2|af|ax,5|sr|sl,6|af|ax,7";
    let steps = format!("cp,0|ll,3,0000000000000006,540,600,{j}|{rest}");
    desk.script(&format!("book,560,5,540,600,{goal},3,15|hold,1|hold,2|hold,3|{steps}"), answer, mark);
    let (open, shut) = if answer == "ok,4" { ("ok,0,0,1", "ok,0,0,1") } else { ("ok,1,0,0", "ok,0,1,0") };
    desk.script("tally,7,550", open, "tally");
    for minute in seat.split(',').filter(|minute| *minute != "0") {
        desk.script(&format!("tally,7,{minute}"), shut, M1[7]);
    }
    desk.session("midday: M1", 0)
}

fn m1_sessions() -> Vec<Session> {
    let noon = "570,580";
    vec![
        m1(["570,580", noon, noon, noon, noon], "ok,4", M1[0]),
        m1(["575,575", "571,580", "570,579", noon, noon], "ok,4", M1[0]),
        m1(["1,539", "1,539", "0,0", "570,580", "565,585"], "ok,4", M1[0]),
        m1(["601,9998", "575,576", "0,0", "574,577", "574,577"], "ok,4", M1[0]),
        m1(["569,580", noon, noon, noon, noon], "no,40,2", M1[1]),
        m1(["570,581", "0,0", "0,0", noon, noon], "no,40,2", M1[1]),
        m1(["575,575", "0,0", "0,0", "0,0", "570,580"], "no,40,2", M1[1]),
        m1(["0,0", "570,580", "0,0", "571,580", noon], "no,40,5", M1[2]),
        m1(["0,0", "540,541", "0,0", noon, noon], "no,40,5", M1[2]),
        m1([noon, noon, "569,569", noon, noon], "no,40,9", M1[3]),
        m1([noon, noon, "575,581", noon, noon], "no,40,9", M1[3]),
        m1([noon, noon, noon, noon, "571,580"], "no,40,13", M1[4]),
        m1(["0,0", "0,0", "0,0", "541,599", "541,545"], "no,40,13", M1[4]),
        m1([noon, noon, noon, noon, "560,580"], "no,30,0", M1[5]),
        m1([noon, noon, noon, noon, "541,560"], "no,30,0", M1[5]),
        m1([noon, noon, noon, noon, "540,560"], "no,43,0", M1[6]),
        m1([noon, noon, noon, "570,600", "540,560"], "no,43,0", M1[6]),
        m1([noon, noon, noon, "580,570", noon], "no,43,0", M1[6]),
    ]
}

pub fn sessions() -> Vec<Session> {
    let mut all = vec![everywhere(), form(), order(), now(), tally(), joined()];
    all.extend(m1_sessions());
    all
}
