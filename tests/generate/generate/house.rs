//! Document 02, ask 3: open counts the seats whose nearest ⟨K⟩ is ⟨1⟩, in a window that has the minute; all others are
//! shut. Figures are written out for each wording here, and minutes are asked of the sets.

use super::booking::Booking;
use super::derivation::{af, ax, left, sr, tr, Deriv, Hyp};
use super::form::Kind;
use super::grow::Grower;
use super::life::booked_as;
use super::model::{Coupon, Model, MOST_LIVE};
use super::relation::set;
use super::rng::Rng;
use super::session::{Desk, Session};
use super::wording::*;
use super::world::World;

pub const HOUSE_SEATS: [&str; 12] = [
    "house: bare or under one ⟨K⟩", "house: ⟨K⟩ under ⟨K⟩", "house: ⊗ under ⟨K⟩", "house: one wording under two ⟨K⟩",
    "house: places and tokens beside", "house: another session's", "house: all together", "house: withdrawn",
    "house: every principal", "house: deep and large", "house: standing coupons", "house: a full till",
];

/// What a wording holds of session 7: seats whose nearest ⟨K⟩ is ⟨1⟩, other seats, places.
pub type Holds = (u32, u32, u32);

/// Wordings by number, what they hold and their place in `HOUSE_SEATS`. The seat 52 is of another session.
const SHAPES: [(&str, Holds, usize); 58] = [
    ("a,1,7", (0, 1, 0), 0), ("a,2,7", (0, 0, 1), 4), ("a,9,7", (0, 0, 0), 4), ("s,1,0", (1, 0, 0), 0),
    ("s,2,0", (0, 1, 0), 0), ("s,0,0", (0, 1, 0), 0), ("s,255,0", (0, 1, 0), 0),
    // 7: a seat under ⟨1⟩⟨2⟩, ⟨2⟩⟨1⟩, ⟨1⟩⟨1⟩, ⟨0⟩⟨1⟩, ⟨1⟩⟨0⟩, ⟨255⟩⟨1⟩, ⟨1⟩⟨255⟩, ⟨1⟩⟨2⟩⟨1⟩, ⟨2⟩⟨1⟩⟨2⟩
    ("s,1,4", (0, 1, 0), 1), ("s,2,3", (1, 0, 0), 1), ("s,1,3", (1, 0, 0), 1), ("s,0,3", (1, 0, 0), 1),
    ("s,1,5", (0, 1, 0), 1), ("s,255,3", (1, 0, 0), 1), ("s,1,6", (0, 1, 0), 1), ("s,1,8", (1, 0, 0), 1),
    ("s,2,7", (0, 1, 0), 1),
    // 16: seat ⊗ ⟨2⟩seat, under ⟨1⟩; ⟨2⟩seat ⊗ seat, under ⟨1⟩; ⟨1⟩seat ⊗ seat, the other way, under ⟨2⟩, under ⟨1⟩
    ("t,0,4", (0, 2, 0), 2), ("s,1,16", (1, 1, 0), 2), ("t,4,0", (0, 2, 0), 2), ("s,1,18", (1, 1, 0), 2),
    ("t,3,0", (1, 1, 0), 2), ("t,0,3", (1, 1, 0), 2), ("s,2,20", (1, 1, 0), 2), ("s,1,20", (2, 0, 0), 2),
    // 24: seat ⊗ seat, under ⟨1⟩, under ⟨2⟩, under both side by side, bare beside ⟨1⟩
    ("t,0,0", (0, 2, 0), 2), ("s,1,24", (2, 0, 0), 2), ("s,2,24", (0, 2, 0), 2), ("t,25,26", (2, 2, 0), 3),
    ("t,26,25", (2, 2, 0), 3), ("t,25,24", (2, 2, 0), 3), ("t,24,25", (2, 2, 0), 3),
    // 31: ⟨1⟩seat ⊗ ⟨2⟩seat, the other way, under ⟨1⟩, ⟨2⟩; ⟨1⟩seat ⊗ ⟨1⟩seat, under ⟨2⟩; 27 under ⟨1⟩, ⟨2⟩, ⟨255⟩
    ("t,3,4", (1, 1, 0), 3), ("t,4,3", (1, 1, 0), 3), ("s,1,31", (1, 1, 0), 2), ("s,2,31", (1, 1, 0), 2),
    ("t,3,3", (2, 0, 0), 2), ("s,2,35", (2, 0, 0), 2), ("s,1,27", (2, 2, 0), 3), ("s,2,27", (2, 2, 0), 3),
    ("s,255,27", (2, 2, 0), 3),
    // 40: place ⊗ seat, under ⟨1⟩, ⟨2⟩; ⟨1⟩place, ⟨2⟩place; the seat further down; ⟨2⟩ below ⟨1⟩ with ⊗ between
    ("t,1,0", (0, 1, 1), 4), ("s,1,40", (1, 0, 1), 4), ("s,2,40", (0, 1, 1), 4), ("s,1,1", (0, 0, 1), 4),
    ("s,2,1", (0, 0, 1), 4), ("t,2,40", (0, 1, 1), 4), ("t,45,2", (0, 1, 1), 4), ("s,1,46", (1, 0, 1), 4),
    ("s,2,46", (0, 1, 1), 4), ("t,2,48", (0, 1, 1), 4), ("s,1,49", (0, 1, 1), 4), ("t,47,48", (1, 1, 2), 4),
    // 52: the other session's seat, under ⟨1⟩, beside ⟨1⟩seat, that under ⟨1⟩, ⟨1⟩ of the other beside ⟨2⟩seat
    ("a,1,263", (0, 0, 0), 5), ("s,1,52", (0, 0, 0), 5), ("t,3,52", (1, 0, 0), 5), ("s,1,54", (1, 0, 0), 5),
    ("t,4,53", (0, 1, 0), 5), ("s,1,2", (0, 0, 0), 4),
];
/// The same for session 263; all others hold nothing of it.
const OTHERS: [(usize, Holds); 5] =
    [(52, (0, 1, 0)), (53, (1, 0, 0)), (54, (0, 1, 0)), (55, (1, 0, 0)), (56, (1, 0, 0))];

fn of_263(wording: usize) -> Holds {
    OTHERS.iter().find(|(n, _)| *n == wording).map_or((0, 0, 0), |(_, holds)| *holds)
}

/// The tally at a minute up to 63 where these are live.
fn figures(live: &[(Holds, Window)], minute: u32) -> String {
    let (mut open, mut shut, mut placed) = (0, 0, 0);
    for ((house, other, places), w) in live {
        let has = set(*w) >> minute & 1;
        open += has * house;
        shut += (1 - has) * house + other;
        placed += places;
    }
    format!("ok,{open},{shut},{placed}")
}

/// A till with these wordings.
fn with_words(lines: &[&str]) -> Desk {
    let mut desk = Desk::new();
    desk.words(lines);
    desk
}

fn issue(desk: &mut Desk, wording: usize, w: Window) -> u32 {
    let serial = desk.model.given + 1;
    desk.script(&format!("issue,s,{wording},{}", w.text()), &format!("ok,{serial}"), "");
    serial
}

/// Each alone, issued and withdrawn: at both ends of its window and of its break, and beside them.
fn alone() -> Session {
    let mut desk = with_words(&SHAPES.map(|(line, _, _)| line));
    for w in [with_break(10, 20, 13, 16), window(12, 12)] {
        for (n, (_, holds, mark)) in SHAPES.iter().enumerate() {
            let serial = issue(&mut desk, n, w);
            for minute in [0, 9, 10, 12, 13, 14, 16, 17, 20, 21] {
                for (session, holds) in [(7, *holds), (263, of_263(n))] {
                    let answer = figures(&[(holds, w)], minute);
                    desk.script(&format!("tally,{session},{minute}"), &answer, HOUSE_SEATS[*mark]);
                }
            }
            desk.script(&format!("withdraw,{serial}"), &format!("ok,{serial}"), "");
            desk.script("tally,7,12", "ok,0,0,0", HOUSE_SEATS[7]);
        }
    }
    desk.session("house: each alone", 0)
}

/// All side by side in several windows, with offers beside them that count nothing; then withdrawn one after the other.
fn together() -> Session {
    let mut desk = with_words(&SHAPES.map(|(line, _, _)| line));
    let windows = [
        with_break(2, 12, 5, 6), window(0, 9), with_break(4, 14, 5, 13), window(5, 5), with_break(0, 15, 7, 7),
        window(8, 15), with_break(1, 9, 2, 2),
    ];
    desk.words(&["l,3,3", "l,3,4", "l,24,25", "b,58"]);
    let mut live: Vec<(u32, usize, Window)> = vec![];
    for n in 0..SHAPES.len() {
        let w = windows[n % windows.len()];
        live.push((issue(&mut desk, n, w), n, w));
        if n % 6 == 0 {
            all_minutes(&mut desk, &live, HOUSE_SEATS[6]);
        }
    }
    for offer in 58..62 {
        let serial = desk.model.given + 1;
        desk.script(&format!("issue,r,{offer},0,15,0,0"), &format!("ok,{serial}"), "");
        all_minutes(&mut desk, &live, HOUSE_SEATS[10]);
    }
    let mut turn = 0;
    while !live.is_empty() {
        turn += 1;
        let (serial, ..) = live.remove(turn * 17 % live.len());
        desk.script(&format!("withdraw,{serial}"), &format!("ok,{serial}"), "");
        if turn % 4 == 0 || live.is_empty() {
            all_minutes(&mut desk, &live, HOUSE_SEATS[7]);
        }
    }
    desk.session("house: all together", 0)
}

fn all_minutes(desk: &mut Desk, live: &[(u32, usize, Window)], mark: &'static str) {
    let of_7: Vec<(Holds, Window)> = live.iter().map(|(_, n, w)| (SHAPES[*n].1, *w)).collect();
    let others: Vec<(Holds, Window)> = live.iter().map(|(_, n, w)| (of_263(*n), *w)).collect();
    for minute in 0..17 {
        desk.script(&format!("tally,7,{minute}"), &figures(&of_7, minute), mark);
        desk.script(&format!("tally,263,{minute}"), &figures(&others, minute), mark);
    }
}

/// ⟨K⟩seat, ⟨1⟩⟨K⟩seat and ⟨K⟩⟨1⟩seat for principals K: only for 1 are the first two open.
fn principals(first: u32) -> Session {
    let mut desk = Desk::new();
    let seat = atom(1, 7);
    for k in first..first + 64 {
        let parts = [says(k, &seat), says(1, &says(k, &seat)), says(k, &says(1, &seat))];
        let serials = parts.map(|part| desk.issue(Kind::Single, &part, window(0, 9)));
        desk.script("tally,7,9", if k == 1 { "ok,3,0,0" } else { "ok,1,2,0" }, HOUSE_SEATS[8]);
        desk.script("tally,7,10", "ok,0,3,0", HOUSE_SEATS[8]);
        for serial in serials {
            desk.script(&format!("withdraw,{serial}"), &format!("ok,{serial}"), HOUSE_SEATS[7]);
        }
    }
    desk.session("house: principals", 0)
}

/// Wordings up to size 64, each in a till of its own, with its house seats and the others.
fn deep() -> Vec<Session> {
    let seat = atom(1, 7);
    let chain = |inner: u32, outer: u32| (0..62).fold(says(inner, &seat), |part, _| says(outer, &part));
    let doubled = (0..5).fold(seat.clone(), |part, _| tensor(&part, &part));
    let in_a_row = (1..32).fold(seat.clone(), |part, _| tensor(&part, &seat));
    let to_the_right = (1..15).fold(seat.clone(), |part, _| tensor(&seat, &part));
    // Of 16 seats 10 are the house's by themselves, one more under ⟨1⟩.
    let mixed = [1, 2, 1, 2].iter().fold(seat.clone(), |part, k| tensor(&says(*k, &part), &part));
    let all = [
        (chain(1, 2), 1, 0), (chain(2, 1), 0, 1), (chain(1, 1), 1, 0), (chain(0, 1), 0, 1), (chain(1, 255), 1, 0),
        (doubled.clone(), 0, 32), (says(1, &doubled), 32, 0), (says(2, &doubled), 0, 32), (in_a_row.clone(), 0, 32),
        (says(1, &in_a_row), 32, 0), (tensor(&says(1, &to_the_right), &says(2, &to_the_right)), 15, 15),
        (tensor(&says(1, &says(2, &to_the_right)), &says(2, &says(1, &to_the_right))), 15, 15),
        (mixed.clone(), 10, 6), (says(1, &mixed), 11, 5), (says(2, &mixed), 10, 6),
        (says(1, &says(2, &mixed)), 10, 6), (says(2, &says(1, &mixed)), 11, 5),
    ];
    let played = |(part, house, other): (Part, u32, u32)| {
        let mut desk = Desk::new();
        desk.issue(Kind::Single, &part, with_break(3, 9, 5, 6));
        desk.script("tally,7,4", &format!("ok,{house},{other},0"), HOUSE_SEATS[9]);
        desk.script("tally,7,5", &format!("ok,0,{},0", house + other), HOUSE_SEATS[9]);
        desk.script("withdraw,1", "ok,1", HOUSE_SEATS[7]);
        desk.session("house: deep", 0)
    };
    all.into_iter().map(played).collect()
}

/// 2,048 coupons of 32 seats each; of the first 512 one in four is of the house, of the others all.
fn full() -> Session {
    let mut desk = with_words(&["a,1,7", "t,0,0", "t,1,1", "t,2,2", "t,3,3", "t,4,4", "s,1,5", "s,2,5"]);
    let (mut house, mut other) = (0, 0);
    for n in 0..MOST_LIVE {
        let wording = if n < 512 { [6, 7, 5, 7][n % 4] } else { 6 };
        if wording == 6 { house += 32 } else { other += 32 }
        issue(&mut desk, wording, window(0, 9));
        if n % if n < 512 { 32 } else { 256 } == 31 || n + 1 == MOST_LIVE {
            desk.script("tally,7,9", &format!("ok,{house},{other},0"), HOUSE_SEATS[11]);
            desk.script("tally,7,10", &format!("ok,0,{},0", house + other), HOUSE_SEATS[11]);
        }
    }
    desk.script("withdraw,1", "ok,1", HOUSE_SEATS[7]);
    issue(&mut desk, 6, window(10, 19));
    desk.script("tally,7,9", "ok,53216,12320,0", HOUSE_SEATS[11]);
    desk.script("tally,7,10", "ok,32,65504,0", HOUSE_SEATS[11]);
    desk.session("house: full till", 0)
}

pub const MOVES: [&str; 9] = [
    "moved: shut to open", "moved: open to shut", "moved: open stays", "moved: shut stays", "moved: part of a coupon",
    "moved: open to placed", "moved: by an offer", "not moved: sl under another", "not moved: ax under ⟨K⟩",
];

const WORDS: [&str; 20] = [
    "a,1,7", "s,1,0", "s,2,0", "s,1,2", "s,2,1", "t,0,0", "s,1,5", "t,0,2", "s,1,7", "t,1,0", "t,1,1", "s,2,5", "a,2,7",
    "s,1,12", "l,1,2", "l,2,1", "l,1,0", "l,1,13", "l,0,1", "s,0,0",
];
/// What those hold that are held or booked.
const HELD: [Holds; 14] = [
    (0, 1, 0), (1, 0, 0), (0, 1, 0), (0, 1, 0), (1, 0, 0), (0, 2, 0), (2, 0, 0), (0, 2, 0), (1, 1, 0), (1, 1, 0),
    (2, 0, 0), (0, 2, 0), (0, 0, 1), (0, 0, 1),
];

/// Singles held, the offer held before them, goal, steps, the step that is wrong where one is, and places in `MOVES`. J
/// is the goal's window.
type Move = (&'static [usize], Option<u32>, usize, &'static str, Option<u32>, &'static [usize]);

const BOOKINGS: [Move; 33] = [
    (&[0], None, 1, "sr|af|ax,0", None, &[0]),
    (&[0], None, 2, "sr|af|ax,0", None, &[3]),
    (&[0], None, 0, "ax,0", None, &[3]),
    (&[0], None, 3, "sr|af|sr|af|ax,0", None, &[3]),
    (&[0], None, 4, "sr|af|sr|af|ax,0", None, &[0]),
    (&[1], None, 1, "sr|sl,0|af|ax,1", None, &[2]),
    (&[1], None, 3, "sr|sl,0|af|sr|af|ax,1", None, &[1]),
    (&[1], None, 4, "sr|af|sr|sl,0|af|ax,1", None, &[2]),
    (&[2], None, 2, "sr|sl,0|af|ax,1", None, &[3]),
    (&[2], None, 4, "sr|sl,0|af|sr|af|ax,1", None, &[0]),
    (&[2], None, 3, "sr|af|sr|sl,0|af|ax,1", None, &[3]),
    (&[3], None, 3, "sr|sl,0|af|sr|sl,1|af|ax,2", None, &[3]),
    (&[4], None, 4, "sr|sl,0|af|sr|sl,1|af|ax,2", None, &[2]),
    (&[1], None, 2, "sr|sl,0|af|ax,1", Some(2), &[7]),
    (&[1], None, 2, "sr|af|sl,0|ax,1", Some(3), &[7]),
    (&[1], None, 2, "sr|af|ax,0", Some(3), &[8]),
    (&[1], None, 0, "ax,0", Some(1), &[8]),
    (&[2], None, 1, "sr|sl,0|af|ax,1", Some(2), &[7]),
    (&[2], None, 1, "sr|af|ax,0", Some(3), &[8]),
    (&[4], None, 1, "sr|sl,0|af|ax,1", Some(2), &[7]),
    (&[3], None, 2, "sr|sl,0|af|ax,1", Some(2), &[7]),
    (&[1], Some(14), 2, "cp,0|ll,2,0000000000000002,J|sr|sl,1|af|ax,3|sr|sl,4|af|ax,5", None, &[1, 6]),
    (&[2], Some(15), 1, "cp,0|ll,2,0000000000000002,J|sr|sl,1|af|ax,3|sr|sl,4|af|ax,5", None, &[0, 6]),
    (&[1], Some(16), 0, "cp,0|ll,2,0000000000000002,J|sr|sl,1|af|ax,3|ax,4", None, &[1, 6]),
    (&[1], Some(17), 13, "cp,0|ll,2,0000000000000002,J|sr|sl,1|af|ax,3|sr|sl,4|af|ax,5", None, &[5, 6]),
    (&[0], Some(18), 1, "cp,0|ll,2,0000000000000002,J|ax,1|sr|sl,3|af|ax,4", None, &[0, 6]),
    (&[1, 0], None, 6, "sr|sl,0|af|tr,0000000000000004|ax,2|ax,1", None, &[0, 4]),
    (&[6], None, 8, "sr|sl,0|af|tl,1|tr,0000000000000004|ax,2|sr|af|ax,3", None, &[1, 4]),
    (&[9], None, 10, "tl,0|tr,0000000000000002|sr|sl,1|af|ax,3|sr|af|ax,2", None, &[0, 4]),
    (&[10], None, 6, "tl,0|sr|sl,1|sl,2|af|tr,0000000000000008|ax,3|ax,4", None, &[2]),
    (&[5], None, 11, "sr|af|tl,0|tr,0000000000000002|ax,1|ax,2", None, &[3]),
    (&[5], None, 6, "sr|af|tl,0|tr,0000000000000002|ax,1|ax,2", None, &[0]),
    (&[0, 1], None, 9, "tr,0000000000000002|sr|sl,1|af|ax,2|ax,0", None, &[2, 3]),
];

/// Seats booked from one ⟨K⟩ into another, tallied at every minute before and after; all stay live to the end, and
/// every second booked coupon is withdrawn then.
fn booked() -> Session {
    let mut desk = with_words(&WORDS);
    let (wide, narrow) = (with_break(0, 9, 4, 5), with_break(1, 8, 3, 6));
    for offer in 14..19 {
        desk.script(&format!("issue,r,{offer},0,99,0,0"), &format!("ok,{}", offer - 13), "");
    }
    let (mut live, mut goals) = (vec![], vec![]);
    for (singles, offer, goal, steps, wrong, marks) in BOOKINGS {
        let before = live.len();
        let mut serials: Vec<u32> = offer.map(|o| o - 13).into_iter().collect();
        for wording in singles {
            serials.push(issue(&mut desk, *wording, wide));
            live.push((HELD[*wording], wide));
        }
        at_each(&mut desk, &live, "");
        let holds: String = serials.iter().map(|s| format!("hold,{s}|")).collect();
        let (h, n, steps) = (serials.len(), steps.split('|').count(), steps.replace('J', &narrow.text()));
        let next = desk.model.given + 1;
        let answer = wrong.map_or(format!("ok,{next}"), |step| format!("no,40,{step}"));
        desk.script(&format!("book,2,{goal},{},{h},{n}|{holds}{steps}", narrow.text()), &answer, "");
        if wrong.is_none() {
            live.truncate(before);
            goals.push((next, live.len()));
            live.push((HELD[goal], narrow));
        }
        marks.iter().for_each(|mark| at_each(&mut desk, &live, MOVES[*mark]));
    }
    for (serial, place) in goals.into_iter().step_by(2) {
        desk.script(&format!("withdraw,{serial}"), &format!("ok,{serial}"), "withdraw booked");
        live[place].0 = (0, 0, 0);
        at_each(&mut desk, &live, HOUSE_SEATS[7]);
    }
    desk.session("house: booked", 0)
}

pub fn at_each(desk: &mut Desk, live: &[(Holds, Window)], mark: &'static str) {
    for minute in 0..11 {
        desk.script(&format!("tally,7,{minute}"), &figures(live, minute), mark);
    }
}

/// Marks of tallies and bookings that come by chance.
pub const BY_CHANCE: [&str; 13] = [
    "by chance: house seat, in its minutes", "by chance: house seat, before or after",
    "by chance: house seat, in its break", "by chance: bare seat, in its minutes",
    "by chance: another's seat, in its minutes", "by chance: seat under ⟨0⟩", "by chance: seat under ⟨255⟩",
    "by chance: house seat below another's ⟨K⟩", "by chance: another's seat below ⟨1⟩",
    "by chance: house seats and others in one coupon", "by chance: seats moved to open",
    "by chance: seats moved to shut", "by chance: house seat stays",
];

/// Whose the seats of the session are, in live singles, and how the minute lies to their windows.
pub fn tallied(model: &Model, session: u32, minute: u32) -> Vec<&'static str> {
    let mut is = [false; 10];
    for c in model.live.iter().filter(|c| c.kind == Kind::Single) {
        let (has, between) = (c.window.has(minute), c.window.whole().has(minute));
        let seats = c.wording.above_seats(session);
        for above in &seats {
            let house = above.last() == Some(&HOUSE);
            let other = !above.is_empty() && !house;
            is[0] |= house && has;
            is[1] |= house && !between;
            is[2] |= house && between && !has;
            is[3] |= above.is_empty() && has;
            is[4] |= other && has;
            is[5] |= above.last() == Some(&0) && has;
            is[6] |= above.last() == Some(&255) && has;
            is[7] |= house && has && above.iter().any(|k| *k != HOUSE);
            is[8] |= other && has && above.contains(&HOUSE);
        }
        let house = seats.iter().filter(|above| above.last() == Some(&HOUSE)).count();
        is[9] |= has && 0 < house && house < seats.len();
    }
    (0..10).filter(|n| is[*n]).map(|n| BY_CHANCE[n]).collect()
}

/// A plain wording of seats, places and tokens, with many ⟨K⟩.
fn plain(rng: &mut Rng, world: &World, depth: u32) -> Part {
    match rng.below(if depth == 0 { 4 } else { 9 }) {
        0..=2 => {
            let session = rng.pick(&world.sessions[..2]);
            world.some_atom(rng, 1, session)
        }
        3 => atom(rng.pick(&[2, 9]), rng.pick(&world.sessions)),
        4 | 5 => tensor(&plain(rng, world, depth - 1), &plain(rng, world, depth - 1)),
        _ => says(principal(rng, world), &plain(rng, world, depth - 1)),
    }
}

fn principal(rng: &mut Rng, world: &World) -> u32 {
    let own = rng.pick(&world.principals);
    rng.pick(&[HOUSE, HOUSE, 2, 0, 255, own])
}

/// From a plain hypothesis the same wording with more ⟨K⟩ about its parts, by `af` and `sr`.
fn dressed(g: &mut Grower, h: Hyp, goal: Window) -> Deriv {
    let mut out = match &*h.wording {
        Wording::Tensor(x, y) => {
            let (x, y) = (g.hyp(x.clone(), h.window), g.hyp(y.clone(), h.window));
            let (i, j) = (x.id, y.id);
            let both = tr(dressed(g, x, goal), dressed(g, y, goal));
            left("tl", both, &[i, j], h)
        }
        Wording::Says(k, x) => {
            let x = g.hyp(x.clone(), h.window);
            let i = x.id;
            let inner = af(dressed(g, x, goal), *k);
            sr(left("sl", inner, &[i], h.clone()))
        }
        _ => ax(h, goal),
    };
    while g.rng.chance(1, 4) {
        out = sr(af(out, principal(g.rng, g.world)));
    }
    out
}

/// The booking accepted, with tallies before and after for both sessions.
fn accept(desk: &mut Desk, b: &Booking, c: &Coupon, world: &World) {
    let minutes = super::world::minutes_of(b.window);
    let tallies = |desk: &mut Desk| {
        for session in &world.sessions[..2] {
            minutes.iter().for_each(|minute| desk.tally(*session, *minute));
        }
    };
    tallies(desk);
    b.accept(desk);
    let goal = &desk.model.wordings[b.goal as usize];
    let moved = world.sessions[..2].iter().map(|s| (c.wording.house_seats(*s, None), goal.house_seats(*s, None)));
    let moved: Vec<(u32, u32)> = moved.collect();
    let marks = [
        (moved.iter().any(|(old, new)| new > old), BY_CHANCE[10]),
        (moved.iter().any(|(old, new)| new < old), BY_CHANCE[11]),
        (moved.iter().any(|(old, new)| *new > 0 && new == old), BY_CHANCE[12]),
    ];
    marks.iter().filter(|(is, _)| *is).for_each(|(_, mark)| desk.mark(&[mark]));
    tallies(desk);
}

/// Random wordings of seats under ⟨K⟩: issued, booked into others, withdrawn, tallied between.
pub fn random(seed: u64) -> Session {
    let mut rng = Rng::new(seed);
    let world = World::new(&mut rng);
    let mut desk = Desk::new();
    for _ in 0..60 {
        let singles = desk.model.live.clone();
        match rng.below(if singles.is_empty() { 2 } else { 6 }) {
            0 | 1 => {
                let part = plain(&mut rng, &world, 4);
                if part.size() <= 40 && desk.missing(std::slice::from_ref(&part)) + desk.model.lines.len() <= 190 {
                    let w = world.any(&mut rng);
                    desk.issue(Kind::Single, &part, w);
                }
            }
            2..=4 => {
                let c = rng.pick(&singles);
                let mut g = Grower::new(&mut rng, &world);
                if let Some(b) = booked_as(&mut desk, &mut g, &c, dressed) {
                    accept(&mut desk, &b, &c, &world);
                }
            }
            _ => {
                let serial = rng.pick(&singles).serial;
                desk.script(&format!("withdraw,{serial}"), &format!("ok,{serial}"), "");
            }
        }
        desk.tallies(&mut rng, 2);
    }
    desk.session("house: random", seed)
}

pub fn sessions(seed: u64) -> Vec<Session> {
    let mut all = vec![alone(), together(), full(), booked()];
    all.extend(deep());
    all.extend([0, 64, 128, 192].map(principals));
    all.extend([seed, seed.wrapping_add(1), seed.wrapping_add(2)].map(random));
    all
}
