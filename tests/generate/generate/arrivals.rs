//! Guests who are late (document 02, ask 4): a session's accepted sheets once more, each booking with a window within its
//! own, and a minute of that, in its first line; the lines after it are the same bytes. Every answer stays.

use super::form::{read, BookHead, Sheet};
use super::model::Answer;
use super::rng::Rng;
use super::session::{Desk, Session};
use super::wording::{window, with_break, Window};
use super::world::{inside, minutes_of};
use std::collections::BTreeSet;

/// How the new window lies in the old one.
pub const WITHIN: [&str; 9] = [
    "later: the same window", "later: one minute", "later: from a later minute", "later: to an earlier minute",
    "later: before the break", "later: behind the break", "later: with a break", "later: with a longer break",
    "later: any window within",
];
pub const NOW: [&str; 2] = ["later: now stays", "later: another now"];
/// The steps of these bookings.
pub const STEPS: [&str; 23] = [
    "later: ax", "later: cp", "later: tr", "later: tl", "later: or", "later: ol", "later: wr", "later: w1",
    "later: w2", "later: p1", "later: p2", "later: pl", "later: ll", "later: ul", "later: br", "later: bl",
    "later: hr", "later: hl", "later: sr", "later: af", "later: sl", "later: gr",
    "later: al",
];

/// Longer sessions are left out.
const MOST_SHEETS: usize = 600;

/// What stays of a window from `from` to `to`, both of them minutes of it.
fn cut(w: Window, from: u32, to: u32) -> Window {
    if from < w.first && w.last < to { with_break(from, to, w.first, w.last) } else { window(from, to) }
}

/// Windows within this one, each with its place in WITHIN.
fn within(rng: &mut Rng, w: Window) -> Vec<(usize, Window)> {
    let mut minutes = minutes_of(w);
    minutes.extend([rng.between(w.from, w.to), rng.between(w.from, w.to)]);
    minutes.retain(|m| w.has(*m));
    let minute = rng.pick(&minutes);
    let mut all = vec![(0, w), (1, window(minute, minute)), (8, inside(rng, w))];
    all.extend((minute > w.from).then(|| (2, cut(w, minute, w.to))));
    all.extend((minute < w.to).then(|| (3, cut(w, w.from, minute))));
    if w.has_break() {
        all.extend([(4, window(w.from, w.first - 1)), (5, window(w.last + 1, w.to))]);
        let (first, last) = (rng.between(w.from + 1, w.first), rng.between(w.last, w.to - 1));
        all.extend(((first, last) != (w.first, w.last)).then(|| (7, with_break(w.from, w.to, first, last))));
    } else if w.to - w.from >= 2 {
        let first = rng.between(w.from + 1, w.to - 1);
        all.push((6, with_break(w.from, w.to, first, rng.between(first, w.to - 1))));
    }
    all
}

/// A minute of the window: now, if it can stay, or another.
fn minute(rng: &mut Rng, now: u32, w: Window) -> u32 {
    let mut minutes = minutes_of(w);
    minutes.push(rng.between(w.from, w.to));
    minutes.retain(|m| w.has(*m));
    if w.has(now) && rng.chance(1, 2) { now } else { rng.pick(&minutes) }
}

/// The sheet with another minute and window in its first line; nothing else of it is looked at.
fn later(sheet: &[u8], now: u32, w: Window) -> Vec<u8> {
    let end = sheet.iter().position(|b| *b == b'\n').expect("a first line");
    let head = std::str::from_utf8(&sheet[..end]).expect("a line of good form");
    let fields: Vec<&str> = head.split(',').collect();
    let [book, _, wording, _, _, _, _, holds, steps] = fields[..] else { panic!("no booking: {head}") };
    let line = format!("{book},{now},{wording},{},{holds},{steps}", w.text());
    [line.as_bytes(), &sheet[end..]].concat()
}

/// The steps that stand in the sheet.
fn steps(sheet: &[u8]) -> Vec<&'static str> {
    let text = String::from_utf8_lossy(sheet);
    let words: BTreeSet<&str> = text.lines().filter_map(|l| l.split(',').next()).collect();
    STEPS.into_iter().filter(|s| words.contains(&s["later: ".len()..])).collect()
}

fn arrive(desk: &mut Desk, rng: &mut Rng, sheet: &[u8], head: &BookHead, answer: Answer) {
    let all = within(rng, head.window);
    let (place, w) = rng.pick(&all);
    assert!(w.from <= w.to && w.break_fits() && head.window.contains(w));
    let now = minute(rng, head.now, w);
    desk.expect(&later(sheet, now, w), answer, &[WITHIN[place], NOW[usize::from(now != head.now)]]);
    desk.mark(&steps(sheet));
}

/// A session's accepted sheets, its bookings later; None if it has none. A booking whose coupon is held later on stays
/// as it was, so that no answer depends on a window that was changed.
fn session(of: &Session, rng: &mut Rng) -> Option<Session> {
    let done = of.cases.iter().filter(|c| matches!(c.expected, Some(Answer::Done(_))));
    let sheets: Vec<(&[u8], Answer, Sheet)> =
        done.map(|c| (&c.sheet[..], c.expected.unwrap(), read(&c.sheet).expect("an accepted sheet"))).collect();
    let holds = |s: &Sheet| if let Sheet::Book(head) = s { head.holds.clone() } else { vec![] };
    let held: BTreeSet<u32> = sheets.iter().flat_map(|(_, _, s)| holds(s)).collect();
    let mut desk = Desk::new();
    let mut late = 0;
    for (sheet, answer, said) in &sheets {
        match (said, answer) {
            (Sheet::Book(head), Answer::Done(serial)) if !held.contains(serial) => {
                arrive(&mut desk, rng, sheet, head, *answer);
                late += 1;
            }
            _ => desk.expect(sheet, *answer, &[]),
        }
    }
    desk.tallies(rng, 3);
    (late > 0 && sheets.len() <= MOST_SHEETS).then(|| desk.session(&format!("later: {}", of.name), of.seed))
}

pub fn sessions(seed: u64, all: &[Session]) -> Vec<Session> {
    let mut rng = Rng::new(seed);
    let late: Vec<Session> = all.iter().filter_map(|s| session(s, &mut rng)).collect();
    let bookings = late.iter().flat_map(|s| &s.cases).filter(|c| c.marks.iter().any(|m| NOW.contains(m))).count();
    assert!(bookings >= 1_000, "only {bookings} guests are late");
    late
}
