//! Windows against windows, for every rule that compares or moves them.

use super::form::Kind;
use super::relation::{of, RELATIONS};
use super::rng::Rng;
use super::session::{Desk, Session};
use super::wording::{window, with_break, Window, LAST_MINUTE};

/// One name for each of the cases below, with a clause behind it.
macro_rules! spans {
    ($clause:literal) => {
        spans!(@ $clause; "ax" "sl" "ll" "ul" "gr" "left part of ll at J" "right part of ll at J"
            "right part of ul at J" "hl gives J" "hr gives J" "left part of ul at J" "part of bl" "left part of tl"
            "right part of tl" "w1" "w2" "first arm of pl" "second arm of pl" "part of sl" "left part of tr"
            "right part of tr" "sr and af" "first arm of wr" "second arm of wr" "p1" "p2" "part of br" "part of al")
    };
    (@ $clause:literal; $($name:literal)*) => { [$(concat!("span: ", $name, $clause)),*] };
}

pub const SPANS: [&str; 28] = spans!("");
/// W ⊇ I for the sake of I's break alone: I without its break would not lie in W.
pub const RIGHT_BY_BREAK: [&str; 28] = spans!(", right only by a break");
/// W without its break would contain I.
pub const WRONG_BY_BREAK: [&str; 28] = spans!(", wrong only by a break");
pub const NEW_COUPON: [&str; 3] =
    ["span: new coupon", "span: new coupon, without its break", "span: new coupon, its break shorter"];

/// Both ends against both ends.
fn ends(i: Window) -> Vec<Window> {
    let (a, b) = (i.from, i.to);
    vec![
        window(a, b), window(a - 1, b + 1), window(0, LAST_MINUTE), window(a, LAST_MINUTE), window(0, b),
        window(a + 1, b), window(a, b - 1), window(a - 9, b - 9), window(a + 9, b + 9), window(a + 1, b - 1),
        window(0, a - 1), window(b + 1, LAST_MINUTE), window(a, a), window(b, b), window(0, a),
        window(b, LAST_MINUTE), window(0, b - 1), window(a + 1, LAST_MINUTE),
    ]
}

/// Breaks before, in, about and behind a window without one.
fn one_break(i: Window) -> Vec<Window> {
    let (a, b) = (i.from, i.to);
    let wide = |first, last| with_break(0, LAST_MINUTE, first, last);
    let mut all: Vec<Window> = [
        (1, a - 1), (a - 5, a - 2), (a - 5, a), (a, a), (a, a + 3), (a + 1, a + 1), (a + 1, b - 1), (a, b),
        (a - 1, b + 1), (1, LAST_MINUTE - 1), (b - 1, b - 1), (b, b), (b, b + 5), (b + 1, b + 5), (b + 2, b + 5),
        (b + 1, LAST_MINUTE - 1), (b - 1, b + 1), (a - 1, a - 1), (b + 1, b + 1),
    ].map(|(first, last)| wide(first, last)).to_vec();
    all.extend([with_break(a, b, a + 1, b - 1), with_break(a, b, a + 4, a + 4), with_break(a - 1, b, a, a)]);
    all.extend([with_break(a, b + 1, b, b), with_break(a - 2, b + 9, a - 1, a - 1)]);
    all.push(with_break(a, b - 1, a + 2, a + 3));
    all
}

/// Breaks in all relations to the break of i, then ends that differ too.
fn two_breaks(i: Window) -> Vec<Window> {
    let (a, b, g, m) = (i.from, i.to, i.first, i.last);
    let mut all: Vec<Window> = [
        (g, m), (g + 1, m - 1), (g, m - 1), (g + 1, m), (g, g), (m, m), (g - 1, m + 1), (g, m + 1), (g - 1, m),
        (g - 2, g + 1), (m - 1, m + 2), (g - 2, g), (m, m + 2), (g - 2, g - 1), (m + 1, m + 2), (g - 1, g - 1),
        (m + 1, m + 1), (a + 1, a + 1), (b - 1, b - 1), (a + 1, b - 1),
    ].map(|(first, last)| with_break(a, b, first, last)).to_vec();
    all.extend([
        (1, a - 1), (a - 5, a - 2), (a - 5, a), (a - 3, g), (a - 1, b + 1), (m, b + 3), (b, b + 5), (b + 1, b + 5),
    ].map(|(first, last)| with_break(0, LAST_MINUTE, first, last)));
    all.extend([i.whole(), window(0, LAST_MINUTE), window(a, g - 1), window(m + 1, b), window(g, m), window(g, b)]);
    all.extend([window(a, m), window(a + 1, b), window(a, b - 1)]);
    all.extend([(a + 1, b), (a, b - 1), (a - 1, b + 1), (a - 1, b)].map(|(from, to)| with_break(from, to, g, m)));
    all
}

/// Each rule's sheet for the outer window w and inner window i: offer lines with `{W}` and `{I}`,
/// goal number, steps, and the step that fails unless w ⊇ i. `{A}` is all minutes.
type Case = (&'static [&'static str], u32, &'static str, u32);

/// Wordings: 0 a, 1 b, 2 ⟨1⟩a, 3 1, 4 b⊸a, 5 1⊃a, 6 1⊸a, 7 a@I, 8 (a@I)⊸b, 9 b⊃a, 10 !a, 11 a⊗1, 12 1⊗a,
/// 13 a&b, 14 b&a, 15 a⊕a, 16 (a@I)⊕a, 17 a⊸b, 18 ⟨1⟩b, 19 a⊗b, 20 b⊗a, 21 a&a, 22 (a&a)⊸b, 23 a⊕b, 24 (a⊕b)⊸b,
/// 25 b⊕a, 26 (b⊕a)⊸b, 27 !a⊸b, 29 for every holder an atom in that name, 30 the one of holder 5; and for each w:
/// `{G}` (w ⊇ i)⊸a, `{H}` a@w, `{K}` (a@w & a)⊸b.
const CASES: [Case; 28] = [
    (&["s,0,{W}"], 0, "ax,0", 1),
    (&["s,2,{W}"], 2, "sr|sl,0|af|ax,1", 2),
    (&["r,4,{W}", "s,1,{A}"], 0, "cp,0|ll,2,0000000000000002,{I}|ax,1|ax,3", 2),
    (&["r,5,{W}"], 0, "cp,0|ul,1,{I}|or|ax,2", 2),
    (&["r,{G},{A}"], 0, "cp,0|ll,1,0000000000000000,{I}|gr|ax,2", 3),
    (&["r,4,{A}", "s,1,{W}"], 0, "cp,0|ll,2,0000000000000002,{I}|ax,1|ax,3", 3),
    (&["r,6,{A}"], 0, "cp,0|ll,1,0000000000000000,{W}|or|ax,2", 4),
    (&["r,5,{A}"], 0, "cp,0|ul,1,{W}|or|ax,2", 4),
    (&["r,{H},3,3,0,0"], 0, "cp,0|hl,1|ax,2", 3),
    (&["r,8,{A}", "s,0,{W}"], 1, "cp,0|ll,2,0000000000000002,{A}|hr|ax,1|ax,3", 4),
    (&["r,9,{A}", "r,1,{W}"], 0, "cp,0|ul,2,{I}|cp,1|ax,3|ax,4", 4),
    (&["r,10,{W}"], 0, "cp,0|bl,1|cp,2|ax,3", 4),
    (&["r,11,{W}"], 0, "cp,0|tl,1|ol,3|ax,2", 4),
    (&["r,12,{W}"], 0, "cp,0|tl,1|ol,2|ax,3", 4),
    (&["r,13,{W}"], 0, "cp,0|w1,1|ax,2", 3),
    (&["r,14,{W}"], 0, "cp,0|w2,1|ax,2", 3),
    (&["r,15,{W}"], 0, "cp,0|pl,1|ax,2|ax,3", 3),
    (&["r,16,{W}"], 0, "cp,0|pl,1|hl,2|ax,3|ax,4", 5),
    (&["s,2,{W}", "r,17,{A}"], 18, "sr|sl,0|cp,1|ll,3,0000000000000004,{W}|ax,2|af|ax,4", 2),
    (&["s,0,{W}", "s,1,{A}"], 19, "tr,0000000000000001|ax,0|ax,1", 2),
    (&["s,1,{A}", "s,0,{W}"], 20, "tr,0000000000000001|ax,0|ax,1", 3),
    (&["s,0,{W}"], 2, "sr|af|ax,0", 3),
    (&["r,22,{A}", "s,0,{W}"], 1, "cp,0|ll,2,0000000000000002,{I}|wr|ax,1|ax,1|ax,3", 4),
    (&["r,{K},{A}", "s,0,{W}"], 1, "cp,0|ll,2,0000000000000002,{I}|wr|hr|ax,1|ax,1|ax,3", 6),
    (&["r,24,{A}", "s,0,{W}"], 1, "cp,0|ll,2,0000000000000002,{I}|p1|ax,1|ax,3", 4),
    (&["r,26,{A}", "s,0,{W}"], 1, "cp,0|ll,2,0000000000000002,{I}|p2|ax,1|ax,3", 4),
    (&["r,27,{A}", "r,0,{W}"], 1, "cp,0|ll,2,0000000000000000,{I}|br|cp,1|ax,3|ax,4", 5),
    (&["r,29,{W}"], 30, "cp,0|al,1,5|ax,2", 3),
];

/// The line's number, entered first where it is not there.
pub fn enter(desk: &mut Desk, line: &str) -> u32 {
    if let Some(n) = desk.model.lines.iter().position(|l| l == line) {
        return n as u32;
    }
    desk.words(&[line]);
    desk.model.lines.len() as u32 - 1
}

/// What the sheet stands for: the rule, the relation of the breaks, and whether a break alone decides.
fn marks(rule: usize, w: Window, i: Window, good: bool) -> Vec<&'static str> {
    let mut marks = vec![SPANS[rule]];
    marks.extend(of(w, i).iter().map(|n| RELATIONS[rule.min(5)][*n]));
    marks.extend((good && !w.contains(i.whole())).then_some(RIGHT_BY_BREAK[rule]));
    marks.extend((!good && w.whole().contains(i)).then_some(WRONG_BY_BREAK[rule]));
    marks
}

/// The wording of an offer that is made for w and i.
fn made_for(desk: &mut Desk, offer: &str, w: Window, i: Window) -> u32 {
    if offer.contains("{G}") {
        let covered = enter(desk, &format!("g,{},{}", w.text(), i.text()));
        return enter(desk, &format!("l,{covered},0"));
    }
    let at_w = enter(desk, &format!("h,0,{}", w.text()));
    if offer.contains("{H}") {
        return at_w;
    }
    let arms = enter(desk, &format!("w,{at_w},0"));
    enter(desk, &format!("l,{arms},1"))
}

fn try_one(desk: &mut Desk, rule: usize, w: Window, i: Window, good: bool) {
    let (offers, goal, steps, step) = CASES[rule];
    let special = ["{G}", "{H}", "{K}"].iter().any(|letter| offers[0].contains(letter));
    let number = if special { made_for(desk, offers[0], w, i).to_string() } else { String::new() };
    let fill = |text: &str| {
        let text = text.replace("{W}", &w.text()).replace("{I}", &i.text()).replace("{A}", "0,9999999,0,0");
        text.replace("{G}", &number).replace("{H}", &number).replace("{K}", &number)
    };
    let (before, mut holds) = (desk.model.given, String::new());
    for offer in offers {
        let serial = desk.model.given + 1;
        desk.script(&fill(&format!("issue,{offer}")), &format!("ok,{serial}"), "");
        holds += &format!("hold,{serial}|");
    }
    let n = steps.split('|').count();
    let head = fill(&format!("book,{},{goal},{{I}},{},{n}", i.from, offers.len()));
    let serial = desk.model.given + 1;
    let answer = if good { format!("ok,{serial}") } else { format!("no,40,{step}") };
    desk.script(&format!("{head}|{holds}{}", fill(steps)), &answer, "");
    desk.mark(&marks(rule, w, i, good));
    if good && goal == 0 {
        new_coupon(desk, serial, i);
    }
    let made = desk.model.live.iter().filter(|c| c.serial > before);
    for (serial, kind) in made.map(|c| (c.serial, c.kind)).collect::<Vec<_>>() {
        let booked = serial > before + offers.len() as u32;
        let mark = match kind {
            Kind::Standing => "withdraw standing",
            Kind::Single if booked => "withdraw booked",
            Kind::Single => "withdraw single",
        };
        desk.script(&format!("withdraw,{serial}"), &format!("ok,{serial}"), mark);
    }
}

/// The goal's coupon has the goal's window: it serves for that and no wider one.
fn new_coupon(desk: &mut Desk, serial: u32, i: Window) {
    let mut wider = vec![(Window { to: i.to + 1, ..i }, NEW_COUPON[0])];
    if i.has_break() {
        wider.push((i.whole(), NEW_COUPON[1]));
        wider.push((Window { first: i.first + 1, ..i }, NEW_COUPON[2]));
        wider.push((Window { last: i.last - 1, ..i }, NEW_COUPON[2]));
    }
    for (w, name) in wider {
        let sheet = format!("book,{},0,{},1,1|hold,{serial}|ax,0", i.from, w.text());
        desk.script(&sheet, "no,40,1", name);
    }
}

/// Said once more, minute by minute: where one of the two sets begins or ends, and beside it.
fn minute_by_minute(w: Window, i: Window) -> bool {
    let ends = [w, i].map(|x| [x.from, x.to, x.first, x.last]).concat();
    let mut near = ends.into_iter().flat_map(|m| [m.saturating_sub(1), m, m + 1]);
    let good = near.all(|m| !i.has(m) || w.has(m));
    assert_eq!(good, w.contains(i));
    good
}

/// Seven of the rules, against every relation of one sort.
fn session(seed: u64, part: usize, sort: usize) -> Session {
    let mut rng = Rng::new(seed);
    let from = rng.between(20, 5_000_000);
    let to = from + rng.between(24, 900);
    let first = rng.between(from + 4, from + 8);
    let last = rng.between(first + 4, to - 6);
    let i = if sort == 2 { with_break(from, to, first, last) } else { window(from, to) };
    let outer = [ends, one_break, two_breaks][sort](i);
    let mut desk = Desk::new();
    let at_i = format!("h,0,{}", i.text());
    desk.words(&["a,9,7", "a,8,7", "s,1,0", "o", "l,1,0", "u,3,0", "l,3,0", &at_i, "l,7,1", "u,1,0", "b,0"]);
    desk.words(&["t,0,3", "t,3,0", "w,0,1", "w,1,0", "p,0,0", "p,7,0", "l,0,1", "s,1,1", "t,0,1", "t,1,0"]);
    desk.words(&["w,0,0", "l,21,1", "p,0,1", "l,23,1", "p,1,0", "l,25,1", "l,10,1", "n,9,7,0", "q,28", "n,9,7,5"]);
    for w in outer {
        for rule in part * 7..CASES.len().min(part * 7 + 7) {
            try_one(&mut desk, rule, w, i, minute_by_minute(w, i));
        }
    }
    desk.tallies(&mut rng, 3);
    desk.session(["spans", "spans: one break", "spans: two breaks"][sort], seed)
}

pub fn sessions(seed: u64) -> Vec<Session> {
    (0..12).map(|n| session(seed, n % 4, n / 4)).collect()
}
