//! Document 02, ask 7: places in a holder's name. The lines `n` and `q` and their ranges, refusal 53 in every place,
//! and tallies. The step `al` is in instances.rs.

use super::booking::Booking;
use super::derivation::{al, Deriv, Hyp};
use super::drills::exercise;
use super::grow::Grower;
use super::house::{at_each, Holds};
use super::rng::Rng;
use super::session::{Desk, Session};
use super::spans::enter as enter_line;
use super::wording::*;
use super::world::World;

pub const FORMS: [&str; 11] = [
    "n: holder in range", "n: holder past 65,535", "n: holder no number", "n: any predicate", "n: predicate past 255",
    "n: fields", "q: fields", "al: holder in range", "al: holder 0", "al: holder past 65,535", "al: fields",
];

/// Past the range: the next ones, and ones of which 16, 32 or 64 bits keep a number in range.
const BEYOND: [&str; 9] = [
    "65536", "65537", "65541", "99999", "131071", "655350", "4294967301", "4295032831", "18446744073709551621",
];
const NO_NUMBER: [&str; 10] = ["", "00", "05", "065535", "-1", "+5", " 5", "5 ", "x", "0x5"];

/// Ranges and fields of the lines, and of the step wherever it stands.
fn forms() -> Session {
    let mut desk = Desk::new();
    for (number, holder) in [0, 1, 2, 5, 255, 256, 65_534, LAST_HOLDER].iter().enumerate() {
        desk.script(&format!("word,n,9,7,{holder}"), &format!("ok,{number}"), FORMS[0]);
    }
    for (list, mark) in [(&BEYOND[..], FORMS[1]), (&NO_NUMBER, FORMS[2])] {
        list.iter().for_each(|holder| desk.script(&format!("word,n,9,7,{holder}"), "no,2,0", mark));
    }
    for predicate in [0, 1, 2, 3, 128, 255] {
        let number = desk.model.lines.len();
        desk.script(&format!("word,n,{predicate},65535,5"), &format!("ok,{number}"), FORMS[3]);
    }
    [256, 257, 265].iter().for_each(|p| desk.script(&format!("word,n,{p},7,5"), "no,2,0", FORMS[4]));
    for line in ["n", "n,9", "n,9,7", "n,9,7,5,0", "n,9,7,5,", "n,,7,5", "n,9,,5", "n,9,65536,5", "N,9,7,5", "n9,7,5"] {
        desk.script(&format!("word,{line}"), "no,2,0", FORMS[5]);
    }
    for line in ["q", "q,", "q,0,0", "q,0,", "q,00", "q,1000", "q,-1", "q,x", "Q,0", "q0", "q,0,5", "q,9,7,0"] {
        desk.script(&format!("word,{line}"), "no,2,0", FORMS[6]);
    }
    desk.words(&["q,0"]);
    let q = desk.model.lines.len() - 1;
    desk.script(&format!("issue,r,{q},0,9,0,0"), "ok,1", "");
    step_forms(&mut desk);
    desk.session("holders: forms", 0)
}

/// Wordings 1 to 7 are `n,9,7,h` for these holders, and serial 1 is `q` of it.
fn step_forms(desk: &mut Desk) {
    let book = |goal: usize, steps: &str| {
        format!("book,5,{goal},0,9,0,0,1,{}|hold,1|{steps}", steps.split('|').count())
    };
    for (goal, holder) in [1, 2, 5, 255, 256, 65_534, LAST_HOLDER].iter().enumerate() {
        let next = format!("ok,{}", desk.model.given + 1);
        desk.script(&book(goal + 1, &format!("cp,0|al,1,{holder}|ax,2")), &next, FORMS[7]);
    }
    // Also where the step is never reached, is wrong besides, or stands behind the close.
    for place in ["cp,0|al,1,{}|ax,2", "af|al,1,{}|ax,2", "al,0,{}|cp,0|ax,1", "cp,0|al,1,5|ax,2|al,1,{}"] {
        desk.script(&book(3, &place.replace("{}", "0")), "no,2,0", FORMS[8]);
        for (list, mark) in [(&BEYOND[..], FORMS[9]), (&NO_NUMBER, FORMS[10])] {
            list.iter().for_each(|holder| desk.script(&book(3, &place.replace("{}", holder)), "no,2,0", mark));
        }
    }
    let lines = ["al", "al,1", "al,,5", "al,1,5,5", "al,1,5,", "al,64,5", "al,01,5", "al,-1,5", "ql,1,5", "ar,1,5"];
    for line in lines {
        desk.script(&book(3, &format!("cp,0|{line}|ax,2")), "no,2,0", FORMS[10]);
    }
}

/// Every place of every connective: its line with `I` there and `O` beside it.
const PLACES: [&str; 13] = [
    "t,I,O", "t,O,I", "w,I,O", "w,O,I", "p,I,O", "p,O,I", "l,I,O", "l,O,I", "u,I,O", "u,O,I", "b,I", "h,I,0,9,3,4",
    "s,1,I",
];

/// The line entered, where it is not there; gives its number.
fn enter(desk: &mut Desk, place: &str, inner: u32, other: u32) -> u32 {
    enter_line(desk, &place.replace('I', &inner.to_string()).replace('O', &other.to_string()))
}

pub const WITHIN: [&str; 7] = [
    "53: q of q", "53: q one step down", "53: q two steps down", "53: q three steps down", "no 53: q beside q",
    "no 53: holder 0 for a later q", "no 53: nothing bound",
];

/// `q` within `q` at any depth; and the words that look like it.
fn within() -> Session {
    let mut desk = Desk::new();
    desk.words(&["n,9,7,0", "q,0", "a,9,7", "n,9,7,5"]);
    let no = |desk: &mut Desk, part: u32, mark: &'static str| {
        desk.script(&format!("word,q,{part}"), "no,53,0", mark);
    };
    no(&mut desk, 1, WITHIN[0]);
    for place in PLACES {
        let first = enter(&mut desk, place, 1, 2);
        no(&mut desk, first, WITHIN[1]);
        let second = enter(&mut desk, "s,2,I", first, 0);
        no(&mut desk, second, WITHIN[2]);
        let third = enter(&mut desk, "t,O,I", second, 2);
        no(&mut desk, third, WITHIN[3]);
    }
    let ok = |desk: &mut Desk, line: &str, mark: &'static str| {
        let number = desk.model.lines.len();
        desk.script(&format!("word,{line}"), &format!("ok,{number}"), mark);
    };
    for line in ["q,2", "q,3"] {
        ok(&mut desk, line, WITHIN[6]);
    }
    for line in ["t,1,1", "w,1,1", "p,1,1", "l,1,1", "u,1,1", "t,1,0", "l,0,1"] {
        ok(&mut desk, line, WITHIN[4]);
        no(&mut desk, 1, WITHIN[0]);
    }
    for place in PLACES {
        let loose = enter(&mut desk, place, 0, 3);
        desk.mark(&[WITHIN[5]]);
        ok(&mut desk, &format!("q,{loose}"), WITHIN[5]);
    }
    desk.session("holders: q within q", 0)
}

pub const LOOSE: [&str; 10] = [
    "53: n, holder 0", "53: holder 0 one step down", "53: holder 0 two steps down",
    "53: bound and loose in one wording", "53 and not 20", "53 and not 21", "bound by q: not 53", "q beside q: not 53",
    "holder named: not 53", "loose lines beside the one named",
];

/// Issue of both kinds and booking of a wording with holder 0 outside `q`.
fn refused(desk: &mut Desk, wording: u32, mark: &'static str) {
    for sheet in ["issue,s,N,0,9,0,0", "issue,r,N,0,9,0,0", "book,5,N,0,9,0,0,1,1|hold,1|ax,0"] {
        desk.script(&sheet.replace('N', &wording.to_string()), "no,53,0", mark);
    }
}

/// The same of one with a `q`: not plain, and standing where it is balanced.
fn standing(desk: &mut Desk, wording: u32, good: bool, mark: &'static str) {
    let serial = desk.model.given + 1;
    let answer = if good { format!("ok,{serial}") } else { "no,21,0".to_string() };
    desk.script(&format!("issue,r,{wording},0,9,0,0"), &answer, mark);
    desk.script(&format!("issue,s,{wording},0,9,0,0"), "no,20,0", mark);
    desk.script(&format!("book,5,{wording},0,9,0,0,1,1|hold,1|ax,0"), "no,20,0", mark);
    if good {
        desk.script(&format!("withdraw,{serial}"), &format!("ok,{serial}"), "");
    }
}

/// 53 at issue and book, each occurrence of holder 0 judged by itself.
fn loose() -> Session {
    let mut desk = Desk::new();
    desk.words(&["n,9,7,0", "n,9,7,5", "q,0", "o", "n,1,7,0", "n,2,7,0"]);
    desk.script("issue,s,1,0,9,0,0", "ok,1", LOOSE[8]);
    refused(&mut desk, 0, LOOSE[0]);
    refused(&mut desk, 4, LOOSE[5]);
    standing(&mut desk, 2, true, LOOSE[6]);
    for place in PLACES {
        let first = enter(&mut desk, place, 0, 1);
        refused(&mut desk, first, LOOSE[1]);
        let second = enter(&mut desk, "t,O,I", first, 1);
        refused(&mut desk, second, LOOSE[2]);
        let every = enter(&mut desk, "q,I", second, 0);
        standing(&mut desk, every, true, LOOSE[6]);
        let both = enter(&mut desk, place, 2, 0);
        if place.contains('O') {
            refused(&mut desk, both, LOOSE[3]);
            let beside = enter(&mut desk, place, 2, 2);
            standing(&mut desk, beside, true, LOOSE[7]);
        } else {
            standing(&mut desk, both, true, LOOSE[6]);
        }
    }
    for (line, mark) in [("t,3,0", 4), ("b,4", 5), ("l,4,3", 5), ("w,3,4", 5), ("u,4,3", 5), ("t,4,3", 4)] {
        let number = enter(&mut desk, line, 0, 0);
        refused(&mut desk, number, LOOSE[mark]);
        let every = enter(&mut desk, "q,I", number, 0);
        standing(&mut desk, every, mark == 4 && line == "t,3,0", LOOSE[6]);
    }
    let offer = enter(&mut desk, "l,4,5", 0, 0);
    refused(&mut desk, offer, LOOSE[3]);
    let every = enter(&mut desk, "q,I", offer, 0);
    standing(&mut desk, every, true, LOOSE[6]);
    desk.script("book,5,1,0,9,0,0,1,1|hold,1|ax,0", &format!("ok,{}", desk.model.given + 1), LOOSE[9]);
    desk.session("holders: holder 0 outside q", 0)
}

pub const TALLIED: [&str; 5] = [
    "n seats under ⟨1⟩: open", "n seats otherwise: shut", "n places", "q counts nothing",
    "n seats booked and withdrawn",
];

/// Wordings, what they hold of session 7 and their place in `TALLIED`.
const SHAPES: [(&str, Holds, usize); 20] = [
    ("n,1,7,5", (0, 1, 0), 1), ("n,1,7,6", (0, 1, 0), 1), ("s,1,0", (1, 0, 0), 0), ("s,1,1", (1, 0, 0), 0),
    ("s,2,0", (0, 1, 0), 1), ("s,1,4", (0, 1, 0), 1), ("s,2,2", (1, 0, 0), 0), ("t,0,1", (0, 2, 0), 1),
    ("s,1,7", (2, 0, 0), 0), ("t,2,0", (1, 1, 0), 0), ("n,2,7,5", (0, 0, 1), 2), ("s,1,10", (0, 0, 1), 2),
    ("t,10,2", (1, 0, 1), 0), ("n,9,7,1", (0, 0, 0), 2), ("s,1,13", (0, 0, 0), 2), ("a,1,7", (0, 1, 0), 1),
    ("t,0,15", (0, 2, 0), 1), ("s,1,16", (2, 0, 0), 0), ("n,1,65535,7", (0, 0, 0), 1), ("s,1,18", (0, 0, 0), 1),
];

/// Seats by their ⟨K⟩ and session, whoever holds them; standing coupons with `q` beside them count nothing.
fn tallied() -> Session {
    let mut desk = Desk::new();
    desk.words(&SHAPES.map(|(line, _, _)| line));
    desk.words(&["n,1,7,0", "s,1,20", "n,2,7,0", "l,21,22", "q,23", "n,9,7,0", "q,25"]);
    let w = with_break(2, 8, 4, 5);
    let mut live = vec![];
    let mut serials = vec![];
    for (n, (_, holds, mark)) in SHAPES.iter().enumerate() {
        serials.push(desk.model.given + 1);
        desk.script(&format!("issue,s,{n},{}", w.text()), &format!("ok,{}", serials[n]), "");
        live.push((*holds, w));
        at_each(&mut desk, &live, TALLIED[*mark]);
    }
    for offer in [24, 26] {
        let serial = desk.model.given + 1;
        desk.script(&format!("issue,r,{offer},0,9,0,0"), &format!("ok,{serial}"), "");
        at_each(&mut desk, &live, TALLIED[3]);
    }
    // The seat of holder 6 becomes a place of holder 6 where the offer is used at 6, and not where at 5.
    let steps = "cp,0|al,2,H|ll,3,0000000000000002,2,3,0,0|sr|sl,1|af|ax,4|ax,5";
    let book = |holder: u32| {
        let lines = steps.replace('H', &holder.to_string());
        format!("book,2,27,2,3,0,0,2,8|hold,{}|hold,{}|{lines}", serials[19] + 1, serials[3])
    };
    desk.words(&["n,2,7,6"]);
    desk.script(&book(5), "no,40,7", TALLIED[4]);
    desk.script(&book(6), &format!("ok,{}", desk.model.given + 1), "");
    live[3] = ((0, 0, 1), window(2, 3));
    at_each(&mut desk, &live, TALLIED[4]);
    for n in [0, 2, 8, 11] {
        desk.script(&format!("withdraw,{}", serials[n]), &format!("ok,{}", serials[n]), "");
        live[n].0 = (0, 0, 0);
        at_each(&mut desk, &live, TALLIED[4]);
    }
    desk.session("holders: tally", 0)
}

/// Marks of accepted bookings that come by chance.
pub const BY_CHANCE: [&str; 10] = [
    "by chance: al once", "by chance: al twice", "by chance: al more than twice",
    "by chance: two holders of one standing q", "by chance: al, goal affirms", "by chance: al in a first premise",
    "by chance: al in a second premise", "by chance: al, nothing bound", "by chance: al, bound in one place",
    "by chance: al, bound in several places",
];

/// How often holder 0 stands in the wording.
fn zeros(part: &Wording) -> usize {
    match part {
        Wording::Named(_, _, 0) => 1,
        _ => part.parts().iter().map(|p| zeros(p)).sum(),
    }
}

/// What an accepted booking has of `al`.
pub fn booked(b: &Booking) -> Vec<&'static str> {
    let (lines, scenes) = (&b.script.lines, &b.script.scenes);
    let mut is = [false; 10];
    let mut used: Vec<(Part, u32)> = vec![];
    for (i, (label, holder)) in lines.iter().enumerate().filter_map(|(i, l)| l.holder.map(|h| (i, (l.label, h)))) {
        let l = scenes[i].d.iter().find(|h| Some(h.label) == label).expect("a label of D");
        is[4] |= scenes[i].goal.by.is_some();
        is[7 + zeros(&l.wording).min(2)] = true;
        for two in scenes.iter().filter(|s| s.starts.len() == 2) {
            is[5] |= (two.starts[0]..two.starts[1]).contains(&i);
            is[6] |= (two.starts[1]..b.script.end(two.starts[1])).contains(&i);
        }
        let standing = b.holds.iter().any(|h| h.standing && h.wording == l.wording);
        is[3] |= standing && used.iter().any(|(wording, other)| *wording == l.wording && *other != holder);
        used.push((l.wording.clone(), holder));
    }
    if !used.is_empty() {
        is[used.len().min(3) - 1] = true;
    }
    (0..10).filter(|n| is[*n]).map(|n| BY_CHANCE[n]).collect()
}

/// Each hypothesis comes from a standing `q`, used at a holder; what weighs something, from an offer to everyone.
fn from_everyone(g: &mut Grower, a: Deriv) -> Deriv {
    let mut a = a;
    let own: Vec<Hyp> = a.node.d.clone();
    for h in own.into_iter().filter(|h| !h.wording.has_q()) {
        let offered = if h.wording.balanced() { (a, h.id) } else { g.offered(a, &h) };
        let (b, id) = offered;
        let below = b.hyp(id);
        let Some((wording, holder)) = g.world.for_every(g.rng, &below.wording) else { return b };
        let l = g.hyp(wording, below.window);
        let used = l.id;
        a = al(b, id, l, holder);
        if g.rng.chance(3, 4) {
            a = g.copy(a, used);
        }
    }
    a
}

/// Random bookings in which much is offered to every holder, broken and accepted.
pub fn random(seed: u64) -> Session {
    let mut rng = Rng::new(seed);
    let world = World::new(&mut rng);
    let mut desk = Desk::new();
    let mut seen = super::booking::Seen::new();
    for _ in 0..8 {
        let want: Vec<u32> = (0..rng.below(3)).map(|_| rng.pick(&world.sessions)).collect();
        let (goal, fuel) = (world.open_now(&mut rng), rng.between(1, 7));
        let mut g = Grower::new(&mut rng, &world);
        let grown = g.prove(&want, goal, fuel, true);
        let often = from_everyone(&mut g, grown);
        let deriv = g.finish(often);
        let holds = super::booking::holds_for(&deriv, g.rng);
        let Some(b) = super::booking::place(&mut desk, deriv, holds, world.now) else { continue };
        if b.fits_limits() {
            exercise(&b, &mut desk, &mut g, &mut seen, 8);
        }
        desk.tallies(&mut rng, 2);
    }
    desk.session("holders: random", seed)
}

pub fn sessions(seed: u64) -> Vec<Session> {
    let mut all = vec![forms(), within(), loose(), tallied()];
    all.extend(super::instances::sessions());
    all.extend((0..6).map(|n| random(seed.wrapping_add(n))));
    all
}
