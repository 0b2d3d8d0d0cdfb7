//! For every step letter a small derivation that leads to it, in all the places where its rule can break.

use super::booking::{holds_for, place, Booking, Seen};
use super::derivation::*;
use super::grow::Grower;
use super::late;
use super::rng::Rng;
use super::session::{Desk, Session};
use super::wording::*;
use super::world::World;

pub const DRILLS: [&str; 23] = [
    "ax", "tl", "ol", "w1", "w2", "pl", "ll", "ul", "bl", "hl", "sl", "tr", "or", "wr", "p1", "p2", "br",
    "hr", "sr", "gr", "al", "arms", "whole",
];

/// `al` below the derivation, for an atom in a holder's name.
fn from_every(a: Deriv, h: &Hyp, l: Id) -> Deriv {
    let Wording::Named(predicate, session, holder) = *h.wording else { panic!("no holder in {h:?}") };
    let below = Hyp { id: l, wording: for_all(&named(predicate, session, 0)), window: h.window };
    al(a, h.id, below, holder)
}

/// The left step below an axiom for the atom, everything then copied from R.
fn one_side(g: &mut Grower, letters: &'static str, a: &Part, goal: Window) -> Deriv {
    let (x, y) = (atom(3, 1), atom(3, 2));
    let h = g.hyp(a.clone(), goal);
    let base = ax(h.clone(), goal);
    let l = g.id();
    let below = |wording: Part| Hyp { id: l, wording, window: goal };
    let bent = match letters {
        "ax" => return g.copy(base, h.id),
        "tl" => {
            let extra = g.hyp(one(), goal);
            let both = left("ol", base, &[], extra.clone());
            left("tl", both, &[h.id, extra.id], below(tensor(a, &one())))
        }
        "ol" => {
            let more = left("ol", base, &[], below(one()));
            g.copy(more, h.id)
        }
        "w1" => left("w1", base, &[h.id], below(with(a, &x))),
        "w2" => left("w2", base, &[h.id], below(with(&y, a))),
        "pl" => pl(base.clone(), h.id, base, h.id, l),
        "ll" => {
            let q = g.axiom(x, goal);
            let d = q.node.d[0].id;
            let copied = arrow(true, q, base, h.id, l, goal);
            g.copy(copied, d)
        }
        "ul" => arrow(false, or(goal), base, h.id, l, goal),
        "bl" => {
            let copied = g.copy(base, h.id);
            let r = copied.r[0].id;
            bl(copied, r, l)
        }
        "hl" => left("hl", base, &[h.id], below(at(a, goal))),
        "al" => from_every(base, &h, l),
        _ => left("sl", af(base, 1), &[h.id], below(says(1, a))),
    };
    let copied = g.copy(bent, l);
    if letters == "sl" { sr(copied) } else { copied }
}

/// A proof whose root is the right step.
fn right_step(g: &mut Grower, letters: &'static str, goal: Window) -> Deriv {
    let (x, y) = (atom(3, 1), atom(3, 2));
    match letters {
        "tr" => {
            let (a, b) = (g.axiom(x, goal), g.axiom(y, goal));
            tr(a, b)
        }
        "or" => or(goal),
        "wr" => {
            let a = g.axiom(x, goal);
            wr(a.clone(), a)
        }
        "p1" => p(true, g.axiom(x, goal), &y),
        "p2" => p(false, g.axiom(x, goal), &y),
        "br" => br(or(goal)),
        "hr" if goal.has_break() => hr(g.axiom(x, with_break(5, 9, 6, 7)), goal),
        "hr" => hr(g.axiom(x, window(5, 6)), goal),
        "sr" => sr(af(g.axiom(x, goal), 2)),
        _ if goal.has_break() => gr(with_break(3, 9, 5, 6), with_break(4, 9, 5, 7), goal),
        _ => gr(window(3, 9), window(4, 9), goal),
    }
}

/// The right step under an affirmation, and with a 1 to drop before it, both for the sake of an atom
/// that is used beside another.
fn right_drill(g: &mut Grower, letters: &'static str, goal: Window) -> Deriv {
    let affirmed = sr(af(right_step(g, letters, goal), 1));
    let extra = g.hyp(one(), goal);
    let dropped = left("ol", right_step(g, letters, goal), &[], extra);
    let (h, second, other) = (g.hyp(atom(4, 1), goal), g.hyp(atom(4, 3), goal), g.axiom(named(4, 2, 6), goal));
    let (i, j) = (h.id, second.id);
    let base = tr(tr(ax(h, goal), ax(second, goal)), other);
    let (l, m) = (g.id(), g.id());
    let once = arrow(true, affirmed, base, i, l, goal);
    arrow(true, dropped, once, j, m, goal)
}

/// Every two-premise step, the first premise having joined something to R.
fn arms(g: &mut Grower, goal: Window) -> Deriv {
    let a = atom(3, 1);
    let first = one_side(g, "bl", &a, goal);
    let both = wr(first.clone(), first.clone());
    let second = g.hyp(atom(3, 2), goal);
    let i = second.id;
    let l = g.id();
    let inner = arrow(true, both, ax(second, goal), i, l, goal);
    let m = g.id();
    let used = arrow(false, one_side(g, "bl", &a, goal), inner, l, m, goal);
    let (third, n) = (one_side(g, "bl", &a, goal), g.id());
    let extra = g.hyp(one(), goal);
    let choice = left("ol", third, &[], extra.clone());
    let choice = pl(choice.clone(), extra.id, choice, extra.id, n);
    tr(choice, used)
}

fn drill(g: &mut Grower, letters: &'static str, goal: Window) -> Deriv {
    let a = atom(9, 7);
    let grown = match letters {
        "tr" | "or" | "wr" | "p1" | "p2" | "br" | "hr" | "sr" | "gr" => right_drill(g, letters, goal),
        "al" => tr(one_side(g, "al", &named(9, 7, 5), goal), one_side(g, "al", &named(9, 7, 261), goal)),
        "arms" => arms(g, goal),
        "whole" => {
            let part = says(2, &tensor(&atom(1, 7), &says(1, &tensor(&atom(2, 7), &a))));
            let h = g.hyp(part, goal);
            g.identity(h, goal)
        }
        _ => tr(one_side(g, letters, &a, goal), one_side(g, letters, &a, goal)),
    };
    let copied: Vec<Id> = grown.node.d.iter().filter(|h| !h.wording.plain()).map(|h| h.id).collect();
    let mut out = grown;
    for id in copied {
        out = g.copy(out, id);
    }
    g.finish(out)
}

/// The booking broken in many ways, then accepted.
pub fn exercise(b: &Booking, desk: &mut Desk, g: &mut Grower, seen: &mut Seen, breaks: usize) {
    b.break_steps(desk, g.rng, seen, breaks);
    late::move_labels(b, desk, g.rng, 1 + breaks / 4);
    late::unused_single(b, desk, g.rng);
    late::missing_single(b, desk);
    late::alike_single(b, desk, g.rng);
    late::broken_single(b, desk, g.rng);
    late::renamed_single(b, desk, g.rng);
    late::other_holder(b, desk, g.rng, 1 + breaks / 8);
    late::outside(b, desk);
    late::misfit(b, desk, g.rng);
    late::ends(b, desk, g.rng);
    late::label_64(b, desk, g, seen, 1 + breaks / 5);
    b.accept(desk);
}

/// The drill in a window without a break, or with one beside now.
pub fn session(letters: &'static str, paused: bool, seed: u64, seen: &mut Seen) -> Session {
    let mut rng = Rng::new(seed);
    let mut world = World::new(&mut rng);
    world.now = 540;
    let mut desk = Desk::new();
    let mut g = Grower::new(&mut rng, &world);
    let from = g.rng.between(10, 540);
    let mut goal = window(from, g.rng.between(540, 900));
    if paused {
        let before = with_break(from.min(520), goal.to, g.rng.between(522, 530), g.rng.between(531, 539));
        let behind = with_break(from, goal.to.max(570), g.rng.between(541, 549), g.rng.between(550, 560));
        goal = g.rng.pick(&[before, behind]);
    }
    let deriv = drill(&mut g, letters, goal);
    let holds = holds_for(&deriv, g.rng);
    let b = place(&mut desk, deriv, holds, 540).expect("a drill fits");
    exercise(&b, &mut desk, &mut g, seen, 32);
    desk.tallies(&mut rng, 4);
    desk.session(&format!("drill {letters}{}", if paused { ", with a break" } else { "" }), seed)
}
