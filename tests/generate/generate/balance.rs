//! Offers that are balanced, and ones that break one clause of balance; and wordings that are not plain.

use super::form::Kind;
use super::model::{Answer, Steps};
use super::rng::Rng;
use super::session::{Desk, Session};
use super::wording::*;
use super::world::World;

pub const BALANCE: [&str; 22] = [
    "weight: a", "weight: o", "weight: t", "weight: w", "weight: p", "weight: l", "weight: u", "weight: b",
    "weight: h", "weight: s", "weight: g", "one session only", "sessions that cancel", "arms of & differ",
    "arms of ⊕ differ", "weight under !", "weight left of ⊃", "clause broken deep inside", "offer at random",
    "not plain", "weight: n", "weight: q",
];

fn offer(desk: &mut Desk, part: &Part, good: bool, name: &str) {
    let n = desk.enter(part);
    let mark = BALANCE.iter().find(|b| **b == name).unwrap_or_else(|| panic!("no such name: {name}"));
    let answer = if good { Answer::Done(desk.model.given + 1) } else { Answer::Refused(21, 0) };
    desk.expect(format!("issue,r,{n},0,9,0,0\n").as_bytes(), answer, &[mark]);
}

/// Marks the last sheet, which offered this wording, where a byte could not tell whether it is balanced.
fn mark_alike(desk: &mut Desk, part: &Part) {
    let by_a_byte = part.renumbered(&|s| s % 256).balanced();
    if part.names_alike() && by_a_byte {
        desk.mark(&[if part.balanced() { "alike: balanced for each" } else { "alike: balanced only by a byte" }]);
    }
}

/// Seat and place of one session, seat and place of another, a free atom and 1.
fn stock_of(s: u32, t: u32) -> [Part; 6] {
    [atom(1, s), atom(2, s), atom(1, t), atom(2, t), atom(9, s), one()]
}

fn stock() -> [Part; 6] {
    stock_of(7, 8)
}

/// Weights of atoms, 1, ⊇, ⊗, & and ⊕.
fn light(desk: &mut Desk) {
    let [s7, p7, s8, _, f, o] = stock();
    let mut d = |part: Part, good: bool, name: &str| offer(desk, &part, good, name);
    for predicate in [0, 3, 9, 255] {
        d(atom(predicate, 7), true, "weight: a");
    }
    for part in [&s7, &p7, &s8, &atom(1, 0), &atom(2, 255), &atom(1, 256), &atom(2, LAST_SESSION)] {
        d(part.clone(), false, "weight: a");
        d(lolli(part, part), true, "weight: a");
    }
    d(o.clone(), true, "weight: o");
    d(lolli(&o, &s7), false, "weight: o");
    d(covers(window(0, 9), window(3, 4)), true, "weight: g");
    d(covers(window(3, 4), window(0, 9)), true, "weight: g");
    d(lolli(&covers(window(0, 9), window(3, 4)), &p7), false, "weight: g");
    d(tensor(&lolli(&s7, &o), &p7), true, "weight: t");
    d(tensor(&s7, &o), false, "weight: t");
    d(tensor(&s7, &s7), false, "weight: t");
    d(tensor(&tensor(&s7, &s7), &tensor(&p7, &p7)), false, "weight: t");
    d(lolli(&tensor(&s7, &p7), &tensor(&s7, &s7)), true, "weight: t");
    d(lolli(&tensor(&s7, &p7), &s7), false, "weight: t");
    for (arms, name) in [(with(&s7, &p7), "weight: w"), (plus(&s7, &p7), "weight: p")] {
        d(lolli(&arms, &s7), true, name);
        d(lolli(&arms, &tensor(&s7, &s7)), false, name);
        d(lolli(&p7, &arms), true, name);
        d(arms.clone(), false, name);
        d(lolli(&arms, &f), false, name);
    }
}

/// Weights of atoms in a holder's name, whoever it is, and of `q`.
fn holders(desk: &mut Desk) {
    let [s7, p7, _, p8, f, o] = stock();
    let mut d = |part: Part, good: bool, name: &str| offer(desk, &part, good, name);
    for holder in [1, 7, LAST_HOLDER] {
        let (seat, place) = (named(1, 7, holder), named(2, 7, holder));
        [0, 3, 255].iter().for_each(|predicate| d(named(*predicate, 7, holder), true, "weight: n"));
        [&seat, &place, &tensor(&seat, &f)].iter().for_each(|part| d((*part).clone(), false, "weight: n"));
        d(lolli(&seat, &place), true, "weight: n");
        d(lolli(&seat, &p7), true, "weight: n");
        d(lolli(&s7, &place), true, "weight: n");
        d(lolli(&seat, &named(2, 7, 8)), true, "weight: n");
        d(lolli(&seat, &named(2, 8, holder)), false, "weight: n");
        d(lolli(&seat, &p8), false, "weight: n");
        d(with(&seat, &o), false, "weight: n");
        d(bang(&seat), false, "weight: n");
    }
    let (seat, place) = (named(1, 7, 0), named(2, 7, 0));
    let good = [
        named(9, 7, 0), f.clone(), o, lolli(&seat, &place), lolli(&seat, &p7), lolli(&s7, &place),
        lolli(&with(&seat, &place), &s7), bang(&lolli(&seat, &place)), implies(&named(9, 7, 0), &lolli(&seat, &seat)),
    ];
    good.iter().for_each(|part| d(for_all(part), true, "weight: q"));
    let bad = [
        seat.clone(), s7.clone(), tensor(&seat, &f), lolli(&seat, &p8), lolli(&seat, &named(2, 8, 0)), bang(&seat),
        implies(&seat, &f), with(&f, &seat), plus(&f, &seat), lolli(&f, &seat), lolli(&tensor(&seat, &s7), &place),
    ];
    bad.iter().for_each(|part| d(for_all(part), false, "weight: q"));
    d(lolli(&for_all(&seat), &p7), true, "weight: q");
    d(tensor(&for_all(&lolli(&seat, &f)), &for_all(&place)), true, "weight: q");
    d(with(&for_all(&seat), &f), false, "weight: q");
    d(implies(&for_all(&seat), &f), false, "weight: q");
    d(lolli(&bang(&for_all(&seat)), &p7), false, "weight: q");
}

/// Weights of ⊸, ⊃, !, @ and ⟨K⟩.
fn arrows(desk: &mut Desk) {
    let [s7, p7, _, _, f, o] = stock();
    let mut d = |part: Part, good: bool, name: &str| offer(desk, &part, good, name);
    d(lolli(&s7, &o), false, "weight: l");
    d(lolli(&o, &s7), false, "weight: l");
    d(lolli(&lolli(&s7, &o), &o), false, "weight: l");
    d(lolli(&lolli(&s7, &o), &lolli(&p7, &f)), true, "weight: l");
    d(lolli(&s7, &tensor(&s7, &s7)), false, "weight: l");
    d(lolli(&tensor(&s7, &p7), &o), false, "weight: l");
    d(implies(&o, &s7), false, "weight: u");
    d(tensor(&implies(&o, &s7), &lolli(&s7, &o)), true, "weight: u");
    d(implies(&lolli(&s7, &p7), &f), true, "weight: u");
    d(bang(&lolli(&s7, &p7)), true, "weight: b");
    d(bang(&f), true, "weight: b");
    d(lolli(&at(&s7, window(1, 2)), &p7), true, "weight: h");
    d(lolli(&at(&s7, window(1, 2)), &o), false, "weight: h");
    d(lolli(&says(1, &s7), &p7), true, "weight: s");
    d(lolli(&says(1, &s7), &o), false, "weight: s");
}

fn single_weights() -> Session {
    let mut desk = Desk::new();
    light(&mut desk);
    arrows(&mut desk);
    desk.session("balance: weights", 0)
}

fn of_holders() -> Session {
    let mut desk = Desk::new();
    holders(&mut desk);
    desk.session("balance: holders", 0)
}

/// The clauses for two sessions, here called 7 and 8.
fn clauses(s: u32, t: u32) -> Session {
    let [s7, p7, s8, p8, f, o] = stock_of(s, t);
    let mut desk = Desk::new();
    let mut d = |part: Part, good: bool, name: &str| {
        offer(&mut desk, &part, good, name);
        desk.mark(&[if part.names_alike() { "apart: clauses of balance" } else { "" }]);
    };
    d(lolli(&tensor(&s7, &s8), &tensor(&p7, &p8)), true, "one session only");
    d(lolli(&tensor(&s7, &s8), &p7), false, "one session only");
    d(lolli(&tensor(&s7, &s8), &p8), false, "one session only");
    d(lolli(&s7, &s8), false, "sessions that cancel");
    d(tensor(&lolli(&s7, &s8), &lolli(&s8, &p7)), true, "sessions that cancel");
    d(lolli(&with(&s7, &s8), &s7), false, "sessions that cancel");
    d(lolli(&plus(&s7, &s8), &p7), false, "sessions that cancel");
    d(implies(&lolli(&s7, &s8), &o), false, "sessions that cancel");
    d(lolli(&bang(&lolli(&s7, &s8)), &lolli(&s7, &s8)), false, "sessions that cancel");
    for (join, name) in [(with as fn(&Part, &Part) -> Part, "arms of & differ"), (plus, "arms of ⊕ differ")] {
        d(join(&o, &s7), false, name);
        d(join(&f, &lolli(&s7, &o)), false, name);
        d(lolli(&o, &join(&o, &tensor(&s7, &s7))), false, name);
        d(lolli(&join(&s7, &o), &s7), false, name);
        d(lolli(&join(&s7, &tensor(&s7, &p7)), &s7), false, name);
        d(join(&join(&o, &f), &lolli(&s8, &p8)), true, name);
    }
    d(lolli(&bang(&s7), &s7), false, "weight under !");
    d(lolli(&bang(&tensor(&s7, &s7)), &tensor(&s7, &s7)), false, "weight under !");
    d(tensor(&bang(&s7), &lolli(&s7, &o)), false, "weight under !");
    d(bang(&bang(&f)), true, "weight under !");
    d(implies(&s7, &o), false, "weight left of ⊃");
    d(implies(&tensor(&s7, &p7), &o), false, "weight left of ⊃");
    d(implies(&s7, &lolli(&s7, &s7)), false, "weight left of ⊃");
    d(implies(&f, &lolli(&s7, &s7)), true, "weight left of ⊃");
    desk.session("balance: clauses", 0)
}

/// A part of weight 0 with one clause broken, in every place of every connective.
fn deep(bad: usize) -> Session {
    let [s7, _, _, _, f, o] = stock();
    let all = [with(&o, &s7), plus(&f, &s7), tensor(&bang(&s7), &lolli(&s7, &o)), implies(&s7, &o)];
    let b = &all[bad];
    let mut desk = Desk::new();
    let mut places = vec![bang(b), at(b, window(1, 2)), says(1, b), for_all(b)];
    for join in [tensor, with, plus, lolli, implies] {
        places.extend([join(b, &o), join(&o, b)]);
    }
    let deeper: Vec<Part> = places.iter().map(|p| lolli(&f, &says(3, p))).collect();
    for part in places.into_iter().chain(deeper) {
        offer(&mut desk, &part, false, "clause broken deep inside");
    }
    desk.session("balance: deep inside", 0)
}

/// Wordings outside a, n, t, s: as single-use offer and as goal, alone and inside.
fn not_plain() -> Session {
    let mut desk = Desk::new();
    let [s7, _, _, _, f, o] = stock();
    let kept = desk.issue(Kind::Single, &says(1, &tensor(&s7, &f)), window(0, 9));
    let w = window(1, 2);
    let bad = [
        o.clone(), with(&f, &f), plus(&f, &f), lolli(&f, &f), implies(&f, &f), bang(&f), at(&f, w),
        covers(w, w), for_all(&f), for_all(&named(9, 7, 0)),
    ];
    for b in &bad {
        for part in [b.clone(), tensor(b, &f), tensor(&f, b), says(1, &tensor(&f, &says(2, b)))] {
            let n = desk.enter(&part);
            desk.refuse(format!("issue,s,{n},0,9,0,0\n").as_bytes(), 20, "not plain");
            let book = format!("book,3,{n},0,9,0,0,1,1\nhold,{kept}\nax,0\n");
            desk.refuse(book.as_bytes(), 20, "not plain");
        }
    }
    desk.tally(7, 9);
    desk.session("balance: not plain", 0)
}

/// Something for something else of two sessions alike; and for the same with one session in the place of the other.
fn exchange(rng: &mut Rng, world: &World, fuel: u32) -> (Part, Part) {
    let (s, t) = (world.sessions[0], world.sessions[1]);
    let (given, got) = (world.wording(rng, &[s, t], fuel), world.wording(rng, &[t, s], fuel));
    let crossed = got.renumbered(&|session| if session == s { t } else { session });
    (lolli(&given, &got), lolli(&given, &crossed))
}

/// Offers at random: made balanced, and then with an atom or a session changed.
pub fn random(seed: u64) -> Session {
    let mut rng = Rng::new(seed);
    let world = World::new(&mut rng);
    let mut desk = Desk::new();
    let mut two = false;
    while desk.model.lines.len() < 150 {
        two = !two;
        let fuel = rng.between(2, 14);
        let (part, other) = if two {
            exchange(&mut rng, &world, fuel / 2)
        } else {
            let part = world.wording(&mut rng, &[], fuel);
            let other = changed(&mut rng, &world, &part);
            (part, other)
        };
        if part.size() <= 64 && desk.missing(&[part.clone(), other.clone()]) <= 50 {
            offer(&mut desk, &part, true, "offer at random");
            mark_alike(&mut desk, &part);
            let n = desk.enter(&other);
            desk.play(format!("issue,r,{n},0,9,0,0\n").as_bytes(), Steps::Close);
            mark_alike(&mut desk, &other);
        }
    }
    desk.session("balance: random", seed)
}

/// The wording with some of its atoms exchanged for others.
fn changed(rng: &mut Rng, world: &World, part: &Part) -> Part {
    let mut go = |p: &Part| changed(rng, world, p);
    match &**part {
        Wording::ForAll(a) => for_all(&go(a)),
        Wording::Tensor(a, b) => tensor(&go(a), b),
        Wording::With(a, b) => with(a, &go(b)),
        Wording::Plus(a, b) => plus(&go(a), b),
        Wording::Lolli(a, b) => lolli(&go(a), b),
        Wording::Implies(a, b) => implies(&go(a), b),
        Wording::Bang(a) => bang(&go(a)),
        Wording::At(a, w) => at(&go(a), *w),
        Wording::Says(k, a) => says(*k, &go(a)),
        Wording::Atom(k, s) if rng.chance(1, 2) => atom(*k, world.beside(*s)),
        Wording::Named(k, s, h) if rng.chance(1, 2) => named(*k, world.beside(*s), *h),
        _ if rng.chance(1, 2) => world.weighty_atom(rng, world.sessions[0]),
        _ => world.free_atom(rng),
    }
}

pub fn sessions() -> Vec<Session> {
    let mut all = vec![single_weights(), of_holders(), not_plain()];
    let pairs = [(7, 8), (7, 263), (255, LAST_SESSION), (256, 0), (65_279, LAST_SESSION)];
    all.extend(pairs.map(|(s, t)| clauses(s, t)));
    all.extend((0..4).map(deep));
    all
}
