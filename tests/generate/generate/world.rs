//! The small stock of sessions, principals, predicates and windows that one session draws from.

use super::rng::Rng;
use super::wording::*;

pub struct World {
    pub now: u32,
    /// Three, of which the first two are alike.
    pub sessions: Vec<u32>,
    /// The house's and two more.
    pub principals: Vec<u32>,
    /// Predicates other than seat and place.
    pub free: Vec<u32>,
    /// Three holders, of which a byte does not tell the first two apart.
    pub holders: Vec<u32>,
    pub windows: Vec<Window>,
}

/// The window with a break, and with a shorter one inside that, where there is room: as long as can be, one minute,
/// about now, beside now, or any.
fn paused(rng: &mut Rng, w: Window, now: u32) -> Vec<Window> {
    if w.to - w.from < 2 {
        return vec![];
    }
    let (lo, hi) = (w.from + 1, w.to - 1);
    let some = rng.between(lo, hi);
    let (first, last) = match rng.below(6) {
        0 => (lo, hi),
        1 => (some, some),
        2 if lo <= now && now <= hi => (rng.between(lo, now), rng.between(now, hi)),
        3 if w.from <= now && now < hi => (now + 1, rng.between(now + 1, hi)),
        4 if lo < now && now <= w.to => (rng.between(lo, now - 1), now - 1),
        _ => (some, rng.between(some, hi)),
    };
    let shorter = rng.between(first, last);
    let shorter = (shorter, rng.between(shorter, last));
    [(first, last), shorter].map(|(first, last)| with_break(w.from, w.to, first, last)).to_vec()
}

/// A window that contains this one: its break shorter or gone, or a break beside it.
pub fn around(rng: &mut Rng, inner: Window) -> Window {
    let (a, b) = (inner.from, inner.to);
    let mut all = vec![inner, inner.whole()];
    if inner.has_break() {
        let first = rng.between(inner.first, inner.last);
        all.extend([
            with_break(a, b, first, rng.between(first, inner.last)),
            with_break(a, b, inner.first, first),
            with_break(a, b, first, inner.last),
        ]);
    }
    if a >= 2 {
        let first = rng.between(1, a - 1);
        all.extend([with_break(0, b, 1, a - 1), with_break(0, b, first, rng.between(first, a - 1))]);
    }
    if b <= LAST_MINUTE - 2 {
        let first = rng.between(b + 1, LAST_MINUTE - 1);
        let last = rng.between(first, LAST_MINUTE - 1);
        all.extend([with_break(a, LAST_MINUTE, b + 1, LAST_MINUTE - 1), with_break(a, LAST_MINUTE, first, last)]);
    }
    let outer = rng.pick(&all);
    assert!(outer.break_fits() && outer.contains(inner));
    outer
}

/// A window within this one.
pub fn inside(rng: &mut Rng, outer: Window) -> Window {
    let mut some = minutes_of(outer);
    some.extend([rng.between(outer.from, outer.to), rng.between(outer.from, outer.to)]);
    some.retain(|m| outer.has(*m));
    let (one, other) = (rng.pick(&some), rng.pick(&some));
    let (from, to) = (one.min(other), one.max(other));
    let inner = if outer.has_break() && from < outer.first && outer.last < to {
        with_break(from, to, rng.between(from + 1, outer.first), rng.between(outer.last, to - 1))
    } else if to - from >= 2 && rng.chance(1, 2) {
        let first = rng.between(from + 1, to - 1);
        with_break(from, to, first, rng.between(first, to - 1))
    } else {
        window(from, to)
    };
    assert!(inner.break_fits() && outer.contains(inner));
    inner
}

/// The minutes of the window at its ends, and beside its break.
pub fn minutes_of(w: Window) -> Vec<u32> {
    if w.has_break() { vec![w.from, w.to, w.first - 1, w.last + 1] } else { vec![w.from, w.to] }
}

impl World {
    pub fn new(rng: &mut Rng) -> World {
        let now = rng.pick(&[540, 540, 0, LAST_MINUTE, rng.clone().between(1, LAST_MINUTE - 1)]);
        let early = |rng: &mut Rng| now.saturating_sub(rng.between(0, 700));
        let late = |rng: &mut Rng| (now + rng.between(0, 700)).min(LAST_MINUTE);
        let mut windows = vec![window(0, LAST_MINUTE), window(now, now)];
        for _ in 0..3 {
            let (from, to) = (early(rng), late(rng));
            windows.push(window(from, to));
            windows.push(window(from, now));
            windows.push(window(now, to));
        }
        let far = rng.between(0, LAST_MINUTE);
        windows.push(window(far, (far + rng.between(0, 90)).min(LAST_MINUTE)));
        windows.push(rng.pick(&[window(0, 0), window(LAST_MINUTE, LAST_MINUTE)]));
        for w in windows.clone() {
            windows.extend(paused(rng, w, now));
        }
        let pair = |rng: &mut Rng| vec![rng.between(0, 255), rng.pick(&[0, 7, 255])];
        World {
            now,
            sessions: World::sessions(rng),
            principals: [vec![HOUSE], pair(rng)].concat(),
            free: vec![rng.pick(&[0, 3, 255]), rng.between(3, 254)],
            holders: World::holders(rng),
            windows,
        }
    }

    /// A number of any length, one that a byte does not tell from it, and one at an end.
    fn sessions(rng: &mut Rng) -> Vec<u32> {
        let (small, large) = (rng.between(0, 255), rng.between(256, LAST_SESSION));
        let first = rng.pick(&[small, small, large, 0, 7, 255, LAST_SESSION]);
        let end = rng.pick(&[0, 7, 255, 256, LAST_SESSION, large]);
        vec![first, rng.alike(first), end]
    }

    fn holders(rng: &mut Rng) -> Vec<u32> {
        let first = rng.pick(&[1, 7, 255, rng.clone().between(1, 255)]);
        vec![first, rng.alike(first), rng.pick(&[1, 2, 256, LAST_HOLDER, rng.clone().between(256, LAST_HOLDER)])]
    }

    /// The session of the stock that is alike, or else the nearest that is.
    pub fn beside(&self, session: u32) -> u32 {
        self.sessions.iter().copied().find(|s| alike(*s, session)).unwrap_or(session ^ 256)
    }

    pub fn any(&self, rng: &mut Rng) -> Window {
        rng.pick(&self.windows)
    }

    /// A window of the stock, or this one itself, or one about it, that contains this one.
    pub fn containing(&self, rng: &mut Rng, inner: Window) -> Window {
        let mut good: Vec<Window> = self.windows.iter().copied().filter(|w| w.contains(inner)).collect();
        good.push(inner);
        if rng.chance(1, 3) { around(rng, inner) } else { rng.pick(&good) }
    }

    /// A window of the stock that has the minute now.
    pub fn open_now(&self, rng: &mut Rng) -> Window {
        let good: Vec<Window> = self.windows.iter().copied().filter(|w| w.has(self.now)).collect();
        rng.pick(&good)
    }

    /// The atom, sometimes in a holder's name.
    pub fn some_atom(&self, rng: &mut Rng, predicate: u32, session: u32) -> Part {
        if rng.chance(1, 3) { named(predicate, session, rng.pick(&self.holders)) } else { atom(predicate, session) }
    }

    pub fn free_atom(&self, rng: &mut Rng) -> Part {
        let (predicate, session) = (rng.pick(&self.free), rng.pick(&self.sessions));
        self.some_atom(rng, predicate, session)
    }

    /// A seat or place of the session.
    pub fn weighty_atom(&self, rng: &mut Rng, session: u32) -> Part {
        let predicate = rng.pick(&[1, 2]);
        self.some_atom(rng, predicate, session)
    }

    /// `q` about the wording, with 0 for one of its holders in some places; none where it has a `q` already.
    pub fn for_every(&self, rng: &mut Rng, part: &Part) -> Option<(Part, u32)> {
        let mut some: Vec<u32> = part.holders().into_iter().collect();
        some.push(rng.pick(&self.holders));
        let holder = if rng.chance(1, 8) { rng.between(1, LAST_HOLDER) } else { rng.pick(&some) };
        (!part.has_q()).then(|| (for_all(&part.bound(rng, holder)), holder))
    }

    /// Any wording with these weights (a session for each unit) that is even within.
    pub fn wording(&self, rng: &mut Rng, want: &[u32], fuel: u32) -> Part {
        if want.len() <= 1 && (fuel == 0 || rng.chance(1, 4)) {
            return self.leaf(rng, want);
        }
        let fuel = fuel.saturating_sub(1);
        let kind = if fuel == 0 { 't' } else { rng.pick(&['t', 't', 'w', 'p', 'l', 'u', 'b', 'h', 's', 'q']) };
        match kind {
            'w' => with(&self.wording(rng, want, fuel / 2), &self.wording(rng, want, fuel / 2)),
            'p' => plus(&self.wording(rng, want, fuel / 2), &self.wording(rng, want, fuel / 2)),
            'l' => {
                let extra: Vec<u32> = (0..rng.below(3)).map(|_| rng.pick(&self.sessions)).collect();
                let both = [want, &extra].concat();
                lolli(&self.wording(rng, &extra, fuel / 2), &self.wording(rng, &both, fuel / 2))
            }
            'u' => implies(&self.wording(rng, &[], fuel / 2), &self.wording(rng, want, fuel / 2)),
            'b' if want.is_empty() => bang(&self.wording(rng, &[], fuel)),
            'h' => at(&self.wording(rng, want, fuel), self.any(rng)),
            's' => says(rng.pick(&self.principals), &self.wording(rng, want, fuel)),
            'q' => {
                let part = self.wording(rng, want, fuel);
                self.for_every(rng, &part).map_or(part, |(wording, _)| wording)
            }
            _ => {
                let cut = rng.below(want.len() + 1);
                let cut = if want.len() >= 2 { cut.clamp(1, want.len() - 1) } else { cut };
                let (a, b) = want.split_at(cut);
                tensor(&self.wording(rng, a, fuel / 2), &self.wording(rng, b, fuel / 2))
            }
        }
    }

    fn leaf(&self, rng: &mut Rng, want: &[u32]) -> Part {
        match (want, rng.below(4)) {
            ([session], _) => self.weighty_atom(rng, *session),
            (_, 0) => one(),
            (_, 1) => covers(self.any(rng), self.any(rng)),
            _ => self.free_atom(rng),
        }
    }
}
