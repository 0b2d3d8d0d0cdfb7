//! Wordings as trees: size, plainness, weight and balance by plain recursion.

use super::rng::Rng;
use std::collections::BTreeSet;
use std::rc::Rc;

pub const LAST_MINUTE: u32 = 9_999_999;
/// The last session number, in atoms and in tally; predicates and principals end at 255.
pub const LAST_SESSION: u32 = 65_535;
/// The last holder number. 0 stands for the holder that a `q` binds.
pub const LAST_HOLDER: u32 = 65_535;

/// The principal of the house: open counts the seats whose nearest ⟨K⟩ is this one's, and no others.
pub const HOUSE: u32 = 1;

/// Two session numbers that differ by a multiple of 256: a byte would not tell them apart.
pub fn alike(a: u32, b: u32) -> bool {
    a != b && a % 256 == b % 256
}

/// A window (η-logic's interval): the minutes from..to without the break first..last; 0,0 is no break.
#[derive(Clone, Copy, PartialEq, Eq, PartialOrd, Ord, Debug)]
pub struct Window {
    pub from: u32,
    pub to: u32,
    pub first: u32,
    pub last: u32,
}

/// A window without a break.
pub fn window(from: u32, to: u32) -> Window {
    Window { from, to, first: 0, last: 0 }
}

pub fn with_break(from: u32, to: u32, first: u32, last: u32) -> Window {
    Window { from, to, first, last }
}

impl Window {
    pub fn has_break(self) -> bool {
        (self.first, self.last) != (0, 0)
    }

    /// Check 43: no break, or one strictly inside.
    pub fn break_fits(self) -> bool {
        !self.has_break() || (self.from < self.first && self.first <= self.last && self.last < self.to)
    }

    /// The same ends without the break.
    pub fn whole(self) -> Window {
        window(self.from, self.to)
    }

    /// self ⊇ inner, as sets of minutes. A window has its own ends; so those of self lie around those of inner, and the
    /// break of self lies where inner has no minute: before it, in its break or behind it, whole in one of these.
    pub fn contains(self, inner: Window) -> bool {
        let before = self.last < inner.from;
        let behind = inner.to < self.first;
        let within = inner.has_break() && inner.first <= self.first && self.last <= inner.last;
        let ends = self.from <= inner.from && inner.to <= self.to;
        ends && (!self.has_break() || before || behind || within)
    }

    pub fn has(self, minute: u32) -> bool {
        let in_break = self.has_break() && self.first <= minute && minute <= self.last;
        self.from <= minute && minute <= self.to && !in_break
    }

    /// The four fields.
    pub fn text(self) -> String {
        format!("{},{},{},{}", self.from, self.to, self.first, self.last)
    }
}

pub type Part = Rc<Wording>;

/// A wording (η-logic's formula), its parts written out.
#[derive(Clone, PartialEq, Eq, Debug)]
pub enum Wording {
    Atom(u32, u32),
    One,
    Tensor(Part, Part),
    With(Part, Part),
    Plus(Part, Part),
    Lolli(Part, Part),
    Implies(Part, Part),
    Bang(Part),
    At(Part, Window),
    Says(u32, Part),
    Covers(Window, Window),
    /// An atom in a holder's name: predicate, session, holder.
    Named(u32, u32, u32),
    /// For every holder: holder 0 within stands for it.
    ForAll(Part),
}

use Wording::*;

pub fn atom(predicate: u32, session: u32) -> Part {
    Rc::new(Atom(predicate, session))
}
pub fn named(predicate: u32, session: u32, holder: u32) -> Part {
    Rc::new(Named(predicate, session, holder))
}
pub fn for_all(a: &Part) -> Part {
    Rc::new(ForAll(a.clone()))
}
pub fn one() -> Part {
    Rc::new(One)
}
pub fn tensor(a: &Part, b: &Part) -> Part {
    Rc::new(Tensor(a.clone(), b.clone()))
}
pub fn with(a: &Part, b: &Part) -> Part {
    Rc::new(With(a.clone(), b.clone()))
}
pub fn plus(a: &Part, b: &Part) -> Part {
    Rc::new(Plus(a.clone(), b.clone()))
}
pub fn lolli(a: &Part, b: &Part) -> Part {
    Rc::new(Lolli(a.clone(), b.clone()))
}
pub fn implies(a: &Part, b: &Part) -> Part {
    Rc::new(Implies(a.clone(), b.clone()))
}
pub fn bang(a: &Part) -> Part {
    Rc::new(Bang(a.clone()))
}
pub fn at(a: &Part, w: Window) -> Part {
    Rc::new(At(a.clone(), w))
}
pub fn says(principal: u32, a: &Part) -> Part {
    Rc::new(Says(principal, a.clone()))
}
pub fn covers(outer: Window, inner: Window) -> Part {
    Rc::new(Covers(outer, inner))
}

impl Wording {
    /// The letter that begins the wording's line.
    pub fn letter(&self) -> char {
        match self {
            Atom(..) => 'a',
            One => 'o',
            Tensor(..) => 't',
            With(..) => 'w',
            Plus(..) => 'p',
            Lolli(..) => 'l',
            Implies(..) => 'u',
            Bang(..) => 'b',
            At(..) => 'h',
            Says(..) => 's',
            Covers(..) => 'g',
            Named(..) => 'n',
            ForAll(..) => 'q',
        }
    }

    /// Predicate and session of an atom, with a holder or without.
    pub fn atomic(&self) -> Option<(u32, u32)> {
        match self {
            Atom(predicate, session) | Named(predicate, session, _) => Some((*predicate, *session)),
            _ => None,
        }
    }

    /// The session of a seat or place that is the whole wording.
    fn weighty(&self) -> Option<u32> {
        self.atomic().filter(|(predicate, _)| matches!(predicate, 1 | 2)).map(|(_, session)| session)
    }

    pub fn parts(&self) -> Vec<Part> {
        match self {
            Atom(..) | Named(..) | One | Covers(..) => vec![],
            Tensor(a, b) | With(a, b) | Plus(a, b) | Lolli(a, b) | Implies(a, b) => {
                vec![a.clone(), b.clone()]
            }
            Bang(a) | At(a, _) | Says(_, a) | ForAll(a) => vec![a.clone()],
        }
    }

    pub fn size(&self) -> u32 {
        1 + self.parts().iter().map(|p| p.size()).sum::<u32>()
    }

    pub fn plain(&self) -> bool {
        matches!(self.letter(), 'a' | 'n' | 't' | 's') && self.parts().iter().all(|p| p.plain())
    }

    /// The wording has a `q`.
    pub fn has_q(&self) -> bool {
        self.letter() == 'q' || self.parts().iter().any(|p| p.has_q())
    }

    /// Check 53 of word: a `q` within a `q`.
    pub fn q_within_q(&self) -> bool {
        let here = self.letter() == 'q' && self.parts().iter().any(|p| p.has_q());
        here || self.parts().iter().any(|p| p.q_within_q())
    }

    /// Check 53 of issue and book: holder 0 outside `q`, wherever it stands.
    pub fn loose(&self) -> bool {
        match self {
            Named(_, _, holder) => *holder == 0,
            ForAll(_) => false,
            _ => self.parts().iter().any(|p| p.loose()),
        }
    }

    /// The holders that are named, 0 among them where it stands.
    pub fn holders(&self) -> BTreeSet<u32> {
        match self {
            Named(_, _, holder) => [*holder].into(),
            _ => self.parts().iter().flat_map(|p| p.holders()).collect(),
        }
    }

    /// How often an atom of the predicate and session stands in the wording, with a holder or without.
    pub fn count(&self, predicate: u32, session: u32) -> u32 {
        let here = u32::from(self.atomic() == Some((predicate, session)));
        here + self.parts().iter().map(|p| p.count(predicate, session)).sum::<u32>()
    }

    /// The house's seats of the session, where this principal's ⟨K⟩ is the nearest above the whole wording.
    pub fn house_seats(&self, session: u32, above: Option<u32>) -> u32 {
        match self {
            Atom(..) | Named(..) => u32::from(self.atomic() == Some((1, session)) && above == Some(HOUSE)),
            Says(k, a) => a.house_seats(session, Some(*k)),
            _ => self.parts().iter().map(|p| p.house_seats(session, above)).sum(),
        }
    }

    /// For each seat of the session the principals of the ⟨K⟩ above it, the outermost first.
    pub fn above_seats(&self, session: u32) -> Vec<Vec<u32>> {
        match self {
            Atom(..) | Named(..) => vec![vec![]; self.count(1, session) as usize],
            Says(k, a) => a.above_seats(session).iter().map(|above| [&[*k], above.as_slice()].concat()).collect(),
            _ => self.parts().iter().flat_map(|p| p.above_seats(session)).collect(),
        }
    }

    pub fn weight(&self, session: u32) -> i64 {
        match self {
            Atom(..) | Named(..) => i64::from(self.weighty() == Some(session)),
            One | Covers(..) => 0,
            Tensor(a, b) => a.weight(session) + b.weight(session),
            With(a, _) | Plus(a, _) => a.weight(session),
            Lolli(a, b) => b.weight(session) - a.weight(session),
            Implies(_, b) => b.weight(session),
            Bang(a) | At(a, _) | Says(_, a) | ForAll(a) => a.weight(session),
        }
    }

    /// All sessions named by a seat or a place.
    pub fn sessions(&self) -> BTreeSet<u32> {
        let mut all: BTreeSet<u32> = self.parts().iter().flat_map(|p| p.sessions()).collect();
        all.extend(self.weighty());
        all
    }

    /// Seats and places of two sessions that are alike.
    pub fn names_alike(&self) -> bool {
        let all = self.sessions();
        all.iter().any(|s| all.iter().any(|t| alike(*s, *t)))
    }

    /// The wording with each of its parts exchanged for another.
    pub fn rebuilt(&self, go: &mut dyn FnMut(&Part) -> Part) -> Part {
        match self {
            Atom(..) | Named(..) | One | Covers(..) => Rc::new(self.clone()),
            Tensor(a, b) => tensor(&go(a), &go(b)),
            With(a, b) => with(&go(a), &go(b)),
            Plus(a, b) => plus(&go(a), &go(b)),
            Lolli(a, b) => lolli(&go(a), &go(b)),
            Implies(a, b) => implies(&go(a), &go(b)),
            Bang(a) => bang(&go(a)),
            At(a, w) => at(&go(a), *w),
            Says(k, a) => says(*k, &go(a)),
            ForAll(a) => for_all(&go(a)),
        }
    }

    /// The wording with every session number exchanged for another.
    pub fn renumbered(&self, of: &dyn Fn(u32) -> u32) -> Part {
        match self {
            Atom(predicate, session) => atom(*predicate, of(*session)),
            Named(predicate, session, holder) => named(*predicate, of(*session), *holder),
            _ => self.rebuilt(&mut |p| p.renumbered(of)),
        }
    }

    /// The part of a `q` with the holder put in, in the place of every 0.
    pub fn put(&self, holder: u32) -> Part {
        match self {
            Named(predicate, session, 0) => named(*predicate, *session, holder),
            _ => self.rebuilt(&mut |p| p.put(holder)),
        }
    }

    /// The wording with 0 in some of the places of the holder: putting the holder in gives the wording again.
    pub fn bound(&self, rng: &mut Rng, holder: u32) -> Part {
        match self {
            Named(predicate, session, h) if *h == holder && rng.chance(3, 4) => named(*predicate, *session, 0),
            _ => self.rebuilt(&mut |p| p.bound(rng, holder)),
        }
    }

    pub fn weighs_nothing(&self) -> bool {
        self.sessions().iter().all(|s| self.weight(*s) == 0)
    }

    /// The two have the same weight for every session.
    pub fn weighs_like(&self, other: &Wording) -> bool {
        let all = self.sessions().into_iter().chain(other.sessions());
        all.into_iter().all(|s| self.weight(s) == other.weight(s))
    }

    /// The clauses of balance that speak of every part.
    pub fn even_within(&self) -> bool {
        let here = match self {
            With(a, b) | Plus(a, b) => a.weighs_like(b),
            Bang(a) | Implies(a, _) => a.weighs_nothing(),
            _ => true,
        };
        here && self.parts().iter().all(|p| p.even_within())
    }

    pub fn balanced(&self) -> bool {
        self.weighs_nothing() && self.even_within()
    }

    /// The parts of the wording, itself last, each after its own parts.
    pub fn collect(self: &Rc<Self>, into: &mut Vec<Part>) {
        for p in self.parts() {
            p.collect(into);
        }
        if !into.contains(self) {
            into.push(self.clone());
        }
    }
}
