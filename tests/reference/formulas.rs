//! The till's formulas by number, with size, plainness, weights and balance, each worked out once.

use super::content::Content;
use super::logic::{Formula, FormulaId};
use super::refusal;

pub const MAX_FORMULAS: usize = 200;
pub const MAX_SIZE: u32 = 64;

/// A set of formulas: bit n % 64 of word n / 64 stands for formula n.
pub type Set = [u64; SET_WORDS];
const SET_WORDS: usize = MAX_FORMULAS.div_ceil(64);
/// Sessions fall into so many groups, by their remainder.
const GROUPS: usize = 64;

/// What is known of one formula besides its line.
#[derive(Clone, Copy)]
struct Facts {
    size: u8,
    /// Made of `a`, `n`, `t` and `s` alone.
    plain: bool,
    /// In every part, itself included, arms of & and ⊕ weigh alike, and what stands under ! or
    /// left of ⊃ weighs 0, for every session.
    even: bool,
    /// `even`, and of weight 0 for every session.
    balanced: bool,
    /// It is a `q`, or has one inside.
    quantified: bool,
    /// Holder 0 stands in it outside `q`.
    loose: bool,
}

/// What is known of nothing yet.
const NO_FACTS: Facts =
    Facts { size: 0, plain: false, even: false, balanced: false, quantified: false, loose: false };

/// The till's "wordings".
pub struct Formulas {
    count: usize,
    lines: [Formula; MAX_FORMULAS],
    facts: [Facts; MAX_FORMULAS],
    contents: [Content; MAX_FORMULAS],
    /// For each group of sessions the formulas in which one of them stands; a tally of one session
    /// looks into these alone.
    groups: [Set; GROUPS],
}

impl Formulas {
    pub fn new() -> Formulas {
        Formulas {
            count: 0,
            lines: [Formula::One; MAX_FORMULAS],
            facts: [NO_FACTS; MAX_FORMULAS],
            contents: [Content::EMPTY; MAX_FORMULAS],
            groups: [[0; SET_WORDS]; GROUPS],
        }
    }

    /// The lines, by number.
    pub fn lines(&self) -> &[Formula] {
        &self.lines[..self.count]
    }

    pub fn is_there(&self, id: FormulaId) -> bool {
        (id as usize) < self.count
    }

    /// The line of a formula that is there.
    pub fn line(&self, id: FormulaId) -> Formula {
        self.lines[id as usize]
    }

    pub fn plain(&self, id: FormulaId) -> bool {
        self.facts[id as usize].plain
    }

    pub fn balanced(&self, id: FormulaId) -> bool {
        self.facts[id as usize].balanced
    }

    pub fn loose(&self, id: FormulaId) -> bool {
        self.facts[id as usize].loose
    }

    /// The formulas in which a session of this one's group stands; all others have nothing of it.
    pub fn near(&self, session: u16) -> &Set {
        &self.groups[group(session)]
    }

    /// Adds a formula and gives its number, or the refusal: 10, 53, 12, 13, 14 in this order.
    pub fn add(&mut self, line: Formula) -> Result<FormulaId, u32> {
        let parts = line.parts();
        if !parts.iter().flatten().all(|&part| self.is_there(part)) {
            return Err(refusal::NO_FORMULA);
        }
        let around = matches!(line, Formula::Forall(_));
        let inside = parts.iter().flatten().any(|&part| self.facts[part as usize].quantified);
        if around && inside {
            return Err(refusal::HOLDER);
        }
        let part_size = |&part: &FormulaId| u32::from(self.facts[part as usize].size);
        let size = 1 + parts.iter().flatten().map(part_size).sum::<u32>();
        if size > MAX_SIZE {
            return Err(refusal::SIZE);
        }
        if self.lines[..self.count].contains(&line) {
            return Err(refusal::SAME_LINE);
        }
        if self.count == MAX_FORMULAS {
            return Err(refusal::FORMULAS_FULL);
        }
        let content = self.content_of(line);
        let even = self.is_even(line);
        let balanced = even && content.is_weightless();
        let plain = self.is_plain(line);
        let (quantified, loose) = (around || inside, self.is_loose(line));
        self.facts[self.count] = Facts { size: size as u8, plain, even, balanced, quantified, loose };
        self.contents[self.count] = content;
        for session in content.sessions() {
            self.groups[group(session)][self.count / 64] |= 1 << (self.count % 64);
        }
        self.lines[self.count] = line;
        self.count += 1;
        Ok((self.count - 1) as FormulaId)
    }

    pub fn content(&self, id: FormulaId) -> &Content {
        &self.contents[id as usize]
    }

    /// The content of a new formula, a part used twice counted twice.
    fn content_of(&self, line: Formula) -> Content {
        match line {
            Formula::Atom { predicate, session } => Content::atom(predicate, session),
            Formula::Named { predicate, session, .. } => Content::atom(predicate, session),
            Formula::One | Formula::Covers(..) => Content::EMPTY,
            Formula::Tensor(i, j) => self.join(i, j, |left, right| left + right),
            Formula::Lolli(i, j) => self.join(i, j, |left, right| right - left),
            Formula::With(i, j) | Formula::Plus(i, j) => self.join(i, j, |left, _| left),
            Formula::Implies(i, j) => self.join(i, j, |_, right| right),
            Formula::Bang(i) | Formula::At(i, _) | Formula::Forall(i) => *self.content(i),
            Formula::Says(principal, i) => self.content(i).said_by(principal),
        }
    }

    fn join(&self, i: FormulaId, j: FormulaId, weigh: impl Fn(i8, i8) -> i8) -> Content {
        Content::join(self.content(i), self.content(j), weigh)
    }

    /// Two formulas weigh alike for every session.
    fn alike(&self, i: FormulaId, j: FormulaId) -> bool {
        self.content(i).weights().eq(self.content(j).weights())
    }

    /// The `even` fact of a new formula: of its parts, and of itself.
    fn is_even(&self, line: Formula) -> bool {
        let itself = match line {
            Formula::With(i, j) | Formula::Plus(i, j) => self.alike(i, j),
            Formula::Bang(i) | Formula::Implies(i, _) => self.content(i).is_weightless(),
            _ => true,
        };
        itself && line.parts().iter().flatten().all(|&part| self.facts[part as usize].even)
    }

    fn is_plain(&self, line: Formula) -> bool {
        let atom = matches!(line, Formula::Atom { .. } | Formula::Named { .. });
        let itself = atom || matches!(line, Formula::Tensor(..) | Formula::Says(..));
        itself && line.parts().iter().flatten().all(|&part| self.plain(part))
    }

    /// The `loose` fact of a new formula: `q` binds every holder 0 of its part.
    fn is_loose(&self, line: Formula) -> bool {
        match line {
            Formula::Named { holder, .. } => holder == 0,
            Formula::Forall(_) => false,
            _ => line.parts().iter().flatten().any(|&part| self.loose(part)),
        }
    }
}

fn group(session: u16) -> usize {
    usize::from(session) % GROUPS
}
