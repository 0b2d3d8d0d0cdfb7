//! Intervals, formulas and the steps of a derivation: the ground part of the logic.

/// The set of the minutes from..to, both ends included, without the break first..last, both ends
/// included; the paper's "window". No break is 0,0; any other is strictly inside, so its first
/// minute is not 0 and the set has `from` and `to`.
#[derive(Clone, Copy, PartialEq, Eq, Debug)]
pub struct Interval {
    pub from: u32,
    pub to: u32,
    pub first: u32,
    pub last: u32,
}

impl Interval {
    pub const ZERO: Interval = Interval { from: 0, to: 0, first: 0, last: 0 };

    /// There is no break, or it is strictly inside.
    pub fn break_fits(self) -> bool {
        let inside = self.from < self.first && self.first <= self.last && self.last < self.to;
        self.first == 0 && self.last == 0 || inside
    }

    /// The minute is one of the set.
    pub fn has(self, minute: u32) -> bool {
        self.from <= minute && minute <= self.to && !self.in_break(minute)
    }

    /// The minute is one of the break.
    fn in_break(self, minute: u32) -> bool {
        self.last != 0 && self.first <= minute && minute <= self.last
    }

    /// `self ⊇ other`, as sets.
    pub fn covers(self, other: Interval) -> bool {
        self.from <= other.from && other.to <= self.to && self.break_misses(other)
    }

    /// No minute of the break is one of `other`: it lies before, behind or within the break there.
    /// It cannot lie in two of them, since a minute of `other` stands between. Without a break there,
    /// `other.last` is 0 and below `self.last`.
    fn break_misses(self, other: Interval) -> bool {
        let within = other.first <= self.first && self.last <= other.last;
        self.last == 0 || self.last < other.from || other.to < self.first || within
    }
}

/// The number of a formula; the paper's "wording" where it names one by number.
pub type FormulaId = u32;

/// The number of a holder, 1 to 65,535. In a formula, 0 stands for the holder that the `q` around it
/// binds.
pub type Holder = u16;

/// A formula over earlier formulas; the paper's "wording line". Fields have one spelling only, so
/// two lines are equal exactly if these values are.
#[derive(Clone, Copy, PartialEq, Eq, Debug)]
pub enum Formula {
    /// `a,predicate,session`
    Atom { predicate: u8, session: u16 },
    /// `o`: 1
    One,
    /// `t,i,j`: i ⊗ j
    Tensor(FormulaId, FormulaId),
    /// `w,i,j`: i & j
    With(FormulaId, FormulaId),
    /// `p,i,j`: i ⊕ j
    Plus(FormulaId, FormulaId),
    /// `l,i,j`: i ⊸ j
    Lolli(FormulaId, FormulaId),
    /// `u,i,j`: i ⊃ j
    Implies(FormulaId, FormulaId),
    /// `b,i`: !i
    Bang(FormulaId),
    /// `h,i,from,to,first,last`: i @ that interval
    At(FormulaId, Interval),
    /// `s,principal,i`: ⟨principal⟩ i
    Says(u8, FormulaId),
    /// `g,from,to,first,last,from,to,first,last`: first interval ⊇ second
    Covers(Interval, Interval),
    /// `n,predicate,session,holder`: an atom in a holder's name
    Named { predicate: u8, session: u16, holder: Holder },
    /// `q,i`: i for every holder
    Forall(FormulaId),
}

impl Formula {
    /// The line with a holder put in for holder 0.
    pub fn put(self, bound: Holder) -> Formula {
        match self {
            Formula::Named { predicate, session, holder: 0 } => {
                Formula::Named { predicate, session, holder: bound }
            }
            _ => self,
        }
    }

    /// A line `n` or `q`.
    pub fn is_of_holders(self) -> bool {
        matches!(self, Formula::Named { .. } | Formula::Forall(_))
    }

    /// The formulas this one refers to, left before right.
    pub fn parts(self) -> [Option<FormulaId>; 2] {
        match self {
            Formula::Atom { .. } | Formula::One | Formula::Covers(..) => [None, None],
            Formula::Named { .. } => [None, None],
            Formula::Tensor(i, j) | Formula::With(i, j) | Formula::Plus(i, j) => [Some(i), Some(j)],
            Formula::Lolli(i, j) | Formula::Implies(i, j) => [Some(i), Some(j)],
            Formula::Bang(i) | Formula::At(i, _) | Formula::Says(_, i) => [Some(i), None],
            Formula::Forall(i) => [Some(i), None],
        }
    }
}

/// A label of a hypothesis, 0 to 63.
pub type Label = u8;

/// One step line; L is the label it names.
#[derive(Clone, Copy, PartialEq, Eq, Debug)]
pub enum Step {
    /// `ax,L`
    Init(Label),
    /// `cp,L`
    Copy(Label),
    /// `tr,share`
    TensorR(u64),
    /// `tl,L`
    TensorL(Label),
    /// `or`
    OneR,
    /// `ol,L`
    OneL(Label),
    /// `wr`
    WithR,
    /// `w1,L`
    WithL1(Label),
    /// `w2,L`
    WithL2(Label),
    /// `p1`
    PlusR1,
    /// `p2`
    PlusR2,
    /// `pl,L`
    PlusL(Label),
    /// `ll,L,share,from,to,first,last`
    LolliL(Label, u64, Interval),
    /// `ul,L,from,to,first,last`
    ImpliesL(Label, Interval),
    /// `br`
    BangR,
    /// `bl,L`
    BangL(Label),
    /// `hr`
    AtR,
    /// `hl,L`
    AtL(Label),
    /// `sr`
    SaysR,
    /// `af`
    Affirms,
    /// `sl,L`
    SaysL(Label),
    /// `gr`
    CoversR,
    /// `al,L,holder`
    ForallL(Label, Holder),
}
