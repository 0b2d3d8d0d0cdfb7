//! The step checker: does the list of steps derive the goal from the held credentials?

use super::formulas::Formulas;
use super::logic::{Formula, FormulaId, Holder, Interval, Label, Step};
use super::refusal;

pub const MAX_LABELS: usize = 64;

/// A set of labels; bit k stands for label k.
pub type Labels = u64;

pub fn just(label: Label) -> Labels {
    1 << label
}

/// A formula with a holder put in for holder 0 wherever that stands in it. Both are in one word, the
/// formula's number in its lower half, so that the holder goes along at no cost. Equal words are equal
/// formulas, but not the other way round.
#[derive(Clone, Copy, PartialEq, Eq)]
pub struct Instance(u32);

impl Instance {
    const FORMULA: u32 = 0xffff;

    /// The formula as it stands: outside `q` it has no holder 0.
    pub fn of(formula: FormulaId) -> Instance {
        Instance(formula)
    }

    /// The formula, the part of a `q`, for a holder.
    pub fn at(formula: FormulaId, holder: Holder) -> Instance {
        Instance(u32::from(holder) << 16 | formula)
    }

    /// A part of this formula: the same holder is put into it.
    pub fn part(self, formula: FormulaId) -> Instance {
        Instance(self.0 & !Instance::FORMULA | formula)
    }

    pub fn formula(self) -> FormulaId {
        self.0 & Instance::FORMULA
    }

    /// The holder put in; 0 if there is none.
    pub fn holder(self) -> Holder {
        (self.0 >> 16) as Holder
    }
}

/// What a label stands for: a formula true on an interval.
#[derive(Clone, Copy)]
pub struct Hypothesis {
    pub formula: Instance,
    pub interval: Interval,
}

/// "A", or "K affirms A"; the sequent holds the interval.
#[derive(Clone, Copy)]
pub enum Goal {
    True(Instance),
    Affirms(u8, Instance),
}

/// The paper's "judged line".
#[derive(Clone, Copy)]
pub struct Sequent {
    /// The unrestricted context: the paper's "standing labels R".
    pub unrestricted: Labels,
    /// The linear context: the paper's "single-use labels D".
    pub linear: Labels,
    pub goal: Goal,
    pub interval: Interval,
}

impl Sequent {
    /// The same sequent with another linear context.
    fn with_linear(self, linear: Labels) -> Sequent {
        Sequent { linear, ..self }
    }

    /// The same hypotheses and interval, to prove "A".
    fn proving(self, formula: Instance) -> Sequent {
        Sequent { goal: Goal::True(formula), ..self }
    }

    fn on(self, interval: Interval) -> Sequent {
        Sequent { interval, ..self }
    }
}

/// Hypotheses that enter with a premise; they take their labels in order when it begins.
#[derive(Clone, Copy)]
pub enum Entering {
    Nothing,
    Linear(Hypothesis),
    Linear2(Hypothesis, Hypothesis),
    Unrestricted(Hypothesis),
}

pub type Premise = (Sequent, Entering);

/// What a step that keeps its rule leaves to prove.
pub enum Outcome {
    Closed,
    One(Premise),
    Two(Premise, Premise),
}

use Entering::{Linear, Linear2, Nothing, Unrestricted};
use Outcome::{Closed, One, Two};

/// A refusal number and the step it names.
pub type Stop = (u32, u32);

pub struct Checker<'a> {
    formulas: &'a Formulas,
    steps: &'a [Step],
    /// How many steps were read.
    read: usize,
    pub hypotheses: [Hypothesis; MAX_LABELS],
    /// How many labels were taken in this request; the next new label is this number.
    pub taken: usize,
}

impl<'a> Checker<'a> {
    pub fn new(formulas: &'a Formulas, steps: &'a [Step]) -> Checker<'a> {
        let nothing = Hypothesis { formula: Instance::of(0), interval: Interval::ZERO };
        Checker { formulas, steps, read: 0, hypotheses: [nothing; MAX_LABELS], taken: 0 }
    }

    /// Takes the next label, or None at label 64.
    pub fn take(&mut self, hypothesis: Hypothesis) -> Option<Labels> {
        let place = self.hypotheses.get_mut(self.taken)?;
        *place = hypothesis;
        self.taken += 1;
        Some(1 << (self.taken - 1))
    }

    /// Checks all steps against the sequent. It must close with the last of them.
    pub fn check(&mut self, sequent: Sequent) -> Result<(), Stop> {
        self.premise(sequent)?;
        if self.read < self.steps.len() {
            return Err((refusal::STEP_COUNT, self.read as u32 + 1));
        }
        Ok(())
    }

    /// Reads steps until the sequent closes. It calls itself for the first of two premises only,
    /// so no deeper than there are steps.
    fn premise(&mut self, mut sequent: Sequent) -> Result<(), Stop> {
        loop {
            let number = self.read as u32 + 1;
            let Some(&step) = self.steps.get(self.read) else {
                return Err((refusal::STEP_COUNT, number));
            };
            self.read += 1;
            let Some(outcome) = self.rule(step, sequent) else {
                return Err((refusal::STEP, number));
            };
            let last = match outcome {
                Closed => return Ok(()),
                One(premise) => premise,
                Two(first, second) => {
                    let first = self.begin(first).ok_or((refusal::LABELS, number))?;
                    self.premise(first)?;
                    second
                }
            };
            sequent = self.begin(last).ok_or((refusal::LABELS, number))?;
        }
    }

    /// Begins a premise: what enters takes its labels. None if label 64 is needed.
    pub fn begin(&mut self, (mut sequent, entering): Premise) -> Option<Sequent> {
        match entering {
            Nothing => {}
            Linear(hypothesis) => sequent.linear |= self.take(hypothesis)?,
            Linear2(left, right) => sequent.linear |= self.take(left)? | self.take(right)?,
            Unrestricted(hypothesis) => sequent.unrestricted |= self.take(hypothesis)?,
        }
        Some(sequent)
    }

    /// What the step leaves to prove; None if it breaks its rule.
    pub fn rule(&self, step: Step, sequent: Sequent) -> Option<Outcome> {
        match step {
            Step::Copy(label) => self.copy(label, sequent),
            Step::Affirms => affirms(sequent),
            Step::TensorL(l) | Step::OneL(l) | Step::WithL1(l) | Step::WithL2(l) | Step::PlusL(l) => {
                self.left(l, step, sequent)
            }
            Step::BangL(l) | Step::AtL(l) | Step::SaysL(l) | Step::ForallL(l, _) => {
                self.left(l, step, sequent)
            }
            Step::LolliL(label, share, interval) => self.lolli(label, share, interval, sequent),
            Step::ImpliesL(label, interval) => self.implies(label, interval, sequent),
            _ => self.right(step, sequent),
        }
    }

    /// `ax` and the right steps, which need a goal without affirms.
    fn right(&self, step: Step, sequent: Sequent) -> Option<Outcome> {
        let Goal::True(goal) = sequent.goal else { return None };
        let linear = sequent.linear;
        match (step, self.formulas.line(goal.formula())) {
            (Step::Init(label), Formula::Atom { .. } | Formula::Named { .. }) if linear == just(label) => {
                let hypothesis = self.hypotheses[usize::from(label)];
                let same = hypothesis.formula == goal || self.alike(hypothesis.formula, goal);
                (same && hypothesis.interval.covers(sequent.interval)).then_some(Closed)
            }
            (Step::TensorR(share), Formula::Tensor(left, right)) if share & !linear == 0 => {
                let first = sequent.proving(goal.part(left)).with_linear(share);
                let second = sequent.proving(goal.part(right)).with_linear(linear & !share);
                Some(Two((first, Nothing), (second, Nothing)))
            }
            (Step::OneR, Formula::One) if linear == 0 => Some(Closed),
            (Step::WithR, Formula::With(left, right)) => {
                let second = sequent.proving(goal.part(right));
                Some(Two((sequent.proving(goal.part(left)), Nothing), (second, Nothing)))
            }
            (Step::PlusR1, Formula::Plus(left, _)) => {
                Some(One((sequent.proving(goal.part(left)), Nothing)))
            }
            (Step::PlusR2, Formula::Plus(_, right)) => {
                Some(One((sequent.proving(goal.part(right)), Nothing)))
            }
            (Step::BangR, Formula::Bang(part)) if linear == 0 => {
                Some(One((sequent.proving(goal.part(part)), Nothing)))
            }
            (Step::AtR, Formula::At(part, interval)) => {
                Some(One((sequent.proving(goal.part(part)).on(interval), Nothing)))
            }
            (Step::SaysR, Formula::Says(principal, part)) => {
                let goal = Goal::Affirms(principal, goal.part(part));
                Some(One((Sequent { goal, ..sequent }, Nothing)))
            }
            (Step::CoversR, Formula::Covers(first, second)) if linear == 0 => {
                first.covers(second).then_some(Closed)
            }
            _ => None,
        }
    }

    /// Two lines, at least one of them an atom, are equal once their holders are put in. Apart, since an
    /// atom is mostly the goal's own line.
    #[inline(never)]
    fn alike(&self, one: Instance, other: Instance) -> bool {
        let put = |instance: Instance| self.formulas.line(instance.formula()).put(instance.holder());
        put(one) == put(other)
    }

    /// The left steps without an interval of their own: L leaves the linear context, its parts
    /// enter with its interval and its holder. Inlined, it need not copy what it gives.
    #[inline(always)]
    fn left(&self, label: Label, step: Step, sequent: Sequent) -> Option<Outcome> {
        let (hypothesis, sequent) = self.use_up(label, sequent)?;
        let whole = hypothesis.formula;
        let part = |id| Hypothesis { formula: whole.part(id), ..hypothesis };
        let premise = match (step, self.formulas.line(whole.formula())) {
            (Step::TensorL(_), Formula::Tensor(i, j)) => (sequent, Linear2(part(i), part(j))),
            (Step::OneL(_), Formula::One) => (sequent, Nothing),
            (Step::WithL1(_), Formula::With(i, _)) => (sequent, Linear(part(i))),
            (Step::WithL2(_), Formula::With(_, j)) => (sequent, Linear(part(j))),
            (Step::PlusL(_), Formula::Plus(i, j)) => {
                return Some(Two((sequent, Linear(part(i))), (sequent, Linear(part(j)))));
            }
            (Step::BangL(_), Formula::Bang(i)) => (sequent, Unrestricted(part(i))),
            (Step::AtL(_), Formula::At(i, interval)) => {
                (sequent, Linear(Hypothesis { interval, ..part(i) }))
            }
            (Step::ForallL(_, holder), Formula::Forall(i)) => {
                (sequent, Linear(Hypothesis { formula: Instance::at(i, holder), ..hypothesis }))
            }
            (Step::SaysL(_), Formula::Says(principal, i)) => {
                let Goal::Affirms(goal_principal, _) = sequent.goal else { return None };
                if principal != goal_principal || !hypothesis.interval.covers(sequent.interval) {
                    return None;
                }
                (sequent, Linear(part(i)))
            }
            _ => return None,
        };
        Some(One(premise))
    }

    /// `ll`: A on J from the share, then the goal from the rest with B on J.
    fn lolli(&self, label: Label, share: Labels, on: Interval, sequent: Sequent) -> Option<Outcome> {
        let (hypothesis, sequent) = self.use_up(label, sequent)?;
        let whole = hypothesis.formula;
        let Formula::Lolli(a, b) = self.formulas.line(whole.formula()) else { return None };
        // the label is gone from the context here, so a share that has it fails too
        if !hypothesis.interval.covers(on) || share & !sequent.linear != 0 {
            return None;
        }
        let first = sequent.proving(whole.part(a)).on(on).with_linear(share);
        let second = sequent.with_linear(sequent.linear & !share);
        let result = Hypothesis { formula: whole.part(b), interval: on };
        Some(Two((first, Nothing), (second, Linear(result))))
    }

    /// `ul`: A on J from an empty linear context, then the goal from the rest with B on J.
    fn implies(&self, label: Label, on: Interval, sequent: Sequent) -> Option<Outcome> {
        let (hypothesis, sequent) = self.use_up(label, sequent)?;
        let whole = hypothesis.formula;
        let Formula::Implies(a, b) = self.formulas.line(whole.formula()) else { return None };
        if !hypothesis.interval.covers(on) {
            return None;
        }
        let first = sequent.proving(whole.part(a)).on(on).with_linear(0);
        let result = Hypothesis { formula: whole.part(b), interval: on };
        Some(Two((first, Nothing), (sequent, Linear(result))))
    }

    /// `cp`: a linear copy of an unrestricted hypothesis.
    fn copy(&self, label: Label, sequent: Sequent) -> Option<Outcome> {
        let there = sequent.unrestricted & just(label) != 0;
        there.then(|| One((sequent, Linear(self.hypotheses[usize::from(label)]))))
    }

    /// Takes L, which must be in the linear context, out of it.
    fn use_up(&self, label: Label, sequent: Sequent) -> Option<(Hypothesis, Sequent)> {
        let there = sequent.linear & just(label) != 0;
        let rest = sequent.with_linear(sequent.linear & !just(label));
        there.then(|| (self.hypotheses[usize::from(label)], rest))
    }
}

/// `af`: "K affirms A" follows from "A".
fn affirms(sequent: Sequent) -> Option<Outcome> {
    let Goal::Affirms(_, formula) = sequent.goal else { return None };
    Some(One((sequent.proving(formula), Nothing)))
}
