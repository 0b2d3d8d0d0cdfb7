//! The rules of the steps: what each does, what it asks in the paper's words, and its conditions one by one.

use crate::till::logic::{Formula, Interval, Label, Step};
use crate::till::steps::{just, Goal, Instance, Labels, Sequent};
use crate::walk::Walk;
use crate::windows::misses;
use crate::words::*;

pub struct Rule {
    pub word: &'static str,
    /// What it does, in short.
    pub does: &'static str,
    /// The paper's sentence.
    pub asks: &'static str,
}

const fn rule(word: &'static str, does: &'static str, asks: &'static str) -> Rule {
    Rule { word, does, asks }
}

pub static RULES: [Rule; 23] = [
    rule("ax", "meets the goal by a label", "D holds just L, an atom equal to the goal; L's window ⊇ goal's. Closes."),
    rule("cp", "copies a standing label", "L in R; a new single label of the same wording and window."),
    rule("tr", "proves both parts of ⊗", "⊗; left from the share, right from the rest of D. The share lies within D."),
    rule("tl", "takes a ⊗ apart", "L, in D, is a ⊗; both parts replace it."),
    rule("or", "proves 1", "1, D empty; closes."),
    rule("ol", "drops a 1", "L, in D, is a 1; it is dropped."),
    rule("wr", "proves both arms of &", "&, both arms, each from all of D."),
    rule("w1", "chooses the left arm of &", "L, in D, is a &; its left arm replaces it."),
    rule("w2", "chooses the right arm of &", "L, in D, is a &; its right arm replaces it."),
    rule("p1", "proves ⊕ by its left arm", "⊕, the left arm."),
    rule("p2", "proves ⊕ by its right arm", "⊕, the right arm."),
    rule("pl", "is ready for both arms of ⊕", "L, in D, is a ⊕; a premise for each arm."),
    rule(
        "ll",
        "uses an offer A ⊸ B in a window J",
        "L, in D, is A ⊸ B; L's window ⊇ J; A at J from the share, which lies within D and must not have L; then the \
         goal from the rest with B at J for L.",
    ),
    rule(
        "ul",
        "uses A ⊃ B in a window J",
        "L, in D, is A ⊃ B; L's window ⊇ J; A at J from an empty D; then the goal with B at J for L.",
    ),
    rule("br", "proves !", "!, D empty, then the part."),
    rule("bl", "opens a !", "L, in D, is a !; the part joins R."),
    rule("hr", "proves A@J", "A@J becomes A at J."),
    rule("hl", "opens A@J", "L, in D, is A@J; it becomes A at J."),
    rule("sr", "proves ⟨K⟩ A", "⟨K⟩A becomes K affirms A."),
    rule("af", "affirms what holds", "K affirms A becomes A."),
    rule("sl", "opens ⟨K⟩ A", "L, in D, is ⟨K⟩A and the goal K affirms B, same K; L's window ⊇ goal's."),
    rule("gr", "proves ⊇", "⊇ that holds, D empty; closes."),
    rule("al", "uses a ∀ for one holder", "L, in D, is a ∀; its part, with the holder put in for holder 0, replaces it."),
];

/// What a step does, in short; of `al` with its holder.
pub fn does(rule: &Rule, step: Step) -> String {
    match step {
        Step::ForallL(_, holder) => format!("uses a ∀ for holder {holder}"),
        _ => rule.does.to_string(),
    }
}

/// The rule of a step word.
pub fn rule_of(word: &str) -> &'static Rule {
    RULES.iter().find(|rule| rule.word == word).unwrap_or(&RULES[0])
}

/// A condition of a rule, in words as it is found.
pub struct Condition {
    pub holds: bool,
    pub words: String,
    pub to_do: Option<String>,
}

/// Asks a step's conditions of a judged line, in order; the last one is the first that fails.
pub struct Asking<'w, 'a> {
    walk: &'w Walk<'a>,
    sequent: Sequent,
    pub asked: Vec<Condition>,
}

impl<'w, 'a> Asking<'w, 'a> {
    pub fn new(walk: &'w Walk<'a>, sequent: Sequent) -> Asking<'w, 'a> {
        Asking { walk, sequent, asked: Vec::new() }
    }

    /// Asks all that the step's rule does; None if a condition fails.
    pub fn step(&mut self, step: Step) -> Option<()> {
        match step {
            Step::Init(label) => self.init(label),
            Step::Copy(label) => self.stands(label),
            Step::TensorR(share) => self.goal_is(&TENSOR).and_then(|_| self.share(share, None)),
            Step::OneR => self.goal_is(&ONE).and_then(|_| self.spent()),
            Step::WithR => self.goal_is(&WITH).map(drop),
            Step::PlusR1 | Step::PlusR2 => self.goal_is(&PLUS).map(drop),
            Step::BangR => self.goal_is(&BANG).and_then(|_| self.spent()),
            Step::AtR => self.goal_is(&AT).map(drop),
            Step::SaysR => self.goal_is(&SAYS).map(drop),
            Step::CoversR => self.covers(),
            Step::Affirms => self.affirms().map(drop),
            Step::TensorL(label) => self.label_is(label, &TENSOR).map(drop),
            Step::OneL(label) => self.label_is(label, &ONE).map(drop),
            Step::WithL1(label) | Step::WithL2(label) => self.label_is(label, &WITH).map(drop),
            Step::PlusL(label) => self.label_is(label, &PLUS).map(drop),
            Step::BangL(label) => self.label_is(label, &BANG).map(drop),
            Step::AtL(label) => self.label_is(label, &AT).map(drop),
            Step::SaysL(label) => self.says(label),
            Step::ForallL(label, _) => self.label_is(label, &FORALL).map(drop),
            Step::ImpliesL(label, on) => self.label_is(label, &IMPLIES).and_then(|_| self.reaches(label, on)),
            Step::LolliL(label, share, on) => {
                self.label_is(label, &LOLLI)?;
                self.reaches(label, on)?;
                self.share(share, Some(label))
            }
        }
    }

    fn ask(&mut self, holds: bool, right: String, wrong: impl FnOnce() -> (String, Option<String>)) -> Option<()> {
        let (words, to_do) = if holds { (right, None) } else { wrong() };
        self.asked.push(Condition { holds, words, to_do });
        holds.then_some(())
    }

    fn spell(&self, instance: Instance) -> String {
        spell_instance(self.walk.formulas, instance)
    }

    fn line(&self, instance: Instance) -> Formula {
        line_of(self.walk.formulas, instance)
    }

    /// The goal, without affirms.
    fn bare_goal(&mut self) -> Option<Instance> {
        let told = goal(self.walk.formulas, self.sequent.goal);
        let Goal::True(formula) = self.sequent.goal else {
            let cure = "Put `af` before this step: it leaves what is affirmed.".to_string();
            self.ask(false, String::new(), || (format!("the goal affirms: {told}"), Some(cure)))?;
            return None;
        };
        self.ask(true, "the goal is without affirms".to_string(), Default::default)?;
        Some(formula)
    }

    fn goal_is(&mut self, kind: &'static Kind) -> Option<Formula> {
        let goal = self.bare_goal()?;
        let (line, told) = (self.line(goal), self.spell(goal));
        let found = kind_of(line);
        self.ask(found.name == kind.name, format!("the goal is {}: {told}", kind.name), || {
            let cure = format!("A goal that is {} is proved by {}.", found.name, found.right);
            (format!("the goal is not {} but {}: {told}", kind.name, found.name), Some(cure))
        })?;
        Some(line)
    }

    /// `ax`
    fn init(&mut self, label: Label) -> Option<()> {
        self.goal_is(&ATOM)?;
        self.in_linear(label)?;
        let rest = self.sequent.linear & !just(label);
        self.ask(rest == 0, format!("D holds just label {label}"), || {
            (format!("D holds more than label {label}: {} left over", self.walk.named(rest)), Some(left_over()))
        })?;
        let Goal::True(goal) = self.sequent.goal else { return None };
        let held = self.walk.hypothesis(label);
        let (own, due) = (self.spell(held.formula), self.spell(goal));
        let (its, goals) = (self.line(held.formula), self.line(goal));
        self.ask(its == goals, format!("label {label} is the goal: {own}"), || {
            (format!("label {label} is not the goal: it is {own}, the goal is {due}"), unlike_holders(its, goals))
        })?;
        self.contains_goal(label)
    }

    /// L's window contains the goal's.
    fn contains_goal(&mut self, label: Label) -> Option<()> {
        let cure = "It must hold in every minute of the goal's window: book a window within it, or use another coupon.";
        self.contains(label, self.sequent.interval, "the goal's", cure)
    }

    /// L's window contains that of the step.
    fn reaches(&mut self, label: Label, on: Interval) -> Option<()> {
        let cure = "Name a window within that of the label.";
        self.contains(label, on, "the step's", cure)
    }

    fn contains(&mut self, label: Label, inner: Interval, whose: &str, cure: &str) -> Option<()> {
        let outer = self.walk.hypothesis(label).interval;
        let why = misses(outer, inner);
        let right = format!("label {label}'s window contains {whose}: {} ⊇ {}", window(outer), window(inner));
        self.ask(why.is_none(), right, || {
            let why = why.unwrap_or_default();
            (format!("label {label}'s window does not contain {whose}: {why}"), Some(cure.to_string()))
        })
    }

    fn in_linear(&mut self, label: Label) -> Option<()> {
        let (walk, sequent) = (self.walk, self.sequent);
        self.ask(sequent.linear & just(label) != 0, format!("label {label} is in D"), || {
            let (why, cure) = walk.whereabouts(label, sequent);
            (format!("label {label} is not in D: {why}"), cure)
        })
    }

    /// `cp`: L is in R.
    fn stands(&mut self, label: Label) -> Option<()> {
        let (walk, sequent) = (self.walk, self.sequent);
        self.ask(sequent.unrestricted & just(label) != 0, format!("label {label} is in R"), || {
            if sequent.linear & just(label) != 0 {
                let cure = "It is used as it is, once; only standing labels are copied.".to_string();
                return (format!("label {label} is not in R: it is in D, single-use"), Some(cure));
            }
            let (why, cure) = walk.whereabouts(label, sequent);
            (format!("label {label} is not in R: {why}"), cure)
        })
    }

    fn label_is(&mut self, label: Label, kind: &'static Kind) -> Option<Formula> {
        self.in_linear(label)?;
        let held = self.walk.hypothesis(label).formula;
        let (line, told) = (self.line(held), self.spell(held));
        let found = kind_of(line);
        self.ask(found.name == kind.name, format!("label {label} is {}: {told}", kind.name), || {
            let cure = format!("A label that is {} is used by {}.", found.name, found.left);
            (format!("label {label} is not {} but {}: {told}", kind.name, found.name), Some(cure))
        })?;
        Some(line)
    }

    /// The share lies within D, and has not L.
    fn share(&mut self, share: Labels, without: Option<Label>) -> Option<()> {
        let linear = self.sequent.linear;
        let outside = share & !linear;
        self.ask(outside == 0, format!("the share, labels {}, lies within D", set(share)), || {
            let whole = format!("Of D only {} can be shared; all of it is the share {linear:016x}.", set(linear));
            let named = self.walk.named(outside);
            (format!("the share is labels {}, and of them {named} not in D", set(share)), Some(whole))
        })?;
        let Some(label) = without else { return Some(()) };
        self.ask(share & just(label) == 0, format!("the share has not label {label} itself"), || {
            let right = format!("Take it out of the share: {:016x}.", share & !just(label));
            (format!("the share, labels {}, has label {label} itself", set(share)), Some(right))
        })
    }

    /// D is empty.
    fn spent(&mut self) -> Option<()> {
        let linear = self.sequent.linear;
        self.ask(linear == 0, "D is empty".to_string(), || {
            (format!("D is not empty: {} left over", self.walk.named(linear)), Some(left_over()))
        })
    }

    /// `gr`
    fn covers(&mut self) -> Option<()> {
        let Formula::Covers(one, other) = self.goal_is(&COVERS)? else { return None };
        self.spent()?;
        let why = misses(one, other);
        self.ask(why.is_none(), format!("{} ⊇ {} holds", window(one), window(other)), || {
            (format!("⊇ does not hold: {}", why.unwrap_or_default()), None)
        })
    }

    /// The principal and the formula of a goal that affirms.
    fn affirms(&mut self) -> Option<u8> {
        let told = goal(self.walk.formulas, self.sequent.goal);
        let principal = match self.sequent.goal {
            Goal::Affirms(principal, _) => Some(principal),
            Goal::True(_) => None,
        };
        self.ask(principal.is_some(), format!("the goal affirms: {told}"), || {
            let cure = "`sr` makes of a goal ⟨K⟩ A that K affirms A.".to_string();
            (format!("the goal does not affirm: {told}"), Some(cure))
        })?;
        principal
    }

    /// `sl`
    fn says(&mut self, label: Label) -> Option<()> {
        let Formula::Says(own, _) = self.label_is(label, &SAYS)? else { return None };
        let due = self.affirms()?;
        self.ask(own == due, format!("the same principal, {own}"), || {
            let cure = "What one principal says, another does not: an offer would be needed.".to_string();
            (format!("not the same principal: {own} says label {label}, {due} is to affirm the goal"), Some(cure))
        })?;
        self.contains_goal(label)
    }
}

/// What to do where two atoms differ in their holders alone.
fn unlike_holders(own: Formula, due: Formula) -> Option<String> {
    let of = |line| match line {
        Formula::Named { predicate, session, holder } => Some((predicate, session, Some(holder))),
        Formula::Atom { predicate, session } => Some((predicate, session, None)),
        _ => None,
    };
    match (of(own)?, of(due)?) {
        ((p, s, Some(own)), (q, t, Some(due))) if (p, s) == (q, t) => {
            Some(format!("`al` puts in the holder: name {due} there, or book for holder {own}."))
        }
        ((p, s, _), (q, t, _)) if (p, s) == (q, t) => {
            Some("An atom with a holder (`n`) is never equal to one without (`a`).".to_string())
        }
        _ => None,
    }
}

fn left_over() -> String {
    "Every single-use label must be used up. An earlier share sent too much here, or a hold is not needed.".to_string()
}
