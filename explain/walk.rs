//! The steps of a booking, one by one: refusals 40 to 42, or the derivation.

use crate::coupons::find;
use crate::form::Read;
use crate::refused::Refused;
use crate::rules::{does, rule_of, Asking};
use crate::till::form::Booking;
use crate::till::formulas::Formulas;
use crate::till::logic::{Label, Step};
use crate::till::steps::{just, Checker, Goal, Hypothesis, Instance, Labels, Outcome, Premise, Sequent, MAX_LABELS};
use crate::till::Till;
use crate::words::{at, coupon, each, goal, spell_instance, use_of, window, wording};

/// A label of a booking, in words.
pub struct Taken {
    pub label: usize,
    /// `⟨1⟩ seat(7) at 0..600`
    pub is: String,
    /// `hold 2, serial 2`
    pub whence: String,
}

/// A step that keeps its rule, with the judged line before it.
pub struct Node {
    pub number: usize,
    /// `sl,1`
    pub line: String,
    pub does: String,
    pub standing: Labels,
    pub single: Labels,
    pub goal: String,
    /// The labels that were taken as its premise began.
    pub entered: Vec<usize>,
    pub next: Next,
}

pub enum Next {
    Closed,
    One(Box<Node>),
    Two(Box<Node>, Box<Node>),
}

/// An accepted booking's steps.
pub struct Derivation {
    /// `⟨1⟩ place(7) at 540..600`
    pub goal: String,
    pub now: u32,
    /// What the booking gives.
    pub gives: String,
    /// The holds: label, coupon, and whether it is spent.
    pub holds: Vec<Held>,
    pub labels: Vec<Taken>,
    pub root: Node,
    pub steps: usize,
}

pub struct Held {
    pub label: usize,
    pub serial: u32,
    pub coupon: String,
    pub spent: bool,
}

pub struct Walk<'a> {
    till: &'a Till,
    pub formulas: &'a Formulas,
    pub checker: Checker<'a>,
    pub steps: &'a [Step],
    pub lines: &'a [Read<'a>],
    /// How many steps were read.
    pub read: usize,
    /// Where each label came from.
    pub whence: Vec<String>,
    /// The serials held.
    pub serials: Vec<u32>,
    /// For each label the step that used it up, or 0.
    gone: [usize; MAX_LABELS],
    /// The second premises that have not begun, with their steps.
    pub waiting: Vec<(usize, Premise)>,
}

impl<'a> Walk<'a> {
    pub fn new(till: &'a Till, lines: &'a [Read<'a>], steps: &'a [Step]) -> Walk<'a> {
        let checker = Checker::new(&till.formulas, steps);
        let (whence, serials, waiting) = (Vec::new(), Vec::new(), Vec::new());
        let gone = [0; MAX_LABELS];
        Walk { till, formulas: &till.formulas, checker, steps, lines, read: 0, whence, serials, gone, waiting }
    }

    /// The whole derivation of the booking's goal from its holds.
    pub fn derive(mut self, booking: Booking, serials: &[u32]) -> Result<Derivation, Refused> {
        let (sequent, holds) = self.hold(booking, serials);
        let root = self.premise(sequent, (0..holds.len()).collect())?;
        if self.read < self.steps.len() {
            return Err(self.lines_follow());
        }
        let Booking { now, formula, interval, .. } = booking;
        Ok(Derivation {
            goal: at(self.formulas, Instance::of(formula), interval),
            now,
            gives: format!("{}, {}, in {}", use_of(true), wording(self.formulas, formula), window(interval)),
            holds,
            labels: (0..self.checker.taken).map(|label| self.taken(label)).collect(),
            root,
            steps: self.steps.len(),
        })
    }

    /// The first judged line: the holds take labels 0, 1, .. in order.
    fn hold(&mut self, booking: Booking, serials: &[u32]) -> (Sequent, Vec<Held>) {
        let goal = Goal::True(Instance::of(booking.formula));
        let mut sequent = Sequent { unrestricted: 0, linear: 0, goal, interval: booking.interval };
        let mut holds = Vec::new();
        for held in serials.iter().filter_map(|&serial| find(self.till, serial)) {
            let hypothesis = Hypothesis { formula: Instance::of(held.formula), interval: held.interval };
            let label = self.checker.take(hypothesis).unwrap_or(0);
            *(if held.linear { &mut sequent.linear } else { &mut sequent.unrestricted }) |= label;
            self.whence.push(format!("hold {}, serial {}", holds.len() + 1, held.serial));
            let told = coupon(self.formulas, held);
            holds.push(Held { label: holds.len(), serial: held.serial, coupon: told, spent: held.linear });
        }
        self.serials = serials.to_vec();
        (sequent, holds)
    }

    /// Proves a judged line by the next steps.
    fn premise(&mut self, sequent: Sequent, entered: Vec<usize>) -> Result<Node, Refused> {
        let Some(&step) = self.steps.get(self.read) else {
            return Err(self.premise_open(sequent));
        };
        let line = &self.lines[self.read];
        self.read += 1;
        let number = self.read;
        let mut asking = Asking::new(self, sequent);
        if asking.step(step).is_none() {
            let asked = asking.asked;
            return Err(self.breaks_rule(sequent, asked));
        }
        let Some(outcome) = self.checker.rule(step, sequent) else {
            return Err(Refused::unexplained());
        };
        if let Some(label) = line.value("L").filter(|_| line.form.word != "cp") {
            self.gone[label as usize] = number;
        }
        let next = self.follow(number, outcome)?;
        Ok(Node {
            number,
            line: String::from_utf8_lossy(line.bytes()).into_owned(),
            does: does(rule_of(line.form.word), step),
            standing: sequent.unrestricted,
            single: sequent.linear,
            goal: format!("{} at {}", goal(self.formulas, sequent.goal), window(sequent.interval)),
            entered,
            next,
        })
    }

    /// What a step leaves.
    fn follow(&mut self, number: usize, outcome: Outcome) -> Result<Next, Refused> {
        Ok(match outcome {
            Outcome::Closed => Next::Closed,
            Outcome::One(premise) => Next::One(Box::new(self.begin(number, premise, false)?)),
            Outcome::Two(first, second) => {
                self.waiting.push((number, second));
                let first = self.begin(number, first, false)?;
                self.waiting.pop();
                Next::Two(Box::new(first), Box::new(self.begin(number, second, true)?))
            }
        })
    }

    /// Begins a premise of a step and proves it.
    fn begin(&mut self, number: usize, premise: Premise, second: bool) -> Result<Node, Refused> {
        let before = self.checker.taken;
        let Some(sequent) = self.checker.begin(premise) else {
            return Err(self.no_label(number, premise, second));
        };
        let entered: Vec<usize> = (before..self.checker.taken).collect();
        let whence = if second { format!("second premise of step {number}") } else { format!("step {number}") };
        self.whence.resize(self.checker.taken, whence);
        self.premise(sequent, entered)
    }

    pub fn hypothesis(&self, label: Label) -> Hypothesis {
        self.checker.hypotheses[usize::from(label)]
    }

    /// A label that was taken, in words.
    pub fn taken(&self, label: usize) -> Taken {
        let Hypothesis { formula, interval } = self.checker.hypotheses[label];
        let whence = self.whence.get(label).cloned().unwrap_or_default();
        Taken { label, is: at(self.formulas, formula, interval), whence }
    }

    /// `label 2 (⟨2⟩ seat(7)) is`, `labels 2 (..), 3 (..) are`
    pub fn named(&self, labels: Labels) -> String {
        let all: Vec<String> = each(labels)
            .map(|label| match label < self.checker.taken {
                true => format!("{label} ({})", spell_instance(self.formulas, self.checker.hypotheses[label].formula)),
                false => format!("{label} (not taken yet)"),
            })
            .collect();
        if all.len() == 1 { format!("label {} is", all[0]) } else { format!("labels {} are", all.join(", ")) }
    }

    /// Where a label is that is not in D, and what to do about it.
    pub fn whereabouts(&self, label: Label, sequent: Sequent) -> (String, Option<String>) {
        let at = usize::from(label);
        let meant = self.serials.iter().position(|&serial| serial == u32::from(label));
        let meant = meant.map(|hold| {
            format!("If serial {label} is meant, that is label {hold}: labels go by the order of the holds.")
        });
        if at >= self.checker.taken {
            let next = self.checker.taken;
            return (format!("it is not taken yet; the next label to be taken is {next}"), meant);
        }
        if sequent.unrestricted & just(label) != 0 {
            let cure = format!("Copy it first, `cp,{label}`, and use the copy's label.");
            return ("it is in R, standing".to_string(), Some(cure));
        }
        let waits = self.waiting.iter().rev().find(|(_, waiting)| waiting.0.linear & just(label) != 0);
        let why = match (waits, self.gone[at]) {
            (Some((step, _)), _) => format!("it waits for the second premise of step {step}"),
            (None, 0) => "it belongs to a premise that is closed".to_string(),
            (None, step) => format!("step {step} used it up"),
        };
        (why, meant)
    }
}
