//! The booking till: formulas, live credentials, and the one call that answers a request.

#[path = "content.rs"]
pub mod content;
#[path = "credentials.rs"]
pub mod credentials;
#[path = "form.rs"]
pub mod form;
#[path = "formulas.rs"]
pub mod formulas;
#[path = "logic.rs"]
pub mod logic;
#[path = "refusal.rs"]
pub mod refusal;
#[path = "saved.rs"]
pub mod saved;
#[path = "steps.rs"]
pub mod steps;
#[cfg(test)]
#[path = "tests/mod.rs"]
mod tests;

use credentials::{Credentials, Slot, MAX_LIVE};
use form::{Booking, Page, Request, MAX_HOLDS};
use formulas::Formulas;
use logic::{Formula, FormulaId, Interval};
use steps::{Checker, Goal, Hypothesis, Instance, Sequent, Stop};

/// The state: what calls give, beginning from the empty till.
pub struct Till {
    pub formulas: Formulas,
    pub credentials: Credentials,
    /// Room for the lines of a booking while it is answered; no part of the state.
    page: Page,
}

/// The answer to one request.
#[derive(Clone, Copy, PartialEq, Eq, Debug)]
pub enum Answer {
    /// The number (word) or serial (issue, withdraw, book).
    Done(u32),
    /// Open, shut and placed (tally).
    Counted(u32, u32, u32),
    /// The refusal number, and the step for 40 to 42, else 0.
    Refused(u32, u32),
}

impl Till {
    /// The empty till.
    pub fn new() -> Till {
        Till { formulas: Formulas::new(), credentials: Credentials::new(), page: Page::new() }
    }

    /// Answers one request, the paper's "sheet". A refusal leaves the till as before.
    pub fn call(&mut self, sheet: &[u8]) -> Answer {
        let answer = match form::read(sheet, &mut self.page) {
            Ok(Request::Book(booking)) => self.book(booking),
            Ok(Request::Word(formula)) => self.word(formula).map_err(without_step),
            Ok(Request::Issue { linear, formula, interval }) => {
                self.issue(linear, formula, interval).map_err(without_step)
            }
            Ok(Request::Withdraw { serial }) => self.withdraw(serial).map_err(without_step),
            Ok(Request::Tally { session, minute }) => return self.tally(session, minute),
            Err(number) => Err(without_step(number)),
        };
        match answer {
            Ok(number) => Answer::Done(number),
            Err((number, step)) => Answer::Refused(number, step),
        }
    }

    fn word(&mut self, formula: Formula) -> Result<u32, u32> {
        self.formulas.add(formula)
    }

    fn issue(&mut self, linear: bool, formula: FormulaId, interval: Interval) -> Result<u32, u32> {
        self.check_kind(linear, formula)?;
        self.credentials.check_room(0)?;
        Ok(self.credentials.add(linear, formula, interval))
    }

    /// Refusals 10, 53, 20 and 21 of an issue.
    fn check_kind(&self, linear: bool, formula: FormulaId) -> Result<(), u32> {
        if !self.formulas.is_there(formula) {
            return Err(refusal::NO_FORMULA);
        }
        if self.formulas.loose(formula) {
            return Err(refusal::HOLDER);
        }
        if linear && !self.formulas.plain(formula) {
            return Err(refusal::NOT_PLAIN);
        }
        if !linear && !self.formulas.balanced(formula) {
            return Err(refusal::NOT_BALANCED);
        }
        Ok(())
    }

    fn withdraw(&mut self, serial: u32) -> Result<u32, u32> {
        self.credentials.remove(serial).ok_or(refusal::NOT_LIVE)
    }

    /// Open, shut and placed, summed over the formulas that have something of the session.
    fn tally(&self, session: u16, minute: u32) -> Answer {
        let mut sums = (0, 0, 0);
        for (word, &bits) in self.formulas.near(session).iter().enumerate() {
            let mut rest = bits;
            while rest != 0 {
                let formula = 64 * word as FormulaId + rest.trailing_zeros();
                if self.credentials.has_singles(formula) {
                    self.add_up(formula, session, minute, &mut sums);
                }
                rest &= rest - 1;
            }
        }
        Answer::Counted(sums.0, sums.1, sums.2)
    }

    /// Adds to open, shut and placed: the number of a formula's live linear credentials with and
    /// without the minute, times what one such gives. Open are the house's seats where the interval
    /// has the minute, shut all others.
    fn add_up(&self, formula: FormulaId, session: u16, minute: u32, sums: &mut (u32, u32, u32)) {
        let found = self.formulas.content(formula).atoms(session);
        if found.seats == 0 && found.places == 0 {
            return;
        }
        let (with, without) = self.credentials.singles(formula, minute);
        let (seats, house) = (u32::from(found.seats), u32::from(found.house));
        sums.0 += with * house;
        sums.1 += with * (seats - house) + without * seats;
        sums.2 += (with + without) * u32::from(found.places);
    }

    fn book(&mut self, booking: Booking) -> Result<u32, Stop> {
        self.check_head(booking).map_err(without_step)?;
        let slots = self.find_holds(booking.holds).map_err(without_step)?;
        let slots = &slots[..booking.holds];
        self.check_steps(booking, slots)?;
        let spent = slots.iter().filter(|&&slot| self.credentials.at(slot).linear).count();
        self.credentials.check_room(spent).map_err(without_step)?;
        for hold in &self.page.holds[..booking.holds] {
            if self.credentials.slot(*hold).is_some_and(|slot| self.credentials.at(slot).linear) {
                self.credentials.remove(*hold);
            }
        }
        Ok(self.credentials.add(true, booking.formula, booking.interval))
    }

    /// Refusals 10, 53, 20 and 30 of a booking.
    fn check_head(&self, booking: Booking) -> Result<(), u32> {
        if !self.formulas.is_there(booking.formula) {
            return Err(refusal::NO_FORMULA);
        }
        if self.formulas.loose(booking.formula) {
            return Err(refusal::HOLDER);
        }
        if !self.formulas.plain(booking.formula) {
            return Err(refusal::NOT_PLAIN);
        }
        if !booking.interval.has(booking.now) {
            return Err(refusal::NOT_NOW);
        }
        Ok(())
    }

    /// The slots of the holds. All must be live (24) before any is found held twice (31).
    fn find_holds(&self, holds: usize) -> Result<[Slot; MAX_HOLDS], u32> {
        let mut slots = [0; MAX_HOLDS];
        for (slot, &serial) in slots.iter_mut().zip(&self.page.holds[..holds]) {
            *slot = self.credentials.slot(serial).ok_or(refusal::NOT_LIVE)?;
        }
        let mut seen = [0u64; MAX_LIVE / 64];
        for &slot in &slots[..holds] {
            let (word, bit) = (usize::from(slot / 64), 1 << (slot % 64));
            if seen[word] & bit != 0 {
                return Err(refusal::HELD_TWICE);
            }
            seen[word] |= bit;
        }
        Ok(slots)
    }

    /// Refusals 40 to 42: the goal from the holds, which take labels 0, 1, .. in order.
    fn check_steps(&self, booking: Booking, slots: &[Slot]) -> Result<(), Stop> {
        let mut checker = Checker::new(&self.formulas, &self.page.steps[..booking.steps]);
        let goal = Goal::True(Instance::of(booking.formula));
        let mut sequent = Sequent { unrestricted: 0, linear: 0, goal, interval: booking.interval };
        for &slot in slots {
            let held = self.credentials.at(slot);
            let hypothesis = Hypothesis { formula: Instance::of(held.formula), interval: held.interval };
            // 32 holds at most, so there is a label for each
            let label = checker.take(hypothesis).unwrap_or(0);
            if held.linear {
                sequent.linear |= label;
            } else {
                sequent.unrestricted |= label;
            }
        }
        checker.check(sequent)
    }
}

fn without_step(number: u32) -> Stop {
    (number, 0)
}
