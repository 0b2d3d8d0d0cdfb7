//! All checks of a sheet, in the order of docs/REFUSALS.md; the first that fails is the refusal.

use crate::coupons;
use crate::form::Read;
use crate::history::{Act, History};
use crate::input::{first_field, Sheet};
use crate::lines::read_sheet;
use crate::refused::{Fault, Refused};
use crate::text::{counted, grouped};
use crate::till::form::{self, Booking, Page, Request, MAX_BYTES};
use crate::till::formulas::Formulas;
use crate::till::logic::Formula;
use crate::till::{refusal, Answer, Till};
use crate::walk::{Derivation, Walk};
use crate::{forms, windows, wordings};

/// A sheet in which no check fails.
pub enum Accepted {
    Other(Request),
    Booked(Derivation),
}

/// The till before a sheet, and what led to it.
pub struct Desk {
    pub till: Till,
    pub history: History,
}

impl Desk {
    pub fn new(till: Till) -> Desk {
        Desk { history: History::new(&till), till }
    }

    /// Hands over the sheet: the reference program answers it.
    pub fn hand_over(&mut self, sheet: &Sheet) -> Answer {
        let act = Act::of(&self.till, sheet);
        let answer = self.till.call(sheet.bytes);
        self.history.note(sheet, act, answer);
        answer
    }
}

/// Tries every check of the sheet.
pub fn examine(desk: &Desk, sheet: &Sheet) -> Result<Accepted, Refused> {
    not_overlong(sheet)?;
    let lines = read_sheet(sheet).map_err(|fault| fault.refused(refusal::FORM))?;
    windows::in_order(&lines)?;
    windows::breaks_inside(&lines)?;
    let mut page = Page::new();
    let Ok(request) = form::read(sheet.bytes, &mut page) else {
        return Err(Refused::unexplained());
    };
    let head = &lines[0];
    match request {
        Request::Word(formula) => word(desk, head, formula)?,
        Request::Issue { linear, .. } => issue(desk, head, linear)?,
        Request::Withdraw { .. } => coupons::is_live(&desk.till, &desk.history, head)?,
        Request::Book(booking) => return book(desk, &lines, booking, &page).map(Accepted::Booked),
        Request::Tally { .. } => {}
    }
    Ok(Accepted::Other(request))
}

/// Refusal 1.
fn not_overlong(sheet: &Sheet) -> Result<(), Refused> {
    if sheet.bytes.len() <= MAX_BYTES {
        return Ok(());
    }
    let begins = |bytes: &[u8]| forms::find(&forms::SHEETS, first_field(bytes).as_bytes()).is_some();
    let next = sheet.lines().into_iter().skip(1).find(|line| begins(line.bytes));
    let cure = next.map(|line| {
        format!("Line {} begins another sheet: an empty line is missing before it.", line.number)
    });
    let fault = Fault::nowhere("The sheet is too long.")
        .found(format!("{} bytes in {}", grouped(sheet.bytes.len() as u32), counted(sheet.lines().len(), "line")))
        .allowed(format!("{} bytes; no sheet of good form has so many", grouped(MAX_BYTES as u32)))
        .may_do(cure);
    Err(fault.refused(refusal::OVERLONG))
}

fn word(desk: &Desk, head: &Read, formula: Formula) -> Result<(), Refused> {
    may_enter(&desk.till.formulas, head, formula, desk.history.refused_words())?;
    wordings::has_room(&desk.till.formulas, head, formula)
}

/// Refusals 10, 53, 12 and 13 of a wording's line.
pub fn may_enter(formulas: &Formulas, line: &Read, formula: Formula, hint: Option<String>) -> Result<(), Refused> {
    wordings::there(formulas, line, hint)?;
    wordings::not_nested(formulas, line, formula)?;
    wordings::fits(formulas, line, formula)?;
    wordings::is_new(formulas, line, formula)
}

fn issue(desk: &Desk, head: &Read, linear: bool) -> Result<(), Refused> {
    may_stand(&desk.till.formulas, head, linear, desk.history.refused_words())?;
    coupons::has_room(&desk.till, head, 0)
}

/// Refusals 10, 53, 20 and 21 of a coupon's line, and of the goal in a booking's head.
pub fn may_stand(formulas: &Formulas, line: &Read, linear: bool, hint: Option<String>) -> Result<(), Refused> {
    wordings::there(formulas, line, hint)?;
    let id = line.value("wording").unwrap_or(0);
    wordings::is_bound(formulas, line, id)?;
    match linear {
        true => wordings::is_plain(formulas, line, id),
        false => wordings::is_balanced(formulas, line, id),
    }
}

fn book(desk: &Desk, lines: &[Read], booking: Booking, page: &Page) -> Result<Derivation, Refused> {
    let (head, below) = (&lines[0], &lines[1..]);
    may_stand(&desk.till.formulas, head, true, desk.history.refused_words())?;
    coupons::is_now(head, booking)?;
    let (holds, steps) = below.split_at(booking.holds);
    for hold in holds {
        coupons::is_live(&desk.till, &desk.history, hold)?;
    }
    coupons::held_once(&desk.till, holds)?;
    let serials = &page.holds[..booking.holds];
    let derivation = Walk::new(&desk.till, steps, &page.steps[..booking.steps]).derive(booking, serials)?;
    let spent = serials.iter().filter_map(|&serial| coupons::find(&desk.till, serial)).filter(|held| held.linear);
    coupons::has_room(&desk.till, head, spent.count())?;
    Ok(derivation)
}
