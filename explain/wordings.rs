//! Checks of wordings: refusals 10, 53, 12, 13, 14, 20 and 21. The line is one that names or enters a wording.

use crate::form::Read;
use crate::refused::{Fault, Refused};
use crate::spot::Spot;
use crate::text::{counted, grouped};
use crate::till::content::Content;
use crate::till::formulas::{Formulas, MAX_FORMULAS, MAX_SIZE};
use crate::till::logic::{Formula, FormulaId};
use crate::till::refusal;
use crate::words::{kind_of, spell, spell_line, wording, ATOM};

/// Refusal 10: every wording that the line names is there. `hint` may say why numbers are other than planned.
pub fn there(formulas: &Formulas, line: &Read, hint: Option<String>) -> Result<(), Refused> {
    let named = line.numbers().into_iter().filter(|(name, ..)| matches!(*name, "wording" | "i" | "j"));
    for (_, at, id) in named {
        if !formulas.is_there(id) {
            return Err(not_there(formulas, line.spot(at), id, hint).refused(refusal::NO_FORMULA));
        }
    }
    Ok(())
}

fn not_there<'a>(formulas: &Formulas, spot: Spot<'a>, id: FormulaId, hint: Option<String>) -> Fault<'a> {
    let there = match formulas.lines().len() {
        0 => "no wording is there yet".to_string(),
        1 => "one wording is there, number 0".to_string(),
        count => format!("{} are there, numbers 0 to {}", counted(count, "wording"), count - 1),
    };
    Fault::new(spot, format!("there is no wording {id}"))
        .found(format!("wording {id}; {there}"))
        .allowed("the number that an accepted `word` before this line was answered; they begin with 0")
        .may_do(hint)
}

/// Refusal 53 of a word: no `q` stands within the `q` that it enters.
pub fn not_nested(formulas: &Formulas, line: &Read, formula: Formula) -> Result<(), Refused> {
    let Formula::Forall(part) = formula else { return Ok(()) };
    let Some(inner) = find_part(formulas, part, |line| matches!(line, Formula::Forall(_))) else {
        return Ok(());
    };
    let found = match inner == part {
        true => format!("{}, which is a `q` itself", wording(formulas, part)),
        false => format!("{}; in it stands a `q`, {}", wording(formulas, part), wording(formulas, inner)),
    };
    let fault = Fault::new(line.spot_of("i"), "a `q` would stand within this `q`")
        .found(found)
        .allowed("a part in which no `q` stands, at whatever depth; side by side there may be several")
        .to_do("Word the part without its `q`, and put one `q` around the whole.");
    Err(fault.refused(refusal::HOLDER))
}

/// Refusal 53 of an issue or a booking: holder 0 stands nowhere outside `q`.
pub fn is_bound(formulas: &Formulas, line: &Read, id: FormulaId) -> Result<(), Refused> {
    let Some(part) = loose_part(formulas, id) else {
        return Ok(());
    };
    let found = match part == id {
        true => format!("{}, in no `q`", wording(formulas, id)),
        false => format!("{}; in it, in no `q`, {}", wording(formulas, id), wording(formulas, part)),
    };
    let cure = match line.form.word {
        "book" => "Book for one holder: word it with the holder's number in the place of 0.".to_string(),
        _ => format!("Word `q,{id}` and issue that, as standing; or word it with a holder's number in the place of 0."),
    };
    let fault = Fault::new(line.spot_of("wording"), format!("wording {id} has holder 0 outside `q`"))
        .found(found)
        .allowed("holder 0 inside `q` alone, where it stands for the holder put in; elsewhere a holder, 1 to 65,535")
        .to_do(cure);
    Err(fault.refused(refusal::HOLDER))
}

/// The first atom with holder 0 that stands outside `q`.
fn loose_part(formulas: &Formulas, id: FormulaId) -> Option<FormulaId> {
    match formulas.line(id) {
        Formula::Named { holder: 0, .. } => Some(id),
        Formula::Forall(_) => None,
        line => line.parts().into_iter().flatten().find_map(|part| loose_part(formulas, part)),
    }
}

/// The first part, itself included, whose line is as asked.
fn find_part(formulas: &Formulas, id: FormulaId, test: fn(Formula) -> bool) -> Option<FormulaId> {
    let line = formulas.line(id);
    let within = || line.parts().into_iter().flatten().find_map(|part| find_part(formulas, part, test));
    if test(line) { Some(id) } else { within() }
}

/// Refusal 12: the size is at most 64.
pub fn fits(formulas: &Formulas, line: &Read, formula: Formula) -> Result<(), Refused> {
    let parts: Vec<FormulaId> = formula.parts().into_iter().flatten().collect();
    let sizes: Vec<u32> = parts.iter().map(|&part| size(formulas, part)).collect();
    let whole = 1 + sizes.iter().sum::<u32>();
    if whole <= MAX_SIZE {
        return Ok(());
    }
    let sum: Vec<String> = sizes.iter().map(u32::to_string).collect();
    let mut fault = Fault::new(Spot::whole(line.line), format!("a wording of size {whole}"))
        .found(format!("size {whole}: 1 for this line, and {} for its parts", sum.join(" and ")));
    for (&part, size) in parts.iter().zip(&sizes) {
        fault = fault.row("part", format!("size {size}, {}", wording(formulas, part)));
    }
    let fault = fault.allowed(format!("a size of at most {MAX_SIZE}; a part that is used twice counts twice"));
    Err(fault.to_do("Make the offer of fewer parts, or as two offers.").refused(refusal::SIZE))
}

fn size(formulas: &Formulas, id: FormulaId) -> u32 {
    1 + formulas.line(id).parts().into_iter().flatten().map(|part| size(formulas, part)).sum::<u32>()
}

/// Refusal 13: the line is not there yet.
pub fn is_new(formulas: &Formulas, line: &Read, formula: Formula) -> Result<(), Refused> {
    let Some(id) = formulas.lines().iter().position(|&there| there == formula) else {
        return Ok(());
    };
    let fault = Fault::new(Spot::whole(line.line), format!("this line is wording {id} already"))
        .found(wording(formulas, id as FormulaId))
        .allowed("each wording line once")
        .to_do(format!("Use number {id} in the place of a new one."));
    Err(fault.refused(refusal::SAME_LINE))
}

/// Refusal 14: there is room.
pub fn has_room(formulas: &Formulas, line: &Read, formula: Formula) -> Result<(), Refused> {
    if formulas.lines().len() < MAX_FORMULAS {
        return Ok(());
    }
    let fault = Fault::new(Spot::whole(line.line), "the till has no room for another wording")
        .found(format!("{MAX_FORMULAS} wordings are there; the new one is {}", spell_line(formulas, formula)))
        .allowed(format!("at most {MAX_FORMULAS}; wordings are never removed"))
        .to_do("Make the offer from wordings that are there, or begin a new till.");
    Err(fault.refused(refusal::FORMULAS_FULL))
}

/// Refusal 20: made of atoms, ⊗ and ⟨K⟩ alone.
pub fn is_plain(formulas: &Formulas, line: &Read, id: FormulaId) -> Result<(), Refused> {
    let Some(part) = find_part(formulas, id, |line| !is_plain_line(line)) else {
        return Ok(());
    };
    let kind = kind_of(formulas.line(part));
    let named = format!("{} (`{}`)", kind.name, kind.letter);
    let found = match part == id {
        true => format!("{}, which is {named}", wording(formulas, id)),
        false => format!("{}; in it {named}: {}", wording(formulas, id), spell(formulas, part)),
    };
    let booked = line.form.word == "book";
    let use_of = if booked { "the goal of a booking" } else { "a single-use coupon" };
    let cure = match formulas.line(id) {
        Formula::Lolli(_, j) if booked => format!("Book what the offer gives, {}.", wording(formulas, j)),
        _ if booked => "Book a plain wording, and hold this one's coupon.".to_string(),
        _ => "Issue an offer as standing: kind `r`.".to_string(),
    };
    let fault = Fault::new(line.spot_of("wording"), format!("wording {id} is not plain"))
        .found(found)
        .allowed(format!("{use_of} is plain: only atoms (`a`, `n`), ⊗ (`t`) and ⟨K⟩ (`s`)"))
        .to_do(cure);
    Err(fault.refused(refusal::NOT_PLAIN))
}

/// An atom, a ⊗ or a ⟨K⟩.
fn is_plain_line(line: Formula) -> bool {
    kind_of(line).name == ATOM.name || matches!(line, Formula::Tensor(..) | Formula::Says(..))
}

/// Refusal 21: no seat or place is made or lost, however often the coupon is used.
pub fn is_balanced(formulas: &Formulas, line: &Read, id: FormulaId) -> Result<(), Refused> {
    let mut faults = Vec::new();
    for (session, weight) in formulas.content(id).weights() {
        let sum = weighed(formulas, id, session);
        faults.push(format!("for session {} it weighs {weight}, not 0: {sum}", grouped(session.into())));
    }
    uneven(formulas, id, &mut faults);
    if faults.is_empty() {
        return Ok(());
    }
    let mut fault = Fault::new(line.spot_of("wording"), format!("wording {id} is not balanced"))
        .row("wording", wording(formulas, id));
    for words in faults {
        fault = fault.found(words);
    }
    let fault = fault
        .allowed(
            "a standing coupon weighs 0 for every session; arms of & and ⊕ weigh alike; what stands under ! or left of \
             ⊃ weighs 0",
        )
        .row("weights", "a seat or place of the session 1, other atoms 0; ⊗ adds, ⊸ is right less left")
        .to_do("Give as many seats and places of a session as you take. A seat or place itself is of kind `s`.");
    Err(fault.refused(refusal::NOT_BALANCED))
}

fn weight(content: &Content, session: u16) -> i8 {
    content.weights().find(|&(its, _)| its == session).map_or(0, |(_, weight)| weight)
}

/// How a weight comes about.
fn weighed(formulas: &Formulas, id: FormulaId, session: u16) -> String {
    let of = |part| weight(formulas.content(part), session);
    match formulas.line(id) {
        Formula::Tensor(i, j) => format!("{} and {} added, of the two parts of ⊗", of(i), of(j)),
        Formula::Lolli(i, j) => format!("{} on the right of ⊸, less {} on the left", of(j), of(i)),
        Formula::With(i, _) | Formula::Plus(i, _) => format!("{} in the left arm", of(i)),
        Formula::Implies(_, j) => format!("{} on the right of ⊃", of(j)),
        Formula::Bang(i) | Formula::At(i, _) | Formula::Says(_, i) | Formula::Forall(i) => {
            format!("as its part, {}", wording(formulas, i))
        }
        _ => "a seat or a place weighs 1".to_string(),
    }
}

/// The parts, itself included, whose arms do not weigh alike or that have a weight where none may stand.
fn uneven(formulas: &Formulas, id: FormulaId, faults: &mut Vec<String>) {
    let line = formulas.line(id);
    let none = |part: FormulaId, place: &str| {
        let (session, weight) = formulas.content(part).weights().next()?;
        Some(format!("{place} weighs {weight} for session {session}: {}", spell(formulas, part)))
    };
    let fault = match line {
        Formula::With(i, j) | Formula::Plus(i, j) => unlike(formulas, i, j).map(|words| {
            format!("the arms of {} do not weigh alike: {words}", spell(formulas, id))
        }),
        Formula::Bang(i) => none(i, "what stands under !"),
        Formula::Implies(i, _) => none(i, "what stands left of ⊃"),
        _ => None,
    };
    faults.extend(fault.filter(|words| !faults.contains(words)));
    for part in line.parts().into_iter().flatten() {
        uneven(formulas, part, faults);
    }
}

/// A session for which two formulas do not weigh alike.
fn unlike(formulas: &Formulas, i: FormulaId, j: FormulaId) -> Option<String> {
    let (left, right) = (formulas.content(i), formulas.content(j));
    let sessions = left.weights().chain(right.weights()).map(|(session, _)| session);
    let differs = |session: &u16| weight(left, *session) != weight(right, *session);
    sessions.filter(differs).min().map(|session| {
        format!("{} and {} for session {session}", weight(left, session), weight(right, session))
    })
}
