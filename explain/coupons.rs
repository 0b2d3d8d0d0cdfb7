//! Checks of coupons: refusals 22, 23, 24, 30 and 31.

use crate::form::Read;
use crate::history::History;
use crate::refused::{Fault, Refused};
use crate::spot::Spot;
use crate::text::grouped;
use crate::till::credentials::{Credential, MAX_LIVE};
use crate::till::form::{Booking, MAX_SERIAL};
use crate::till::{refusal, Till};
use crate::windows::outside;
use crate::words::{coupon, window};

/// The live coupon of a serial.
pub fn find(till: &Till, serial: u32) -> Option<&Credential> {
    till.credentials.slot(serial).map(|slot| till.credentials.at(slot))
}

/// Refusal 24: the serial that a line names is live.
pub fn is_live(till: &Till, history: &History, line: &Read) -> Result<(), Refused> {
    let serial = line.value("serial").unwrap_or(0);
    if find(till, serial).is_some() {
        return Ok(());
    }
    let cure = history.spent(serial).then(|| {
        "If this booking was sent before, that one counts: its answer has the new serial.".to_string()
    });
    let mut fault = Fault::new(line.spot_of("serial"), format!("serial {serial} is not live"))
        .found(format!("serial {}: {}", grouped(serial), history.why_dead(serial)));
    if let Some(was) = history.was(serial) {
        fault = fault.row("it was", coupon(&till.formulas, was));
    }
    let fault = fault
        .allowed("the serial of a live coupon: one that was given, and neither withdrawn nor spent since")
        .may_do(cure);
    Err(fault.refused(refusal::NOT_LIVE))
}

/// Refusal 31: no serial is held twice.
pub fn held_once(till: &Till, holds: &[Read]) -> Result<(), Refused> {
    for (at, line) in holds.iter().enumerate() {
        let serial = line.value("serial");
        let Some(before) = holds[..at].iter().find(|before| before.value("serial") == serial) else {
            continue;
        };
        let held = serial.and_then(|serial| find(till, serial));
        let cure = match held.is_some_and(|held| held.linear) {
            true => "One coupon pays once: hold another of its kind.",
            false => "Hold it once; `cp` copies a standing coupon as often as wanted.",
        };
        let fault = Fault::new(line.spot_of("serial"), "two hold lines name the same serial")
            .found(format!("line {} holds it already: {}", before.line.number, told(till, held)))
            .allowed("each serial in one hold line")
            .to_do(cure);
        return Err(fault.refused(refusal::HELD_TWICE));
    }
    Ok(())
}

fn told(till: &Till, held: Option<&Credential>) -> String {
    held.map_or(String::new(), |held| format!("serial {}, {}", held.serial, coupon(&till.formulas, held)))
}

/// Refusal 30: now lies in the goal's window.
pub fn is_now(head: &Read, booking: Booking) -> Result<(), Refused> {
    let Some(why) = outside(booking.interval, booking.now) else {
        return Ok(());
    };
    let fault = Fault::new(head.spot_of("now"), "now is not in the goal's window")
        .found(format!("{why}; the goal's window is {}", window(booking.interval)))
        .allowed("a minute of the goal's window, fields 4 to 7; both ends belong to it, the break does not")
        .to_do("Look at the kiosk's minute, or book another window.");
    Err(fault.refused(refusal::NOT_NOW))
}

/// Refusals 22 and 23: there is room and a serial for one more, once the spent ones are gone.
pub fn has_room(till: &Till, head: &Read, spent: usize) -> Result<(), Refused> {
    let live = till.credentials.count();
    if live - spent >= MAX_LIVE {
        let singles = till.credentials.rising().filter(|held| held.linear).count();
        let booked = head.form.word == "book";
        let less = if booked { format!("; the booking spends {spent} of them") } else { String::new() };
        let fault = Fault::new(Spot::whole(head.line), "the till has no room for another coupon")
            .found(format!("{live} coupons are live, {singles} single-use and {} standing{less}", live - singles))
            .allowed(format!("fewer than {MAX_LIVE} before a new one"))
            .to_do("Withdraw coupons that are no longer needed.");
        return Err(fault.refused(refusal::CREDENTIALS_FULL));
    }
    if till.credentials.next() > MAX_SERIAL {
        let fault = Fault::new(Spot::whole(head.line), "no serial is left")
            .found(format!("serial {} was given, and it is the last", grouped(MAX_SERIAL)))
            .allowed("each serial once")
            .to_do("Begin a new till; this one issues and books no more.");
        return Err(fault.refused(refusal::SERIALS_SPENT));
    }
    Ok(())
}
