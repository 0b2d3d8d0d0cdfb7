//! Windows: refusals 3 and 43, and why one window does not contain another.

use crate::form::Read;
use crate::refused::{Fault, Refused};
use crate::spot::Spot;
use crate::till::logic::Interval;
use crate::till::refusal;
use crate::words::window;

/// A window of a line, and the fields in which it stands.
struct Found<'a> {
    interval: Interval,
    from_to: Spot<'a>,
    first_last: Spot<'a>,
}

/// The windows of lines that have their form, in their order.
fn windows<'a>(lines: &[Read<'a>]) -> Vec<Found<'a>> {
    let mut all = Vec::new();
    for line in lines {
        let numbers = line.numbers();
        for (place, &(name, at, from)) in numbers.iter().enumerate() {
            if name != "from" {
                continue;
            }
            let value = |behind: usize| numbers[place + behind].2;
            all.push(Found {
                interval: Interval { from, to: value(1), first: value(2), last: value(3) },
                from_to: line.spots(at, at + 1),
                first_last: line.spots(at + 2, at + 3),
            });
        }
    }
    all
}

/// Refusal 3, of the first window turned round.
pub fn in_order(lines: &[Read]) -> Result<(), Refused> {
    let turned = windows(lines).into_iter().find(|found| found.interval.from > found.interval.to);
    turned.map_or(Ok(()), |found| Err(turned_round(found).refused(refusal::INTERVAL)))
}

fn turned_round(found: Found) -> Fault {
    let Interval { from, to, .. } = found.interval;
    Fault::new(found.from_to, "a window is turned round: its first minute is after its last")
        .found(format!("from {from}, to {to}"))
        .allowed("from ≤ to; a window of one minute has from = to")
        .to_do(format!("Write {to},{from} if the two minutes were swapped."))
}

/// Refusal 43, of the first break that is not inside its window.
pub fn breaks_inside(lines: &[Read]) -> Result<(), Refused> {
    let unfit = windows(lines).into_iter().find(|found| break_fault(found.interval).is_some());
    unfit.map_or(Ok(()), |found| Err(not_inside(found).refused(refusal::BREAK)))
}

/// What is wrong with a break, and what to do about it.
fn break_fault(interval: Interval) -> Option<(&'static str, String)> {
    let Interval { from, to, first, last } = interval;
    if first == 0 && last == 0 {
        return None;
    }
    if first > last {
        return Some(("ends before it begins", format!("Write {last},{first} if they were swapped, 0,0 for no break.")));
    }
    if first <= from && last >= to {
        return Some(("takes up the whole window", "Write 0,0 for no break.".to_string()));
    }
    if first <= from {
        let words = format!("If the window begins after it, write {},{to},0,0; for no break 0,0.", last + 1);
        return Some(("begins with its window or before it", words));
    }
    if last >= to {
        let words = format!("If the window ends before it, write {from},{},0,0; for no break 0,0.", first - 1);
        return Some(("ends with its window or after it", words));
    }
    None
}

fn not_inside(found: Found) -> Fault {
    let Interval { from, to, first, last } = found.interval;
    let (what, cure) = break_fault(found.interval).unwrap_or_default();
    Fault::new(found.first_last, format!("a break {what}"))
        .found(format!("first {first}, last {last} in the window {from}..{to}"))
        .allowed("0,0, which is no break, or from < first ≤ last < to: the window keeps its first and last minute")
        .to_do(cure)
}

/// Why the window has not every minute of the other, if it has not.
pub fn misses(outer: Interval, inner: Interval) -> Option<String> {
    let lacks = |minute: u32, why: &str| {
        let (outer, inner) = (window(outer), window(inner));
        Some(format!("{outer} lacks minute {minute} of {inner}: {why}"))
    };
    if inner.from < outer.from {
        return lacks(inner.from, &format!("it begins at {}", outer.from));
    }
    if inner.to > outer.to {
        return lacks(inner.to, &format!("it ends at {}", outer.to));
    }
    if outer.last == 0 {
        return None;
    }
    // the first minute of the other that is not before this one's break
    let from = outer.first.max(inner.from);
    let resting = inner.last != 0 && inner.first <= from && from <= inner.last;
    let minute = if resting { inner.last + 1 } else { from };
    if minute <= outer.last && minute <= inner.to {
        return lacks(minute, &format!("it has a break, {}..{}", outer.first, outer.last));
    }
    None
}

/// Why the window has not the minute, if it has not.
pub fn outside(interval: Interval, minute: u32) -> Option<String> {
    let Interval { from, to, first, last } = interval;
    if minute < from {
        return Some(format!("minute {minute} is before the window begins, at {from}"));
    }
    if minute > to {
        return Some(format!("minute {minute} is after the window ends, at {to}"));
    }
    let resting = last != 0 && first <= minute && minute <= last;
    resting.then(|| format!("minute {minute} is in the window's break, {first}..{last}"))
}
