//! The live credentials, found by serial, and the linear ones by formula.

use super::form::MAX_SERIAL;
use super::formulas::MAX_FORMULAS;
use super::logic::{FormulaId, Interval};
use super::refusal;

pub const MAX_LIVE: usize = 2048;

/// Room of the index, four times `MAX_LIVE` so that searches are short.
const INDEX_BITS: u32 = 13;
const INDEX: usize = 1 << INDEX_BITS;
/// Where a live credential stands, 0 to 2,047.
pub type Slot = u16;
/// A free entry of the index; no slot.
const FREE: Slot = Slot::MAX;

/// What a credential stands between in its chain.
#[derive(Clone, Copy)]
struct Link {
    next: Slot,
    before: Slot,
}

/// The linear credentials of each formula form a chain, a ring in which the formula's own link stands
/// too; the unrestricted ones form one more. The links of the formulas follow those of the slots.
const UNRESTRICTED: usize = MAX_LIVE + MAX_FORMULAS;
const LINKS: usize = UNRESTRICTED + 1;

/// The paper's "coupon".
#[derive(Clone, Copy, PartialEq, Eq, Debug)]
pub struct Credential {
    pub serial: u32,
    /// The paper's "window".
    pub interval: Interval,
    pub formula: FormulaId,
    /// Linear is the paper's "single-use"; otherwise unrestricted, its "standing".
    pub linear: bool,
}

/// What stands in a slot without a credential: no serial is 0.
const NOTHING: Credential = Credential { serial: 0, interval: Interval::ZERO, formula: 0, linear: false };

/// Live credentials, each in one slot as long as it lives, and an index from serial to slot: open
/// addressing, where an entry stands at its serial's home or in the run of entries after it.
pub struct Credentials {
    count: usize,
    /// Slots from here on never had a credential.
    used: usize,
    /// The slot that was left last, whose link leads to the one left before it; `FREE` for none.
    left: Slot,
    live: [Credential; MAX_LIVE],
    links: [Link; LINKS],
    index: [Slot; INDEX],
    /// The serial given last; 0 before the first.
    last: u32,
}

impl Credentials {
    pub fn new() -> Credentials {
        Credentials {
            count: 0,
            used: 0,
            left: FREE,
            live: [NOTHING; MAX_LIVE],
            links: ALONE,
            index: [FREE; INDEX],
            last: 0,
        }
    }

    /// The slot of a live serial.
    pub fn slot(&self, serial: u32) -> Option<Slot> {
        Some(self.index[self.entry(serial)?])
    }

    pub fn at(&self, slot: Slot) -> &Credential {
        &self.live[usize::from(slot)]
    }

    /// Refusals 22 and 23 for one more credential, once `spent` of the live ones are gone.
    pub fn check_room(&self, spent: usize) -> Result<(), u32> {
        if self.count - spent >= MAX_LIVE {
            return Err(refusal::CREDENTIALS_FULL);
        }
        if self.last == MAX_SERIAL {
            return Err(refusal::SERIALS_SPENT);
        }
        Ok(())
    }

    /// Adds a credential and gives its serial; `check_room` has passed.
    pub fn add(&mut self, linear: bool, formula: FormulaId, interval: Interval) -> u32 {
        self.last += 1;
        self.put(Credential { serial: self.last, interval, formula, linear });
        self.last
    }

    /// Puts in a credential whose serial is not live; there is room for it.
    #[inline(always)]
    pub fn put(&mut self, credential: Credential) {
        let slot = self.take_slot();
        self.live[usize::from(slot)] = credential;
        self.join(slot, if credential.linear { chain(credential.formula) } else { UNRESTRICTED });
        let mut entry = home(credential.serial);
        while self.index[entry] != FREE {
            entry = (entry + 1) % INDEX;
        }
        self.index[entry] = slot;
        self.count += 1;
    }

    /// The serial that the next credential gets, 1,000,000 if there is none left.
    pub fn next(&self) -> u32 {
        self.last + 1
    }

    pub fn set_next(&mut self, next: u32) {
        self.last = next - 1;
    }

    pub fn count(&self) -> usize {
        self.count
    }

    /// The live credentials, serials rising.
    pub fn rising(&self) -> impl Iterator<Item = &Credential> {
        let (mut keys, mut found) = ([0; MAX_LIVE], 0);
        for (slot, credential) in self.live[..self.used].iter().enumerate() {
            if credential.serial != 0 {
                keys[found] = credential.serial * MAX_LIVE as u32 + slot as u32;
                found += 1;
            }
        }
        keys[..self.count].sort_unstable();
        keys.into_iter().take(self.count).map(|key| &self.live[key as usize % MAX_LIVE])
    }

    /// Removes a credential, if live; its slot is the next to be taken.
    pub fn remove(&mut self, serial: u32) -> Option<u32> {
        let entry = self.entry(serial)?;
        let slot = self.index[entry];
        self.free_entry(entry);
        self.leave(slot);
        self.live[usize::from(slot)].serial = NOTHING.serial;
        self.links[usize::from(slot)].next = self.left;
        self.left = slot;
        self.count -= 1;
        Some(serial)
    }

    /// Some live linear credential is of the formula.
    pub fn has_singles(&self, formula: FormulaId) -> bool {
        usize::from(self.links[chain(formula)].next) != chain(formula)
    }

    /// How many live linear credentials of a formula have the minute, and how many have it not.
    pub fn singles(&self, formula: FormulaId, minute: u32) -> (u32, u32) {
        let (mut with, mut all) = (0, 0);
        let mut at = usize::from(self.links[chain(formula)].next);
        while at != chain(formula) {
            with += u32::from(self.live[at].interval.has(minute));
            all += 1;
            at = usize::from(self.links[at].next);
        }
        (with, all - with)
    }

    /// A slot without a credential; there is one.
    fn take_slot(&mut self) -> Slot {
        let slot = self.left;
        if slot == FREE {
            self.used += 1;
            return (self.used - 1) as Slot;
        }
        self.left = self.links[usize::from(slot)].next;
        slot
    }

    /// Puts a slot into a chain, behind the chain's own link.
    fn join(&mut self, slot: Slot, chain: usize) {
        let next = self.links[chain].next;
        self.links[usize::from(slot)] = Link { next, before: chain as Slot };
        self.links[chain].next = slot;
        self.links[usize::from(next)].before = slot;
    }

    /// Takes a slot out of its chain.
    fn leave(&mut self, slot: Slot) {
        let Link { next, before } = self.links[usize::from(slot)];
        self.links[usize::from(before)].next = next;
        self.links[usize::from(next)].before = before;
    }

    /// The index entry of a live serial. The index is never full, so the search ends.
    fn entry(&self, serial: u32) -> Option<usize> {
        let mut entry = home(serial);
        loop {
            let slot = self.index[entry];
            if slot == FREE {
                return None;
            }
            if self.live[usize::from(slot)].serial == serial {
                return Some(entry);
            }
            entry = (entry + 1) % INDEX;
        }
    }

    /// Frees an entry and draws back those after it that would no longer be reached.
    fn free_entry(&mut self, mut gap: usize) {
        let mut entry = gap;
        loop {
            entry = (entry + 1) % INDEX;
            let slot = self.index[entry];
            if slot == FREE {
                break;
            }
            let start = home(self.live[usize::from(slot)].serial);
            if distance(start, entry) >= distance(gap, entry) {
                self.index[gap] = slot;
                gap = entry;
            }
        }
        self.index[gap] = FREE;
    }
}

/// The link of a formula's chain.
fn chain(formula: FormulaId) -> usize {
    MAX_LIVE + formula as usize
}

/// Links of which each stands alone: chains without a credential.
const ALONE: [Link; LINKS] = {
    let mut links = [Link { next: 0, before: 0 }; LINKS];
    let mut at = 0;
    while at < LINKS {
        links[at] = Link { next: at as Slot, before: at as Slot };
        at += 1;
    }
    links
};

/// Scatters serials over the index (the multiplier is 2^32 over the golden ratio).
fn home(serial: u32) -> usize {
    (serial.wrapping_mul(0x9e37_79b1) >> (32 - INDEX_BITS)) as usize
}

/// How far `to` stands after `from`, around the index.
fn distance(from: usize, to: usize) -> usize {
    to.wrapping_sub(from) % INDEX
}
