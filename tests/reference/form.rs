//! Reading a request ("sheet"): one pass over the bytes settles refusals 1, 2, 3 and 43.

use super::logic::{Formula, FormulaId, Holder, Interval, Label, Step};
use super::refusal;

pub const MAX_BYTES: usize = 16_384;
pub const MAX_HOLDS: usize = 32;
pub const MAX_STEPS: usize = 256;

pub const MAX_BYTE_FIELD: u32 = 255;
pub const MAX_SESSION: u32 = 65_535;
pub const MAX_HOLDER: u32 = 65_535;
pub const MAX_MINUTE: u32 = 9_999_999;
pub const MAX_FORMULA: u32 = 999;
pub const MAX_LABEL: u32 = 63;
pub const MAX_SERIAL: u32 = 999_999;

pub const COMMA: u8 = b',';
pub const LINE_END: u8 = 10;

/// A request whose form is right.
#[derive(Clone, Copy, PartialEq, Eq, Debug)]
pub enum Request {
    Word(Formula),
    Issue { linear: bool, formula: FormulaId, interval: Interval },
    Withdraw { serial: u32 },
    Book(Booking),
    Tally { session: u16, minute: u32 },
}

/// The head line of a booking; its holds and steps stand on the `Page`.
#[derive(Clone, Copy, PartialEq, Eq, Debug)]
pub struct Booking {
    pub now: u32,
    pub formula: FormulaId,
    pub interval: Interval,
    pub holds: usize,
    pub steps: usize,
}

/// Room for the lines below a booking's head. It is filled by `read` as far as the head's counts
/// say; nothing on it is kept from one call to the next.
pub struct Page {
    pub holds: [u32; MAX_HOLDS],
    pub steps: [Step; MAX_STEPS],
}

impl Page {
    pub fn new() -> Page {
        Page { holds: [0; MAX_HOLDS], steps: [Step::OneR; MAX_STEPS] }
    }
}

/// Reads a whole request, or gives the refusal number. Refusals 3 and 43 wait until the whole form is
/// found right, since 2 comes before them, and 43 until no interval is found crossed.
pub fn read(sheet: &[u8], page: &mut Page) -> Result<Request, u32> {
    if sheet.len() > MAX_BYTES {
        return Err(refusal::OVERLONG);
    }
    let mut reader = Reader::new(sheet);
    let request = reader.request(page).ok_or(refusal::FORM)?;
    if !reader.rest.is_empty() {
        return Err(refusal::FORM);
    }
    if reader.crossed {
        return Err(refusal::INTERVAL);
    }
    if reader.unfit_break {
        return Err(refusal::BREAK);
    }
    Ok(request)
}

/// The unread rest of a request, or of a closed till's text. Every method gives None if the form or a
/// range is broken.
pub struct Reader<'a> {
    pub rest: &'a [u8],
    /// An interval with from > to was read.
    pub crossed: bool,
    /// An interval whose break does not fit was read.
    pub unfit_break: bool,
}

impl<'a> Reader<'a> {
    pub fn new(bytes: &'a [u8]) -> Reader<'a> {
        Reader { rest: bytes, crossed: false, unfit_break: false }
    }

    fn request(&mut self, page: &mut Page) -> Option<Request> {
        if self.skip(b"book,") {
            return Some(Request::Book(self.booking(page)?));
        }
        if self.skip(b"tally,") {
            let session = self.session(COMMA)?;
            return Some(Request::Tally { session, minute: self.minute(LINE_END)? });
        }
        if self.skip(b"issue,") {
            let linear = self.kind()?;
            let formula = self.formula_id(COMMA)?;
            return Some(Request::Issue { linear, formula, interval: self.interval(LINE_END)? });
        }
        if self.skip(b"withdraw,") {
            return Some(Request::Withdraw { serial: self.serial(LINE_END)? });
        }
        if self.skip(b"word,") {
            return Some(Request::Word(self.formula()?));
        }
        None
    }

    fn booking(&mut self, page: &mut Page) -> Option<Booking> {
        let head = Booking {
            now: self.minute(COMMA)?,
            formula: self.formula_id(COMMA)?,
            interval: self.interval(COMMA)?,
            holds: self.number(0, MAX_HOLDS as u32, COMMA)? as usize,
            steps: self.number(1, MAX_STEPS as u32, LINE_END)? as usize,
        };
        for hold in page.holds.iter_mut().take(head.holds) {
            if !self.skip(b"hold,") {
                return None;
            }
            *hold = self.serial(LINE_END)?;
        }
        for step in page.steps.iter_mut().take(head.steps) {
            *step = self.step()?;
        }
        Some(head)
    }

    /// `s,` single-use (linear) or `r,` standing (unrestricted).
    pub fn kind(&mut self) -> Option<bool> {
        if self.skip(b"s,") {
            return Some(true);
        }
        self.skip(b"r,").then_some(false)
    }

    pub fn formula(&mut self) -> Option<Formula> {
        let (&letter, rest) = self.rest.split_first_chunk::<2>()?;
        self.rest = rest;
        Some(match &letter {
            b"a," => {
                let predicate = self.byte_field(COMMA)?;
                Formula::Atom { predicate, session: self.session(LINE_END)? }
            }
            b"o\n" => Formula::One,
            b"t," => Formula::Tensor(self.formula_id(COMMA)?, self.formula_id(LINE_END)?),
            b"w," => Formula::With(self.formula_id(COMMA)?, self.formula_id(LINE_END)?),
            b"p," => Formula::Plus(self.formula_id(COMMA)?, self.formula_id(LINE_END)?),
            b"l," => Formula::Lolli(self.formula_id(COMMA)?, self.formula_id(LINE_END)?),
            b"u," => Formula::Implies(self.formula_id(COMMA)?, self.formula_id(LINE_END)?),
            b"b," => Formula::Bang(self.formula_id(LINE_END)?),
            b"h," => Formula::At(self.formula_id(COMMA)?, self.interval(LINE_END)?),
            b"s," => Formula::Says(self.byte_field(COMMA)?, self.formula_id(LINE_END)?),
            b"g," => Formula::Covers(self.interval(COMMA)?, self.interval(LINE_END)?),
            b"n," => {
                let (predicate, session) = (self.byte_field(COMMA)?, self.session(COMMA)?);
                Formula::Named { predicate, session, holder: self.holder(0, LINE_END)? }
            }
            b"q," => Formula::Forall(self.formula_id(LINE_END)?),
            _ => return None,
        })
    }

    /// A step line: two letters, then a comma and fields or the line's end.
    fn step(&mut self) -> Option<Step> {
        let (&name, rest) = self.rest.split_first_chunk::<3>()?;
        self.rest = rest;
        Some(match &name {
            b"ax," => Step::Init(self.label(LINE_END)?),
            b"cp," => Step::Copy(self.label(LINE_END)?),
            b"tr," => Step::TensorR(self.share(LINE_END)?),
            b"tl," => Step::TensorL(self.label(LINE_END)?),
            b"or\n" => Step::OneR,
            b"ol," => Step::OneL(self.label(LINE_END)?),
            b"wr\n" => Step::WithR,
            b"w1," => Step::WithL1(self.label(LINE_END)?),
            b"w2," => Step::WithL2(self.label(LINE_END)?),
            b"p1\n" => Step::PlusR1,
            b"p2\n" => Step::PlusR2,
            b"pl," => Step::PlusL(self.label(LINE_END)?),
            b"ll," => Step::LolliL(self.label(COMMA)?, self.share(COMMA)?, self.interval(LINE_END)?),
            b"ul," => Step::ImpliesL(self.label(COMMA)?, self.interval(LINE_END)?),
            b"br\n" => Step::BangR,
            b"bl," => Step::BangL(self.label(LINE_END)?),
            b"hr\n" => Step::AtR,
            b"hl," => Step::AtL(self.label(LINE_END)?),
            b"sr\n" => Step::SaysR,
            b"af\n" => Step::Affirms,
            b"sl," => Step::SaysL(self.label(LINE_END)?),
            b"gr\n" => Step::CoversR,
            b"al," => Step::ForallL(self.label(COMMA)?, self.holder(1, LINE_END)?),
            _ => return None,
        })
    }

    /// Steps over the text if it comes next.
    pub fn skip(&mut self, text: &[u8]) -> bool {
        match self.rest.strip_prefix(text) {
            Some(rest) => {
                self.rest = rest;
                true
            }
            None => false,
        }
    }

    fn byte(&mut self) -> Option<u8> {
        let (&byte, rest) = self.rest.split_first()?;
        self.rest = rest;
        Some(byte)
    }

    /// A decimal number without leading zeros, low to high, and the byte that ends its field.
    pub fn number(&mut self, low: u32, high: u32, end: u8) -> Option<u32> {
        let mut value = digit(self.byte()?)?;
        let zero = value == 0;
        loop {
            let byte = self.byte()?;
            if byte == end {
                return (value >= low).then_some(value);
            }
            // high is at most 9,999,999, so the product cannot overflow
            value = value * 10 + digit(byte)?;
            if zero || value > high {
                return None;
            }
        }
    }

    /// Sixteen lower-case hexadecimal digits and the byte that ends the field.
    fn share(&mut self, end: u8) -> Option<u64> {
        let (digits, rest) = self.rest.split_first_chunk::<17>()?;
        self.rest = rest;
        let mut value = 0;
        for &byte in &digits[..16] {
            let digit = match byte {
                b'0'..=b'9' => byte - b'0',
                b'a'..=b'f' => byte - b'a' + 10,
                _ => return None,
            };
            value = value << 4 | u64::from(digit);
        }
        (digits[16] == end).then_some(value)
    }

    /// Predicate or principal.
    fn byte_field(&mut self, end: u8) -> Option<u8> {
        Some(self.number(0, MAX_BYTE_FIELD, end)? as u8)
    }

    fn session(&mut self, end: u8) -> Option<u16> {
        Some(self.number(0, MAX_SESSION, end)? as u16)
    }

    /// A holder's number from `low` on: 0, for the holder bound, stands in formulas alone.
    fn holder(&mut self, low: u32, end: u8) -> Option<Holder> {
        Some(self.number(low, MAX_HOLDER, end)? as Holder)
    }

    fn minute(&mut self, end: u8) -> Option<u32> {
        self.number(0, MAX_MINUTE, end)
    }

    pub fn formula_id(&mut self, end: u8) -> Option<FormulaId> {
        self.number(0, MAX_FORMULA, end)
    }

    fn label(&mut self, end: u8) -> Option<Label> {
        Some(self.number(0, MAX_LABEL, end)? as Label)
    }

    pub fn serial(&mut self, end: u8) -> Option<u32> {
        self.number(1, MAX_SERIAL, end)
    }

    pub fn interval(&mut self, end: u8) -> Option<Interval> {
        let interval = Interval {
            from: self.minute(COMMA)?,
            to: self.minute(COMMA)?,
            first: self.minute(COMMA)?,
            last: self.minute(end)?,
        };
        self.crossed |= interval.from > interval.to;
        self.unfit_break |= !interval.break_fits();
        Some(interval)
    }
}

fn digit(byte: u8) -> Option<u32> {
    let value = byte.wrapping_sub(b'0');
    (value <= 9).then_some(u32::from(value))
}
