//! The till as text, between closing and opening (document 02, asks 5 and 8): refusals 50, 51 and 52.

use super::credentials::{Credential, MAX_LIVE};
use super::form::{Reader, COMMA, LINE_END, MAX_SERIAL};
use super::formulas::MAX_FORMULAS;
use super::logic::{Formula, Interval};
use super::{refusal, Till};

/// How the first line of a text begins, in the first edition and in the second.
const FIRST: &[u8] = b"till,1,";
const SECOND: &[u8] = b"till,2,";
/// The most live credentials of a till that is written in the first edition.
const FIRST_LIVE: usize = 512;
/// What the next serial may be at most: then none is left.
pub const MAX_NEXT: u32 = MAX_SERIAL + 1;

/// Bytes of the longest text: the first line, 200 lines `g` and 2,048 credentials, every number as long
/// as its range has one.
pub const MAX_TEXT: usize = 24 + 66 * MAX_FORMULAS + 45 * MAX_LIVE;

#[allow(dead_code)] // not every program that has a till closes and opens it
impl Till {
    /// Closing: writes the till into the buffer and gives the number of bytes. Bytes past them stay,
    /// and so does the till. Refusal 52 leaves the buffer as before.
    pub fn close(&self, buffer: &mut [u8]) -> Result<usize, u32> {
        let mut writer = Writer { text: [0; MAX_TEXT], length: 0 };
        writer.till(self);
        let text = &writer.text[..writer.length];
        buffer.get_mut(..text.len()).ok_or(refusal::BUFFER)?.copy_from_slice(text);
        Ok(text.len())
    }

    /// Opening: the till that the text says.
    pub fn open(text: &[u8]) -> Result<Till, u32> {
        let mut till = Till::new();
        till.read(text)?;
        Ok(till)
    }

    /// Opening where a till is: the one that the text says takes its place. Gives the number of bytes
    /// read. A refusal leaves the till as before.
    pub fn reopen(&mut self, text: &[u8]) -> Result<usize, u32> {
        let mut till = Till::new();
        till.read(text)?;
        *self = till;
        Ok(text.len())
    }

    /// Reads a whole text into an empty till. Refusal 51 waits until the whole form is found right. A
    /// till that is refused is of no use.
    fn read(&mut self, text: &[u8]) -> Result<(), u32> {
        let mut reader = Reader::new(text);
        let rules_kept = self.read_lines(&mut reader).ok_or(refusal::TEXT_FORM)?;
        if !reader.rest.is_empty() {
            return Err(refusal::TEXT_FORM);
        }
        if !rules_kept || reader.crossed || reader.unfit_break {
            return Err(refusal::TEXT_RULE);
        }
        Ok(())
    }

    /// Reads the lines in one pass, each held against those before it. None if the form is broken;
    /// otherwise whether the rules are kept, save 3 and 43, which the reader notes.
    fn read_lines(&mut self, reader: &mut Reader) -> Option<bool> {
        let edition = [FIRST, SECOND].into_iter().find(|edition| reader.skip(edition))?;
        let next = reader.number(1, MAX_NEXT, COMMA)?;
        let formulas = reader.number(0, MAX_FORMULAS as u32, COMMA)?;
        let credentials = reader.number(0, MAX_LIVE as u32, LINE_END)?;
        let (mut rules_kept, mut holders) = (true, false);
        for _ in 0..formulas {
            let line = reader.formula()?;
            holders |= line.is_of_holders();
            // 10, 53, 12, 13; there is room for all that are counted, so not 14
            rules_kept &= self.formulas.add(line).is_ok();
        }
        if edition != edition_of(holders, credentials as usize) {
            return None;
        }
        let mut before = 0;
        for _ in 0..credentials {
            let credential = read_credential(reader)?;
            if credential.serial <= before {
                return None;
            }
            before = credential.serial;
            // 10, 53, 20, 21
            rules_kept &= self.check_kind(credential.linear, credential.formula).is_ok();
            if rules_kept {
                self.credentials.put(credential);
            }
        }
        self.credentials.set_next(next);
        // serials rise, so the last one speaks for all
        Some(rules_kept && before < next)
    }
}

/// How the first line begins: in the second edition if some formula is an `n` or a `q`, used or not, or
/// if more than 512 credentials are live, otherwise in the first.
pub fn edition_of(holders: bool, live: usize) -> &'static [u8] {
    if holders || live > FIRST_LIVE {
        SECOND
    } else {
        FIRST
    }
}

/// A line `serial,kind,wording,from,to,first,last`.
pub fn read_credential(reader: &mut Reader) -> Option<Credential> {
    Some(Credential {
        serial: reader.serial(COMMA)?,
        linear: reader.kind()?,
        formula: reader.formula_id(COMMA)?,
        interval: reader.interval(LINE_END)?,
    })
}

/// The text as far as it is written.
struct Writer {
    text: [u8; MAX_TEXT],
    length: usize,
}

impl Writer {
    fn till(&mut self, till: &Till) {
        let lines = till.formulas.lines();
        let holders = lines.iter().any(|line| line.is_of_holders());
        self.bytes(edition_of(holders, till.credentials.count()));
        self.number(till.credentials.next(), COMMA);
        self.number(lines.len() as u32, COMMA);
        self.number(till.credentials.count() as u32, LINE_END);
        for &line in lines {
            self.formula(line);
        }
        for credential in till.credentials.rising() {
            self.credential(credential);
        }
    }

    fn credential(&mut self, credential: &Credential) {
        self.number(credential.serial, COMMA);
        self.bytes(if credential.linear { b"s," } else { b"r," });
        self.number(credential.formula, COMMA);
        self.interval(credential.interval, LINE_END);
    }

    fn formula(&mut self, line: Formula) {
        match line {
            Formula::Atom { predicate, session } => self.pair(b"a,", predicate.into(), session.into()),
            Formula::One => self.bytes(b"o\n"),
            Formula::Tensor(i, j) => self.pair(b"t,", i, j),
            Formula::With(i, j) => self.pair(b"w,", i, j),
            Formula::Plus(i, j) => self.pair(b"p,", i, j),
            Formula::Lolli(i, j) => self.pair(b"l,", i, j),
            Formula::Implies(i, j) => self.pair(b"u,", i, j),
            Formula::Bang(i) => self.single(b"b,", i),
            Formula::At(i, interval) => {
                self.bytes(b"h,");
                self.number(i, COMMA);
                self.interval(interval, LINE_END);
            }
            Formula::Says(principal, i) => self.pair(b"s,", principal.into(), i),
            Formula::Covers(one, other) => {
                self.bytes(b"g,");
                self.interval(one, COMMA);
                self.interval(other, LINE_END);
            }
            Formula::Named { predicate, session, holder } => {
                self.bytes(b"n,");
                self.number(predicate.into(), COMMA);
                self.number(session.into(), COMMA);
                self.number(holder.into(), LINE_END);
            }
            Formula::Forall(i) => self.single(b"q,", i),
        }
    }

    /// A line of a letter and one number.
    fn single(&mut self, letter: &[u8; 2], number: u32) {
        self.bytes(letter);
        self.number(number, LINE_END);
    }

    /// A line of a letter and two numbers.
    fn pair(&mut self, letter: &[u8; 2], left: u32, right: u32) {
        self.bytes(letter);
        self.number(left, COMMA);
        self.number(right, LINE_END);
    }

    fn interval(&mut self, interval: Interval, end: u8) {
        self.number(interval.from, COMMA);
        self.number(interval.to, COMMA);
        self.number(interval.first, COMMA);
        self.number(interval.last, end);
    }

    /// A decimal number without leading zeros, and the byte that ends its field.
    fn number(&mut self, mut value: u32, end: u8) {
        let mut at = digit_count(value);
        let field = &mut self.text[self.length..][..=at];
        self.length += field.len();
        field[at] = end;
        // two digits at a time, the last first
        while at >= 2 {
            at -= 2;
            field[at..at + 2].copy_from_slice(&PAIRS[value as usize % 100]);
            value /= 100;
        }
        if at == 1 {
            field[0] = b'0' + value as u8;
        }
    }

    fn bytes(&mut self, bytes: &[u8]) {
        self.text[self.length..][..bytes.len()].copy_from_slice(bytes);
        self.length += bytes.len();
    }
}

fn digit_count(value: u32) -> usize {
    value.checked_ilog10().map_or(1, |log| log as usize + 1)
}

/// The digits of 00 to 99.
const PAIRS: [[u8; 2]; 100] = {
    let mut pairs = [[b'0'; 2]; 100];
    let mut number = 0u8;
    while number < 100 {
        pairs[number as usize] = [b'0' + number / 10, b'0' + number % 10];
        number += 1;
    }
    pairs
};
