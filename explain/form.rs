//! One line held against its form: its word, its bytes, the count of its fields, each field.

use crate::forms::{allowed, find, Allowed, Form};
use crate::input::Line;
use crate::refused::Fault;
use crate::spot::{name, short, shown, Spot};
use crate::text::{counted, grouped};
use std::ops::Range;

/// Bytes of a share.
const SHARE: usize = 16;

/// A line that has its form.
pub struct Read<'a> {
    pub line: Line<'a>,
    pub form: &'static Form,
    /// Where its fields stand, the word among them, and how many commas stand before the first.
    fields: Vec<Range<usize>>,
    before: usize,
}

impl<'a> Read<'a> {
    /// The name, the place and the value of each field that is a number.
    pub fn numbers(&self) -> Vec<(&'static str, usize, u32)> {
        let places = self.form.before()..;
        places.zip(self.form.names()).filter_map(|(at, name)| Some((name, at, self.number(at)?))).collect()
    }

    /// The number in the first field of that name.
    pub fn value(&self, name: &str) -> Option<u32> {
        self.numbers().iter().find(|(its, ..)| *its == name).map(|&(.., value)| value)
    }

    fn number(&self, at: usize) -> Option<u32> {
        let bytes = &self.line.bytes[self.fields[at].clone()];
        std::str::from_utf8(bytes).ok()?.parse().ok()
    }

    /// The place of a field.
    pub fn spot(&self, at: usize) -> Spot<'a> {
        self.spots(at, at)
    }

    /// The place of the field of that name.
    pub fn spot_of(&self, name: &str) -> Spot<'a> {
        let at = self.form.names().position(|its| its == name).unwrap_or(0);
        self.spot(self.form.before() + at)
    }

    /// The place from one field to the next.
    pub fn spots(&self, first: usize, last: usize) -> Spot<'a> {
        let of = |at: usize| called(self.form.names().nth(at.wrapping_sub(self.form.before())).unwrap_or("word"));
        let (number, until) = (self.before + first + 1, self.before + last + 1);
        let field = if first == last {
            format!("field {number}, {}", of(first))
        } else {
            format!("fields {number} and {until}, {} and {}", of(first), of(last))
        };
        let (from, to) = (self.fields[first].start, self.fields[last].end);
        Spot { field: Some(field), ..Spot::new(self.line, from, to) }
    }

    /// The bytes behind the word `word,` too, as a text's line has them.
    pub fn bytes(&self) -> &'a [u8] {
        &self.line.bytes[self.fields[0].start..]
    }
}

/// Reads a line from the byte `start` on, by the form whose word it has. `kind` is what the forms are: "step", ..
pub fn read<'a>(
    line: Line<'a>,
    start: usize,
    forms: &'static [Form],
    kind: &'static str,
) -> Result<Read<'a>, Fault<'a>> {
    let fields = split(line.bytes, start);
    let before = line.bytes[..start].iter().filter(|&&byte| byte == b',').count();
    let form = match forms {
        [only] if only.word.is_empty() => Some(only),
        _ => find(forms, &line.bytes[fields[0].clone()]),
    };
    right_bytes(line, start, form)?;
    let form = form.ok_or_else(|| unknown_word(line, &fields[0], forms, kind))?;
    let read = Read { line, form, fields, before };
    right_count(&read)?;
    for (at, name) in (form.before()..).zip(form.names()) {
        right_field(&read, at, name)?;
    }
    if !line.ended {
        return Err(no_line_end(line));
    }
    Ok(read)
}

/// The fields of a line, parted by commas.
fn split(bytes: &[u8], start: usize) -> Vec<Range<usize>> {
    let mut from = start;
    let parts = bytes[start..].split(|&byte| byte == b',');
    parts
        .map(|part| {
            let field = from..from + part.len();
            from = field.end + 1;
            field
        })
        .collect()
}

/// No byte but small letters, digits and commas.
fn right_bytes<'a>(line: Line<'a>, start: usize, form: Option<&'static Form>) -> Result<(), Fault<'a>> {
    let fine = |byte: &u8| byte.is_ascii_lowercase() || byte.is_ascii_digit() || *byte == b',';
    let Some(at) = line.bytes[start..].iter().position(|byte| !fine(byte)).map(|at| start + at) else {
        return Ok(());
    };
    let commas = |bytes: &[u8]| bytes.iter().filter(|&&byte| byte == b',').count();
    let (before, place) = (commas(&line.bytes[..start]), commas(&line.bytes[start..at]));
    // a carriage return at the end of the line is of no field
    let ends = line.bytes[at] == b'\r' && at + 1 == line.bytes.len();
    let named = |form: &'static Form| Some((form, form.names().nth(place.wrapping_sub(form.before()))?));
    let field = form.filter(|_| !ends).and_then(named);
    let may = match field {
        Some((form, field)) => allowed(form, field).words(),
        None => "small letters, digits and commas; each line ends with byte 10 alone".to_string(),
    };
    let (found, length) = name(&line.bytes[at..]);
    let mut spot = Spot::new(line, at, at + length);
    spot.field = field.map(|(_, field)| format!("field {}, {}", before + place + 1, called(field)));
    let fault = Fault::new(spot, "a byte that does not belong here");
    Err(fault.found(found).allowed(may).may_do(cure(line, at)))
}

/// The name of a field in a sentence.
fn called(name: &'static str) -> &'static str {
    match name {
        "L" => "label L",
        "i" => "wording i",
        "j" => "wording j",
        name => name,
    }
}

/// What to do about an odd byte.
fn cure(line: Line, at: usize) -> Option<String> {
    let byte = line.bytes[at];
    let words = match byte {
        b'\r' if at + 1 == line.bytes.len() => {
            "The file has Windows line ends (bytes 13 and 10). Save it with line ends of byte 10 alone, which editors \
             call LF or Unix. As it is, its empty lines are not empty for the till either, and part no sheets."
        }
        b' ' | b'\t' => "Take it out: a sheet has no blanks, at the end of a line neither.",
        b'A'..=b'Z' => return Some(format!("Write it small: `{}`.", byte.to_ascii_lowercase() as char)),
        b'+' | b'-' => "Take the sign out: numbers have none.",
        b'"' | b'\'' => "Take the quotes out: nothing is quoted.",
        b';' | b':' | b'.' | b'|' => "Fields are parted by commas, and numbers have no point.",
        0xef if line.bytes[at..].starts_with(b"\xef\xbb\xbf") => {
            "The file begins with a mark that some editors write first. Save it as UTF-8 without BOM, or as ASCII."
        }
        _ => return None,
    };
    Some(words.to_string())
}

fn unknown_word<'a>(
    line: Line<'a>,
    word: &Range<usize>,
    forms: &'static [Form],
    kind: &'static str,
) -> Fault<'a> {
    let (from, to) = (word.start, word.end);
    let words: Vec<&str> = forms.iter().map(|form| form.word).collect();
    let what = match (line.bytes.is_empty(), from == to) {
        (true, _) => "an empty line".to_string(),
        (_, true) => format!("no word stands where a {kind} begins"),
        _ => format!("`{}` is no {kind}", short(&line.bytes[from..to])),
    };
    let allowed = match words[..] {
        [only] => format!("`{only}`: {}", forms[0].spelled()),
        _ => format!("one of {}", words.join(", ")),
    };
    let fault = Fault::new(Spot::new(line, from, to), what).allowed(allowed);
    fault.may_do(crate::lines::misplaced(&line.bytes[from..], kind))
}

fn right_count<'a>(read: &Read<'a>) -> Result<(), Fault<'a>> {
    let (found, due) = (read.fields.len(), read.form.count());
    if found == due {
        return Ok(());
    }
    let line = read.line;
    let (spot, what) = match read.fields.get(due) {
        Some(field) => (Spot::new(line, field.start - 1, line.bytes.len()), "too many fields"),
        None => (Spot::end(line), "too few fields"),
    };
    let fault = Fault::new(spot, what)
        .found(format!("{}: `{}`", counted(found + read.before, "field"), short(line.bytes)))
        .allowed(format!("{}: `{}{}`", counted(due + read.before, "field"), front(read), read.form.spelled()));
    Err(fault.may_do(window_fields(read, found, due)))
}

/// What stands before the form on its line: `word,` or nothing.
fn front(read: &Read) -> String {
    shown(&read.line.bytes[..read.fields[0].start])
}

/// Windows of the old length, or with a break of one field.
fn window_fields(read: &Read, found: usize, due: usize) -> Option<String> {
    let windows = read.form.windows();
    let short = windows > 0 && found < due && due - found <= 2 * windows;
    let words = "A window has four fields: from, to, and its break's first and last minute. Without a break write 0,0 \
                 after to: `540,600,0,0`.";
    short.then(|| words.to_string())
}

fn right_field<'a>(read: &Read<'a>, at: usize, name: &str) -> Result<(), Fault<'a>> {
    let bytes = &read.line.bytes[read.fields[at].clone()];
    let allowed = allowed(read.form, name);
    let fault = match &allowed {
        Allowed::Number { low, high, .. } => number_fault(bytes, *low, *high),
        Allowed::Share => share_fault(bytes),
        Allowed::Kind => (bytes != b"s" && bytes != b"r").then(|| ("no kind".to_string(), None)),
    };
    let Some((what, cure)) = fault else {
        return Ok(());
    };
    let found = if bytes.is_empty() { "nothing".to_string() } else { format!("`{}`", short(bytes)) };
    Err(Fault::new(read.spot(at), what).found(found).allowed(allowed.words()).may_do(cure))
}

type Found = Option<(String, Option<String>)>;

/// What is wrong with a number, and what to do about it.
fn number_fault(bytes: &[u8], low: u32, high: u32) -> Found {
    let text = shown(bytes);
    if bytes.is_empty() {
        return Some(("an empty field".to_string(), Some("Write a number; an empty field is not 0.".to_string())));
    }
    if let Some(odd) = bytes.iter().find(|byte| !byte.is_ascii_digit()) {
        return Some((format!("`{}` is no digit", *odd as char), None));
    }
    if bytes.len() > 1 && bytes[0] == b'0' {
        let right = text.trim_start_matches('0');
        let right = if right.is_empty() { "0" } else { right };
        return Some(("a number with a leading zero".to_string(), Some(format!("Write {right}."))));
    }
    let value: u64 = text.parse().unwrap_or(u64::MAX);
    if value > u64::from(high) {
        return Some((format!("a number over its range, which ends with {}", grouped(high)), None));
    }
    if value < u64::from(low) {
        return Some((format!("a number below its range, which begins with {low}"), None));
    }
    None
}

fn share_fault(bytes: &[u8]) -> Found {
    let odd = bytes.iter().find(|byte| !matches!(byte, b'0'..=b'9' | b'a'..=b'f'));
    if let Some(odd) = odd {
        return Some((format!("`{}` is no digit of a share", *odd as char), None));
    }
    if bytes.len() == SHARE {
        return None;
    }
    let cure = (bytes.len() < SHARE).then(|| format!("Fill it up with zeros in front: {:0>16}.", shown(bytes)));
    Some((format!("a share of {}", counted(bytes.len(), "digit")), cure))
}

fn no_line_end(line: Line) -> Fault {
    Fault::new(Spot::end(line), "the last line has no line end")
        .found("the end of all bytes")
        .allowed("byte 10 at the end of every line, of the last one too")
        .to_do("End the line; a file that was cut off has to be fetched again.")
}
