//! The form of a sheet (η-logic's request): lines, fields and ranges, and nothing else.

use super::wording::{with_break, Window, LAST_HOLDER, LAST_MINUTE, LAST_SESSION};

#[derive(Clone, Copy, PartialEq, Eq, Debug)]
pub enum Kind {
    /// Single-use (η-logic's linear).
    Single,
    /// Standing (η-logic's unrestricted).
    Standing,
}

/// A wording line with its references still numbers.
#[derive(Clone, PartialEq, Eq, Debug)]
pub struct WordingLine {
    pub letter: char,
    pub refs: Vec<u32>,
    pub numbers: Vec<u32>,
    pub windows: Vec<Window>,
    pub text: String,
}

/// What a booking's checks outside the steps look at.
#[derive(Clone, PartialEq, Eq, Debug)]
pub struct BookHead {
    pub now: u32,
    pub wording: u32,
    pub window: Window,
    pub holds: Vec<u32>,
    pub step_windows: Vec<Window>,
}

/// A sheet (η-logic's request) of good form.
#[derive(Clone, PartialEq, Eq, Debug)]
pub enum Sheet {
    Word(WordingLine),
    Issue(Kind, u32, Window),
    Withdraw(u32),
    Book(BookHead),
    Tally(u32, u32),
}

/// A number of the house form, between lo and hi.
pub fn number(field: &str, lo: u32, hi: u32) -> Option<u32> {
    let digits = !field.is_empty() && field.len() <= 7 && field.bytes().all(|b| b.is_ascii_digit());
    if !digits || (field.len() > 1 && field.starts_with('0')) {
        return None;
    }
    field.parse().ok().filter(|n| lo <= *n && *n <= hi)
}

fn minute(field: &str) -> Option<u32> {
    number(field, 0, LAST_MINUTE)
}

/// A predicate or a principal.
fn byte(field: &str) -> Option<u32> {
    number(field, 0, 255)
}

fn session(field: &str) -> Option<u32> {
    number(field, 0, LAST_SESSION)
}

pub fn wording(field: &str) -> Option<u32> {
    number(field, 0, 999)
}

pub fn serial(field: &str) -> Option<u32> {
    number(field, 1, 999_999)
}

fn label(field: &str) -> Option<u32> {
    number(field, 0, 63)
}

fn share(field: &str) -> Option<()> {
    let good = field.bytes().all(|b| b.is_ascii_digit() || (b'a'..=b'f').contains(&b));
    (field.len() == 16 && good).then_some(())
}

/// The four fields of a window.
pub fn span(fields: &[&str]) -> Option<Window> {
    let [from, to, first, last] = fields else { return None };
    Some(with_break(minute(from)?, minute(to)?, minute(first)?, minute(last)?))
}

pub fn wording_line(fields: &[&str]) -> Option<WordingLine> {
    let mut line = WordingLine {
        letter: fields.first()?.chars().next()?,
        refs: vec![],
        numbers: vec![],
        windows: vec![],
        text: fields.join(","),
    };
    match fields {
        ["a", p, s] => line.numbers = vec![byte(p)?, session(s)?],
        ["n", p, s, h] => line.numbers = vec![byte(p)?, session(s)?, number(h, 0, LAST_HOLDER)?],
        ["o"] => {}
        ["t" | "w" | "p" | "l" | "u", i, j] => line.refs = vec![wording(i)?, wording(j)?],
        ["b" | "q", i] => line.refs = vec![wording(i)?],
        ["h", i, w @ ..] => {
            line.refs = vec![wording(i)?];
            line.windows = vec![span(w)?];
        }
        ["s", k, i] => {
            line.numbers = vec![byte(k)?];
            line.refs = vec![wording(i)?];
        }
        ["g", a, b, c, d, w @ ..] => line.windows = vec![span(&[a, b, c, d])?, span(w)?],
        _ => return None,
    }
    Some(line)
}

/// The windows that a step line names, if its form is right.
fn step_line(line: &str) -> Option<Vec<Window>> {
    let fields: Vec<&str> = line.split(',').collect();
    match fields.as_slice() {
        ["or" | "wr" | "p1" | "p2" | "br" | "hr" | "sr" | "af" | "gr"] => Some(vec![]),
        ["ax" | "cp" | "tl" | "ol" | "w1" | "w2" | "pl" | "bl" | "hl" | "sl", l] => {
            label(l)?;
            Some(vec![])
        }
        ["al", l, h] => {
            label(l)?;
            number(h, 1, LAST_HOLDER)?;
            Some(vec![])
        }
        ["tr", s] => share(s).map(|()| vec![]),
        ["ll", l, s, w @ ..] => {
            label(l)?;
            share(s)?;
            Some(vec![span(w)?])
        }
        ["ul", l, w @ ..] => {
            label(l)?;
            Some(vec![span(w)?])
        }
        _ => None,
    }
}

fn hold_line(line: &str) -> Option<u32> {
    serial(line.strip_prefix("hold,")?)
}

fn book(fields: &[&str], rest: &[&str]) -> Option<Sheet> {
    let [now, goal, w @ .., holds, steps] = fields else { return None };
    let (holds, steps) = (number(holds, 0, 32)? as usize, number(steps, 1, 256)? as usize);
    if rest.len() != holds + steps {
        return None;
    }
    let mut head = BookHead {
        now: minute(now)?,
        wording: wording(goal)?,
        window: span(w)?,
        holds: vec![],
        step_windows: vec![],
    };
    for line in &rest[..holds] {
        head.holds.push(hold_line(line)?);
    }
    for line in &rest[holds..] {
        head.step_windows.extend(step_line(line)?);
    }
    Some(Sheet::Book(head))
}

fn lines(text: &str) -> Option<Sheet> {
    let lines: Vec<&str> = text.strip_suffix('\n')?.split('\n').collect();
    let fields: Vec<&str> = lines[0].split(',').collect();
    if fields[0] == "book" {
        return book(&fields[1..], &lines[1..]);
    }
    if lines.len() != 1 {
        return None;
    }
    match fields.as_slice() {
        ["word", line @ ..] => wording_line(line).map(Sheet::Word),
        ["issue", kind @ ("s" | "r"), n, w @ ..] => {
            let kind = if *kind == "s" { Kind::Single } else { Kind::Standing };
            Some(Sheet::Issue(kind, wording(n)?, span(w)?))
        }
        ["withdraw", s] => serial(s).map(Sheet::Withdraw),
        ["tally", s, m] => Some(Sheet::Tally(session(s)?, minute(m)?)),
        _ => None,
    }
}

/// Checks 1 to 3 and 43, which look at the sheet alone; else the sheet.
pub fn read(sheet: &[u8]) -> Result<Sheet, u32> {
    if sheet.len() > 16_384 {
        return Err(1);
    }
    let text = std::str::from_utf8(sheet).map_err(|_| 2u32)?;
    let sheet = lines(text).ok_or(2u32)?;
    let windows = match &sheet {
        Sheet::Word(line) => line.windows.clone(),
        Sheet::Issue(_, _, w) => vec![*w],
        Sheet::Book(head) => [&[head.window], head.step_windows.as_slice()].concat(),
        _ => vec![],
    };
    if windows.iter().any(|w| w.from > w.to) {
        return Err(3);
    }
    if !windows.iter().all(|w| w.break_fits()) {
        return Err(43);
    }
    Ok(sheet)
}
