//! Sheets as `tillrun` reads them, parted by empty lines, and their lines.

use crate::till::form::LINE_END;

pub struct Sheet<'a> {
    /// From 1.
    pub number: usize,
    pub bytes: &'a [u8],
    /// The line of the input on which it begins, from 1.
    pub first_line: usize,
    /// What follows the empty line that ends it.
    pub rest: &'a [u8],
}

#[derive(Clone, Copy)]
pub struct Line<'a> {
    /// In the input, from 1.
    pub number: usize,
    /// Without its line end.
    pub bytes: &'a [u8],
    /// Byte 10 follows.
    pub ended: bool,
}

impl<'a> Sheet<'a> {
    pub fn lines(&self) -> Vec<Line<'a>> {
        lines(self.bytes, self.first_line)
    }

    /// `sheet 13 of 14, lines 25 to 43`
    pub fn named(&self, count: usize) -> String {
        let (first, last) = (self.first_line, self.first_line + self.lines().len().max(1) - 1);
        let lines = if first == last { format!("line {first}") } else { format!("lines {first} to {last}") };
        format!("sheet {} of {count}, {lines}", self.number)
    }

    /// The first field, as far as it is text.
    pub fn word(&self) -> String {
        first_field(self.bytes)
    }
}

/// The lines of some bytes, numbered from the first.
pub fn lines(bytes: &[u8], first: usize) -> Vec<Line<'_>> {
    let split = bytes.split_inclusive(|&byte| byte == LINE_END).zip(first..);
    split
        .map(|(line, number)| match line.strip_suffix(&[LINE_END]) {
            Some(bytes) => Line { number, bytes, ended: true },
            None => Line { number, bytes: line, ended: false },
        })
        .collect()
}

/// The bytes before the first comma or line end, as text.
pub fn first_field(bytes: &[u8]) -> String {
    let end = bytes.iter().position(|&byte| byte == b',' || byte == LINE_END).unwrap_or(bytes.len());
    String::from_utf8_lossy(&bytes[..end]).into_owned()
}

/// The sheets of an input: every empty line ends one; bytes after the last empty line, if any, are one more.
pub fn sheets(input: &[u8]) -> Vec<Sheet<'_>> {
    let (mut sheets, mut rest, mut first_line) = (Vec::new(), input, 1);
    while !rest.is_empty() {
        let end = empty_line(rest).unwrap_or(rest.len());
        let (bytes, behind) = rest.split_at(end);
        rest = behind.get(1..).unwrap_or(&[]);
        sheets.push(Sheet { number: sheets.len() + 1, bytes, first_line, rest });
        first_line += bytes.iter().filter(|&&byte| byte == LINE_END).count() + 1;
    }
    sheets
}

/// Where the first empty line stands: a byte 10 at the start or after a byte 10.
fn empty_line(bytes: &[u8]) -> Option<usize> {
    if bytes.first() == Some(&LINE_END) {
        return Some(0);
    }
    let pair = bytes.windows(2).position(|pair| pair == [LINE_END, LINE_END]);
    pair.map(|at| at + 1)
}
