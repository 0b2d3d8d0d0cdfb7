//! A place in the input: the line with a caret under what is meant, and bytes by name.

use crate::input::Line;
use crate::text::Text;

/// Characters of a line that are shown; a longer one is cut around the place.
const SHOWN: usize = 88;
/// Of them, those before the place.
const BEFORE: usize = 40;

/// Bytes of one line, and the field that they are, if they are of one.
#[derive(Clone)]
pub struct Spot<'a> {
    pub line: Line<'a>,
    /// Counted from 0; the end of the line is one behind its last byte.
    pub from: usize,
    pub to: usize,
    /// `field 2, serial`
    pub field: Option<String>,
}

impl<'a> Spot<'a> {
    pub fn new(line: Line<'a>, from: usize, to: usize) -> Spot<'a> {
        Spot { line, from, to, field: None }
    }

    pub fn whole(line: Line<'a>) -> Spot<'a> {
        Spot::new(line, 0, line.bytes.len())
    }

    pub fn end(line: Line<'a>) -> Spot<'a> {
        Spot::new(line, line.bytes.len(), line.bytes.len())
    }

    /// `Line 6, columns 6 to 7 (field 2, serial)`
    pub fn named(&self) -> String {
        let mut text = format!("Line {}", self.line.number);
        if self.to > self.from + 1 && self.to - self.from < self.line.bytes.len() {
            text += &format!(", columns {} to {}", self.from + 1, self.to);
        } else if self.to <= self.from + 1 {
            text += &format!(", column {}", self.from + 1);
        }
        if let Some(field) = &self.field {
            text += &format!(" ({field})");
        }
        text
    }

    /// The line with its number, and the caret.
    pub fn show(&self, text: &mut Text) {
        let shown = Shown::new(self.line.bytes);
        let (from, to) = (shown.column(self.from), shown.column(self.to));
        let first = if shown.characters.len() <= SHOWN { 0 } else { from.saturating_sub(BEFORE) };
        let last = shown.characters.len().min(first + SHOWN);
        let line: String = shown.characters[first..last].iter().collect();
        let (dots, more) = (if first > 0 { ".." } else { "" }, if last < shown.characters.len() { ".." } else { "" });
        let carets = "^".repeat(to.min(last).saturating_sub(from).max(1));
        let gap = " ".repeat(dots.len() + from - first);
        text.line(format!("{:>7} | {dots}{line}{more}", self.line.number));
        text.line(format!("{:>7} | {gap}{carets}", ""));
    }
}

/// A line as it is shown: every byte that is no sign of its own has one.
struct Shown {
    characters: Vec<char>,
    /// For each byte, and for the end, the character that shows it.
    columns: Vec<usize>,
}

impl Shown {
    fn new(bytes: &[u8]) -> Shown {
        let mut shown = Shown { characters: Vec::new(), columns: Vec::new() };
        for chunk in bytes.utf8_chunks() {
            for character in chunk.valid().chars() {
                shown.push(visible(character), character.len_utf8());
            }
            if !chunk.invalid().is_empty() {
                shown.push(char::REPLACEMENT_CHARACTER, chunk.invalid().len());
            }
        }
        shown.columns.push(shown.characters.len());
        shown
    }

    fn push(&mut self, character: char, bytes: usize) {
        self.columns.resize(self.columns.len() + bytes, self.characters.len());
        self.characters.push(character);
    }

    fn column(&self, byte: usize) -> usize {
        self.columns.get(byte).copied().unwrap_or(self.characters.len())
    }
}

/// Control characters as their pictures; what would not be seen, or change what stands around it, as a box.
fn visible(character: char) -> char {
    match character {
        '\0'..='\x1f' => char::from_u32(0x2400 + character as u32).unwrap_or('□'),
        '\u{7f}' => '␡',
        '\u{2010}'..='\u{2027}' => character, // dashes, quotes, dots
        character if character.is_ascii() || character.is_alphanumeric() => character,
        _ => '□',
    }
}

/// Some bytes of the input as text that can be shown.
pub fn shown(bytes: &[u8]) -> String {
    Shown::new(bytes).characters.iter().collect()
}

/// The same, cut where it is long.
pub fn short(bytes: &[u8]) -> String {
    let shown = Shown::new(bytes).characters;
    let cut = if shown.len() > SHOWN { ".." } else { "" };
    shown.iter().take(SHOWN).collect::<String>() + cut
}

/// The name of the character that begins at a byte, and how many bytes it has.
pub fn name(bytes: &[u8]) -> (String, usize) {
    let first = bytes.utf8_chunks().next().and_then(|chunk| chunk.valid().chars().next());
    let named = match first {
        Some('\r') => "a carriage return (byte 13)".to_string(),
        Some('\t') => "a tab (byte 9)".to_string(),
        Some(' ') => "a space".to_string(),
        Some('\0') => "a zero byte (byte 0)".to_string(),
        Some('+') => "a plus sign".to_string(),
        Some('-') => "a minus sign".to_string(),
        Some('"' | '\'') => "a quote".to_string(),
        Some('\u{feff}') => "a UTF-8 byte order mark (bytes 239, 187, 191)".to_string(),
        Some(letter @ 'A'..='Z') => format!("the capital letter `{letter}`"),
        Some(control @ ('\x01'..='\x1f' | '\u{7f}')) => format!("the control byte {}", control as u32),
        Some(sign) if sign.is_ascii() => format!("the sign `{sign}`"),
        Some(sign) => format!("the character `{}` (U+{:04X})", visible(sign), sign as u32),
        None => format!("byte {}", bytes.first().copied().unwrap_or(0)),
    };
    (named, first.map_or(1, char::len_utf8))
}
