//! Lines of an explanation.

use std::fmt;

/// Longer lines are wrapped at a space.
const WIDTH: usize = 100;

#[derive(Default)]
pub struct Text {
    lines: Vec<String>,
}

impl Text {
    pub fn line(&mut self, line: impl Into<String>) {
        self.lines.push(line.into());
    }

    pub fn blank(&mut self) {
        self.line("");
    }

    /// A paragraph after a mark; its further lines stand under the first word.
    pub fn say(&mut self, mark: &str, words: &str) {
        let (mut line, mut begun) = (mark.to_string(), false);
        for word in words.split(' ') {
            if begun && width(&line) + 1 + width(word) > WIDTH {
                self.lines.push(std::mem::take(&mut line));
                line = " ".repeat(width(mark));
                begun = false;
            }
            if begun {
                line.push(' ');
            }
            line.push_str(word);
            begun = true;
        }
        self.lines.push(line);
    }

    pub fn add(&mut self, text: &Text) {
        self.lines.extend_from_slice(&text.lines);
    }
}

impl fmt::Display for Text {
    fn fmt(&self, formatter: &mut fmt::Formatter) -> fmt::Result {
        self.lines.iter().try_for_each(|line| writeln!(formatter, "{line}"))
    }
}

pub fn width(text: &str) -> usize {
    text.chars().count()
}

/// A number as the documents write it: 65,535.
pub fn grouped(number: u32) -> String {
    let digits = number.to_string();
    let mut text = String::new();
    for (at, digit) in digits.chars().enumerate() {
        if at > 0 && (digits.len() - at) % 3 == 0 {
            text.push(',');
        }
        text.push(digit);
    }
    text
}

/// `a`, `a and b`, `a, b and c`.
pub fn listed(items: &[String]) -> String {
    match items {
        [] => "none".to_string(),
        [one] => one.clone(),
        [firsts @ .., last] => format!("{} and {last}", firsts.join(", ")),
    }
}

/// `1 line`, `2 lines`.
pub fn counted(count: usize, what: &str) -> String {
    format!("{count} {what}{}", if count == 1 { "" } else { "s" })
}
