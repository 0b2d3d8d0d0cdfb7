//! A refusal that was found, with its explanation; the refusals' names and short texts.

use crate::spot::Spot;
use crate::text::Text;

/// Number, name in C and short text of every refusal, a line each, parted by tabs.
const REFUSALS: &str = include_str!("../include/refusals.txt");

/// The number and the step come from the check that was found to fail.
pub struct Refused {
    pub number: u32,
    /// For 40 to 42, else 0.
    pub step: u32,
    pub text: Text,
}

impl Refused {
    /// The reference program stops where no check is found to fail: a fault of this program.
    pub fn unexplained() -> Refused {
        let mut text = Text::default();
        text.say("", "explain finds no check that fails here, but the reference program refuses: explain is wrong.");
        Refused { number: 0, step: 0, text }
    }
}

/// `no,40,5`
pub fn answer(number: u32, step: u32) -> String {
    format!("no,{number},{step}")
}

/// `no,40,5  TILL_STEP_BREAKS_RULE: a step breaks its rule`
pub fn title(number: u32, step: u32) -> String {
    match short_text(number) {
        Some((name, text)) => format!("{}  {name}: {text}", answer(number, step)),
        None => answer(number, step),
    }
}

/// Name in C and text of a refusal.
pub fn short_text(number: u32) -> Option<(&'static str, &'static str)> {
    let number = number.to_string();
    REFUSALS.lines().find_map(|line| {
        let mut fields = line.split('\t');
        (fields.next()? == number).then_some((fields.next()?, fields.next()?))
    })
}

/// What is wrong and where.
pub struct Fault<'a> {
    spot: Option<Spot<'a>>,
    what: String,
    rows: Vec<(&'static str, String)>,
}

impl<'a> Fault<'a> {
    pub fn new(spot: Spot<'a>, what: impl Into<String>) -> Fault<'a> {
        Fault { spot: Some(spot), what: what.into(), rows: Vec::new() }
    }

    /// A fault of the whole sheet.
    pub fn nowhere(what: impl Into<String>) -> Fault<'a> {
        Fault { spot: None, what: what.into(), rows: Vec::new() }
    }

    pub fn found(self, words: impl Into<String>) -> Fault<'a> {
        self.row("found", words)
    }

    pub fn allowed(self, words: impl Into<String>) -> Fault<'a> {
        self.row("allowed", words)
    }

    pub fn to_do(self, words: impl Into<String>) -> Fault<'a> {
        self.row("to do", words)
    }

    /// Advice that is given only sometimes.
    pub fn may_do(self, words: Option<String>) -> Fault<'a> {
        match words {
            Some(words) => self.to_do(words),
            None => self,
        }
    }

    pub fn row(mut self, name: &'static str, words: impl Into<String>) -> Fault<'a> {
        self.rows.push((name, words.into()));
        self
    }

    pub fn refused(self, number: u32) -> Refused {
        Refused { number, step: 0, text: self.text() }
    }

    pub fn text(self) -> Text {
        let mut text = Text::default();
        match &self.spot {
            Some(spot) => {
                text.say("", &format!("{}: {}", spot.named(), self.what));
                text.blank();
                spot.show(&mut text);
            }
            None => text.say("", &self.what),
        }
        text.blank();
        for (name, words) in &self.rows {
            text.say(&format!("  {name:<9}"), words);
        }
        text
    }
}
