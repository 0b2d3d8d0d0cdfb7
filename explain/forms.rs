//! The forms of all lines, as the documents write them, and what each field allows.

use crate::text::grouped;
use crate::till::credentials::MAX_LIVE;
use crate::till::form::{MAX_BYTE_FIELD, MAX_FORMULA, MAX_HOLDER, MAX_LABEL, MAX_MINUTE, MAX_SERIAL, MAX_SESSION};
use crate::till::form::{MAX_HOLDS, MAX_STEPS};
use crate::till::formulas::MAX_FORMULAS;
use crate::till::saved::MAX_NEXT;

/// A line: its first word, if it has one, and the names of its fields.
pub struct Form {
    pub word: &'static str,
    pub fields: &'static str,
}

const fn form(word: &'static str, fields: &'static str) -> Form {
    Form { word, fields }
}

pub static SHEETS: [Form; 5] = [
    form("word", "a wording line"),
    form("issue", "kind,wording,from,to,first,last"),
    form("withdraw", "serial"),
    form("book", "now,wording,from,to,first,last,holds,steps"),
    form("tally", "session,minute"),
];

pub static WORDINGS: [Form; 13] = [
    form("a", "predicate,session"),
    form("o", ""),
    form("t", "i,j"),
    form("w", "i,j"),
    form("p", "i,j"),
    form("l", "i,j"),
    form("u", "i,j"),
    form("b", "i"),
    form("h", "i,from,to,first,last"),
    form("s", "principal,i"),
    form("g", "from,to,first,last,from,to,first,last"),
    form("n", "predicate,session,holder"),
    form("q", "i"),
];

pub static HOLD: [Form; 1] = [form("hold", "serial")];

pub static STEPS: [Form; 23] = [
    form("ax", "L"),
    form("cp", "L"),
    form("tr", "share"),
    form("tl", "L"),
    form("or", ""),
    form("ol", "L"),
    form("wr", ""),
    form("w1", "L"),
    form("w2", "L"),
    form("p1", ""),
    form("p2", ""),
    form("pl", "L"),
    form("ll", "L,share,from,to,first,last"),
    form("ul", "L,from,to,first,last"),
    form("br", ""),
    form("bl", "L"),
    form("hr", ""),
    form("hl", "L"),
    form("sr", ""),
    form("af", ""),
    form("sl", "L"),
    form("gr", ""),
    form("al", "L,holder"),
];

/// The first line of a till's text.
pub static TITLE: [Form; 1] = [form("till", "edition,next,wordings,coupons")];

/// A coupon of a till's text.
pub static COUPON: [Form; 1] = [form("", "serial,kind,wording,from,to,first,last")];

impl Form {
    /// The names of its fields, without the word.
    pub fn names(&self) -> impl Iterator<Item = &'static str> {
        self.fields.split(',').filter(|name| !name.is_empty())
    }

    /// How many fields it has, the word among them.
    pub fn count(&self) -> usize {
        self.before() + self.names().count()
    }

    /// Fields before the named ones: the word.
    pub fn before(&self) -> usize {
        usize::from(!self.word.is_empty())
    }

    pub fn windows(&self) -> usize {
        self.names().filter(|&name| name == "from").count()
    }

    /// `issue,kind,wording,from,to,first,last`
    pub fn spelled(&self) -> String {
        let parts = [self.word, self.fields];
        parts.into_iter().filter(|part| !part.is_empty()).collect::<Vec<_>>().join(",")
    }
}

/// A form by its word.
pub fn find(forms: &'static [Form], word: &[u8]) -> Option<&'static Form> {
    forms.iter().find(|form| form.word.as_bytes() == word)
}

/// What a field allows.
pub enum Allowed {
    /// A range, and what its numbers are.
    Number { low: u32, high: u32, what: &'static str },
    Share,
    Kind,
}

/// What the field of that name allows in a line of that form.
pub fn allowed(form: &Form, name: &str) -> Allowed {
    let number = |low, high, what| Allowed::Number { low, high, what };
    match name {
        "predicate" => number(0, MAX_BYTE_FIELD, "a predicate (1 is a seat, 2 a place, others are free)"),
        "principal" => number(0, MAX_BYTE_FIELD, "a principal (1 is the house)"),
        "session" => number(0, MAX_SESSION, "a session"),
        "holder" if form.word == "al" => number(1, MAX_HOLDER, "the holder to be put in"),
        "holder" => number(0, MAX_HOLDER, "a holder (0 is the one that `q` binds)"),
        "wording" | "i" | "j" => number(0, MAX_FORMULA, "the number of a wording"),
        "serial" => number(1, MAX_SERIAL, "a coupon's serial"),
        "L" => number(0, MAX_LABEL, "a label"),
        "holds" => number(0, MAX_HOLDS as u32, "how many hold lines follow"),
        "steps" => number(1, MAX_STEPS as u32, "how many step lines follow the holds"),
        "next" => number(1, MAX_NEXT, "the next serial"),
        "wordings" => number(0, MAX_FORMULAS as u32, "how many wordings follow"),
        "coupons" => number(0, MAX_LIVE as u32, "how many coupons follow the wordings"),
        "share" => Allowed::Share,
        "kind" => Allowed::Kind,
        "edition" => number(1, 2, "the edition of the text"),
        // now, minute, and a window's from, to, first, last
        _ => number(0, MAX_MINUTE, "a minute"),
    }
}

impl Allowed {
    pub fn words(&self) -> String {
        match self {
            Allowed::Number { low, high, what } => {
                let range = format!("{} to {}", grouped(*low), grouped(*high));
                format!("{what}: {range}, in digits, without leading zero, sign, space or comma")
            }
            Allowed::Share => "a share: 16 digits 0 to 9 and a to f, label k worth 2 to the k".to_string(),
            Allowed::Kind => "a kind: `s`, single-use, or `r`, standing".to_string(),
        }
    }
}
