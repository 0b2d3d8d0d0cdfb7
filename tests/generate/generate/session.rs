//! A session: sheets played from an empty till, each with the answer due, and the desk that makes one.

use super::form::Kind;
use super::model::{Answer, Model, Steps};
use super::rng::Rng;
use super::text;
use super::wording::*;

/// What is asked of the till.
#[derive(Clone, Copy, PartialEq, Eq, Debug)]
pub enum Call {
    Sheet,
    /// The till is written as text.
    Close,
    /// The bytes are a text to be read.
    Open,
}

/// One sheet (η-logic's request) or text, the answer due (None: not known) and what it stands for.
pub struct Case {
    pub call: Call,
    pub sheet: Vec<u8>,
    pub expected: Option<Answer>,
    /// The text that closing writes.
    pub written: Vec<u8>,
    pub marks: Vec<&'static str>,
}

impl Case {
    pub fn new(call: Call, sheet: &[u8], expected: Option<Answer>) -> Case {
        Case { call, sheet: sheet.to_vec(), expected, written: vec![], marks: vec![] }
    }
}

pub struct Session {
    pub name: String,
    pub seed: u64,
    pub cases: Vec<Case>,
}

/// Makes a session, keeping the model of the till beside it.
#[derive(Default)]
pub struct Desk {
    pub model: Model,
    pub cases: Vec<Case>,
    /// Set once an answer is unknown: from then on only checks 1 to 3 and 43 are known.
    lost: bool,
}

impl Desk {
    pub fn new() -> Desk {
        Desk::default()
    }

    pub fn session(self, name: &str, seed: u64) -> Session {
        Session { name: name.to_string(), seed, cases: self.cases }
    }

    /// Plays a sheet; the model answers.
    pub fn play(&mut self, sheet: &[u8], steps: Steps) -> Option<Answer> {
        let expected = match super::form::read(sheet) {
            Err(number) => Some(Answer::Refused(number, 0)),
            Ok(_) if self.lost => None,
            Ok(_) => self.model.answer(sheet, steps),
        };
        self.lost |= expected.is_none();
        self.cases.push(Case::new(Call::Sheet, sheet, expected));
        expected
    }

    /// Plays a sheet whose answer follows from the way it was made; the model must agree.
    pub fn expect(&mut self, sheet: &[u8], answer: Answer, marks: &[&'static str]) {
        let steps = match answer {
            Answer::Refused(number @ 40..=42, step) => Steps::Stop(number, step),
            _ => Steps::Close,
        };
        let modelled = self.play(sheet, steps);
        let text = String::from_utf8_lossy(sheet);
        assert_eq!(modelled, Some(answer), "the generator disagrees with itself at {marks:?}:\n{text}");
        self.mark(marks);
    }

    /// Closes the till; gives the text. Reading it gives the till.
    pub fn close(&mut self, marks: &[&'static str]) -> Vec<u8> {
        let text = text::written(&self.model);
        let read = text::opened(&text).as_ref() == Ok(&self.model);
        assert!(read, "a written text is read as the till:\n{}", shown(&text));
        let mut case = Case::new(Call::Close, b"", Some(Answer::Done(text.len() as u32)));
        case.written = text.clone();
        self.cases.push(case);
        self.mark(marks);
        text
    }

    /// Hands over a text to be read; the model answers.
    pub fn open(&mut self, text: &[u8], marks: &[&'static str]) -> Answer {
        let answer = match text::opened(text) {
            Err(number) => Answer::Refused(number, 0),
            Ok(model) => {
                self.model = model;
                Answer::Done(text.len() as u32)
            }
        };
        self.cases.push(Case::new(Call::Open, text, Some(answer)));
        self.mark(marks);
        answer
    }

    /// A text whose refusal follows from the way it was made; the model must agree.
    pub fn refuse_text(&mut self, text: &[u8], number: u32, mark: &'static str) {
        let answer = self.open(text, &[mark]);
        let shown = shown(text);
        assert_eq!(answer, Answer::Refused(number, 0), "the generator disagrees with itself at {mark}:\n{shown}");
    }

    /// A text that must be read.
    pub fn read_text(&mut self, text: &[u8], mark: &'static str) {
        let answer = self.open(text, &[mark]);
        let shown = shown(text);
        assert_eq!(answer, Answer::Done(text.len() as u32), "the generator disagrees with itself at {mark}:\n{shown}");
    }

    /// Closes the till and opens it again: it stays as it is.
    pub fn reopen(&mut self, mark: &'static str) {
        let text = self.close(&[]);
        self.read_text(&text, mark);
    }

    /// The last sheet stands for these.
    pub fn mark(&mut self, marks: &[&'static str]) {
        self.cases.last_mut().expect("a sheet").marks.extend(marks.iter().filter(|m| !m.is_empty()));
    }

    pub fn refuse(&mut self, sheet: &[u8], number: u32, mark: &'static str) {
        self.expect(sheet, Answer::Refused(number, 0), &[mark]);
    }

    /// A sheet written with `|` for line ends and its answer as `tillrun` prints it.
    pub fn script(&mut self, text: &str, answer: &str, mark: &'static str) {
        self.expect(&sheet_of(text), Answer::of(answer), &[mark]);
    }

    pub fn words(&mut self, lines: &[&str]) {
        for line in lines {
            let number = self.model.lines.len() as u32;
            self.expect(format!("word,{line}\n").as_bytes(), Answer::Done(number), &[]);
        }
    }

    pub fn number_of(&self, part: &Part) -> Option<u32> {
        self.model.wordings.iter().position(|p| p == part).map(|n| n as u32)
    }

    /// How many of these wordings and their parts are not there yet.
    pub fn missing(&self, parts: &[Part]) -> usize {
        let mut all = vec![];
        parts.iter().for_each(|p| p.collect(&mut all));
        all.iter().filter(|p| self.number_of(p).is_none()).count()
    }

    pub fn line_of(&self, part: &Part) -> String {
        let number = |p: &Part| self.number_of(p).expect("parts are entered first");
        match &**part {
            Wording::Atom(p, s) => format!("a,{p},{s}"),
            Wording::One => "o".to_string(),
            Wording::At(a, w) => format!("h,{},{}", number(a), w.text()),
            Wording::Says(k, a) => format!("s,{k},{}", number(a)),
            Wording::Named(p, s, h) => format!("n,{p},{s},{h}"),
            Wording::Bang(a) | Wording::ForAll(a) => format!("{},{}", part.letter(), number(a)),
            Wording::Covers(o, i) => format!("g,{},{}", o.text(), i.text()),
            other => {
                let p = other.parts();
                format!("{},{},{}", other.letter(), number(&p[0]), number(&p[1]))
            }
        }
    }

    /// The wording's number, entered first with its parts where it is not there.
    pub fn enter(&mut self, part: &Part) -> u32 {
        if let Some(n) = self.number_of(part) {
            return n;
        }
        for p in part.parts() {
            self.enter(&p);
        }
        let number = self.model.lines.len() as u32;
        let line = format!("word,{}\n", self.line_of(part));
        self.expect(line.as_bytes(), Answer::Done(number), &[]);
        number
    }

    /// An accepted issue; gives the serial.
    pub fn issue(&mut self, kind: Kind, part: &Part, w: Window) -> u32 {
        let n = self.enter(part);
        let serial = self.model.given + 1;
        let letter = if kind == Kind::Single { 's' } else { 'r' };
        let sheet = format!("issue,{letter},{n},{}\n", w.text());
        self.expect(sheet.as_bytes(), Answer::Done(serial), &[]);
        serial
    }

    pub fn tally(&mut self, session: u32, minute: u32) {
        self.play(format!("tally,{session},{minute}\n").as_bytes(), Steps::Close);
        self.mark(&["tally"]);
        self.mark(&self.model.breaks_at(session, minute));
        self.mark(&super::house::tallied(&self.model, session, minute));
        if self.model.seated(&|s| alike(s, session)) {
            let both = self.model.seated(&|s| s == session);
            self.mark(&[if both { "alike: tally of both" } else { "alike: tally of the other" }]);
        }
    }

    /// Tallies for some live coupon's sessions, or ones alike, at and beside both ends of its window or its break.
    pub fn tallies(&mut self, rng: &mut Rng, how_many: usize) {
        for _ in 0..how_many {
            let (mut session, mut minute) = (rng.between(0, LAST_SESSION), rng.between(0, LAST_MINUTE));
            if !self.model.live.is_empty() {
                let c = rng.pick(&self.model.live);
                let all: Vec<u32> = c.wording.sessions().into_iter().collect();
                if !all.is_empty() {
                    session = rng.pick(&all);
                    session = if rng.chance(1, 4) { rng.alike(session) } else { session };
                }
                let w = c.window;
                minute = rng.pick(&[w.from, w.to, w.from.saturating_sub(1), (w.to + 1).min(LAST_MINUTE)]);
                if w.has_break() && rng.chance(2, 3) {
                    minute = rng.pick(&[w.first - 1, w.first, w.last, w.last + 1]);
                }
            }
            self.tally(session, minute);
        }
    }
}

fn shown(text: &[u8]) -> String {
    String::from_utf8_lossy(&text[..text.len().min(4_000)]).into_owned()
}

/// A sheet from a text with `|` for line ends between lines.
pub fn sheet_of(text: &str) -> Vec<u8> {
    let mut sheet = text.replace('|', "\n").into_bytes();
    sheet.push(b'\n');
    sheet
}
