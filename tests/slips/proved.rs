//! Plays the sessions that tests/slips/sessions.py writes through the reference program. `proved LIST SLIP` answers
//! with status 0 if every answer is the session's, and with 1 and the first that is not; SLIP is the number of the slip
//! that is made, 0 for none.

#[path = "reference/till.rs"]
mod till;

use std::sync::atomic::{AtomicU32, Ordering};
use till::{Answer, Till};

static SLIP: AtomicU32 = AtomicU32::new(0);

/// The number of the slip that is made.
#[allow(dead_code)]
pub fn slip() -> u32 {
    SLIP.load(Ordering::Relaxed)
}

fn main() {
    let arguments: Vec<String> = std::env::args().collect();
    let list = std::fs::read_to_string(&arguments[1]).expect("no list");
    SLIP.store(arguments[2].parse().expect("no number"), Ordering::Relaxed);
    std::panic::set_hook(Box::new(|_| {}));
    let mut sessions = 0;
    for session in list.split("S ").skip(1) {
        let (name, lines) = session.split_once('\n').expect("no line");
        if let Err(why) = Play::new().session(lines) {
            println!("{name}: {why}");
            std::process::exit(1);
        }
        sessions += 1;
    }
    println!("{sessions} sessions");
}

/// A session as far as it was played.
struct Play {
    till: Box<Till>,
    kept: Vec<u8>,
}

impl Play {
    fn new() -> Play {
        Play { till: Box::new(Till::new()), kept: Vec::new() }
    }

    fn session(&mut self, lines: &str) -> Result<(), String> {
        for (number, line) in lines.lines().enumerate() {
            let (what, rest) = line.split_at(1);
            let (given, wanted) = rest.split_once('\t').unwrap_or((rest, ""));
            let got = self.turn(what, given.trim_start());
            if got != wanted {
                return Err(format!("line {}: {} and not {}", number + 1, short(&got), short(wanted)));
            }
        }
        Ok(())
    }

    /// What is answered where that is asked.
    fn turn(&mut self, what: &str, given: &str) -> String {
        match what {
            "C" => shown(self.till.call(&bytes(given))),
            "c" => unasked(shown(self.till.call(&bytes(given)))),
            "O" => outcome(self.till.reopen(&bytes(given))),
            "o" => unasked(outcome(self.till.reopen(&bytes(given)))),
            "W" => self.close(bytes(given)),
            "N" => self.idle(given.parse().expect("no number")),
            "K" => {
                let kept = self.text();
                *self = Play { kept, ..Play::new() };
                String::new()
            }
            "Q" if self.text() == self.kept => String::new(),
            "Q" => "another ledger".into(),
            _ => panic!("not understood: {what}"),
        }
    }

    fn close(&mut self, mut buffer: Vec<u8>) -> String {
        let answer = outcome(self.till.close(&mut buffer));
        let digits: String = buffer.iter().map(|byte| format!("{byte:02x}")).collect();
        format!("{answer}\t{digits}")
    }

    /// The ledger's text; none where it is not closed.
    fn text(&self) -> Vec<u8> {
        let mut buffer = vec![0; till::saved::MAX_TEXT];
        let length = self.till.close(&mut buffer).unwrap_or(0);
        buffer.truncate(length);
        buffer
    }

    /// Until the serial comes next, a coupon is issued and withdrawn. At once, where that can be set.
    fn idle(&mut self, next: u32) -> String {
        self.till.credentials.set_next(next);
        if self.till.credentials.next() == next {
            return String::new();
        }
        self.till.credentials = till::credentials::Credentials::new();
        for serial in 1..next {
            let issued = self.till.call(b"issue,s,0,0,9,0,0\n");
            let withdrawn = self.till.call(format!("withdraw,{serial}\n").as_bytes());
            if (issued, withdrawn) != (Answer::Done(serial), Answer::Done(serial)) {
                return format!("serial {serial} is not given");
            }
        }
        String::new()
    }
}

/// What is printed of an answer: a buffer may be long.
fn short(answer: &str) -> String {
    answer.chars().take(60).collect()
}

fn unasked(_: String) -> String {
    String::new()
}

fn bytes(digits: &str) -> Vec<u8> {
    let pair = |at| u8::from_str_radix(&digits[at..at + 2], 16).expect("no digits");
    (0..digits.len()).step_by(2).map(pair).collect()
}

fn outcome(answer: Result<usize, u32>) -> String {
    shown(answer.map_or_else(|number| Answer::Refused(number, 0), |length| Answer::Done(length as u32)))
}

fn shown(answer: Answer) -> String {
    match answer {
        Answer::Done(number) => format!("ok,{number}"),
        Answer::Counted(open, shut, placed) => format!("ok,{open},{shut},{placed}"),
        Answer::Refused(number, step) => format!("no,{number},{step}"),
    }
}
