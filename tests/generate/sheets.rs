//! Writes sessions to a folder: `sheets [SEED [SESSIONS [FOLDER]]] [--long] [--texts]`.
//! `NNNN.in` is `tillrun`'s standard input, `NNNN.out` the answers due, `?` where unknown. With `--texts` the sessions
//! are those in which the till is closed and opened (NOTES.md, "Sessions with texts").

#![allow(dead_code)]

extern crate generate;
mod recount;

use generate::coverage::Coverage;
use generate::model::Answer;
use generate::session::{Call, Case, Session};
use generate::Wish;
use recount::Recount;
use std::path::Path;

/// Whether the sheet, followed by an empty line, is read back as it is.
fn carried(sheet: &[u8]) -> bool {
    let ended = sheet.is_empty() || sheet.ends_with(b"\n");
    ended && !sheet.starts_with(b"\n") && !sheet.windows(2).any(|w| w == b"\n\n")
}

/// Bytes after the last empty line: any sheet that has no empty line and is not empty itself.
fn carried_last(sheet: &[u8]) -> bool {
    !sheet.is_empty() && !sheet.starts_with(b"\n") && !sheet.windows(2).any(|w| w == b"\n\n")
}

/// Input and answers. Sheets that cannot be carried are left out: all of them are refused. The last
/// one that can stand at the end without an empty line does so, in every other session.
fn files(session: &Session, number: usize) -> (Vec<u8>, String) {
    let (mut input, mut answers) = (vec![], String::new());
    let line = |case: &Case| match case.expected {
        Some(answer) => answer.line() + "\n",
        None => "?\n".to_string(),
    };
    let open_end = session.cases.iter().rposition(|c| carried_last(&c.sheet) && !carried(&c.sheet));
    for case in session.cases.iter().filter(|c| carried(&c.sheet)) {
        input.extend(&case.sheet);
        input.push(b'\n');
        answers += &line(case);
    }
    if let Some(case) = open_end.map(|i| &session.cases[i]) {
        input.extend(&case.sheet);
        answers += &line(case);
    } else if number % 2 == 1 && input.len() > 2 && input.ends_with(b"\n\n") {
        input.pop();
    }
    (input, answers)
}

/// Input and answers of a session with texts. `:close` and `:open N`, followed by the N bytes of the text, stand as
/// sheets do; the answer to `:close` is followed by the text. Every answer is known, and no sheet begins as a command.
fn files_with_texts(session: &Session) -> (Vec<u8>, Vec<u8>) {
    let (mut input, mut answers) = (vec![], vec![]);
    for case in &session.cases {
        match case.call {
            Call::Sheet => assert!(carried(&case.sheet) && !case.sheet.starts_with(b":")),
            Call::Close => input.extend(b":close\n"),
            Call::Open => input.extend(format!(":open {}\n", case.sheet.len()).into_bytes()),
        }
        input.extend(&case.sheet);
        input.push(b'\n');
        answers.extend((case.expected.expect("a known answer").line() + "\n").into_bytes());
        answers.extend(&case.written);
    }
    (input, answers)
}

/// The answers due, counted again up to the first that is not known: what the recount finds wrong with their tallies,
/// and with the texts that closing writes.
fn recounted(session: &Session) -> Vec<String> {
    let mut history = Recount::default();
    for (case, answer) in session.cases.iter().map_while(|c| c.expected.map(|answer| (c, answer))) {
        match (case.call, answer) {
            (Call::Sheet, _) => history.note(&case.sheet, answer),
            (Call::Close, _) => history.closed(&case.written),
            (Call::Open, Answer::Done(_)) => history.opened(&case.sheet),
            (Call::Open, _) => {}
        }
    }
    history.wrong().to_vec()
}

fn main() {
    let (wish, rest) = Wish::of(std::env::args().skip(1));
    let folder = rest.first().map_or("sessions", |s| s.as_str());
    std::fs::create_dir_all(folder).expect("the folder can be made");
    let sessions = generate::sessions(&wish);
    let mut coverage = Coverage::default();
    let (mut index, mut wrong) = (String::new(), 0);
    for (number, session) in sessions.iter().enumerate() {
        session.cases.iter().for_each(|c| coverage.note(c));
        for line in recounted(session) {
            println!("RECOUNT FAILED: session {number} \"{}\", seed {}: {line}", session.name, session.seed);
            wrong += 1;
        }
        let (input, answers) = if wish.texts {
            files_with_texts(session)
        } else {
            let (input, answers) = files(session, number);
            (input, answers.into_bytes())
        };
        let path = |end: &str| Path::new(folder).join(format!("{number:04}.{end}"));
        std::fs::write(path("in"), input).expect("the input can be written");
        std::fs::write(path("out"), answers).expect("the answers can be written");
        let (name, seed, sheets) = (&session.name, session.seed, session.cases.len());
        index += &format!("{number:04} {name} (seed {seed}), {sheets} sheets\n");
    }
    std::fs::write(Path::new(folder).join("index.txt"), index).expect("the index can be written");
    let missing = coverage.report(&wish);
    println!("{} sessions written to {folder}, {missing} required things not reached", sessions.len());
    std::process::exit(i32::from(missing > 0 || wrong > 0));
}
