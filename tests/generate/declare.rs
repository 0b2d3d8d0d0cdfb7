//! Writes generated sessions, with the reference program's answers, as antt declarations:
//! `declare FOLDER [SEED [SESSIONS]]`. Each says that the definitions answer every request of the session as the program does; where they do not, the check
//! shows the place of the first that differs.

#![allow(dead_code)]

extern crate generate;
#[path = "../reference/till.rs"]
mod till;

use generate::session::Session;
use generate::Wish;
use till::{Answer, Till};

/// Longer sessions and requests are left to the program: one declaration has a limit of steps.
const MOST_REQUESTS: usize = 600;
const MOST_BYTES: usize = 20_000;

/// A request as a quoted text: a byte is the character of that code.
fn quoted(request: &[u8]) -> String {
    let one = |b: &u8| match b {
        b'\n' => "\\n".to_string(),
        b'"' => "\\\"".to_string(),
        b'\\' => "\\\\".to_string(),
        32..=126 => (*b as char).to_string(),
        _ => format!("\\u{{{b:x}}}"),
    };
    format!("\"{}\"", request.iter().map(one).collect::<String>())
}

fn told(answer: Answer) -> String {
    match answer {
        Answer::Done(n) => format!("ok ({n} ∷ [])"),
        Answer::Counted(open, shut, placed) => format!("ok ({open} ∷ {shut} ∷ {placed} ∷ [])"),
        Answer::Refused(number, step) => format!("Told.no {number} {step}"),
    }
}

fn list(items: &[String]) -> String {
    items.iter().map(|i| format!("    {i} ∷\n")).collect::<String>() + "    []"
}

/// The declaration of a session, and how many requests it has.
fn declaration(session: &Session, name: &str) -> (String, usize) {
    let mut till = Till::new();
    let (mut requests, mut answers) = (vec![], vec![]);
    for case in session.cases.iter().take(MOST_REQUESTS).filter(|c| c.sheet.len() <= MOST_BYTES) {
        requests.push(quoted(&case.sheet));
        answers.push(told(till.call(&case.sheet)));
    }
    let text = format!(
        "-- {} (seed {})\n{}\n\nrequests : List String\nrequests =\n{}\n\nreplies : List Told\nreplies =\n{}\n\n\
         {name} : first_difference 0 (map told (answers empty (map bytes requests))) replies ≡ none\n\
         unfolding played first_difference same_told requests replies\n{name} = refl\n",
        session.name,
        session.seed,
        include_str!("../definitions/header.antt.txt").trim_end(),
        list(&requests),
        list(&answers)
    );
    (text, requests.len())
}

fn main() {
    let mut args = std::env::args().skip(1);
    let folder = args.next().expect("a folder");
    let (wish, _) = Wish::of(args);
    let (mut modules, mut count) = (String::new(), 0);
    for (number, session) in generate::sessions(&wish).iter().enumerate() {
        let (text, requests) = declaration(session, &format!("session_{number}"));
        std::fs::write(format!("{folder}/S{number}.antt"), text).expect("the folder can be written");
        modules += &format!("pub mod S{number}\n");
        count += requests;
    }
    std::fs::write(format!("{folder}/Lib.antt"), modules).expect("the folder can be written");
    println!("{count}");
}
