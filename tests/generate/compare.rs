//! Plays the sessions through the till and compares: `compare [SEED [SESSIONS]] [--long]`.

extern crate generate;
#[allow(dead_code)] // no text is opened here
mod recount;
#[path = "../reference/till.rs"]
mod till;

use generate::coverage::Coverage;
use generate::model::Answer;
use generate::session::{Case, Session};
use generate::Wish;
use recount::Recount;
use till::Till;

/// The till's answer in the generator's terms.
fn said(answer: till::Answer) -> Answer {
    match answer {
        till::Answer::Done(n) => Answer::Done(n),
        till::Answer::Counted(open, shut, placed) => Answer::Counted(open, shut, placed),
        till::Answer::Refused(number, step) => Answer::Refused(number, step),
    }
}

/// The till's answer to a sheet; None where it broke down.
fn ask(till: &mut Till, sheet: &[u8]) -> Option<Answer> {
    let call = std::panic::AssertUnwindSafe(|| till.call(sheet));
    std::panic::catch_unwind(call).ok().map(said)
}

/// The sheet for a reader, long ones cut.
fn shown(sheet: &[u8]) -> String {
    let text = String::from_utf8_lossy(&sheet[..sheet.len().min(6_000)]);
    let cut = if sheet.len() > 6_000 { format!("\n.. {} bytes in all", sheet.len()) } else { String::new() };
    format!("{}{cut}", text.escape_debug().to_string().replace("\\n", "\n    "))
}

fn report(session: &Session, number: usize, index: usize, case: &Case, got: Option<Answer>) {
    let line = |answer: Option<Answer>, none: &str| answer.map_or(none.to_string(), |a| a.line());
    let (expected, got) = (line(case.expected, "?"), line(got, "a breakdown"));
    println!("FAILED: session {number} \"{}\", seed {}, sheet {index}", session.name, session.seed);
    println!("  stands for: {}", case.marks.join("; "));
    println!("  expected {expected}, got {got}");
    println!("    {}", shown(&case.sheet));
}

#[derive(Default)]
struct Totals {
    passed: u32,
    failed: u32,
    recounts: u32,
    tallies: u32,
    coverage: Coverage,
}

/// Plays one session; after its first wrong answer the rest of it means nothing and is left.
fn play(session: &Session, number: usize, totals: &mut Totals) {
    let mut till = Till::new();
    let mut history = Recount::default();
    for (index, case) in session.cases.iter().enumerate() {
        let got = ask(&mut till, &case.sheet);
        got.iter().for_each(|answer| history.note(&case.sheet, *answer));
        if got.is_none() || (case.expected.is_some() && case.expected != got) {
            totals.failed += 1;
            report(session, number, index, case, got);
            break;
        }
        totals.passed += u32::from(case.expected.is_some());
        totals.coverage.note(case);
    }
    let mut tally = |session: u32, minute: u32| {
        let sheet = format!("tally,{session},{minute}\n");
        ask(&mut till, sheet.as_bytes())
    };
    let (made, wrong) = history.check(&mut tally);
    totals.tallies += made;
    totals.recounts += 1;
    for line in wrong.iter().take(3) {
        println!("RECOUNT FAILED: session {number} \"{}\", seed {}: {line}", session.name, session.seed);
    }
    totals.failed += u32::from(!wrong.is_empty());
    totals.passed += u32::from(wrong.is_empty());
}

fn main() {
    let (wish, _) = Wish::of(std::env::args().skip(1));
    assert!(!wish.texts, "sessions with texts are written by `sheets` and played by programs");
    let mut totals = Totals::default();
    let sessions = generate::sessions(&wish);
    for (number, session) in sessions.iter().enumerate() {
        play(session, number, &mut totals);
    }
    let missing = totals.coverage.report(&wish);
    totals.failed += missing;
    println!("{} sessions", sessions.len());
    println!("recount: {} sessions, {} tallies", totals.recounts, totals.tallies);
    println!("{} passed, {} failed", totals.passed, totals.failed);
    std::process::exit(i32::from(totals.failed > 0));
}
