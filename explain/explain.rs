//! `explain`: says why a sheet was refused, and shows how an accepted booking is derived. It stands beside the till
//! and is not proved: the till's answer is the verdict. Wordings, coupons, and what a step that keeps its rule leaves
//! to prove are those of the reference program (tests/reference); the checks and their order are its own.
//!
//! | files | hold |
//! |---|---|
//! | `options`, `input` | the command line; sheets and lines of an input |
//! | `forms`, `form`, `lines` | the forms of all lines; a line held against its form; the lines of a sheet (2) |
//! | `windows`, `wordings`, `coupons`, `checks` | the other checks up to the steps, and all of them in order |
//! | `rules`, `walk`, `stops` | the conditions of each step; the steps one by one; what is said of 40 to 42 |
//! | `opening` | a till's text (50, 51) |
//! | `history` | what the sheets before did to a serial |
//! | `words`, `spot`, `text`, `refused`, `told` | wordings spelled out; a place in the input; what is said |
//! | `tree`, `page` | an accepted booking as a tree and as a page |

#[path = "../tests/reference/print.rs"]
mod print;
#[path = "../tests/reference/till.rs"]
mod till;

mod checks;
mod coupons;
mod form;
mod forms;
mod history;
mod input;
mod lines;
mod opening;
mod options;
mod page;
mod refused;
mod rules;
mod spot;
mod stops;
mod text;
mod told;
mod tree;
mod walk;
mod windows;
mod words;
mod wordings;

use checks::{examine, Accepted, Desk};
use input::{sheets, Sheet};
use options::{Options, Which, HELP};
use refused::Refused;
use std::io::{self, Read, Write};
use std::path::PathBuf;
use std::process::ExitCode;
use text::Text;
use till::{Answer, Till};

/// Exit status of a command line that is not understood.
const USAGE: u8 = 2;

fn main() -> ExitCode {
    let options = match Options::read(std::env::args_os().skip(1)) {
        Ok(options) => options,
        Err(message) => {
            eprintln!("explain: {message}\n`explain/run --help` says what can be given");
            return ExitCode::from(USAGE);
        }
    };
    let output = if options.help { Ok(HELP.to_string()) } else { run(&options) };
    match output.and_then(|text| write_out(&text)) {
        Ok(()) => ExitCode::SUCCESS,
        Err(message) => {
            eprintln!("explain: {message}");
            ExitCode::FAILURE
        }
    }
}

/// Prints the text; a reader that has seen enough is no fault.
fn write_out(text: &str) -> Result<(), String> {
    let mut stdout = io::stdout().lock();
    match stdout.write_all(text.as_bytes()).and_then(|_| stdout.flush()) {
        Err(error) if error.kind() != io::ErrorKind::BrokenPipe => Err(format!("output: {error}")),
        _ => Ok(()),
    }
}

/// What is to be printed, or why there is nothing.
fn run(options: &Options) -> Result<String, String> {
    let saved = options.till.as_ref().map(|file| read_file(Some(file))).transpose()?;
    let opened = saved.as_ref().map_or_else(|| Ok(Till::new()), |text| opening::open(text));
    let till = match opened {
        Ok(till) => till,
        Err(refused) => return Ok(not_opened(options, refused)),
    };
    let input = read_file(options.file.as_ref())?;
    let sheets = sheets(&input);
    if options.which == Which::Numbers {
        return Ok(numbers(till, saved.as_deref(), &sheets));
    }
    let answers = play(till, &sheets);
    let again = || saved.as_ref().and_then(|text| Till::open(text).ok()).unwrap_or_else(Till::new);
    if let (Some(text), true) = (&saved, sheets.is_empty()) {
        return Ok(told::opened(&again(), text.len()));
    }
    let wanted = wanted(options, &sheets, &answers)?;
    explain(options, again(), &sheets, &answers, &wanted)
}

fn read_file(file: Option<&PathBuf>) -> Result<Vec<u8>, String> {
    let Some(file) = file else {
        let mut bytes = Vec::new();
        io::stdin().lock().read_to_end(&mut bytes).map_err(|error| format!("standard input: {error}"))?;
        return Ok(bytes);
    };
    std::fs::read(file).map_err(|error| format!("{}: {error}", file.display()))
}

/// The text of a till that was refused; no sheet is played.
fn not_opened(options: &Options, refused: Refused) -> String {
    if options.which == Which::Numbers {
        return refused::answer(refused.number, refused.step) + "\n";
    }
    let mut text = Text::default();
    text.line(refused::title(refused.number, refused.step));
    text.line("the text of --till; no sheet was played");
    text.blank();
    text.add(&refused.text);
    told::finished(text)
}

/// The answers of the reference program.
fn play(mut till: Till, sheets: &[Sheet]) -> Vec<Answer> {
    sheets.iter().map(|sheet| till.call(sheet.bytes)).collect()
}

/// The answers as the checks of this program find them.
fn numbers(till: Till, saved: Option<&[u8]>, sheets: &[Sheet]) -> String {
    let mut desk = Desk::new(till);
    let mut lines = saved.map_or(String::new(), |text| format!("ok,{}\n", text.len()));
    for sheet in sheets {
        let found = examine(&desk, sheet);
        let answer = desk.hand_over(sheet);
        lines += &told::answer_line(&found, answer);
    }
    lines
}

/// The sheets to explain, rising, from 1.
fn wanted(options: &Options, sheets: &[Sheet], answers: &[Answer]) -> Result<Vec<usize>, String> {
    if sheets.is_empty() {
        return Err("there is no sheet".to_string());
    }
    let numbers = |test: &dyn Fn(&Sheet, Answer) -> bool| -> Vec<usize> {
        let all = sheets.iter().zip(answers);
        all.filter(|(sheet, answer)| test(sheet, **answer)).map(|(sheet, _)| sheet.number).collect()
    };
    let booked = |sheet: &Sheet, answer| sheet.word() == "book" && matches!(answer, Answer::Done(_));
    match options.which {
        Which::All => Ok(numbers(&|_, answer| matches!(answer, Answer::Refused(..)))),
        Which::Sheet(number) if number > sheets.len() => {
            Err(format!("there is no sheet {number}: the input has {}", text::counted(sheets.len(), "sheet")))
        }
        Which::Sheet(number) if options.page.is_some() && !booked(&sheets[number - 1], answers[number - 1]) => {
            Err(format!("sheet {number} is no accepted booking and has no page"))
        }
        Which::Sheet(number) => Ok(vec![number]),
        _ if options.page.is_some() => {
            let last = numbers(&booked).last().copied();
            last.map(|last| vec![last]).ok_or("no booking is accepted, so there is no page".to_string())
        }
        _ => Ok(vec![sheets.len()]),
    }
}

/// Explains the wanted sheets, and writes the page.
fn explain(
    options: &Options,
    till: Till,
    sheets: &[Sheet],
    answers: &[Answer],
    wanted: &[usize],
) -> Result<String, String> {
    let mut desk = Desk::new(till);
    let mut text = Text::default();
    for (sheet, &answer) in sheets.iter().zip(answers) {
        if wanted.binary_search(&sheet.number).is_ok() {
            let found = examine(&desk, sheet);
            text.line(told::title(&found, answer));
            text.line(sheet.named(sheets.len()));
            text.blank();
            told::tell(&mut text, &desk, &found, answer);
            write_page(options, sheet, &found, answer)?;
        }
        desk.hand_over(sheet);
    }
    told::others(&mut text, options.which, answers, wanted);
    Ok(told::finished(text))
}

/// The page of an accepted booking, where one is asked for.
fn write_page(
    options: &Options,
    sheet: &Sheet,
    found: &Result<Accepted, Refused>,
    answer: Answer,
) -> Result<(), String> {
    let (Some(file), Ok(Accepted::Booked(derivation)), Answer::Done(serial)) = (&options.page, found, answer) else {
        return Ok(());
    };
    let page = page::page(derivation, serial, &format!("sheet {}", sheet.number));
    std::fs::write(file, page).map_err(|error| format!("{}: {error}", file.display()))
}
