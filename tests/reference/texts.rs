//! `texts`: plays requests, closings and openings from standard input against an empty till and prints
//! the answers. NOTES.md says how the input is written.

#[path = "print.rs"]
mod print;
#[path = "till.rs"]
mod till;

use print::write_answer;
use std::io::{self, Read, Write};
use std::process::ExitCode;
use till::saved::MAX_TEXT;
use till::{Answer, Till};

const LINE_END: u8 = 10;
const MAX_NUMBER: usize = 9_999_999;

fn main() -> ExitCode {
    match run() {
        Ok(true) => ExitCode::SUCCESS,
        _ => ExitCode::FAILURE,
    }
}

/// Answers the whole input; false if it ends within a text.
fn run() -> io::Result<bool> {
    let (mut input, mut output) = (Vec::new(), Vec::new());
    io::stdin().lock().read_to_end(&mut input)?;
    let whole = play(&input, &mut output);
    io::stdout().lock().write_all(&output)?;
    Ok(whole)
}

fn play(mut input: &[u8], output: &mut Vec<u8>) -> bool {
    let mut till = Till::new();
    while !input.is_empty() {
        input = match split_command(input) {
            Some((Command::Close(room), rest)) => {
                close(&till, room, output);
                past_empty(rest)
            }
            Some((Command::Open(length), rest)) => {
                let Some((text, rest)) = rest.split_at_checked(length) else {
                    return false;
                };
                write_answer(output, outcome(till.reopen(text)));
                past_empty(rest)
            }
            None => {
                let (sheet, rest) = split_sheet(input);
                write_answer(output, till.call(sheet));
                rest
            }
        };
    }
    true
}

/// The bytes after the empty line that may end a command, as it ends a request.
fn past_empty(rest: &[u8]) -> &[u8] {
    rest.strip_prefix(b"\n").unwrap_or(rest)
}

/// Closes into a buffer of so many bytes; the text follows the answer.
fn close(till: &Till, room: usize, output: &mut Vec<u8>) {
    let mut buffer = vec![0; room];
    let closed = till.close(&mut buffer);
    write_answer(output, outcome(closed));
    output.extend_from_slice(&buffer[..closed.unwrap_or(0)]);
}

fn outcome(length: Result<usize, u32>) -> Answer {
    match length {
        Ok(length) => Answer::Done(length as u32),
        Err(number) => Answer::Refused(number, 0),
    }
}

/// A line in the place of a request.
enum Command {
    /// `:close N`: into a buffer of N bytes; `:close`: of as many as the longest text has.
    Close(usize),
    /// `:open N`: the text is the next N bytes.
    Open(usize),
}

/// The command that stands first, if one does, and the bytes after its line.
fn split_command(input: &[u8]) -> Option<(Command, &[u8])> {
    let end = input.iter().position(|&byte| byte == LINE_END)?;
    let line = &input[..end];
    let command = if line == b":close" {
        Command::Close(MAX_TEXT)
    } else if let Some(digits) = line.strip_prefix(b":close ") {
        Command::Close(number(digits)?)
    } else {
        Command::Open(number(line.strip_prefix(b":open ")?)?)
    };
    Some((command, &input[end + 1..]))
}

/// A decimal number without leading zeros.
fn number(digits: &[u8]) -> Option<usize> {
    let value: usize = std::str::from_utf8(digits).ok()?.parse().ok()?;
    (value <= MAX_NUMBER && value.to_string().as_bytes() == digits).then_some(value)
}

/// The request that stands first, without the empty line that ends it, and the bytes after that.
fn split_sheet(input: &[u8]) -> (&[u8], &[u8]) {
    let mut before = LINE_END;
    let empty_line = input.iter().position(|&byte| {
        let empty = byte == LINE_END && before == LINE_END;
        before = byte;
        empty
    });
    match empty_line {
        Some(at) => (&input[..at], &input[at + 1..]),
        None => (input, &[]),
    }
}
