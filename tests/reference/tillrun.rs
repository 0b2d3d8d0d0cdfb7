//! `tillrun`: plays requests ("sheets") from standard input against an empty till and prints the
//! answers, one line each.

#[path = "print.rs"]
mod print;
#[path = "till.rs"]
mod till;

use print::write_answer;
use std::io::{self, Read, Write};
use std::process::ExitCode;
use till::Till;

const MAX_BYTES: usize = 16_384;
const LINE_END: u8 = 10;
const READ_BUFFER: usize = 1 << 16;

fn main() -> ExitCode {
    match play(io::stdin().lock(), io::stdout().lock()) {
        Ok(()) => ExitCode::SUCCESS,
        Err(_) => ExitCode::FAILURE,
    }
}

/// Answers every request of the input, in order. Answers go out before more input is waited for.
fn play(mut input: impl Read, mut output: impl Write) -> io::Result<()> {
    let mut buffer = [0; READ_BUFFER];
    let mut kiosk = Kiosk::new();
    loop {
        match input.read(&mut buffer) {
            Ok(0) => break,
            Ok(count) => kiosk.take(&buffer[..count]),
            Err(error) if error.kind() == io::ErrorKind::Interrupted => continue,
            Err(error) => return Err(error),
        }
        output.write_all(&kiosk.answers)?;
        output.flush()?;
        kiosk.answers.clear();
    }
    kiosk.finish();
    output.write_all(&kiosk.answers)?;
    output.flush()
}

/// Parts the input at its empty lines and answers each request as soon as its end is seen.
struct Kiosk {
    till: Till,
    /// The bytes so far of a request whose end is not yet seen; of an overlong one the first
    /// 16,385, which the till refuses as it would the whole.
    begun: Vec<u8>,
    /// The byte read last. A request begins at the start of a line, as after a byte 10.
    before: u8,
    answers: Vec<u8>,
}

impl Kiosk {
    fn new() -> Kiosk {
        let begun = Vec::with_capacity(MAX_BYTES + 1);
        Kiosk { till: Till::new(), begun, before: LINE_END, answers: Vec::new() }
    }

    /// Takes the next bytes of the input.
    fn take(&mut self, mut bytes: &[u8]) {
        while let Some(end) = self.find_empty_line(bytes) {
            if self.begun.is_empty() {
                self.answer(&bytes[..end]);
            } else {
                self.keep(&bytes[..end]);
                self.answer_begun();
            }
            bytes = &bytes[end + 1..];
        }
        self.keep(bytes);
    }

    /// The input is over: bytes after the last empty line, if any, are one more request.
    fn finish(&mut self) {
        if !self.begun.is_empty() {
            self.answer_begun();
        }
    }

    /// Where the first empty line stands: a byte 10 at the start of a line.
    fn find_empty_line(&mut self, bytes: &[u8]) -> Option<usize> {
        let mut before = self.before;
        let found = bytes.iter().position(|&byte| {
            let empty = byte == LINE_END && before == LINE_END;
            before = byte;
            empty
        });
        self.before = before;
        found
    }

    fn keep(&mut self, bytes: &[u8]) {
        let room = MAX_BYTES + 1 - self.begun.len();
        self.begun.extend_from_slice(&bytes[..bytes.len().min(room)]);
    }

    fn answer_begun(&mut self) {
        let sheet = std::mem::take(&mut self.begun);
        self.answer(&sheet);
        self.begun = sheet;
        self.begun.clear();
    }

    fn answer(&mut self, sheet: &[u8]) {
        let answer = self.till.call(sheet);
        write_answer(&mut self.answers, answer);
    }
}

#[cfg(test)]
mod tests {
    use super::{play, MAX_BYTES};
    use std::io::Read;

    /// Hands out the input in pieces of the given length.
    struct Pieces<'a>(&'a [u8], usize);

    impl Read for Pieces<'_> {
        fn read(&mut self, buffer: &mut [u8]) -> std::io::Result<usize> {
            let count = self.0.len().min(self.1).min(buffer.len());
            buffer[..count].copy_from_slice(&self.0[..count]);
            self.0 = &self.0[count..];
            Ok(count)
        }
    }

    /// The answers, which must be the same in whatever pieces the input comes.
    fn answers(input: &[u8]) -> String {
        let mut all: Vec<String> = Vec::new();
        for length in [1, 2, 3, 7, 1000, MAX_BYTES, MAX_BYTES + 1, usize::MAX] {
            let mut output = Vec::new();
            play(Pieces(input, length), &mut output).unwrap();
            all.push(String::from_utf8(output).unwrap());
        }
        assert!(all.iter().all(|one| *one == all[0]));
        all.remove(0)
    }

    #[test]
    fn no_input_no_answer() {
        assert_eq!(answers(b""), "");
    }

    #[test]
    fn every_empty_line_ends_a_sheet_an_empty_sheet_too() {
        assert_eq!(answers(b"\n"), "no,2,0\n");
        assert_eq!(answers(b"\n\n"), "no,2,0\nno,2,0\n");
        assert_eq!(answers(b"word,o\n\n\n"), "ok,0\nno,2,0\n");
        assert_eq!(answers(b"\nword,o\n\n"), "no,2,0\nok,0\n");
    }

    #[test]
    fn bytes_after_the_last_empty_line_are_one_more() {
        assert_eq!(answers(b"word,o\n\nword,a,1,7\n"), "ok,0\nok,1\n");
        assert_eq!(answers(b"word,o\n\n"), "ok,0\n");
    }

    #[test]
    fn the_last_line_needs_its_byte_10() {
        assert_eq!(answers(b"word,o\n\nword,a,1,7"), "ok,0\nno,2,0\n");
        assert_eq!(answers(b"word,o"), "no,2,0\n");
    }

    #[test]
    fn other_blank_lines_are_not_empty() {
        assert_eq!(answers(b"word,o\n \nword,a,1,7\n\n"), "no,2,0\n");
        assert_eq!(answers(b"word,o\r\n\r\nword,a,1,7\r\n\r\n"), "no,2,0\n");
        assert_eq!(answers(b"word,o\n\0\n\nword,o\n"), "no,2,0\nok,0\n");
    }

    #[test]
    fn a_line_that_follows_without_empty_line_belongs_to_the_sheet() {
        assert_eq!(answers(b"word,o\nword,a,1,7\n\nword,o\n\n"), "no,2,0\nok,0\n");
    }

    fn with_bytes(length: usize, last: u8) -> Vec<u8> {
        let mut sheet = vec![b'x'; length];
        sheet[length - 1] = last;
        sheet
    }

    #[test]
    fn the_sheets_last_byte_10_counts_the_empty_line_does_not() {
        let full = [&with_bytes(MAX_BYTES, 10)[..], b"\nword,o\n\n"].concat();
        assert_eq!(answers(&full), "no,2,0\nok,0\n");
        let over = [&with_bytes(MAX_BYTES + 1, 10)[..], b"\nword,o\n\n"].concat();
        assert_eq!(answers(&over), "no,1,0\nok,0\n");
    }

    #[test]
    fn an_overlong_line_is_not_ended_by_an_empty_line_where_it_is_cut() {
        for length in [MAX_BYTES - 1, MAX_BYTES, MAX_BYTES + 1, MAX_BYTES + 2, 200_000] {
            let line = vec![b'x'; length];
            let input = [&line[..], b"\nmore\n\nword,o\n\n"].concat();
            assert_eq!(answers(&input), "no,1,0\nok,0\n");
        }
    }

    #[test]
    fn an_overlong_sheet_gives_one_answer_and_runs_to_its_empty_line() {
        let lines = b"word,o\n".repeat(30_000);
        let input = [&lines[..], b"\nword,o\n\n\n", &lines].concat();
        assert_eq!(answers(&input), "no,1,0\nok,0\nno,2,0\nno,1,0\n");
    }
}
