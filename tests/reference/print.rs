//! Answers as the programs print them, one line each.

use super::till::Answer;
use std::io::Write;

pub fn write_answer(output: &mut Vec<u8>, answer: Answer) {
    let line = match answer {
        Answer::Done(number) => writeln!(output, "ok,{number}"),
        Answer::Counted(open, shut, placed) => writeln!(output, "ok,{open},{shut},{placed}"),
        Answer::Refused(number, step) => writeln!(output, "no,{number},{step}"),
    };
    // writing into a vector does not fail
    line.unwrap_or(());
}
