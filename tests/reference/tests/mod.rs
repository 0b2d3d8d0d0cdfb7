//! Hand-made requests for every refusal, both ends of every range and every step.

use super::form::MAX_BYTES;
use super::saved::MAX_TEXT;
use super::Answer::{Counted, Done, Refused};
use super::{Answer, Till};

mod breaks;
mod closing;
mod editions;
mod holders;
mod house;
mod opening;
mod ranges;
mod reopening;
mod rules;
mod state;

/// Answers one request, given as its lines without the last byte 10.
fn ask(till: &mut Till, lines: &str) -> Answer {
    till.call(format!("{lines}\n").as_bytes())
}

/// A till that accepted all these requests.
fn till_after(requests: &[&str]) -> Till {
    let mut till = Till::new();
    for request in requests {
        let answer = ask(&mut till, request);
        assert!(!matches!(answer, Refused(..)), "{request}: {answer:?}");
    }
    till
}

/// A booking request from its head without the counts, its holds and its steps.
fn booking(head: &str, holds: &[u32], steps: &[&str]) -> String {
    let mut lines = format!("book,{head},{},{}", holds.len(), steps.len());
    for hold in holds {
        lines += &format!("\nhold,{hold}");
    }
    for step in steps {
        lines += &format!("\n{step}");
    }
    lines
}

/// The answer to one request on a till that accepted the others.
fn after(requests: &[&str], last: &str) -> Answer {
    ask(&mut till_after(requests), last)
}

/// A small generator of numbers (xorshift), the same at every run.
struct Numbers(u64);

impl Numbers {
    fn below(&mut self, bound: usize) -> usize {
        self.0 ^= self.0 << 13;
        self.0 ^= self.0 >> 7;
        self.0 ^= self.0 << 17;
        (self.0 % bound as u64) as usize
    }
}

/// What closing writes.
fn text_of(till: &Till) -> String {
    let mut buffer = [0; MAX_TEXT];
    let length = till.close(&mut buffer).unwrap();
    String::from_utf8(buffer[..length].to_vec()).unwrap()
}

/// The till of a text, which is opened, and closed to the same text.
fn opened(text: &str) -> Till {
    let till = Till::open(text.as_bytes()).unwrap_or_else(|number| panic!("{number}: {text}"));
    assert_eq!(text_of(&till), text);
    till
}

/// What opening answers: 50, 51, or 0 if it opens.
fn refusal_of(text: &[u8]) -> u32 {
    match Till::open(text) {
        Ok(till) => {
            assert_eq!(text_of(&till).as_bytes(), text);
            0
        }
        Err(number) => number,
    }
}

/// A text from next, wording lines and coupon lines, in the edition in which they are written.
fn text(next: u32, words: &[&str], coupons: &[&str]) -> String {
    let holders = words.iter().any(|line| line.starts_with("n,") || line.starts_with("q,"));
    let edition = if holders || coupons.len() > 512 { "2" } else { "1" };
    text_in(edition, next, words, coupons)
}

/// A text in any edition.
fn text_in(edition: &str, next: u32, words: &[&str], coupons: &[&str]) -> String {
    let mut text = format!("till,{edition},{next},{},{}\n", words.len(), coupons.len());
    for line in words.iter().chain(coupons) {
        text += line;
        text += "\n";
    }
    text
}

#[test]
fn refusal_1_comes_before_all_else() {
    let mut till = Till::new();
    assert_eq!(till.call(&[b'x'; MAX_BYTES + 1]), Refused(1, 0));
    assert_eq!(till.call(&[10; MAX_BYTES + 1]), Refused(1, 0));
    assert_eq!(till.call(&[b'x'; MAX_BYTES]), Refused(2, 0));
    assert_eq!(till.call(&[b'x'; 1_000_000]), Refused(1, 0));
}

#[test]
fn refusal_2_for_the_empty_sheet_and_for_empty_lines() {
    let mut till = Till::new();
    assert_eq!(till.call(b""), Refused(2, 0));
    assert_eq!(till.call(b"\n"), Refused(2, 0));
    assert_eq!(till.call(b"word,o\n\n"), Refused(2, 0));
    assert_eq!(till.call(b"\nword,o\n"), Refused(2, 0));
    assert_eq!(till.call(b"word,o\n"), Done(0));
}

#[test]
fn refusal_2_without_the_last_byte_10() {
    let mut till = Till::new();
    assert_eq!(till.call(b"word,a,1,7"), Refused(2, 0));
    assert_eq!(till.call(b"word,o"), Refused(2, 0));
    assert_eq!(till.call(b"tally,7,540"), Refused(2, 0));
    assert_eq!(till.call(b"word,a,1,7\r\n"), Refused(2, 0));
    assert_eq!(till.call(b"word,a,1,7\n"), Done(0));
}

#[test]
fn refusal_2_for_any_broken_form() {
    let broken = [
        "word", "word,", "word,x", "word,o,", "word,o,1", "word,a", "word,a,1", "word,a,1,", "word,a,1,7,",
        "word,a,1,7,7", "word, a,1,7", "word,a, 1,7", "word,a,1,7 ", " word,a,1,7", "Word,a,1,7",
        "word,A,1,7", "word,a,01,7", "word,a,1,07", "word,a,+1,7", "word,a,-1,7", "word,a,00,7",
        "word,a,,7", "word,a,1;7", "word,a,1,0x7", "word,\"a\",1,7", "word\na,1,7", "word,\na,1,7",
        "word,aa,1,7", "word,b,1,1", "word,t,0", "word,t,0,0,0", "word,h,0,1", "word,h,0,1,2,0",
        "word,h,0,1,2,0,0,0", "word,g,1,2,0,0,3,4,0", "word,g,1,2,0,0,3,4,0,0,5", "word,s,1",
        "word,n", "word,n,", "word,n,1", "word,n,1,7", "word,n,1,7,", "word,n,1,7,5,", "word,n,1,7,5,6",
        "word,n,1,7,05", "word,n,1,07,5", "word,n,01,7,5", "word,n,1,7, 5", "word,n,1,7,-5", "word,N,1,7,5",
        "word,nn,1,7,5", "word,n,,7,5", "word,n,1,,5", "word,q", "word,q,", "word,q,0,", "word,q,0,0", "word,q,00",
        "word,q0", "word,Q,0", "word,q,a",
        "issue,x,0,0,9,0,0", "issue,S,0,0,9,0,0", "issue,,0,0,9,0,0", "issue,sr,0,0,9,0,0", "issue,s,0,0",
        "issue,s,0,0,9,0", "issue,s,0,0,9,0,0,", "issue,s,0,0,9,0,0,0", "issue,s,0,0,9,0,,0",
        "issue,s,0,0,9,,0", "issue,s,0,0,9,00,0", "issue,s,0,0,9,0,00", "issue,s,0,0,9,03,4",
        "issue,s,0,0,9,0,0\n", "withdraw", "withdraw,", "withdraw,1,1", "withdraw,01", "tally,7",
        "tally,7,540,", "tally,7,540,1", "tally,7,540\ntally,7,540", "hold,1", "ax,0", "book",
        "books,0,0,0,0,0,0,0,1\nor", "", "ok,0", "\0word,a,1,7", "word,a,1,7\0",
    ];
    for sheet in broken {
        assert_eq!(after(&["word,o"], sheet), Refused(2, 0), "{sheet}");
    }
}

#[test]
fn refusal_2_for_the_lines_of_a_booking() {
    let broken = [
        "book,0,0,0,9,0,0,0,1",
        "book,0,0,0,9,0,0,0,1\nor\nor",
        "book,0,0,0,9,0,0,0,1\nor\n",
        "book,0,0,0,9,0,0,0,2\nor",
        "book,0,0,0,9,0,0,1,1\nor",
        "book,0,0,0,9,0,0,1,1\nor\nhold,1",
        "book,0,0,0,9,0,0,0,1\nhold,1\nor",
        "book,0,0,0,9,0,0,1,1\nhold,1",
        "book,0,0,0,9,0,0,1,1\nhold,1,1\nor",
        "book,0,0,0,9,0,0,1,1\nhold\nor",
        "book,0,0,0,9,0,0,1,1\nholds,1\nor",
        "book,0,0,0,9,0,0,0,1,1\nor",
        "book,0,0,0,9,0,0,1\nor",
        "book,0,0,0,9,0,0,0\nor",
        "book,0,0,0,9,0,0,0,1\n\nor",
    ];
    for sheet in broken {
        assert_eq!(after(&["word,a,9,7"], sheet), Refused(2, 0), "{sheet}");
    }
}

#[test]
fn refusal_2_for_broken_step_lines_even_after_a_wrong_step() {
    let broken = [
        "xx", "", "o", "or,", "or,0", "wr,0", "p1,0", "p2,", "br,0", "hr,0", "sr,1", "af,1", "gr,0", "ax",
        "ax,", "ax,0,0", "ax,00", "cp", "tr", "tr,", "tr,0", "tr,000000000000001", "tr,00000000000000011",
        "tr,000000000000000A", "tr,000000000000000g", "tr,0000000000000001,", "tr,0x00000000000001",
        "tl", "ol", "w1", "w2", "w3,0", "p3", "pl", "ll,0", "ll,0,0000000000000000,0", "ul,0,0",
        "ll,0,0000000000000000,0,0,0", "ll,0,0000000000000000,0,0,0,0,0", "ll,0,0,0,0,0,0", "ul,0,0,0,0",
        "ul,0,0,0,0,0,0", "bl", "hl", "sl", "AX,0", "a,0", "axx,0",
        "al", "al,", "al,0", "al,0,", "al,0,5,", "al,0,5,6", "al,0,05", "al,00,5", "al,,5", "al,0,0", "al,5,00",
        "AL,0,5", "al,0,-5", "al,0, 5", "al,0,5,6,0,0", "ar", "ar,5", "qr", "ql,0,5", "all,0,5",
    ];
    for step in broken {
        let sheet = booking("0,0,0,9,0,0", &[], &["or", step]);
        assert_eq!(after(&["word,a,9,7"], &sheet), Refused(2, 0), "{step}");
    }
}

#[test]
fn refusal_3_for_head_step_and_formula_intervals() {
    let words = ["word,a,9,7"];
    assert_eq!(after(&words, "word,h,0,5,4,0,0"), Refused(3, 0));
    assert_eq!(after(&words, "word,g,5,4,0,0,0,0,0,0"), Refused(3, 0));
    assert_eq!(after(&words, "word,g,0,0,0,0,5,4,0,0"), Refused(3, 0));
    assert_eq!(after(&words, "issue,s,0,5,4,0,0"), Refused(3, 0));
    assert_eq!(after(&words, "book,0,0,5,4,0,0,0,1\nor"), Refused(3, 0));
    assert_eq!(after(&words, "book,0,0,0,4,0,0,0,2\nor\nul,0,5,4,0,0"), Refused(3, 0));
    assert_eq!(after(&words, "book,0,0,0,4,0,0,0,2\nor\nll,0,0000000000000000,5,4,0,0"), Refused(3, 0));
    assert_eq!(after(&words, "word,h,0,5,5,0,0"), Done(1));
    assert_eq!(after(&words, "word,g,5,5,0,0,0,0,0,0"), Done(1));
    assert_eq!(after(&words, "issue,s,0,5,5,0,0"), Done(1));
}

#[test]
fn refusal_2_comes_before_3_anywhere_in_the_sheet() {
    let words = ["word,a,9,7"];
    assert_eq!(after(&words, "book,0,0,5,4,0,0,0,2\nor\nxx"), Refused(2, 0));
    assert_eq!(after(&words, "book,0,0,5,4,0,0,0,1\nor\nor"), Refused(2, 0));
    assert_eq!(after(&words, "word,g,5,4,0,0,0,10000000,0,0"), Refused(2, 0));
    assert_eq!(after(&words, "issue,s,0,10000000,4,0,0"), Refused(2, 0));
}

#[test]
fn refusal_3_comes_before_10() {
    assert_eq!(after(&[], "word,h,0,5,4,0,0"), Refused(3, 0));
    assert_eq!(after(&[], "issue,s,0,5,4,0,0"), Refused(3, 0));
    assert_eq!(after(&[], "book,0,0,0,0,0,0,0,1\nul,0,5,4,0,0"), Refused(3, 0));
}

#[test]
fn refusal_10_for_every_named_formula() {
    let words = ["word,a,9,7"];
    let parts = ["t,0,1", "t,1,0", "w,0,1", "p,1,0", "l,0,1", "u,1,0", "b,1", "s,0,1", "t,0,999", "q,1", "q,999"];
    for line in parts.into_iter().chain(["h,1,0,0,0,0", "h,1,0,9,3,4"]) {
        assert_eq!(after(&words, &format!("word,{line}")), Refused(10, 0), "{line}");
    }
    assert_eq!(after(&words, "issue,s,1,0,9,0,0"), Refused(10, 0));
    assert_eq!(after(&words, "issue,r,1,0,9,0,0"), Refused(10, 0));
    assert_eq!(after(&words, "book,0,1,0,9,0,0,0,1\nor"), Refused(10, 0));
}

#[test]
fn refusal_10_comes_before_24_and_30() {
    assert_eq!(after(&[], "book,9,0,0,0,0,0,1,1\nhold,1\nor"), Refused(10, 0));
}

#[test]
fn refusal_12_counts_a_part_used_twice_twice() {
    let words = ["word,a,9,7", "word,t,0,0", "word,t,1,1", "word,t,2,2", "word,t,3,3", "word,t,4,4"];
    assert_eq!(after(&words, "word,s,1,5"), Done(6));
    assert_eq!(after(&words, "word,t,0,5"), Refused(12, 0));
    assert_eq!(after(&words, "word,t,5,5"), Refused(12, 0));
    let mut till = till_after(&words);
    assert_eq!(ask(&mut till, "word,b,5"), Done(6));
    assert_eq!(ask(&mut till, "word,b,6"), Refused(12, 0));
    assert_eq!(ask(&mut till, "word,h,6,0,9,0,0"), Refused(12, 0));
    assert_eq!(ask(&mut till, "word,h,6,0,9,0,9"), Refused(43, 0));
}

#[test]
fn refusal_13_for_an_equal_line_only() {
    let words = [
        "word,a,9,7", "word,a,9,8", "word,t,0,1", "word,h,0,0,9,0,0", "word,g,0,9,0,0,1,2,0,0", "word,o",
    ];
    for line in words {
        assert_eq!(after(&words, line), Refused(13, 0), "{line}");
    }
    for line in ["word,t,1,0", "word,w,0,1", "word,h,0,0,8,0,0", "word,g,1,2,0,0,0,9,0,0", "word,a,8,9"] {
        assert_eq!(after(&words, line), Done(6), "{line}");
    }
}

#[test]
fn refusal_13_not_for_sessions_that_differ_by_256_or_more() {
    let words =
        ["word,a,1,7", "word,a,1,263", "word,a,1,255", "word,a,1,65535", "word,a,1,32767", "word,a,1,0"];
    for line in words {
        assert_eq!(after(&words, line), Refused(13, 0), "{line}");
    }
    for line in ["word,a,1,519", "word,a,1,65279", "word,a,1,256", "word,a,1,65534", "word,a,1,32768"] {
        assert_eq!(after(&words, line), Done(6), "{line}");
    }
}

/// Words 0 to 199: atoms of predicate 3.
fn full_of_words() -> Till {
    let mut till = Till::new();
    for session in 0..200 {
        assert_eq!(ask(&mut till, &format!("word,a,3,{session}")), Done(session));
    }
    till
}

#[test]
fn refusal_14_at_200_after_10_12_and_13() {
    let mut till = full_of_words();
    assert_eq!(ask(&mut till, "word,a,3,200"), Refused(14, 0));
    assert_eq!(ask(&mut till, "word,a,3,199"), Refused(13, 0));
    assert_eq!(ask(&mut till, "word,b,200"), Refused(10, 0));
    assert_eq!(ask(&mut till, "word,h,0,0,9,0,9"), Refused(43, 0));
    assert_eq!(ask(&mut till, "issue,s,199,0,9,0,0"), Done(1));
    assert_eq!(ask(&mut till, "issue,s,200,0,9,0,0"), Refused(10, 0));
}

#[test]
fn refusal_12_comes_before_14() {
    let mut till = till_after(&["word,a,9,7", "word,t,0,0", "word,t,1,1", "word,t,2,2", "word,t,3,3"]);
    assert_eq!(ask(&mut till, "word,t,4,4"), Done(5));
    for session in 6..200 {
        assert_eq!(ask(&mut till, &format!("word,a,3,{session}")), Done(session));
    }
    assert_eq!(ask(&mut till, "word,t,5,5"), Refused(12, 0));
    assert_eq!(ask(&mut till, "word,t,4,0"), Refused(14, 0));
}

#[test]
fn refusal_20_unless_only_a_t_s() {
    let mut words = vec!["word,a,9,7", "word,a,1,7", "word,s,255,1", "word,t,1,2", "word,s,0,3"];
    for id in 0..5 {
        assert_eq!(after(&words, &format!("issue,s,{id},0,9,0,0")), Done(1));
    }
    words.extend(["word,o", "word,w,0,0", "word,p,0,0", "word,l,0,0", "word,u,0,0", "word,b,0"]);
    words.extend(["word,h,0,0,9,0,0", "word,g,0,9,0,0,0,9,0,0", "word,t,0,5", "word,s,1,11"]);
    for id in 5..15 {
        assert_eq!(after(&words, &format!("issue,s,{id},0,9,0,0")), Refused(20, 0), "{id}");
        let book = booking(&format!("0,{id},0,9,0,0"), &[], &["or"]);
        assert_eq!(after(&words, &book), Refused(20, 0), "{id}");
    }
}

#[test]
fn refusal_20_comes_before_30_and_24() {
    let sheet = booking("9,0,0,0,0,0", &[1], &["or"]);
    assert_eq!(after(&["word,o"], &sheet), Refused(20, 0));
}

#[test]
fn refusal_30_on_both_sides_of_the_window() {
    let words = ["word,a,9,7", "issue,s,0,0,99,0,0"];
    for (now, answer) in [(4, Refused(30, 0)), (5, Done(2)), (7, Done(2)), (8, Refused(30, 0))] {
        assert_eq!(after(&words, &booking(&format!("{now},0,5,7,0,0"), &[1], &["ax,0"])), answer, "{now}");
    }
    assert_eq!(after(&words, &booking("4,0,5,7,0,0", &[9], &["ax,0"])), Refused(30, 0));
}

#[test]
fn refusal_24_for_serials_not_given_spent_or_withdrawn() {
    let words = ["word,a,9,7", "issue,s,0,0,9,0,0"];
    let book = booking("0,0,0,9,0,0", &[1], &["ax,0"]);
    assert_eq!(after(&words, "withdraw,2"), Refused(24, 0));
    assert_eq!(after(&words, "withdraw,1"), Done(1));
    assert_eq!(after(&[&words[..], &["withdraw,1"]].concat(), "withdraw,1"), Refused(24, 0));
    assert_eq!(after(&[&words[..], &["withdraw,1"]].concat(), &book), Refused(24, 0));
    let mut till = till_after(&words);
    assert_eq!(ask(&mut till, &book), Done(2));
    assert_eq!(ask(&mut till, &book), Refused(24, 0));
    assert_eq!(ask(&mut till, "withdraw,1"), Refused(24, 0));
    assert_eq!(ask(&mut till, "withdraw,2"), Done(2));
}

#[test]
fn refusal_24_of_any_hold_comes_before_31() {
    let words = ["word,a,9,7", "issue,s,0,0,9,0,0"];
    for (holds, number) in [(&[1, 1, 2][..], 24), (&[2, 2], 24), (&[1, 1], 31), (&[1, 2, 1], 24)] {
        assert_eq!(after(&words, &booking("0,0,0,9,0,0", holds, &["or"])), Refused(number, 0), "{holds:?}");
    }
}

#[test]
fn refusal_31_for_a_standing_serial_too() {
    let words = ["word,a,9,7", "issue,r,0,0,9,0,0", "issue,s,0,0,9,0,0"];
    for holds in [[1, 1, 2], [1, 2, 1], [2, 1, 2]] {
        assert_eq!(after(&words, &booking("0,0,0,9,0,0", &holds, &["ax,0"])), Refused(31, 0), "{holds:?}");
    }
}
