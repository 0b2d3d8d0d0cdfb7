//! Closing (document 02, ask 5): what is written, for which tills, into which buffers.

use super::{ask, booking, opened, text, text_of, till_after, Counted, Done, Numbers, Refused, Till, MAX_TEXT};

#[test]
fn the_empty_till() {
    assert_eq!(text_of(&Till::new()), "till,1,1,0,0\n");
}

/// The sheets of M1 before its first tally.
const M1: [&str; 11] = [
    "word,a,1,7", "word,a,2,7", "word,a,9,7", "word,s,1,0", "word,s,2,2", "word,s,1,1", "word,t,3,4",
    "word,l,6,5", "issue,r,7,0,9999,0,0", "issue,s,3,0,600,0,0", "issue,s,4,0,600,0,0",
];

const M1_STEPS: [&str; 15] = [
    "cp,0", "ll,3,0000000000000006,540,600,0,0", "tr,0000000000000002", "sr", "sl,1", "af", "ax,4", "sr", "sl,2",
    "af", "ax,5", "sr", "sl,6", "af", "ax,7",
];

#[test]
fn m1_before_and_after_its_booking() {
    let before = "till,1,4,8,3\na,1,7\na,2,7\na,9,7\ns,1,0\ns,2,2\ns,1,1\nt,3,4\nl,6,5\n\
        1,r,7,0,9999,0,0\n2,s,3,0,600,0,0\n3,s,4,0,600,0,0\n";
    let after = "till,1,5,8,2\na,1,7\na,2,7\na,9,7\ns,1,0\ns,2,2\ns,1,1\nt,3,4\nl,6,5\n\
        1,r,7,0,9999,0,0\n4,s,5,540,600,0,0\n";
    let sheet = booking("540,5,540,600,0,0", &[1, 2, 3], &M1_STEPS);
    for mut till in [till_after(&M1), opened(before)] {
        assert_eq!(text_of(&till), before);
        assert_eq!(ask(&mut till, "tally,7,540"), Counted(1, 0, 0));
        assert_eq!(ask(&mut till, &sheet), Done(4));
        assert_eq!(text_of(&till), after);
        assert_eq!(ask(&mut till, "tally,7,540"), Counted(0, 0, 1));
    }
    let mut till = opened(after);
    assert_eq!(ask(&mut till, &sheet), Refused(24, 0));
    assert_eq!(ask(&mut till, "tally,7,540"), Counted(0, 0, 1));
    assert_eq!(ask(&mut till, "withdraw,4"), Done(4));
    assert_eq!(ask(&mut till, "tally,7,540"), Counted(0, 0, 0));
}

#[test]
fn every_letter_is_written_as_it_was_worded() {
    let lines = [
        "a,0,0", "a,1,7", "a,2,65535", "a,255,256", "o", "t,0,1", "t,1,0", "w,0,1", "p,0,1", "l,0,1", "u,0,1", "b,0",
        "h,0,0,0,0,0", "h,1,0,9999999,1,9999998", "h,10,3,9,4,5", "s,0,1", "s,255,0", "g,0,9,0,0,1,2,0,0",
        "g,1,2,0,0,0,9,0,0", "g,10,90,20,30,40,80,50,60", "g,0,9999999,1,9999998,9999997,9999999,9999998,9999998",
        "n,0,0,0", "n,1,7,0", "n,2,65535,65535", "n,255,256,10", "q,0", "q,22", "q,10", "t,25,26",
    ];
    let mut till = Till::new();
    for (number, line) in lines.iter().enumerate() {
        assert_eq!(ask(&mut till, &format!("word,{line}")), Done(number as u32));
        assert_eq!(text_of(&till), text(1, &lines[..=number], &[]));
        opened(&text_of(&till));
    }
}

/// Both ends of every length of a number, as far as the highest.
fn lengths(highest: u32) -> Vec<u32> {
    let tens = (0..8).map(|power| 10_u32.pow(power));
    let mut ends: Vec<u32> = tens.flat_map(|ten| [ten - 1, ten, ten + 1, 2 * ten + 5]).collect();
    ends.retain(|&number| number <= highest);
    ends.push(highest);
    ends
}

#[test]
fn numbers_of_every_length_in_every_field() {
    for session in lengths(65_535) {
        opened(&text(1, &[&format!("a,1,{session}")], &[]));
    }
    for holder in lengths(65_535) {
        opened(&text(1, &[&format!("n,1,7,{holder}"), &format!("n,2,{holder},7"), "q,0", "q,1"], &[]));
    }
    for number in lengths(255) {
        opened(&text(1, &[&format!("n,{number},9,8")], &[]));
        opened(&text(1, &[&format!("a,{number},9"), &format!("s,{number},0")], &[]));
    }
    for minute in lengths(9_999_999) {
        let to = minute.max(3);
        let coupons = [format!("1,s,0,0,{minute},0,0"), format!("2,s,0,{minute},9999999,0,0")];
        opened(&text(3, &["a,3,0"], &[&coupons[0], &coupons[1]]));
        opened(&text(1, &["o", &format!("h,0,0,{to},1,{}", to - 1), &format!("h,0,0,{to},{0},{0}", to - 1)], &[]));
        let windows = format!("{minute},{minute},0,0,{minute},{minute},0,0");
        opened(&text(1, &[&format!("g,{windows}")], &[]));
    }
    for serial in lengths(999_999).into_iter().filter(|&serial| serial > 0) {
        opened(&text(1_000_000, &["o"], &[&format!("{serial},r,0,0,9,0,0")]));
        opened(&text(serial + 1, &["o"], &[&format!("{serial},r,0,0,9,0,0")]));
        opened(&text(serial, &[], &[]));
    }
    let words: Vec<String> = (0..200).map(|session| format!("a,3,{session}")).collect();
    let words: Vec<&str> = words.iter().map(String::as_str).collect();
    for count in 1..=200 {
        let coupon = format!("7,s,{},0,9,3,4", count - 1);
        let till = opened(&text(8, &words[..count], &[&coupon]));
        let mut till = opened(&text_of(&till));
        let last = if count == 200 { Refused(14, 0) } else { Done(count as u32) };
        assert_eq!(ask(&mut till, &format!("word,s,7,{}", count - 1)), last);
        opened(&text_of(&till));
    }
}

#[test]
fn every_number_of_a_part_of_q() {
    let words: Vec<String> = (0..199).map(|session| format!("a,3,{session}")).collect();
    for part in 0..199 {
        let line = format!("q,{part}");
        let words: Vec<&str> = words.iter().map(String::as_str).chain([&line[..]]).collect();
        opened(&text(1, &words, &[]));
    }
}

#[test]
fn both_kinds_and_every_field_of_a_coupon() {
    let mut till = till_after(&["word,a,9,7", "word,a,1,7", "word,l,1,1"]);
    let coupons = ["s,1,0,0,0,0", "r,2,1,9999999,0,0", "r,0,3,9,5,7", "s,0,10,20,11,19", "s,0,10,20,11,19"];
    let mut lines = Vec::new();
    for (number, coupon) in coupons.iter().enumerate() {
        assert_eq!(ask(&mut till, &format!("issue,{coupon}")), Done(number as u32 + 1));
        lines.push(format!("{},{coupon}", number + 1));
        let lines: Vec<&str> = lines.iter().map(String::as_str).collect();
        assert_eq!(text_of(&till), text(number as u32 + 2, &["a,9,7", "a,1,7", "l,1,1"], &lines));
    }
}

#[test]
fn spent_and_withdrawn_coupons_are_not_written_but_their_serials_stay_given() {
    let mut till = till_after(&["word,a,9,7", "issue,s,0,0,9,0,0", "issue,s,0,0,9,0,0", "issue,s,0,0,9,0,0"]);
    assert_eq!(ask(&mut till, "withdraw,3"), Done(3));
    assert_eq!(text_of(&till), text(4, &["a,9,7"], &["1,s,0,0,9,0,0", "2,s,0,0,9,0,0"]));
    assert_eq!(ask(&mut till, &booking("5,0,3,6,4,4", &[1], &["ax,0"])), Done(4));
    assert_eq!(text_of(&till), text(5, &["a,9,7"], &["2,s,0,0,9,0,0", "4,s,0,3,6,4,4"]));
    assert_eq!(ask(&mut till, "withdraw,2"), Done(2));
    assert_eq!(ask(&mut till, "withdraw,4"), Done(4));
    assert_eq!(text_of(&till), text(5, &["a,9,7"], &[]));
}

#[test]
fn serials_rise_in_whatever_order_the_coupons_lie() {
    let mut numbers = Numbers(3);
    let mut till = till_after(&["word,a,9,7"]);
    let mut live: Vec<usize> = Vec::new();
    let mut last = 0;
    for turn in 0..9000 {
        if live.len() == 2048 || !live.is_empty() && numbers.below(if turn < 4500 { 4 } else { 2 }) == 0 {
            let serial = live.remove(numbers.below(live.len()));
            assert_eq!(ask(&mut till, &format!("withdraw,{serial}")), Done(serial as u32));
        } else {
            last += 1;
            assert_eq!(ask(&mut till, &format!("issue,s,0,{last},9999999,0,0")), Done(last as u32));
            live.push(last);
        }
        if turn % 20 == 0 || [512, 513, 2048].contains(&live.len()) {
            let lines: Vec<String> = live.iter().map(|at| format!("{at},s,0,{at},9999999,0,0")).collect();
            let lines: Vec<&str> = lines.iter().map(String::as_str).collect();
            assert_eq!(text_of(&till), text(last as u32 + 1, &["a,9,7"], &lines));
        }
    }
}

#[test]
fn serials_rise_however_far_apart_they_are() {
    let serials = [2, 255, 256, 257, 65_535, 65_536, 65_538, 131_073, 500_000, 999_998, 999_999];
    let lines = serials.map(|serial| format!("{serial},s,0,0,9,0,0"));
    let mut lines: Vec<&str> = lines.iter().map(String::as_str).collect();
    let mut till = opened(&text(1_000_000, &["a,9,7"], &lines));
    // each withdrawal moves another coupon into the gap
    for serial in [2, 65_535, 257, 500_000, 999_999, 255] {
        assert_eq!(ask(&mut till, &format!("withdraw,{serial}")), Done(serial));
        lines.retain(|line| *line != format!("{serial},s,0,0,9,0,0"));
        assert_eq!(text_of(&till), text(1_000_000, &["a,9,7"], &lines));
    }
}

#[test]
fn refused_sheets_do_not_move_the_text() {
    let mut till = till_after(&M1);
    let before = text_of(&till);
    let sheets = [
        "", "till,1,1,0,0", "word,a,1,7", "word,a,1,65536", "word,h,0,9,0,0,0", "word,h,0,0,9,0,9", "word,b,99",
        "issue,s,7,0,9,0,0", "issue,r,3,0,9,0,0", "issue,s,99,0,9,0,0", "withdraw,4", "withdraw,0",
        "book,540,5,540,600,0,0,3,1\nhold,1\nhold,2\nhold,3\nor", "book,540,5,540,600,0,0,1,1\nhold,9\nor",
    ];
    for sheet in sheets {
        assert!(matches!(ask(&mut till, sheet), Refused(..)), "{sheet}");
        assert_eq!(text_of(&till), before, "{sheet}");
    }
    assert_eq!(ask(&mut till, "tally,7,540"), Counted(1, 0, 0));
    assert_eq!(text_of(&till), before);
}

#[test]
fn a_text_is_no_sheet() {
    let mut till = till_after(&M1);
    for sheet in [text_of(&till), text_of(&Till::new()), "till,1".to_string(), "close\n".to_string()] {
        assert_eq!(till.call(sheet.as_bytes()), Refused(2, 0));
    }
}

#[test]
fn closing_ends_nothing() {
    let mut till = till_after(&M1);
    let before = text_of(&till);
    assert_eq!(till.close(&mut [0; 50]), Err(52));
    assert_eq!(text_of(&till), before);
    assert_eq!(ask(&mut till, "word,o"), Done(8));
    assert_eq!(ask(&mut till, "withdraw,2"), Done(2));
}

/// Closes into buffers of every length up to some bytes more than the text has.
fn close_into_all_lengths(till: &Till) {
    let text = text_of(till).into_bytes();
    for length in 0..text.len() + 20 {
        for byte in [0, b'x', 0xff] {
            let mut buffer = vec![byte; length];
            if length < text.len() {
                assert_eq!(till.close(&mut buffer), Err(52), "{length}");
                assert!(buffer.iter().all(|&found| found == byte), "{length}");
            } else {
                assert_eq!(till.close(&mut buffer), Ok(text.len()), "{length}");
                assert!(buffer.starts_with(&text), "{length}");
                assert!(buffer[text.len()..].iter().all(|&found| found == byte), "{length}");
            }
        }
    }
}

#[test]
fn refusal_52_for_any_shorter_buffer_and_bytes_past_the_text_stay() {
    close_into_all_lengths(&Till::new());
    close_into_all_lengths(&till_after(&M1));
}

#[test]
fn a_shorter_text_leaves_the_longer_one_below_it() {
    let mut till = till_after(&M1);
    let before = text_of(&till).into_bytes();
    let mut buffer = before.clone();
    for serial in 1..=3 {
        assert_eq!(ask(&mut till, &format!("withdraw,{serial}")), Done(serial));
    }
    let length = till.close(&mut buffer).unwrap();
    assert!(length < before.len());
    assert_eq!(buffer[..length], *text_of(&till).as_bytes());
    assert_eq!(buffer[length..], before[length..]);
}

/// 200 lines `g` and 2,048 coupons with numbers of full length.
fn longest() -> String {
    let window = "1000000,9999999,1000001,9999998";
    let words = (0..200).map(|n| format!("g,{window},1000000,9999999,{},9999998", 1_000_001 + n));
    let coupons = (0..2048).map(|n| format!("{},r,{},{window}", 997_952 + n, 100 + n % 100));
    let (words, coupons): (Vec<_>, Vec<_>) = (words.collect(), coupons.collect());
    let words: Vec<&str> = words.iter().map(String::as_str).collect();
    let coupons: Vec<&str> = coupons.iter().map(String::as_str).collect();
    text(1_000_000, &words, &coupons)
}

#[test]
fn the_longest_text_has_105_384_bytes() {
    let longest = longest();
    assert_eq!(longest.len(), 105_384);
    assert_eq!(MAX_TEXT, 105_384);
    let mut till = opened(&longest);
    assert_eq!(till.reopen(longest.as_bytes()), Ok(MAX_TEXT));
    assert_eq!(ask(&mut till, "word,o"), Refused(14, 0));
    assert_eq!(ask(&mut till, "issue,r,199,0,9,0,0"), Refused(22, 0));
    let mut short = [b'x'; MAX_TEXT - 1];
    assert_eq!(till.close(&mut short), Err(52));
    assert_eq!(short, [b'x'; MAX_TEXT - 1]);
    let mut long = [b'x'; MAX_TEXT + 1];
    assert_eq!(till.close(&mut long), Ok(MAX_TEXT));
    assert_eq!(long[..MAX_TEXT], *longest.as_bytes());
    assert_eq!(long[MAX_TEXT], b'x');
}

#[test]
fn a_full_till_made_by_sheets() {
    let mut till = Till::new();
    let words: Vec<String> = (0..200).map(|n| format!("a,{},{}", n % 3, 65_535 - n)).collect();
    for word in &words {
        ask(&mut till, &format!("word,{word}"));
    }
    let coupon = |serial: u32| format!("s,{},{serial},7000,0,0", serial % 200);
    for serial in 1..=2136 {
        if serial > 2048 {
            assert_eq!(ask(&mut till, &format!("withdraw,{}", serial - 2048)), Done(serial - 2048));
        }
        assert_eq!(ask(&mut till, &format!("issue,{}", coupon(serial))), Done(serial));
    }
    let lines: Vec<String> = (89..=2136).map(|serial| format!("{serial},{}", coupon(serial))).collect();
    let words: Vec<&str> = words.iter().map(String::as_str).collect();
    let lines: Vec<&str> = lines.iter().map(String::as_str).collect();
    let closed = text(2137, &words, &lines);
    assert_eq!(text_of(&till), closed);
    for mut till in [till, opened(&closed)] {
        assert_eq!(ask(&mut till, "word,o"), Refused(14, 0));
        assert_eq!(ask(&mut till, "issue,s,0,0,9,0,0"), Refused(22, 0));
        assert_eq!(ask(&mut till, "withdraw,88"), Refused(24, 0));
        assert_eq!(ask(&mut till, "withdraw,89"), Done(89));
        assert_eq!(ask(&mut till, "issue,s,0,0,9,0,0"), Done(2137));
    }
}
