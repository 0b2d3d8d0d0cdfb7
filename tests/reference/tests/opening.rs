//! Opening (document 02, ask 5): every way a text can break its form (50) or a rule (51).

use super::{ask, opened, refusal_of, text, text_of, till_after, Done, Refused, Till};

/// A text with every letter, both kinds, breaks, and numbers of one digit and of several.
const WORDS: [&str; 17] = [
    "a,1,7", "a,2,65535", "o", "t,0,1", "w,0,0", "p,1,1", "l,0,0", "u,2,6", "b,2", "h,2,0,9,0,0", "h,2,10,99,20,30",
    "s,255,0", "g,0,9,0,0,1,2,0,0", "g,0,100,10,20,5,90,6,89",
    "n,2,7,0", "q,14", "n,255,65535,65535",
];
const COUPONS: [&str; 4] = ["1,r,6,0,9,0,0", "12,s,3,5,60,10,20", "13,s,11,0,0,0,0", "200,r,13,7,9999999,8,9"];

fn sample() -> String {
    text(1234, &WORDS, &COUPONS)
}

#[test]
fn the_sample_opens() {
    opened(&sample());
    assert_eq!(refusal_of(b""), 50);
}

#[test]
fn refusal_50_for_another_edition() {
    let rest = ["0", "3", "9", "01", "1.0", "+1", " 1", "1 ", "", "11", "10", "4294967297", "65537", "257", "x"];
    let more = ["02", "2.0", "+2", " 2", "2 ", "12", "22", "20", "1,2", "2,1", "4294967298", "65538", "258", "-", "?"];
    for edition in rest.into_iter().chain(more) {
        let head = format!("till,{edition},");
        assert_eq!(refusal_of(sample().replacen("till,2,", &head, 1).as_bytes()), 50, "{edition}");
        assert_eq!(refusal_of(format!("{head}1,0,0\n").as_bytes()), 50, "{edition}");
        assert_eq!(refusal_of(counted(1, 512, "1,512").replacen("till,1,", &head, 1).as_bytes()), 50, "{edition}");
        assert_eq!(refusal_of(counted(1, 513, "1,513").replacen("till,2,", &head, 1).as_bytes()), 50, "{edition}");
    }
    for word in ["Till", "till ", "tills", "til", "", " till", "word", "close", "\u{feff}till", "TILL"] {
        assert_eq!(refusal_of(format!("{word},1,1,0,0\n").as_bytes()), 50, "{word}");
        assert_eq!(refusal_of(sample().replacen("till", word, 1).as_bytes()), 50, "{word}");
    }
}

#[test]
fn refusal_50_for_a_first_line_of_another_form() {
    let lines = [
        "till,1,1,0", "till,1,1,0,0,0", "till,1,1,0,0,", "till,1,1,0,", "till,1,1", "till,1,", "till,1", "till",
        "till,1,,0,0", "till,1,1,,0", "till,1,1,0,0 ", "till,1,1,0,-0", "till,1;1,0,0", "till,1,1,0;0", "till1,1,0,0",
        "till,1,1,0,0\r", "till,1,1,0,0\0", "\0till,1,1,0,0", "till,2,1,0", "till,2,1,0,0,0", "till,2,", "till,2",
    ];
    for line in lines {
        assert_eq!(refusal_of(format!("{line}\n").as_bytes()), 50, "{line}");
    }
    opened("till,1,1,0,0\n");
}

#[test]
fn next_is_1_to_1_000_000() {
    for next in ["1", "2", "999999", "1000000"] {
        opened(&format!("till,1,{next},0,0\n"));
    }
    let outside = [
        "0", "1000001", "1000002", "1000010", "2000000", "9999999", "10000000", "4294967296", "4294967297", "00", "01",
        "0999999", "18446744073709551617", "99999999999999999999999999999999999999999", "1e6", "1,000,000", "-1",
    ];
    for next in outside {
        assert_eq!(refusal_of(format!("till,1,{next},0,0\n").as_bytes()), 50, "{next}");
    }
}

/// A text with so many wordings and coupons, and these counts in its first line.
fn counted(wordings: usize, coupons: usize, count: &str) -> String {
    let edition = if coupons > 512 { 2 } else { 1 };
    let words = (0..wordings).map(|session| format!("a,3,{session}\n"));
    let coupons = (1..=coupons).map(|serial| format!("{serial},s,0,0,9,0,0\n"));
    format!("till,{edition},1000000,{count}\n{}", words.chain(coupons).collect::<String>())
}

/// What opening answers to a text of `counted` in either edition, which must be the same.
fn in_both(text: &str) -> u32 {
    let found = refusal_of(text.as_bytes());
    for edition in ["till,1,", "till,2,"] {
        let text = format!("{edition}{}", &text[7..]);
        assert_eq!(refusal_of(text.as_bytes()), found, "{edition}");
    }
    found
}

#[test]
fn counts_end_at_200_and_2048() {
    for coupons in [0, 1, 511, 512, 513, 768, 1023, 1024, 1025, 2047, 2048] {
        opened(&counted(200, coupons, &format!("200,{coupons}")));
        opened(&counted(1, coupons, &format!("1,{coupons}")));
    }
    let high = [
        (201, 0), (201, 512), (201, 513), (201, 2048), (200, 2049), (1, 2049), (201, 2049), (256, 0), (1000, 0),
        (1, 2050), (1, 2560), (1, 3072), (1, 4096), (1, 9999),
    ];
    for (wordings, coupons) in high {
        assert_eq!(in_both(&counted(wordings, coupons, &format!("{wordings},{coupons}"))), 50, "{wordings} {coupons}");
    }
    for count in ["4294967296,0", "256,0", "0,65536", "0,512000000000000000000", "0,4294967296", "0,2049"] {
        assert_eq!(in_both(&counted(0, 0, count)), 50, "{count}");
    }
}

#[test]
fn refusal_50_if_counts_do_not_match() {
    let (wordings, coupons) = (WORDS.len(), COUPONS.len());
    let right = format!("{wordings},{coupons}");
    for count in 0..=25 {
        for (wordings, coupons) in [(count, coupons), (wordings, count), (count, 21 - count.min(21))] {
            let changed = format!("{wordings},{coupons}");
            let due = if changed == right { 0 } else { 50 };
            assert_eq!(refusal_of(sample().replacen(&right, &changed, 1).as_bytes()), due, "{changed}");
        }
    }
    // as many lines as the highest counts have, parted otherwise
    for (wordings, coupons) in [(199, 2048), (200, 2047), (199, 513), (200, 512)] {
        opened(&counted(wordings, coupons, &format!("{wordings},{coupons}")));
        for count in ["200,2048", "200,2047", "199,2048", "200,512", "200,513", "199,513", "200,511"] {
            if count != format!("{wordings},{coupons}") {
                assert_eq!(in_both(&counted(wordings, coupons, count)), 50, "{wordings} {coupons} {count}");
            }
        }
    }
    assert_eq!(in_both(&counted(199, 2049, "200,2048")), 50);
    assert_eq!(in_both(&counted(201, 2047, "200,2048")), 50);
}

#[test]
fn refusal_50_for_a_line_too_few_or_too_many() {
    let sample = sample();
    let lines: Vec<&str> = sample.lines().collect();
    for at in 0..lines.len() {
        let mut fewer = lines.clone();
        fewer.remove(at);
        assert_eq!(refusal_of((fewer.join("\n") + "\n").as_bytes()), 50, "{at}");
        for more in [lines[at], "", "o", "a,1,9", "201,s,0,0,9,0,0", "after,1,2", "x"] {
            let mut longer = lines.clone();
            longer.insert(at + 1, more);
            assert_eq!(refusal_of((longer.join("\n") + "\n").as_bytes()), 50, "{at} {more}");
        }
    }
    for more in ["\n", "\n\n", "\0", " ", "x", "\r\n", "till,1,1,0,0\n", "after,1,12\n", ","] {
        assert_eq!(refusal_of(format!("{sample}{more}").as_bytes()), 50, "{more:?}");
        assert_eq!(refusal_of(format!("till,1,1,0,0\n{more}").as_bytes()), 50, "{more:?}");
    }
    assert_eq!(refusal_of(format!("{sample}{sample}").as_bytes()), 50);
    assert_eq!(refusal_of(format!("\n{sample}").as_bytes()), 50);
}

#[test]
fn refusal_50_without_the_last_byte_10_or_wherever_the_text_is_cut() {
    let sample = sample();
    for end in 0..sample.len() {
        assert_eq!(refusal_of(&sample.as_bytes()[..end]), 50, "{end}");
    }
    assert_eq!(refusal_of(b"till,1,1,0,0"), 50);
}

#[test]
fn refusal_50_for_other_line_ends() {
    let sample = sample();
    for end in ["\r\n", "\r", "\n\r", "\n\n", "\0\n", " \n", ",\n", "\0", ";", "\u{2028}"] {
        assert_eq!(refusal_of(sample.replace('\n', end).as_bytes()), 50, "{end:?}");
        for at in 0..19 {
            let lines: Vec<&str> = sample.lines().collect();
            let changed = lines[..=at].join("\n") + end + &lines[at + 1..].join("\n") + if at < 18 { "\n" } else { "" };
            assert_eq!(refusal_of(changed.as_bytes()), 50, "{at} {end:?}");
        }
    }
}

/// All texts made of the sample by putting another field in the place of one; `change` gives none or
/// some for a field.
fn with_fields(change: impl Fn(&str) -> Vec<String>) -> Vec<String> {
    let sample = sample();
    let mut texts = Vec::new();
    let mut start = 0;
    for (end, _) in sample.match_indices([',', '\n']) {
        for field in change(&sample[start..end]) {
            texts.push(format!("{}{field}{}", &sample[..start], &sample[end..]));
        }
        start = end + 1;
    }
    texts
}

#[test]
fn refusal_50_for_any_other_spelling_of_any_field() {
    let spellings = |field: &str| {
        let spelled = ["0FIELD", "00FIELD", "+FIELD", "-FIELD", " FIELD", "FIELD ", "FIELD.0", "FIELD,", ",FIELD", ""];
        let mut all: Vec<String> = spelled.iter().map(|spelled| spelled.replace("FIELD", field)).collect();
        all.extend(["FIELD\0", "\"FIELD\"", "FIELDx", "0xFIELD", "FIELD_"].map(|one| one.replace("FIELD", field)));
        all.push(format!("{field},{field}"));
        if field.chars().all(|letter| letter.is_ascii_digit()) {
            all.push("0".repeat(20) + field);
            all.push(format!("{field}00000000"));
            all.push(format!("{}", field.parse::<u64>().unwrap() + (1 << 32)));
            all.push(format!("{}", u128::from(field.parse::<u64>().unwrap()) + (1 << 64)));
        } else {
            all.push(field.to_uppercase());
        }
        all
    };
    // leading zeros before 0 and numbers grown out of their range are among them
    let texts = with_fields(spellings);
    assert!(texts.len() > 1500);
    for text in texts {
        assert_eq!(refusal_of(text.as_bytes()), 50, "{text}");
    }
}

#[test]
fn refusal_50_for_a_field_more_or_less_and_for_old_windows() {
    let lines = [
        "a,1", "a,1,7,0", "a", "a,", "o,", "o,0", "t,0", "t,0,0,0", "w,0", "p,0", "l,0", "u,0", "b", "b,0,0", "s,1",
        "s,1,0,0", "h,0,0,9", "h,0,0,9,0", "h,0,0,9,0,0,0", "g,0,9,0,9", "g,0,9,0,0,1,2,0", "g,0,9,0,0,1,2,0,0,0",
        "x,0,0", "", "A,1,7", "n,1,7", "n,1,7,1,0", "n", "q", "q,", "q,0,0", "N,1,7,1",
        "Q,0", "x,0", "word,a,1,7", "0,a,1,7", "a;1,7", "aa,1,7", "a,1,7,",
    ];
    for line in lines {
        assert_eq!(refusal_of(text(1, &["a,3,0", line], &[]).as_bytes()), 50, "{line}");
    }
    let lines = [
        "1,s,0,0,9", "1,s,0,0,9,0", "1,s,0,0,9,0,0,0", "1,s,0,0,9,0,0,", "1,0,0,9,0,0", "s,0,0,9,0,0", "1,s", "1", "",
        "1,x,0,0,9,0,0", "1,S,0,0,9,0,0", "1,R,0,0,9,0,0", "1,,0,0,9,0,0", "1,sr,0,0,9,0,0", "1,1,0,0,9,0,0",
        "issue,s,0,0,9,0,0", "coupon,1,s,0,0,9,0,0", "1,s,0,0,9,0,0;", "hold,1", "1,s,,0,9,0,0", "1,s,0,,9,0,0",
    ];
    for line in lines {
        assert_eq!(refusal_of(text(2, &["a,3,0"], &[line]).as_bytes()), 50, "{line}");
    }
    opened(&text(2, &["a,3,0"], &["1,s,0,0,9,0,0"]));
}

#[test]
fn refusal_50_for_a_number_out_of_range() {
    let lines = [
        "n,256,0,0", "n,0,65536,0", "n,0,0,65536", "n,0,0,4294967296", "q,1000",
        "a,256,0", "a,0,65536", "s,256,0", "s,0,1000", "t,1000,0", "t,0,1000", "w,1000,0", "p,0,1000", "l,1000,0",
        "u,0,1000", "b,1000", "h,1000,0,9,0,0", "h,0,10000000,9,0,0", "h,0,0,10000000,0,0", "h,0,0,9,10000000,0",
        "h,0,0,9,0,10000000", "g,10000000,0,0,0,0,0,0,0", "g,0,0,0,0,0,10000000,0,0", "g,0,0,0,10000000,0,0,0,0",
        "g,0,0,0,0,0,0,0,10000000",
    ];
    for line in lines {
        assert_eq!(refusal_of(text(1, &["o", line], &[]).as_bytes()), 50, "{line}");
    }
    let lines = [
        "0,r,0,0,9,0,0", "1000000,r,0,0,9,0,0", "1000001,r,0,0,9,0,0", "4294967297,r,0,0,9,0,0", "1,r,1000,0,9,0,0",
        "1,r,4294967296,0,9,0,0", "1,r,0,10000000,9,0,0", "1,r,0,0,10000000,0,0", "1,r,0,0,9,10000000,0",
        "1,r,0,0,9,0,10000000",
    ];
    for line in lines {
        assert_eq!(refusal_of(text(1_000_000, &["o"], &[line]).as_bytes()), 50, "{line}");
    }
    opened(&text(1_000_000, &["o"], &["1,r,0,0,9,0,0", "999999,r,0,0,9999999,0,0"]));
}

#[test]
fn refusal_50_if_serials_do_not_rise() {
    let serials = |serials: &[u32], next: u32| {
        let lines: Vec<String> = serials.iter().map(|serial| format!("{serial},r,0,0,9,0,0")).collect();
        let lines: Vec<&str> = lines.iter().map(String::as_str).collect();
        refusal_of(text(next, &["o"], &lines).as_bytes())
    };
    assert_eq!(serials(&[1, 2, 3], 4), 0);
    assert_eq!(serials(&[5, 9, 10, 100, 999_999], 1_000_000), 0);
    assert_eq!(serials(&[9, 10], 11), 0);
    for falling in [&[1, 1][..], &[2, 1], &[1, 3, 2], &[1, 2, 2], &[1, 2, 3, 1], &[3, 1, 2], &[10, 9], &[100, 20]] {
        assert_eq!(serials(falling, 1000), 50, "{falling:?}");
        // and not below next: 50 all the same
        assert_eq!(serials(falling, 1), 50, "{falling:?}");
    }
}

#[test]
fn refusal_51_for_a_serial_not_below_next() {
    for next in 1..=8 {
        let due = |rule_kept: bool| if rule_kept { 0 } else { 51 };
        assert_eq!(refusal_of(text(next, &["o"], &["5,r,0,0,9,0,0"]).as_bytes()), due(next > 5), "{next}");
        let two = text(next, &["o"], &["3,r,0,0,9,0,0", "6,r,0,0,9,0,0"]);
        assert_eq!(refusal_of(two.as_bytes()), due(next > 6), "{next}");
    }
    for next in [999_998, 999_999, 1_000_000] {
        let due = if next == 1_000_000 { 0 } else { 51 };
        assert_eq!(refusal_of(text(next, &["o"], &["999999,r,0,0,9,0,0"]).as_bytes()), due, "{next}");
    }
}

/// The wordings before the line that is tried.
const BEFORE: [&str; 12] = [
    "a,9,7", "t,0,0", "t,1,1", "t,2,2", "t,3,3", "t,4,4", "o", "a,1,7", "n,9,7,0", "q,8", "t,9,8", "n,9,7,5",
];

/// The answer to a text that has the line behind some wordings, and to `word` with the line there.
fn word_both_ways(line: &str) -> (u32, u32) {
    let requests = BEFORE.map(|word| format!("word,{word}"));
    let mut till = till_after(&requests.each_ref().map(String::as_str));
    let worded = match ask(&mut till, &format!("word,{line}")) {
        Refused(number, 0) => number,
        answer => {
            assert_eq!(answer, Done(12));
            0
        }
    };
    let words = [&BEFORE[..], &[line]].concat();
    let alone = refusal_of(text(1, &words, &[]).as_bytes());
    // nothing behind it puts it right
    let words = [&words[..], &["a,3,3", "t,0,6"]].concat();
    assert_eq!(refusal_of(text(9, &words, &["3,r,0,0,9,0,0"]).as_bytes()), alone, "{line}");
    (alone, worded)
}

#[test]
fn refusal_51_for_a_wording_that_word_refuses() {
    let refused = [
        ("h,0,5,4,0,0", 3), ("h,0,5,4,9,9", 3), ("g,5,4,0,0,0,9,0,0", 3), ("g,0,9,0,0,5,4,0,0", 3),
        ("h,99,5,4,0,0", 3),
        ("h,0,0,9,0,5", 43), ("h,0,0,9,5,0", 43), ("h,0,0,9,0,9", 43), ("h,0,0,9,5,9", 43), ("h,0,0,9,6,5", 43),
        ("h,0,5,9,5,6", 43), ("g,0,9,0,1,0,9,0,0", 43), ("g,0,9,0,0,0,9,9,9", 43), ("g,0,1,1,1,0,9,0,0", 43),
        ("t,0,12", 10), ("t,12,0", 10), ("w,12,12", 10), ("p,0,13", 10), ("l,13,0", 10), ("u,0,199", 10),
        ("b,12", 10), ("b,999", 10), ("b,200", 10), ("s,1,12", 10), ("h,12,0,9,0,0", 10), ("h,13,0,9,3,4", 10),
        ("t,0,999", 10), ("q,12", 10), ("q,999", 10), ("q,9", 53), ("q,10", 53),
        ("t,5,0", 12), ("t,0,5", 12), ("t,5,5", 12), ("w,5,0", 12), ("p,5,6", 12), ("l,4,5", 12), ("u,5,1", 12),
        ("a,9,7", 13), ("t,0,0", 13), ("t,4,4", 13), ("o", 13), ("a,1,7", 13), ("n,9,7,0", 13), ("n,9,7,5", 13),
        ("q,8", 13),
    ];
    for (line, number) in refused {
        assert_eq!(word_both_ways(line), (51, number), "{line}");
    }
    let right = [
        "h,0,5,5,0,0", "h,0,0,9,3,4", "g,9,9,0,0,0,5,1,4", "b,5", "s,1,5", "h,5,0,9,0,0", "t,4,3", "t,7,7",
        "a,9,8", "w,0,0", "a,9,263", "a,7,9", "b,7", "g,0,9,0,0,0,9,0,0",
        "q,0", "q,5", "q,11", "n,9,7,6", "n,9,5,7", "b,9", "t,9,10", "s,1,8", "l,8,9",
    ];
    for line in right {
        assert_eq!(word_both_ways(line), (0, 0), "{line}");
    }
}

#[test]
fn a_wording_names_earlier_ones_only() {
    opened(&text(1, &["o", "b,0", "b,1", "t,2,0"], &[]));
    let forward = [
        ["b,0", "o", "b,1", "t,2,0"],
        ["b,1", "o", "b,0", "t,2,0"],
        ["o", "b,1", "b,0", "t,2,0"],
        ["o", "b,2", "b,0", "t,2,0"],
        ["o", "b,0", "b,3", "t,1,0"],
        ["o", "b,0", "b,1", "t,3,0"],
        ["o", "b,0", "b,1", "t,0,3"],
        ["t,1,1", "o", "b,1", "b,2"],
    ];
    for words in forward {
        assert_eq!(refusal_of(text(1, &words, &[]).as_bytes()), 51, "{words:?}");
    }
}

#[test]
fn refusal_51_for_two_equal_wordings_anywhere() {
    let mut words: Vec<String> = (0..200).map(|session| format!("a,3,{session}")).collect();
    let refusal = |words: &[String]| {
        let words: Vec<&str> = words.iter().map(String::as_str).collect();
        refusal_of(text(1, &words, &[]).as_bytes())
    };
    assert_eq!(refusal(&words), 0);
    for (one, other) in [(0, 1), (0, 199), (198, 199), (63, 64), (5, 127)] {
        let kept = std::mem::replace(&mut words[other], format!("a,3,{one}"));
        assert_eq!(refusal(&words), 51, "{one} {other}");
        words[other] = kept;
    }
}

#[test]
fn sizes_of_64_open_and_65_do_not() {
    let words = ["a,9,7", "t,0,0", "t,1,1", "t,2,2", "t,3,3", "t,4,4", "s,1,5"];
    opened(&text(1, &words, &[]));
    for line in ["s,1,6", "b,6", "h,6,0,9,0,0", "t,0,5", "t,6,6"] {
        assert_eq!(refusal_of(text(1, &[&words[..], &[line]].concat(), &[]).as_bytes()), 51, "{line}");
    }
}

/// The wordings that coupons name: plain and not balanced, balanced and not plain, both, neither; then
/// with holder 0 outside `q` or only inside.
const NAMED: [&str; 10] = [
    "a,1,7", "o", "a,9,7", "l,0,1", "a,2,7", "n,9,7,0", "q,5", "t,6,5", "n,1,7,0", "n,1,7,65535",
];

#[test]
fn refusal_51_for_a_coupon_that_issue_refuses() {
    let refused = [
        ("s,0,5,4,0,0", 3), ("r,1,5,4,0,0", 3), ("s,0,1,0,0,0", 3), ("s,99,5,4,7,8", 3), ("r,0,9999999,0,0,0", 3),
        ("s,0,0,9,0,5", 43), ("s,0,0,9,5,0", 43), ("r,1,0,9,9,9", 43), ("s,0,4,9,4,5", 43), ("s,0,0,9,6,5", 43),
        ("s,0,5,5,5,5", 43), ("s,10,0,9,1,9", 43),
        ("s,10,0,9,0,0", 10), ("r,10,0,9,0,0", 10), ("s,11,0,9,0,0", 10), ("s,199,0,9,0,0", 10),
        ("r,200,0,9,0,0", 10), ("s,999,0,9,0,0", 10), ("s,5,0,9,0,0", 53), ("r,5,0,9,0,0", 53),
        ("s,7,0,9,0,0", 53), ("r,7,0,9,0,0", 53), ("s,8,0,9,0,0", 53), ("r,8,0,9,0,0", 53),
        ("s,6,0,9,0,0", 20), ("r,9,0,9,0,0", 21),
        ("s,1,0,9,0,0", 20), ("s,3,0,9,0,0", 20), ("r,0,0,9,0,0", 21), ("r,3,0,9,0,0", 21), ("r,4,0,9,0,0", 21),
    ];
    let right = [
        "s,0,0,9,0,0", "s,4,5,5,0,0", "r,1,0,9,1,8", "s,2,0,0,0,0", "r,2,0,9,3,4", "s,2,0,9,8,8", "r,6,0,9,0,0",
        "s,9,0,9,0,0",
    ];
    let cases = refused.into_iter().chain(right.map(|coupon| (coupon, 0)));
    let requests = NAMED.map(|word| format!("word,{word}"));
    for (coupon, number) in cases {
        let mut till = till_after(&requests.each_ref().map(String::as_str));
        let issued = ask(&mut till, &format!("issue,{coupon}"));
        assert_eq!(issued, if number == 0 { Done(1) } else { Refused(number, 0) }, "{coupon}");
        let due = if number == 0 { 0 } else { 51 };
        let line = format!("3,{coupon}");
        assert_eq!(refusal_of(text(4, &NAMED, &[&line]).as_bytes()), due, "{coupon}");
        let three = ["1,s,0,0,9,0,0", &line, "9,r,1,0,9,0,0"];
        assert_eq!(refusal_of(text(10, &NAMED, &three).as_bytes()), due, "{coupon}");
    }
}

#[test]
fn coupons_are_held_against_all_wordings_but_no_others() {
    opened(&text(3, &["o", "a,3,0"], &["1,s,1,0,9,0,0", "2,r,0,0,9,0,0"]));
    assert_eq!(refusal_of(text(3, &["o"], &["1,r,1,0,9,0,0"]).as_bytes()), 51);
    assert_eq!(refusal_of(text(3, &[], &["1,r,0,0,9,0,0"]).as_bytes()), 51);
    // any number of coupons may be alike but for their serials
    opened(&text(4, &["o"], &["1,r,0,0,9,0,0", "2,r,0,0,9,0,0", "3,r,0,0,9,0,0"]));
}

#[test]
fn refusal_50_comes_before_51_anywhere_in_the_text() {
    let against_rules = [
        "till,1,9,1,1\nh,0,9,0,0,0\n3,r,0,0,9,0,0\n",
        "till,1,9,1,1\ng,0,9,0,9,0,9,0,0\n3,r,0,0,9,0,0\n",
        "till,1,9,2,1\no\no\n3,r,0,0,9,0,0\n",
        "till,1,9,1,1\nb,0\n3,r,0,0,9,0,0\n",
        "till,1,9,1,1\no\n3,s,0,0,9,0,0\n",
        "till,1,9,1,1\na,1,7\n3,r,0,0,9,0,0\n",
        "till,1,9,1,1\no\n3,r,1,0,9,0,0\n",
        "till,1,9,1,1\no\n9,r,0,0,9,0,0\n",
        "till,2,9,1,1\nn,9,7,0\n3,r,0,0,9,0,0\n",
        "till,2,9,3,1\nn,9,7,0\nq,0\nq,1\n3,r,1,0,9,0,0\n",
        "till,2,9,1,1\nq,0\n3,r,0,0,9,0,0\n",
        "till,1,9,1,1\no\n3,r,0,9,0,0,0\n",
        "till,1,9,1,1\no\n3,r,0,0,9,0,9\n",
        "till,1,9,7,0\na,9,7\nt,0,0\nt,1,1\nt,2,2\nt,3,3\nt,4,4\nt,5,5\n",
    ];
    for text in against_rules {
        assert_eq!(refusal_of(text.as_bytes()), 51, "{text}");
        let last = &text[..text.len() - 1];
        let broken = [
            last.to_string(),
            last[..last.len() - 2].to_string(),
            format!("{text}\n"),
            format!("{text}x"),
            format!("{text}o\n"),
            format!("{last}\r\n"),
            format!("{last},\n"),
            format!("{last},0\n"),
            format!("{last}00000000\n"),
            text.replacen(",9,", ",0,", 1),
            text.replacen(",9,", ",09,", 1),
            format!("till,{},{}", if text.starts_with("till,1") { 2 } else { 1 }, &text[7..]),
            format!("till,3,{}", &text[7..]),
        ];
        for broken in broken {
            assert_eq!(refusal_of(broken.as_bytes()), 50, "{broken}");
        }
    }
    // with one more line, right or not
    for text in &against_rules[..13] {
        let more = |line: &str| refusal_of(format!("{}{line}\n", text.replacen(",1\n", ",2\n", 1)).as_bytes());
        assert_eq!(more("10,r,0,0,9,0,0"), 51, "{text}");
        for line in ["2,r,0,0,9,0,0", "3,r,0,0,9,0,0", "10,r,0,0,9,0,10000000", "10,r,1000,0,9,0,0", "10,r,0,0,9", ""] {
            assert_eq!(more(line), 50, "{text}{line}");
        }
    }
}

#[test]
fn refusal_50_after_a_rule_broken_in_the_second_line_of_a_full_text() {
    let mut lines: Vec<String> = counted(200, 2048, "200,2048").lines().map(String::from).collect();
    // a line equal to the next, a later wording, a window that ends before it begins
    for second in ["a,3,1", "b,199", "h,0,9,0,0,0"] {
        lines[1] = second.to_string();
        assert_eq!(refusal_of((lines.join("\n") + "\n").as_bytes()), 51, "{second}");
        let last = lines.pop().unwrap();
        for broken in ["2048,s,0,0,9,0", "2047,s,0,0,9,0,0", "2048,s,0,0,9,0,00", "2048,s,1000,0,9,0,0", ""] {
            assert_eq!(refusal_of((lines.join("\n") + "\n" + broken + "\n").as_bytes()), 50, "{second} {broken}");
        }
        lines.push(last);
    }
}

#[test]
fn there_is_no_refusal_for_length() {
    for length in [1, 16_384, 16_385, 65_536, 105_384, 105_385, 1_000_000] {
        for byte in [0, 10, b'0', b'9', b',', b'x', 0xff] {
            assert_eq!(refusal_of(&vec![byte; length]), 50);
        }
    }
    let nines = "9".repeat(100_000);
    for start in ["till,1,", "till,2,", "till,1,1,0,", "till,1,1,1,0\na,", "till,2,1,1,0\nn,", "till,1,2,1,1\no\n"] {
        assert_eq!(refusal_of(format!("{start}{nines},1\n").as_bytes()), 50);
    }
    // a good text and as much again
    let long = counted(200, 2048, "200,2048");
    assert_eq!(refusal_of(format!("{long}{long}{long}").as_bytes()), 50);
}

#[test]
fn a_till_that_no_list_of_sheets_reaches_opens_all_the_same() {
    opened(&text(6, &["o"], &["5,r,0,0,9,0,0"]));
    opened(&text(1_000_000, &[], &[]));
    opened(&text(7, &[], &[]));
}

#[test]
fn opening_takes_the_place_of_any_till() {
    let mut till = till_after(&["word,a,9,7", "word,o", "issue,s,0,0,9,0,0", "issue,r,1,0,9,0,0"]);
    let sample = sample();
    assert_eq!(till.reopen(sample.as_bytes()), Ok(sample.len()));
    assert_eq!(text_of(&till), sample);
    assert_eq!(ask(&mut till, "withdraw,2"), Refused(24, 0));
    assert_eq!(till.reopen(b"till,1,1,0,0\n"), Ok(13));
    assert_eq!(text_of(&till), text_of(&Till::new()));
    assert_eq!(ask(&mut till, "withdraw,12"), Refused(24, 0));
    assert_eq!(ask(&mut till, "word,a,9,7"), Done(0));
    assert_eq!(ask(&mut till, "issue,s,0,0,9,0,0"), Done(1));
}

#[test]
fn a_refused_opening_leaves_the_till() {
    let mut till = opened(&sample());
    let before = text_of(&till);
    let refused = [
        ("", 50), ("till,1,1,0,0", 50), ("till,1,1,1,0\n", 50), ("till,1,9,1,1\no\n3,s,0,0,9,0,0\n", 51),
        ("till,1,3,1,1\no\n3,r,0,0,9,0,0\n", 51), ("till,1,3,2,0\no\no\n", 51), ("till,1,3,2,0\no\no", 50),
        ("till,1,9,1,2\no\n3,r,0,0,9,0,0\n3,r,0,0,9,0,0\n", 50),
    ];
    for (text, number) in refused {
        assert_eq!(till.reopen(text.as_bytes()), Err(number), "{text}");
        assert_eq!(text_of(&till), before, "{text}");
    }
    assert_eq!(ask(&mut till, "issue,s,0,0,9,0,0"), Done(1234));
    assert_eq!(ask(&mut till, "withdraw,12"), Done(12));
}
