//! Two editions of the text and 2,048 coupons (document 02, ask 8).

use super::{ask, booking, opened, refusal_of, text, text_in, text_of, till_after};
use super::{Counted, Done, Refused, Till, MAX_TEXT};

/// The edition of the text that closing writes, which is opened; in any other edition it is 50.
fn edition(till: &Till) -> u8 {
    let text = text_of(till);
    opened(&text);
    for other in 0..=9 {
        let changed = format!("till,{other}{}", &text[6..]);
        let due = if changed == text { 0 } else { 50 };
        assert_eq!(refusal_of(changed.as_bytes()), due, "{:?}", changed.lines().next());
    }
    assert_eq!((&text[..5], &text[6..7]), ("till,", ","));
    text.as_bytes()[5] - b'0'
}

/// The free atom 0 and so many coupons of it, kinds in turn as the letters say.
fn with_coupons(count: u32, kinds: &str) -> Till {
    let mut till = till_after(&["word,a,9,7"]);
    for (serial, kind) in (1..=count).zip(kinds.chars().cycle()) {
        assert_eq!(ask(&mut till, &format!("issue,{kind},0,0,9,0,0")), Done(serial));
    }
    till
}

/// Coupon lines with these serials, all of wording 0.
fn coupon_lines(serials: impl Iterator<Item = usize>) -> Vec<String> {
    serials.map(|serial| format!("{serial},s,0,0,9,0,0")).collect()
}

/// The lines as `text` takes them.
fn strs(lines: &[String]) -> Vec<&str> {
    lines.iter().map(String::as_str).collect()
}

#[test]
fn more_than_512_live_coupons_are_written_in_the_second_edition() {
    for kinds in ["s", "r", "sr", "rrs"] {
        for (count, due) in [(0, 1), (1, 1), (511, 1), (512, 1), (513, 2), (514, 2), (1024, 2), (2047, 2), (2048, 2)] {
            assert_eq!(edition(&with_coupons(count, kinds)), due, "{kinds} {count}");
        }
    }
}

#[test]
fn the_lines_are_the_same_in_both_editions() {
    for count in [512, 513] {
        let coupons = coupon_lines(1..=count);
        let due = format!("till,{},{},1,{count}\na,9,7\n{}\n", count - 511, count + 1, coupons.join("\n"));
        assert_eq!(text_of(&with_coupons(count as u32, "s")), due);
    }
    let mut till = till_after(&["word,a,9,7", "issue,s,0,0,9,0,0"]);
    assert_eq!(text_of(&till), "till,1,2,1,1\na,9,7\n1,s,0,0,9,0,0\n");
    assert_eq!(ask(&mut till, "word,n,9,7,0"), Done(1));
    assert_eq!(text_of(&till), "till,2,2,2,1\na,9,7\nn,9,7,0\n1,s,0,0,9,0,0\n");
    assert_eq!(ask(&mut till, "word,q,1"), Done(2));
    assert_eq!(text_of(&till), "till,2,2,3,1\na,9,7\nn,9,7,0\nq,1\n1,s,0,0,9,0,0\n");
}

#[test]
fn live_ones_count_and_not_those_that_were_given() {
    let mut till = with_coupons(513, "s");
    for (sheet, due) in [("withdraw,1", 1), ("issue,s,0,0,9,0,0", 2), ("withdraw,514", 1), ("issue,r,0,0,9,0,0", 2)] {
        assert!(matches!(ask(&mut till, sheet), Done(_)), "{sheet}");
        assert_eq!(edition(&till), due, "{sheet}");
    }
    for serial in 2..=513 {
        assert_eq!(ask(&mut till, &format!("withdraw,{serial}")), Done(serial));
        assert_eq!(edition(&till), 1, "{serial}");
    }
    assert_eq!(text_of(&till), "till,1,516,1,1\na,9,7\n515,r,0,0,9,0,0\n");
    assert_eq!(ask(&mut till, "withdraw,515"), Done(515));
    assert_eq!(text_of(&till), "till,1,516,1,0\na,9,7\n");
    // a high serial makes no difference
    assert_eq!(edition(&opened("till,1,1000000,1,1\na,9,7\n999999,s,0,0,9,0,0\n")), 1);
    assert_eq!(edition(&opened("till,1,1000000,0,0\n")), 1);
}

#[test]
fn bookings_bring_a_till_back_to_the_first_edition() {
    let mut till = with_coupons(513, "s");
    assert_eq!(ask(&mut till, "word,t,0,0"), Done(1));
    // one for one, and a refused one
    assert_eq!(ask(&mut till, &booking("0,0,0,9,0,0", &[7], &["ax,0"])), Done(514));
    assert_eq!(ask(&mut till, &booking("0,1,0,9,0,0", &[8, 9], &["tr,0000000000000001", "ax,0"])), Refused(42, 3));
    assert_eq!(edition(&till), 2);
    // two for one
    let steps = ["tr,0000000000000001", "ax,0", "ax,1"];
    assert_eq!(ask(&mut till, &booking("0,1,0,9,0,0", &[8, 9], &steps)), Done(515));
    assert_eq!(edition(&till), 1);
    // none for one: with a standing coupon of 512 a copy is booked
    let mut till = with_coupons(512, "r");
    assert_eq!(edition(&till), 1);
    assert_eq!(ask(&mut till, &booking("0,0,0,9,0,0", &[512], &["cp,0", "ax,1"])), Done(513));
    assert_eq!(edition(&till), 2);
}

#[test]
fn refused_sheets_do_not_change_the_edition() {
    let mut till = with_coupons(512, "s");
    assert_eq!(ask(&mut till, "word,o"), Done(1));
    let sheets = [
        "issue,s,1,0,9,0,0", "issue,s,2,0,9,0,0", "issue,s,0,9,0,0,0", "issue,s,0,0,9,0,9", "issue,x,0,0,9,0,0",
        "book,0,0,0,9,0,0,1,1\nhold,513\nax,0", "word,n,9,7,65536", "word,n,9,7", "word,q,2", "word,q,999", "word,q",
    ];
    for sheet in sheets {
        assert!(matches!(ask(&mut till, sheet), Refused(..)), "{sheet}");
        assert_eq!(edition(&till), 1, "{sheet}");
    }
    assert_eq!(ask(&mut till, "tally,7,0"), Counted(0, 0, 0));
    assert_eq!(edition(&till), 1);
    // a `q` of size 65, and `n` and `q` where 200 wordings are
    let words = ["word,a,9,7", "word,t,0,0", "word,t,1,1", "word,t,2,2", "word,t,3,3", "word,t,4,4", "word,s,1,5"];
    let mut till = till_after(&words);
    assert_eq!(ask(&mut till, "word,q,6"), Refused(12, 0));
    assert_eq!(edition(&till), 1);
    for number in 7..200 {
        assert_eq!(ask(&mut till, &format!("word,a,3,{number}")), Done(number));
    }
    assert_eq!(ask(&mut till, "word,q,0"), Refused(14, 0));
    assert_eq!(ask(&mut till, "word,n,9,7,5"), Refused(14, 0));
    assert_eq!(edition(&till), 1);
}

#[test]
fn an_n_or_a_q_is_written_in_the_second_edition_used_or_not() {
    for (words, due) in [
        (&["n,9,7,0"][..], 2), (&["n,9,7,1"], 2), (&["n,0,0,0"], 2), (&["n,255,65535,65535"], 2), (&["n,1,7,3"], 2),
        (&["o", "q,0"], 2), (&["a,9,7", "q,0"], 2), (&["n,9,7,0", "q,0"], 2), (&["n,9,7,0", "q,0", "t,1,1"], 2),
        (&["a,1,7", "n,1,7,1"], 2), (&["o", "q,0", "b,0", "w,0,0"], 2), (&["o", "b,0", "w,0,0", "q,2"], 2),
        (&["a,9,7", "o", "t,0,1", "w,0,1", "p,0,1", "l,0,1", "u,0,1", "b,0", "h,0,0,9,0,0", "s,1,0"], 1),
        (&["g,0,9,0,0,1,2,0,0"], 1), (&["a,0,0"], 1), (&["a,110,113"], 1), (&["o"], 1),
    ] {
        let sheets: Vec<String> = words.iter().map(|word| format!("word,{word}")).collect();
        assert_eq!(edition(&till_after(&strs(&sheets))), due, "{words:?}");
    }
}

#[test]
fn an_n_or_a_q_anywhere_among_200_wordings() {
    for at in [0, 1, 63, 64, 100, 127, 128, 198, 199] {
        let mut words: Vec<String> = (0..200).map(|session| format!("a,3,{session}")).collect();
        opened(&text(1, &strs(&words), &[]));
        words[at] = "n,9,7,5".to_string();
        assert_eq!(edition(&opened(&text_in("2", 1, &strs(&words), &[]))), 2, "{at}");
        if at > 0 {
            words[at] = "q,0".to_string();
            assert_eq!(edition(&opened(&text_in("2", 1, &strs(&words), &[]))), 2, "{at}");
        }
    }
}

#[test]
fn an_n_or_a_q_stays_when_its_coupons_leave() {
    let mut till = till_after(&["word,n,9,7,5", "issue,s,0,0,9,0,0", "word,q,0", "issue,r,1,0,9,0,0"]);
    assert_eq!(edition(&till), 2);
    assert_eq!(ask(&mut till, "withdraw,2"), Done(2));
    assert_eq!(ask(&mut till, &booking("0,0,0,9,0,0", &[1], &["ax,0"])), Done(3));
    assert_eq!(ask(&mut till, "withdraw,3"), Done(3));
    assert_eq!(text_of(&till), "till,2,4,2,0\nn,9,7,5\nq,0\n");
    assert_eq!(edition(&till), 2);
}

#[test]
fn an_n_or_a_q_beside_512_and_513_coupons() {
    for line in ["n,9,7,5", "q,0"] {
        for count in [511, 512, 513, 2048] {
            let coupons = coupon_lines(1..=count);
            let text = text_in("2", 3000, &["a,9,7", line], &strs(&coupons));
            assert_eq!(edition(&opened(&text)), 2, "{line} {count}");
        }
    }
}

/// Opens the lines in both editions: in their own the answer is 0 or 51, in the other 50.
fn in_editions(own: &str, next: u32, words: &[&str], coupons: &[&str], due: u32) {
    for edition in ["1", "2"] {
        let text = text_in(edition, next, words, coupons);
        let due = if edition == own { due } else { 50 };
        assert_eq!(refusal_of(text.as_bytes()), due, "{}", &text[..text.len().min(200)]);
    }
}

#[test]
fn refusal_50_for_an_edition_that_closing_would_not_write() {
    in_editions("1", 1, &[], &[], 0);
    in_editions("1", 5, &["a,9,7", "o"], &["2,s,0,0,9,0,0", "4,r,1,0,9,0,0"], 0);
    in_editions("2", 5, &["a,9,7", "n,9,7,1"], &["2,s,0,0,9,0,0", "4,s,1,0,9,0,0"], 0);
    in_editions("2", 5, &["a,9,7", "n,9,7,1"], &["2,s,0,0,9,0,0"], 0);
    in_editions("2", 5, &["a,9,7", "q,0"], &["2,s,0,0,9,0,0", "4,r,1,0,9,0,0"], 0);
    in_editions("2", 5, &["a,9,7", "q,0"], &["2,s,0,0,9,0,0"], 0);
    in_editions("2", 5, &["o", "q,0"], &[], 0);
    in_editions("2", 5, &["n,9,7,0"], &[], 0);
    for (count, own) in [(511, "1"), (512, "1"), (513, "2"), (514, "2"), (2047, "2"), (2048, "2")] {
        let coupons = coupon_lines(1..=count);
        in_editions(own, 2049, &["a,9,7"], &strs(&coupons), 0);
        in_editions("2", 2049, &["a,9,7", "n,9,7,0"], &strs(&coupons), 0);
        in_editions("2", 2049, &["a,9,7", "q,0"], &strs(&coupons), 0);
    }
}

#[test]
fn refusal_50_for_the_edition_comes_before_51() {
    // of the first edition
    in_editions("1", 9, &["o", "o"], &[], 51);
    in_editions("1", 9, &["b,0"], &[], 51);
    in_editions("1", 9, &["o", "h,0,9,0,0,0"], &[], 51);
    in_editions("1", 9, &["o", "h,0,0,9,0,9"], &[], 51);
    in_editions("1", 9, &["a,9,7", "t,0,0", "t,1,1", "t,2,2", "t,3,3", "t,4,4", "t,5,5"], &[], 51);
    let kinds = ["3,s,0,0,9,0,0", "3,r,1,0,9,0,0", "3,r,2,0,9,0,0"];
    for coupon in kinds.into_iter().chain(["9,r,0,0,9,0,0", "3,r,0,9,0,0,0", "3,r,0,0,9,5,9"]) {
        in_editions("1", 9, &["o", "a,1,7"], &[coupon], 51);
        in_editions("2", 9, &["o", "a,1,7", "n,1,7,1"], &[coupon], 51);
    }
    // the only `n` or `q` is what breaks the rule, or names it
    in_editions("2", 9, &["q,0"], &[], 51);
    in_editions("2", 9, &["q,1", "o"], &[], 51);
    in_editions("2", 9, &["o", "q,2"], &[], 51);
    in_editions("2", 9, &["o", "q,999"], &[], 51);
    in_editions("2", 9, &["o", "q,0", "q,0"], &[], 51);
    in_editions("2", 9, &["o", "q,0", "q,1"], &[], 51);
    in_editions("2", 9, &["n,9,7,5", "n,9,7,5"], &[], 51);
    in_editions("2", 9, &["a,9,7", "t,0,0", "t,1,1", "t,2,2", "t,3,3", "t,4,4", "b,5", "q,6"], &[], 51);
    in_editions("2", 9, &["n,9,7,0"], &["3,s,0,0,9,0,0"], 51);
    in_editions("2", 9, &["o", "q,0"], &["3,s,1,0,9,0,0"], 51);
    in_editions("2", 9, &["n,1,7,5"], &["3,r,0,0,9,0,0"], 51);
}

#[test]
fn refusal_50_for_the_edition_comes_before_51_around_512_coupons() {
    for (count, own) in [(511, "1"), (512, "1"), (513, "2"), (2048, "2")] {
        let right = coupon_lines(1..=count);
        in_editions(own, 2049, &["a,9,7"], &strs(&right), 0);
        in_editions(own, 2049, &["a,9,7", "a,9,7"], &strs(&right), 51);
        in_editions(own, 2049, &["a,9,7", "b,1"], &strs(&right), 51);
        in_editions(own, 2049, &["a,9,7", "h,0,9,0,0,0"], &strs(&right), 51);
        in_editions(own, 2049, &["o"], &strs(&right), 51);
        in_editions(own, count as u32, &["a,9,7"], &strs(&right), 51);
        for (at, line) in [(0, "1,s,1,0,9,0,0"), (count - 1, "2048,s,0,9,0,0,0"), (count - 1, "2048,r,0,0,9,0,9")] {
            let mut lines = strs(&right);
            lines[at] = line;
            in_editions(own, 2049, &["a,9,7"], &lines, 51);
        }
    }
}

#[test]
fn lines_that_are_missing_or_left_over_are_50_in_both_editions() {
    let pairs = [(512, 513), (513, 512), (2047, 2048), (2048, 2047), (2049, 2048), (2048, 2049), (2049, 2049)];
    for (lines, count) in pairs {
        for edition in [1, 2] {
            let coupons = coupon_lines(1..=lines).join("\n");
            let text = format!("till,{edition},3000,1,{count}\na,9,7\n{coupons}\n");
            assert_eq!(refusal_of(text.as_bytes()), 50, "{edition} {lines} {count}");
        }
    }
    let few = ["till,2,1,1,0\n", "till,2,1,0,1\n", "till,2,1,0,513\n"];
    for text in few.into_iter().chain(["till,1,1,0,0\nn,9,7,5\n", "till,2,1,0,0\nn,9,7,5\n"]) {
        assert_eq!(refusal_of(text.as_bytes()), 50, "{text}");
    }
    // the lines behind the count of wordings are none, whatever they look like
    for edition in [1, 2] {
        let text = format!("till,{edition},9,1,1\na,9,7\nn,9,7,5\n3,s,0,0,9,0,0\n");
        assert_eq!(refusal_of(text.as_bytes()), 50, "{edition}");
    }
}

#[test]
fn a_text_begins_with_its_edition_or_is_50() {
    let small = "1,1,0\nq,0\n";
    for head in ["till,2", "till,2,", "till,2\n", "till,22,", "till,02,", "till,2,2,", "till 2,", "2,", "till,,", ""] {
        assert_eq!(refusal_of(head.as_bytes()), 50, "{head}");
        assert_eq!(refusal_of(format!("{head}1,0,0\n").as_bytes()), 50, "{head}");
        assert_eq!(refusal_of(format!("{head}{small}").as_bytes()), if head == "till,2," { 51 } else { 50 }, "{head}");
    }
}

#[test]
fn the_text_decides_and_not_the_till_before_it() {
    let mut till = with_coupons(600, "s");
    assert_eq!(ask(&mut till, "word,n,9,7,5"), Done(1));
    let before = text_of(&till);
    let refused = [
        ("till,2,1,0,0\n", 50), ("till,1,1,1,0\nn,9,7,5\n", 50), ("till,2,4,1,1\na,9,7\n3,s,0,0,9,0,0\n", 50),
        ("till,2,1,1,0\nq,0\n", 51),
    ];
    for (refused, number) in refused {
        assert_eq!(till.reopen(refused.as_bytes()), Err(number), "{refused}");
        assert_eq!(text_of(&till), before, "{refused}");
    }
    assert_eq!(till.reopen(b"till,1,1,0,0\n"), Ok(13));
    assert_eq!(edition(&till), 1);
    assert_eq!(till.reopen(before.as_bytes()), Ok(before.len()));
    assert_eq!(text_of(&till), before);
    let small = "till,1,4,1,1\na,9,7\n3,s,0,0,9,0,0\n";
    assert_eq!(till.reopen(small.as_bytes()), Ok(small.len()));
    assert_eq!(edition(&till), 1);
    assert_eq!(ask(&mut till, "word,q,0"), Done(1));
    assert_eq!(edition(&till), 2);
}

#[test]
fn an_opened_till_of_2048_coupons_is_full_and_finds_them_all() {
    let coupons: Vec<String> = (1..=2048).map(|n| format!("{},s,0,{n},9999,0,0", 3 * n)).collect();
    let full = text_in("2", 6145, &["a,1,7", "s,1,0"], &strs(&coupons));
    let mut till = opened(&full);
    assert_eq!(ask(&mut till, "issue,s,0,0,9,0,0"), Refused(22, 0));
    assert_eq!(ask(&mut till, &booking("2048,0,2048,9999,0,0", &[6144], &["ax,0"])), Done(6145));
    assert_eq!(ask(&mut till, "tally,7,9999"), Counted(0, 2048, 0));
    for n in (1..2048).rev() {
        assert_eq!(ask(&mut till, &format!("withdraw,{}", 3 * n - 1)), Refused(24, 0));
        assert_eq!(ask(&mut till, &format!("withdraw,{}", 3 * n)), Done(3 * n));
        if n == 512 {
            assert_eq!(edition(&till), 1);
        }
    }
    assert_eq!(text_of(&till), "till,1,6146,2,1\na,1,7\ns,1,0\n6145,s,0,2048,9999,0,0\n");
    // one below is not full
    let mut till = opened(&text_in("2", 6142, &["a,1,7", "s,1,0"], &strs(&coupons[..2047])));
    assert_eq!(ask(&mut till, "issue,s,0,0,9,0,0"), Done(6142));
    assert_eq!(ask(&mut till, "issue,s,0,0,9,0,0"), Refused(22, 0));
}

#[test]
fn refusal_22_at_no_number_below_2048() {
    let mut till = till_after(&["word,a,1,7", "word,s,1,0", "word,l,1,1", "issue,r,2,0,9,0,0"]);
    let copy = ["cp,0", "ll,2,0000000000000002,0,9,0,0", "sr", "sl,1", "af", "ax,3", "sr", "sl,4", "af", "ax,5"];
    for serial in 2..=2048 {
        assert_eq!(ask(&mut till, "issue,s,1,0,9,0,0"), Done(serial));
        assert_eq!(ask(&mut till, "tally,7,9"), Counted(serial - 1, 0, 0));
    }
    assert_eq!(ask(&mut till, "issue,s,1,0,9,0,0"), Refused(22, 0));
    assert_eq!(ask(&mut till, &booking("0,1,0,9,0,0", &[1, 2048], &copy)), Done(2049));
    assert_eq!(ask(&mut till, "issue,r,2,0,9,0,0"), Refused(22, 0));
    assert_eq!(ask(&mut till, "tally,7,9"), Counted(2047, 0, 0));
    assert_eq!(ask(&mut till, "withdraw,1"), Done(1));
    assert_eq!(ask(&mut till, "issue,r,2,0,9,0,0"), Done(2050));
    assert_eq!(ask(&mut till, "issue,r,2,0,9,0,0"), Refused(22, 0));
    assert_eq!(edition(&till), 2);
}

#[test]
fn refusal_22_counts_every_single_held_in_a_full_till() {
    let mut till = with_coupons(2048, "rs");
    assert_eq!(ask(&mut till, "word,t,0,0"), Done(1));
    // two singles of atom 0, serials 2 and 2048, for one coupon of 0 ⊗ 0; then there is room for one more
    let steps = ["tr,0000000000000001", "ax,0", "ax,1"];
    assert_eq!(ask(&mut till, &booking("0,1,0,9,0,0", &[2, 2048], &steps)), Done(2049));
    assert_eq!(ask(&mut till, &booking("0,0,0,9,0,0", &[2047], &["cp,0", "ax,1"])), Done(2050));
    assert_eq!(ask(&mut till, &booking("0,0,0,9,0,0", &[2047], &["cp,0", "ax,1"])), Refused(22, 0));
    // held twice, among the last coupons
    assert_eq!(ask(&mut till, &booking("0,0,0,9,0,0", &[2046, 2044, 2046], &["ax,0"])), Refused(31, 0));
    assert_eq!(ask(&mut till, &booking("0,0,0,9,0,0", &[2046, 2044, 2042], &["ax,0"])), Refused(40, 1));
}

#[test]
fn figures_pass_65_535() {
    // 6 is 32 seats, 11 is 32 places
    let words = [
        "a,1,7", "a,2,7", "t,0,0", "t,2,2", "t,3,3", "t,4,4", "t,5,5", "t,1,1", "t,7,7", "t,8,8", "t,9,9", "t,10,10",
    ];
    let sheets = words.map(|word| format!("word,{word}"));
    for (wording, figures) in [(6, (0, 65_536, 0)), (11, (0, 0, 65_536))] {
        let mut till = till_after(&sheets.each_ref().map(String::as_str));
        for serial in 1..=2048 {
            assert_eq!(ask(&mut till, &format!("issue,s,{wording},0,9,0,0")), Done(serial));
        }
        let (open, shut, placed) = figures;
        assert_eq!(ask(&mut till, "tally,7,9"), Counted(open, shut, placed));
        assert_eq!(ask(&mut till, "withdraw,2000"), Done(2000));
        assert_eq!(ask(&mut till, "tally,7,9"), Counted(open, shut - shut / 2048, placed - placed / 2048));
    }
}

#[test]
fn m10() {
    let words = ["a,1,7", "a,2,7", "a,9,7", "s,1,0", "s,2,2", "s,1,1", "t,3,4", "l,6,5"];
    let sheets = words.map(|word| format!("word,{word}"));
    let mut till = till_after(&sheets.each_ref().map(String::as_str));
    assert_eq!(ask(&mut till, "issue,r,2,0,9,0,0"), Done(1));
    for serial in 2..=2048 {
        assert_eq!(ask(&mut till, "issue,s,2,0,9,0,0"), Done(serial));
    }
    assert_eq!(ask(&mut till, &booking("0,2,0,9,0,0", &[2], &["ax,0"])), Done(2049));
    let last = booking("0,2,0,9,0,0", &[1], &["cp,0", "ax,1"]);
    assert_eq!(ask(&mut till, &last), Refused(22, 0));
    assert_eq!(edition(&till), 2);
    let mut till = opened(&text_of(&till));
    assert_eq!(ask(&mut till, &last), Refused(22, 0));
    assert_eq!(ask(&mut till, "withdraw,2049"), Done(2049));
    assert_eq!(ask(&mut till, &last), Done(2050));
}

#[test]
fn closing_a_large_till_into_any_buffer() {
    let till = with_coupons(513, "s");
    let text = text_of(&till).into_bytes();
    for length in [0, 7, text.len() - 1, text.len(), text.len() + 1, MAX_TEXT, MAX_TEXT + 1] {
        let mut buffer = vec![b'x'; length];
        if length < text.len() {
            assert_eq!(till.close(&mut buffer), Err(52), "{length}");
            assert!(buffer.iter().all(|&found| found == b'x'), "{length}");
        } else {
            assert_eq!(till.close(&mut buffer), Ok(text.len()), "{length}");
            assert!(buffer.starts_with(&text), "{length}");
            assert!(buffer[text.len()..].iter().all(|&found| found == b'x'), "{length}");
        }
    }
}
