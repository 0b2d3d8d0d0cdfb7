//! Both ends of every range: inside is no refusal 2, outside is.

use super::{after, booking, Refused, Till};

fn in_form(lines: &str) -> bool {
    Till::new().call(format!("{lines}\n").as_bytes()) != Refused(2, 0)
}

/// Puts each number for `#` and sees which are in form.
fn check(pattern: &str, inside: &[u32], outside: &[u32]) {
    for number in inside {
        assert!(in_form(&pattern.replace('#', &number.to_string())), "{pattern} {number}");
    }
    for number in outside {
        assert!(!in_form(&pattern.replace('#', &number.to_string())), "{pattern} {number}");
    }
    assert!(!in_form(&pattern.replace('#', "99999999999999999999999999")), "{pattern}");
    assert!(!in_form(&pattern.replace('#', "4294967296")), "{pattern}");
    assert!(!in_form(&pattern.replace('#', "")), "{pattern}");
}

#[test]
fn predicate_and_principal_go_from_0_to_255() {
    for pattern in ["word,a,#,0", "word,a,#,65535", "word,s,#,0", "word,n,#,0,0", "word,n,#,65535,65535"] {
        check(pattern, &[0, 9, 10, 99, 100, 255], &[256, 260, 300, 999, 1000, 65_535, 65_536, 65_791]);
    }
}

#[test]
fn sessions_go_from_0_to_65_535() {
    // 65,543 is 7 and 131,071 is 65,535 with 16 bits; 16,777,223 is 7 with 24
    let outside = [65_536, 65_537, 65_543, 65_791, 70_000, 99_999, 100_000, 131_071, 655_350, 16_777_223];
    let named = ["word,n,1,#,0", "word,n,0,#,65535"];
    let others = ["word,a,0,#", "word,a,1,#", "word,a,255,#", "tally,#,0", "tally,#,9999999"];
    for pattern in named.into_iter().chain(others) {
        check(pattern, &[0, 9, 10, 255, 256, 999, 1000, 9999, 10_000, 32_767, 32_768, 65_535], &outside);
    }
}

#[test]
fn a_session_too_large_breaks_the_form_and_is_never_cut() {
    let words = ["word,a,1,7", "issue,s,0,0,9,0,0"];
    for number in ["65536", "65543", "4294967303", "18446744073709551623", "065535", "65535 ", "65535,"] {
        assert_eq!(after(&words, &format!("word,a,1,{number}")), Refused(2, 0), "{number}");
        assert_eq!(after(&words, &format!("word,a,2,{number}")), Refused(2, 0), "{number}");
    }
    for number in ["65536", "65543", "4294967303", "18446744073709551623", "065535", "65535 "] {
        assert_eq!(after(&words, &format!("tally,{number},0")), Refused(2, 0), "{number}");
    }
}

#[test]
fn holders_go_from_0_in_n_and_from_1_in_al_to_65_535() {
    let inside = [1, 9, 10, 255, 256, 999, 1000, 9999, 10_000, 32_767, 32_768, 65_534, 65_535];
    let outside = [65_536, 65_537, 65_541, 65_791, 70_000, 99_999, 100_000, 131_071, 655_350, 16_777_221];
    for pattern in ["word,n,0,0,#", "word,n,1,7,#", "word,n,255,65535,#"] {
        check(pattern, &inside, &outside);
        check(pattern, &[0], &[]);
    }
    for pattern in ["book,0,0,0,0,0,0,0,1\nal,0,#", "book,0,0,0,0,0,0,0,1\nal,63,#"] {
        check(pattern, &inside, &outside);
        check(pattern, &[], &[0]);
    }
}

#[test]
fn minutes_go_from_0_to_9_999_999() {
    let patterns = [
        "tally,0,#", "issue,s,0,#,0,0,0", "issue,r,0,0,#,0,0", "issue,s,0,0,0,#,0", "issue,r,0,0,0,0,#",
        "word,h,0,#,0,0,0", "word,h,0,0,#,0,0", "word,h,0,0,0,#,0", "word,h,0,0,0,0,#",
        "word,g,#,0,0,0,0,0,0,0", "word,g,0,#,0,0,0,0,0,0", "word,g,0,0,#,0,0,0,0,0",
        "word,g,0,0,0,#,0,0,0,0", "word,g,0,0,0,0,#,0,0,0", "word,g,0,0,0,0,0,#,0,0",
        "word,g,0,0,0,0,0,0,#,0", "word,g,0,0,0,0,0,0,0,#",
        "book,#,0,0,0,0,0,0,1\nor", "book,0,0,#,0,0,0,0,1\nor", "book,0,0,0,#,0,0,0,1\nor",
        "book,0,0,0,0,#,0,0,1\nor", "book,0,0,0,0,0,#,0,1\nor",
        "book,0,0,0,0,0,0,0,1\nul,0,#,0,0,0", "book,0,0,0,0,0,0,0,1\nul,0,0,#,0,0",
        "book,0,0,0,0,0,0,0,1\nul,0,0,0,#,0", "book,0,0,0,0,0,0,0,1\nul,0,0,0,0,#",
        "book,0,0,0,0,0,0,0,1\nll,0,0000000000000000,#,0,0,0",
        "book,0,0,0,0,0,0,0,1\nll,0,0000000000000000,0,#,0,0",
        "book,0,0,0,0,0,0,0,1\nll,0,0000000000000000,0,0,#,0",
        "book,0,0,0,0,0,0,0,1\nll,0,0000000000000000,0,0,0,#",
    ];
    for pattern in patterns {
        check(pattern, &[0, 1, 9_999_999], &[10_000_000, 99_999_999]);
    }
}

#[test]
fn formula_numbers_go_from_0_to_999() {
    let patterns = [
        "issue,s,#,0,0,0,0", "issue,r,#,0,0,0,0", "word,q,#", "word,b,#", "word,h,#,0,0,0,0", "word,s,0,#",
        "word,t,#,0", "word,t,0,#", "word,w,#,0", "word,w,0,#", "word,p,#,0", "word,p,0,#", "word,l,#,0", "word,l,0,#",
        "word,u,#,0", "word,u,0,#", "book,0,#,0,0,0,0,0,1\nor",
    ];
    for pattern in patterns {
        check(pattern, &[0, 199, 200, 999], &[1000, 9999]);
    }
}

#[test]
fn serials_go_from_1_to_999_999() {
    for pattern in ["withdraw,#", "book,0,0,0,0,0,0,1,1\nhold,#\nor"] {
        check(pattern, &[1, 9, 999_999], &[0, 1_000_000]);
    }
}

#[test]
fn labels_go_from_0_to_63() {
    for step in ["ax", "cp", "tl", "ol", "w1", "w2", "pl", "bl", "hl", "sl"] {
        check(&format!("book,0,0,0,0,0,0,0,1\n{step},#"), &[0, 9, 10, 63], &[64, 99, 100]);
    }
    check("book,0,0,0,0,0,0,0,1\nul,#,0,0,0,0", &[0, 63], &[64]);
    check("book,0,0,0,0,0,0,0,1\nal,#,1", &[0, 9, 10, 63], &[64, 99, 100]);
    check("book,0,0,0,0,0,0,0,1\nll,#,0000000000000000,0,0,0,0", &[0, 63], &[64]);
}

#[test]
fn holds_go_from_0_to_32_and_steps_from_1_to_256() {
    let inside = [(0, 1, true), (32, 256, true)];
    let outside = [(33, 1, false), (0, 0, false), (0, 257, false)];
    for (holds, steps, right) in inside.into_iter().chain(outside) {
        let sheet = booking("0,0,0,0,0,0", &vec![1; holds], &vec!["or"; steps]);
        assert_eq!(in_form(&sheet), right, "{holds} {steps}");
    }
}

#[test]
fn a_share_has_exactly_16_lower_case_hexadecimal_digits() {
    for share in ["0000000000000000", "ffffffffffffffff", "0123456789abcdef"] {
        assert!(in_form(&format!("book,0,0,0,0,0,0,0,1\ntr,{share}")), "{share}");
    }
    for share in ["", "0", "fffffffffffffff", "fffffffffffffffff", "FFFFFFFFFFFFFFFF", "000000000000000g"] {
        assert!(!in_form(&format!("book,0,0,0,0,0,0,0,1\ntr,{share}")), "{share}");
        assert!(!in_form(&format!("book,0,0,0,0,0,0,0,1\nll,0,{share},0,0,0,0")), "{share}");
    }
}

#[test]
fn a_label_in_range_but_not_taken_breaks_the_rule_not_the_form() {
    let words = ["word,a,9,7", "issue,s,0,0,9,0,0"];
    assert_eq!(after(&words, &booking("0,0,0,9,0,0", &[1], &["ax,63"])), Refused(40, 1));
    assert_eq!(after(&words, &booking("0,0,0,9,0,0", &[1], &["ax,64"])), Refused(2, 0));
    assert_eq!(after(&words, &booking("0,0,0,9,0,0", &[1], &["cp,1"])), Refused(40, 1));
}
