//! Places in a holder's name (document 02, ask 7): `n`, `q`, the step `al` and refusal 53.

use super::{after, ask, booking, opened, refusal_of, text, till_after, Answer, Counted, Done, Refused, Till};

/// X and Y for the holder bound and for holders 5 and 6: free atoms, of weight 0.
const NAMES: [&str; 6] = ["n,9,7,0", "n,9,7,5", "n,9,7,6", "n,9,8,0", "n,9,8,5", "n,9,8,6"];
const X5: u32 = 1;
const X6: u32 = 2;
const Y5: u32 = 4;
const Y6: u32 = 5;

/// A till that accepted these words.
fn worded(words: &[&str]) -> Till {
    let words: Vec<String> = words.iter().map(|word| format!("word,{word}")).collect();
    till_after(&words.iter().map(String::as_str).collect::<Vec<_>>())
}

/// The answer to the last of these words, all others accepted.
fn word(words: &[&str]) -> Answer {
    let (last, before) = words.split_last().unwrap();
    ask(&mut worded(before), &format!("word,{last}"))
}

/// The answer to issuing the last of these words.
fn issue(kind: char, words: &[&str]) -> Answer {
    ask(&mut worded(words), &format!("issue,{kind},{},0,9,0,0", words.len() - 1))
}

/// Issues coupons (serials 1, 2, ..) for 0..9 and books the goal at 5..6 from all of them. The accepted
/// answer is the next serial.
fn prove_from(words: &[&str], coupons: &[&str], goal: u32, steps: &[&str]) -> Answer {
    let mut till = worded(words);
    for (at, coupon) in coupons.iter().enumerate() {
        assert_eq!(ask(&mut till, &format!("issue,{coupon},0,9,0,0")), Done(at as u32 + 1), "{coupon}");
    }
    let holds: Vec<u32> = (1..=coupons.len() as u32).collect();
    ask(&mut till, &booking(&format!("5,{goal},5,6,0,0"), &holds, steps))
}

/// The same with words from number 6 on, after `NAMES`.
fn prove(words: &[&str], coupons: &[&str], goal: u32, steps: &[&str]) -> Answer {
    prove_from(&[&NAMES[..], words].concat(), coupons, goal, steps)
}

/// `ll` at 5..6 with the labels of the share.
fn ll(label: u32, share: u64) -> String {
    format!("ll,{label},{share:016x},5,6,0,0")
}

#[test]
fn any_predicate_and_any_holder_may_be_named() {
    for predicate in [0, 1, 2, 3, 9, 255] {
        for holder in [0, 1, 255, 256, 65_535] {
            assert_eq!(word(&[&format!("n,{predicate},7,{holder}")]), Done(0), "{predicate} {holder}");
        }
        let line = format!("n,{predicate},65535,65535");
        assert_eq!(prove_from(&[&line], &["s,0"], 0, &["ax,0"]), Done(2), "{predicate}");
        // for the holder bound, at both ends
        for holder in [1, 65_535] {
            let words = [&format!("n,{predicate},7,0"), "l,0,0", "q,1", &format!("n,{predicate},7,{holder}")];
            let steps = ["cp,0", &format!("al,2,{holder}"), &ll(3, 2), "ax,1", "ax,4"];
            assert_eq!(prove_from(&words, &["r,2", "s,3"], 3, &steps), Done(3), "{predicate} {holder}");
        }
    }
}

#[test]
fn lines_are_equal_with_their_holder() {
    let words = ["n,9,7,0", "n,9,7,5", "a,9,7", "q,0", "n,9,7,261"];
    for line in words {
        assert_eq!(word(&[&words[..], &[line]].concat()), Refused(13, 0), "{line}");
    }
    for line in ["n,9,7,6", "n,9,8,5", "n,8,7,5", "n,5,7,9", "n,9,5,7", "q,1", "q,2", "n,9,7,65535", "b,0"] {
        assert_eq!(word(&[&words[..], &[line]].concat()), Done(5), "{line}");
    }
}

/// Every connective around wordings i and j, or i alone.
fn around(i: u32, j: u32) -> Vec<String> {
    let mut lines: Vec<String> = ["t", "w", "p", "l", "u"].map(|letter| format!("{letter},{i},{j}")).to_vec();
    lines.extend([format!("b,{i}"), format!("h,{i},0,9,0,0"), format!("s,1,{i}")]);
    lines
}

/// The wordings that a line names.
fn parts(line: &str) -> Vec<usize> {
    let fields: Vec<&str> = line.split(',').collect();
    let part = |at: usize| fields[at].parse().unwrap();
    match fields[0] {
        "t" | "w" | "p" | "l" | "u" => vec![part(1), part(2)],
        "b" | "h" | "q" => vec![part(1)],
        "s" => vec![part(2)],
        _ => vec![],
    }
}

/// A `q` stands in the wording.
fn has_q(words: &[&str], at: usize) -> bool {
    words[at].starts_with('q') || parts(words[at]).iter().any(|&part| has_q(words, part))
}

/// Holder 0 stands in the wording outside `q`.
fn loose(words: &[&str], at: usize) -> bool {
    match words[at].as_bytes()[0] {
        b'n' => words[at].ends_with(",0"),
        b'q' => false,
        _ => parts(words[at]).iter().any(|&part| loose(words, part)),
    }
}

#[test]
fn word_53_for_q_within_q_alone() {
    // 0 = X, 1 = ∀X, 2 = 1
    let words = ["n,9,7,0", "q,0", "o"];
    assert_eq!(word(&[&words[..], &["q,1"]].concat()), Refused(53, 0));
    assert_eq!(word(&[&words[..], &["q,2"]].concat()), Done(3));
    let due = |words: &[&str]| if has_q(words, words.len() - 1) { Refused(53, 0) } else { Done(words.len() as u32) };
    for line in around(1, 2).into_iter().chain(around(2, 1)).chain(around(1, 1)).chain(around(2, 2)) {
        let one = [&words[..], &[&line]].concat();
        assert_eq!(word(&one), Done(3), "{line}");
        assert_eq!(word(&[&one[..], &["q,3"]].concat()), due(&one), "{line}");
        // further in
        for further in around(3, 2).into_iter().chain(around(2, 3)).filter(|further| *further != line) {
            let two = [&one[..], &[&further]].concat();
            assert_eq!(word(&[&two[..], &["q,4"]].concat()), due(&two), "{line} {further}");
        }
    }
}

#[test]
fn a_word_with_holder_0_outside_q_is_entered_for_a_later_q() {
    for line in around(0, 1).into_iter().chain(around(1, 0)).chain(around(0, 0)) {
        assert_eq!(word(&["n,9,7,0", "o", &line]), Done(2), "{line}");
        assert_eq!(word(&["n,9,7,0", "o", &line, "q,2"]), Done(3), "{line}");
        assert_eq!(word(&["n,9,7,0", "o", &line, "q,2", "t,3,0"]), Done(4), "{line}");
    }
}

#[test]
fn word_53_comes_after_10_and_before_12_and_14() {
    let words = ["n,9,7,0", "q,0"];
    assert_eq!(word(&[&words[..], &["q,2"]].concat()), Refused(10, 0));
    assert_eq!(word(&[&words[..], &["q,999"]].concat()), Refused(10, 0));
    assert_eq!(word(&["q,0"]), Refused(10, 0));
    // ∀X ⊗ X, grown from size 4 to 64
    let words = ["n,9,7,0", "q,0", "t,1,0", "t,2,2", "t,3,3", "t,4,4", "t,5,3", "t,6,2", "t,7,2", "t,8,2"];
    assert_eq!(word(&words), Done(9));
    assert_eq!(word(&[&words[..], &["s,1,9"]].concat()), Refused(12, 0));
    assert_eq!(word(&[&words[..], &["q,9"]].concat()), Refused(53, 0));
    // with 200 there
    let mut till = worded(&["n,9,7,0", "q,0"]);
    for number in 2..200 {
        assert_eq!(ask(&mut till, &format!("word,a,3,{number}")), Done(number));
    }
    assert_eq!(ask(&mut till, "word,q,1"), Refused(53, 0));
    assert_eq!(ask(&mut till, "word,q,200"), Refused(10, 0));
    assert_eq!(ask(&mut till, "word,q,0"), Refused(13, 0));
    assert_eq!(ask(&mut till, "word,q,2"), Refused(14, 0));
    assert_eq!(ask(&mut till, "word,n,9,7,1"), Refused(14, 0));
}

#[test]
fn issue_and_book_53_for_holder_0_outside_q() {
    let both = |words: &[&str]| {
        let goal = words.len() - 1;
        let mut till = worded(words);
        let answer = ask(&mut till, &format!("issue,r,{goal},0,9,0,0"));
        if answer == Refused(53, 0) {
            assert_eq!(ask(&mut till, &format!("issue,s,{goal},0,9,0,0")), Refused(53, 0), "{words:?}");
            let sheet = booking(&format!("5,{goal},5,6,0,0"), &[], &["or"]);
            assert_eq!(ask(&mut till, &sheet), Refused(53, 0), "{words:?}");
            assert_eq!(refusal_of(text(2, words, &[&format!("1,r,{goal},0,9,0,0")]).as_bytes()), 51, "{words:?}");
            assert_eq!(refusal_of(text(2, words, &[&format!("1,s,{goal},0,9,0,0")]).as_bytes()), 51, "{words:?}");
            // the wordings alone are opened
            opened(&text(2, words, &[]));
        }
        answer
    };
    let check = |words: &[&str]| {
        let due = if loose(words, words.len() - 1) { Refused(53, 0) } else { Done(1) };
        assert_eq!(both(words), due, "{words:?}");
    };
    assert_eq!(both(&["n,9,7,0"]), Refused(53, 0));
    assert_eq!(both(&["n,9,7,1"]), Done(1));
    // 1 = X for 5; all weighs 0
    for line in around(0, 1).into_iter().chain(around(1, 0)).chain(around(0, 0)).chain(around(1, 1)) {
        let words = ["n,9,7,0", "n,9,7,5", &line];
        check(&words);
        // q binds all of it; beside that, each place is judged by itself
        assert_eq!(both(&[&words[..], &["q,2"]].concat()), Done(1), "{line}");
        let besides = [around(3, 1), around(1, 3), around(3, 0), around(0, 3), around(3, 3), around(3, 2)].concat();
        for beside in besides.iter().filter(|beside| **beside != line) {
            check(&[&words[..], &["q,2", beside]].concat());
        }
    }
    // the same line bound in one place and loose in another
    assert_eq!(both(&["n,9,7,0", "q,0", "t,1,0"]), Refused(53, 0));
    assert_eq!(both(&["n,9,7,0", "q,0", "t,0,1"]), Refused(53, 0));
    assert_eq!(both(&["n,9,7,0", "q,0", "b,0"]), Refused(53, 0));
    assert_eq!(both(&["n,9,7,0", "b,0", "q,1", "b,1"]), Refused(53, 0));
    assert_eq!(both(&["n,9,7,0", "q,0", "t,1,1"]), Done(1));
    // further in
    assert_eq!(both(&["n,9,7,0", "o", "t,1,0", "t,1,2", "b,3", "s,9,4"]), Refused(53, 0));
    assert_eq!(both(&["n,9,7,0", "o", "t,1,0", "t,1,2", "b,3", "s,9,4", "q,5"]), Done(1));
}

#[test]
fn issue_and_book_53_come_after_10_and_before_20_21_30_and_24() {
    // 1 is not plain, 2 weighs 1
    let mut till = worded(&["n,9,7,0", "b,0", "n,1,7,0"]);
    assert_eq!(ask(&mut till, "issue,s,3,0,9,0,0"), Refused(10, 0));
    assert_eq!(ask(&mut till, "issue,s,1,0,9,0,0"), Refused(53, 0));
    assert_eq!(ask(&mut till, "issue,r,2,0,9,0,0"), Refused(53, 0));
    assert_eq!(ask(&mut till, "issue,r,2,9,0,0,0"), Refused(3, 0));
    assert_eq!(ask(&mut till, "issue,r,2,0,9,9,9"), Refused(43, 0));
    assert_eq!(ask(&mut till, &booking("5,3,5,6,0,0", &[1], &["or"])), Refused(10, 0));
    assert_eq!(ask(&mut till, &booking("5,1,5,6,0,0", &[1], &["or"])), Refused(53, 0));
    assert_eq!(ask(&mut till, &booking("9,0,5,6,0,0", &[], &["or"])), Refused(53, 0));
    assert_eq!(ask(&mut till, &booking("5,0,5,6,0,0", &[1], &["or"])), Refused(53, 0));
    // in a full till
    let mut till = worded(&["n,9,7,0", "n,9,7,1", "b,0"]);
    for serial in 1..=2048 {
        assert_eq!(ask(&mut till, "issue,s,1,0,9,0,0"), Done(serial));
    }
    for line in ["s,0", "r,0", "s,2", "r,2"] {
        assert_eq!(ask(&mut till, &format!("issue,{line},0,9,0,0")), Refused(53, 0), "{line}");
    }
}

#[test]
fn plain_is_n_too_but_not_q() {
    for words in [&["n,9,7,1"][..], &["n,1,7,65535", "s,1,0"], &["n,2,7,1", "a,1,7", "t,0,1", "s,2,2"]] {
        assert_eq!(issue('s', words), Done(1), "{words:?}");
    }
    let not_plain: [&[&str]; 6] = [
        &["n,9,7,0", "q,0"], &["n,9,7,1", "q,0"], &["a,9,7", "q,0"], &["a,9,7", "q,0", "t,0,1"],
        &["a,9,7", "q,0", "s,1,1"], &["n,9,7,0", "t,0,0", "q,1", "t,2,2"],
    ];
    for words in not_plain {
        assert_eq!(issue('s', words), Refused(20, 0), "{words:?}");
        let goal = words.len() - 1;
        let sheet = booking(&format!("9,{goal},5,6,0,0"), &[1], &["or"]);
        assert_eq!(ask(&mut worded(words), &sheet), Refused(20, 0), "{words:?}");
        assert_eq!(issue('r', words), Done(1), "{words:?}");
        assert_eq!(refusal_of(text(2, words, &[&format!("1,s,{goal},0,9,0,0")]).as_bytes()), 51, "{words:?}");
    }
}

#[test]
fn n_has_size_1_and_q_one_more_than_its_part() {
    let words = ["n,9,7,0", "t,0,0", "t,1,1", "t,2,2", "t,3,3", "t,4,4"];
    assert_eq!(word(&[&words[..], &["q,5"]].concat()), Done(6));
    let largest = [&words[..], &["q,5"]].concat();
    for line in ["s,1,6", "b,6", "t,6,0"] {
        assert_eq!(word(&[&largest[..], &[line]].concat()), Refused(12, 0), "{line}");
    }
    assert_eq!(word(&[&words[..], &["s,1,5", "q,6"]].concat()), Refused(12, 0));
    assert_eq!(word(&[&words[..], &["t,5,0"]].concat()), Refused(12, 0));
}

const BALANCED: Answer = Done(1);
const WEIGHS: Answer = Refused(21, 0);

#[test]
fn n_weighs_as_a_whatever_its_holder() {
    assert_eq!(issue('r', &["n,1,7,5"]), WEIGHS);
    assert_eq!(issue('r', &["n,2,7,5"]), WEIGHS);
    assert_eq!(issue('r', &["n,3,7,5"]), BALANCED);
    assert_eq!(issue('r', &["n,0,7,5"]), BALANCED);
    for (left, right, due) in [
        ("n,1,7,5", "n,2,7,5", BALANCED), ("n,1,7,5", "n,2,7,6", BALANCED), ("n,1,7,5", "a,2,7", BALANCED),
        ("a,1,7", "n,2,7,65535", BALANCED), ("n,1,7,5", "n,2,8,5", WEIGHS), ("n,1,7,5", "n,9,7,5", WEIGHS),
        ("n,1,5,7", "n,2,7,5", WEIGHS), ("n,1,263,5", "n,2,7,5", WEIGHS),
    ] {
        assert_eq!(issue('r', &[left, right, "l,0,1"]), due, "{left} {right}");
        assert_eq!(issue('r', &[left, right, "w,0,1", "l,0,2"]), due, "{left} {right}");
    }
}

#[test]
fn q_weighs_as_its_part_and_in_every_part() {
    assert_eq!(issue('r', &["n,1,7,0", "q,0"]), WEIGHS);
    assert_eq!(issue('r', &["a,2,7", "q,0"]), WEIGHS);
    assert_eq!(issue('r', &["n,1,7,0", "n,2,7,0", "l,0,1", "q,2"]), BALANCED);
    assert_eq!(issue('r', &["n,1,7,0", "n,2,8,0", "l,0,1", "q,2"]), WEIGHS);
    // ∀seat ⊸ place: as seat ⊸ place
    assert_eq!(issue('r', &["n,1,7,0", "a,2,7", "q,0", "l,2,1"]), BALANCED);
    assert_eq!(issue('r', &["n,1,7,0", "a,2,8", "q,0", "l,2,1"]), WEIGHS);
    assert_eq!(issue('r', &["n,1,7,0", "a,2,7", "q,0", "l,1,2"]), BALANCED);
    // arms: ∀seat & place
    assert_eq!(issue('r', &["n,1,7,0", "a,2,7", "q,0", "w,2,1", "l,1,3"]), BALANCED);
    assert_eq!(issue('r', &["n,1,7,0", "a,9,7", "q,0", "w,2,1", "l,3,3"]), WEIGHS);
    // under ! and left of ⊃
    assert_eq!(issue('r', &["n,1,7,0", "q,0", "b,1", "l,2,2"]), WEIGHS);
    assert_eq!(issue('r', &["n,1,7,0", "q,0", "u,1,1", "l,2,2"]), WEIGHS);
    assert_eq!(issue('r', &["n,1,7,0", "l,0,0", "q,1", "b,2", "u,3,2"]), BALANCED);
    // odd parts inside, though the whole weighs 0
    assert_eq!(issue('r', &["n,1,7,0", "b,0", "l,1,1", "q,2"]), WEIGHS);
    assert_eq!(issue('r', &["n,1,7,0", "o", "p,0,1", "l,2,2", "q,3"]), WEIGHS);
    assert_eq!(issue('r', &["n,1,7,0", "o", "u,0,1", "q,2"]), WEIGHS);
    assert_eq!(issue('r', &["n,1,7,0", "a,2,7", "w,0,1", "l,2,1", "q,3"]), BALANCED);
}

#[test]
fn tally_counts_n_as_a() {
    let mut till = worded(&["n,1,7,5", "s,1,0", "n,1,7,6", "s,1,2", "s,2,0", "n,2,7,5", "a,1,7", "s,1,6", "t,1,5"]);
    let coupons = [
        (1, (1, 0, 0)), (3, (2, 0, 0)), (4, (2, 1, 0)), (0, (2, 2, 0)), (5, (2, 2, 1)), (7, (3, 2, 1)), (8, (4, 2, 2)),
    ];
    for (serial, (wording, (open, shut, placed))) in (1..).zip(coupons) {
        assert_eq!(ask(&mut till, &format!("issue,s,{wording},5,9,0,0")), Done(serial));
        assert_eq!(ask(&mut till, "tally,7,5"), Counted(open, shut, placed), "{wording}");
        assert_eq!(ask(&mut till, "tally,7,4"), Counted(0, open + shut, placed), "{wording}");
        for other in [5, 6, 8, 0, 263] {
            assert_eq!(ask(&mut till, &format!("tally,{other},5")), Counted(0, 0, 0), "{wording} {other}");
        }
    }
    assert_eq!(ask(&mut till, "withdraw,2"), Done(2));
    assert_eq!(ask(&mut till, "tally,7,5"), Counted(3, 2, 2));
}

#[test]
fn a_standing_q_is_in_no_figure() {
    let mut till = worded(&["n,1,7,0", "s,1,0", "l,1,1", "q,2"]);
    assert_eq!(ask(&mut till, "issue,r,3,0,9,0,0"), Done(1));
    assert_eq!(ask(&mut till, "tally,7,5"), Counted(0, 0, 0));
}

#[test]
fn al_puts_one_holder_in() {
    // 6 = ∀X
    let with = |al: &str, goal: u32| prove(&["q,0"], &["r,6"], goal, &["cp,0", al, "ax,2"]);
    assert_eq!(with("al,1,5", X5), Done(2));
    assert_eq!(with("al,1,6", X6), Done(2));
    assert_eq!(with("al,1,6", X5), Refused(40, 3));
    assert_eq!(with("al,1,5", X6), Refused(40, 3));
    assert_eq!(with("al,1,5", Y5), Refused(40, 3));
    // numbers that a cut would take for 5
    for holder in [261, 32_773, 1, 65_535, 50, 4] {
        assert_eq!(with(&format!("al,1,{holder}"), X5), Refused(40, 3), "{holder}");
    }
    assert_eq!(with("al,1,0", X5), Refused(2, 0));
    assert_eq!(with("al,1,65536", X5), Refused(2, 0));
    assert_eq!(with("al,1,65541", X5), Refused(2, 0));
}

#[test]
fn al_may_be_used_on_copies_for_several_holders() {
    // 6 = ∀X, 7 = X5 ⊗ X6
    let with = |left: u32, right: u32| {
        let steps = ["cp,0", &format!("al,1,{left}"), "cp,0", &format!("al,3,{right}"), "tr,0000000000000004"];
        prove(&["q,0", "t,1,2"], &["r,6"], 7, &[&steps[..], &["ax,2", "ax,4"]].concat())
    };
    assert_eq!(with(5, 6), Done(2));
    assert_eq!(with(6, 5), Refused(40, 6));
    assert_eq!(with(5, 5), Refused(40, 7));
}

#[test]
fn al_needs_a_q_among_the_singles() {
    let steps = |al: &'static str| ["cp,0", al, "ax,2"];
    // standing, never taken, used up
    for al in ["al,0,5", "al,2,5", "al,63,5"] {
        assert_eq!(prove(&["q,0"], &["r,6"], X5, &steps(al)), Refused(40, 2), "{al}");
    }
    assert_eq!(prove(&["q,0"], &["r,6"], X5, &["cp,0", "al,1,5", "al,1,5"]), Refused(40, 3));
    assert_eq!(prove(&["q,0"], &["r,6"], X5, &["cp,0", "al,1,5", "al,2,5"]), Refused(40, 3));
    // not a q
    for line in around(4, 4).into_iter().chain(["o".to_string(), "g,0,9,0,0,5,6,0,0".to_string()]) {
        assert_eq!(prove(&[&line], &["r,6"], X5, &["cp,0", "al,1,5"]), Refused(40, 2), "{line}");
    }
    assert_eq!(prove(&[], &["s,1"], X5, &["al,0,5", "ax,1"]), Refused(40, 1));
    assert_eq!(prove(&["a,9,7"], &["s,6"], X5, &["al,0,5", "ax,1"]), Refused(40, 1));
    // no other left step uses a q
    for step in ["tl,1", "ol,1", "w1,1", "w2,1", "pl,1", "bl,1", "hl,1", "sl,1", "ul,1,5,6,0,0", &ll(1, 0)] {
        assert_eq!(prove(&["q,0"], &["r,6"], X5, &["cp,0", step]), Refused(40, 2), "{step}");
    }
}

#[test]
fn al_takes_one_label_and_l_is_gone() {
    // 6 = ∀X, 7 = X5 ⊗ Y5; Y5 is label 1
    let coupons = ["r,6", "s,4"];
    let with = |rest: &[&str]| prove(&["q,0", "t,1,4"], &coupons, 7, &[&["cp,0", "al,2,5"], rest].concat());
    assert_eq!(with(&["tr,0000000000000008", "ax,3", "ax,1"]), Done(3));
    assert_eq!(with(&["tr,0000000000000004", "ax,3", "ax,1"]), Refused(40, 3));
    assert_eq!(with(&["tr,0000000000000010", "ax,4", "ax,1"]), Refused(40, 3));
    assert_eq!(with(&["cp,0", "al,4,5", "tr,0000000000000020", "ax,5", "ax,1"]), Refused(40, 7));
    assert_eq!(prove(&["q,0"], &["r,6"], X5, &["cp,0", "cp,0", "al,1,5", "ax,3"]), Refused(40, 4));
}

#[test]
fn al_41_if_it_wants_label_64() {
    let mut steps = vec!["cp,0"; 63];
    steps.push("al,1,5");
    assert_eq!(prove(&["q,0"], &["r,6"], X5, &steps), Refused(41, 64));
    steps[63] = "al,0,5";
    assert_eq!(prove(&["q,0"], &["r,6"], X5, &steps), Refused(40, 64));
    steps[63] = "al,1,5";
    steps.remove(0);
    assert_eq!(prove(&["q,0"], &["r,6"], X5, &steps), Refused(42, 64));
}

#[test]
fn al_keeps_the_window() {
    let words = ["n,9,7,0", "q,0", "n,9,7,5"];
    for (window, due) in [
        ("0,9,0,0", Done(2)), ("5,6,0,0", Done(2)), ("5,5,0,0", Refused(40, 3)), ("6,9,0,0", Refused(40, 3)),
        ("0,9,5,5", Refused(40, 3)), ("0,9,1,4", Done(2)), ("0,9,7,8", Done(2)),
    ] {
        let mut till = worded(&words);
        assert_eq!(ask(&mut till, &format!("issue,r,1,{window}")), Done(1));
        let steps = ["cp,0", "al,1,5", "ax,2"];
        assert_eq!(ask(&mut till, &booking("5,2,5,6,0,0", &[1], &steps)), due, "{window}");
    }
}

#[test]
fn al_works_under_affirms() {
    // 6 = ∀X, 7 = ⟨1⟩X5, 8 = ⟨1⟩X, 9 = ∀⟨1⟩X
    let words = ["q,0", "s,1,1", "s,1,0", "q,8"];
    assert_eq!(prove(&words, &["r,6"], 7, &["sr", "cp,0", "al,1,5", "af", "ax,2"]), Done(2));
    assert_eq!(prove(&words, &["r,9"], 7, &["sr", "cp,0", "al,1,5", "sl,2", "af", "ax,3"]), Done(2));
    assert_eq!(prove(&words, &["r,9"], 7, &["sr", "cp,0", "al,1,6", "sl,2", "af", "ax,3"]), Refused(40, 6));
}

#[test]
fn a_q_that_binds_nothing_is_only_taken_away() {
    // 6 = P, 7 = ∀P, 8 = ∀X5, 9 = ∀(P ⊸ X5)
    let words = ["a,9,7", "q,6", "q,1", "l,6,1", "q,9"];
    assert_eq!(prove(&words, &["r,7"], 6, &["cp,0", "al,1,5", "ax,2"]), Done(2));
    assert_eq!(prove(&words, &["r,7"], 6, &["cp,0", "al,1,65535", "ax,2"]), Done(2));
    assert_eq!(prove(&words, &["r,7"], X5, &["cp,0", "al,1,5", "ax,2"]), Refused(40, 3));
    // the holder that stands there stays
    for holder in [5, 6, 9] {
        let al = format!("al,1,{holder}");
        assert_eq!(prove(&words, &["r,8"], X5, &["cp,0", &al, "ax,2"]), Done(2), "{holder}");
        assert_eq!(prove(&words, &["r,8"], X6, &["cp,0", &al, "ax,2"]), Refused(40, 3), "{holder}");
        let al = format!("al,2,{holder}");
        let steps = ["cp,0", &al, &ll(3, 2), "ax,1", "ax,4"];
        assert_eq!(prove(&words, &["r,10", "s,6"], X5, &steps), Done(3), "{holder}");
    }
}

#[test]
fn two_qs_side_by_side_are_bound_apart() {
    // 6 = ∀X, 7 = ∀X ⊗ ∀X, 8 = X5 ⊗ X6
    let words = ["q,0", "t,6,6", "t,1,2"];
    let with = |left: u32, right: u32| {
        let steps = ["cp,0", "tl,1", &format!("al,2,{left}"), &format!("al,3,{right}"), "tr,0000000000000010"];
        prove(&words, &["r,7"], 8, &[&steps[..], &["ax,4", "ax,5"]].concat())
    };
    assert_eq!(with(5, 6), Done(2));
    assert_eq!(with(6, 5), Refused(40, 6));
    assert_eq!(with(5, 5), Refused(40, 7));
}

/// Books from the last of the words, a standing ∀A, and more coupons, by `cp`, `al` and the rest of the steps:
/// it is accepted for holder 5 and the first goal, and neither for another holder nor for the other goal.
fn carried(words: &[&str], more: &[&str], goals: [u32; 2], rest: &[&str]) {
    let offer = format!("r,{}", 5 + words.len());
    let coupons = [&[&offer[..]], more].concat();
    let label = coupons.len();
    let with = |holder: u32, goal: u32| {
        let steps = ["cp,0".to_string(), format!("al,{label},{holder}")];
        let steps: Vec<&str> = steps.iter().map(String::as_str).chain(rest.iter().copied()).collect();
        prove(words, &coupons, goal, &steps)
    };
    assert_eq!(with(5, goals[0]), Done(label as u32 + 1), "{words:?}");
    for (holder, goal) in [(6, goals[0]), (5, goals[1]), (7, goals[0])] {
        let answer = with(holder, goal);
        assert!(matches!(answer, Refused(40, _)), "{words:?} {holder} {goal}: {answer:?}");
    }
}

#[test]
fn the_holder_goes_into_the_parts_of_hypotheses() {
    // 6 = A, 7 = ∀A
    let (x, y) = ([X5, X6], [Y5, Y6]);
    carried(&["w,0,3", "q,6"], &[], x, &["w1,2", "ax,3"]);
    carried(&["w,0,3", "q,6"], &[], y, &["w2,2", "ax,3"]);
    carried(&["p,0,0", "q,6"], &[], x, &["pl,2", "ax,3", "ax,4"]);
    carried(&["p,0,1", "q,6"], &[], x, &["pl,2", "ax,3", "ax,4"]);
    carried(&["p,1,0", "q,6"], &[], x, &["pl,2", "ax,3", "ax,4"]);
    carried(&["h,0,5,6,0,0", "q,6"], &[], x, &["hl,2", "ax,3"]);
    carried(&["b,0", "q,6"], &[], x, &["bl,2", "cp,3", "ax,4"]);
    carried(&["o", "l,6,0", "q,7"], &[], x, &[&ll(2, 0), "or", "ax,3"]);
    carried(&["o", "u,6,0", "q,7"], &[], x, &["ul,2,5,6,0,0", "or", "ax,3"]);
    carried(&["o", "t,0,6", "q,7"], &[], x, &["tl,2", "ol,4", "ax,3"]);
    carried(&["o", "t,6,0", "q,7"], &[], x, &["tl,2", "ol,3", "ax,4"]);
    // 6 and 7 = ⟨1⟩X for 5 and 6
    carried(&["s,1,1", "s,1,2", "s,1,0", "q,8"], &[], [6, 7], &["sr", "sl,2", "af", "ax,3"]);
    // copies of what joined R: 6 and 7 = X ⊗ X for 5 and 6
    let rest = ["bl,2", "cp,3", "cp,3", "tr,0000000000000010", "ax,4", "ax,5"];
    carried(&["t,1,1", "t,2,2", "b,0", "q,8"], &[], [6, 7], &rest);
    // through several
    let words = ["o", "w,0,3", "h,7,0,9,0,0", "l,6,8", "b,9", "t,10,6", "q,11"];
    let rest = ["tl,2", "ol,4", "bl,3", "cp,5", &ll(6, 0), "or", "hl,7", "w1,8", "ax,9"];
    carried(&words, &[], x, &rest);
}

#[test]
fn the_holder_goes_into_the_goal_of_a_first_premise() {
    let x = [X5, X6];
    // 6 = A ⊸ X, from a single X5, and so on; the single is label 1, the copy 2, the part 3
    carried(&["l,0,0", "q,6"], &["s,1"], x, &[&ll(3, 2), "ax,1", "ax,4"]);
    carried(&["u,0,0", "q,6"], &["r,1"], x, &["ul,3,5,6,0,0", "cp,1", "ax,4", "ax,5"]);
    // the result says nothing of the holder, 6 = P
    let first = |words: &[&str], more: &[&str], rest: &[&str]| {
        let words = [&["a,9,7"], words].concat();
        let offer = format!("r,{}", 5 + words.len());
        let coupons = [&[&offer[..]], more].concat();
        let with = |holder: u32| {
            let al = format!("al,{},{holder}", coupons.len());
            prove(&words, &coupons, 6, &[&["cp,0", &al], rest].concat())
        };
        assert_eq!(with(5), Done(coupons.len() as u32 + 1), "{words:?}");
        assert!(matches!(with(6), Refused(40, _)), "{words:?}");
    };
    first(&["l,0,6", "q,7"], &["s,1"], &[&ll(3, 2), "ax,1", "ax,4"]);
    first(&["u,0,6", "q,7"], &["r,1"], &["ul,3,5,6,0,0", "cp,1", "ax,4", "ax,5"]);
    // ⊗, from singles X5 and Y5
    let tensor = [&ll(4, 6), "tr,0000000000000002", "ax,1", "ax,2", "ax,5"];
    first(&["t,0,3", "l,7,6", "q,8"], &["s,1", "s,4"], &tensor);
    first(&["t,0,4", "l,7,6", "q,8"], &["s,1", "s,4"], &tensor);
    first(&["t,1,3", "l,7,6", "q,8"], &["s,1", "s,4"], &tensor);
    // &
    for arms in ["w,0,0", "w,0,1", "w,1,0"] {
        first(&[arms, "l,7,6", "q,8"], &["s,1"], &[&ll(3, 2), "wr", "ax,1", "ax,1", "ax,4"]);
    }
    // ⊕
    first(&["p,0,3", "l,7,6", "q,8"], &["s,1"], &[&ll(3, 2), "p1", "ax,1", "ax,4"]);
    first(&["p,3,0", "l,7,6", "q,8"], &["s,1"], &[&ll(3, 2), "p2", "ax,1", "ax,4"]);
    // !
    first(&["b,0", "l,7,6", "q,8"], &["r,1"], &[&ll(3, 0), "br", "cp,1", "ax,4", "ax,5"]);
    // @
    first(&["h,0,5,5,0,0", "l,7,6", "q,8"], &["s,1"], &[&ll(3, 2), "hr", "ax,1", "ax,4"]);
    // ⟨1⟩, from X5 and from ⟨1⟩X5
    first(&["s,1,0", "l,7,6", "q,8"], &["s,1"], &[&ll(3, 2), "sr", "af", "ax,1", "ax,4"]);
    let rest = [&ll(3, 2), "sr", "sl,1", "af", "ax,4", "ax,5"];
    first(&["s,1,1", "s,1,0", "l,8,6", "q,9"], &["s,7"], &rest);
    // under ⊃
    first(&["b,0", "u,7,6", "q,8"], &["r,1"], &["ul,3,5,6,0,0", "br", "cp,1", "ax,4", "ax,5"]);
    // through several: ⟨1⟩((X & X) ⊗ !X)
    let words = ["w,0,0", "b,0", "t,7,8", "s,1,9", "l,10,6", "q,11"];
    let rest =
        [&ll(4, 2), "sr", "af", "tr,0000000000000002", "wr", "ax,1", "ax,1", "br", "cp,2", "ax,5", "ax,6"];
    first(&words, &["s,1", "r,1"], &rest);
}

#[test]
fn each_goal_keeps_its_own_holder() {
    // 6 = P, 7 = X ⊸ P, 8 = ∀7, 9 = Y ⊸ X5, 10 = ∀9; singles Y5, Y6
    let words = ["a,9,7", "l,0,6", "q,7", "l,3,1", "q,9"];
    let with = |outer: u32, inner: u32, single: &str| {
        // holds 0, 1, 2; 3 and 4 = X ⊸ P; the goal X: 5 and 6 = Y ⊸ X5, then Y, then X5 as 7
        let first = ["cp,0", &format!("al,3,{outer}"), &ll(4, 4), "cp,1", &format!("al,5,{inner}")];
        let rest = [&ll(6, 4), "ax,2", "ax,7", "ax,8"];
        prove(&words, &["r,8", "r,10", single], 6, &[&first[..], &rest].concat())
    };
    assert_eq!(with(5, 5, "s,4"), Done(4));
    // the goal X is for 5 still where the offer inside is used for 6
    assert_eq!(with(5, 6, "s,5"), Done(4));
    assert_eq!(with(6, 6, "s,5"), Refused(40, 8));
    assert_eq!(with(6, 5, "s,4"), Refused(40, 8));
    assert_eq!(with(5, 6, "s,4"), Refused(40, 7));
    // the same with ⊃, Y5 and Y6 standing
    let words = ["a,9,7", "u,0,6", "q,7", "u,3,1", "q,9"];
    let with = |outer: u32, inner: u32, standing: &str| {
        let first = ["cp,0", &format!("al,3,{outer}"), "ul,4,5,6,0,0", "cp,1", &format!("al,5,{inner}")];
        let rest = ["ul,6,5,6,0,0", "cp,2", "ax,7", "ax,8", "ax,9"];
        prove(&words, &["r,8", "r,10", standing], 6, &[&first[..], &rest].concat())
    };
    assert_eq!(with(5, 5, "r,4"), Done(4));
    assert_eq!(with(5, 6, "r,5"), Done(4));
    assert_eq!(with(6, 6, "r,5"), Refused(40, 9));
    assert_eq!(with(6, 5, "r,4"), Refused(40, 9));
    assert_eq!(with(5, 6, "r,4"), Refused(40, 8));
}

#[test]
fn a_holder_put_in_reaches_no_other_hypothesis() {
    // 6 = ∀X, 7 = ∀Y, 8 = X5 ⊗ Y6
    let with = |left: u32, right: u32| {
        let steps = ["cp,0", "cp,1", &format!("al,2,{left}"), &format!("al,3,{right}"), "tr,0000000000000010"];
        prove(&["q,0", "q,3", "t,1,5"], &["r,6", "r,7"], 8, &[&steps[..], &["ax,4", "ax,5"]].concat())
    };
    assert_eq!(with(5, 6), Done(3));
    assert_eq!(with(6, 6), Refused(40, 6));
    assert_eq!(with(5, 5), Refused(40, 7));
}

#[test]
fn an_instance_need_be_no_wording_of_the_till() {
    // 6 = ∀X, 7 = P, 8 = X ⊸ P, 9 = ∀8; no line names holder 9
    let words = ["q,0", "a,9,7", "l,0,7", "q,8"];
    let with = |outer: u32, inner: u32| {
        let steps = ["cp,1", &format!("al,2,{outer}"), &ll(3, 0), "cp,0", &format!("al,4,{inner}"), "ax,5", "ax,6"];
        prove(&words, &["r,6", "r,9"], 7, &steps)
    };
    assert_eq!(with(9, 9), Done(3));
    assert_eq!(with(65_535, 65_535), Done(3));
    assert_eq!(with(9, 10), Refused(40, 6));
    assert_eq!(with(9, 265), Refused(40, 6));
    assert_eq!(with(65_535, 255), Refused(40, 6));
}

#[test]
fn ax_asks_for_kind_predicate_session_and_holder() {
    let lines = ["n,9,7,5", "n,9,7,6", "n,9,8,5", "n,8,7,5", "a,9,7", "a,9,5", "n,9,7,261", "n,9,5,7", "n,9,263,5"];
    for single in 0..lines.len() {
        for goal in 0..lines.len() {
            let due = if single == goal { Done(2) } else { Refused(40, 1) };
            let answer = prove_from(&lines, &[&format!("s,{single}")], goal as u32, &["ax,0"]);
            assert_eq!(answer, due, "{} {}", lines[single], lines[goal]);
        }
    }
    // the same for the part of a q, for 5
    for (part, put) in [("n,9,7,0", 0), ("n,9,8,0", 2), ("n,8,7,0", 3), ("n,9,5,0", 9), ("a,9,8", 9)] {
        let words = [&lines[..], &[part, "q,9"]].concat();
        for (goal, line) in lines.iter().enumerate() {
            let due = if goal == put { Done(2) } else { Refused(40, 3) };
            assert_eq!(prove_from(&words, &["r,10"], goal as u32, &["cp,0", "al,1,5", "ax,2"]), due, "{part} {line}");
        }
    }
    for (part, put) in (0..).zip(lines).filter(|(_, line)| *line != "n,9,7,5") {
        let quantified = format!("q,{part}");
        let words = [&lines[..], &[&quantified]].concat();
        for goal in 0..lines.len() as u32 {
            let due = if goal == part { Done(2) } else { Refused(40, 3) };
            assert_eq!(prove_from(&words, &["r,9"], goal, &["cp,0", "al,1,5", "ax,2"]), due, "{put} {goal}");
        }
    }
}

#[test]
fn ax_closes_on_n_alone_of_what_holders_are_put_into() {
    // the first premise is X ⊗ X, ⟨1⟩X, .. for 5, and the same for 5 is in D
    for line in around(0, 0) {
        // 6 = P, 7 = A, 8 = ∀A, 9 = A ⊸ P, 10 = ∀9
        let words = ["a,9,7", &line, "q,7", "l,7,6", "q,9"];
        let steps = ["cp,0", "al,2,5", "cp,1", "al,4,5", &ll(5, 8), "ax,3"];
        assert_eq!(prove(&words, &["r,8", "r,10"], 6, &steps), Refused(40, 6), "{line}");
    }
}

#[test]
fn no_step_proves_a_q() {
    // 6 = P, 7 = ∀X, 8 = ∀X ⊸ P, 9 = ∀X ⊃ P, 10 = 1
    let words = ["a,9,7", "q,0", "l,7,6", "u,7,6", "o"];
    let steps =
        ["ax,2", "ax,0", "tr,0000000000000000", "or", "wr", "p1", "p2", "br", "hr", "sr", "gr", "af", "sl,2"];
    for step in steps {
        assert_eq!(prove(&words, &["r,7", "r,8"], 6, &["cp,0", "cp,1", &ll(3, 4), step]), Refused(40, 4), "{step}");
        assert_eq!(prove(&words, &["r,7", "r,8"], 6, &["cp,1", &ll(2, 0), step]), Refused(40, 3), "{step}");
        let implies = ["cp,1", "ul,2,5,6,0,0", step];
        assert_eq!(prove(&words, &["r,7", "r,9"], 6, &implies), Refused(40, 3), "{step}");
    }
    // what the part is does not matter
    for part in ["o", "g,0,9,0,0,5,6,0,0", "a,9,8", "n,9,7,0"] {
        for step in ["or", "gr", "ax,2", "br", "sr"] {
            let words = ["a,9,7", part, "q,1", "l,2,0"];
            let answer = prove_from(&words, &["r,2", "r,3"], 0, &["cp,0", "cp,1", &ll(3, 4), step]);
            assert_eq!(answer, Refused(40, 4), "{part} {step}");
        }
    }
    // left steps and cp are right there
    let open = ["cp,0", "cp,1", &ll(3, 4), "al,2,5", "cp,0"];
    assert_eq!(prove(&words, &["r,7", "r,8"], 6, &open), Refused(42, 6));
    let open = ["cp,2", "cp,1", &ll(4, 8), "ol,3", "cp,0", "al,5,5", "ax,6"];
    assert_eq!(prove(&words, &["r,7", "r,8", "r,10"], 6, &open), Refused(40, 7));
    // nor under affirms: 11 = ⟨1⟩∀X, 12 = 11 ⊸ P
    let words = [&words[..], &["s,1,7", "l,11,6"]].concat();
    let affirmed = ["cp,0", "cp,1", &ll(3, 4), "sr", "sl,2", "af", "ax,4"];
    assert_eq!(prove(&words, &["r,11", "r,12"], 6, &affirmed), Refused(40, 7));
}

/// The school's offer: a seat of the house and a host's voucher give a place in the holder's name.
const SCHOOL: [&str; 13] = [
    "a,1,7", "s,1,0", "a,9,7", "s,2,2", "n,2,7,0", "s,1,4", "t,1,3", "l,6,5", "q,7", "n,2,7,12", "s,1,9", "n,2,7,13",
    "s,1,11",
];

#[test]
fn the_schools_offer_for_two_holders() {
    let mut till = worded(&SCHOOL);
    for (serial, coupon) in (1..).zip(["r,8", "s,1", "s,3", "s,1", "s,3"]) {
        assert_eq!(ask(&mut till, &format!("issue,{coupon},0,9999,0,0")), Done(serial));
    }
    let sheet = |holder: u32, goal: u32, seat: u32| {
        let al = format!("al,3,{holder}");
        let steps = [
            "cp,0", &al, "ll,4,0000000000000006,540,600,0,0", "tr,0000000000000002", "sr", "sl,1", "af", "ax,5", "sr",
            "sl,2", "af", "ax,6", "sr", "sl,7", "af", "ax,8",
        ];
        booking(&format!("540,{goal},540,600,0,0"), &[1, seat, seat + 1], &steps)
    };
    assert_eq!(ask(&mut till, "tally,7,540"), Counted(2, 0, 0));
    for (holder, goal) in [(12, 12), (13, 10), (1, 10), (268, 10)] {
        assert_eq!(ask(&mut till, &sheet(holder, goal, 2)), Refused(40, 16), "{holder}");
    }
    assert_eq!(ask(&mut till, &sheet(12, 5, 2)), Refused(53, 0));
    assert_eq!(ask(&mut till, &sheet(0, 10, 2)), Refused(2, 0));
    assert_eq!(ask(&mut till, "tally,7,540"), Counted(2, 0, 0));
    assert_eq!(ask(&mut till, &sheet(12, 10, 2)), Done(6));
    assert_eq!(ask(&mut till, "tally,7,540"), Counted(1, 0, 1));
    assert_eq!(ask(&mut till, &sheet(13, 12, 2)), Refused(24, 0));
    assert_eq!(ask(&mut till, &sheet(13, 12, 4)), Done(7));
    assert_eq!(ask(&mut till, "tally,7,540"), Counted(0, 0, 2));
    assert_eq!(ask(&mut till, "withdraw,6"), Done(6));
    assert_eq!(ask(&mut till, "tally,7,540"), Counted(0, 0, 1));
    let coupons = ["1,r,8,0,9999,0,0", "7,s,12,540,600,0,0"];
    assert_eq!(super::text_of(&till), text(8, &SCHOOL, &coupons));
    opened(&text(8, &SCHOOL, &coupons));
}

#[test]
fn a_place_in_a_holders_name_is_passed_on_to_nobody_else() {
    let words = ["n,2,7,12", "n,2,7,13", "a,2,7"];
    for goal in 0..3 {
        let due = if goal == 0 { Done(2) } else { Refused(40, 1) };
        assert_eq!(prove_from(&words, &["s,0"], goal, &["ax,0"]), due, "{goal}");
    }
    assert_eq!(after(&["word,n,2,7,0"], "issue,s,0,0,9,0,0"), Refused(53, 0));
}
