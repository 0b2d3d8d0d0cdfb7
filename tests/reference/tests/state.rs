//! Balance, tally, room for coupons, serials, and refusals that leave the till as before.

use super::{after, ask, booking, till_after, Answer, Counted, Done, Numbers, Refused, Till};

/// The answer to issuing the last of these words as a standing coupon.
fn stand(words: &[&str]) -> Answer {
    let words: Vec<String> = words.iter().map(|word| format!("word,{word}")).collect();
    let words: Vec<&str> = words.iter().map(String::as_str).collect();
    after(&words, &format!("issue,r,{},0,9,0,0", words.len() - 1))
}

const RIGHT: Answer = Done(1);
const WRONG: Answer = Refused(21, 0);

#[test]
fn balanced_needs_weight_0_for_every_session() {
    assert_eq!(stand(&["a,1,7"]), WRONG);
    assert_eq!(stand(&["a,2,7"]), WRONG);
    assert_eq!(stand(&["a,0,7"]), RIGHT);
    assert_eq!(stand(&["a,3,7"]), RIGHT);
    assert_eq!(stand(&["o"]), RIGHT);
    assert_eq!(stand(&["g,0,1,0,0,0,9,0,0"]), RIGHT);
    assert_eq!(stand(&["a,1,7", "a,2,7", "l,0,1"]), RIGHT);
    assert_eq!(stand(&["a,1,7", "a,2,8", "l,0,1"]), WRONG);
    assert_eq!(stand(&["a,1,0", "a,2,255", "l,0,1"]), WRONG);
    assert_eq!(stand(&["a,1,255", "a,2,255", "l,0,1"]), RIGHT);
    assert_eq!(stand(&["a,1,7", "a,9,7", "l,0,1"]), WRONG);
}

/// Sessions that a cut to 8 or 15 bits, or a sign, would mix up.
const APART: [(u32, u32); 6] = [(255, 65_535), (7, 263), (0, 256), (32_767, 65_535), (0, 32_768), (71, 135)];

#[test]
fn balance_tells_sessions_apart() {
    for (one, other) in APART.into_iter().chain(APART.map(|(one, other)| (other, one))) {
        let (seat, place) = (format!("a,1,{one}"), format!("a,2,{one}"));
        let (other_seat, other_place) = (format!("a,1,{other}"), format!("a,2,{other}"));
        assert_eq!(stand(&[&seat, &place, "l,0,1"]), RIGHT, "{one}");
        assert_eq!(stand(&[&seat, &other_place, "l,0,1"]), WRONG, "{one} {other}");
        assert_eq!(stand(&[&seat, &other_seat, "l,0,1"]), WRONG, "{one} {other}");
        // seat of one and seat of the other ⊸ place of the other and place of one
        let mut words = vec![&seat[..], &other_seat, &place, &other_place, "t,0,1", "t,3,2", "l,4,5"];
        assert_eq!(stand(&words), RIGHT, "{one} {other}");
        // .. and two places of one
        words[5] = "t,2,2";
        assert_eq!(stand(&words), WRONG, "{one} {other}");
        // arms of & and ⊕, under ! and left of ⊃
        for letter in ["w", "p"] {
            let arms = format!("{letter},0,1");
            assert_eq!(stand(&[&seat, &place, &arms, "l,0,2"]), RIGHT, "{one}");
            assert_eq!(stand(&[&seat, &other_place, &arms, "l,0,2"]), WRONG, "{one} {other}");
            assert_eq!(stand(&[&seat, &other_place, &arms, "l,2,2"]), WRONG, "{one} {other}");
        }
        assert_eq!(stand(&[&seat, &other_place, "l,0,1", "b,2", "l,3,3"]), WRONG, "{one} {other}");
        assert_eq!(stand(&[&seat, &other_place, "l,0,1", "u,2,2", "l,3,3"]), WRONG, "{one} {other}");
    }
}

#[test]
fn the_last_session_weighs() {
    for session in [65_534, 65_535] {
        let seat = format!("a,1,{session}");
        assert_eq!(stand(&[&seat]), WRONG);
        assert_eq!(stand(&[&seat, "o", "l,0,1"]), WRONG);
        assert_eq!(stand(&[&seat, "l,0,0"]), RIGHT);
    }
}

/// Lines for seats of these sessions, in this order, then for their ⊗, grown to the left; the last
/// line has size 2n - 1.
fn seats_of(sessions: &[u32]) -> Vec<String> {
    let seats = sessions.iter().map(|session| format!("a,1,{session}"));
    let count = sessions.len();
    let tensors = (1..count).map(|n| format!("t,{},{n}", if n == 1 { 0 } else { count + n - 2 }));
    seats.chain(tensors).collect()
}

#[test]
fn thirty_two_sessions_in_a_wording() {
    // neither rising nor falling, from 0 to 65,535
    let sessions: Vec<u32> = (0..32).map(|n| n * 13 % 32 * 65_535 / 31).collect();
    let mut till = Till::new();
    for (number, line) in seats_of(&sessions).iter().enumerate() {
        assert_eq!(ask(&mut till, &format!("word,{line}")), Done(number as u32));
    }
    assert_eq!(ask(&mut till, "issue,s,62,0,9,0,0"), Done(1));
    assert_eq!(ask(&mut till, "word,s,1,62"), Done(63));
    assert_eq!(ask(&mut till, "issue,s,63,0,9,0,0"), Done(2));
    assert_eq!(ask(&mut till, "issue,s,63,5,9,0,0"), Done(3));
    assert_eq!(ask(&mut till, "word,t,0,62"), Refused(12, 0));
    for session in &sessions {
        // the seat of the first is bare
        assert_eq!(ask(&mut till, &format!("tally,{session},0")), Counted(1, 2, 0));
        assert_eq!(ask(&mut till, &format!("tally,{session},5")), Counted(2, 1, 0));
        if *session > 0 {
            assert_eq!(ask(&mut till, &format!("tally,{},5", session - 1)), Counted(0, 0, 0));
        }
        if *session < 65_535 {
            assert_eq!(ask(&mut till, &format!("tally,{},5", session + 1)), Counted(0, 0, 0));
        }
    }
}

/// ⊗ of the seats of 16 sessions ⊸ ⊗ of those of them with these numbers, 0 to 15.
fn offer_of_sixteen(right: &[usize]) -> Vec<String> {
    let sessions: Vec<u32> = (0..16).map(|n| 65_535 - n * 256).collect();
    let mut words = seats_of(&sessions);
    let left = words.len() - 1;
    words.push(format!("t,{},{}", right[0], right[1]));
    for number in &right[2..] {
        words.push(format!("t,{},{number}", words.len() - 1));
    }
    words.push(format!("l,{left},{}", words.len() - 1));
    words
}

#[test]
fn sixteen_sessions_on_either_side_balance_one_by_one() {
    let falling: Vec<usize> = (0..16).rev().collect();
    let stand_for = |right: &[usize]| {
        let words = offer_of_sixteen(right);
        stand(&words.iter().map(String::as_str).collect::<Vec<_>>())
    };
    assert_eq!(stand_for(&falling), RIGHT);
    for at in 0..16 {
        let mut right = falling.clone();
        right[at] = (right[at] + 1) % 16;
        assert_eq!(stand_for(&right), WRONG, "{at}");
    }
}

#[test]
fn weights_of_tensor_lolli_and_says() {
    assert_eq!(stand(&["a,1,7", "l,0,0", "t,0,1"]), WRONG);
    assert_eq!(stand(&["a,1,7", "a,2,7", "t,0,0", "t,0,1", "l,2,3"]), RIGHT);
    assert_eq!(stand(&["a,1,7", "s,3,0", "h,1,0,5,0,0", "l,0,2"]), RIGHT);
    // negative and positive weights meet: (seat ⊸ 1) ⊗ place
    assert_eq!(stand(&["a,1,7", "a,2,7", "o", "l,0,2", "t,3,1"]), RIGHT);
    assert_eq!(stand(&["a,1,7", "o", "l,0,1"]), WRONG);
    // (1 ⊸ seat) ⊸ (1 ⊸ place)
    assert_eq!(stand(&["a,1,7", "a,2,7", "o", "l,2,0", "l,2,1", "l,3,4"]), RIGHT);
}

#[test]
fn arms_weigh_alike_and_count_once() {
    for letter in ["w", "p"] {
        let arms = |i: u32, j: u32| format!("{letter},{i},{j}");
        // seat ⊸ (seat & place)
        assert_eq!(stand(&["a,1,7", "a,2,7", &arms(0, 1), "l,0,2"]), RIGHT);
        // both arms added would need two
        assert_eq!(stand(&["a,1,7", "a,2,7", &arms(0, 1), "t,0,0", "l,3,2"]), WRONG);
        // left 0, right 1
        assert_eq!(stand(&["o", "a,1,7", &arms(0, 1)]), WRONG);
        assert_eq!(stand(&["o", "a,1,7", &arms(1, 0)]), WRONG);
        // unlike for another session than the left arm's
        assert_eq!(stand(&["a,1,7", "a,1,8", &arms(0, 1), "l,0,2"]), WRONG);
        // unlike arms deep inside, though the whole weighs 0
        assert_eq!(stand(&["o", "a,1,7", &arms(0, 1), "l,2,0", "s,1,3"]), WRONG);
        assert_eq!(stand(&["o", "a,1,7", &arms(0, 1), "l,2,2"]), WRONG);
    }
}

#[test]
fn under_bang_and_left_of_implies_weighs_0() {
    assert_eq!(stand(&["a,9,7", "b,0"]), RIGHT);
    assert_eq!(stand(&["a,1,7", "b,0"]), WRONG);
    assert_eq!(stand(&["a,1,7", "b,0", "l,1,1"]), WRONG);
    assert_eq!(stand(&["a,1,7", "l,0,0", "b,1"]), RIGHT);
    assert_eq!(stand(&["a,9,7", "a,1,7", "u,0,1"]), WRONG);
    assert_eq!(stand(&["a,9,7", "a,1,7", "u,1,0"]), WRONG);
    assert_eq!(stand(&["a,9,7", "a,1,7", "u,0,1", "l,1,2"]), RIGHT);
    assert_eq!(stand(&["a,9,7", "a,1,7", "u,1,1", "l,1,2"]), WRONG);
    assert_eq!(stand(&["a,9,7", "a,1,7", "a,2,7", "l,1,2", "u,3,0"]), RIGHT);
    // an odd part left of ⊃ is a part all the same
    assert_eq!(stand(&["a,9,7", "a,1,7", "b,1", "l,2,2", "u,3,0"]), WRONG);
}

#[test]
fn plain_standing_coupons_need_balance_not_plainness_alone() {
    assert_eq!(stand(&["a,1,7", "s,1,0"]), WRONG);
    assert_eq!(stand(&["a,9,7", "s,1,0"]), RIGHT);
}

#[test]
fn tally_counts_seats_by_window_and_places_in_any() {
    let mut till = till_after(&[
        "word,a,1,7", "word,a,2,7", "word,a,1,8", "word,t,0,0", "word,t,3,1", "word,s,1,4", "word,s,1,2",
        "word,t,5,6", "word,s,1,0", "issue,s,7,10,20,0,0", "issue,s,8,15,30,0,0", "issue,s,1,0,5,0,0",
        "issue,s,6,12,12,0,0",
    ]);
    assert_eq!(ask(&mut till, "tally,7,9"), Counted(0, 3, 2));
    assert_eq!(ask(&mut till, "tally,7,10"), Counted(2, 1, 2));
    assert_eq!(ask(&mut till, "tally,7,15"), Counted(3, 0, 2));
    assert_eq!(ask(&mut till, "tally,7,20"), Counted(3, 0, 2));
    assert_eq!(ask(&mut till, "tally,7,21"), Counted(1, 2, 2));
    assert_eq!(ask(&mut till, "tally,8,12"), Counted(2, 0, 0));
    assert_eq!(ask(&mut till, "tally,8,13"), Counted(1, 1, 0));
    assert_eq!(ask(&mut till, "tally,9,13"), Counted(0, 0, 0));
    assert_eq!(ask(&mut till, "withdraw,1"), Done(1));
    assert_eq!(ask(&mut till, "tally,7,15"), Counted(1, 0, 1));
}

#[test]
fn tally_tells_sessions_apart() {
    for (one, other) in APART {
        let words = [format!("word,a,1,{one}"), format!("word,a,1,{other}"), format!("word,a,2,{other}")];
        let coupons = [
            "word,s,1,0", "word,s,1,1", "word,t,3,4", "issue,s,3,0,9,0,0", "issue,s,4,0,4,0,0",
            "issue,s,2,0,9,0,0", "issue,s,5,5,9,0,0",
        ];
        let mut till = till_after(&[&[&words[0][..], &words[1], &words[2]][..], &coupons].concat());
        assert_eq!(ask(&mut till, &format!("tally,{one},0")), Counted(1, 1, 0), "{one} {other}");
        assert_eq!(ask(&mut till, &format!("tally,{one},5")), Counted(2, 0, 0), "{one} {other}");
        assert_eq!(ask(&mut till, &format!("tally,{other},0")), Counted(1, 1, 1), "{one} {other}");
        assert_eq!(ask(&mut till, &format!("tally,{other},9")), Counted(1, 1, 1), "{one} {other}");
        assert_eq!(ask(&mut till, "withdraw,1"), Done(1));
        assert_eq!(ask(&mut till, &format!("tally,{one},5")), Counted(1, 0, 0), "{one} {other}");
        assert_eq!(ask(&mut till, &format!("tally,{other},5")), Counted(1, 1, 1), "{one} {other}");
    }
}

#[test]
fn a_session_past_255_is_moved_by_a_booking_and_stays_in_its_sum() {
    let session = 65_535;
    let words = ["a,1,#", "a,2,#", "a,9,#", "s,1,0", "s,2,2", "s,1,1", "t,3,4", "l,6,5"];
    let mut till = Till::new();
    for word in words {
        let line = format!("word,{}", word.replace('#', &session.to_string()));
        assert!(matches!(ask(&mut till, &line), Done(_)), "{line}");
    }
    for issue in ["issue,r,7,0,9999,0,0", "issue,s,3,0,600,0,0", "issue,s,4,0,600,0,0"] {
        assert!(matches!(ask(&mut till, issue), Done(_)), "{issue}");
    }
    assert_eq!(ask(&mut till, "tally,65535,540"), Counted(1, 0, 0));
    assert_eq!(ask(&mut till, "tally,255,540"), Counted(0, 0, 0));
    let steps = [
        "cp,0", "ll,3,0000000000000006,540,600,0,0", "tr,0000000000000002", "sr", "sl,1", "af", "ax,4", "sr",
        "sl,2", "af", "ax,5", "sr", "sl,6", "af", "ax,7",
    ];
    assert_eq!(ask(&mut till, &booking("540,5,540,600,0,0", &[1, 2, 3], &steps)), Done(4));
    assert_eq!(ask(&mut till, "tally,65535,540"), Counted(0, 0, 1));
    assert_eq!(ask(&mut till, "tally,255,540"), Counted(0, 0, 0));
}

#[test]
fn tally_leaves_standing_coupons_out() {
    let words = ["word,a,1,7", "word,a,2,7", "word,s,1,0", "word,l,2,1"];
    let mut till = till_after(&[&words[..], &["issue,r,3,0,9,0,0", "issue,s,2,0,9,0,0"]].concat());
    assert_eq!(ask(&mut till, "tally,7,0"), Counted(1, 0, 0));
    assert_eq!(ask(&mut till, "withdraw,1"), Done(1));
    assert_eq!(ask(&mut till, "tally,7,0"), Counted(1, 0, 0));
}

#[test]
fn tally_of_an_empty_till_is_zero() {
    assert_eq!(after(&[], "tally,0,0"), Counted(0, 0, 0));
    assert_eq!(after(&[], "tally,255,9999999"), Counted(0, 0, 0));
    assert_eq!(after(&[], "tally,65535,9999999"), Counted(0, 0, 0));
}

#[test]
fn a_booking_spends_singles_keeps_standing_and_gives_the_goal() {
    let mut till = till_after(&["word,a,9,7", "word,o", "issue,r,1,0,0,0,0", "issue,s,0,0,9,0,0"]);
    let book = |hold| booking("3,0,2,4,0,0", &[1, hold], &["cp,0", "ol,2", "ax,1"]);
    assert_eq!(ask(&mut till, &book(2)), Done(3));
    assert_eq!(ask(&mut till, &book(2)), Refused(24, 0));
    assert_eq!(ask(&mut till, &book(3)), Done(4));
    // the goal's own window is the new coupon's
    assert_eq!(ask(&mut till, &booking("3,0,1,4,0,0", &[4], &["ax,0"])), Refused(40, 1));
    assert_eq!(ask(&mut till, "withdraw,1"), Done(1));
}

#[test]
fn a_refused_booking_moves_nothing() {
    let mut till = till_after(&["word,a,1,7", "word,s,1,0", "issue,s,1,0,9,0,0"]);
    let right = ["sr", "sl,0", "af", "ax,1"];
    for steps in [&["or"][..], &["sr", "sl,0", "af", "ax,1", "ax,1"], &right[..3], &["ax,1"]] {
        assert!(matches!(ask(&mut till, &booking("0,1,0,9,0,0", &[1], steps)), Refused(40..=42, _)));
        assert_eq!(ask(&mut till, "tally,7,0"), Counted(1, 0, 0));
    }
    assert_eq!(ask(&mut till, &booking("0,1,0,9,0,0", &[1], &right)), Done(2));
}

/// One standing coupon (serial 1) and 2,047 singles, all of the free atom 0.
fn full() -> Till {
    let mut till = till_after(&["word,a,9,7", "word,a,1,7", "issue,r,0,0,9,0,0"]);
    for serial in 2..=2048 {
        assert_eq!(ask(&mut till, "issue,s,0,0,9,0,0"), Done(serial));
    }
    till
}

#[test]
fn refusal_22_at_2048_live_less_singles_held() {
    let mut till = full();
    assert_eq!(ask(&mut till, "issue,s,0,0,9,0,0"), Refused(22, 0));
    assert_eq!(ask(&mut till, "issue,r,0,0,9,0,0"), Refused(22, 0));
    assert_eq!(ask(&mut till, "issue,r,0,0,9,0,9"), Refused(43, 0));
    let copy = ["cp,0", "ax,1"];
    assert_eq!(ask(&mut till, &booking("0,0,0,9,0,0", &[1], &copy)), Refused(22, 0));
    assert_eq!(ask(&mut till, &booking("0,0,0,9,0,0", &[2], &["ax,0"])), Done(2049));
    assert_eq!(ask(&mut till, "withdraw,100"), Done(100));
    assert_eq!(ask(&mut till, &booking("0,0,0,9,0,0", &[1], &copy)), Done(2050));
    assert_eq!(ask(&mut till, &booking("0,0,0,9,0,0", &[1], &copy)), Refused(22, 0));
}

#[test]
fn refusals_20_21_24_31_40_42_come_before_22() {
    let mut till = full();
    assert_eq!(ask(&mut till, "word,o"), Done(2));
    assert_eq!(ask(&mut till, "issue,s,2,0,9,0,0"), Refused(20, 0));
    assert_eq!(ask(&mut till, "issue,r,1,0,9,0,0"), Refused(21, 0));
    assert_eq!(ask(&mut till, &booking("0,0,0,9,0,0", &[2049], &["ax,0"])), Refused(24, 0));
    assert_eq!(ask(&mut till, &booking("0,0,0,9,0,0", &[1, 1], &["ax,0"])), Refused(31, 0));
    assert_eq!(ask(&mut till, &booking("0,0,0,9,0,0", &[1], &["ax,0"])), Refused(40, 1));
    assert_eq!(ask(&mut till, &booking("0,0,0,9,0,0", &[1], &["cp,0"])), Refused(42, 2));
}

#[test]
fn refusal_23_after_serial_999_999_and_after_22() {
    let mut till = till_after(&["word,a,9,7", "issue,r,0,0,9,0,0"]);
    let mut withdraw = String::new();
    for serial in 2..=999_999 {
        assert_eq!(till.call(b"issue,s,0,0,9,0,0\n"), Done(serial));
        if serial < 999_990 {
            use std::fmt::Write;
            withdraw.clear();
            writeln!(withdraw, "withdraw,{serial}").unwrap();
            assert_eq!(till.call(withdraw.as_bytes()), Done(serial));
        }
    }
    assert_eq!(ask(&mut till, "issue,s,0,0,9,0,0"), Refused(23, 0));
    let book = |hold| booking("0,0,0,9,0,0", &[hold], &["ax,0"]);
    assert_eq!(ask(&mut till, &book(999_999)), Refused(23, 0));
    assert_eq!(ask(&mut till, &book(999_989)), Refused(24, 0));
    assert_eq!(ask(&mut till, &booking("0,0,0,9,0,0", &[1], &["ax,0"])), Refused(40, 1));
    assert_eq!(ask(&mut till, "withdraw,999999"), Done(999_999));
    assert_eq!(ask(&mut till, "issue,s,0,0,9,0,0"), Refused(23, 0));
}

#[test]
fn refusal_22_comes_before_23() {
    let mut till = full();
    for serial in 2049..=999_999 {
        let sheet = format!("book,0,0,0,9,0,0,1,1\nhold,{}\nax,0\n", serial - 1);
        assert_eq!(till.call(sheet.as_bytes()), Done(serial));
    }
    assert_eq!(ask(&mut till, "issue,s,0,0,9,0,0"), Refused(22, 0));
    assert_eq!(ask(&mut till, &booking("0,0,0,9,0,0", &[999_999], &["ax,0"])), Refused(23, 0));
    assert_eq!(ask(&mut till, "withdraw,3"), Done(3));
    assert_eq!(ask(&mut till, "issue,s,0,0,9,0,0"), Refused(23, 0));
}

#[test]
fn live_serials_are_found_as_in_a_plain_list() {
    let mut till = till_after(&["word,a,1,7", "word,s,1,0"]);
    let mut live: Vec<u32> = Vec::new();
    let mut last = 0;
    let mut numbers = Numbers(7);
    for turn in 0..60_000 {
        let issues = if turn / 12_000 % 2 == 0 { 6 } else { 4 };
        if numbers.below(10) < issues {
            let wanted = if live.len() < 2048 { Done(last + 1) } else { Refused(22, 0) };
            assert_eq!(ask(&mut till, "issue,s,1,0,9,0,0"), wanted);
            if let Done(serial) = wanted {
                live.push(serial);
                last = serial;
            }
            continue;
        }
        let serial = if numbers.below(8) == 0 || live.is_empty() {
            1 + numbers.below(last as usize + 5) as u32
        } else {
            live[numbers.below(live.len())]
        };
        let wanted = if live.contains(&serial) { Done(serial) } else { Refused(24, 0) };
        assert_eq!(ask(&mut till, &format!("withdraw,{serial}")), wanted);
        live.retain(|other| *other != serial);
        assert_eq!(ask(&mut till, "tally,7,9"), Counted(live.len() as u32, 0, 0));
    }
}

/// Sessions of the random wordings below.
const SESSIONS: [u32; 7] = [0, 7, 255, 263, 32_767, 65_279, 65_535];

/// Principals of the random wordings below, the house twice.
const PRINCIPALS: [usize; 5] = [0, 1, 1, 2, 255];

/// A wording line as letter and numbers, for the plain recursions below; an atom's holder comes last.
type Line = (char, usize, usize, usize);

/// The weight for a session, read from the paper's sentence.
fn weight(lines: &[Line], id: usize, session: usize) -> i32 {
    let (letter, i, j, _) = lines[id];
    let part = |part| weight(lines, part, session);
    match letter {
        'a' | 'n' => i32::from((i == 1 || i == 2) && j == session),
        't' => part(i) + part(j),
        'w' | 'p' => part(i),
        'l' => part(j) - part(i),
        'u' => part(j),
        'b' | 'q' => part(i),
        _ => part(j),
    }
}

/// "In every part, itself included", for a session.
fn even(lines: &[Line], id: usize, session: usize) -> bool {
    let (letter, i, j, _) = lines[id];
    let weigh = |part| weight(lines, part, session);
    match letter {
        'a' | 'n' => true,
        'q' => even(lines, i, session),
        'b' => weigh(i) == 0 && even(lines, i, session),
        's' => even(lines, j, session),
        _ => {
            let itself = match letter {
                'w' | 'p' => weigh(i) == weigh(j),
                'u' => weigh(i) == 0,
                _ => true,
            };
            itself && even(lines, i, session) && even(lines, j, session)
        }
    }
}

/// How many atoms of a predicate and session stand in a wording.
fn count(lines: &[Line], id: usize, predicate: usize, session: usize) -> u32 {
    let (letter, i, j, _) = lines[id];
    match letter {
        'a' | 'n' => u32::from(i == predicate && j == session),
        'b' | 'q' => count(lines, i, predicate, session),
        's' => count(lines, j, predicate, session),
        _ => count(lines, i, predicate, session) + count(lines, j, predicate, session),
    }
}

/// How many seats of a session have principal 1 as their nearest ⟨K⟩; `nearest` is the one around
/// the wording, if any.
fn house(lines: &[Line], id: usize, session: usize, nearest: Option<usize>) -> u32 {
    let (letter, i, j, _) = lines[id];
    match letter {
        'a' | 'n' => u32::from(i == 1 && j == session && nearest == Some(1)),
        'b' | 'q' => house(lines, i, session, nearest),
        's' => house(lines, j, session, Some(i)),
        _ => house(lines, i, session, nearest) + house(lines, j, session, nearest),
    }
}

/// The parts of a line.
fn parts((letter, i, j, _): Line) -> Vec<usize> {
    match letter {
        'a' | 'n' => vec![],
        'b' | 'q' => vec![i],
        's' => vec![j],
        _ => vec![i, j],
    }
}

/// A letter stands in a wording.
fn stands(lines: &[Line], id: usize, letter: char) -> bool {
    lines[id].0 == letter || parts(lines[id]).into_iter().any(|part| stands(lines, part, letter))
}

/// Holder 0 stands in a wording outside `q`.
fn loose(lines: &[Line], id: usize) -> bool {
    match lines[id] {
        ('n', _, _, holder) => holder == 0,
        ('q', ..) => false,
        line => parts(line).into_iter().any(|part| loose(lines, part)),
    }
}

/// Adds a random line if the till takes it. It gives 53 if that is a `q` within `q`.
fn grow(till: &mut Till, lines: &mut Vec<Line>, numbers: &mut Numbers) {
    let letter = ['a', 't', 'w', 'p', 'l', 'u', 'b', 's', 't', 'l', 'n', 'q'][numbers.below(12)];
    let count = lines.len();
    let session = SESSIONS[numbers.below(SESSIONS.len())] as usize;
    let line = match letter {
        'a' => (letter, numbers.below(4), session, 0),
        'n' => (letter, numbers.below(4), session, [0, 0, 1, 65_535][numbers.below(4)]),
        _ if count == 0 => return,
        's' => (letter, PRINCIPALS[numbers.below(PRINCIPALS.len())], numbers.below(count), 0),
        _ => (letter, numbers.below(count), numbers.below(count), 0),
    };
    let (_, i, j, holder) = line;
    let text = match letter {
        'n' => format!("word,n,{i},{j},{holder}"),
        'b' | 'q' => format!("word,{letter},{i}"),
        _ => format!("word,{letter},{i},{j}"),
    };
    let answer = ask(till, &text);
    assert_eq!(answer == Refused(53, 0), letter == 'q' && stands(lines, i, 'q'), "{text} of {lines:?}");
    if let Done(number) = answer {
        assert_eq!(number as usize, count);
        lines.push(line);
    }
}

#[test]
fn balance_and_tally_are_those_of_a_plain_recursion() {
    let mut numbers = Numbers(1);
    for _ in 0..300 {
        let (mut till, mut lines) = (Till::new(), Vec::new());
        for _ in 0..150 {
            grow(&mut till, &mut lines, &mut numbers);
        }
        let mut singles = Vec::new();
        for id in 0..lines.len() {
            let all = |holds: fn(&[Line], usize, usize) -> bool| {
                SESSIONS.iter().all(|&session| holds(&lines, id, session as usize))
            };
            let balanced = all(even) && all(|lines, id, session| weight(lines, id, session) == 0);
            let plain = !['w', 'p', 'l', 'u', 'b', 'q'].iter().any(|&letter| stands(&lines, id, letter));
            for (kind, right, number) in [('r', balanced, 21), ('s', plain, 20)] {
                let number = if loose(&lines, id) { 53 } else { number };
                match ask(&mut till, &format!("issue,{kind},{id},0,9,0,0")) {
                    Done(_) => assert!(right && !loose(&lines, id), "{kind} {id} of {lines:?}"),
                    answer => {
                        assert_eq!(answer, Refused(number, 0), "{kind} {id} of {lines:?}");
                        assert!(!right || loose(&lines, id), "{kind} {id} of {lines:?}");
                    }
                }
                if kind == 's' && plain && !loose(&lines, id) {
                    singles.push(id);
                }
            }
        }
        for session in SESSIONS {
            let sum = |predicate| {
                singles.iter().map(|&id| count(&lines, id, predicate, session as usize)).sum::<u32>()
            };
            let open = singles.iter().map(|&id| house(&lines, id, session as usize, None)).sum::<u32>();
            let wanted = Counted(open, sum(1) - open, sum(2));
            assert_eq!(ask(&mut till, &format!("tally,{session},0")), wanted, "{singles:?} {lines:?}");
            assert_eq!(ask(&mut till, &format!("tally,{session},10")), Counted(0, sum(1), sum(2)));
        }
    }
}

#[test]
fn no_bytes_make_the_call_panic() {
    let steps = "cp,0\nll,3,0000000000000006,540,600,0,0\ntr,0000000000000002\nsr\nsl,1\naf\n".to_string()
        + "ax,4\nwr\npl,1\nul,0,1,2,0,0\n";
    let seeds = [
        "word,a,1,7\n", "word,t,0,0\n", "word,g,0,9,0,0,1,2,0,0\n", "word,h,0,0,9,3,4\n",
        "issue,s,0,0,9,5,7\n", "issue,r,1,0,9,0,0\n", "withdraw,1\n", "tally,7,540\n", "word,n,1,7,5\n",
        "word,n,9,7,0\n", "word,q,0\n", "issue,r,2,0,9,0,0\n", "book,0,0,0,9,0,0,1,3\nhold,2\ncp,0\nal,1,5\nax,2\n",
        &format!("book,0,0,0,9,0,0,2,10\nhold,1\nhold,2\n{steps}"),
    ];
    let alphabet = b"0123456789abcdefghijklmnopqrstuvwxyz,\n\r \0\xff-";
    let mut numbers = Numbers(99);
    let mut till = Till::new();
    for _ in 0..200_000 {
        let mut sheet = seeds[numbers.below(seeds.len())].as_bytes().to_vec();
        for _ in 0..numbers.below(4) {
            let at = numbers.below(sheet.len());
            match numbers.below(3) {
                0 => sheet[at] = alphabet[numbers.below(alphabet.len())],
                1 => sheet.truncate(at + 1),
                _ => sheet.insert(at, alphabet[numbers.below(alphabet.len())]),
            }
        }
        till.call(&sheet);
    }
}
