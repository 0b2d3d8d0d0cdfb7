//! House seats (document 02, ask 3): open counts seats whose nearest ⟨K⟩ above them is principal 1,
//! where the window has the minute; all other seats are shut.

use super::{ask, booking, till_after, Counted, Done, Refused, Till};

/// Seat, place, seat of session 8, free atom; further words begin at 4.
const WORDS: [&str; 4] = ["a,1,7", "a,2,7", "a,1,8", "a,9,7"];

/// A till with `WORDS` and these words.
fn worded(words: &[&str]) -> Till {
    let words: Vec<String> = WORDS.iter().chain(words).map(|word| format!("word,{word}")).collect();
    till_after(&words.iter().map(String::as_str).collect::<Vec<_>>())
}

/// Open, shut and placed of a session for one coupon of the last of the words: in its window, then
/// one minute before and one behind it, where all seats must be shut.
fn figures(words: &[&str], session: u32) -> (u32, u32, u32) {
    let mut till = worded(words);
    let last = WORDS.len() + words.len() - 1;
    assert_eq!(ask(&mut till, &format!("issue,s,{last},5,9,0,0")), Done(1), "{words:?}");
    let mut tally = |minute: u32| match ask(&mut till, &format!("tally,{session},{minute}")) {
        Counted(open, shut, placed) => (open, shut, placed),
        answer => panic!("{answer:?}"),
    };
    let (open, shut, placed) = tally(5);
    for minute in [4, 10, 9_999_999] {
        assert_eq!(tally(minute), (0, open + shut, placed), "{words:?} {minute}");
    }
    assert_eq!(tally(9), (open, shut, placed), "{words:?}");
    (open, shut, placed)
}

#[test]
fn only_a_seat_of_principal_1_is_open() {
    assert_eq!(figures(&["s,1,0"], 7), (1, 0, 0));
    for principal in [0, 2, 3, 127, 128, 129, 254, 255] {
        assert_eq!(figures(&[&format!("s,{principal},0")], 7), (0, 1, 0), "{principal}");
    }
}

#[test]
fn a_bare_seat_is_shut() {
    assert_eq!(figures(&["t,0,3"], 7), (0, 1, 0));
    assert_eq!(figures(&["t,0,0"], 7), (0, 2, 0));
    let mut till = till_after(&["word,a,1,7", "issue,s,0,0,9,0,0"]);
    assert_eq!(ask(&mut till, "tally,7,0"), Counted(0, 1, 0));
}

#[test]
fn the_innermost_principal_decides() {
    for (outer, inner, open) in
        [(1, 2, 0), (2, 1, 1), (1, 1, 1), (2, 2, 0), (1, 0, 0), (0, 1, 1), (255, 1, 1), (1, 255, 0)]
    {
        let words = [format!("s,{inner},0"), format!("s,{outer},4")];
        assert_eq!(figures(&[&words[0], &words[1]], 7), (open, 1 - open, 0), "{outer} {inner}");
    }
    assert_eq!(figures(&["s,1,0", "s,2,4", "s,1,5"], 7), (1, 0, 0));
    assert_eq!(figures(&["s,2,0", "s,1,4", "s,2,5"], 7), (0, 1, 0));
    assert_eq!(figures(&["s,1,0", "s,1,4", "s,2,5"], 7), (1, 0, 0));
    assert_eq!(figures(&["s,2,0", "s,1,4", "s,1,5"], 7), (0, 1, 0));
}

#[test]
fn a_principal_reaches_through_tensors_to_seats_without_one() {
    // ⟨1⟩(seat ⊗ seat), ⟨2⟩(seat ⊗ seat)
    assert_eq!(figures(&["t,0,0", "s,1,4"], 7), (2, 0, 0));
    assert_eq!(figures(&["t,0,0", "s,2,4"], 7), (0, 2, 0));
    // ⟨1⟩(seat ⊗ ⟨2⟩seat), ⟨1⟩(⟨2⟩seat ⊗ seat)
    assert_eq!(figures(&["s,2,0", "t,0,4", "s,1,5"], 7), (1, 1, 0));
    assert_eq!(figures(&["s,2,0", "t,4,0", "s,1,5"], 7), (1, 1, 0));
    // ⟨2⟩(seat ⊗ ⟨1⟩seat), ⟨2⟩(⟨1⟩seat ⊗ seat)
    assert_eq!(figures(&["s,1,0", "t,0,4", "s,2,5"], 7), (1, 1, 0));
    assert_eq!(figures(&["s,1,0", "t,4,0", "s,2,5"], 7), (1, 1, 0));
    // ⟨1⟩seat ⊗ seat, seat ⊗ ⟨1⟩seat, ⟨1⟩seat ⊗ ⟨2⟩seat
    assert_eq!(figures(&["s,1,0", "t,4,0"], 7), (1, 1, 0));
    assert_eq!(figures(&["s,1,0", "t,0,4"], 7), (1, 1, 0));
    assert_eq!(figures(&["s,1,0", "s,2,0", "t,4,5"], 7), (1, 1, 0));
    // ⟨1⟩((seat ⊗ ⟨2⟩seat) ⊗ (seat ⊗ ⟨2⟩seat)), and ⟨2⟩ around it
    assert_eq!(figures(&["s,2,0", "t,0,4", "t,5,5", "s,1,6"], 7), (2, 2, 0));
    assert_eq!(figures(&["s,2,0", "t,0,4", "t,5,5", "s,1,6", "s,2,7"], 7), (2, 2, 0));
    // ⟨1⟩(seat ⊗ ⟨2⟩(seat ⊗ ⟨1⟩(seat ⊗ ⟨2⟩seat)))
    let words = ["s,2,0", "t,0,4", "s,1,5", "t,0,6", "s,2,7", "t,0,8", "s,1,9"];
    assert_eq!(figures(&words, 7), (2, 2, 0));
}

#[test]
fn the_same_wording_counts_by_its_place() {
    // 4 = ⟨1⟩seat, 5 = ⟨2⟩seat, 6 = seat ⊗ ⟨1⟩seat
    let words = ["s,1,0", "s,2,0", "t,0,4"];
    let with = |more: &[&str]| figures(&[&words[..], more].concat(), 7);
    assert_eq!(with(&["s,1,6"]), (2, 0, 0));
    assert_eq!(with(&["s,2,6"]), (1, 1, 0));
    // ⟨1⟩6 ⊗ ⟨2⟩6, and all of it with 6 and 5
    assert_eq!(with(&["s,1,6", "s,2,6", "t,7,8"]), (3, 1, 0));
    assert_eq!(with(&["s,1,6", "s,2,6", "t,7,8", "t,9,6", "t,10,5"]), (4, 3, 0));
    // a part used twice counts twice
    assert_eq!(with(&["t,6,6"]), (2, 2, 0));
    assert_eq!(with(&["t,6,6", "s,1,7"]), (4, 0, 0));
    assert_eq!(with(&["t,4,4", "t,7,7", "t,8,8"]), (8, 0, 0));
}

#[test]
fn a_later_wording_around_it_changes_no_coupon() {
    let mut till = worded(&[]);
    assert_eq!(ask(&mut till, "issue,s,0,0,9,0,0"), Done(1));
    assert_eq!(ask(&mut till, "tally,7,0"), Counted(0, 1, 0));
    assert_eq!(ask(&mut till, "word,s,1,0"), Done(4));
    assert_eq!(ask(&mut till, "tally,7,0"), Counted(0, 1, 0));
    assert_eq!(ask(&mut till, "issue,s,4,0,9,0,0"), Done(2));
    assert_eq!(ask(&mut till, "word,s,2,4"), Done(5));
    assert_eq!(ask(&mut till, "word,s,2,0"), Done(6));
    assert_eq!(ask(&mut till, "tally,7,0"), Counted(1, 1, 0));
    assert_eq!(ask(&mut till, "issue,s,6,0,9,0,0"), Done(3));
    assert_eq!(ask(&mut till, "word,s,1,6"), Done(7));
    assert_eq!(ask(&mut till, "tally,7,0"), Counted(1, 2, 0));
}

#[test]
fn places_count_under_any_principal() {
    assert_eq!(figures(&["t,1,1"], 7), (0, 0, 2));
    for principal in [0, 1, 2, 255] {
        assert_eq!(figures(&[&format!("s,{principal},1")], 7), (0, 0, 1), "{principal}");
    }
    // ⟨1⟩(place ⊗ ⟨2⟩(place ⊗ seat)), ⟨2⟩(place ⊗ ⟨1⟩(place ⊗ seat))
    assert_eq!(figures(&["t,1,0", "s,2,4", "t,1,5", "s,1,6"], 7), (0, 1, 2));
    assert_eq!(figures(&["t,1,0", "s,1,4", "t,1,5", "s,2,6"], 7), (1, 0, 2));
}

#[test]
fn each_session_by_itself() {
    // ⟨1⟩(seat of 7 ⊗ ⟨2⟩seat of 8) ⊗ ⟨1⟩seat of 8
    let words = ["s,2,2", "t,0,4", "s,1,5", "s,1,2", "t,6,7"];
    assert_eq!(figures(&words, 7), (1, 0, 0));
    assert_eq!(figures(&words, 8), (1, 1, 0));
    assert_eq!(figures(&words, 9), (0, 0, 0));
    // ⟨1⟩(seat of 7 ⊗ seat of 8) ⊗ seat of 7
    let words = ["t,0,2", "s,1,4", "t,5,0"];
    assert_eq!(figures(&words, 7), (1, 1, 0));
    assert_eq!(figures(&words, 8), (1, 0, 0));
    // a free atom is nothing
    assert_eq!(figures(&["s,1,3"], 7), (0, 0, 0));
}

#[test]
fn thirty_two_seats_under_one_principal() {
    let tensors = ["t,0,0", "t,4,4", "t,5,5", "t,6,6", "t,7,7"];
    let under = |principal: &str| figures(&[&tensors[..], &[principal]].concat(), 7);
    assert_eq!(under("s,1,8"), (32, 0, 0));
    assert_eq!(under("s,2,8"), (0, 32, 0));
    // 2,048 such coupons
    let mut till = worded(&[&tensors[..], &["s,1,8"]].concat());
    for serial in 1..=2048 {
        assert_eq!(ask(&mut till, &format!("issue,s,9,{serial},9999,0,0")), Done(serial));
    }
    assert_eq!(ask(&mut till, "tally,7,2048"), Counted(65_536, 0, 0));
    assert_eq!(ask(&mut till, "tally,7,100"), Counted(3200, 62_336, 0));
    assert_eq!(ask(&mut till, "tally,7,0"), Counted(0, 65_536, 0));
}

#[test]
fn a_house_seat_is_shut_in_its_break_and_a_hosts_seat_always() {
    let mut till = worded(&["s,1,0", "s,2,0"]);
    assert_eq!(ask(&mut till, "issue,s,4,10,900,300,400"), Done(1));
    assert_eq!(ask(&mut till, "issue,s,5,10,900,300,400"), Done(2));
    let open = [(9, 0), (10, 1), (299, 1), (300, 0), (350, 0), (400, 0), (401, 1), (900, 1), (901, 0)];
    for (minute, open) in open {
        assert_eq!(ask(&mut till, &format!("tally,7,{minute}")), Counted(open, 2 - open, 0), "{minute}");
    }
}

#[test]
fn standing_coupons_count_nothing() {
    // ⟨1⟩seat ⊸ ⟨2⟩seat, ⟨2⟩seat ⊸ ⟨1⟩seat
    let mut till = worded(&["s,1,0", "s,2,0", "l,4,5", "l,5,4"]);
    assert_eq!(ask(&mut till, "issue,r,6,0,9,0,0"), Done(1));
    assert_eq!(ask(&mut till, "issue,r,7,0,9,0,0"), Done(2));
    assert_eq!(ask(&mut till, "tally,7,0"), Counted(0, 0, 0));
}

/// A booking of ⟨L⟩B from a single ⟨K⟩A by a standing ⟨K⟩A ⊸ ⟨L⟩B, serial 1; A and B are atoms.
fn exchange(goal: u32, single: u32) -> String {
    let steps =
        ["cp,0", "ll,2,0000000000000002,0,9,0,0", "sr", "sl,1", "af", "ax,3", "sr", "sl,4", "af", "ax,5"];
    booking(&format!("0,{goal},0,9,0,0"), &[1, single], &steps)
}

#[test]
fn a_hosts_token_is_booked_and_withdrawn() {
    // 4 = ⟨2⟩seat, 5 = ⟨2⟩place, 6 = 4 ⊸ 5
    let mut till = worded(&["s,2,0", "s,2,1", "l,4,5"]);
    assert_eq!(ask(&mut till, "issue,r,6,0,9,0,0"), Done(1));
    assert_eq!(ask(&mut till, "issue,s,4,0,9,0,0"), Done(2));
    assert_eq!(ask(&mut till, "issue,s,4,0,9,0,0"), Done(3));
    assert_eq!(ask(&mut till, "tally,7,0"), Counted(0, 2, 0));
    assert_eq!(ask(&mut till, &exchange(5, 2)), Done(4));
    assert_eq!(ask(&mut till, "tally,7,0"), Counted(0, 1, 1));
    assert_eq!(ask(&mut till, "withdraw,3"), Done(3));
    assert_eq!(ask(&mut till, "tally,7,0"), Counted(0, 0, 1));
    assert_eq!(ask(&mut till, "withdraw,4"), Done(4));
    assert_eq!(ask(&mut till, "tally,7,0"), Counted(0, 0, 0));
}

#[test]
fn a_booking_may_move_a_seat_between_open_and_shut() {
    // 4 = ⟨1⟩seat, 5 = ⟨2⟩seat, 6 = 4 ⊸ 5, 7 = 5 ⊸ 4
    let words = ["s,1,0", "s,2,0", "l,4,5", "l,5,4"];
    for (offer, from, to, open) in [(6, 4, 5, 0), (7, 5, 4, 1)] {
        let mut till = worded(&words);
        assert_eq!(ask(&mut till, &format!("issue,r,{offer},0,9,0,0")), Done(1));
        assert_eq!(ask(&mut till, &format!("issue,s,{from},0,9,0,0")), Done(2));
        assert_eq!(ask(&mut till, "tally,7,0"), Counted(1 - open, open, 0));
        assert_eq!(ask(&mut till, &exchange(to, 2)), Done(3));
        assert_eq!(ask(&mut till, "tally,7,0"), Counted(open, 1 - open, 0));
    }
    // a bare seat gets a principal
    for (goal, open) in [(4, 1), (5, 0)] {
        let mut till = worded(&words);
        assert_eq!(ask(&mut till, "issue,s,0,0,9,0,0"), Done(1));
        assert_eq!(ask(&mut till, "tally,7,0"), Counted(0, 1, 0));
        let sheet = booking(&format!("0,{goal},0,9,0,0"), &[1], &["sr", "af", "ax,0"]);
        assert_eq!(ask(&mut till, &sheet), Done(2));
        assert_eq!(ask(&mut till, "tally,7,0"), Counted(open, 1 - open, 0));
    }
}

#[test]
fn weights_do_not_ask_for_the_principal() {
    // ⟨1⟩seat, ⟨2⟩seat, seat and ⟨0⟩place all weigh 1
    let mut till = worded(&["s,1,0", "s,2,0", "s,0,1", "s,2,2"]);
    for (number, (left, right)) in (8..).zip([(4, 5), (5, 4), (0, 4), (5, 0), (5, 6), (6, 4)]) {
        assert_eq!(ask(&mut till, &format!("word,l,{left},{right}")), Done(number));
        assert_eq!(ask(&mut till, &format!("issue,r,{number},0,9,0,0")), Done(number - 7));
    }
    // ⟨1⟩seat of 7 ⊸ ⟨2⟩seat of 8
    assert_eq!(ask(&mut till, "word,l,4,7"), Done(14));
    assert_eq!(ask(&mut till, "issue,r,14,0,9,0,0"), Refused(21, 0));
}
