//! Windows with a break (document 02, ask 2): refusal 43, the minutes of a window, ⊇ in every rule.

use super::super::logic::Interval;
use super::{after, ask, booking, till_after, Answer, Counted, Done, Refused, Till};

const NO_BREAK: (u32, u32) = (0, 0);

fn window(from: u32, to: u32, (first, last): (u32, u32)) -> Interval {
    Interval { from, to, first, last }
}

/// All windows of the minutes 0 to `end`.
fn windows(end: u32) -> Vec<Interval> {
    let mut all = Vec::new();
    for from in 0..=end {
        for to in from..=end {
            all.push(window(from, to, NO_BREAK));
            for first in from + 1..to {
                all.extend((first..to).map(|last| window(from, to, (first, last))));
            }
        }
    }
    all
}

/// The minutes of a window, minute by minute: bit m stands for minute m.
fn set(window: Interval) -> u32 {
    let mut set = 0;
    for minute in window.from..=window.to {
        set |= 1 << minute;
    }
    if (window.first, window.last) != NO_BREAK {
        for minute in window.first..=window.last {
            set &= !(1 << minute);
        }
    }
    set
}

fn includes(one: Interval, other: Interval) -> bool {
    set(other) & !set(one) == 0
}

/// The four fields of a window.
fn fields(window: Interval) -> String {
    format!("{},{},{},{}", window.from, window.to, window.first, window.last)
}

#[test]
fn no_two_windows_of_ten_minutes_are_the_same_set() {
    let all = windows(9);
    assert_eq!(all.len(), 385);
    let mut sets: Vec<u32> = all.iter().map(|&window| set(window)).collect();
    sets.sort();
    sets.dedup();
    assert_eq!(sets.len(), 385);
}

#[test]
fn a_superset_is_one_of_minutes_for_all_windows_of_ten_minutes() {
    let (all, mut pairs, mut supersets) = (windows(9), 0, 0);
    for &one in &all {
        for &other in &all {
            assert_eq!(one.covers(other), includes(one, other), "{one:?} {other:?}");
            pairs += 1;
            supersets += u32::from(one.covers(other));
        }
    }
    assert_eq!(pairs, 385 * 385);
    assert!(supersets > 385);
}

/// The window moved to the end of the range of minutes.
fn late(window: Interval) -> Interval {
    let move_by = |minute| minute + 9_999_990;
    let (from, to) = (move_by(window.from), move_by(window.to));
    if (window.first, window.last) == NO_BREAK {
        return Interval { from, to, ..window };
    }
    Interval { from, to, first: move_by(window.first), last: move_by(window.last) }
}

#[test]
fn the_last_ten_minutes_are_like_the_first() {
    let all = windows(9);
    for &one in &all {
        for &other in &all {
            assert_eq!(late(one).covers(late(other)), includes(one, other), "{one:?} {other:?}");
            assert!(!one.covers(late(other)) && !late(one).covers(other));
        }
        for minute in 0..=9 {
            assert_eq!(late(one).has(minute + 9_999_990), set(one) >> minute & 1 == 1, "{one:?} {minute}");
            assert!(!one.has(minute + 9_999_990) && !late(one).has(minute));
        }
    }
}

#[test]
fn a_window_has_its_minutes_without_the_break() {
    for window in windows(9) {
        for minute in 0..=11 {
            assert_eq!(window.has(minute), set(window) >> minute & 1 == 1, "{window:?} {minute}");
        }
    }
}

#[test]
fn a_break_fits_exactly_if_it_is_one_of_the_windows() {
    let all = windows(9);
    for from in 0..=9 {
        for to in from..=9 {
            for (first, last) in (0..=10).flat_map(|first| (0..=10).map(move |last| (first, last))) {
                let window = window(from, to, (first, last));
                assert_eq!(window.break_fits(), all.contains(&window), "{window:?}");
            }
        }
    }
}

/// P is 0, P ⊸ P is 1, P ⊃ P is 2, a seat is 3; serial 1 is P single, 2 P, 3 P ⊸ P, 4 P ⊃ P, all standing.
const TILL: [&str; 8] = [
    "word,a,9,7", "word,l,0,0", "word,u,0,0", "word,a,1,7", "issue,s,0,0,9,0,0", "issue,r,0,0,9,0,0",
    "issue,r,1,0,9,0,0", "issue,r,2,0,9,0,0",
];

/// Every place of a window, `#`. That till accepts each of these sheets with a window that has minute 0
/// and lies in 0..9. The last three are refused: their window stands in a step that is not reached.
const PLACES: [&str; 11] = [
    "issue,s,0,#",
    "issue,r,0,#",
    "word,h,0,#",
    "word,g,#,0,0,0,0",
    "word,g,0,0,0,0,#",
    "book,0,0,#,1,1\nhold,1\nax,0",
    "book,0,0,0,0,0,0,2,5\nhold,2\nhold,3\ncp,1\nll,2,0000000000000000,#\ncp,0\nax,3\nax,4",
    "book,0,0,0,0,0,0,2,5\nhold,2\nhold,4\ncp,1\nul,2,#\ncp,0\nax,3\nax,4",
    "book,0,0,0,0,0,0,1,2\nhold,1\nax,0\nul,0,#",
    "book,0,0,0,0,0,0,1,3\nhold,1\nax,0\nor\nll,0,0000000000000000,#",
    "book,0,0,0,0,0,0,1,3\nhold,1\nor\nul,0,#\nax,0",
];

fn at_place(place: &str, window: &str) -> Answer {
    after(&TILL, &place.replace('#', window))
}

#[test]
fn every_place_takes_a_window_with_or_without_break() {
    for window in ["0,9,0,0", "0,9,1,8", "0,9,1,1", "0,9,8,8", "0,9,4,5", "0,2,1,1", "0,0,0,0", "0,1,0,0"] {
        for place in &PLACES[..8] {
            let answer = at_place(place, window);
            assert!(matches!(answer, Done(_)), "{place} {window}: {answer:?}");
        }
        for (place, answer) in PLACES[8..].iter().zip([Refused(42, 2), Refused(42, 2), Refused(40, 1)]) {
            assert_eq!(at_place(place, window), answer, "{place} {window}");
        }
    }
}

#[test]
fn lines_of_the_old_length_break_the_form() {
    for place in PLACES {
        for window in ["0,9", "0,9,0", "0,9,0,0,0", "0,9,0,0,", "0,9,,", "0,9,0,", "0,9,4,5,0", "0,9,4"] {
            assert_eq!(at_place(place, window), Refused(2, 0), "{place} {window}");
        }
    }
    let old = [
        "issue,s,0,0,9", "issue,r,0,0,9", "word,h,0,0,9", "word,g,0,9,1,2", "word,g,0,9,0,0,1,2",
        "word,g,0,9,1,2,0,0", "book,0,0,0,9,1,1\nhold,1\nax,0",
    ];
    for sheet in old {
        assert_eq!(after(&TILL, sheet), Refused(2, 0), "{sheet}");
    }
}

#[test]
fn refusal_43_exactly_if_neither_0_0_nor_strictly_inside() {
    for number in 0..6_u32.pow(4) {
        let [from, to, first, last] = [number / 216, number / 36 % 6, number / 6 % 6, number % 6];
        let fits = first == 0 && last == 0 || from < first && first <= last && last < to;
        let wanted = if from > to { Some(3) } else { (!fits).then_some(43) };
        for place in PLACES {
            let window = format!("{from},{to},{first},{last}");
            let refused = match at_place(place, &window) {
                Refused(number @ (2 | 3 | 43), 0) => Some(number),
                _ => None,
            };
            assert_eq!(refused, wanted, "{place} {window}");
        }
    }
}

#[test]
fn refusal_43_at_the_ends_of_the_range() {
    let unfit = ["0,#,#,#", "0,#,1,#", "0,#,0,#", "0,#,#,0", "#,#,#,#", "#,#,0,1", "0,0,0,#", "0,0,#,#"];
    let fit = ["0,9999999,1,9999998", "0,9999999,9999998,9999998", "9999997,9999999,9999998,9999998"];
    for place in PLACES {
        for window in unfit {
            assert_eq!(at_place(place, &window.replace('#', "9999999")), Refused(43, 0), "{place} {window}");
        }
        for window in fit {
            assert!(!matches!(at_place(place, window), Refused(2 | 3 | 43, _)), "{place} {window}");
        }
        for window in ["0,10000000,1,2", "0,9,1,10000000", "0,9,10000000,10000000"] {
            assert_eq!(at_place(place, window), Refused(2, 0), "{place} {window}");
        }
    }
}

/// Windows that 43 refuses: at the first minute, at the last, reversed, one field 0, outside.
const UNFIT: [&str; 9] =
    ["0,9,0,3", "0,9,3,9", "0,9,5,4", "0,9,3,0", "2,9,2,2", "2,9,9,9", "2,9,1,1", "0,9,10,11", "5,5,5,5"];

#[test]
fn refusal_2_comes_before_43_anywhere_in_the_sheet() {
    for unfit in UNFIT {
        let broken = [
            "book,0,0,#,0,2\nor\nxx", "book,0,0,#,0,1\nor\nor", "book,0,0,#,0,1\nax,64",
            "word,g,#,0,10000000,0,0", "word,g,#,0,9,0,10000000", "issue,s,1000,#", "issue,s,0,#\n",
            "word,h,1000,#",
        ];
        for sheet in broken {
            assert_eq!(after(&TILL, &sheet.replace('#', unfit)), Refused(2, 0), "{sheet} {unfit}");
        }
    }
}

#[test]
fn refusal_3_comes_before_43_anywhere_in_the_sheet() {
    let sheets = [
        "word,g,#,5,4,0,0",
        "word,g,5,4,0,0,#",
        "book,0,0,#,0,2\nor\nul,0,5,4,0,0",
        "book,0,0,5,4,0,0,0,2\nor\nul,0,#",
        "book,0,0,0,0,0,0,0,2\nul,0,#\nll,0,0000000000000000,5,4,0,0",
        "book,0,0,0,0,0,0,0,2\nul,0,5,4,0,0\nll,0,0000000000000000,#",
    ];
    for unfit in UNFIT {
        for sheet in sheets {
            assert_eq!(after(&TILL, &sheet.replace('#', unfit)), Refused(3, 0), "{sheet} {unfit}");
        }
    }
    for place in PLACES {
        for window in ["5,4,0,0", "5,4,5,4", "9,0,5,5", "5,4,0,1", "9,0,0,9", "1,0,0,0", "1,0,1,1"] {
            assert_eq!(at_place(place, window), Refused(3, 0), "{place} {window}");
        }
    }
}

#[test]
fn refusal_43_comes_before_all_after_3() {
    let sheets = [
        // 10
        "word,h,4,#", "issue,s,4,#", "issue,r,4,#", "book,0,4,#,1,1\nhold,1\nax,0",
        // 20, 21
        "issue,s,1,#", "issue,r,3,#", "book,0,1,#,1,1\nhold,1\nax,0",
        // 30, 24, 31, 40, 42
        "book,10,0,#,1,1\nhold,1\nax,0", "book,0,0,#,1,1\nhold,9\nax,0",
        "book,0,0,#,2,1\nhold,1\nhold,1\nax,0", "book,0,0,#,1,1\nhold,1\nor", "book,0,0,#,1,1\nhold,2\ncp,0",
        "book,0,0,0,0,0,0,1,2\nhold,9\nax,0\nul,0,#", "book,9,0,0,0,0,0,1,2\nhold,1\nax,0\nul,0,#",
    ];
    for unfit in UNFIT {
        for sheet in sheets {
            assert_eq!(after(&TILL, &sheet.replace('#', unfit)), Refused(43, 0), "{sheet} {unfit}");
        }
    }
    assert_eq!(after(&[], "word,h,0,0,9,9,9"), Refused(43, 0));
    assert_eq!(after(&[], "issue,s,0,0,9,9,9"), Refused(43, 0));
    assert_eq!(after(&["word,g,0,9,0,0,0,9,0,0"], "word,g,0,9,0,0,0,9,0,9"), Refused(43, 0));
}

#[test]
fn refusal_43_leaves_the_till_as_before() {
    let mut till = till_after(&TILL);
    for place in PLACES {
        assert_eq!(ask(&mut till, &place.replace('#', "0,9,9,9")), Refused(43, 0), "{place}");
    }
    assert_eq!(ask(&mut till, "word,h,0,0,9,8,8"), Done(4));
    assert_eq!(ask(&mut till, "issue,s,0,0,9,8,8"), Done(5));
    assert_eq!(ask(&mut till, "withdraw,1"), Done(1));
}

#[test]
fn refusal_13_for_lines_equal_in_their_breaks_too() {
    let words = ["word,a,9,7", "word,h,0,0,9,0,0", "word,h,0,0,9,3,4", "word,g,0,9,3,4,0,9,0,0"];
    for line in words {
        assert_eq!(after(&words, line), Refused(13, 0), "{line}");
    }
    let others = [
        "word,h,0,0,9,3,3", "word,h,0,0,9,4,4", "word,h,0,0,9,2,4", "word,h,0,0,9,3,5",
        "word,g,0,9,0,0,0,9,3,4", "word,g,0,9,0,0,0,9,0,0", "word,g,0,9,3,4,0,9,3,4",
        "word,g,0,9,3,5,0,9,0,0",
    ];
    for line in others {
        assert_eq!(after(&words, line), Done(4), "{line}");
    }
}

#[test]
fn refusal_30_exactly_if_the_window_lacks_the_minute() {
    let mut till = till_after(&["word,a,9,7"]);
    let mut serial = 0;
    for window in windows(9) {
        for now in 0..=10 {
            serial += 1;
            assert_eq!(ask(&mut till, "issue,s,0,0,9,0,0"), Done(serial));
            let sheet = booking(&format!("{now},0,{}", fields(window)), &[serial], &["ax,0"]);
            let open = set(window) >> now & 1 == 1;
            serial += u32::from(open);
            let wanted = if open { Done(serial) } else { Refused(30, 0) };
            assert_eq!(ask(&mut till, &sheet), wanted, "{window:?} {now}");
            assert_eq!(ask(&mut till, &format!("withdraw,{serial}")), Done(serial));
        }
    }
}

#[test]
fn tally_shuts_the_seats_of_a_window_in_its_break() {
    let words = ["word,a,1,7", "word,a,2,7", "word,s,1,0", "word,t,2,1", "word,t,3,2"];
    let mut till = till_after(&[&words[..], &["issue,s,2,0,0,0,0"]].concat());
    for (number, window) in (2..).zip(windows(9)) {
        assert_eq!(ask(&mut till, &format!("issue,s,4,{}", fields(window))), Done(number));
        for minute in 0..=10 {
            let (other, open) = (u32::from(minute == 0), set(window) >> minute & 1);
            let wanted = Counted(2 * open + other, 2 * (1 - open) + 1 - other, 1);
            assert_eq!(ask(&mut till, &format!("tally,7,{minute}")), wanted, "{window:?} {minute}");
        }
        assert_eq!(ask(&mut till, &format!("withdraw,{number}")), Done(number));
    }
}

#[test]
fn tally_goes_by_each_coupons_own_break() {
    let issues = [
        "issue,s,1,0,900,300,400", "issue,s,1,0,900,350,450", "issue,s,1,0,900,0,0",
        "issue,s,1,380,400,390,390",
    ];
    let mut till = till_after(&[&["word,a,1,7", "word,s,1,0"][..], &issues].concat());
    let open = [
        (0, 3),
        (299, 3),
        (300, 2),
        (349, 2),
        (350, 1),
        (379, 1),
        (380, 2),
        (389, 2),
        (390, 1),
        (391, 2),
        (400, 2),
        (401, 2),
        (450, 2),
        (451, 3),
        (900, 3),
        (901, 0),
    ];
    for (minute, open) in open {
        assert_eq!(ask(&mut till, &format!("tally,7,{minute}")), Counted(open, 4 - open, 0), "{minute}");
    }
}

/// P and Q are 0 and 1; then what the cases below need.
const WORDS: [&str; 9] = [
    "word,a,9,0", "word,a,9,1", "word,s,1,0", "word,l,0,1", "word,u,0,1", "word,t,0,0", "word,w,0,0",
    "word,p,0,0", "word,b,0",
];

/// Issues the coupons, books the goal from all of them and withdraws what is left. The answer is
/// the refusal, or None if the booking was accepted.
fn try_out(
    till: &mut Till,
    coupons: &[String],
    goal: u32,
    at: Interval,
    steps: &[&str],
) -> Option<(u32, u32)> {
    let mut serials = Vec::new();
    for coupon in coupons {
        let Done(serial) = ask(till, &format!("issue,{coupon}")) else { panic!("{coupon}") };
        serials.push(serial);
    }
    let answer = ask(till, &booking(&format!("{},{goal},{}", at.from, fields(at)), &serials, steps));
    if let Done(serial) = answer {
        serials.push(serial);
    }
    for serial in serials {
        ask(till, &format!("withdraw,{serial}"));
    }
    match answer {
        Refused(number, step) => Some((number, step)),
        _ => None,
    }
}

/// Coupons, a goal at J and steps, with `I` and `J` for windows: right if I ⊇ J, else 40 at the step.
type Case = (&'static [&'static str], u32, &'static [&'static str], u32);

const CASES: [Case; 14] = [
    (&["s,0,I"], 0, &["ax,0"], 1),
    (&["r,0,I"], 0, &["cp,0", "ax,1"], 2),
    (&["s,5,I"], 5, &["tl,0", "tr,0000000000000002", "ax,1", "ax,2"], 3),
    (&["r,6,I"], 0, &["cp,0", "w1,1", "ax,2"], 3),
    (&["r,6,I"], 0, &["cp,0", "w2,1", "ax,2"], 3),
    (&["r,7,I"], 0, &["cp,0", "pl,1", "ax,2", "ax,3"], 3),
    (&["r,8,I"], 0, &["cp,0", "bl,1", "cp,2", "ax,3"], 4),
    (&["s,2,I"], 2, &["sr", "sl,0", "af", "ax,1"], 2),
    // J within the window of P ⊸ Q, of P ⊃ Q
    (&["r,0,0,6,0,0", "r,3,I"], 1, &["cp,1", "ll,2,0000000000000000,J", "cp,0", "ax,3", "ax,4"], 2),
    (&["r,0,0,6,0,0", "r,4,I"], 1, &["cp,1", "ul,2,J", "cp,0", "ax,3", "ax,4"], 2),
    // P at J from P at I
    (&["r,0,I", "r,3,0,6,0,0"], 1, &["cp,1", "ll,2,0000000000000000,J", "cp,0", "ax,3", "ax,4"], 4),
    (&["r,0,I", "r,4,0,6,0,0"], 1, &["cp,1", "ul,2,J", "cp,0", "ax,3", "ax,4"], 4),
    // Q at J from Q at I
    (&["r,0,0,6,0,0", "r,3,0,6,0,0"], 1, &["cp,1", "ll,2,0000000000000000,I", "cp,0", "ax,3", "ax,4"], 5),
    (&["r,0,0,6,0,0", "r,4,0,6,0,0"], 1, &["cp,1", "ul,2,I", "cp,0", "ax,3", "ax,4"], 5),
];

#[test]
fn every_rule_goes_by_the_set_for_all_windows_of_seven_minutes() {
    let all = windows(6);
    for (coupons, goal, steps, wrong) in CASES {
        let mut till = till_after(&WORDS);
        for &one in &all {
            for &other in &all {
                let fill = |text: &&str| text.replace('I', &fields(one)).replace('J', &fields(other));
                let coupons: Vec<String> = coupons.iter().map(fill).collect();
                let steps: Vec<String> = steps.iter().map(fill).collect();
                let steps: Vec<&str> = steps.iter().map(String::as_str).collect();
                let wanted = (!includes(one, other)).then_some((40, wrong));
                assert_eq!(
                    try_out(&mut till, &coupons, goal, other, &steps),
                    wanted,
                    "{coupons:?} {steps:?}"
                );
            }
        }
    }
}

#[test]
fn the_part_of_sl_keeps_the_break() {
    let all = windows(6);
    let mut till = till_after(&[&WORDS[..], &["word,s,1,3", "word,s,1,1"]].concat());
    for &one in &all {
        for &other in &all {
            // ⟨1⟩(P ⊸ Q) at one gives P ⊸ Q there, used at the other; Q at that closes the goal ⟨1⟩Q at one
            let share = format!("ll,3,0000000000000000,{}", fields(other));
            let steps = ["cp,1", "sr", "sl,2", &share, "cp,0", "ax,4", "af", "ax,5"];
            let coupons = ["r,0,0,6,0,0".to_string(), format!("r,9,{}", fields(one))];
            let wanted = match (includes(one, other), one == other) {
                (false, _) => Some((40, 4)),
                (true, false) => Some((40, 8)),
                (true, true) => None,
            };
            assert_eq!(try_out(&mut till, &coupons, 10, one, &steps), wanted, "{one:?} {other:?}");
        }
    }
}

#[test]
fn gr_goes_by_the_set() {
    let all = windows(6);
    let share = "ll,1,0000000000000000,0,0,0,0";
    for &one in &all {
        let mut till = till_after(&["word,a,9,0"]);
        for (number, &other) in (0..).zip(&all) {
            let line = format!("word,g,{},{}", fields(one), fields(other));
            assert_eq!(ask(&mut till, &line), Done(2 * number + 1));
            assert_eq!(ask(&mut till, &format!("word,l,{},0", 2 * number + 1)), Done(2 * number + 2));
            let coupon = format!("r,{},0,6,0,0", 2 * number + 2);
            let at = window(0, 0, NO_BREAK);
            let answer = try_out(&mut till, &[coupon], 0, at, &["cp,0", share, "gr", "ax,2"]);
            assert_eq!(answer, (!includes(one, other)).then_some((40, 3)), "{line}");
        }
    }
}

#[test]
fn hl_and_hr_move_to_the_window_with_its_break() {
    let all = windows(6);
    let mut till = till_after(&["word,a,9,0", "word,a,9,1"]);
    for (number, &named) in (1..).zip(&all) {
        let (part, offer) = (2 * number, 2 * number + 1);
        assert_eq!(ask(&mut till, &format!("word,h,0,{}", fields(named))), Done(part));
        assert_eq!(ask(&mut till, &format!("word,l,{part},1")), Done(offer));
        for &other in &all {
            let wanted = (!includes(named, other)).then_some((40, 3));
            let coupon = format!("r,{part},0,0,0,0");
            assert_eq!(try_out(&mut till, &[coupon], 0, other, &["cp,0", "hl,1", "ax,2"]), wanted);
            let wanted = (!includes(other, named)).then_some((40, 4));
            let coupons = [format!("r,{offer},0,6,0,0"), format!("s,0,{}", fields(other))];
            let steps = ["cp,0", "ll,2,0000000000000002,0,0,0,0", "hr", "ax,1", "ax,3"];
            assert_eq!(try_out(&mut till, &coupons, 1, window(0, 0, NO_BREAK), &steps), wanted);
        }
    }
}

#[test]
fn a_booked_coupon_has_the_heads_break() {
    let book = "book,0,1,0,900,300,400,1,4\nhold,1\nsr\nsl,0\naf\nax,1";
    let requests = ["word,a,1,7", "word,s,1,0", "issue,s,1,0,900,0,0", book];
    for (minute, open) in [(0, 1), (299, 1), (300, 0), (350, 0), (400, 0), (401, 1), (900, 1), (901, 0)] {
        assert_eq!(after(&requests, &format!("tally,7,{minute}")), Counted(open, 1 - open, 0), "{minute}");
    }
    let requests = ["word,a,1,7", "issue,s,0,0,900,0,0", "book,0,0,0,900,300,400,1,1\nhold,1\nax,0"];
    let again =
        |now: u32, window: &str| after(&requests, &booking(&format!("{now},0,{window}"), &[2], &["ax,0"]));
    for window in ["0,299,0,0", "0,900,300,400", "0,900,299,401", "0,800,200,500", "0,299,100,200"] {
        assert_eq!(again(0, window), Done(3), "{window}");
    }
    for window in ["0,300,0,0", "0,900,0,0", "0,900,301,400", "0,900,300,399", "0,901,300,400"] {
        assert_eq!(again(0, window), Refused(40, 1), "{window}");
    }
    assert_eq!(again(401, "401,900,0,0"), Done(3));
    assert_eq!(again(400, "400,900,0,0"), Refused(40, 1));
    assert_eq!(again(300, "0,900,300,400"), Refused(30, 0));
}

#[test]
fn m1_with_a_hall_shut_over_lunch() {
    let words = [
        "word,a,1,7", "word,a,2,7", "word,a,9,7", "word,s,1,0", "word,s,2,2", "word,s,1,1", "word,t,3,4",
        "word,l,6,5", "issue,r,7,0,9999,0,0",
    ];
    let steps = [
        "cp,0", "ll,3,0000000000000006,540,600,550,560", "tr,0000000000000002", "sr", "sl,1", "af", "ax,4",
        "sr", "sl,2", "af", "ax,5", "sr", "sl,6", "af", "ax,7",
    ];
    // the seat's break, the token's, the goal's, and the answer
    let cases = [
        ("0,0", "0,0", "550,560", Done(4)),
        ("552,558", "550,560", "550,560", Done(4)),
        ("549,560", "0,0", "550,560", Refused(40, 5)),
        ("550,561", "0,0", "550,560", Refused(40, 5)),
        ("500,510", "0,0", "550,560", Done(4)),
        ("0,0", "400,540", "550,560", Refused(40, 9)),
        ("0,0", "400,539", "550,560", Done(4)),
        ("0,0", "0,0", "0,0", Refused(40, 13)),
        ("0,0", "0,0", "545,565", Done(4)),
        ("0,0", "0,0", "551,565", Refused(40, 13)),
    ];
    for (seat, token, goal, answer) in cases {
        let (seat, token) = (format!("issue,s,3,0,601,{seat}"), format!("issue,s,4,0,601,{token}"));
        let requests = [&words[..], &[&seat, &token]].concat();
        let sheet = booking(&format!("540,5,540,600,{goal}"), &[1, 2, 3], &steps);
        assert_eq!(after(&requests, &sheet), answer, "{seat} {token} {goal}");
    }
}
