//! Each step right and wrong. Goals of bookings are plain, so other right steps are reached as the
//! first premise of a standing coupon A ⊸ B or A ⊃ B.

use super::{after, ask, booking, till_after, Answer, Done, Refused};

/// The free atoms P and Q, numbers 0 and 1 in every test here, of weight 0.
const P_AND_Q: [&str; 2] = ["a,9,7", "a,9,8"];

/// Adds words from number 2 on, issues coupons (serials 1, 2, ..) and books goal P or another at
/// 5..6 from all of them. The accepted answer is the next serial.
fn prove_goal(goal: u32, words: &[&str], coupons: &[&str], steps: &[&str]) -> Answer {
    let words = P_AND_Q.iter().chain(words).map(|word| format!("word,{word}"));
    let issues = coupons.iter().map(|coupon| format!("issue,{coupon}"));
    let requests: Vec<String> = words.chain(issues).collect();
    let requests: Vec<&str> = requests.iter().map(String::as_str).collect();
    let holds: Vec<u32> = (1..=coupons.len() as u32).collect();
    after(&requests, &booking(&format!("5,{goal},5,6,0,0"), &holds, steps))
}

fn prove(words: &[&str], coupons: &[&str], steps: &[&str]) -> Answer {
    prove_goal(0, words, coupons, steps)
}

const NO_SHARE: &str = "0000000000000000";

/// `ll` on the label with nothing shared, at 5..6.
fn ll(label: u32) -> String {
    format!("ll,{label},{NO_SHARE},5,6,0,0")
}

#[test]
fn ax_needs_just_one_label_the_same_atom_and_a_window_around() {
    assert_eq!(prove(&[], &["s,0,5,6,0,0"], &["ax,0"]), Done(2));
    assert_eq!(prove(&[], &["s,0,0,9999999,0,0"], &["ax,0"]), Done(2));
    assert_eq!(prove(&[], &["s,0,6,6,0,0"], &["ax,0"]), Refused(40, 1));
    assert_eq!(prove(&[], &["s,0,0,5,0,0"], &["ax,0"]), Refused(40, 1));
    assert_eq!(prove(&[], &["s,1,5,6,0,0"], &["ax,0"]), Refused(40, 1));
    assert_eq!(prove(&[], &["s,0,5,6,0,0", "s,0,5,6,0,0"], &["ax,0"]), Refused(40, 1));
    assert_eq!(prove(&[], &["r,0,5,6,0,0"], &["ax,0"]), Refused(40, 1));
    assert_eq!(prove(&[], &["r,0,5,6,0,0", "s,0,5,6,0,0"], &["ax,1"]), Done(3));
    assert_eq!(prove(&[], &["r,0,5,6,0,0", "s,0,5,6,0,0"], &["ax,0"]), Refused(40, 1));
    assert_eq!(prove(&[], &[], &["ax,0"]), Refused(40, 1));
}

#[test]
fn ax_tells_sessions_apart() {
    for (one, other) in [(7, 263), (0, 256), (255, 65_535), (0, 65_535), (32_767, 65_535), (65_534, 65_535)] {
        let words = [format!("word,a,1,{one}"), format!("word,a,1,{other}")];
        let requests = [&words[0], &words[1], "issue,s,0,5,6,0,0", "issue,s,1,5,6,0,0"];
        let book = |goal: u32, hold: u32| {
            after(&requests, &booking(&format!("5,{goal},5,6,0,0"), &[hold], &["ax,0"]))
        };
        assert_eq!(book(0, 1), Done(3), "{one} {other}");
        assert_eq!(book(1, 2), Done(3), "{one} {other}");
        assert_eq!(book(0, 2), Refused(40, 1), "{one} {other}");
        assert_eq!(book(1, 1), Refused(40, 1), "{one} {other}");
    }
}

#[test]
fn ax_closes_on_atoms_alone() {
    assert_eq!(prove_goal(2, &["t,0,0"], &["s,2,5,6,0,0"], &["ax,0"]), Refused(40, 1));
    assert_eq!(prove_goal(2, &["s,1,0"], &["s,2,5,6,0,0"], &["ax,0"]), Refused(40, 1));
}

#[test]
fn cp_copies_a_standing_label_any_number_of_times() {
    assert_eq!(prove(&[], &["r,0,5,6,0,0"], &["cp,0", "ax,1"]), Done(2));
    assert_eq!(prove(&[], &["r,0,5,5,0,0"], &["cp,0", "ax,1"]), Refused(40, 2));
    assert_eq!(prove(&[], &["s,0,5,6,0,0"], &["cp,0", "ax,1"]), Refused(40, 1));
    assert_eq!(prove(&[], &["r,0,5,6,0,0"], &["cp,0", "cp,1", "ax,1"]), Refused(40, 2));
    let steps = ["cp,0", "cp,0", "tr,0000000000000002", "ax,1", "ax,2"];
    assert_eq!(prove_goal(2, &["t,0,0"], &["r,0,5,6,0,0"], &steps), Done(2));
}

#[test]
fn tr_parts_the_singles_by_the_share() {
    let (words, coupons) = (["t,0,1"], ["s,0,5,6,0,0", "s,1,5,6,0,0"]);
    let with = |share| prove_goal(2, &words, &coupons, &[share, "ax,0", "ax,1"]);
    assert_eq!(with("tr,0000000000000001"), Done(3));
    assert_eq!(with("tr,0000000000000002"), Refused(40, 2));
    assert_eq!(with("tr,0000000000000003"), Refused(40, 2));
    assert_eq!(with("tr,0000000000000000"), Refused(40, 2));
    assert_eq!(with("tr,0000000000000005"), Refused(40, 1));
    assert_eq!(with("tr,8000000000000001"), Refused(40, 1));
    assert_eq!(prove(&[], &["s,0,5,6,0,0"], &["tr,0000000000000000"]), Refused(40, 1));
}

#[test]
fn tr_share_must_lie_within_the_singles_not_the_standing() {
    let coupons = ["r,0,5,6,0,0", "s,0,5,6,0,0"];
    let steps = ["tr,0000000000000001", "cp,0", "ax,2", "ax,1"];
    assert_eq!(prove_goal(2, &["t,0,0"], &coupons, &steps), Refused(40, 1));
    let steps = ["tr,0000000000000000", "cp,0", "ax,2", "ax,1"];
    assert_eq!(prove_goal(2, &["t,0,0"], &coupons, &steps), Done(3));
}

#[test]
fn tl_takes_the_left_parts_label_first() {
    let steps = ["tl,0", "tr,0000000000000002", "ax,1", "ax,2"];
    assert_eq!(prove_goal(2, &["t,0,1"], &["s,2,5,6,0,0"], &steps), Done(2));
    let steps = ["tl,0", "tr,0000000000000004", "ax,2", "ax,1"];
    assert_eq!(prove_goal(2, &["t,0,1"], &["s,2,5,6,0,0"], &steps), Refused(40, 3));
    assert_eq!(prove(&[], &["s,0,5,6,0,0"], &["tl,0", "ax,1"]), Refused(40, 1));
    assert_eq!(prove(&["t,0,1"], &["r,2,5,6,0,0"], &["tl,0"]), Refused(40, 1));
    let steps = ["tl,0", "tl,0"];
    assert_eq!(prove_goal(2, &["t,0,1"], &["s,2,5,6,0,0"], &steps), Refused(40, 2));
}

#[test]
fn tl_parts_keep_the_window() {
    let steps = ["tl,0", "tr,0000000000000002", "ax,1", "ax,2"];
    assert_eq!(prove_goal(2, &["t,0,1"], &["s,2,5,5,0,0"], &steps), Refused(40, 3));
}

#[test]
fn or_needs_1_and_no_singles() {
    let words = ["o", "l,2,0"];
    assert_eq!(prove(&words, &["r,3,0,9,0,0"], &["cp,0", &ll(1), "or", "ax,2"]), Done(2));
    let coupons = ["r,3,0,9,0,0", "s,0,5,6,0,0"];
    assert_eq!(prove(&words, &coupons, &["cp,0", "ll,2,0000000000000002,5,6,0,0", "or"]), Refused(40, 3));
    assert_eq!(prove(&words, &[], &["or"]), Refused(40, 1));
}

#[test]
fn ol_drops_a_1() {
    assert_eq!(prove(&["o"], &["r,2,0,0,0,0", "s,0,5,6,0,0"], &["cp,0", "ol,2", "ax,1"]), Done(3));
    assert_eq!(prove(&["o"], &["r,2,0,0,0,0", "s,0,5,6,0,0"], &["cp,0", "ax,1"]), Refused(40, 2));
    assert_eq!(prove(&["o"], &["r,2,0,0,0,0", "s,0,5,6,0,0"], &["ol,1"]), Refused(40, 1));
    assert_eq!(prove(&["o"], &["r,2,0,0,0,0", "s,0,5,6,0,0"], &["ol,0"]), Refused(40, 1));
}

#[test]
fn wr_gives_all_singles_to_each_arm() {
    let (words, coupons) = (["w,0,0", "l,2,1"], ["r,3,0,9,0,0", "s,0,5,6,0,0"]);
    let share = "ll,2,0000000000000002,5,6,0,0";
    let right = ["cp,0", share, "wr", "ax,1", "ax,1", "ax,3"];
    assert_eq!(prove_goal(1, &words, &coupons, &right), Done(3));
    assert_eq!(prove_goal(1, &words, &coupons, &["cp,0", share, "ax,1"]), Refused(40, 3));
    assert_eq!(prove_goal(1, &words, &coupons, &["wr"]), Refused(40, 1));
    // one single for each arm is one too many for either
    let coupons = ["r,3,0,9,0,0", "s,0,5,6,0,0", "s,0,5,6,0,0"];
    let steps = ["cp,0", "ll,3,0000000000000006,5,6,0,0", "wr", "ax,1", "ax,2", "ax,4"];
    assert_eq!(prove_goal(1, &words, &coupons, &steps), Refused(40, 4));
}

#[test]
fn w1_takes_the_left_arm_and_w2_the_right() {
    let words = ["w,0,1"];
    assert_eq!(prove_goal(0, &words, &["r,2,5,6,0,0"], &["cp,0", "w1,1", "ax,2"]), Done(2));
    assert_eq!(prove_goal(1, &words, &["r,2,5,6,0,0"], &["cp,0", "w2,1", "ax,2"]), Done(2));
    assert_eq!(prove_goal(1, &words, &["r,2,5,6,0,0"], &["cp,0", "w1,1", "ax,2"]), Refused(40, 3));
    assert_eq!(prove_goal(0, &words, &["r,2,5,6,0,0"], &["cp,0", "w2,1", "ax,2"]), Refused(40, 3));
    for step in ["w1,0", "w2,0"] {
        assert_eq!(prove(&words, &["s,0,5,6,0,0"], &[step, "ax,0"]), Refused(40, 1));
    }
}

#[test]
fn p1_proves_the_left_arm_and_p2_the_right() {
    let words = ["p,0,1", "l,2,0"];
    let share = "ll,2,0000000000000002,5,6,0,0";
    for (part, step, other) in [(0, "p1", "p2"), (1, "p2", "p1")] {
        let single = format!("s,{part},5,6,0,0");
        let coupons = ["r,3,0,9,0,0", &single];
        assert_eq!(prove(&words, &coupons, &["cp,0", share, step, "ax,1", "ax,3"]), Done(3));
        assert_eq!(prove(&words, &coupons, &["cp,0", share, other, "ax,1", "ax,3"]), Refused(40, 4));
        assert_eq!(prove(&words, &coupons, &[step]), Refused(40, 1));
    }
}

#[test]
fn pl_proves_the_goal_for_each_arm() {
    assert_eq!(prove(&["p,0,0"], &["r,2,5,6,0,0"], &["cp,0", "pl,1", "ax,2", "ax,3"]), Done(2));
    assert_eq!(prove(&["p,0,0"], &["r,2,5,6,0,0"], &["cp,0", "pl,1", "ax,2", "ax,2"]), Refused(40, 4));
    assert_eq!(prove(&["p,0,1"], &["r,2,5,6,0,0"], &["cp,0", "pl,1", "ax,2", "ax,3"]), Refused(40, 4));
    assert_eq!(prove(&["p,0,0"], &["r,2,5,6,0,0"], &["cp,0", "pl,1", "ax,2"]), Refused(42, 4));
    assert_eq!(prove(&["p,0,0"], &["s,0,5,6,0,0"], &["pl,0"]), Refused(40, 1));
}

#[test]
fn labels_of_a_first_premise_are_not_taken_again_in_the_second() {
    let coupons = ["r,2,5,6,0,0", "r,0,5,6,0,0", "r,3,5,6,0,0"];
    let words = ["p,0,0", "o"];
    // labels 0 to 2 held, 3 copy, 4 left arm, 5 a copy of 1 there, 6 right arm
    let steps = ["cp,0", "pl,3", "cp,2", "ol,5", "ax,4", "ax,6"];
    assert_eq!(prove(&words, &coupons, &steps), Done(4));
    let steps = ["cp,0", "pl,3", "cp,2", "ol,5", "ax,4", "ax,5"];
    assert_eq!(prove(&words, &coupons, &steps), Refused(40, 6));
}

#[test]
fn ll_proves_the_left_from_the_share_then_uses_the_right() {
    let words = ["l,0,1"];
    let coupons = ["r,2,0,9,0,0", "s,0,5,6,0,0"];
    let with = |step| prove_goal(1, &words, &coupons, &["cp,0", step, "ax,1", "ax,3"]);
    assert_eq!(with("ll,2,0000000000000002,5,6,0,0"), Done(3));
    assert_eq!(with("ll,2,0000000000000000,5,6,0,0"), Refused(40, 3));
    assert_eq!(with("ll,2,0000000000000004,5,6,0,0"), Refused(40, 2));
    assert_eq!(with("ll,2,0000000000000006,5,6,0,0"), Refused(40, 2));
    assert_eq!(with("ll,2,0000000000000003,5,6,0,0"), Refused(40, 2));
    assert_eq!(with("ll,1,0000000000000000,5,6,0,0"), Refused(40, 2));
    assert_eq!(with("ll,0,0000000000000002,5,6,0,0"), Refused(40, 2));
    assert_eq!(with("ll,2,0000000000000002,0,10,0,0"), Refused(40, 2));
    assert_eq!(with("ll,2,0000000000000002,4,6,0,0"), Refused(40, 3));
    assert_eq!(with("ll,2,0000000000000002,6,6,0,0"), Refused(40, 4));
}

#[test]
fn ul_gives_its_first_premise_no_singles() {
    let words = ["u,0,1"];
    let coupons = ["r,2,0,9,0,0", "r,0,5,6,0,0"];
    let right = ["cp,0", "ul,2,5,6,0,0", "cp,1", "ax,3", "ax,4"];
    assert_eq!(prove_goal(1, &words, &coupons, &right), Done(3));
    let wide = ["cp,0", "ul,2,5,10,0,0", "cp,1", "ax,3", "ax,4"];
    assert_eq!(prove_goal(1, &words, &coupons, &wide), Refused(40, 2));
    let single = ["cp,0", "ul,2,5,6,0,0", "ax,1", "ax,3"];
    assert_eq!(prove_goal(1, &words, &["r,2,0,9,0,0", "s,0,5,6,0,0"], &single), Refused(40, 3));
    assert_eq!(prove_goal(1, &words, &["s,0,5,6,0,0"], &["ul,0,5,6,0,0"]), Refused(40, 1));
    let narrow = ["cp,0", "ul,2,6,6,0,0", "cp,1", "ax,3", "ax,4"];
    assert_eq!(prove_goal(1, &words, &coupons, &narrow), Refused(40, 5));
}

#[test]
fn br_needs_no_singles() {
    let words = ["b,0", "l,2,1"];
    let right = ["cp,0", &ll(2), "br", "cp,1", "ax,3", "ax,4"];
    assert_eq!(prove_goal(1, &words, &["r,3,0,9,0,0", "r,0,5,6,0,0"], &right), Done(3));
    let wrong = ["cp,0", "ll,2,0000000000000002,5,6,0,0", "br", "ax,1", "ax,3"];
    assert_eq!(prove_goal(1, &words, &["r,3,0,9,0,0", "s,0,5,6,0,0"], &wrong), Refused(40, 3));
    assert_eq!(prove(&words, &[], &["br"]), Refused(40, 1));
}

#[test]
fn bl_part_joins_the_standing() {
    let words = ["b,0", "t,0,0"];
    assert_eq!(prove(&words, &["r,2,5,6,0,0"], &["cp,0", "bl,1", "cp,2", "ax,3"]), Done(2));
    let twice = ["cp,0", "bl,1", "cp,2", "cp,2", "tr,0000000000000008", "ax,3", "ax,4"];
    assert_eq!(prove_goal(3, &words, &["r,2,5,6,0,0"], &twice), Done(2));
    assert_eq!(prove(&words, &["r,2,5,6,0,0"], &["cp,0", "bl,1", "ax,2"]), Refused(40, 3));
    assert_eq!(prove(&words, &["r,2,5,6,0,0"], &["cp,0", "bl,1", "cp,1"]), Refused(40, 3));
    assert_eq!(prove(&words, &["r,2,5,5,0,0"], &["cp,0", "bl,1", "cp,2", "ax,3"]), Refused(40, 4));
    assert_eq!(prove(&words, &["s,0,5,6,0,0"], &["bl,0"]), Refused(40, 1));
    assert_eq!(prove(&words, &["r,2,5,6,0,0"], &["bl,0"]), Refused(40, 1));
}

#[test]
fn what_joined_the_standing_in_a_first_premise_is_not_there_in_the_second() {
    let (words, coupons) = (["b,0", "t,0,0"], ["r,2,5,6,0,0"]);
    let right = ["cp,0", "tr,0000000000000002", "bl,1", "cp,2", "ax,3", "cp,0", "bl,4", "cp,5", "ax,6"];
    assert_eq!(prove_goal(3, &words, &coupons, &right), Done(2));
    let wrong = ["cp,0", "tr,0000000000000002", "bl,1", "cp,2", "ax,3", "cp,2", "ax,4"];
    assert_eq!(prove_goal(3, &words, &coupons, &wrong), Refused(40, 6));
}

#[test]
fn hr_moves_the_goal_to_its_own_window() {
    let words = ["h,0,5,5,0,0", "l,2,1"];
    let coupons = ["r,3,0,9,0,0", "s,0,5,5,0,0"];
    let share = "ll,2,0000000000000002,5,6,0,0";
    assert_eq!(prove_goal(1, &words, &coupons, &["cp,0", share, "hr", "ax,1", "ax,3"]), Done(3));
    let coupons = ["r,3,0,9,0,0", "s,0,6,6,0,0"];
    assert_eq!(prove_goal(1, &words, &coupons, &["cp,0", share, "hr", "ax,1", "ax,3"]), Refused(40, 4));
    assert_eq!(prove_goal(1, &words, &coupons, &["cp,0", share, "ax,1"]), Refused(40, 3));
    assert_eq!(prove(&words, &["s,0,5,6,0,0"], &["hr"]), Refused(40, 1));
}

#[test]
fn hl_moves_the_label_to_its_own_window() {
    assert_eq!(prove(&["h,0,5,6,0,0"], &["r,2,0,0,0,0"], &["cp,0", "hl,1", "ax,2"]), Done(2));
    assert_eq!(prove(&["h,0,5,5,0,0"], &["r,2,0,9,0,0"], &["cp,0", "hl,1", "ax,2"]), Refused(40, 3));
    assert_eq!(prove(&["h,0,5,6,0,0"], &["s,0,5,6,0,0"], &["hl,0", "ax,1"]), Refused(40, 1));
}

#[test]
fn sr_sl_af_pass_through_an_affirmation() {
    let words = ["s,1,0", "s,2,0"];
    let right = ["sr", "sl,0", "af", "ax,1"];
    assert_eq!(prove_goal(2, &words, &["s,2,5,6,0,0"], &right), Done(2));
    assert_eq!(prove_goal(2, &words, &["s,0,5,6,0,0"], &["sr", "af", "ax,0"]), Done(2));
    // another principal
    assert_eq!(prove_goal(2, &words, &["s,3,5,6,0,0"], &right), Refused(40, 2));
    // a window that overlaps only
    assert_eq!(prove_goal(2, &words, &["s,2,6,9,0,0"], &right), Refused(40, 2));
    // no affirmation yet, or no longer
    assert_eq!(prove_goal(2, &words, &["s,2,5,6,0,0"], &["sl,0"]), Refused(40, 1));
    assert_eq!(prove_goal(2, &words, &["s,2,5,6,0,0"], &["sr", "af", "sl,0"]), Refused(40, 3));
    // not a saying
    assert_eq!(prove_goal(2, &words, &["s,0,5,6,0,0"], &["sr", "sl,0"]), Refused(40, 2));
    assert_eq!(prove(&words, &["s,0,5,6,0,0"], &["sr"]), Refused(40, 1));
    assert_eq!(prove(&words, &["s,0,5,6,0,0"], &["af", "ax,0"]), Refused(40, 1));
}

#[test]
fn sl_may_come_twice_under_one_affirmation() {
    let words = ["s,1,0", "s,1,2"];
    let steps = ["sr", "sl,0", "sl,1", "af", "ax,2"];
    assert_eq!(prove_goal(2, &words, &["s,3,5,6,0,0"], &steps), Done(2));
}

#[test]
fn right_steps_and_ax_need_a_goal_without_affirms() {
    let right = ["ax,0", "tr,0000000000000000", "or", "wr", "p1", "p2", "br", "hr", "sr", "gr"];
    // ⟨1⟩ of each formula in turn as the first premise of a standing coupon
    let parts = ["s,1,0", "t,0,0", "o", "w,0,0", "p,0,0", "b,0", "h,0,5,6,0,0", "g,0,9,0,0,5,6,0,0"];
    for part in parts {
        for step in right {
            let words = [part, "s,1,2", "l,3,0"];
            let steps = ["cp,0", &ll(1), "sr", step];
            assert_eq!(prove(&words, &["r,4,0,9,0,0"], &steps), Refused(40, 4), "{part} {step}");
        }
    }
    assert_eq!(prove_goal(2, &["s,1,0"], &["s,0,5,6,0,0"], &["sr", "ax,0"]), Refused(40, 2));
}

#[test]
fn left_steps_and_cp_work_under_affirms() {
    let words = ["s,1,0", "o", "w,0,0", "p,0,0", "b,0", "h,0,5,6,0,0", "l,3,0", "u,3,0", "t,0,3"];
    let cases: [(u32, &[&str]); 8] = [
        (0, &["af", "ax,1"]),
        (4, &["w1,1", "af", "ax,2"]),
        (5, &["pl,1", "af", "ax,2", "af", "ax,3"]),
        (6, &["bl,1", "cp,2", "af", "ax,3"]),
        (7, &["hl,1", "af", "ax,2"]),
        (8, &["ll,1,0000000000000000,5,6,0,0", "or", "af", "ax,2"]),
        (9, &["ul,1,5,6,0,0", "or", "af", "ax,2"]),
        (10, &["tl,1", "ol,3", "af", "ax,2"]),
    ];
    for (formula, rest) in cases {
        let steps = [&["sr", "cp,0"], rest].concat();
        assert_eq!(prove_goal(2, &words, &[&format!("r,{formula},5,6,0,0")], &steps), Done(2), "{rest:?}");
    }
}

#[test]
fn gr_needs_a_superset_and_no_singles() {
    let with = |g| prove(&[g, "l,2,0"], &["r,3,0,9,0,0"], &["cp,0", &ll(1), "gr", "ax,2"]);
    assert_eq!(with("g,0,9,0,0,1,2,0,0"), Done(2));
    assert_eq!(with("g,1,2,0,0,1,2,0,0"), Done(2));
    assert_eq!(with("g,1,2,0,0,0,9,0,0"), Refused(40, 3));
    assert_eq!(with("g,0,5,0,0,3,9,0,0"), Refused(40, 3));
    assert_eq!(with("g,3,9,0,0,0,5,0,0"), Refused(40, 3));
    let steps = ["cp,0", "ll,2,0000000000000002,5,6,0,0", "gr", "ax,3"];
    let coupons = ["r,3,0,9,0,0", "s,0,5,6,0,0"];
    assert_eq!(prove(&["g,0,9,0,0,1,2,0,0", "l,2,0"], &coupons, &steps), Refused(40, 3));
    assert_eq!(prove(&[], &[], &["gr"]), Refused(40, 1));
}

#[test]
fn a_superset_as_hypothesis_is_of_no_use() {
    for step in ["ax,1", "tl,1", "ol,1", "w1,1", "bl,1", "hl,1", "sl,1", "pl,1"] {
        assert_eq!(prove(&["g,0,9,0,0,1,2,0,0"], &["r,2,0,9,0,0"], &["cp,0", step]), Refused(40, 2));
    }
}

#[test]
fn refusal_41_when_a_right_step_needs_label_64() {
    let mut copies = vec!["cp,0"; 63];
    assert_eq!(prove(&[], &["r,0,5,6,0,0"], &copies), Refused(42, 64));
    copies.push("cp,0");
    assert_eq!(prove(&[], &["r,0,5,6,0,0"], &copies), Refused(41, 64));
    copies[63] = "cp,1";
    assert_eq!(prove(&[], &["r,0,5,6,0,0"], &copies), Refused(40, 64));
    copies[63] = "ax,63";
    assert_eq!(prove(&[], &["r,0,5,6,0,0"], &copies), Refused(40, 64));
}

#[test]
fn refusal_41_when_only_the_second_part_of_tl_needs_label_64() {
    let mut steps = vec!["cp,0"; 61];
    steps.push("tl,1");
    assert_eq!(prove(&["t,0,0"], &["r,2,5,6,0,0"], &steps), Refused(42, 63));
    steps.insert(0, "cp,0");
    assert_eq!(prove(&["t,0,0"], &["r,2,5,6,0,0"], &steps), Refused(41, 63));
}

#[test]
fn refusal_41_for_a_second_premise_names_its_step_and_waits_for_the_first() {
    let ll = ll(1);
    let words = ["o", "l,2,0"];
    let with = |copies: usize, rest: &[&str]| {
        let steps = [&vec!["cp,0"; copies][..], &[&ll], rest].concat();
        prove(&words, &["r,3,0,9,0,0"], &steps)
    };
    // labels 1 to 62 are copies, 63 is the second premise's
    assert_eq!(with(62, &["or"]), Refused(42, 65));
    // labels 1 to 63 are copies
    assert_eq!(with(63, &["or"]), Refused(41, 64));
    assert_eq!(with(63, &["or", "ax,0"]), Refused(41, 64));
    assert_eq!(with(63, &["gr"]), Refused(40, 65));
    assert_eq!(with(63, &["cp,0"]), Refused(41, 65));
    assert_eq!(with(63, &[]), Refused(42, 65));
}

#[test]
fn refusal_41_for_the_arms_of_pl() {
    let words = ["p,0,0", "l,0,0"];
    let mut steps = vec!["cp,0"; 63];
    steps.push("pl,1");
    assert_eq!(prove(&words, &["r,2,5,6,0,0"], &steps), Refused(41, 64));
    // the left arm takes 63; the copies still there keep the first premise from closing
    steps.remove(0);
    assert_eq!(prove(&words, &["r,2,5,6,0,0"], &steps), Refused(42, 64));
}

#[test]
fn refusal_41_for_the_right_arm_of_pl_comes_as_the_second_premise_begins() {
    // holds: P ⊕ P, a 1; label 2 the arms' copy, then 60 times copy and drop a 1: labels to 62
    let mut steps = vec!["cp,0"];
    let drops: Vec<String> = (3..63).map(|label| format!("ol,{label}")).collect();
    for drop in &drops {
        steps.extend(["cp,1", drop]);
    }
    steps.extend(["pl,2", "ax,63"]);
    assert_eq!(prove(&["p,0,0", "o"], &["r,2,5,6,0,0", "r,3,5,6,0,0"], &steps), Refused(41, 122));
    *steps.last_mut().unwrap() = "ax,62";
    assert_eq!(prove(&["p,0,0", "o"], &["r,2,5,6,0,0", "r,3,5,6,0,0"], &steps), Refused(40, 123));
}

#[test]
fn all_64_labels_can_be_used() {
    // label 0 is P standing, 1 a 1 standing; 2 to 62 are dropped 1s, 63 is P
    let drops: Vec<String> = (2..63).map(|label| format!("ol,{label}")).collect();
    let mut steps = Vec::new();
    for drop in &drops {
        steps.extend(["cp,1", drop]);
    }
    steps.extend(["cp,0", "ax,63"]);
    assert_eq!(prove(&["o"], &["r,0,5,6,0,0", "r,2,5,6,0,0"], &steps), Done(3));
}

#[test]
fn refusal_42_when_steps_end_too_soon() {
    assert_eq!(prove(&[], &["r,0,5,6,0,0"], &["cp,0"]), Refused(42, 2));
    let coupons = ["s,0,5,6,0,0", "s,1,5,6,0,0"];
    let steps = ["tr,0000000000000001", "ax,0"];
    assert_eq!(prove_goal(2, &["t,0,1"], &coupons, &steps), Refused(42, 3));
}

#[test]
fn refusal_42_when_lines_follow_the_close_right_or_wrong() {
    assert_eq!(prove(&[], &["s,0,5,6,0,0"], &["ax,0", "ax,0"]), Refused(42, 2));
    assert_eq!(prove(&[], &["s,0,5,6,0,0"], &["ax,0", "ax,63", "or"]), Refused(42, 2));
    assert_eq!(prove(&[], &["s,0,5,6,0,0"], &["or", "ax,0"]), Refused(40, 1));
}

#[test]
fn holds_take_labels_in_their_order_in_the_sheet() {
    let words = ["word,a,9,7", "word,a,9,8", "word,t,0,1"];
    let mut till = till_after(&[&words[..], &["issue,s,0,5,6,0,0", "issue,s,1,5,6,0,0"]].concat());
    let steps = ["tr,0000000000000002", "ax,1", "ax,0"];
    assert_eq!(ask(&mut till, &booking("5,2,5,6,0,0", &[1, 2], &steps)), Refused(40, 2));
    assert_eq!(ask(&mut till, &booking("5,2,5,6,0,0", &[2, 1], &steps)), Done(3));
}

#[test]
fn thirty_two_holds() {
    let mut till = till_after(&["word,a,9,7", "word,o"]);
    for serial in 1..=32 {
        let issue = if serial == 32 { "issue,s,0,5,6,0,0" } else { "issue,r,1,5,6,0,0" };
        assert_eq!(ask(&mut till, issue), Done(serial));
    }
    let holds: Vec<u32> = (1..=32).collect();
    assert_eq!(ask(&mut till, &booking("5,0,5,6,0,0", &holds, &["ax,30"])), Refused(40, 1));
    assert_eq!(ask(&mut till, &booking("5,0,5,6,0,0", &holds, &["ax,31"])), Done(33));
}

#[test]
fn first_premises_nested_248_deep_stay_open_at_step_257() {
    // A is P ⊗ .. ⊗ P of size 61, grown to the left; the coupon is A ⊃ P
    let tensors: Vec<String> = (1..31).map(|n| format!("t,{},0", if n == 1 { 0 } else { n })).collect();
    let mut words: Vec<&str> = tensors.iter().map(String::as_str).collect();
    words.push("u,31,0");
    let uses: Vec<String> = (1..9).map(|label| format!("ul,{label},5,6,0,0")).collect();
    let mut steps = Vec::new();
    for step in &uses {
        steps.extend(["cp,0", step]);
        steps.extend(["tr,0000000000000000"; 30]);
    }
    assert_eq!(steps.len(), 256);
    assert_eq!(prove(&words, &["r,32,0,9,0,0"], &steps), Refused(42, 257));
    steps[255] = "gr";
    assert_eq!(prove(&words, &["r,32,0,9,0,0"], &steps), Refused(40, 256));
}
