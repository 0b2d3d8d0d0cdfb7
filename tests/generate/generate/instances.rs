//! The step `al` (document 02, ask 7, as ∀L of document 000): a `q` used at one holder, and where the holder goes from
//! there.

use super::form::Kind;
use super::session::{Desk, Session};
use super::wording::*;

/// A coupon that a booking holds.
type Coupon = (Kind, Part);

/// Goal, coupons held, steps, the step that is wrong where one is, and the place in a list of marks. In steps `J` is
/// the goal's window and `$` the first 14 digits of a share.
type Try<'a> = (Part, Vec<Coupon>, &'a str, Option<u32>, usize);

fn r(part: Part) -> Coupon {
    (Kind::Standing, part)
}
fn s(part: Part) -> Coupon {
    (Kind::Single, part)
}
/// Three atoms of one session in a holder's name, or with 0 in that place.
fn n(holder: u32) -> Part {
    named(9, 7, holder)
}
fn m(holder: u32) -> Part {
    named(8, 7, holder)
}
fn k(holder: u32) -> Part {
    named(6, 7, holder)
}
fn q(part: Part) -> Part {
    for_all(&part)
}

/// The serial of a live coupon like this one, issued where there is none but those taken.
fn serial(desk: &mut Desk, (kind, part): &Coupon, taken: &[u32]) -> u32 {
    let w = window(0, 9);
    let like = desk.model.live.iter().find(|c| {
        c.kind == *kind && c.wording == *part && c.window == w && !taken.contains(&c.serial)
    });
    like.map(|c| c.serial).unwrap_or_else(|| desk.issue(*kind, part, w))
}

fn book(desk: &mut Desk, goal: &Part, holds: &[Coupon], steps: &str, wrong: Option<u32>, mark: &'static str) {
    let mut serials = vec![];
    for coupon in holds {
        serials.push(serial(desk, coupon, &serials));
    }
    let goal = desk.enter(goal);
    let next = desk.model.given + 1;
    let answer = wrong.map_or(format!("ok,{next}"), |step| format!("no,40,{step}"));
    let lines: String = serials.iter().map(|s| format!("hold,{s}|")).collect();
    let steps = steps.replace('J', "5,6,0,0").replace('$', "00000000000000");
    let (h, l) = (holds.len(), steps.split('|').count());
    desk.script(&format!("book,5,{goal},5,6,0,0,{h},{l}|{lines}{steps}"), &answer, mark);
}

fn play(name: &str, tries: &[Try], marks: &[&'static str]) -> Session {
    let mut desk = Desk::new();
    for (goal, holds, steps, wrong, mark) in tries {
        book(&mut desk, goal, holds, steps, *wrong, marks[*mark]);
    }
    desk.session(name, 0)
}

pub const AL: [&str; 20] = [
    "al: the goal's holder", "al: another holder", "al: a holder that a byte does not tell", "al: L in R",
    "al: L spent", "al: L an instance", "al: L never taken", "al: L no q", "ax on a q", "al: nothing bound",
    "al: goal affirms", "al: in a second premise", "al: two holders of one standing q", "al: one holder twice",
    "al: what ll gives", "al: two q of one coupon", "41 at al: label 64", "al: label 63", "al: as many as labels",
    "al: q below another connective",
];

/// One `al`.
fn once() -> Session {
    let one_q = || vec![r(q(n(0)))];
    let (five, six, far) = (n(5), n(6), n(261));
    let bare = || vec![r(q(atom(9, 7)))];
    let said = || vec![r(q(says(1, &n(0))))];
    let once = "cp,0|al,1,5|ax,2";
    play("holders: al", &[
        (five.clone(), one_q(), once, None, 0),
        (n(65_535), one_q(), "cp,0|al,1,65535|ax,2", None, 0),
        (six.clone(), one_q(), once, Some(3), 1),
        (far.clone(), one_q(), once, Some(3), 2),
        (five.clone(), one_q(), "cp,0|al,1,261|ax,2", Some(3), 2),
        (far, one_q(), "cp,0|al,1,261|ax,2", None, 2),
        (five.clone(), one_q(), "al,0,5|cp,0|ax,1", Some(1), 3),
        (five.clone(), one_q(), "cp,0|al,0,5|ax,2", Some(2), 3),
        (five.clone(), one_q(), "cp,0|al,1,5|al,1,5|ax,3", Some(3), 4),
        (five.clone(), one_q(), "cp,0|al,1,5|al,2,5|ax,3", Some(3), 5),
        (five.clone(), one_q(), "cp,0|al,2,5|ax,2", Some(2), 6),
        (five.clone(), one_q(), "cp,0|al,63,5|ax,2", Some(2), 6),
        (five.clone(), vec![s(five.clone())], "al,0,5|ax,1", Some(1), 7),
        (five.clone(), vec![s(says(1, &five))], "al,0,5|ax,1", Some(1), 7),
        (five.clone(), one_q(), "cp,0|ax,1", Some(2), 8),
        (atom(9, 7), bare(), once, None, 9),
        (atom(9, 7), bare(), "cp,0|al,1,65535|ax,2", None, 9),
        (atom(9, 7), bare(), "cp,0|ax,1", Some(2), 9),
        (five.clone(), vec![r(q(n(5)))], "cp,0|al,1,6|ax,2", None, 9),
        (six, vec![r(q(n(5)))], "cp,0|al,1,6|ax,2", Some(3), 9),
        (five.clone(), vec![r(q(one())), s(five.clone())], "cp,0|al,2,6|ol,3|ax,1", None, 9),
        (says(1, &five), said(), "sr|cp,0|al,1,5|sl,2|af|ax,3", None, 10),
        (says(1, &five), said(), "cp,0|al,1,5|sr|sl,2|af|ax,3", None, 0),
        (says(1, &five), said(), "sr|cp,0|al,1,6|sl,2|af|ax,3", Some(6), 10),
        (says(1, &five), one_q(), "sr|cp,0|al,1,5|af|ax,2", None, 10),
        (says(1, &five), one_q(), "sr|cp,0|al,1,5|ax,2", Some(4), 10),
        (says(2, &five), said(), "sr|cp,0|al,1,5|sl,2|af|ax,3", Some(4), 10),
    ], &AL)
}

/// Two of them, and a `q` that other steps bring up.
fn more() -> Session {
    let one_q = || vec![r(q(n(0)))];
    let every = q(n(0));
    let (five, six) = (n(5), n(6));
    let both = tensor(&five, &six);
    let of = |part: Part| vec![r(part)];
    let copied = "cp,0|bl,1|cp,2|cp,2|tr,$08|al,3,5|ax,5|al,4,6|ax,6";
    play("holders: al, more", &[
        (both.clone(), one_q(), "cp,0|cp,0|tr,$02|al,1,5|ax,3|al,2,6|ax,4", None, 11),
        (both.clone(), one_q(), "cp,0|cp,0|tr,$02|al,1,5|ax,3|al,2,5|ax,4", Some(7), 11),
        (both.clone(), one_q(), "cp,0|cp,0|tr,$02|al,1,6|ax,3|al,2,5|ax,4", Some(5), 11),
        (both.clone(), one_q(), "tr,$00|cp,0|al,1,5|ax,2|cp,0|al,3,6|ax,4", None, 12),
        (both.clone(), one_q(), "tr,$00|cp,0|al,1,5|ax,2|cp,0|al,3,6|ax,2", Some(7), 11),
        (both.clone(), one_q(), "tr,$00|cp,0|al,1,5|ax,2|al,1,6|ax,3", Some(5), 11),
        (tensor(&five, &five), one_q(), "tr,$00|cp,0|al,1,5|ax,2|cp,0|al,3,5|ax,4", None, 13),
        (five.clone(), of(lolli(&one(), &every)), "cp,0|ll,1,$00,J|or|al,2,5|ax,3", None, 14),
        (five.clone(), of(lolli(&one(), &every)), "cp,0|ll,1,$00,J|or|al,2,6|ax,3", Some(5), 14),
        (five.clone(), of(lolli(&one(), &every)), "cp,0|al,1,5|ll,2,$00,J|or|ax,3", Some(2), 14),
        (five.clone(), of(q(lolli(&one(), &n(0)))), "cp,0|ll,1,$00,J|or|al,2,5|ax,3", Some(2), 14),
        (both.clone(), of(tensor(&every, &every)), "cp,0|tl,1|tr,$04|al,2,5|ax,4|al,3,6|ax,5", None, 15),
        (both.clone(), of(tensor(&every, &every)), "cp,0|tl,1|tr,$04|al,2,5|ax,4|al,3,5|ax,5", Some(7), 15),
        (five.clone(), of(implies(&one(), &every)), "cp,0|ul,1,J|or|al,2,5|ax,3", None, 19),
        (five.clone(), of(with(&every, &one())), "cp,0|w1,1|al,2,5|ax,3", None, 19),
        (five.clone(), of(with(&one(), &every)), "cp,0|w2,1|al,2,6|ax,3", Some(4), 19),
        (five.clone(), of(plus(&n(5), &every)), "cp,0|pl,1|ax,2|al,3,5|ax,4", None, 19),
        (five.clone(), of(plus(&n(5), &every)), "cp,0|pl,1|ax,2|al,3,6|ax,4", Some(5), 19),
        (five.clone(), of(at(&every, window(0, 9))), "cp,0|hl,1|al,2,5|ax,3", None, 19),
        (says(1, &five), of(says(1, &every)), "sr|cp,0|sl,1|al,2,5|af|ax,3", None, 19),
        (says(1, &five), of(says(1, &every)), "sr|cp,0|al,1,5|sl,2|af|ax,3", Some(3), 19),
        (both, of(bang(&every)), copied, None, 19),
        (tensor(&six, &six), of(bang(&every)), copied, Some(7), 19),
        (five, of(bang(&every)), "cp,0|bl,1|al,2,5|ax,3", Some(3), 19),
    ], &AL)
}

/// Labels up to 63: copies take them, then `al` wants the last one or one more.
fn labels() -> Session {
    let mut desk = Desk::new();
    let offer = serial(&mut desk, &r(q(n(0))), &[]);
    let goal = desk.enter(&n(5));
    let ends = [
        (62, "|al,1,5", "no,42,64", 17), (62, "|al,1,5|al,2,5", "no,41,64", 16), (62, "|al,1,5|af", "no,40,64", 17),
        (63, "|al,1,5", "no,41,64", 16), (63, "|al,1,5|ax,2", "no,41,64", 16), (63, "|al,1,5|af", "no,41,64", 16),
        (63, "|al,0,5", "no,40,64", 16), (63, "", "no,42,64", 17), (62, "|al,1,5|al,0,5", "no,40,64", 16),
    ];
    for (copies, end, answer, mark) in ends {
        let steps = copies + end.matches('|').count();
        let lines = "|cp,0".repeat(copies);
        desk.script(&format!("book,5,{goal},5,6,0,0,1,{steps}|hold,{offer}{lines}{end}"), answer, AL[mark]);
    }
    desk.session("holders: labels", 0)
}

/// A place for each of so many holders, all from one standing `q`; each takes two labels.
fn many(holders: u32) -> Session {
    let mut desk = Desk::new();
    let offer = serial(&mut desk, &r(q(n(0))), &[]);
    let far = |i: u32| if i % 2 == 0 { i + 1 } else { LAST_HOLDER - i };
    let mut goal = n(far(holders - 1));
    let mut lines = vec![];
    for i in 0..holders {
        if i + 1 < holders {
            goal = tensor(&n(far(holders - 2 - i)), &goal);
            lines.push("tr,0000000000000000".to_string());
        }
        let label = 1 + 2 * i;
        lines.extend(["cp,0".to_string(), format!("al,{label},{}", far(i)), format!("ax,{}", (label + 1).min(63))]);
    }
    let goal = desk.enter(&goal);
    let book = |lines: &[String]| {
        format!("book,5,{goal},5,6,0,0,1,{}|hold,{offer}|{}", lines.len(), lines.join("|"))
    };
    let last = lines.len();
    if holders == 32 {
        desk.script(&book(&lines), &format!("no,41,{}", last - 1), AL[18]);
    } else {
        desk.script(&book(&lines), "ok,2", AL[18]);
        lines[last - 2] = format!("al,{},40000", 2 * holders - 1);
        desk.script(&book(&lines), &format!("no,40,{last}"), AL[18]);
    }
    desk.session("holders: many", 0)
}

pub const ALONG: [&str; 16] = [
    "along: left part of tl", "along: right part of tl", "along: w1", "along: w2", "along: first arm of pl",
    "along: second arm of pl", "along: part of hl", "along: part of sl", "along: part of bl", "along: copy by cp",
    "along: copies at two holders", "along: right of ⊸", "along: right of ⊃", "along: a part deep inside",
    "along: what has a holder keeps it", "along: part left over",
];

/// The coupon of a `q`.
fn of(part: Part) -> Vec<Coupon> {
    vec![r(q(part))]
}

/// The part of a `q` taken apart by left steps.
fn along() -> Session {
    let (five, six) = (n(5), n(6));
    let pair = || of(tensor(&n(0), &m(0)));
    let parted = "cp,0|al,1,5|tl,2|tr,$08|ax,3|ax,4";
    let arms = "cp,0|al,1,5|pl,2|ax,3|ax,4";
    let other_arms = "cp,0|al,1,6|pl,2|ax,3|ax,4";
    play("holders: along", &[
        (tensor(&five, &m(5)), pair(), parted, None, 0),
        (tensor(&six, &m(5)), pair(), parted, Some(5), 0),
        (tensor(&five, &m(6)), pair(), parted, Some(6), 1),
        (five.clone(), of(with(&n(0), &m(0))), "cp,0|al,1,5|w1,2|ax,3", None, 2),
        (six.clone(), of(with(&n(0), &m(0))), "cp,0|al,1,5|w1,2|ax,3", Some(4), 2),
        (m(5), of(with(&n(0), &m(0))), "cp,0|al,1,5|w2,2|ax,3", None, 3),
        (m(6), of(with(&n(0), &m(0))), "cp,0|al,1,5|w2,2|ax,3", Some(4), 3),
        (five.clone(), of(plus(&n(0), &n(0))), arms, None, 4),
        (six.clone(), of(plus(&n(0), &n(0))), arms, Some(4), 4),
        (five.clone(), of(plus(&n(5), &n(0))), other_arms, Some(5), 5),
        (five.clone(), of(plus(&n(5), &n(0))), arms, None, 5),
        (six.clone(), of(plus(&n(0), &n(5))), other_arms, Some(5), 14),
        (five.clone(), of(plus(&n(0), &n(5))), other_arms, Some(4), 4),
        (five.clone(), of(at(&n(0), window(0, 9))), "cp,0|al,1,5|hl,2|ax,3", None, 6),
        (six.clone(), of(at(&n(0), window(0, 9))), "cp,0|al,1,5|hl,2|ax,3", Some(4), 6),
        (says(1, &five), of(says(1, &n(0))), "cp,0|al,1,5|sr|sl,2|af|ax,3", None, 7),
        (says(1, &six), of(says(1, &n(0))), "cp,0|al,1,5|sr|sl,2|af|ax,3", Some(6), 7),
        (five.clone(), of(lolli(&one(), &n(0))), "cp,0|al,1,5|ll,2,$00,J|or|ax,3", None, 11),
        (six.clone(), of(lolli(&one(), &n(0))), "cp,0|al,1,5|ll,2,$00,J|or|ax,3", Some(5), 11),
        (five.clone(), of(implies(&one(), &n(0))), "cp,0|al,1,5|ul,2,J|or|ax,3", None, 12),
        (six.clone(), of(implies(&one(), &n(0))), "cp,0|al,1,5|ul,2,J|or|ax,3", Some(5), 12),
        (tensor(&five, &six), of(tensor(&n(0), &n(6))), parted, None, 14),
        (tensor(&five, &five), of(tensor(&n(0), &n(6))), parted, Some(6), 14),
        (five.clone(), of(tensor(&n(0), &one())), "cp,0|al,1,5|tl,2|ol,4|ax,3", None, 15),
        (five, pair(), "cp,0|al,1,5|tl,2|ax,3", Some(4), 15),
    ], &ALONG)
}

/// What joins R, its copies, and a part deep inside.
fn copied() -> Session {
    let (five, six) = (n(5), n(6));
    let bang_n = || of(bang(&n(0)));
    let alone = "cp,0|al,1,5|bl,2|cp,3|ax,4";
    let twice = "cp,0|al,1,5|bl,2|tr,$00|cp,3|ax,4|cp,3|ax,5";
    let two = "cp,0|al,1,5|bl,2|cp,0|al,4,6|bl,5|tr,$00|cp,3|ax,7|cp,6|ax,8";
    let deep = || of(says(1, &at(&with(&one(), &tensor(&m(0), &bang(&n(0)))), window(0, 9))));
    let deep_steps = "sr|cp,0|al,1,5|sl,2|hl,3|w2,4|tl,5|bl,7|af|tr,$40|ax,6|cp,8|ax,9";
    // An offer in R, used at its holder for each of two.
    let in_r = || vec![r(q(bang(&lolli(&m(0), &n(0))))), s(m(5)), s(m(5))];
    let by_offer = "cp,0|al,3,5|bl,4|tr,$02|cp,5|ll,6,$02,J|ax,1|ax,7|cp,5|ll,8,$04,J|ax,2|ax,9";
    play("holders: copies", &[
        (five.clone(), bang_n(), alone, None, 8),
        (six.clone(), bang_n(), alone, Some(5), 8),
        (tensor(&five, &five), bang_n(), twice, None, 9),
        (tensor(&five, &six), bang_n(), twice, Some(8), 9),
        (tensor(&five, &six), bang_n(), two, None, 10),
        (tensor(&six, &five), bang_n(), two, Some(9), 10),
        (tensor(&five, &five), bang_n(), two, Some(11), 10),
        (says(1, &tensor(&m(5), &five)), deep(), deep_steps, None, 13),
        (says(1, &tensor(&m(6), &five)), deep(), deep_steps, Some(11), 13),
        (says(1, &tensor(&m(5), &six)), deep(), deep_steps, Some(13), 13),
        (tensor(&five, &five), in_r(), by_offer, None, 9),
        (tensor(&five, &six), in_r(), by_offer, Some(12), 9),
        (tensor(&five, &five), vec![in_r()[0].clone(), s(m(5)), s(m(6))], by_offer, Some(11), 9),
    ], &ALONG)
}

pub const FIRSTS: [&str; 15] = [
    "first premise: atom", "first premise: left of ⊗", "first premise: right of ⊗", "first premise: left arm of &",
    "first premise: right arm of &", "first premise: ⊕, p1", "first premise: ⊕, p2", "first premise: !",
    "first premise: @", "first premise: ⟨K⟩", "first premise: within a first premise", "first premise: the goal stays",
    "first premise: q as a goal", "first premise: ax on equal instances that are no atoms", "first premise: ⊇",
];

/// What stands left of ⊸ or ⊃, with the coupons that prove it at a holder, and for `ll`, then `ul`: the share, the
/// steps of the first premise, which of these is the `ax` that tells, and the label of what is on the right; then the
/// place in `FIRSTS`.
type First = (Part, fn(u32) -> Vec<Part>, [(&'static str, &'static str, u32, u32); 2], usize);

/// With one coupon besides the offer labels 0 and 1 are holds, 2 the copy and 3 the instance; with two one more each.
fn firsts() -> Vec<First> {
    let one_n: fn(u32) -> Vec<Part> = |h| vec![n(h)];
    let two: fn(u32) -> Vec<Part> = |h| vec![n(h), k(h)];
    vec![
        (n(0), one_n, [("$02", "ax,1", 1, 4), ("", "cp,1|ax,4", 2, 5)], 0),
        (tensor(&n(0), &k(5)), |h| vec![n(h), k(5)],
            [("$06", "tr,$02|ax,1|ax,2", 2, 5), ("", "tr,$00|cp,1|ax,5|cp,2|ax,6", 3, 7)], 1),
        (tensor(&n(5), &k(0)), |h| vec![n(5), k(h)],
            [("$06", "tr,$02|ax,1|ax,2", 3, 5), ("", "tr,$00|cp,1|ax,5|cp,2|ax,6", 5, 7)], 2),
        (tensor(&n(0), &k(0)), two,
            [("$06", "tr,$02|ax,1|ax,2", 2, 5), ("", "tr,$00|cp,1|ax,5|cp,2|ax,6", 3, 7)], 1),
        (with(&n(0), &n(0)), one_n, [("$02", "wr|ax,1|ax,1", 2, 4), ("", "cp,1|wr|ax,4|ax,4", 3, 5)], 3),
        (plus(&n(0), &one()), one_n, [("$02", "p1|ax,1", 2, 4), ("", "p1|cp,1|ax,4", 3, 5)], 5),
        (plus(&one(), &n(0)), one_n, [("$02", "p2|ax,1", 2, 4), ("", "p2|cp,1|ax,4", 3, 5)], 6),
        (at(&n(0), window(0, 9)), one_n, [("$02", "hr|ax,1", 2, 4), ("", "hr|cp,1|ax,4", 3, 5)], 8),
        (says(1, &n(0)), one_n, [("$02", "sr|af|ax,1", 3, 4), ("", "sr|af|cp,1|ax,4", 4, 5)], 9),
        (says(1, &n(0)), |h| vec![says(1, &n(h))],
            [("$02", "sr|sl,1|af|ax,4", 4, 5), ("", "sr|cp,1|sl,4|af|ax,5", 5, 6)], 9),
    ]
}

/// The offer to every holder of m for what is on the left, by `ll` or `ul`, used at one holder with coupons of another.
fn offered(desk: &mut Desk, first: &First, linear: bool, of: u32, at_holder: u32) {
    let (left, coupons, ways, mark) = first;
    let (share, lines, tells, label) = ways[usize::from(!linear)];
    let offer = if linear { lolli(left, &m(0)) } else { implies(left, &m(0)) };
    let others: Vec<Part> = coupons(of);
    let (copy, used) = (others.len() + 1, others.len() + 2);
    let mut holds = vec![r(q(offer))];
    holds.extend(others.iter().map(|part| if linear { s(part.clone()) } else { r(part.clone()) }));
    let arrow = if linear { format!("ll,{used},{share},J") } else { format!("ul,{used},J") };
    let steps = format!("cp,0|al,{copy},{at_holder}|{arrow}|{lines}|ax,{label}");
    let wrong = (of != at_holder).then_some(3 + tells);
    book(desk, &m(at_holder), &holds, &steps, wrong, FIRSTS[*mark]);
    let last = 4 + lines.split('|').count() as u32;
    if wrong.is_none() {
        book(desk, &m(at_holder + 1), &holds, &steps, Some(last), FIRSTS[*mark]);
    }
}

fn first_premises() -> Session {
    let mut desk = Desk::new();
    for first in firsts() {
        for linear in [true, false] {
            offered(&mut desk, &first, linear, 5, 5);
            offered(&mut desk, &first, linear, 5, 6);
            offered(&mut desk, &first, linear, 6, 5);
            offered(&mut desk, &first, linear, 5, 261);
        }
    }
    desk.session("holders: first premises", 0)
}

/// The offer to every holder of m for something.
fn offer(a: Part) -> Coupon {
    r(q(lolli(&a, &m(0))))
}

/// `!` and & left of ⊸; and offers within the first premise of an offer, each at its own holder.
fn nested() -> Session {
    let bang_n = |h: u32| vec![offer(bang(&n(0))), r(n(h))];
    let banged = "cp,0|al,2,5|ll,3,$00,J|br|cp,1|ax,4|ax,5";
    let arms = |left: u32, right: u32| vec![offer(with(&n(left), &n(right))), s(n(5))];
    let at_arms = ["cp,0|al,2,5|ll,3,$02,J|wr|ax,1|ax,1|ax,4", "cp,0|al,2,6|ll,3,$02,J|wr|ax,1|ax,1|ax,4"];
    // Labels: 0 and 1 the offers, 2 the single, 3 and 4 the first at its holder; 5 and 6 the second, within.
    let inner = |h: u32| vec![offer(n(0)), r(q(lolli(&k(0), &n(0)))), s(k(h))];
    let [fives, mixed, sixes] = [(5, 5), (5, 6), (6, 6)].map(|(first, second)| {
        format!("cp,0|al,3,{first}|ll,4,$04,J|cp,1|al,5,{second}|ll,6,$04,J|ax,2|ax,7|ax,8")
    });
    let stays = |h: u32| vec![offer(n(0)), r(q(lolli(&k(0), &one()))), s(k(6)), s(n(h))];
    let kept = "cp,0|al,4,5|ll,5,$0c,J|cp,1|al,6,6|ll,7,$04,J|ax,2|ol,8|ax,3|ax,9";
    play("holders: nested", &[
        (m(5), bang_n(5), banged, None, 7),
        (m(5), bang_n(6), banged, Some(6), 7),
        (m(6), bang_n(5), banged, Some(7), 7),
        (m(5), arms(0, 5), at_arms[0], None, 3),
        (m(6), arms(0, 5), at_arms[1], Some(5), 3),
        (m(5), arms(5, 0), at_arms[0], None, 4),
        (m(6), arms(5, 0), at_arms[1], Some(6), 4),
        (m(5), inner(5), &fives, None, 10),
        (m(5), inner(5), &mixed, Some(7), 10),
        (m(5), inner(6), &mixed, Some(8), 10),
        (m(6), inner(6), &mixed, Some(8), 10),
        (m(6), inner(6), &sixes, None, 10),
        (m(5), stays(5), kept, None, 11),
        (m(5), stays(6), kept, Some(9), 11),
        (m(6), stays(5), kept, Some(10), 11),
    ], &FIRSTS)
}

/// Goals that no step proves: a `q`, and instances that are no atoms, with their like in D; and ⊇, which needs nothing.
fn unproved() -> Session {
    let wanted = || vec![r(lolli(&q(n(0)), &m(5))), r(q(n(0)))];
    let like = |a: Part| vec![offer(a.clone()), r(q(a))];
    let no_atom = "cp,0|al,2,5|cp,1|al,4,5|ll,3,$20,J|ax,5|ax,6";
    let covered = |a: u32, b: u32| vec![offer(covers(window(0, 9), window(a, b)))];
    let by_gr = "cp,0|al,1,5|ll,2,$00,J|gr|ax,3";
    let mut tries = vec![
        (m(5), like(tensor(&n(0), &k(0))), no_atom, Some(6), 13),
        (m(5), like(says(1, &n(0))), no_atom, Some(6), 13),
        (m(5), like(bang(&n(0))), no_atom, Some(6), 13),
        (m(5), covered(3, 4), by_gr, None, 14),
        (m(5), covered(3, 10), by_gr, Some(4), 14),
        (m(6), covered(3, 4), by_gr, Some(5), 14),
        (m(5), wanted(), "cp,0|cp,1|ll,2,$08,J|ax,3|ax,4", Some(4), 12),
        (m(5), wanted(), "cp,0|cp,1|ll,2,$08,J|al,3,5|ax,4|ax,5", Some(5), 12),
        (m(5), wanted(), "cp,0|ll,2,$00,J|cp,1|cp,1|al,3,5|al,4,6|wr", Some(7), 12),
    ];
    let rights = ["tr,$00", "or", "wr", "p1", "p2", "br", "hr", "sr", "af", "gr"];
    let alone = rights.map(|line| format!("cp,0|ll,2,$00,J|{line}"));
    tries.extend(alone.iter().map(|steps| (m(5), wanted(), steps.as_str(), Some(3), 12)));
    play("holders: goals that no step proves", &tries, &FIRSTS)
}

pub const EQUAL: [&str; 11] = [
    "equal: single and goal", "equal: instance and goal", "equal: instance and line of the holder",
    "equal: instances of one line", "equal: instances of two lines", "a against n", "n against a", "another predicate",
    "another session", "another holder", "equal: what no line says",
];

/// Why two atoms are not equal, or how they are.
fn compared(have: &Part, want: &Part, by_al: bool) -> &'static str {
    match (&**have, &**want) {
        _ if have == want => EQUAL[usize::from(by_al)],
        (Wording::Atom(..), Wording::Named(..)) => EQUAL[5],
        (Wording::Named(..), Wording::Atom(..)) => EQUAL[6],
        (x, y) if x.atomic().map(|(p, _)| p) != y.atomic().map(|(p, _)| p) => EQUAL[7],
        (x, y) if x.atomic() != y.atomic() => EQUAL[8],
        _ => EQUAL[9],
    }
}

/// Every atom of a stock for every other: a single, and an instance where it has a holder.
fn atoms() -> Session {
    let mut desk = Desk::new();
    let stock = [
        n(5), n(6), n(261), n(LAST_HOLDER), n(255), named(9, 263, 5), named(9, 5, 7), named(7, 9, 5), named(5, 7, 9),
        m(5), atom(9, 7), atom(9, 5), atom(8, 7), named(1, 7, 5), named(2, 7, 5),
    ];
    for have in &stock {
        for want in &stock {
            let wrong = (have != want).then_some(1);
            book(&mut desk, want, &[s(have.clone())], "ax,0", wrong, compared(have, want, false));
            let Wording::Named(p, session, h) = **have else { continue };
            if p > 2 {
                let steps = format!("cp,0|al,1,{h}|ax,2");
                let wrong = (have != want).then_some(3);
                book(&mut desk, want, &[r(q(named(p, session, 0)))], &steps, wrong, compared(have, want, true));
            }
        }
    }
    desk.session("holders: atoms", 0)
}

/// An instance as the goal of a first premise against another in D: by what they say, not by their lines.
fn instances() -> Session {
    let both = "cp,0|al,2,5|cp,1|al,4,5|ll,3,$20,J|ax,5|ax,6";
    let other = "cp,0|al,2,5|cp,1|al,4,6|ll,3,$20,J|ax,5|ax,6";
    let alone = "cp,0|al,2,5|ll,3,$02,J|ax,1|ax,4";
    let other_alone = "cp,0|al,2,6|ll,3,$02,J|ax,1|ax,4";
    play("holders: equal", &[
        // No line but the goal's has holder 5 here.
        (m(5), vec![offer(n(0)), r(q(n(0)))], both, None, 10),
        (m(5), vec![offer(n(0)), r(q(n(0)))], other, Some(6), 10),
        (m(5), vec![offer(n(0)), r(q(n(0)))], both, None, 3),
        (m(5), vec![offer(n(0)), r(q(n(0)))], other, Some(6), 9),
        (m(5), vec![offer(n(5)), r(q(n(0)))], both, None, 4),
        (m(5), vec![offer(n(5)), r(q(n(0)))], other, Some(6), 9),
        (m(5), vec![offer(n(0)), r(q(n(5)))], other, None, 4),
        (m(5), vec![offer(n(6)), r(q(n(0)))], both, Some(6), 9),
        (m(5), vec![offer(n(6)), r(q(n(0)))], other, None, 4),
        (m(5), vec![offer(n(0)), s(n(5))], alone, None, 2),
        (m(6), vec![offer(n(0)), s(n(5))], other_alone, Some(4), 9),
        (m(5), vec![offer(n(5)), s(n(5))], alone, None, 2),
        (m(6), vec![offer(n(5)), s(n(5))], other_alone, None, 2),
        (m(5), vec![offer(n(0)), s(atom(9, 7))], alone, Some(4), 5),
        (m(5), vec![offer(atom(9, 7)), s(n(5))], alone, Some(4), 6),
        (m(5), vec![offer(atom(9, 7)), s(atom(9, 7))], alone, None, 2),
        (m(5), vec![offer(atom(9, 7)), r(q(n(0)))], both, Some(6), 6),
        (m(5), vec![offer(n(0)), r(q(atom(9, 7)))], both, Some(6), 5),
        (m(5), vec![offer(n(0)), r(q(k(0)))], both, Some(6), 7),
        (m(5), vec![offer(n(0)), r(q(named(9, 263, 0)))], both, Some(6), 8),
    ], &EQUAL)
}

pub fn sessions() -> Vec<Session> {
    let mut all = vec![once(), more(), labels(), along(), copied(), first_premises(), nested(), unproved()];
    all.extend([atoms(), instances()]);
    all.extend([1, 2, 3, 8, 31, 32].map(many));
    all
}
