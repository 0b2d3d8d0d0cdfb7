//! Texts that opening refuses with 51: a line breaks a rule that word or issue would enforce, or a serial is not below
//! next; and texts that break both 50 and 51.

use super::balance;
use super::capacity;
use super::form::read;
use super::holders;
use super::midday;
use super::model::{Answer, Steps, MOST_LIVE};
use super::pairs;
use super::session::{sheet_of, Call, Case, Desk, Session};
use super::text_form::{accept, headed, large, own_till, refuse, GOOD};
use super::tour;
use super::wording::window;

pub const RULES: [&str; 21] = [
    "51: 3 in h", "51: 3 in g, first window", "51: 3 in g, second window", "51: 3 in a coupon", "51: 43 in h",
    "51: 43 in g, first window", "51: 43 in g, second window", "51: 43 in a coupon", "51: 10, its own number",
    "51: 10, a later line", "51: 10, past the last line", "51: 10 in a coupon", "51: 12", "51: 13, next to it",
    "51: 13, far apart", "51: serial is next", "51: serial above next", "51: in the first line that can",
    "51: in the last line", "51: 53, q within q", "51: 53 in a coupon",
];
/// What word and issue answer to a line, and opening to a text with that line.
pub const ASKED: [&str; 13] = [
    "asked: 2", "asked: 3", "asked: 43", "asked: 10", "asked: 12", "asked: 13", "asked: 14", "asked: 20", "asked: 21",
    "asked: 22", "asked: a wording", "asked: a coupon", "asked: 53",
];
pub const BOTH: [&str; 4] =
    ["50 before 51: 51 stands first", "50 before 51: 50 stands first", "50 before 51: in one line", "51 alone, late"];

fn mark_of(name: &str) -> &'static str {
    RULES.iter().find(|r| r[4..] == *name).unwrap_or_else(|| panic!("no such rule: {name}"))
}

fn no(desk: &mut Desk, text: &str, name: &str) {
    refuse(desk, &sheet_of(&headed(text)), 51, mark_of(name));
}

/// The text is read.
fn yes(desk: &mut Desk, text: &str) {
    accept(desk, &sheet_of(&headed(text)), "");
}

/// Places of a window in a text, those of 3 and 43 in `RULES`.
const WINDOWS: [(&str, usize); 5] = [
    ("till,1,9,2,0|a,9,7|h,0,{}", 0),
    ("till,1,9,2,0|a,9,7|g,{},3,9,5,6", 1),
    ("till,1,9,2,0|a,9,7|g,3,9,5,6,{}", 2),
    ("till,1,9,1,1|a,9,7|5,s,0,{}", 3),
    ("till,1,9,1,1|a,9,7|5,r,0,{}", 3),
];

/// Windows that end before they begin, and breaks that do not fit.
fn windows(desk: &mut Desk) {
    for (text, place) in WINDOWS {
        for ends in ["1,0", "9999999,0", "9999999,9999998", "541,540"] {
            for pause in ["0,0", "0,5", "5,0", "1,1", "541,540", "9999999,9999999"] {
                refuse(desk, &sheet_of(&text.replace("{}", &format!("{ends},{pause}"))), 51, RULES[place]);
            }
        }
        for (a, b) in [(4, 40), (0, 9), (9_999_990, 9_999_999), (5, 5), (5, 6), (0, 2)] {
            for (_, w) in midday::misfits(window(a, b)) {
                refuse(desk, &sheet_of(&text.replace("{}", &w.text())), 51, RULES[place + 4]);
            }
            let pauses = [(a + 1, a + 1), (b - 1, b - 1), (a + 1, b - 1)];
            for (first, last) in pauses.into_iter().filter(|_| b - a >= 2) {
                yes(desk, &text.replace("{}", &format!("{a},{b},{first},{last}")));
            }
        }
    }
}

/// Names of wordings that are not there: itself, a later one, none.
fn names(desk: &mut Desk) {
    let lines = [
        "t,{},0", "t,0,{}", "w,{},0", "w,0,{}", "p,{},0", "p,0,{}", "l,{},0", "l,0,{}", "u,{},0", "u,0,{}", "b,{}",
        "h,{},0,9,0,0", "s,1,{}", "q,{}",
    ];
    for line in lines {
        let text = |name: u32| format!("till,?,9,4,0|a,9,7|a,9,8|{}|a,9,9", line.replace("{}", &name.to_string()));
        [0, 1].iter().for_each(|name| yes(desk, &text(*name)));
        no(desk, &text(2), "10, its own number");
        no(desk, &text(3), "10, a later line");
        [4, 5, 199, 200, 256, 257, 511, 999].iter().for_each(|name| no(desk, &text(*name), "10, past the last line"));
        let first = format!("till,?,9,1,0|{}", line.replace("{}", "0"));
        no(desk, &first, "10, its own number");
        let first = format!("till,?,9,2,0|{}|a,9,7", line.replace("{}", "1"));
        no(desk, &first, "10, a later line");
    }
    for kind in ["s", "r"] {
        let text = |name: u32| format!("till,1,9,3,1|a,9,7|a,9,8|a,9,9|5,{kind},{name},0,9,0,0");
        [0, 1, 2].iter().for_each(|name| yes(desk, &text(*name)));
        [3, 4, 199, 200, 256, 258, 999].iter().for_each(|name| no(desk, &text(*name), "10 in a coupon"));
        no(desk, &format!("till,1,9,0,1|5,{kind},0,0,9,0,0"), "10 in a coupon");
    }
}

/// Sizes about 64: 0 to 5 are 1, 3, 7, 15, 31 and 63, the sixth line 64 and the seventh one more.
fn sizes(desk: &mut Desk) {
    let lines = "a,9,7|t,0,0|t,1,1|t,2,2|t,3,3|t,4,4";
    for line in ["b,5", "h,5,0,9,0,0", "s,1,5", "q,5"] {
        yes(desk, &format!("till,?,9,7,0|{lines}|{line}"));
        for more in ["b,6", "h,6,0,9,0,0", "s,1,6", "t,6,0", "t,0,6", "w,5,0", "p,0,5", "l,5,1", "u,5,5", "t,6,6"] {
            no(desk, &format!("till,?,9,8,0|{lines}|{line}|{more}"), "12");
        }
    }
    for letter in ["t", "w", "p", "l", "u"] {
        // 32 + 31 and one: 64; 32 + 32 and one: 65.
        yes(desk, &format!("till,1,9,8,0|{lines}|s,1,4|{letter},6,4"));
        yes(desk, &format!("till,1,9,8,0|{lines}|s,1,4|{letter},4,6"));
        no(desk, &format!("till,1,9,8,0|{lines}|s,1,4|{letter},6,6"), "12");
        no(desk, &format!("till,1,9,9,1|{lines}|s,1,4|{letter},6,6|a,9,8|5,s,8,0,9,0,0"), "12");
    }
    let tower: String = (0..199).map(|n| format!("|t,{n},{n}")).collect();
    no(desk, &format!("till,1,9,200,0|a,9,7{tower}"), "12");
    let chain = |last: usize| (0..last).map(|n| format!("|s,1,{n}")).collect::<String>();
    yes(desk, &format!("till,1,9,64,0|a,9,7{}", chain(63)));
    no(desk, &format!("till,1,9,65,0|a,9,7{}", chain(64)), "12");
}

/// Two lines that are equal, of every letter.
fn equal(desk: &mut Desk) {
    let lines = ["a,9,8", "o", "t,0,1", "w,0,1", "p,0,1", "l,0,1", "u,0,1", "b,0", "h,0,1,9,3,4", "s,1,0",
        "g,1,9,3,4,0,9,0,0", "n,9,7,5", "n,9,7,0", "q,0"];
    let all = lines.join("|");
    yes(desk, &format!("till,?,9,16,0|a,9,7|a,1,7|{all}"));
    for line in lines {
        no(desk, &format!("till,?,9,4,0|a,9,7|a,1,7|{line}|{line}"), "13, next to it");
        no(desk, &format!("till,?,9,17,0|a,9,7|a,1,7|{all}|{line}"), "13, far apart");
    }
    no(desk, &format!("till,?,9,17,0|a,9,7|a,1,7|{all}|a,9,7"), "13, far apart");
    for more in ["h,0,1,9,0,0", "h,0,1,9,3,3", "g,1,9,3,4,0,9,3,4", "t,1,0", "s,2,0", "a,9,264", "a,8,9",
        "n,9,7,261", "n,9,5,7", "q,1"] {
        yes(desk, &format!("till,?,9,17,0|a,9,7|a,1,7|{all}|{more}"));
    }
    let text = large(200, 3);
    let last = text.replace("|a,2,199|", "|a,1,0|");
    assert_ne!(text, last);
    no(desk, &last, "13, far apart");
}

/// `q` within `q`, next to it and further up; and coupons with holder 0 outside `q`.
fn of_holders(desk: &mut Desk) {
    let text = |lines: &str| format!("till,?,9,{},0|n,9,7,0|q,0|a,9,7|{lines}", 3 + lines.split('|').count());
    let ways = ["t,1,2", "t,2,1", "w,1,2", "w,2,1", "p,1,2", "p,2,1", "l,1,2", "l,2,1", "u,1,2", "u,2,1", "b,1",
        "h,1,0,9,3,4", "s,1,1"];
    no(desk, &text("q,1"), "53, q within q");
    for way in ways {
        yes(desk, &text(way));
        no(desk, &text(&format!("{way}|q,3")), "53, q within q");
        no(desk, &text(&format!("{way}|s,1,3|b,4|q,5|a,9,8")), "53, q within q");
    }
    ["q,2", "t,0,0|q,3", "t,1,1", "t,0,1", "l,0,2|q,3|t,4,1"].iter().for_each(|lines| {
        yes(desk, &text(lines));
    });
    let lines = "n,9,7,0|q,0|n,9,7,5|t,0,2|t,1,0|t,2,2";
    let coupon = |kind: &str, name: u32| format!("till,?,9,6,1|{lines}|5,{kind},{name},0,9,0,0");
    for kind in ["s", "r"] {
        [0, 3, 4].iter().for_each(|name| no(desk, &coupon(kind, *name), "53 in a coupon"));
        [2, 5].iter().for_each(|name| yes(desk, &coupon(kind, *name)));
    }
    yes(desk, &coupon("r", 1));
}

/// Serials and next.
fn below_next(desk: &mut Desk) {
    let text = |next: u32, serials: &[u32]| {
        let lines: String = serials.iter().map(|s| format!("|{s},s,0,0,9,0,0")).collect();
        format!("till,1,{next},1,{}|a,1,7{lines}", serials.len())
    };
    let equal = [(1, &[1][..]), (5, &[5]), (5, &[3, 5]), (9, &[1, 4, 9]), (999_999, &[999_999]), (256, &[255, 256])];
    for (next, serials) in equal {
        no(desk, &text(next, serials), "serial is next");
        yes(desk, &text(next + 1, serials));
    }
    let above = [
        (1, &[2][..]), (5, &[6]), (5, &[3, 4, 5, 6]), (1, &[999_999]), (10, &[9, 11]), (44, &[300]), (2, &[65_537]),
        (9, &[10]), (100, &[99, 1000]),
    ];
    for (next, serials) in above {
        no(desk, &text(next, serials), "serial above next");
    }
    for (next, serials) in [(2, &[1][..]), (1_000_000, &[1]), (1_000_000, &[999_999]), (500, &[]), (1_000_000, &[])] {
        yes(desk, &text(next, serials));
    }
}

/// The first line that can break a rule, and the last one, in texts of all lengths.
fn places(desk: &mut Desk) {
    for text in ["till,1,1,1,0|b,0", "till,1,1,1,0|g,1,0,0,0,0,9,0,0", "till,1,2,1,1|o|1,s,0,0,9,0,0",
        "till,1,2,1,1|a,1,7|1,r,0,0,9,0,0"] {
        no(desk, text, "in the first line that can");
    }
    let text = large(200, 2_048);
    let swapped = |old: &str, new: &str| {
        assert!(text.contains(old), "{old} stands there");
        text.replace(old, new)
    };
    for (old, new) in [("|a,1,0|", "|b,0|"), ("|1,s,0,0,9,0,0|", "|1,s,0,9,0,0,0|")] {
        no(desk, &swapped(old, new), "in the first line that can");
    }
    for (old, new) in [("|a,2,199|", "|b,199|"), ("|a,2,199|", "|b,999|")] {
        no(desk, &swapped(old, new), "in the last line");
    }
    let last = "|4095,s,47,0,9,0,0";
    for new in ["|4095,s,47,9,0,0,0", "|4095,s,200,0,9,0,0", "|4095,s,47,0,9,5,9", "|4097,s,47,0,9,0,0",
        "|4098,s,47,0,9,0,0"] {
        no(desk, &swapped(last, new), "in the last line");
    }
    no(desk, &text.replace(last, "|4095,r,48,0,9,0,0"), "in the last line");
    yes(desk, &text.replace(last, "|4096,s,199,0,9,3,4"));
}

/// What breaks a rule in `GOOD`, and what breaks its form.
const UNRULY: [(&str, &str); 15] = [
    ("|o|", "|b,2|"), ("|t,0,1|", "|t,3,1|"), ("|w,0,0|", "|w,0,11|"), ("|b,1|", "|t,0,1|"),
    ("|h,1,10,40,20,30|", "|h,1,40,10,0,0|"), ("|h,1,10,40,20,30|", "|h,1,10,40,20,40|"), ("|1,s,0,", "|1,s,6,"),
    ("|1,s,0,", "|1,s,14,"), ("|12,r,6,", "|12,r,0,"), ("|29,s,10,5,", "|29,s,10,10000,"), ("till,2,30,", "till,2,29,"),
    ("|1,s,0,", "|1,s,12,"), ("|12,r,6,", "|12,r,12,"), ("|n,9,7,0|", "|q,0|"), ("|q,12|", "|q,13|"),
];
const BROKEN: [(&str, &str); 22] = [
    ("till,2,", "till,1,"), ("till,2,", "till,02,"), ("till,2,", "till,3,"), ("till,2,", "till,2"),
    (",14,3|", ",14,4|"), (",14,3|", ",15,3|"), (",14,3|", ",14,2|"),
    ("|a,1,7|", "|a,1,07|"), ("|a,1,7|", "|a,256,7|"), ("|a,1,7|", "|word,a,1,7|"), ("|p,0,0|", "|p,0,1000|"),
    ("|u,1,1|", "|u,1|"), ("|s,12,0|", "|s,256,0|"), ("|12,r", "|1,r"), ("|12,r", "|30,r"), ("|12,r", "|12,x"),
    (",99,0,0|", ",99,0|"), (",60,20,50", ",60,20,10000000"), (",9999,0,0", ",9999,0,00"), (",9999,0,0", ",9999,0,0|"),
    (",9999,0,0", ",9999,0,0|30,s,0,0,9,0,0"), (",9999,0,0", ",9999,0,0\r"),
];

/// Texts with one fault of 51 and one of 50, wherever they stand: 50.
fn both(desk: &mut Desk) {
    for (old, new) in UNRULY {
        let wrong = GOOD.replacen(old, new, 1);
        refuse(desk, &sheet_of(&wrong), 51, BOTH[3]);
        for (was, is) in BROKEN.iter().filter(|(was, _)| wrong.contains(was)) {
            let first = wrong.find(new) < wrong.find(was);
            let mark = if wrong.find(new) == wrong.find(was) { BOTH[2] } else { BOTH[usize::from(!first)] };
            refuse(desk, &sheet_of(&wrong.replacen(was, is, 1)), 50, mark);
        }
        let open = sheet_of(&wrong);
        refuse(desk, &open[..open.len() - 1], 50, BOTH[0]);
    }
    for (wordings, coupons) in [(201, 3), (5, 2_049), (201, 2_049)] {
        let text = large(wordings, coupons);
        for (was, is) in [("|a,1,0|", "|b,0|"), ("|a,2,1|", "|a,1,0|"), ("|1,s,0,0,9,", "|1,s,0,9,0,")] {
            refuse(desk, &sheet_of(&text.replacen(was, is, 1)), 50, BOTH[1]);
        }
    }
}

/// What opening answers where word or issue gave this answer. Where 14 or 22 was, the counts are over 200 or 2,048.
fn due(answer: Answer) -> (u32, &'static str) {
    match answer {
        Answer::Refused(2, _) => (50, ASKED[0]),
        Answer::Refused(3, _) => (51, ASKED[1]),
        Answer::Refused(43, _) => (51, ASKED[2]),
        Answer::Refused(10, _) => (51, ASKED[3]),
        Answer::Refused(12, _) => (51, ASKED[4]),
        Answer::Refused(13, _) => (51, ASKED[5]),
        Answer::Refused(14, _) => (50, ASKED[6]),
        Answer::Refused(20, _) => (51, ASKED[7]),
        Answer::Refused(21, _) => (51, ASKED[8]),
        Answer::Refused(22, _) => (50, ASKED[9]),
        Answer::Refused(53, _) => (51, ASKED[12]),
        other => panic!("no answer to word or issue: {other:?}"),
    }
}

/// The text of the till with the line of a word or issue sheet put in its place.
fn with_line(text: &str, desk: &Desk, sheet: &str) -> Option<(String, &'static str)> {
    let (_, lines) = text.split_once('\n')?;
    let (next, wordings, coupons) = (desk.model.given + 1, desk.model.lines.len(), desk.model.live.len());
    let cut: usize = desk.model.lines.iter().map(|line| line.len() + 1).sum();
    let (worded, live) = lines.split_at(cut);
    if let Some(line) = sheet.strip_prefix("word,") {
        let text = format!("till,?,{next},{},{coupons}\n{worded}{line}{live}", wordings + 1);
        return Some((headed(&text), ASKED[10]));
    }
    let line = sheet.strip_prefix("issue,")?;
    let (after, more) = (next + 1, coupons + 1);
    Some((headed(&format!("till,?,{after},{wordings},{more}\n{worded}{live}{next},{line}")), ASKED[11]))
}

/// Whether the text with a sheet's line is opened. Texts of many coupons are long: where the same sheet comes again and
/// again, or the till is large, one in so many is, and those about 512 and 2,048 coupons.
fn worth_asking(till: &Desk, answer: Answer, again: bool, index: usize) -> bool {
    match till.model.live.len() {
        0..=60 | 511..=513 | 2_046..=2_047 => true,
        61..=510 if !again => true,
        _ => matches!(answer, Answer::Refused(22, _)) || index % 24 == 0,
    }
}

/// For the words and issues of a session: opening refuses the text with that line as the sheet was refused, and reads
/// it where it was accepted.
fn asked(session: &Session) -> Session {
    let mut till = Desk::new();
    let mut desk = own_till();
    let cases: Vec<&Case> = session.cases.iter().filter(|c| c.call == Call::Sheet).collect();
    for (index, case) in cases.iter().enumerate() {
        let sheet = String::from_utf8_lossy(&case.sheet).into_owned();
        let text = String::from_utf8(super::text::written(&till.model)).expect("texts are ASCII");
        let steps = match case.expected {
            Some(Answer::Refused(number @ 40..=42, step)) => Steps::Stop(number, step),
            _ => Steps::Close,
        };
        let made = with_line(&text, &till, &sheet).filter(|_| sheet.ends_with('\n') && sheet.len() < 1_000);
        let answer = till.model.answer(&case.sheet, steps).expect("an answer");
        let again = index > 0 && cases[index - 1].sheet == case.sheet;
        let Some((text, mark)) = made.filter(|_| worth_asking(&till, answer, again, index)) else { continue };
        if matches!(answer, Answer::Refused(..)) || read(&case.sheet).is_err() {
            let (wordings, coupons) = (till.model.lines.len(), till.model.live.len());
            let full = if mark == ASKED[10] { wordings == 200 } else { coupons == MOST_LIVE };
            let (number, mark) = due(answer);
            refuse(&mut desk, text.as_bytes(), if full { 50 } else { number }, mark);
        } else {
            desk.read_text(text.as_bytes(), mark);
        }
    }
    desk.session(&format!("text: asked as in {}", session.name), session.seed)
}

/// Plays one group.
type Fill = fn(&mut Desk);

pub fn sessions(seed: u64) -> Vec<Session> {
    let parts: [(Fill, &str); 8] = [
        (windows, "windows"), (names, "wordings not there"), (sizes, "sizes"), (equal, "equal lines"),
        (of_holders, "holders"), (below_next, "next"), (places, "places"), (both, "50 before 51"),
    ];
    let played = |(fill, name): (Fill, &str)| {
        let mut desk = own_till();
        fill(&mut desk);
        desk.session(&format!("text: {name}"), 0)
    };
    let mut all: Vec<Session> = parts.into_iter().map(played).collect();
    let mut others = balance::sessions();
    others.push(balance::random(seed));
    others.extend(capacity::sessions(seed));
    others.extend(pairs::sessions(seed));
    others.extend(tour::sessions().into_iter().filter(|session| !session.name.contains("straight through")));
    others.extend(holders::sessions(seed));
    all.extend(others.iter().map(asked));
    all
}
