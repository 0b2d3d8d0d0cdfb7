//! Tills that are closed and opened between sheets: the texts written out, what holds after opening, and sessions that
//! go on as if nothing had been.

use super::damage::at_random;
use super::form::Kind;
use super::life;
use super::model::MOST_LIVE;
use super::papers::{m1_booking, WORDS};
use super::rng::Rng;
use super::session::{sheet_of, Call, Desk, Session};
use super::text::{opened, written, LONGEST, LONGEST_FIRST};
use super::text_form::{headed, large, own_till, refuse, GOOD};
use super::wording::*;

pub const CLOSED: [&str; 11] = [
    "closed: empty", "closed: M1 before its booking", "closed: M1 after its booking", "closed: twice",
    "closed: every sort of line", "closed: gaps among serials", "closed: none live, serials given",
    "closed: after refusals", "closed: the longest text", "closed: 200 wordings and 2,048 coupons",
    "closed: as it was opened",
];
pub const OPENED: [&str; 9] = [
    "opened: own text", "opened: another till's text", "opened: the empty till", "opened: twice",
    "opened: next far above", "opened: never reached by calls", "opened: next 1,000,000", "opened: refused in mid-list",
    "opened: about 16,384 bytes",
];
pub const AFTER: [&str; 19] = [
    "after: M1's booking", "after: the next wording", "after: the next serial", "after: 10 for a wording of before",
    "after: 13 for a line of the text", "after: a line of before", "after: 14", "after: 22", "after: 23, issue",
    "after: 23, book", "after: 24 for a serial of before", "after: 24 for a serial below next",
    "after: single withdrawn", "after: standing withdrawn", "after: booked coupon withdrawn", "after: tally in a break",
    "after: 12 with a line of the text", "after: 20 and 21", "after: booked again",
];
pub const PACKED: [&str; 8] = [
    "packed: between sheets", "packed: damaged first", "packed: another till by chance", "packed: 511 live",
    "packed: 512 live", "packed: 513 live", "packed: 2,047 live", "packed: 2,048 live",
];
/// Numbers of live coupons about which the text changes, or the till is full; those of `PACKED` from its fourth on.
const EDGES: [usize; 5] = [511, 512, 513, 2_047, 2_048];

/// Closes the till; the text is as written here.
fn closes(desk: &mut Desk, text: &str, mark: &'static str) {
    let made = String::from_utf8(desk.close(&[mark])).expect("texts are ASCII");
    assert_eq!(made, text.replace('|', "\n") + "\n", "the generator disagrees with itself at {mark}");
}

fn reads(desk: &mut Desk, text: &str, mark: &'static str) {
    desk.read_text(&sheet_of(text), mark);
}

const M1_WORDS: &str = "a,1,7|a,2,7|a,9,7|s,1,0|s,2,2|s,1,1|t,3,4|l,6,5";

/// M1's texts before and after its booking; the booking is played from the opened text.
fn m1() -> Session {
    let before = format!("till,1,4,8,3|{M1_WORDS}|1,r,7,0,9999,0,0|2,s,3,0,600,0,0|3,s,4,0,600,0,0");
    let after = format!("till,1,5,8,2|{M1_WORDS}|1,r,7,0,9999,0,0|4,s,5,540,600,0,0");
    let mut desk = Desk::new();
    closes(&mut desk, "till,1,1,0,0", CLOSED[0]);
    desk.words(&WORDS);
    closes(&mut desk, &format!("till,1,1,8,0|{M1_WORDS}"), "");
    desk.script("issue,r,7,0,9999,0,0", "ok,1", "");
    desk.script("issue,s,3,0,600,0,0", "ok,2", "");
    desk.script("issue,s,4,0,600,0,0", "ok,3", "");
    closes(&mut desk, &before, CLOSED[1]);
    closes(&mut desk, &before, CLOSED[3]);
    reads(&mut desk, "till,1,1,0,0", OPENED[2]);
    desk.script("tally,7,540", "ok,0,0,0", "");
    desk.script(&m1_booking(), "no,10,0", AFTER[3]);
    reads(&mut desk, &before, OPENED[1]);
    desk.script("tally,7,540", "ok,1,0,0", "");
    desk.script("tally,7,601", "ok,0,1,0", "");
    desk.script(&m1_booking(), "ok,4", AFTER[0]);
    desk.script("tally,7,540", "ok,0,0,1", "");
    closes(&mut desk, &after, CLOSED[2]);
    desk.script(&m1_booking(), "no,24,0", AFTER[10]);
    reads(&mut desk, &after, OPENED[0]);
    desk.script("tally,7,540", "ok,0,0,1", "");
    desk.script(&m1_booking(), "no,24,0", AFTER[11]);
    desk.script("withdraw,2", "no,24,0", AFTER[11]);
    desk.script("withdraw,4", "ok,4", AFTER[14]);
    desk.script("tally,7,540", "ok,0,0,0", "");
    closes(&mut desk, &format!("till,1,5,8,1|{M1_WORDS}|1,r,7,0,9999,0,0"), CLOSED[5]);
    reads(&mut desk, &before, OPENED[3]);
    reads(&mut desk, &before, OPENED[3]);
    desk.script(&m1_booking(), "ok,4", AFTER[0]);
    desk.session("text: M1", 0)
}

/// Numbers of wordings and serials go on at the text; what was before it is gone.
fn goes_on() -> Session {
    let mut desk = own_till();
    reads(&mut desk, GOOD, OPENED[1]);
    closes(&mut desk, GOOD, CLOSED[4]);
    desk.script("word,l,0,0", "no,13,0", AFTER[4]);
    desk.script("word,g,10,40,0,0,12,38,20,30", "no,13,0", AFTER[4]);
    desk.script("word,q,12", "no,13,0", AFTER[4]);
    desk.script("word,s,1,14", "no,10,0", AFTER[3]);
    desk.script("word,a,2,7", "ok,14", AFTER[5]);
    desk.script("word,s,1,14", "ok,15", AFTER[1]);
    desk.script("issue,s,16,0,9,0,0", "no,10,0", AFTER[3]);
    desk.script("issue,s,2,0,9,0,0", "no,20,0", AFTER[17]);
    desk.script("issue,r,0,0,9,0,0", "no,21,0", AFTER[17]);
    for serial in [2, 4, 11, 13, 28, 30, 999_999] {
        let mark = if serial < 5 { AFTER[10] } else { AFTER[11] };
        desk.script(&format!("withdraw,{serial}"), "no,24,0", mark);
    }
    desk.script("issue,s,15,0,99,40,60", "ok,30", AFTER[2]);
    desk.script("tally,7,10", "ok,0,2,1", "");
    desk.script("book,10,0,10,20,0,0,1,1|hold,1|ax,0", "ok,31", AFTER[2]);
    let offer = |from: u32, to: u32| {
        let steps = format!("cp,0|ll,2,0000000000000002,{from},19,0,0|ax,1|ax,3");
        format!("book,{from},0,{from},{to},0,0,2,4|hold,12|hold,31|{steps}")
    };
    desk.script(&offer(10, 20), "no,40,4", "");
    desk.script(&offer(11, 19), "ok,32", "");
    desk.script("withdraw,29", "ok,29", AFTER[12]);
    desk.script("withdraw,12", "ok,12", AFTER[13]);
    let rest = &GOOD[GOOD.find('|').expect("lines")..GOOD.find("|1,s").expect("coupons")];
    closes(&mut desk, &format!("till,2,33,16,2{rest}|a,2,7|s,1,14|30,s,15,0,99,40,60|32,s,0,11,19,0,0"), CLOSED[5]);
    desk.reopen(OPENED[0]);
    desk.script("withdraw,30", "ok,30", AFTER[12]);
    desk.script("withdraw,32", "ok,32", AFTER[14]);
    closes(&mut desk, &format!("till,2,33,16,0{rest}|a,2,7|s,1,14"), CLOSED[6]);
    desk.reopen(OPENED[0]);
    desk.script("issue,s,0,0,9,0,0", "ok,33", AFTER[2]);
    desk.script("tally,7,5", "ok,0,1,0", "");
    desk.session("text: goes on", 0)
}

/// Tills at their limits after opening: 200 wordings, 2,048 coupons, the last serial given.
fn limits() -> Session {
    let mut desk = Desk::new();
    reads(&mut desk, &large(200, 2_048), OPENED[1]);
    closes(&mut desk, &large(200, 2_048), CLOSED[9]);
    desk.script("word,a,9,999", "no,14,0", AFTER[6]);
    desk.script("word,a,1,0", "no,13,0", AFTER[4]);
    desk.script("issue,s,0,0,9,0,0", "no,22,0", AFTER[7]);
    desk.script("issue,r,2,0,9,0,0", "no,22,0", AFTER[7]);
    desk.script("book,5,0,0,9,0,0,1,1|hold,1|ax,0", "ok,4097", AFTER[2]);
    desk.script("withdraw,4095", "ok,4095", AFTER[12]);
    desk.script("issue,r,2,0,9,3,4", "ok,4098", AFTER[2]);
    desk.script("issue,r,2,0,9,3,4", "no,22,0", AFTER[7]);
    desk.reopen(OPENED[0]);
    desk.script("tally,0,9", "ok,0,11,0", "");
    reads(&mut desk, "till,1,1000000,3,2|a,1,7|s,1,0|a,9,7|999,r,2,0,9,0,0|999999,s,1,0,9,4,5", OPENED[6]);
    desk.script("tally,7,3", "ok,1,0,0", "");
    desk.script("tally,7,5", "ok,0,1,0", AFTER[15]);
    desk.script("issue,s,0,0,9,0,0", "no,23,0", AFTER[8]);
    desk.script("issue,r,2,0,9,0,0", "no,23,0", AFTER[8]);
    desk.script("issue,r,0,0,9,0,0", "no,21,0", "");
    desk.script("book,3,2,0,9,0,0,1,2|hold,999|cp,0|ax,1", "no,23,0", AFTER[9]);
    desk.script("book,3,1,0,9,4,5,1,4|hold,999999|sr|sl,0|af|ax,1", "no,23,0", AFTER[9]);
    desk.script("withdraw,999999", "ok,999999", AFTER[12]);
    desk.script("issue,s,0,0,9,0,0", "no,23,0", AFTER[8]);
    closes(&mut desk, "till,1,1000000,3,1|a,1,7|s,1,0|a,9,7|999,r,2,0,9,0,0", CLOSED[5]);
    desk.reopen(OPENED[6]);
    desk.script("issue,s,0,0,9,0,0", "no,23,0", AFTER[8]);
    desk.script("word,o", "ok,3", AFTER[1]);
    first_and_last(&mut desk);
    let tower = "a,9,7|t,0,0|t,1,1|t,2,2|t,3,3|t,4,4|s,1,5";
    reads(&mut desk, &format!("till,1,1,7,0|{tower}"), "");
    desk.script("word,s,2,6", "no,12,0", AFTER[16]);
    desk.script("word,s,2,5", "ok,7", AFTER[1]);
    desk.session("text: limits", 0)
}

/// The last serials, and the empty till.
fn first_and_last(desk: &mut Desk) {
    reads(desk, "till,1,999999,1,0|a,1,7", OPENED[4]);
    desk.script("issue,s,0,0,9,0,0", "ok,999999", AFTER[2]);
    desk.script("issue,s,0,0,9,0,0", "no,23,0", AFTER[8]);
    closes(desk, "till,1,1000000,1,1|a,1,7|999999,s,0,0,9,0,0", "");
    reads(desk, "till,1,1000000,0,0", OPENED[6]);
    desk.script("word,a,9,7", "ok,0", AFTER[1]);
    desk.script("issue,s,0,0,9,0,0", "no,23,0", AFTER[8]);
    reads(desk, "till,1,1,0,0", OPENED[2]);
    desk.script("issue,s,0,0,9,0,0", "no,10,0", AFTER[3]);
    desk.script("word,a,9,7", "ok,0", AFTER[1]);
    desk.script("issue,s,0,0,9,0,0", "ok,1", AFTER[2]);
}

/// Texts that no list of calls from the empty till gives, and what follows them.
fn unreached() -> Session {
    let mut desk = Desk::new();
    for text in ["till,1,6,1,1|a,1,7|5,s,0,0,9,0,0", "till,1,1000000,0,0", "till,1,7,0,0", "till,1,2,1,0|a,9,7",
        "till,1,900000,2,3|a,9,7|o|5,r,0,0,9,0,0|6,r,1,0,9,0,0|7,s,0,9999999,9999999,0,0"] {
        reads(&mut desk, text, OPENED[5]);
        closes(&mut desk, text, CLOSED[10]);
        desk.script("tally,7,9", if text.contains("|5,s") { "ok,0,1,0" } else { "ok,0,0,0" }, "");
        desk.script("word,a,5,5", &format!("ok,{}", desk.model.lines.len()), AFTER[1]);
        desk.reopen(OPENED[0]);
    }
    desk.script("book,5,0,0,9,0,0,1,2|hold,5|cp,0|ax,1", "ok,900000", AFTER[2]);
    desk.script("book,5,0,0,9,0,0,1,1|hold,900000|ax,0", "ok,900001", AFTER[18]);
    let full: String = (1..=2_048).map(|n| format!("|{n},r,0,0,9,0,0")).collect();
    reads(&mut desk, &format!("till,2,5000,1,2048|a,9,7{full}"), OPENED[5]);
    desk.script("issue,r,0,0,9,0,0", "no,22,0", AFTER[7]);
    desk.script("withdraw,2048", "ok,2048", AFTER[13]);
    desk.script("issue,r,0,0,9,0,0", "ok,5000", AFTER[2]);
    desk.close(&[CLOSED[5]]);
    desk.session("text: never reached by calls", 0)
}

/// The longest text, and texts about as long as the longest sheet.
fn long() -> Session {
    let mut desk = Desk::new();
    let window = |n: u32| format!("{},9999999,9999990,999999{}", 9_000_000 + n, n % 9);
    let other = |n: u32| window(n).replace("9999990", "9999980");
    let lines: String = (0..200).map(|n| format!("|g,{},{}", window(n), other(n + 1))).collect();
    let live: String = (0..2_048).map(|n| format!("|{},r,{},{}", 500_000 + 7 * n, 100 + n % 100, window(n))).collect();
    let text = format!("till,2,1000000,200,2048{lines}{live}");
    assert_eq!(sheet_of(&text).len(), LONGEST, "the longest text");
    reads(&mut desk, &text, OPENED[6]);
    closes(&mut desk, &text, CLOSED[8]);
    desk.script("withdraw,500007", "ok,500007", AFTER[13]);
    desk.script("tally,7,9500000", "ok,0,0,0", "");
    desk.reopen(OPENED[0]);
    let fewer = |count: usize| headed(&format!("till,?,1000000,200,{count}{lines}{}", &live[..45 * count]));
    assert_eq!(sheet_of(&fewer(512)).len(), LONGEST_FIRST, "the longest text that begins till,1");
    for about in [16_383, 16_384, 16_385, 32_767, 32_768, 36_262, 36_263, 36_264, 65_535, 65_536, 65_537, 105_383] {
        let longer = (0..=2_048).map(fewer).find(|text| text.len() + 1 >= about).expect("as long as that");
        let text = sheet_of(&shortened(&longer, longer.len() + 1 - about));
        assert_eq!(text.len(), about);
        desk.read_text(&text, OPENED[8]);
        desk.close(&[CLOSED[10]]);
        refuse(&mut desk, &text[..about - 1], 50, "");
    }
    desk.session("text: long", 0)
}

/// The text with so many digits fewer in the minutes of its wordings.
fn shortened(text: &str, digits: usize) -> String {
    let mut lines: Vec<String> = text.split('|').map(String::from).collect();
    let line = &mut lines[1..=digits.div_ceil(6)];
    for (n, line) in line.iter_mut().enumerate() {
        let fewer = (digits - 6 * n).min(6);
        let from = line.split(',').nth(1).expect("a minute").to_string();
        *line = line.replacen(&from, &from[..7 - fewer], 1);
    }
    lines.join("|")
}

/// Openings that are refused between sheets leave the till as it was, and closing writes it as before.
fn refused_between() -> Session {
    let mut desk = own_till();
    let before = written(&desk.model);
    for text in ["", "till,1,1,0,0", "till,1,6,1,1|a,1,7|6,s,0,0,9,0,0", "till,1,6,1,1|a,1,7|5,r,0,0,9,0,0"] {
        let bad = if text.contains('|') { sheet_of(text) } else { text.as_bytes().to_vec() };
        refuse(&mut desk, &bad, if text.contains('|') { 51 } else { 50 }, OPENED[7]);
        desk.script("tally,7,39", "ok,1,0,1", "");
        desk.script("withdraw,1", "no,24,0", "");
        desk.script("word,a,1,7", "no,13,0", "");
        desk.script("till,1,1,0,0", "no,2,0", "");
        let after = desk.close(&[CLOSED[7]]);
        assert_eq!(before, after);
    }
    desk.script("issue,s,2,0,9,0,0", "ok,5", AFTER[2]);
    desk.session("text: refused between sheets", 0)
}

/// Many come and go, the till closed and opened now and then, and the coupons of other texts between.
fn many(seed: u64) -> Session {
    let mut rng = Rng::new(seed);
    let mut desk = Desk::new();
    let seats = [atom(1, 7), says(HOUSE, &atom(1, 7)), atom(2, 7)];
    while desk.model.live.len() < 600 {
        let w = rng.pick(&[window(0, 9), with_break(0, 9, 3, 5), window(7, 7)]);
        desk.issue(Kind::Single, &rng.pick(&seats), w);
    }
    for n in 0..1_500 {
        let serial = rng.pick(&desk.model.live).serial;
        desk.script(&format!("withdraw,{serial}"), &format!("ok,{serial}"), "");
        if desk.model.live.len() < 300 || rng.chance(1, 2) {
            desk.issue(Kind::Single, &rng.pick(&seats), window(0, 9));
        }
        if n % 50 == 0 {
            desk.tally(7, 4);
            desk.reopen(PACKED[0]);
            desk.tally(7, 4);
        }
    }
    let mut all: Vec<u32> = (1..=desk.model.given).collect();
    rng.shuffle(&mut all);
    for serial in all.into_iter().take(700) {
        let (sheet, live) = (format!("withdraw,{serial}"), desk.model.coupon(serial).is_some());
        desk.script(&sheet, &if live { format!("ok,{serial}") } else { "no,24,0".into() }, "");
    }
    desk.reopen(PACKED[0]);
    desk.tally(7, 4);
    desk.session("text: many come and go", seed)
}

/// A full till in which coupons go and others come, closed again and again and opened just once: wherever the coupons
/// lie by then, the text has them in order.
fn worn(seed: u64) -> Session {
    let mut rng = Rng::new(seed);
    let mut desk = Desk::new();
    let seats = [atom(1, 7), says(HOUSE, &atom(1, 7))];
    for goal in [2_600, 4_300] {
        while desk.model.given < goal {
            if desk.model.live.len() == MOST_LIVE || (desk.model.live.len() > 1_900 && rng.chance(1, 2)) {
                let serial = rng.pick(&desk.model.live).serial;
                desk.script(&format!("withdraw,{serial}"), &format!("ok,{serial}"), "");
            } else {
                desk.issue(Kind::Single, &rng.pick(&seats), window(0, rng.between(0, 20)));
            }
            let given = desk.model.given;
            if given % 400 == 0 || (2_045..2_052).contains(&given) || (4_094..4_099).contains(&given) {
                desk.close(&[CLOSED[5]]);
            }
        }
        desk.tally(7, 9);
        desk.reopen(OPENED[0]);
        desk.tally(7, 9);
    }
    desk.session("text: worn", seed)
}

/// A large till gives way to a small one: nothing of it is left, and the small one grows as if it had never been.
fn shrinks() -> Session {
    let mut desk = Desk::new();
    reads(&mut desk, &large(200, 2_048), OPENED[1]);
    reads(&mut desk, "till,1,3,1,1|a,9,9|2,r,0,0,9,0,0", OPENED[1]);
    for (sheet, answer) in [
        ("word,t,1,0", "no,10,0"), ("issue,s,1,0,9,0,0", "no,10,0"), ("withdraw,1", "no,24,0"),
        ("withdraw,3", "no,24,0"), ("withdraw,4095", "no,24,0"), ("tally,0,5", "ok,0,0,0"), ("tally,198,5", "ok,0,0,0"),
    ] {
        desk.script(sheet, answer, AFTER[3]);
    }
    for n in 0..199 {
        desk.script(&format!("word,a,{},{n}", 1 + n % 3), &format!("ok,{}", n + 1), AFTER[5]);
    }
    desk.script("word,a,5,5", "no,14,0", AFTER[6]);
    grows(&mut desk);
    desk.script("issue,s,1,0,9,0,0", "no,22,0", AFTER[7]);
    desk.script("tally,0,5", "ok,0,11,0", "");
    desk.reopen(OPENED[0]);
    desk.script("tally,1,3", "ok,0,0,11", AFTER[15]);
    reads(&mut desk, "till,1,1,0,0", OPENED[2]);
    closes(&mut desk, "till,1,1,0,0", CLOSED[0]);
    desk.script("tally,0,5", "ok,0,0,0", "");
    desk.session("text: a large till gives way", 0)
}

/// By issues alone to 2,048 live, the till closed on the way and not opened.
fn grows(desk: &mut Desk) {
    for n in 0..MOST_LIVE as u32 - 1 {
        desk.script(&format!("issue,s,{},0,9,3,4", n % 200), &format!("ok,{}", n + 3), AFTER[2]);
        let live = desk.model.live.len();
        if EDGES.contains(&live) {
            let edition = if live > 512 { 2 } else { 1 };
            let text = desk.close(&[]);
            let first = format!("till,{edition},{},200,{live}\n", n + 4);
            assert!(text.starts_with(first.as_bytes()), "the first line at {live} live coupons");
        }
    }
}

/// Whether the sheet can stand in a file between commands.
fn carried(sheet: &[u8]) -> bool {
    let parted = sheet.starts_with(b"\n") || sheet.windows(2).any(|w| w == b"\n\n");
    sheet.ends_with(b"\n") && !parted && !sheet.starts_with(b":")
}

/// One line or field of a text changed.
fn changed(rng: &mut Rng, text: &[u8]) -> Vec<u8> {
    let whole = String::from_utf8_lossy(text).into_owned();
    let mut lines: Vec<String> = whole.lines().map(String::from).collect();
    let (at, other) = (rng.below(lines.len()), rng.below(lines.len()));
    match rng.below(8) {
        0 => lines.swap(at, other),
        1 => drop(lines.remove(at)),
        2 => lines.insert(other, lines[at].clone()),
        3 => return at_random(rng, text),
        _ => {
            let mut fields: Vec<String> = lines[at].split(',').map(String::from).collect();
            let field = rng.below(fields.len());
            let value: u32 = fields[field].parse().unwrap_or(0);
            let far = rng.between(0, 999);
            fields[field] = rng.pick(&[value + 1, value.saturating_sub(1), far, 0]).to_string();
            lines[at] = fields.join(",");
        }
    }
    (lines.join("\n") + "\n").into_bytes()
}

/// The text changed in some way: refused, or another till, which plays some sheets before the text is opened again.
fn other_text(desk: &mut Desk, rng: &mut Rng, text: &[u8]) {
    let other = changed(rng, text);
    match opened(&other) {
        Err(number) => refuse(desk, &other, number, PACKED[1]),
        Ok(_) => {
            desk.read_text(&other, PACKED[if other == text { 0 } else { 2 }]);
            desk.tallies(rng, 2);
            if let Some(c) = (!desk.model.live.is_empty()).then(|| rng.pick(&desk.model.live)) {
                desk.script(&format!("withdraw,{}", c.serial), &format!("ok,{}", c.serial), AFTER[12]);
                desk.tallies(rng, 2);
            }
            desk.close(&[]);
            desk.read_text(text, "");
        }
    }
}

/// The sheets of a session, the till closed and opened between them, one time in so many and where it first comes to
/// one of `EDGES`.
pub fn packed(session: &Session, seed: u64, apart: u32) -> Session {
    let mut rng = Rng::new(seed);
    let (mut desk, mut seen) = (Desk::new(), [false; EDGES.len()]);
    let sheets = session.cases.iter().filter(|c| c.call == Call::Sheet && carried(&c.sheet));
    for case in sheets {
        let Some(answer) = case.expected else { break };
        let edge = EDGES.iter().position(|live| *live == desk.model.live.len()).filter(|edge| !seen[*edge]);
        if let Some(edge) = edge {
            seen[edge] = true;
            desk.reopen(PACKED[3 + edge]);
        } else if rng.chance(1, apart) {
            let text = desk.close(&[]);
            for _ in 0..rng.below(3) {
                other_text(&mut desk, &mut rng, &text);
            }
            desk.read_text(&text, PACKED[0]);
        }
        desk.expect(&case.sheet, answer, &case.marks);
    }
    desk.reopen(PACKED[0]);
    life::every_end(&mut desk);
    desk.session(&format!("text: {}, packed", session.name), session.seed)
}

pub fn sessions(seed: u64) -> Vec<Session> {
    vec![
        m1(), goes_on(), limits(), unreached(), long(), refused_between(), shrinks(), many(seed), worn(seed),
    ]
}
