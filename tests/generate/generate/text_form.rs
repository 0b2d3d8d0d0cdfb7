//! Texts that opening refuses with 50: every field, count and line end broken in each single way.

use super::damage::{all_broken, byte_edits};
use super::ranges::beyond;
use super::rng::Rng;
use super::session::{sheet_of, Desk, Session};
use super::wording::{LAST_HOLDER, LAST_MINUTE, LAST_SESSION};

pub const FORM: [&str; 37] = [
    "50: no bytes", "50: a line end alone", "50: no first line", "50: first word",
    "50: fields of the first line", "50: next 0", "50: next over 1,000,000", "50: 201 wordings", "50: 2,049 coupons",
    "50: a wording too few", "50: a wording too many", "50: a coupon too few", "50: a coupon too many",
    "50: a wording counted as a coupon", "50: a coupon counted as a wording", "50: a count far off",
    "50: serial twice", "50: serials fall", "50: serials rise as digits alone", "50: kind", "50: fields of a coupon",
    "50: wording 1000", "50: serial 0", "50: serial 1,000,000", "50: a line of the old length",
    "50: a sheet's word before a line", "50: coupons before wordings", "50: lines in another place",
    "50: an empty line between", "50: bytes after the text", "50: a line of a later ask", "50: a letter that is none",
    "50: a long text", "50: bytes at random", "50: fields at random", "50: every truncation", "50: fields of n or q",
];
/// Ends of the ranges, in texts.
pub const ENDS: [&str; 5] = [
    "text: low end", "text: high end", "text: beyond the high end", "text: below the low end", "text: zero before",
];
/// Bytes exchanged or put in where the form holds.
pub const BYTES: [&str; 2] = ["a byte: 51", "a byte: another till"];

fn mark_of(name: &str) -> &'static str {
    FORM.iter().find(|f| f[4..] == *name).unwrap_or_else(|| panic!("no such form: {name}"))
}

/// A text with every sort of line.
pub const GOOD: &str = "till,2,30,14,3|a,1,7|a,9,65535|o|t,0,1|w,0,0|p,0,0|l,0,0|u,1,1|b,1|h,1,10,40,20,30|s,12,0\
    |g,10,40,0,0,12,38,20,30|n,9,7,0|q,12|1,s,0,0,99,0,0|12,r,6,10,60,20,50|29,s,10,5,9999,0,0";

/// A till that is none of the texts here, with a house seat, a place and an offer.
pub fn own_till() -> Desk {
    let mut desk = Desk::new();
    desk.words(&["a,1,7", "a,2,7", "s,1,0", "s,1,1", "l,2,3"]);
    desk.script("issue,r,4,0,99,0,0", "ok,1", "");
    desk.script("issue,s,2,0,99,40,60", "ok,2", "");
    desk.script("issue,s,3,0,99,0,0", "ok,3", "");
    desk.script("withdraw,1", "ok,1", "");
    desk.script("issue,r,4,5,50,0,0", "ok,4", "");
    desk
}

/// The text is refused; now and then it is shown that the till is as before.
pub fn refuse(desk: &mut Desk, text: &[u8], number: u32, mark: &'static str) {
    desk.refuse_text(text, number, mark);
    match desk.cases.len() % 24 {
        0 => drop(desk.close(&[])),
        8 | 16 => desk.tally(7, 39),
        _ => {}
    }
}

/// The text is read and closing writes it; then the till of before is opened again.
pub fn accept(desk: &mut Desk, text: &[u8], mark: &'static str) {
    let before = super::text::written(&desk.model);
    desk.read_text(text, mark);
    desk.close(&[]);
    desk.read_text(&before, "");
}

/// The first line in other ways.
fn first_line(desk: &mut Desk) {
    let mut no = |text: &str, name: &str| refuse(desk, &sheet_of(text), 50, mark_of(name));
    let (first, rest) = GOOD.split_once('|').expect("lines");
    no(rest, "no first line");
    for word in ["", "Till", "TILL", "tills", "til", "word", "1", " till", "till ", "tally", "book"] {
        no(&format!("{word},2,30,14,3|{rest}"), "first word");
        no(&format!("{word},1,1,0,0"), "first word");
    }
    for line in [
        "till", "till,2", "till,2,30", "till,2,30,14", "till,2,30,14,3,0", "till,2,30,14,3,", "till,2,30,14,3,1",
        "till,30,14,3", "2,30,14,3", "till,2,14,3", "till2,30,14,3", "till;2;30;14;3", "till,2,,14,3", "till,2,30,,3",
        "till,2,30,14,", ",till,2,30,14,3",
    ] {
        no(&format!("{line}|{rest}"), "fields of the first line");
        no(line, "fields of the first line");
        no(&line.replace('2', "1").replace("30,14,3", "1,0,0"), "fields of the first line");
    }
    for next in ["0", "00", "-1"] {
        no(&format!("till,2,{next},14,3|{rest}"), "next 0");
        no(&format!("till,1,{next},0,0"), "next 0");
    }
    for next in beyond(1_000_000) {
        no(&format!("till,2,{next},14,3|{rest}"), "next over 1,000,000");
        no(&format!("till,1,{next},0,0"), "next over 1,000,000");
    }
    for text in [&format!("{first}|{first}|{rest}"), &format!("{GOOD}|{GOOD}"), "till,1,1,0,0|till,1,1,0,0"] {
        no(text, "bytes after the text");
    }
}

/// Lines left out or put in where the counts stay.
fn counts(desk: &mut Desk) {
    let mut no = |text: &str, name: &str| refuse(desk, &sheet_of(text), 50, mark_of(name));
    let rest = GOOD.split_once('|').expect("lines").1;
    let lines: Vec<&str> = rest.split('|').collect();
    let without = |place: usize| {
        let kept: Vec<&str> = (0..17).filter(|n| *n != place).map(|n| lines[n]).collect();
        format!("till,2,30,14,3|{}", kept.join("|"))
    };
    let with = |place: usize, line: &str| {
        let mut more = lines.clone();
        more.insert(place, line);
        format!("till,2,30,14,3|{}", more.join("|"))
    };
    (0..14).for_each(|n| no(&without(n), "a wording too few"));
    (14..17).for_each(|n| no(&without(n), "a coupon too few"));
    (0..=14).for_each(|n| no(&with(n, "a,3,4"), "a wording too many"));
    for (place, line) in [(14, "0,s,0,0,9,0,0"), (14, "1,s,0,0,9,0,0"), (15, "5,s,0,0,9,0,0"), (17, "28,s,0,0,9,0,0"),
        (17, "30,s,0,0,9,0,0"), (16, "13,r,6,0,9,0,0")] {
        no(&with(place, line), "a coupon too many");
    }
}

/// First lines with other counts than the lines have.
fn counted_otherwise(desk: &mut Desk) {
    let mut no = |text: &str, name: &str| refuse(desk, &sheet_of(text), 50, mark_of(name));
    let rest = GOOD.split_once('|').expect("lines").1;
    let counted = |wordings: usize, coupons: usize| format!("till,2,30,{wordings},{coupons}|{rest}");
    no(&counted(15, 3), "a wording too few");
    no(&counted(13, 3), "a wording too many");
    no(&counted(14, 4), "a coupon too few");
    no(&counted(14, 2), "a coupon too many");
    no(&counted(13, 4), "a wording counted as a coupon");
    no(&counted(0, 17), "a wording counted as a coupon");
    no(&counted(15, 2), "a coupon counted as a wording");
    no(&counted(17, 0), "a coupon counted as a wording");
    for (wordings, coupons) in [(0, 0), (3, 14), (200, 2048), (200, 3), (14, 512), (14, 2048), (14, 0), (0, 3)] {
        no(&counted(wordings, coupons), "a count far off");
    }
    no("till,2,30,14,3", "a count far off");
    for count in beyond(200).into_iter().chain(["270", "65550", "4294967310"].map(String::from)) {
        no(&format!("till,2,30,{count},3|{rest}"), "a count far off");
    }
    for count in beyond(2048).into_iter().chain(["259", "515", "2051", "65539", "4294967299"].map(String::from)) {
        no(&format!("till,2,30,14,{count}|{rest}"), "a count far off");
    }
}

/// The text with the first line that its lines want, where it begins `till,?`.
pub fn headed(text: &str) -> String {
    let mut lines = text.split(['|', '\n']);
    let coupons = lines.next().and_then(|first| first.rsplit(',').next()?.parse::<u32>().ok());
    let named = lines.any(|line| line.starts_with("n,") || line.starts_with("q,"));
    let later = named || coupons.is_some_and(|count| count > 512);
    text.replacen("till,?", if later { "till,2" } else { "till,1" }, 1)
}

/// So many wordings and live coupons: atoms, singles of the first of them.
pub fn large(wordings: usize, coupons: usize) -> String {
    let lines: String = (0..wordings).map(|n| format!("|a,{},{n}", 1 + n % 3)).collect();
    let live: String = (0..coupons).map(|n| format!("|{},s,{},0,9,0,0", 2 * n + 1, n % wordings)).collect();
    headed(&format!("till,?,{},{wordings},{coupons}{lines}{live}", 2 * coupons + 1))
}

/// Counts at their ends and past them, with as many lines.
fn ends_of_counts(desk: &mut Desk) {
    for (wordings, coupons) in [(199, 2047), (200, 2048), (1, 2048), (200, 512), (200, 0), (200, 1), (1, 0)] {
        accept(desk, &sheet_of(&large(wordings, coupons)), "text: high end");
    }
    for (wordings, coupons) in [(201, 0), (201, 5), (201, 513), (202, 3), (255, 1), (256, 0), (257, 0), (999, 1)] {
        refuse(desk, &sheet_of(&large(wordings, coupons)), 50, mark_of("201 wordings"));
    }
    for (wordings, coupons) in [(1, 2049), (200, 2049), (5, 2050), (5, 2304), (1, 5000)] {
        refuse(desk, &sheet_of(&large(wordings, coupons)), 50, mark_of("2,049 coupons"));
    }
    refuse(desk, &sheet_of(&large(201, 2049)), 50, mark_of("2,049 coupons"));
    accept(desk, b"till,1,1,0,0\n", "text: low end");
}

/// Serials that do not rise, where only that is wrong; and ones that rise by number.
fn serials(desk: &mut Desk) {
    let text = |serials: &[u32]| {
        let lines: String = serials.iter().map(|s| format!("|{s},s,0,0,9,0,0")).collect();
        sheet_of(&headed(&format!("till,?,1000000,1,{}|a,1,7{lines}", serials.len())))
    };
    for serials in [&[1, 1][..], &[5, 5], &[1, 2, 2], &[1, 1, 2], &[7, 8, 9, 9, 10], &[999_999, 999_999], &[3, 3, 3]] {
        refuse(desk, &text(serials), 50, mark_of("serial twice"));
    }
    for serials in [&[2, 1][..], &[1, 3, 2], &[3, 1, 2], &[2, 3, 1], &[999_999, 1], &[1, 2, 3, 4, 6, 5], &[256, 255],
        &[65_536, 1], &[1, 2, 1], &[300, 44], &[1, 5, 3, 7]] {
        refuse(desk, &text(serials), 50, mark_of("serials fall"));
    }
    for serials in [&[10, 9][..], &[1, 10, 2], &[100, 99], &[1, 11, 9], &[100_000, 99_999], &[10, 11, 1000, 101]] {
        refuse(desk, &text(serials), 50, mark_of("serials rise as digits alone"));
    }
    for serials in [&[9, 10][..], &[2, 10], &[99, 100, 101], &[255, 256], &[65_535, 65_536, 65_537], &[1, 999_999],
        &[9, 99, 999, 9_999, 99_999, 999_999], &[44, 300]] {
        accept(desk, &text(serials), "text: high end");
    }
    let many: Vec<u32> = (1..=2048).collect();
    for (place, serial) in [(1, 1), (256, 256), (512, 512), (1_024, 44), (2_047, 2_047), (2_047, 1), (0, 2)] {
        let mut bad = many.clone();
        bad[place] = serial;
        let name = if serial <= place as u32 { "serial twice" } else { "serials fall" };
        refuse(desk, &text(&bad), 50, mark_of(name));
    }
}

/// Coupon lines whose form is broken as a whole.
fn coupon_lines(desk: &mut Desk) {
    let mut no = |text: &str, name: &str| refuse(desk, &sheet_of(text), 50, mark_of(name));
    let coupon = |line: &str| format!("till,1,30,2,1|a,1,7|l,0,0|{line}");
    for kind in ["x", "S", "R", "sr", "ss", "", "s ", " s", "a", "0", "1", "t", "l", "d", "single"] {
        no(&coupon(&format!("5,{kind},0,0,9,0,0")), "kind");
        no(&coupon(&format!("5,{kind},1,0,9,0,0")), "kind");
    }
    for line in [
        "5,s,0", "5,s", "5", "", "5,s,0,0", "5,s,0,0,9,0", "5,s,0,0,9,0,0,0", "5,s,0,0,9,0,0,", ",5,s,0,0,9,0,0",
        "5,0,0,9,0,0", "s,0,0,9,0,0", "5,s,0,9,0,0", "s,5,0,0,9,0,0", "5,0,s,0,9,0,0", "5s,0,0,9,0,0", "5;s;0;0;9;0;0",
    ] {
        no(&coupon(line), "fields of a coupon");
    }
    for line in ["5,s,0,0,9", "5,r,1,0,9"] {
        no(&coupon(line), "a line of the old length");
    }
    for line in ["issue,s,0,0,9,0,0", "coupon,5,s,0,0,9,0,0", "hold,5", "issue,5,s,0,0,9,0,0", "5,issue,s,0,0,9,0,0"] {
        no(&coupon(line), "a sheet's word before a line");
    }
}

/// Wording lines that are none, and lines of later asks.
fn wording_lines(desk: &mut Desk) {
    let mut no = |text: &str, name: &str| refuse(desk, &sheet_of(text), 50, mark_of(name));
    let worded = |line: &str| headed(&format!("till,?,30,3,0|a,1,7|l,0,0|{line}"));
    for line in ["h,0,0,9", "g,0,9,0,9", "g,0,9,0,0,0,9", "g,0,9,0,9,0,0"] {
        no(&worded(line), "a line of the old length");
    }
    for line in ["n", "n,9", "n,9,7", "n,9,7,5,0", "n,9,7,5,", "n,9,7,", "q", "q,", "q,0,0", "q,0,", "q,9,7,0"] {
        for edition in ["1", "2"] {
            no(&format!("till,{edition},30,3,0|a,1,7|l,0,0|{line}"), "fields of n or q");
        }
    }
    for line in ["word,a,2,7", "word,o", "2,a,2,7", "wording,a,2,7"] {
        no(&worded(line), "a sheet's word before a line");
    }
    let none = ["x", "A,2,7", "O", "z,0", "c,0,0", "d,0", "e", "aa,2,7", "", "1", "k,1,0", "i,0,0", "N,9,7,5", "Q,0"];
    for line in none {
        no(&worded(line), "a letter that is none");
    }
    let first = GOOD.split_once('|').expect("lines").0;
    for text in [
        format!("{GOOD}|after,1,2"),
        "till,1,1,0,0|after,1,2".to_string(), GOOD.replace(first, &format!("{first},1")) + "|after,1,12",
    ] {
        no(&text, "a line of a later ask");
    }
}

/// Lines of ask 7 that are read.
fn named_lines(desk: &mut Desk) {
    for line in ["n,9,7,5", "n,9,7,0", "n,1,7,65535", "q,0", "q,1"] {
        accept(desk, &sheet_of(&format!("till,2,30,3,0|a,1,7|l,0,0|{line}")), "");
    }
}

/// Lines in another order, and lines and bytes that do not belong there.
fn lines(desk: &mut Desk) {
    let mut no = |text: &str, name: &str| refuse(desk, &sheet_of(text), 50, mark_of(name));
    let (first, rest) = GOOD.split_once('|').expect("lines");
    let lines: Vec<&str> = rest.split('|').collect();
    no(&format!("{first}|{}|{}", lines[14..].join("|"), lines[..14].join("|")), "coupons before wordings");
    for (a, b) in [(0, 14), (13, 14), (13, 16), (5, 15)] {
        let mut moved = lines.clone();
        moved.swap(a, b);
        no(&format!("{first}|{}", moved.join("|")), "lines in another place");
    }
    no(&format!("{rest}|{first}"), "lines in another place");
    for place in 0..17 {
        let mut more = lines.clone();
        more.insert(place, "");
        no(&format!("{first}|{}", more.join("|")), "an empty line between");
    }
    for more in [
        "x", " ", "\0", "|", "\r", "30,s,0,0,9,0,0", "1,s,0,0,99,0,0", "a,1,7", "till,1,1,0,0", ":close", "o", ",",
    ] {
        no(&format!("{GOOD}|{more}"), "bytes after the text");
        no(&format!("till,1,1,0,0|{more}"), "bytes after the text");
    }
}

/// A field at both ends of its range, each with its answer (0: read), and past them.
fn field(desk: &mut Desk, text: &str, low: (u32, u32), high: (u32, u32)) {
    let with = |value: &str| sheet_of(&text.replace("{}", value));
    for ((value, answer), mark) in [(low, ENDS[0]), (high, ENDS[1])] {
        match answer {
            0 => accept(desk, &with(&value.to_string()), mark),
            _ => refuse(desk, &with(&value.to_string()), answer, mark),
        }
        refuse(desk, &with(&format!("0{value}")), 50, ENDS[4]);
    }
    for value in beyond(high.0) {
        refuse(desk, &with(&value), 50, ENDS[2]);
    }
    if low.0 > 0 {
        refuse(desk, &with(&(low.0 - 1).to_string()), 50, ENDS[3]);
    }
}

/// The four fields of a window, which stands for `{}` in the text.
fn window_fields(desk: &mut Desk, text: &str) {
    let mut minute = |window: &str, low: u32, high: u32| {
        field(desk, &text.replace("{}", window), (0, low), (LAST_MINUTE, high));
    };
    minute("{},9999999,0,0", 0, 0);
    minute("0,{},0,0", 0, 0);
    minute("0,9999999,{},9999998", 51, 51);
    minute("0,9999999,1,{}", 51, 51);
    minute("0,9999999,{},0", 0, 51);
    minute("0,9999999,0,{}", 0, 51);
    for window in ["0,9999999,1,9999998", "9999997,9999999,9999998,9999998", "0,2,1,1", "9999999,9999999,0,0"] {
        accept(desk, &sheet_of(&text.replace("{}", window)), ENDS[1]);
    }
}

fn first_fields(desk: &mut Desk) {
    field(desk, "till,1,{},0,0", (1, 0), (1_000_000, 0));
    field(desk, "till,1,{},1,0|a,1,7", (1, 0), (1_000_000, 0));
    field(desk, "till,1,{},1,1|a,1,7|1,s,0,0,9,0,0", (1, 51), (1_000_000, 0));
    field(desk, "till,1,1,{},0", (0, 0), (200, 50));
    field(desk, "till,1,1,0,{}", (0, 0), (512, 50));
    field(desk, "till,2,1,0,{}", (0, 50), (2048, 50));
    field(desk, "till,2,{},1,0|n,9,7,5", (1, 0), (1_000_000, 0));
}

fn wording_fields(desk: &mut Desk) {
    let with = |line: &str| headed(&format!("till,?,1,2,0|a,9,7|{line}"));
    field(desk, &with("a,{},65535"), (0, 0), (255, 0));
    for predicate in [0, 1, 2, 255] {
        field(desk, &with(&format!("a,{predicate},{{}}")), (0, 0), (LAST_SESSION, 0));
    }
    for letter in ["t", "w", "p", "l", "u"] {
        field(desk, &with(&format!("{letter},{{}},0")), (0, 0), (999, 51));
        field(desk, &with(&format!("{letter},0,{{}}")), (0, 0), (999, 51));
        refuse(desk, &sheet_of(&with(&format!("{letter},0,1000"))), 50, mark_of("wording 1000"));
        refuse(desk, &sheet_of(&with(&format!("{letter},1000,0"))), 50, mark_of("wording 1000"));
    }
    field(desk, &with("n,{},65535,65535"), (0, 0), (255, 0));
    field(desk, &with("n,9,{},5"), (0, 0), (LAST_SESSION, 0));
    for predicate in [0, 1, 2, 255] {
        field(desk, &with(&format!("n,{predicate},7,{{}}")), (0, 0), (LAST_HOLDER, 0));
    }
    for line in ["b,{}", "h,{},0,9,0,0", "s,5,{}", "q,{}"] {
        field(desk, &with(line), (0, 0), (999, 51));
        refuse(desk, &sheet_of(&with(&line.replace("{}", "1000"))), 50, mark_of("wording 1000"));
    }
    field(desk, &with("s,{},0"), (0, 0), (255, 0));
    for line in ["h,0,{}", "g,{},3,4,0,0", "g,3,4,0,0,{}"] {
        window_fields(desk, &with(line));
    }
}

fn coupon_fields(desk: &mut Desk) {
    for kind in ["s", "r"] {
        let with = |fields: &str| format!("till,1,1000000,1,1|a,9,7|{}", fields.replace('K', kind));
        field(desk, &with("{},K,0,0,9,0,0"), (1, 0), (999_999, 0));
        field(desk, &with("5,K,{},0,9,0,0"), (0, 0), (999, 51));
        refuse(desk, &sheet_of(&with("0,K,0,0,9,0,0")), 50, mark_of("serial 0"));
        refuse(desk, &sheet_of(&with("1000000,K,0,0,9,0,0")), 50, mark_of("serial 1,000,000"));
        refuse(desk, &sheet_of(&with("5,K,1000,0,9,0,0")), 50, mark_of("wording 1000"));
        window_fields(desk, &with("5,K,0,{}"));
    }
}

/// A text damaged in every way that breaks the form wherever it is done.
fn damaged(text: &str) -> Session {
    let mut desk = own_till();
    let good = sheet_of(text);
    for (name, bad) in all_broken(&good) {
        refuse(&mut desk, &bad, 50, name);
    }
    for kept in 0..good.len() {
        refuse(&mut desk, &good[..kept], 50, mark_of("every truncation"));
    }
    accept(&mut desk, &good, "");
    desk.session("text: damaged", 0)
}

/// Every byte of a text exchanged for, and preceded by, each of some others, whatever the text is then.
fn single_bytes(text: &str) -> Session {
    let mut desk = own_till();
    let good = sheet_of(text);
    for (name, other) in byte_edits(&good).into_iter().filter(|(_, other)| *other != good) {
        match super::text::opened(&other) {
            Err(50) => refuse(&mut desk, &other, 50, name),
            Err(number) => refuse(&mut desk, &other, number, BYTES[0]),
            Ok(_) => accept(&mut desk, &other, BYTES[1]),
        }
    }
    accept(&mut desk, &good, "");
    desk.session("text: single bytes", 0)
}

/// Bytes that were never a text, and long ones.
fn noise(seed: u64) -> Session {
    let mut rng = Rng::new(seed);
    let mut desk = own_till();
    refuse(&mut desk, b"", 50, mark_of("no bytes"));
    refuse(&mut desk, b"\n", 50, mark_of("a line end alone"));
    refuse(&mut desk, b"\n\n", 50, mark_of("a line end alone"));
    for n in 0..200 {
        let length = if n % 20 == 0 { 40_000 } else { rng.below(300) };
        let bytes: Vec<u8> = (0..length).map(|_| rng.next() as u8).collect();
        refuse(&mut desk, &bytes, 50, mark_of("bytes at random"));
    }
    let fields = ["till", "1", "0", "2", "a", "s", "r", "t", "l", "h", "n", "q", "7", "9", "30", "513", "\n", "\n"];
    for n in 0..400 {
        let mut text = String::from(["", "till,1,2,1,1\n", "", "till,2,2,1,1\n"][n % 4]);
        for _ in 0..rng.below(40) {
            text += rng.pick(&fields);
            text += rng.pick(&[",", ",", ",", ",", "\n"]);
        }
        if super::text::opened(text.as_bytes()).is_err() {
            refuse(&mut desk, text.as_bytes(), 50, mark_of("fields at random"));
        }
    }
    for (byte, length) in [(b'x', 1_000_000), (b'\n', 1_000_000), (b'0', 300_000), (b',', 105_385), (0, 105_384)] {
        refuse(&mut desk, &vec![byte; length], 50, mark_of("a long text"));
    }
    let first = "till,1,1,0,0\n";
    for (first, fill) in [(first, b'\n'), (first, b' '), ("till,1,1,0,", b'0'), ("till,1,", b'1'), ("till,2,", b'2')] {
        let mut text = first.as_bytes().to_vec();
        text.resize(200_000, fill);
        refuse(&mut desk, &text, 50, mark_of("a long text"));
    }
    desk.session("text: no text at all", seed)
}

/// Plays one group.
type Fill = fn(&mut Desk);

pub fn sessions(seed: u64) -> Vec<Session> {
    let parts: [(Fill, &str); 12] = [
        (first_line, "first line"), (counts, "counts"), (counted_otherwise, "counted otherwise"),
        (ends_of_counts, "ends of counts"), (serials, "serials"), (coupon_lines, "coupon lines"),
        (wording_lines, "wording lines"), (named_lines, "lines n and q"), (lines, "lines"),
        (first_fields, "fields of the first line"), (wording_fields, "fields of wordings"),
        (coupon_fields, "fields of coupons"),
    ];
    let played = |(fill, name): (Fill, &str)| {
        let mut desk = own_till();
        fill(&mut desk);
        desk.session(&format!("text: {name}"), 0)
    };
    let mut all: Vec<Session> = parts.into_iter().map(played).collect();
    all.extend([GOOD, "till,1,1,0,0", "till,1,9,1,1|a,9,0|8,r,0,0,9,0,0"].map(damaged));
    all.extend([GOOD, "till,1,1,0,0", "till,2,1,1,0|n,9,7,0"].map(single_bytes));
    all.push(noise(seed));
    all
}
