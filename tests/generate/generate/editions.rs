//! Two thousand coupons (document 02, ask 8), in sessions with texts: which first line closing writes, over which lines
//! opening reads it, and tills of up to 2,048 live coupons that were opened and go on.

use super::form::Kind;
use super::model::{Coupon, Steps};
use super::session::{sheet_of, Desk, Session};
use super::text_form::{accept, large, own_till, refuse};
use super::wording::atom;

/// What closing wrote, by what it is that decides.
pub const CLOSED: [&str; 26] = [
    "till,1: empty", "till,1: wordings alone", "till,1: few coupons", "till,1: 511 live", "till,1: 512 live",
    "till,2: 513 live", "till,2: 2,047 live", "till,2: 2,048 live", "till,2: n, not used", "till,2: n with holder 0",
    "till,2: q, not used", "till,2: q over no n", "till,2: n used", "till,2: n used as a part", "till,2: q used",
    "till,2: n, another used", "till,2: n, its coupon gone", "till,2: n is line 200", "till,1: n or q refused",
    "till,2: n and 512 live", "till,2: n, from 513 to 512 live", "till,2 from 1: an issue",
    "till,2 from 1: a booking, none held", "till,1 from 2: a withdrawal", "till,1 from 2: a booking, two held",
    "till,1 from 2: 2,048 live before",
];
/// Texts read, and texts refused with 50 for their first line alone.
pub const OPENED: [&str; 23] = [
    "till,1 read: small", "till,1 read: 511 or 512", "till,2 read: n", "till,2 read: q", "till,2 read: 513",
    "till,2 read: 2,047 or 2,048", "till,1 read over till,2", "till,2 read over till,1",
    "till,2 is 50: empty", "till,2 is 50: wordings alone", "till,2 is 50: few coupons", "till,2 is 50: 511 or 512",
    "till,1 is 50: n", "till,1 is 50: q", "till,1 is 50: n, not used", "till,1 is 50: 513", "till,1 is 50: 2,048",
    "till,0 is 50", "till,3 is 50", "till,02 is 50", "another edition is 50", "till,2 without a comma is 50",
    "2,049 are 50, by either",
];
/// A rule broken behind the first line.
pub const BEHIND: [&str; 7] = [
    "till,2 is 50, no 51: small", "till,1 is 50, no 51: beside n or q", "till,1 is 50, no 51: by the n or q itself",
    "till,2 is 50, no 51: 512", "till,1 is 50, no 51: 513", "51 behind the right till,1", "51 behind the right till,2",
];
/// A till that was opened from `till,2` goes on.
pub const ON: [&str; 13] = [
    "till,2 on: a word", "till,2 on: al", "till,2 on: tally", "till,2 on: issue at 2,047 live",
    "till,2 on: issue at 2,048 live", "till,2 on: book at 2,048 live, none held",
    "till,2 on: book at 2,048 live, a single held", "till,2 on: book at 2,048 live, singles held",
    "till,2 on: book at 2,047 live, none held", "till,2 on: place made by a withdraw", "till,2 on: 32 held of 2,048",
    "till,2 on: 65,536 seats", "till,2 on: 65,536 places",
];

/// The place of a name in one of the lists above.
fn mark_of(list: &'static [&'static str], name: &str) -> &'static str {
    list.iter().find(|mark| **mark == name).unwrap_or_else(|| panic!("no such mark: {name}"))
}

/// Closes the till; its first line is as written here.
fn first_line(desk: &mut Desk, line: &str, name: &str) {
    let text = desk.close(&[mark_of(&CLOSED, name)]);
    let first = String::from_utf8_lossy(&text).lines().next().map(String::from);
    assert_eq!(first.as_deref(), Some(line), "the generator disagrees with itself at {name}");
}

fn reads(desk: &mut Desk, text: &str, name: &str) {
    desk.read_text(&sheet_of(text), mark_of(&OPENED, name));
}

/// A text of 511 coupons: coupons come and go about 512, by issues, withdrawals and bookings.
fn about_512() -> Session {
    let mut desk = Desk::new();
    reads(&mut desk, &large(3, 511), "till,1 read: 511 or 512");
    first_line(&mut desk, "till,1,1023,3,511", "till,1: 511 live");
    desk.script("issue,r,2,0,9,0,0", "ok,1023", "");
    first_line(&mut desk, "till,1,1024,3,512", "till,1: 512 live");
    desk.script("issue,s,3,0,9,0,0", "no,10,0", "");
    desk.script("issue,r,0,0,9,0,0", "no,21,0", "");
    first_line(&mut desk, "till,1,1024,3,512", "till,1: 512 live");
    desk.script("book,5,2,0,9,0,0,1,2|hold,1023|cp,0|ax,1", "ok,1024", "");
    first_line(&mut desk, "till,2,1025,3,513", "till,2 from 1: a booking, none held");
    desk.script("book,5,0,0,9,0,0,1,1|hold,1|ax,0", "ok,1025", "");
    first_line(&mut desk, "till,2,1026,3,513", "till,2: 513 live");
    desk.script("word,t,0,0", "ok,3", "");
    desk.script("book,5,3,0,9,0,0,2,3|hold,7|hold,13|tr,0000000000000001|ax,0|ax,1", "ok,1026", "");
    first_line(&mut desk, "till,1,1027,4,512", "till,1 from 2: a booking, two held");
    desk.script("book,5,0,0,9,0,0,1,1|hold,19|ax,0", "ok,1027", "");
    first_line(&mut desk, "till,1,1028,4,512", "till,1: 512 live");
    desk.reopen(mark_of(&OPENED, "till,1 read: 511 or 512"));
    desk.script("issue,s,1,0,9,3,4", "ok,1028", "");
    first_line(&mut desk, "till,2,1029,4,513", "till,2 from 1: an issue");
    desk.reopen(mark_of(&OPENED, "till,2 read: 513"));
    desk.script("withdraw,1023", "ok,1023", "");
    first_line(&mut desk, "till,1,1029,4,512", "till,1 from 2: a withdrawal");
    desk.script("withdraw,1028", "ok,1028", "");
    first_line(&mut desk, "till,1,1029,4,511", "till,1: 511 live");
    ["1029", "1030"].iter().for_each(|n| desk.script("issue,r,2,0,9,0,0", &format!("ok,{n}"), ""));
    first_line(&mut desk, "till,2,1031,4,513", "till,2: 513 live");
    desk.script("withdraw,3", "ok,3", "");
    first_line(&mut desk, "till,1,1031,4,512", "till,1 from 2: a withdrawal");
    named_about_512(&mut desk);
    desk.session("text: about 512 coupons", 0)
}

/// The same till of 512, and then an `n` in it: there is no way back.
fn named_about_512(desk: &mut Desk) {
    desk.script("word,n,1,7,5", "ok,4", "");
    first_line(desk, "till,2,1031,5,512", "till,2: n and 512 live");
    desk.reopen(mark_of(&OPENED, "till,2 read: n"));
    desk.script("issue,s,4,0,9,0,0", "ok,1031", "");
    first_line(desk, "till,2,1032,5,513", "till,2: 513 live");
    desk.script("withdraw,1031", "ok,1031", "");
    first_line(desk, "till,2,1032,5,512", "till,2: n, from 513 to 512 live");
    reads(desk, &large(200, 512), "till,1 read over till,2");
    first_line(desk, "till,1,1025,200,512", "till,1: 512 live");
    desk.script("word,n,9,7,5", "no,14,0", "");
    first_line(desk, "till,1,1025,200,512", "till,1: n or q refused");
    reads(desk, &large(199, 1), "till,1 read: small");
    desk.script("word,n,9,7,5", "ok,199", "");
    first_line(desk, "till,2,3,200,1", "till,2: n is line 200");
}

/// Sheets from an empty till, the text after them, and its place in `CLOSED`.
const SMALL: [(&str, &str, &str); 17] = [
    ("", "till,1,1,0,0", "till,1: empty"),
    ("word,a,9,7;word,o;word,b,1", "till,1,1,3,0|a,9,7|o|b,1", "till,1: wordings alone"),
    ("word,a,1,7;issue,s,0,0,9,0,0", "till,1,2,1,1|a,1,7|1,s,0,0,9,0,0", "till,1: few coupons"),
    ("word,n,9,7,5", "till,2,1,1,0|n,9,7,5", "till,2: n, not used"),
    ("word,n,2,65535,65535", "till,2,1,1,0|n,2,65535,65535", "till,2: n, not used"),
    ("word,n,9,7,0", "till,2,1,1,0|n,9,7,0", "till,2: n with holder 0"),
    ("word,n,9,7,0;word,q,0", "till,2,1,2,0|n,9,7,0|q,0", "till,2: q, not used"),
    ("word,a,9,7;word,q,0", "till,2,1,2,0|a,9,7|q,0", "till,2: q over no n"),
    ("word,o;word,q,0;issue,r,0,0,9,0,0", "till,2,2,2,1|o|q,0|1,r,0,0,9,0,0", "till,2: q over no n"),
    ("word,a,9,7;word,q,0;issue,r,1,0,9,0,0", "till,2,2,2,1|a,9,7|q,0|1,r,1,0,9,0,0", "till,2: q used"),
    ("word,n,2,7,5;issue,s,0,0,9,0,0", "till,2,2,1,1|n,2,7,5|1,s,0,0,9,0,0", "till,2: n used"),
    ("word,n,2,7,5;word,s,1,0;issue,s,1,0,9,0,0", "till,2,2,2,1|n,2,7,5|s,1,0|1,s,1,0,9,0,0",
        "till,2: n used as a part"),
    ("word,n,9,7,0;word,q,0;issue,r,1,0,9,0,0", "till,2,2,2,1|n,9,7,0|q,0|1,r,1,0,9,0,0", "till,2: q used"),
    ("word,a,1,7;word,n,1,7,5;issue,s,0,0,9,0,0", "till,2,2,2,1|a,1,7|n,1,7,5|1,s,0,0,9,0,0",
        "till,2: n, another used"),
    ("word,n,1,7,5;issue,s,0,0,9,0,0;withdraw,1", "till,2,2,1,0|n,1,7,5", "till,2: n, its coupon gone"),
    ("word,o;word,n,9,7,65536;word,n,9,7;word,q;word,q,1", "till,1,1,1,0|o", "till,1: n or q refused"),
    ("word,a,9,7;issue,s,0,0,9,0,0;withdraw,1;word,q,7", "till,1,2,1,0|a,9,7", "till,1: n or q refused"),
];

/// Small tills made by calls: closed, opened, and closed again.
fn small() -> Session {
    let mut desk = Desk::new();
    for (sheets, text, name) in SMALL {
        for sheet in sheets.split(';').filter(|sheet| !sheet.is_empty()) {
            desk.play(&sheet_of(sheet), Steps::Close);
        }
        let made = desk.close(&[mark_of(&CLOSED, name)]);
        assert_eq!(made, sheet_of(text), "the generator disagrees with itself at {name}");
        let other = if text.starts_with("till,1") { text.replacen('1', "2", 1) } else { text.replacen('2', "1", 1) };
        desk.refuse_text(&sheet_of(&other), 50, "");
        desk.reopen("");
        first_line(&mut desk, text.split('|').next().expect("a line"), name);
        desk.read_text(b"till,1,1,0,0\n", "");
    }
    desk.session("text: small tills", 0)
}

/// Lines after `till,1,` or `till,2,`, which of the two it must be, and what is read and refused so.
const LINES: [(&str, u32, &str, &str); 12] = [
    ("1,0,0", 1, "till,1 read: small", "till,2 is 50: empty"),
    ("1000000,0,0", 1, "till,1 read: small", "till,2 is 50: empty"),
    ("9,2,0|a,9,7|o", 1, "till,1 read: small", "till,2 is 50: wordings alone"),
    ("9,1,1|a,9,7|8,r,0,0,9,0,0", 1, "till,1 read: small", "till,2 is 50: few coupons"),
    ("9,2,2|a,1,7|s,1,0|2,s,0,0,9,0,0|8,s,1,0,9,3,4", 1, "till,1 read: small", "till,2 is 50: few coupons"),
    ("9,1,0|n,9,7,5", 2, "till,2 read: n", "till,1 is 50: n, not used"),
    ("1,1,0|n,9,7,0", 2, "till,2 read: n", "till,1 is 50: n, not used"),
    ("9,1,1|n,2,7,5|8,s,0,0,9,0,0", 2, "till,2 read: n", "till,1 is 50: n"),
    ("9,4,1|a,9,7|o|a,9,8|n,9,9,65535|8,s,0,0,9,0,0", 2, "till,2 read: n", "till,1 is 50: n, not used"),
    ("9,2,0|a,9,7|q,0", 2, "till,2 read: q", "till,1 is 50: q"),
    ("9,3,2|n,9,7,0|q,0|n,2,7,5|3,r,1,0,9,0,0|8,s,2,0,9,3,4", 2, "till,2 read: q", "till,1 is 50: q"),
    ("9,3,1|a,9,7|b,0|q,1|8,r,2,0,9,0,0", 2, "till,2 read: q", "till,1 is 50: q"),
];
/// What stands there instead, and what that is called; the first two belong before other lines.
const OTHERS: [(&str, &str); 31] = [
    ("1", ""), ("2", ""), ("0", "till,0 is 50"), ("3", "till,3 is 50"), ("02", "till,02 is 50"),
    ("002", "till,02 is 50"), ("01", ""), ("00", ""), ("03", ""), ("4", ""), ("9", ""), ("10", ""), ("11", ""),
    ("12", ""), ("20", ""), ("21", ""), ("22", ""), ("2.0", ""), ("+2", ""), ("-2", ""), ("", ""), (" 2", ""),
    ("2 ", ""), ("b", ""), ("2,", ""), (",2", ""),
    ("258", ""), ("65538", ""), ("4294967298", ""), ("18446744073709551618", ""), ("1,2", ""),
];

/// Every first line that closing would not write over such lines.
fn first_lines(desk: &mut Desk) {
    for (lines, right, read, refused) in LINES {
        accept(desk, &sheet_of(&format!("till,{right},{lines}")), mark_of(&OPENED, read));
        for (other, name) in OTHERS.iter().filter(|(other, _)| *other != right.to_string()) {
            let name = match (*other, *name) {
                ("1" | "2", _) => refused,
                (_, "") => "another edition is 50",
                (_, name) => name,
            };
            refuse(desk, &sheet_of(&format!("till,{other},{lines}")), 50, mark_of(&OPENED, name));
        }
        let (counts, rest) = lines.split_once('|').map_or((lines, String::new()), |(a, b)| (a, format!("|{b}")));
        for first in [
            "till,2".to_string(), "till,1".to_string(), format!("till,2|{counts}"), format!("till,2{counts}"),
            format!("till2,{counts}"), format!("till,2;{counts}"), format!("till,2 {counts}"),
            format!("till,2.{counts}"),
        ] {
            refuse(desk, &sheet_of(&format!("{first}{rest}")), 50, mark_of(&OPENED, "till,2 without a comma is 50"));
        }
    }
    for text in ["till,2", "till,2,", "till,2\n", "till,2,\n", "till,1,", "till,2,1", "till,2,1,0,0",
        "till,2,9,1,0\nn,9,7,5"] {
        refuse(desk, text.as_bytes(), 50, mark_of(&OPENED, "till,2 without a comma is 50"));
    }
    reads(desk, "till,2,9,1,0|n,9,7,5", "till,2 read over till,1");
    reads(desk, "till,1,9,1,0|a,9,7", "till,1 read over till,2");
    first_line(desk, "till,1,9,1,0", "till,1: wordings alone");
}

/// The same by the number of coupons, with few texts, for they are long.
fn first_lines_by_count(desk: &mut Desk) {
    let other = |text: &str, edition: &str| sheet_of(&format!("till,{edition}{}", &text[6..]));
    for (count, read, refused) in [
        (511, "till,1 read: 511 or 512", "till,2 is 50: 511 or 512"),
        (512, "till,1 read: 511 or 512", "till,2 is 50: 511 or 512"),
        (513, "till,2 read: 513", "till,1 is 50: 513"), (2_047, "till,2 read: 2,047 or 2,048", "till,1 is 50: 2,048"),
        (2_048, "till,2 read: 2,047 or 2,048", "till,1 is 50: 2,048"),
    ] {
        let text = large(2, count);
        accept(desk, &sheet_of(&text), mark_of(&OPENED, read));
        let wrong = if count > 512 { "1" } else { "2" };
        refuse(desk, &other(&text, wrong), 50, mark_of(&OPENED, refused));
        if count == 512 || count == 513 {
            for (edition, name) in [("0", "till,0 is 50"), ("3", "till,3 is 50"), ("02", "till,02 is 50")] {
                refuse(desk, &other(&text, edition), 50, mark_of(&OPENED, name));
            }
        }
    }
    for edition in ["1", "2"] {
        refuse(desk, &other(&large(2, 2_049), edition), 50, mark_of(&OPENED, "2,049 are 50, by either"));
    }
    let named = large(2, 512).replacen(",2,512|", ",3,512|n,9,7,5|", 1);
    refuse(desk, &sheet_of(&named), 50, mark_of(&OPENED, "till,1 is 50: n"));
    accept(desk, &other(&named, "2"), mark_of(&OPENED, "till,2 read: n"));
}

/// Lines that break a rule, without `n` and `q`: after `till,1,` 51.
const UNRULY: [&str; 12] = [
    "9,1,0|b,0", "9,1,0|t,5,5", "9,2,0|a,9,7|a,9,7", "9,2,0|a,9,7|h,0,9,8,0,0", "9,2,0|a,9,7|h,0,0,9,5,0",
    "9,1,1|o|5,s,0,0,9,0,0", "9,1,1|a,1,7|5,r,0,0,9,0,0", "9,1,1|a,1,7|9,s,0,0,9,0,0", "9,1,1|a,1,7|5,s,1,0,9,0,0",
    "9,1,1|a,1,7|5,s,0,9,8,0,0", "9,1,1|a,1,7|5,s,0,0,9,9,9", "9,8,0|a,9,7|t,0,0|t,1,1|t,2,2|t,3,3|t,4,4|b,5|b,6",
];
/// The same with one in which nothing is wrong beside: after `till,2,` 51.
const UNRULY_BESIDE: [&str; 10] = [
    "9,2,0|n,9,7,5|b,1", "9,2,0|b,0|n,9,7,5", "9,3,0|n,9,7,5|a,9,7|a,9,7", "9,2,0|n,9,7,5|h,0,9,8,0,0",
    "9,2,1|n,9,7,5|o|5,s,1,0,9,0,0", "9,2,1|a,1,7|n,9,7,5|5,r,0,0,9,0,0", "9,1,1|n,9,7,5|9,s,0,0,9,0,0",
    "9,2,1|a,9,7|q,0|5,r,2,0,9,0,0", "9,2,1|a,9,7|q,0|5,r,1,9,8,0,0", "9,2,1|a,9,7|q,0|5,r,1,0,9,9,9",
];
/// Where it is the `n` or `q` line itself, or a coupon of it.
const UNRULY_NAMED: [&str; 11] = [
    "9,1,0|q,0", "9,1,0|q,999", "9,2,0|q,1|a,9,7", "9,2,0|n,9,7,5|n,9,7,5", "9,3,0|a,9,7|q,0|q,0",
    "9,3,0|n,9,7,0|q,0|q,1", "9,4,0|a,9,7|q,0|t,0,1|q,2", "9,1,1|n,9,7,0|5,s,0,0,9,0,0", "9,1,1|n,1,7,5|5,r,0,0,9,0,0",
    "9,2,1|a,9,7|q,0|5,s,1,0,9,0,0", "9,8,0|a,9,7|t,0,0|t,1,1|t,2,2|t,3,3|t,4,4|b,5|q,6",
];

/// A rule is broken: 51 behind the right first line, 50 behind the other and behind each that is none.
fn rules_behind(desk: &mut Desk) {
    let lists = [(&UNRULY[..], 1, 0, 5), (&UNRULY_BESIDE, 2, 1, 6), (&UNRULY_NAMED, 2, 2, 6)];
    let each = lists.iter().flat_map(|(list, r, o, b)| list.iter().map(move |l| (l, r, *o, *b)));
    for (lines, right, other, behind) in each {
        refuse(desk, &sheet_of(&format!("till,{right},{lines}")), 51, BEHIND[behind]);
        refuse(desk, &sheet_of(&format!("till,{},{lines}", 3 - right)), 50, BEHIND[other]);
        for none in ["0", "3", "02", "01", "12", "21"] {
            refuse(desk, &sheet_of(&format!("till,{none},{lines}")), 50, mark_of(&OPENED, "another edition is 50"));
        }
    }
    for (count, wrong, other, behind) in [(512, "2", 3, 5), (513, "1", 4, 6)] {
        let text = large(2, count);
        let last = text.rfind('|').expect("lines");
        for bad in [
            text.replacen("|a,1,0|", "|b,0|", 1), text.replacen("|a,2,1|", "|a,1,0|", 1),
            text.replacen("|1,s,0,0,9,", "|1,s,0,9,0,", 1), format!("{}|9999,s,0,0,9,0,0", &text[..last]),
        ] {
            assert_ne!(bad, text);
            refuse(desk, &sheet_of(&bad), 51, BEHIND[behind]);
            refuse(desk, &sheet_of(&format!("till,{wrong}{}", &bad[6..])), 50, BEHIND[other]);
        }
    }
}

/// A till that was opened from `till,2` for its `n` and `q`, and goes on.
fn goes_on() -> Session {
    let mut desk = own_till();
    let text = "till,2,9,4,3|n,2,7,0|n,9,7,5|n,9,7,0|q,2|1,s,1,0,9,0,0|3,r,3,0,9,0,0|8,s,1,0,9,3,4";
    reads(&mut desk, text, "till,2 read over till,1");
    desk.script("word,q,0", "ok,4", mark_of(&ON, "till,2 on: a word"));
    desk.script("word,q,4", "no,53,0", mark_of(&ON, "till,2 on: a word"));
    desk.script("word,n,9,7,5", "no,13,0", mark_of(&ON, "till,2 on: a word"));
    desk.script("book,5,1,0,9,0,0,1,3|hold,3|cp,0|al,1,5|ax,2", "ok,9", mark_of(&ON, "till,2 on: al"));
    desk.script("book,5,1,0,9,0,0,1,3|hold,3|cp,0|al,1,6|ax,2", "no,40,3", mark_of(&ON, "till,2 on: al"));
    desk.script("issue,s,0,0,9,0,0", "no,53,0", "");
    desk.script("word,n,1,7,6", "ok,5", mark_of(&ON, "till,2 on: a word"));
    desk.script("word,s,1,5", "ok,6", mark_of(&ON, "till,2 on: a word"));
    desk.script("issue,s,6,0,9,3,4", "ok,10", "");
    desk.script("tally,7,5", "ok,1,0,0", mark_of(&ON, "till,2 on: tally"));
    desk.script("tally,7,4", "ok,0,1,0", mark_of(&ON, "till,2 on: tally"));
    [1, 3, 8, 9, 10].iter().for_each(|n| desk.script(&format!("withdraw,{n}"), &format!("ok,{n}"), ""));
    first_line(&mut desk, "till,2,11,7,0", "till,2: n, its coupon gone");
    desk.reopen(mark_of(&OPENED, "till,2 read: q"));
    desk.script("issue,r,3,0,9,0,0", "ok,11", "");
    desk.session("text: goes on from till,2", 0)
}

const WORDS: &str = "a,9,7|t,0,0|t,1,1|t,2,2|t,3,3|t,4,4";

/// 2,047 coupons, serial 1 standing: what 22 says after opening.
fn full() -> Desk {
    let mut desk = Desk::new();
    let singles: String = (2..=2_047).map(|n| format!("|{n},s,0,0,9,0,0")).collect();
    reads(&mut desk, &format!("till,2,2048,6,2047|{WORDS}|1,r,0,0,9,0,0{singles}"), "till,2 read: 2,047 or 2,048");
    first_line(&mut desk, "till,2,2048,6,2047", "till,2: 2,047 live");
    let mut on = |sheet: &str, answer: &str, name: &str| desk.script(sheet, answer, mark_of(&ON, name));
    on("issue,s,0,0,9,0,0", "ok,2048", "till,2 on: issue at 2,047 live");
    on("issue,s,0,0,9,0,0", "no,22,0", "till,2 on: issue at 2,048 live");
    on("issue,r,0,0,9,0,0", "no,22,0", "till,2 on: issue at 2,048 live");
    on("book,5,0,0,9,0,0,1,2|hold,1|cp,0|ax,1", "no,22,0", "till,2 on: book at 2,048 live, none held");
    on("book,5,0,0,9,0,0,1,1|hold,2048|ax,0", "ok,2049", "till,2 on: book at 2,048 live, a single held");
    let two = "book,5,1,0,9,0,0,2,3|hold,2049|hold,513|tr,0000000000000001|ax,0|ax,1";
    on(two, "ok,2050", "till,2 on: book at 2,048 live, singles held");
    on("book,5,0,0,9,0,0,1,2|hold,1|cp,0|ax,1", "ok,2051", "till,2 on: book at 2,047 live, none held");
    on("book,5,0,0,9,0,0,1,2|hold,1|cp,0|ax,1", "no,22,0", "till,2 on: book at 2,048 live, none held");
    on("withdraw,1024", "ok,1024", "till,2 on: place made by a withdraw");
    on("issue,s,0,0,9,3,4", "ok,2052", "till,2 on: place made by a withdraw");
    on("issue,s,0,0,9,3,4", "no,22,0", "till,2 on: issue at 2,048 live");
    first_line(&mut desk, "till,2,2053,6,2048", "till,2: 2,048 live");
    desk.reopen(mark_of(&OPENED, "till,2 read: 2,047 or 2,048"));
    desk.script("issue,r,0,0,9,0,0", "no,22,0", mark_of(&ON, "till,2 on: issue at 2,048 live"));
    desk
}

/// The steps that join the labels from `from` up to `to` by ⊗, half and half.
fn joined(from: u32, to: u32) -> String {
    if to - from == 1 {
        return format!("|ax,{from}");
    }
    let half = (from + to) / 2;
    let share: u64 = (from..half).map(|label| 1 << label).sum();
    format!("|tr,{share:016x}{}{}", joined(from, half), joined(half, to))
}

/// A booking that holds the first 32 singles of an atom: 31 coupons fewer.
fn book_32(desk: &mut Desk) {
    let atoms = |c: &&Coupon| c.kind == Kind::Single && c.wording == atom(9, 7) && !c.window.has_break();
    let held: String = desk.model.live.iter().filter(atoms).take(32).map(|c| format!("|hold,{}", c.serial)).collect();
    let next = format!("ok,{}", desk.model.given + 1);
    let sheet = format!("book,5,5,0,9,0,0,32,63{held}{}", joined(0, 32));
    desk.script(&sheet, &next, mark_of(&ON, "till,2 on: 32 held of 2,048"));
}

/// That full till comes down to 512, by bookings that hold 32 singles each and a few withdrawals.
fn comes_down() -> Session {
    let mut desk = full();
    (0..49).for_each(|_| book_32(&mut desk));
    for serial in 2_032..=2_047 {
        desk.script(&format!("withdraw,{serial}"), &format!("ok,{serial}"), "");
    }
    first_line(&mut desk, "till,2,2102,6,513", "till,2: 513 live");
    desk.script("withdraw,1", "ok,1", "");
    first_line(&mut desk, "till,1,2102,6,512", "till,1 from 2: 2,048 live before");
    desk.reopen(mark_of(&OPENED, "till,1 read: 511 or 512"));
    book_32(&mut desk);
    first_line(&mut desk, "till,1,2103,6,481", "till,1: few coupons");
    desk.session("text: full, and down to 512", 0)
}

/// 2,048 coupons of 32 seats of the house each, and as many of 32 places.
fn figures() -> Session {
    let mut desk = Desk::new();
    let text = |atom: &str| {
        let live: String = (1..=2_048).map(|n| format!("|{n},s,6,0,9,0,0")).collect();
        format!("till,2,2049,7,2048|{}|s,1,5{live}", WORDS.replacen("a,9,7", atom, 1))
    };
    reads(&mut desk, &text("a,1,7"), "till,2 read: 2,047 or 2,048");
    desk.script("tally,7,9", "ok,65536,0,0", mark_of(&ON, "till,2 on: 65,536 seats"));
    desk.script("tally,7,10", "ok,0,65536,0", mark_of(&ON, "till,2 on: 65,536 seats"));
    desk.script("withdraw,2048", "ok,2048", "");
    desk.script("tally,7,9", "ok,65504,0,0", mark_of(&ON, "till,2 on: 65,536 seats"));
    reads(&mut desk, &text("n,2,7,5"), "till,2 read: 2,047 or 2,048");
    desk.script("tally,7,10", "ok,0,0,65536", mark_of(&ON, "till,2 on: 65,536 places"));
    desk.session("text: the largest figures", 0)
}

/// Plays one group.
type Fill = fn(&mut Desk);

pub fn sessions() -> Vec<Session> {
    let parts: [(Fill, &str); 3] = [
        (first_lines, "first lines"), (first_lines_by_count, "first lines by count"), (rules_behind, "rules behind"),
    ];
    let played = |(fill, name): (Fill, &str)| {
        let mut desk = own_till();
        fill(&mut desk);
        desk.session(&format!("text: {name}"), 0)
    };
    let mut all: Vec<Session> = parts.into_iter().map(played).collect();
    all.extend([about_512(), small(), goes_on(), comes_down(), figures()]);
    all
}
