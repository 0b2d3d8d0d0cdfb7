//! Good sheets with their bytes damaged; the till must stay as before, so the good sheet is played last.

use super::form::read;
use super::model::{Answer, Steps};
use super::rng::Rng;
use super::session::{sheet_of, Desk, Session};

pub const DAMAGE: [&str; 25] = [
    "CR before a line end", "CR for a line end", "leading zero", "sign", "space", "empty field",
    "missing comma", "extra comma", "letter in a number", "field left out", "field too many",
    "upper-case hexadecimal", "no last line end", "empty line at the end", "empty line at the start",
    "line too many", "line left out", "unknown word", "upper-case word", "byte outside ASCII",
    "truncated", "16,384 bytes", "over 16,384 bytes", "byte exchanged", "byte put in",
];
const RANDOM: &str = "damaged at random";

fn mark_of(name: &str) -> &'static str {
    DAMAGE.iter().find(|d| **d == name).unwrap_or_else(|| panic!("no such damage: {name}"))
}

/// A good sheet of each kind, with its answer when they are played in this order.
const GOOD: [(&str, &str); 16] = [
    ("word,a,12,34", "ok,5"), ("word,o", "ok,6"), ("word,t,1,2", "ok,7"), ("word,b,1", "ok,8"),
    ("word,h,1,23,45,30,31", "ok,9"), ("word,s,6,1", "ok,10"), ("word,g,12,34,0,0,56,78,60,77", "ok,11"),
    ("word,a,1,65535", "ok,12"), ("word,n,12,34,65535", "ok,13"), ("word,q,12", "ok,14"),
    ("issue,s,1,23,45,24,44", "ok,4"), ("issue,r,4,10,60,0,0", "ok,5"), ("withdraw,4", "ok,4"),
    ("tally,7,1234567", "ok,0,1,0"), ("tally,65535,50", "ok,0,0,0"),
    ("book,15,1,10,20,17,18,2,4|hold,1|hold,2|cp,0|ll,2,0000000000000002,10,20,17,18|ax,1|ax,3", "ok,6"),
];

/// Step lines of every form, for a booking that is refused at its first step when undamaged.
fn every_form() -> (Vec<u8>, Answer) {
    let steps = "af|ax,12|cp,12|tr,00000000000000ab|tl,1|or|ol,1|wr|w1,1|w2,1|p1|p2|pl,1\
        |ll,12,00000000000000cd,12,34,23,24|ul,12,34,56,45,46|br|bl,1|hr|hl,1|sr|sl,1|gr|al,12,345";
    let n = steps.split('|').count();
    (sheet_of(&format!("book,15,1,10,20,12,13,2,{n}|hold,1|hold,2|{steps}")), Answer::Refused(40, 1))
}

/// Serials: 1 the standing a ⊸ a, 2 an a, 3 a seat.
fn with_coupons() -> Desk {
    let mut desk = Desk::new();
    desk.words(&["a,1,7", "a,9,7", "s,3,1", "l,1,1", "a,9,8"]);
    desk.script("issue,r,3,0,99,0,0", "ok,1", "");
    desk.script("issue,s,1,0,99,0,0", "ok,2", "");
    desk.script("issue,s,0,0,99,0,0", "ok,3", "");
    desk
}

/// What becomes of a field; None where the change does not apply.
type Change = dyn Fn(&str) -> Option<String>;

/// The sheet's fields, each changed by the given means, the rest kept.
fn by_field(sheet: &[u8], change: &Change) -> Vec<Vec<u8>> {
    let text = String::from_utf8(sheet.to_vec()).expect("good sheets are ASCII");
    let lines: Vec<&str> = text.trim_end().split('\n').collect();
    let mut out = vec![];
    for (i, line) in lines.iter().enumerate() {
        let fields: Vec<&str> = line.split(',').collect();
        for (j, field) in fields.iter().enumerate() {
            let Some(changed) = change(field) else { continue };
            let mut fields: Vec<String> = fields.iter().map(|f| f.to_string()).collect();
            fields[j] = changed;
            let mut lines: Vec<String> = lines.iter().map(|l| l.to_string()).collect();
            lines[i] = fields.join(",");
            out.push((lines.join("\n") + "\n").into_bytes());
        }
    }
    out
}

fn is_number(field: &str) -> bool {
    field.bytes().all(|b| b.is_ascii_digit())
}

/// Changes to one field that break the form wherever they are made.
fn field_damage(sheet: &[u8]) -> Vec<(&'static str, Vec<u8>)> {
    let number = |of: fn(&str) -> String| move |f: &str| is_number(f).then(|| of(f));
    let word = |of: fn(&str) -> String| move |f: &str| (!is_number(f)).then(|| of(f));
    let all: Vec<(&str, Box<Change>)> = vec![
        ("leading zero", Box::new(number(|f| format!("0{f}")))),
        ("sign", Box::new(number(|f| format!("+{f}")))),
        ("sign", Box::new(number(|f| format!("-{f}")))),
        ("space", Box::new(|f: &str| Some(format!(" {f}")))),
        ("space", Box::new(|f: &str| Some(format!("{f} ")))),
        ("space", Box::new(|f: &str| Some(format!("{f}\t")))),
        ("empty field", Box::new(|f: &str| (!f.is_empty()).then(String::new))),
        ("extra comma", Box::new(|f: &str| Some(format!(",{f}")))),
        ("extra comma", Box::new(|f: &str| Some(format!("{f},")))),
        ("letter in a number", Box::new(number(|f| format!("{f}x")))),
        ("letter in a number", Box::new(number(|f| format!("0x{f}")))),
        ("letter in a number", Box::new(number(|f| format!("{f}.0")))),
        ("unknown word", Box::new(word(|f| format!("{f}z")))),
        ("upper-case word", Box::new(word(|f| f.to_uppercase()))),
        ("field too many", Box::new(|f: &str| Some(format!("{f},{f}")))),
    ];
    let mut out = vec![];
    for (name, change) in &all {
        out.extend(by_field(sheet, change.as_ref()).into_iter().map(|s| (mark_of(name), s)));
    }
    let hex = by_field(sheet, &|f| (f.len() == 16 && f != f.to_uppercase()).then(|| f.to_uppercase()));
    out.extend(hex.into_iter().map(|s| ("upper-case hexadecimal", s)));
    out
}

/// Changes to whole lines and line ends.
fn line_damage(sheet: &[u8]) -> Vec<(&'static str, Vec<u8>)> {
    let text = String::from_utf8(sheet.to_vec()).expect("good sheets are ASCII");
    let first_comma = text.find(',').expect("every sheet has a comma");
    let last_comma = text.rfind(',').expect("every sheet has a comma");
    let cut = |at: usize| format!("{}{}", &text[..at], &text[at + 1..]);
    let mut out = vec![
        ("CR before a line end", text.replace('\n', "\r\n")),
        ("CR before a line end", format!("{}\r\n", text.trim_end())),
        ("CR for a line end", text.replace('\n', "\r")),
        ("missing comma", cut(first_comma)),
        ("missing comma", cut(last_comma)),
        ("no last line end", text.trim_end().to_string()),
        ("empty line at the end", format!("{text}\n")),
        ("empty line at the start", format!("\n{text}")),
        ("line too many", format!("{text}or\n")),
        ("line too many", format!("{text}{text}")),
        ("line too many", format!("{text}x")),
        ("unknown word", format!("x{text}")),
        ("unknown word", format!("\0{text}")),
    ];
    let lines: Vec<&str> = text.trim_end().split('\n').collect();
    for i in 0..lines.len() {
        let kept: Vec<&str> = lines.iter().enumerate().filter(|(j, _)| *j != i).map(|(_, l)| *l).collect();
        out.push(("line left out", if kept.is_empty() { String::new() } else { kept.join("\n") + "\n" }));
    }
    out.into_iter().map(|(name, text)| (mark_of(name), text.into_bytes())).collect()
}

fn byte_damage(sheet: &[u8]) -> Vec<(&'static str, Vec<u8>)> {
    let mut out = vec![];
    for kept in 0..sheet.len() {
        out.push(("truncated", sheet[..kept].to_vec()));
    }
    for at in [0, sheet.len() / 2, sheet.len() - 1] {
        for byte in [0x80u8, 0xff, 0x00, 0xc3] {
            let mut more = sheet.to_vec();
            more.insert(at, byte);
            out.push(("byte outside ASCII", more));
        }
    }
    for (length, fill) in [(16_384, b'0'), (16_384, b','), (16_385, b'0'), (16_385, b'a'), (20_000, b',')] {
        let mut long = sheet[..sheet.len() - 1].to_vec();
        long.resize(length - 1, fill);
        long.push(b'\n');
        out.push((if length > 16_384 { "over 16,384 bytes" } else { "16,384 bytes" }, long));
    }
    let mut lines = sheet.to_vec();
    while lines.len() <= 16_384 {
        lines.extend(b"hold,1\n");
    }
    out.push(("over 16,384 bytes", lines));
    out
}

/// The sheet without one of its fields, for each of them.
fn fields_left_out(sheet: &[u8]) -> Vec<(&'static str, Vec<u8>)> {
    let mut out = vec![];
    let mut start = 0;
    while start < sheet.len() {
        let length = sheet[start..].iter().position(|b| b",\n".contains(b));
        let end = start + length.expect("good sheets end their lines");
        let from = if start > 0 && sheet[start - 1] == b',' { start - 1 } else { start };
        let to = if from == start && sheet[end] == b',' { end + 1 } else { end };
        out.push(("field left out", [&sheet[..from], &sheet[to..]].concat()));
        start = end + 1;
    }
    out
}

/// Every byte exchanged for, and preceded by, each of some others.
pub fn byte_edits(sheet: &[u8]) -> Vec<(&'static str, Vec<u8>)> {
    let mut out = vec![];
    for at in 0..sheet.len() {
        for byte in *b",\n0:/ \tA" {
            let (mut other, mut more) = (sheet.to_vec(), sheet.to_vec());
            other[at] = byte;
            more.insert(at, byte);
            out.extend([("byte exchanged", other), ("byte put in", more)]);
        }
    }
    out
}

/// Damage that breaks the form wherever it is done, but for single bytes and fields left out.
fn broken(sheet: &[u8]) -> Vec<(&'static str, Vec<u8>)> {
    let mut all = field_damage(sheet);
    all.extend(line_damage(sheet));
    all.extend(byte_damage(sheet));
    all
}

/// The same, with each field left out.
pub fn all_broken(sheet: &[u8]) -> Vec<(&'static str, Vec<u8>)> {
    let mut all = broken(sheet);
    all.extend(fields_left_out(sheet));
    all
}

/// The damage to one sheet: single bytes and fields everywhere, and all of the rest or a share of it. Single bytes
/// count where they break the form.
fn play(desk: &mut Desk, sheet: &[u8], rng: &mut Rng, share: u32) {
    let mut all = broken(sheet);
    all.retain(|_| rng.chance(share, 8));
    all.extend(fields_left_out(sheet));
    all.extend(byte_edits(sheet).into_iter().filter(|(_, bad)| read(bad) == Err(2)));
    for (name, bad) in all {
        let number = if bad.len() > 16_384 { 1 } else { 2 };
        desk.refuse(&bad, number, name);
    }
}

/// Every kind of sheet damaged in every way.
pub fn fixed(seed: u64) -> Session {
    let mut rng = Rng::new(seed);
    let mut desk = with_coupons();
    let (forms, answer) = every_form();
    play(&mut desk, &forms, &mut rng, 8);
    desk.expect(&forms, answer, &[]);
    desk.refuse(b"", 2, "empty sheet");
    desk.refuse(b"\n", 2, "empty sheet");
    desk.refuse(&vec![b'\n'; 16_384], 2, "16,384 bytes");
    desk.refuse(&vec![b'\n'; 16_385], 1, "over 16,384 bytes");
    desk.refuse(&vec![b'x'; 1_000_000], 1, "over 16,384 bytes");
    desk.session("damage: every step form", seed)
}

/// The calls one by one, each damaged first.
pub fn calls(seed: u64) -> Session {
    let mut rng = Rng::new(seed);
    let mut desk = with_coupons();
    for (text, answer) in GOOD {
        let sheet = sheet_of(text);
        play(&mut desk, &sheet, &mut rng, 3);
        desk.expect(&sheet, Answer::of(answer), &[]);
    }
    desk.session("damage: calls", seed)
}

/// One byte of the sheet exchanged, put in, taken out or moved.
pub fn at_random(rng: &mut Rng, sheet: &[u8]) -> Vec<u8> {
    let mut bad = sheet.to_vec();
    let at = rng.below(bad.len());
    match rng.below(5) {
        0 => bad[at] = rng.pick(b"0123456789,\nabcdefghlnopqrstuwx \r-"),
        1 => bad.insert(at, rng.pick(b"0123456789,\nasr")),
        2 => {
            bad.remove(at);
        }
        3 => bad[at] = rng.next() as u8,
        _ => {
            let other = rng.below(bad.len());
            bad.swap(at, other);
        }
    }
    bad
}

/// Random damage; what passes the form is answered by the model, steps are unknown and end the session.
pub fn random(seed: u64) -> Session {
    let mut rng = Rng::new(seed);
    let mut desk = with_coupons();
    let calls = [
        "word,h,1,23,45,30,31", "issue,s,1,23,45,25,36", "issue,r,3,10,60,0,0", "withdraw,2", "tally,7,50",
    ];
    for _ in 0..60 {
        let sheet = sheet_of(rng.pick(&calls));
        let bad = at_random(&mut rng, &sheet);
        desk.play(&bad, Steps::Unknown);
        desk.mark(&[RANDOM]);
    }
    let steps = "cp,0|ll,2,0000000000000002,10,20,16,18|ax,1|ax,3";
    let book = sheet_of(&format!("book,15,1,10,20,16,18,2,4|hold,1|hold,2|{steps}"));
    for _ in 0..25 {
        let bad = at_random(&mut rng, &book);
        desk.play(&bad, Steps::Unknown);
        desk.mark(&[RANDOM]);
    }
    desk.session("damage: random", seed)
}
