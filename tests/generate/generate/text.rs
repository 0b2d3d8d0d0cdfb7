//! The till as text (document 02, asks 5 and 8): the text that closing writes, and what opening answers to one.

use super::form::{self, Kind, Sheet};
use super::model::{Model, MOST_LIVE};

/// The longest text: 24 bytes, 200 lines `g` of 66 and 2,048 coupons of 45. The longest that begins `till,1` has a byte
/// less in its first line and 512 coupons.
pub const LONGEST: usize = 105_384;
pub const LONGEST_FIRST: usize = 36_263;

/// With more live coupons a till is written with `till,2`.
const MOST_IN_FIRST: usize = 512;

/// The edition of a till with these wording lines and so many live coupons.
fn edition(wordings: &[&str], coupons: usize) -> &'static str {
    let named = |line: &&str| line.starts_with("n,") || line.starts_with("q,");
    if coupons > MOST_IN_FIRST || wordings.iter().any(named) { "2" } else { "1" }
}

fn letter(kind: Kind) -> char {
    if kind == Kind::Single { 's' } else { 'r' }
}

/// The text of a till: its first line, the wording lines in order, the live coupons, serials rising.
pub fn written(model: &Model) -> Vec<u8> {
    let (next, wordings, coupons) = (model.given + 1, model.lines.len(), model.live.len());
    let lines: Vec<&str> = model.lines.iter().map(String::as_str).collect();
    let mut text = format!("till,{},{next},{wordings},{coupons}\n", edition(&lines, coupons));
    model.lines.iter().for_each(|line| text += &format!("{line}\n"));
    let mut live = model.live.clone();
    live.sort_by_key(|c| c.serial);
    for c in live {
        let wording = model.wordings.iter().position(|w| *w == c.wording).expect("a live coupon's wording is there");
        text += &format!("{},{},{wording},{}\n", c.serial, letter(c.kind), c.window.text());
    }
    text.into_bytes()
}

/// A text of good form: next, the wording lines, and of each coupon line the serial and the rest.
struct Lines<'a> {
    next: u32,
    wordings: Vec<&'a str>,
    coupons: Vec<(u32, &'a str)>,
}

fn coupon_line(line: &str) -> Option<(u32, &str)> {
    let fields: Vec<&str> = line.split(',').collect();
    let [serial, "s" | "r", wording, window @ ..] = fields.as_slice() else { return None };
    form::wording(wording)?;
    form::span(window)?;
    Some((form::serial(serial)?, line.split_once(',')?.1))
}

/// Form and ranges, the counts, that the serials rise, and that closing would write this first line over these lines,
/// whether or not they keep the rules: None gives 50.
fn lines(text: &str) -> Option<Lines<'_>> {
    let lines: Vec<&str> = text.strip_suffix('\n')?.split('\n').collect();
    let first: Vec<&str> = lines[0].split(',').collect();
    let ["till", written, next, wordings, coupons] = first.as_slice() else { return None };
    let next = form::number(next, 1, 1_000_000)?;
    let wordings = form::number(wordings, 0, 200)? as usize;
    let coupons = form::number(coupons, 0, MOST_LIVE as u32)? as usize;
    if lines.len() != 1 + wordings + coupons {
        return None;
    }
    let (wordings, coupons) = lines[1..].split_at(wordings);
    for line in wordings {
        form::wording_line(&line.split(',').collect::<Vec<_>>())?;
    }
    let coupons = coupons.iter().map(|line| coupon_line(line)).collect::<Option<Vec<_>>>()?;
    coupons.windows(2).all(|two| two[0].0 < two[1].0).then_some(())?;
    (*written == edition(wordings, coupons.len())).then_some(())?;
    Some(Lines { next, wordings: wordings.to_vec(), coupons })
}

/// What word or issue would refuse, each line after those before it, and a serial that is not below next: None gives
/// 51. Counts and ranges leave nothing for 14, 22 and 23.
fn ruled(lines: &Lines) -> Option<Model> {
    let mut model = Model::default();
    for line in &lines.wordings {
        let Ok(Sheet::Word(line)) = form::read(format!("word,{line}\n").as_bytes()) else { return None };
        model.word(&line).ok()?;
    }
    for (serial, rest) in &lines.coupons {
        let Ok(Sheet::Issue(kind, wording, window)) = form::read(format!("issue,{rest}\n").as_bytes()) else {
            return None;
        };
        model.given = serial - 1;
        model.issue(kind, wording, window).ok()?;
        (*serial < lines.next).then_some(())?;
    }
    model.given = lines.next - 1;
    Some(model)
}

/// The till that a text gives, or 50 or 51.
pub fn opened(text: &[u8]) -> Result<Model, u32> {
    let text = std::str::from_utf8(text).map_err(|_| 50u32)?;
    let lines = lines(text).ok_or(50u32)?;
    let model = ruled(&lines).ok_or(51u32)?;
    assert_eq!(written(&model), text.as_bytes(), "a text that is read is the one which that till writes");
    Ok(model)
}
