//! A till's text: refusals 50 and 51, or the till.

use crate::checks::{may_enter, may_stand};
use crate::form::{read, Read};
use crate::forms::{find, COUPON, TITLE, WORDINGS};
use crate::input::{first_field, lines, Line};
use crate::refused::{short_text, Fault, Refused};
use crate::spot::Spot;
use crate::text::{counted, grouped, Text};
use crate::till::form::{Reader, LINE_END};
use crate::till::formulas::Formulas;
use crate::till::saved::{edition_of, read_credential};
use crate::till::{refusal, Till};
use crate::windows;

/// The till that the text says.
pub fn open(text: &[u8]) -> Result<Till, Refused> {
    let lines = read_text(text).map_err(|fault| fault.refused(refusal::TEXT_FORM))?;
    rules_kept(&lines)?;
    Till::open(text).map_err(|_| Refused::unexplained())
}

/// What the first line says.
struct Counts {
    wordings: usize,
    coupons: usize,
}

/// The text's lines, if they have their form.
fn read_text(text: &[u8]) -> Result<Vec<Read<'_>>, Fault<'_>> {
    let lines = lines(text, 1);
    let Some((&title, below)) = lines.split_first() else {
        return Err(Fault::nowhere("The text is empty.").allowed(format!("`{}` first", TITLE[0].spelled())));
    };
    let title = read(title, 0, &TITLE, "first line")?;
    let count = |name| title.value(name).unwrap_or(0) as usize;
    let counts = Counts { wordings: count("wordings"), coupons: count("coupons") };
    let mut all = vec![title];
    for (at, &line) in below.iter().enumerate() {
        let coupon = counts.right_place(at, line, below)?;
        let line = if coupon { read(line, 0, &COUPON, "coupon")? } else { read(line, 0, &WORDINGS, "wording")? };
        if coupon && at > counts.wordings {
            rises(&line, &all[at])?;
        }
        all.push(line);
    }
    match lines.last() {
        Some(&last) if below.len() < counts.wordings + counts.coupons => Err(counts.too_few(last, below)),
        _ => {
            edition_fits(&all, counts.coupons)?;
            Ok(all)
        }
    }
}

/// The first line is the one that closing would write.
fn edition_fits<'a>(all: &[Read<'a>], coupons: usize) -> Result<(), Fault<'a>> {
    let title = &all[0];
    let holders = all.iter().find(|line| matches!(line.form.word, "n" | "q"));
    if title.bytes().starts_with(edition_of(holders.is_some(), coupons)) {
        return Ok(());
    }
    let why = match holders {
        Some(line) => format!("`till,2`, for line {} is an `n` or a `q`", line.line.number),
        None if coupons > 512 => format!("`till,2`, for {} follow", counted(coupons, "coupon")),
        None => "`till,1`, for there is no `n` or `q` and at most 512 coupons follow".to_string(),
    };
    Err(Fault::new(title.spot_of("edition"), "the first line is not the one that closing would write").allowed(why))
}

/// A coupon's serial is above that of the line before.
fn rises<'a>(line: &Read<'a>, before: &Read) -> Result<(), Fault<'a>> {
    let (serial, last) = (line.value("serial").unwrap_or(0), before.value("serial").unwrap_or(0));
    if serial > last {
        return Ok(());
    }
    let fault = Fault::new(line.spot_of("serial"), "serials do not rise")
        .found(format!("serial {serial} after serial {last}"))
        .allowed("each coupon's serial above the one before it");
    Err(fault)
}

impl Counts {
    /// Whether the line is to be a coupon; it is not clearly of the other kind, nor one too many.
    fn right_place<'a>(&self, at: usize, line: Line<'a>, below: &[Line]) -> Result<bool, Fault<'a>> {
        if at >= self.wordings + self.coupons {
            return Err(self.told(Fault::new(Spot::whole(line), "a line more than the first line says"), below));
        }
        let coupon = at >= self.wordings;
        let wording = find(&WORDINGS, first_field(line.bytes).as_bytes()).is_some();
        let number = line.bytes.first().is_some_and(u8::is_ascii_digit);
        if coupon && wording {
            let what = format!("a wording where coupon {} of {} is due", at - self.wordings + 1, self.coupons);
            return Err(self.told(Fault::new(Spot::whole(line), what), below));
        }
        if !coupon && number {
            let what = format!("a coupon where wording {at} is due, of {} wordings", self.wordings);
            return Err(self.told(Fault::new(Spot::whole(line), what), below));
        }
        Ok(coupon)
    }

    fn too_few<'a>(&self, last: Line<'a>, below: &[Line]) -> Fault<'a> {
        let missing = counted(self.wordings + self.coupons - below.len(), "line");
        self.told(Fault::new(Spot::end(last), format!("the text ends here, {missing} too early")), below)
    }

    /// What the first line says, and what is there.
    fn told<'a>(&self, fault: Fault<'a>, below: &[Line]) -> Fault<'a> {
        let said = format!("{} and {}", counted(self.wordings, "wording"), counted(self.coupons, "coupon"));
        fault
            .found(format!("{} below the first", counted(below.len(), "line")))
            .allowed(format!("{said}, as the first line says"))
            .to_do("A text that was cut or edited has to be fetched again; closing writes none like it.")
    }
}

/// Refusal 51: what `word` and `issue` would refuse, line by line, and serials that are not below the next.
fn rules_kept(lines: &[Read]) -> Result<(), Refused> {
    let mut formulas = Formulas::new();
    let title = &lines[0];
    for line in &lines[1..] {
        let bytes = [line.bytes(), &[LINE_END]].concat();
        let mut reader = Reader::new(&bytes);
        let coupon = line.form.word.is_empty();
        rule_kept(&mut formulas, line, &mut reader)
            .map_err(|inner| broken(line, if coupon { "issue" } else { "word" }, inner))?;
        if coupon {
            below_next(title, line)?;
        }
    }
    Ok(())
}

fn rule_kept(formulas: &mut Formulas, line: &Read, reader: &mut Reader) -> Result<(), Refused> {
    let alone = std::slice::from_ref(line);
    windows::in_order(alone)?;
    windows::breaks_inside(alone)?;
    if line.form.word.is_empty() {
        let credential = read_credential(reader).ok_or_else(Refused::unexplained)?;
        return may_stand(formulas, line, credential.linear, None);
    }
    let formula = reader.formula().ok_or_else(Refused::unexplained)?;
    may_enter(formulas, line, formula, None)?;
    formulas.add(formula).map(drop).map_err(|_| Refused::unexplained())
}

/// The refusal of a line, as that of the text.
fn broken(line: &Read, sheet: &str, inner: Refused) -> Refused {
    if inner.number == 0 {
        return inner;
    }
    let short = short_text(inner.number).map_or("", |(_, short)| short);
    let mut text = Text::default();
    let words = format!("Line {} is one that `{sheet}` would refuse with {}: {short}.", line.line.number, inner.number);
    text.say("", &words);
    text.blank();
    text.add(&inner.text);
    Refused { number: refusal::TEXT_RULE, step: 0, text }
}

fn below_next(title: &Read, line: &Read) -> Result<(), Refused> {
    let (serial, next) = (line.value("serial").unwrap_or(0), title.value("next").unwrap_or(0));
    if serial < next {
        return Ok(());
    }
    let fault = Fault::new(line.spot_of("serial"), "a serial is not below the next one")
        .found(format!("serial {}; the first line says that the next one given is {}", grouped(serial), grouped(next)))
        .allowed("serials below next, or one would be given twice");
    Err(fault.refused(refusal::TEXT_RULE))
}
