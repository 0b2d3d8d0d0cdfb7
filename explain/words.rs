//! Wordings, windows, labels and coupons in words.

use crate::till::credentials::Credential;
use crate::till::formulas::Formulas;
use crate::till::logic::{Formula, FormulaId, Holder, Interval};
use crate::till::steps::{just, Goal, Instance, Labels, MAX_LABELS};

/// A kind of wording: its name, and the steps that prove it and use it.
pub struct Kind {
    pub name: &'static str,
    /// The letter of its line.
    pub letter: char,
    pub right: &'static str,
    pub left: &'static str,
}

const fn kind(name: &'static str, letter: char, right: &'static str, left: &'static str) -> Kind {
    Kind { name, letter, right, left }
}

pub static ATOM: Kind = kind("an atom", 'a', "`ax`", "`ax`");
pub static ONE: Kind = kind("1", 'o', "`or`", "`ol`");
pub static TENSOR: Kind = kind("a ⊗", 't', "`tr`", "`tl`");
pub static WITH: Kind = kind("a &", 'w', "`wr`", "`w1` or `w2`");
pub static PLUS: Kind = kind("a ⊕", 'p', "`p1` or `p2`", "`pl`");
pub static LOLLI: Kind = kind("a ⊸", 'l', "no step", "`ll`");
pub static IMPLIES: Kind = kind("a ⊃", 'u', "no step", "`ul`");
pub static BANG: Kind = kind("a !", 'b', "`br`", "`bl`");
pub static AT: Kind = kind("an @", 'h', "`hr`", "`hl`");
pub static SAYS: Kind = kind("a ⟨K⟩", 's', "`sr`", "`sl`");
pub static COVERS: Kind = kind("a ⊇", 'g', "`gr`", "no step");
pub static FORALL: Kind = kind("a ∀", 'q', "no step", "`al`");

pub fn kind_of(line: Formula) -> &'static Kind {
    match line {
        Formula::Atom { .. } | Formula::Named { .. } => &ATOM,
        Formula::One => &ONE,
        Formula::Tensor(..) => &TENSOR,
        Formula::With(..) => &WITH,
        Formula::Plus(..) => &PLUS,
        Formula::Lolli(..) => &LOLLI,
        Formula::Implies(..) => &IMPLIES,
        Formula::Bang(..) => &BANG,
        Formula::At(..) => &AT,
        Formula::Says(..) => &SAYS,
        Formula::Covers(..) => &COVERS,
        Formula::Forall(..) => &FORALL,
    }
}

/// `540..600`, `540..1080 without 720..779`
pub fn window(interval: Interval) -> String {
    let Interval { from, to, first, last } = interval;
    let whole = format!("{from}..{to}");
    if last == 0 { whole } else { format!("{whole} without {first}..{last}") }
}

/// The formula of a wording that is there, spelled out.
pub fn spell(formulas: &Formulas, id: FormulaId) -> String {
    spell_instance(formulas, Instance::of(id))
}

/// The formula of a wording line whose parts are there.
pub fn spell_line(formulas: &Formulas, line: Formula) -> String {
    spelled(formulas, line, Instance::of(0))
}

/// A formula of a booking, with the holder that was put in.
pub fn spell_instance(formulas: &Formulas, instance: Instance) -> String {
    spelled(formulas, line_of(formulas, instance), instance)
}

/// The line of a formula of a booking; an atom has the holder that was put in.
pub fn line_of(formulas: &Formulas, instance: Instance) -> Formula {
    formulas.line(instance.formula()).put(instance.holder())
}

/// The formula of a line; the holder of `instance` goes along into its parts.
fn spelled(formulas: &Formulas, line: Formula, instance: Instance) -> String {
    let part = |id| inside(formulas, instance.part(id));
    let two = |i, sign, j| format!("{} {sign} {}", part(i), part(j));
    match line {
        Formula::Atom { predicate, session } => atom(predicate, session, None),
        Formula::Named { predicate, session, holder } => atom(predicate, session, Some(holder)),
        Formula::One => "1".to_string(),
        Formula::Tensor(i, j) => two(i, "⊗", j),
        Formula::With(i, j) => two(i, "&", j),
        Formula::Plus(i, j) => two(i, "⊕", j),
        Formula::Lolli(i, j) => two(i, "⊸", j),
        Formula::Implies(i, j) => two(i, "⊃", j),
        Formula::Bang(i) => format!("!{}", part(i)),
        Formula::At(i, interval) if interval.last == 0 => format!("{}@{}", part(i), window(interval)),
        Formula::At(i, interval) => format!("{}@({})", part(i), window(interval)),
        Formula::Says(principal, i) => format!("⟨{principal}⟩ {}", part(i)),
        Formula::Covers(one, other) => format!("({}) ⊇ ({})", window(one), window(other)),
        Formula::Forall(i) => format!("for every holder: {}", spell_instance(formulas, instance.part(i))),
    }
}

/// A formula as a part of another: in brackets where it has two parts or begins with words.
fn inside(formulas: &Formulas, instance: Instance) -> String {
    let (text, line) = (spell_instance(formulas, instance), line_of(formulas, instance));
    let joined = line.parts().iter().flatten().count() == 2;
    let brackets = joined || matches!(line, Formula::Covers(..) | Formula::Forall(..));
    if brackets { format!("({text})") } else { text }
}

/// `seat(7)`, `place(7, holder 12)`
fn atom(predicate: u8, session: u16, holder: Option<Holder>) -> String {
    let of = holder.map_or(session.to_string(), |holder| format!("{session}, holder {holder}"));
    match predicate {
        1 => format!("seat({of})"),
        2 => format!("place({of})"),
        _ => format!("pred{predicate}({of})"),
    }
}

/// `wording 3: ⟨1⟩ seat(7)`
pub fn wording(formulas: &Formulas, id: FormulaId) -> String {
    format!("wording {id}: {}", spell(formulas, id))
}

/// `single-use, wording 3: ⟨1⟩ seat(7), in 0..600`
pub fn coupon(formulas: &Formulas, credential: &Credential) -> String {
    let what = wording(formulas, credential.formula);
    format!("{}, {what}, in {}", use_of(credential.linear), window(credential.interval))
}

pub fn use_of(linear: bool) -> &'static str {
    if linear { "single-use" } else { "standing" }
}

/// `⟨1⟩ seat(7) at 0..600`
pub fn at(formulas: &Formulas, instance: Instance, interval: Interval) -> String {
    format!("{} at {}", spell_instance(formulas, instance), window(interval))
}

/// `1 affirms seat(7)`
pub fn goal(formulas: &Formulas, goal: Goal) -> String {
    match goal {
        Goal::True(formula) => spell_instance(formulas, formula),
        Goal::Affirms(principal, formula) => format!("{principal} affirms {}", inside(formulas, formula)),
    }
}

/// So many labels in a row are written as first and last.
const LONG_RUN: u32 = 4;

/// The labels of a set, rising.
pub fn each(labels: Labels) -> impl Iterator<Item = usize> {
    (0..MAX_LABELS).filter(move |&label| labels & just(label as u8) != 0)
}

/// `{0, 2}`, `{0, 3 to 9}`
pub fn set(labels: Labels) -> String {
    let mut runs: Vec<String> = Vec::new();
    let mut rest = labels;
    while rest != 0 {
        let first = rest.trailing_zeros();
        let length = (rest >> first).trailing_ones();
        let last = first + length - 1;
        match length {
            1..LONG_RUN => runs.extend((first..=last).map(|label| label.to_string())),
            _ => runs.push(format!("{first} to {last}")),
        }
        rest &= !(u64::MAX >> (64 - length) << first);
    }
    format!("{{{}}}", runs.join(", "))
}

/// Signs and what they mean; `#` stands for a digit.
const SIGNS: [(&str, &str); 18] = [
    ("seat(", "seat(7): a seat of session 7"),
    ("place(", "place(7): a place of session 7"),
    ("pred#", "pred9(7): predicate 9 of session 7, a free one"),
    (", holder #", "place(7, holder 12): a place of session 7 in holder 12's name"),
    (", holder 0)", "holder 0: whichever holder is put in; it stands inside `for every holder` alone"),
    ("⟨", "⟨1⟩ A: principal 1 says A; the house is principal 1"),
    (" affirms ", "1 affirms A: what is to be shown of ⟨1⟩ A"),
    ("⊗", "A ⊗ B: A and B together"),
    (" & ", "A & B: A or B, as the one who uses it chooses"),
    ("⊕", "A ⊕ B: A or B, and the one who uses it must be ready for both"),
    ("⊸", "A ⊸ B: give A, get B; an offer"),
    ("for every holder: ", "for every holder: A, a ∀: A for each holder, 1 to 65,535, as the one who uses it names"),
    ("⊃", "A ⊃ B: where A holds without spending a single, B"),
    ("!", "!A: A as often as wanted"),
    ("@", "A@J: A in the window J, whatever the window around it"),
    ("⊇", "I ⊇ J: the window I has every minute of the window J"),
    ("..#", "540..600: minutes 540 to 600, both included"),
    (" without #", "without 720..779: but for the break from 720 to 779"),
];

/// What the signs that stand in a text mean.
pub fn signs(text: &str) -> Vec<&'static str> {
    let stands = |sign: &str| match sign.strip_suffix('#') {
        Some(sign) => text.split(sign).skip(1).any(|rest| rest.starts_with(|next: char| next.is_ascii_digit())),
        None => text.contains(sign),
    };
    SIGNS.iter().filter(|(sign, _)| stands(sign)).map(|&(_, words)| words).collect()
}
