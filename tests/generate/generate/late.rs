//! Faults that a later step finds, steps that end early or late, and label 64.

use super::booking::{holds_for, Booking, Seen};
use super::breaks::breaks;
use super::derivation::{bl, left, Deriv};
use super::follow::{at_first, first_wrong};
use super::form::Kind;
use super::grow::Grower;
use super::midday::misfits;
use super::model::Answer;
use super::rng::Rng;
use super::session::Desk;
use super::wording::*;
use super::world::minutes_of;
use super::write::{Hold, Script, StepLine};

pub const LATE: [&str; 28] = [
    "tr: label moved left", "tr: label moved right", "ll: label moved to the share",
    "ll: label moved to the rest", "ax: unused single", "or: unused single", "br: unused single",
    "gr: unused single", "42: a step missing", "42: cut short", "42: a step too many",
    "42: many steps too many", "40 where label 64 is wanted", "missing single",
    "42: cut after a first premise", "ax: single of a session alike", "ax: single with a break in the goal's minutes",
    "30: first minute of the break", "30: last minute of the break", "30: before the window", "30: behind the window",
    "43: in a booking's head", "43: in a booking's step", "al: another holder, found by an ax",
    "al: another holder, looked at by none", "ax: single of another holder", "ax: single in a holder's name",
    "ax: single in no holder's name",
];

fn late(text: &str) -> &'static str {
    LATE.iter().find(|w| **w == text).unwrap_or_else(|| panic!("no such way: {text}"))
}

/// One label of a `tr` or `ll` on the other side of the share: right there, wrong later.
pub fn move_labels(b: &Booking, desk: &mut Desk, rng: &mut Rng, how_many: usize) {
    let mut all = vec![];
    for (i, line) in b.script.lines.iter().enumerate() {
        let (Some(share), scene) = (line.share, &b.script.scenes[i]) else { continue };
        for h in scene.d.iter().filter(|h| Some(h.label) != line.label) {
            let inside = share >> h.label & 1 == 1;
            let first = scene.starts[0];
            let step = if inside { b.script.first_use(first, h.label) } else { Some(b.script.stuck(first)) };
            let step = step.expect("every single is used");
            all.push((moved(line.letters, inside), inside, i, share ^ 1 << h.label, step));
        }
    }
    rng.shuffle(&mut all);
    for (name, inside, i, share, step) in all.into_iter().take(how_many) {
        let mut texts = b.texts();
        texts[i] = StepLine { share: Some(share), ..b.script.lines[i].clone() }.text();
        let sheet = b.sheet(&b.serials, &texts);
        desk.expect(&sheet, Answer::Refused(40, step), &[late(name)]);
        if !inside {
            desk.mark(&[unused(b.script.lines[step as usize - 1].letters)]);
        }
    }
}

fn moved(letters: &str, from_share: bool) -> &'static str {
    match (letters, from_share) {
        ("tr", true) => "tr: label moved right",
        ("tr", false) => "tr: label moved left",
        (_, true) => "ll: label moved to the rest",
        (_, false) => "ll: label moved to the share",
    }
}

/// A single too many, found by this closing step.
fn unused(letters: &str) -> &'static str {
    late(&format!("{letters}: unused single"))
}

/// One single more than the steps use.
pub fn unused_single(b: &Booking, desk: &mut Desk, rng: &mut Rng) {
    if b.holds.len() >= 32 || b.script.labels() >= 64 {
        return;
    }
    let extra = Hold { ids: vec![], standing: false, wording: atom(1, 7), window: b.window };
    if desk.missing(std::slice::from_ref(&extra.wording)) + desk.model.lines.len() > 200 {
        return;
    }
    let serial = desk.issue(Kind::Single, &extra.wording, extra.window);
    let place = rng.below(b.holds.len() + 1);
    let (mut holds, mut serials) = (b.holds.clone(), b.serials.clone());
    holds.insert(place, extra);
    serials.insert(place, serial);
    let script = Script::of(&b.deriv, &holds);
    let step = script.stuck(0);
    let texts: Vec<String> = script.lines.iter().map(StepLine::text).collect();
    let name = unused(script.lines[step as usize - 1].letters);
    desk.expect(&b.sheet(&serials, &texts), Answer::Refused(40, step), &[name]);
    desk.expect(format!("withdraw,{serial}\n").as_bytes(), Answer::Done(serial), &["withdraw single"]);
}

/// The last hold left out, if it is a single: its label is then another's, or nobody's.
pub fn missing_single(b: &Booking, desk: &mut Desk) {
    let last = b.holds.len().wrapping_sub(1);
    let label = last as u32;
    let Some(hold) = b.holds.get(last).filter(|h| !h.standing) else { return };
    let used = b.script.first_use(0, label).expect("every single is used");
    let before = &b.script.scenes[..used as usize];
    if before.iter().any(|s| s.next != label + 1) || hold.ids.len() != 1 {
        return;
    }
    let sheet = b.sheet(&b.serials[..last], &b.texts());
    desk.expect(&sheet, Answer::Refused(40, used), &[late("missing single")]);
}

/// The places of the holds that are single atoms.
fn bare(b: &Booking) -> Vec<usize> {
    let bare = |i: &usize| !b.holds[*i].standing && b.holds[*i].wording.atomic().is_some();
    (0..b.holds.len()).filter(bare).collect()
}

/// For one of the atoms held, that of a session alike: the step that closes with it is wrong.
pub fn alike_single(b: &Booking, desk: &mut Desk, rng: &mut Rng) {
    let mut bare = bare(b);
    rng.shuffle(&mut bare);
    let Some(place) = bare.pop() else { return };
    let wording = &b.holds[place].wording;
    let alike = rng.alike(wording.atomic().expect("an atom").1);
    let other = wording.renumbered(&|_| alike);
    if desk.missing(std::slice::from_ref(&other)) + desk.model.lines.len() > 200 {
        return;
    }
    let serial = desk.issue(Kind::Single, &other, b.holds[place].window);
    let mut serials = b.serials.clone();
    serials[place] = serial;
    let closes = |l: &StepLine| l.letters == "ax" && l.label == Some(place as u32);
    let step = b.script.lines.iter().position(closes).expect("every single is used") as u32 + 1;
    let mark = late("ax: single of a session alike");
    desk.expect(&b.sheet(&serials, &b.texts()), Answer::Refused(40, step), &[mark]);
    desk.expect(format!("withdraw,{serial}\n").as_bytes(), Answer::Done(serial), &["withdraw single"]);
}

/// For one of the atoms held, the same with a break in minutes that its step needs.
pub fn broken_single(b: &Booking, desk: &mut Desk, rng: &mut Rng) {
    let mut all = vec![];
    for place in bare(b) {
        let closes = |l: &StepLine| l.letters == "ax" && l.label == Some(place as u32);
        let step = b.script.lines.iter().position(closes).expect("every single is used");
        let (outer, inner) = (b.holds[place].window, b.script.scenes[step].goal.window);
        let inside = minutes_of(inner).into_iter().filter(|m| outer.from < *m && *m < outer.to);
        all.extend(inside.map(|m| (place, step as u32 + 1, Window { first: m, last: m, ..outer })));
    }
    rng.shuffle(&mut all);
    let Some((place, step, window)) = all.pop() else { return };
    let serial = desk.issue(Kind::Single, &b.holds[place].wording, window);
    let mut serials = b.serials.clone();
    serials[place] = serial;
    let mark = late("ax: single with a break in the goal's minutes");
    desk.expect(&b.sheet(&serials, &b.texts()), Answer::Refused(40, step), &[mark]);
    desk.expect(format!("withdraw,{serial}\n").as_bytes(), Answer::Done(serial), &["withdraw single"]);
}

/// An `al` at another holder. Where no `ax` looks at what comes of it, the sheet is right; it is played where it holds
/// no single, which it would remove.
pub fn other_holder(b: &Booking, desk: &mut Desk, rng: &mut Rng, how_many: usize) {
    let lines = &b.script.lines;
    let mut all: Vec<(usize, u32)> = vec![];
    for (i, own) in lines.iter().enumerate().filter_map(|(i, l)| l.holder.map(|own| (i, own))) {
        let near = [own + 1, own.wrapping_sub(1), rng.alike(own), rng.between(1, LAST_HOLDER)];
        let other = near.into_iter().filter(|h| *h != own && (1..=LAST_HOLDER).contains(h));
        all.extend(other.map(|holder| (i, holder)));
    }
    rng.shuffle(&mut all);
    for (i, holder) in all.into_iter().take(how_many) {
        let wrong = first_wrong(&b.deriv, &at_first(&b.deriv), Some((i, holder)));
        let mut texts = b.texts();
        texts[i] = StepLine { holder: Some(holder), ..lines[i].clone() }.text();
        match wrong {
            Some(step) => {
                let mark = late("al: another holder, found by an ax");
                desk.expect(&b.sheet(&b.serials, &texts), Answer::Refused(40, step), &[mark]);
            }
            None if b.holds.iter().all(|h| h.standing) => {
                let next = desk.model.given + 1;
                let mark = late("al: another holder, looked at by none");
                desk.expect(&b.sheet(&b.serials, &texts), Answer::Done(next), &[mark]);
            }
            None => {}
        }
    }
}

/// For one of the atoms held, the same in another holder's name, in a holder's or in nobody's.
pub fn renamed_single(b: &Booking, desk: &mut Desk, rng: &mut Rng) {
    let mut bare = bare(b);
    rng.shuffle(&mut bare);
    let Some(place) = bare.pop() else { return };
    let some = rng.between(1, LAST_HOLDER);
    let (other, name) = match *b.holds[place].wording {
        Wording::Named(p, s, h) if rng.chance(1, 2) => {
            (named(p, s, h % LAST_HOLDER + 1), "ax: single of another holder")
        }
        Wording::Named(p, s, _) => (atom(p, s), "ax: single in no holder's name"),
        Wording::Atom(p, s) => (named(p, s, some), "ax: single in a holder's name"),
        _ => return,
    };
    if desk.missing(std::slice::from_ref(&other)) + desk.model.lines.len() > 200 {
        return;
    }
    let mut says = at_first(&b.deriv);
    b.holds[place].ids.iter().for_each(|id| drop(says.insert(*id, other.clone())));
    let step = first_wrong(&b.deriv, &says, None).expect("every single is used");
    let serial = desk.issue(Kind::Single, &other, b.holds[place].window);
    let mut serials = b.serials.clone();
    serials[place] = serial;
    desk.expect(&b.sheet(&serials, &b.texts()), Answer::Refused(40, step), &[late(name)]);
    desk.expect(format!("withdraw,{serial}\n").as_bytes(), Answer::Done(serial), &["withdraw single"]);
}

/// Now outside the goal's window: beside its ends, and in its break.
pub fn outside(b: &Booking, desk: &mut Desk) {
    let w = b.window;
    let mut all = vec![];
    if w.has_break() {
        all.extend([(w.first, "30: first minute of the break"), (w.last, "30: last minute of the break")]);
    }
    all.extend((w.from > 0).then(|| (w.from - 1, "30: before the window")));
    all.extend((w.to < LAST_MINUTE).then_some((w.to + 1, "30: behind the window")));
    for (now, name) in all {
        desk.refuse(&b.sheet_at(now, w, &b.serials, &b.texts()), 30, late(name));
    }
}

/// A break that does not fit, in the head or in some step.
pub fn misfit(b: &Booking, desk: &mut Desk, rng: &mut Rng) {
    let (_, bad) = rng.pick(&misfits(b.window));
    desk.refuse(&b.sheet_at(b.now, bad, &b.serials, &b.texts()), 43, late("43: in a booking's head"));
    let mut lines = b.script.lines.clone();
    let with_window: Vec<usize> = (0..lines.len()).filter(|i| lines[*i].window.is_some()).collect();
    if with_window.is_empty() {
        return;
    }
    let line = &mut lines[rng.pick(&with_window)];
    line.window = line.window.map(|w| rng.pick(&misfits(w)).1);
    let texts: Vec<String> = lines.iter().map(StepLine::text).collect();
    desk.refuse(&b.sheet(&b.serials, &texts), 43, late("43: in a booking's step"));
}

/// 42 both ways.
pub fn ends(b: &Booking, desk: &mut Desk, rng: &mut Rng) {
    let texts = b.texts();
    let n = texts.len();
    let mut cuts = vec![(n - 1, "42: a step missing"), (rng.below(n), "42: cut short")];
    let second = |s: &super::write::Scene| s.starts.get(1).copied();
    let starts: Vec<usize> = b.script.scenes.iter().filter_map(second).collect();
    if !starts.is_empty() {
        cuts.push((rng.pick(&starts), "42: cut after a first premise"));
    }
    for (kept, name) in cuts.into_iter().filter(|(kept, _)| *kept > 0) {
        let sheet = b.sheet(&b.serials, &texts[..kept]);
        desk.expect(&sheet, Answer::Refused(42, kept as u32 + 1), &[late(name)]);
    }
    let many = rng.between(2, 9) as usize;
    for (more, name) in [(1, "42: a step too many"), (many, "42: many steps too many")] {
        if n + more <= 256 {
            let mut longer = texts.clone();
            for _ in 0..more {
                let again = rng.below(n);
                let any = ["af".to_string(), "or".to_string(), texts[again].clone(), texts[n - 1].clone()];
                longer.push(rng.pick(&any));
            }
            let sheet = b.sheet(&b.serials, &longer);
            desk.expect(&sheet, Answer::Refused(42, n as u32 + 1), &[late(name)]);
        }
    }
}

/// Takes that many labels for nothing before the derivation begins: each one is dropped again
/// (`cp`, `ol`) or joins R unused (`cp`, `bl`).
pub fn burn(g: &mut Grower, deriv: Deriv, labels: usize, w: Window) -> Deriv {
    let mut a = deriv;
    let mut left_over = labels;
    while left_over > 0 {
        let id = g.id();
        if left_over % 2 == 1 {
            let l = g.hyp(one(), w);
            let l_id = l.id;
            a = left("ol", a, &[], l);
            a = g.copy(a, l_id);
            left_over -= 1;
        } else {
            let r = g.hyp(one(), w);
            let r_id = r.id;
            a.r.push(r);
            a = bl(a, r_id, id);
            a = g.copy(a, id);
            left_over -= 2;
        }
    }
    a
}

pub const WANTS_64: [&str; 24] = [
    "41 at cp", "41 at tl, none left", "41 at tl, one left", "41 at w1", "41 at w2", "41 at pl, first",
    "41 at bl", "41 at hl", "41 at sl", "41 at pl, second", "41 at ll, second", "41 at ul, second",
    "41 at pl, second, no line left", "41 at ll, second, no line left", "41 at ul, second, no line left",
    "41 at cp, no line left", "41 at tl, one left, no line left", "41 at w1, no line left",
    "41 at pl, first, no line left", "41 at bl, no line left", "41 at sl, no line left",
    "41 at hl, no line left", "41 at al", "41 at al, no line left",
];

/// The name of the way in which the script comes to want label 64.
fn name_of(script: &Script, cut: bool) -> String {
    let (step, lines) = script.overflow.expect("a script that wants label 64");
    let letters = script.lines[step as usize - 1].letters;
    let place = match letters {
        "tl" if script.scenes[step as usize - 1].next == 63 => ", one left",
        "tl" => ", none left",
        "pl" if lines == step as usize => ", first",
        "pl" | "ll" | "ul" => ", second",
        _ => "",
    };
    format!("41 at {letters}{place}{}", if cut { ", no line left" } else { "" })
}

/// Lines with every label in range, so that the form stays right behind the step that stops.
fn in_range(script: &Script) -> Vec<String> {
    let clamp = |l: &StepLine| StepLine { label: l.label.map(|n| n.min(63)), ..l.clone() }.text();
    script.lines.iter().take(256).map(clamp).collect()
}

/// A derivation with its holds, written.
type Written = (Deriv, Vec<Hold>, Script);

/// Derivations with labels burnt before them, so that label 64 is wanted within their own part.
fn burnt(b: &Booking, g: &mut Grower, how_many: usize) -> Vec<Written> {
    let own = b.script.labels() - b.holds.len();
    let mut overs: Vec<usize> = (1..=own).collect();
    g.rng.shuffle(&mut overs);
    let mut all = vec![];
    for over in overs.into_iter().take(how_many) {
        // The coupons that are burnt may take up to two labels themselves, a spare one a third.
        for (fewer, spare) in [(0, false), (1, false), (2, false), (1, true), (2, true), (3, true)] {
            let labels = (64 + over).saturating_sub(b.script.labels() + fewer);
            let deriv = burn(g, b.deriv.clone(), labels, b.window);
            let mut holds = holds_for(&deriv, g.rng);
            let extra = Hold { ids: vec![], standing: true, wording: one(), window: b.window };
            holds.extend(spare.then_some(extra));
            let script = Script::of(&deriv, &holds);
            let lines = script.overflow.map_or(999, |(_, lines)| lines);
            if script.labels() == 64 + over && holds.len() <= 32 && lines <= 256 {
                all.push((deriv, holds, script));
            }
        }
    }
    all
}

/// The same booking with labels burnt before it: 41, the rarest ways first.
pub fn label_64(b: &Booking, desk: &mut Desk, g: &mut Grower, seen: &mut Seen, how_many: usize) {
    let mut all = burnt(b, g, how_many + 2);
    for _ in 0..how_many.min(all.len()) {
        let known = |name: &str| WANTS_64.iter().find(|w| **w == name).copied();
        let rare = |s: &Script, cut| {
            known(&name_of(s, cut)).map_or(9_999, |n| seen.get(n).copied().unwrap_or(0))
        };
        all.sort_by_key(|(_, _, s)| rare(s, true).min(rare(s, false)));
        let written = all.remove(0);
        let cut = rare(&written.2, true) < rare(&written.2, false);
        if let Some(name) = known(&name_of(&written.2, cut)) {
            *seen.entry(name).or_insert(0) += 1;
            play_label_64(desk, b, written, cut, name);
        }
    }
}

fn play_label_64(
    desk: &mut Desk,
    b: &Booking,
    (deriv, holds, script): Written,
    cut: bool,
    name: &'static str,
) {
    let (step, lines) = script.overflow.expect("a script that wants label 64");
    let texts = in_range(&script);
    let Some(new) = super::booking::place(desk, deriv, holds, b.now) else { return };
    let kept = if cut { &texts[..lines] } else { &texts[..] };
    desk.expect(&new.sheet(&new.serials, kept), Answer::Refused(41, step), &[name]);
    let here = step as usize - 1;
    if let Some((_, line)) = breaks(&script.scenes[here]).first() {
        let mut broken = texts.clone();
        broken[here] = line.text();
        let mark = late("40 where label 64 is wanted");
        desk.expect(&new.sheet(&new.serials, &broken), Answer::Refused(40, step), &[mark]);
    }
}
