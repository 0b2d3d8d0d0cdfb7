//! Bookings on the desk: coupons issued for a derivation, the sheet accepted, and the sheet broken.

use super::breaks::{breaks, Broken};
use super::derivation::{Deriv, Hyp};
use super::follow::{at_first, first_wrong};
use super::form::Kind;
use super::grow::Grower;
use super::model::Answer;
use super::rng::Rng;
use super::session::Desk;
use super::wording::*;
use super::write::{Hold, Script, StepLine};
use std::collections::BTreeMap;

/// How often each named thing was made so far; the rarest are made first.
pub type Seen = BTreeMap<&'static str, u32>;

/// A booking whose coupons are issued: everything its sheet needs.
pub struct Booking {
    pub now: u32,
    pub goal: u32,
    pub window: Window,
    pub deriv: Deriv,
    pub holds: Vec<Hold>,
    pub serials: Vec<u32>,
    pub script: Script,
}

/// The holds for a derivation: a coupon for each single, one for standing hypotheses that are alike.
pub fn holds_for(deriv: &Deriv, rng: &mut Rng) -> Vec<Hold> {
    let hold = |h: &Hyp, standing: bool| Hold {
        ids: vec![h.id],
        standing,
        wording: h.wording.clone(),
        window: h.window,
    };
    let mut holds: Vec<Hold> = deriv.node.d.iter().map(|h| hold(h, false)).collect();
    for r in &deriv.r {
        let alike = |h: &&mut Hold| h.standing && h.wording == r.wording && h.window == r.window;
        match holds.iter_mut().find(alike) {
            Some(h) => h.ids.push(r.id),
            None => holds.push(hold(r, true)),
        }
    }
    rng.shuffle(&mut holds);
    holds
}

/// The derivation as a booking, unless it passes a limit of sheets, wordings or the till.
pub fn place(desk: &mut Desk, deriv: Deriv, holds: Vec<Hold>, now: u32) -> Option<Booking> {
    let script = Script::of(&deriv, &holds);
    let mut parts: Vec<Part> = holds.iter().map(|h| h.wording.clone()).collect();
    parts.push(deriv.goal().wording.clone());
    let small = parts.iter().all(|p| p.size() <= 64) && desk.missing(&parts) + desk.model.lines.len() <= 200;
    if holds.len() > 32 || !small || desk.model.live.len() + holds.len() > 500 {
        return None;
    }
    let mut serials = vec![];
    for h in &holds {
        let kind = if h.standing { Kind::Standing } else { Kind::Single };
        let alike = desk.model.live.iter().find(|c| {
            c.kind == kind && c.wording == h.wording && c.window == h.window && !serials.contains(&c.serial)
        });
        let old = alike.map(|c| c.serial);
        serials.push(old.unwrap_or_else(|| desk.issue(kind, &h.wording, h.window)));
    }
    let goal = desk.enter(&deriv.goal().wording);
    let window = deriv.goal().window;
    Some(Booking { now, goal, window, deriv, holds, serials, script })
}

impl Booking {
    pub fn sheet(&self, serials: &[u32], steps: &[String]) -> Vec<u8> {
        self.sheet_at(self.now, self.window, serials, steps)
    }

    pub fn sheet_at(&self, now: u32, w: Window, serials: &[u32], steps: &[String]) -> Vec<u8> {
        let (h, n) = (serials.len(), steps.len());
        let mut text = format!("book,{now},{},{},{h},{n}\n", self.goal, w.text());
        serials.iter().for_each(|s| text += &format!("hold,{s}\n"));
        steps.iter().for_each(|s| text += &format!("{s}\n"));
        text.into_bytes()
    }

    pub fn texts(&self) -> Vec<String> {
        self.script.lines.iter().map(StepLine::text).collect()
    }

    pub fn fits_limits(&self) -> bool {
        self.script.overflow.is_none() && self.script.lines.len() <= 256
    }

    /// The sheet that must be accepted.
    pub fn accept(&self, desk: &mut Desk) {
        assert_eq!(first_wrong(&self.deriv, &at_first(&self.deriv), None), None, "a derivation");
        let serial = desk.model.given + 1;
        let sheet = self.sheet(&self.serials, &self.texts());
        desk.expect(&sheet, Answer::Done(serial), &self.marks());
    }

    fn marks(&self) -> Vec<&'static str> {
        let mut marks: Vec<&'static str> = self.script.lines.iter().map(|l| l.letters).collect();
        for (line, scene) in self.script.lines.iter().zip(&self.script.scenes) {
            let all: u64 = scene.d.iter().map(|h| 1u64 << h.label).sum();
            if let (Some(share), false) = (line.share, scene.d.len() < 2) {
                let own = line.label.map_or(0, |l| 1u64 << l);
                marks.push(match share {
                    0 => "share empty",
                    s if s == all & !own => "share full",
                    _ => "share between",
                });
            }
        }
        let top = self.deriv.goal().wording.letter();
        marks.push(if top == 's' { "goal under ⟨K⟩" } else { "goal not under ⟨K⟩" });
        marks.extend((self.script.labels() == 64).then_some("64 labels"));
        marks.extend((self.script.lines.len() == 256).then_some("256 steps"));
        marks.extend((self.holds.len() == 32).then_some("32 holds"));
        marks.extend(self.two_within_two().then_some("two premises within two"));
        marks.extend(self.singles_alike().then_some("alike: both in one booking"));
        marks.extend(self.right_by_break());
        marks.extend(super::holders::booked(self));
        for h in self.holds.iter().filter(|h| h.standing) {
            let mut parts = vec![];
            h.wording.collect(&mut parts);
            marks.extend(parts.iter().map(|p| STANDING[LETTERS.find(p.letter()).unwrap()]));
        }
        marks.sort();
        marks.dedup();
        marks
    }

    /// Singles of two sessions that are alike are held together.
    fn singles_alike(&self) -> bool {
        let singles = self.holds.iter().filter(|h| !h.standing);
        let all: Vec<u32> = singles.flat_map(|h| h.wording.sessions()).collect();
        all.iter().any(|s| all.iter().any(|t| alike(*s, *t)))
    }

    /// Steps that compare windows and are right only by a break of the inner one.
    fn right_by_break(&self) -> Vec<&'static str> {
        let mut marks = vec![];
        for (line, scene) in self.script.lines.iter().zip(&self.script.scenes) {
            let l = scene.d.iter().find(|h| Some(h.label) == line.label).map(|h| h.window);
            let inner = line.window.unwrap_or(scene.goal.window);
            let (place, outer, inner) = match (line.letters, l, &*scene.goal.wording) {
                ("ax", Some(w), _) => (0, w, inner),
                ("sl", Some(w), _) => (1, w, inner),
                ("ll", Some(w), _) => (2, w, inner),
                ("ul", Some(w), _) => (3, w, inner),
                ("gr", _, Wording::Covers(outer, inner)) => (4, *outer, *inner),
                _ => continue,
            };
            marks.extend((!outer.contains(inner.whole())).then_some(RIGHT_BY_BREAK[place]));
        }
        marks
    }

    fn two_within_two(&self) -> bool {
        let two = |i: usize| self.script.scenes[i].starts.len() == 2;
        let inside = |i: usize| self.script.scenes[i].starts.iter().any(|s| two(*s));
        (0..self.script.scenes.len()).any(|i| two(i) && inside(i))
    }

    /// Sheets that break one rule at one step, the rarest ways first.
    pub fn break_steps(&self, desk: &mut Desk, rng: &mut Rng, seen: &mut Seen, how_many: usize) {
        let mut all: Vec<(usize, Broken)> = vec![];
        for (i, scene) in self.script.scenes.iter().enumerate() {
            all.extend(breaks(scene).into_iter().map(|b| (i, b)));
        }
        rng.shuffle(&mut all);
        for _ in 0..how_many.min(all.len()) {
            all.sort_by_key(|(_, (name, _))| seen.get(name).copied().unwrap_or(0));
            let (i, (name, line)) = all.remove(0);
            *seen.entry(name).or_insert(0) += 1;
            let mut texts = self.texts();
            texts[i] = line.text();
            texts.truncate(256);
            let sheet = self.sheet(&self.serials, &texts);
            desk.expect(&sheet, Answer::Refused(40, i as u32 + 1), &[name]);
        }
    }
}

/// Marks of accepted bookings that come by chance.
pub const RIGHT_BY_BREAK: [&str; 5] = [
    "by chance: ax right by a break", "by chance: sl right by a break", "by chance: ll right by a break",
    "by chance: ul right by a break", "by chance: gr right by a break",
];

pub const LETTERS: &str = "aotwplubhsgnq";
pub const STANDING: [&str; 13] = [
    "standing a", "standing o", "standing t", "standing w", "standing p", "standing l", "standing u",
    "standing b", "standing h", "standing s", "standing g", "standing n", "standing q",
];

/// A random booking of a plain goal, or None where it passed a limit.
pub fn random(desk: &mut Desk, g: &mut Grower, fuel: u32) -> Option<Booking> {
    let want: Vec<u32> = (0..g.rng.below(4)).map(|_| g.rng.pick(&g.world.sessions)).collect();
    let goal = g.world.open_now(g.rng);
    let grown = g.prove(&want, goal, fuel, true);
    let deriv = g.finish(grown);
    let mut holds = holds_for(&deriv, g.rng);
    if g.rng.chance(1, 3) {
        let wording = g.world.wording(g.rng, &[], 3);
        let spare = Hold { ids: vec![], standing: true, wording, window: g.world.any(g.rng) };
        let place = g.rng.below(holds.len() + 1);
        holds.insert(place, spare);
    }
    let script = Script::of(&deriv, &holds);
    if script.overflow.is_some() || script.lines.len() > 256 {
        return None;
    }
    place(desk, deriv, holds, g.world.now)
}
