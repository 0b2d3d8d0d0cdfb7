//! Random derivations, grown from the leaves down; every hypothesis weighs nothing less than 0,
//! so that what stays at the end can be issued: plain singles and balanced standing coupons.

use super::derivation::*;
use super::rng::Rng;
use super::wording::*;
use super::world::World;

pub struct Grower<'a> {
    pub rng: &'a mut Rng,
    pub world: &'a World,
    next: Id,
}

/// The weights of a wording, a session for each unit.
pub fn weights(part: &Part) -> Vec<u32> {
    let units = |s: u32| vec![s; part.weight(s).max(0) as usize];
    part.sessions().into_iter().flat_map(units).collect()
}

const LEFT: [&str; 15] = ["tl", "tl", "ol", "w1", "w2", "pl", "ll", "ll", "ul", "bl", "hl", "sl", "cp", "al", "al"];

impl<'a> Grower<'a> {
    pub fn new(rng: &'a mut Rng, world: &'a World) -> Grower<'a> {
        Grower { rng, world, next: 0 }
    }

    pub fn id(&mut self) -> Id {
        self.next += 1;
        self.next
    }

    pub fn hyp(&mut self, wording: Part, window: Window) -> Hyp {
        Hyp { id: self.id(), wording, window }
    }

    /// `ax` from a new hypothesis of a window around the goal's.
    pub fn axiom(&mut self, wording: Part, goal: Window) -> Deriv {
        let outer = self.world.containing(self.rng, goal);
        let h = self.hyp(wording, outer);
        ax(h, goal)
    }

    fn leaf(&mut self, want: &[u32], goal: Window, plain: bool) -> Deriv {
        match (want, self.rng.below(4)) {
            ([session], _) => {
                let wording = self.world.weighty_atom(self.rng, *session);
                self.axiom(wording, goal)
            }
            (_, 0) if !plain => or(goal),
            (_, 1) if !plain => {
                let inner = self.world.any(self.rng);
                gr(self.world.containing(self.rng, inner), inner, goal)
            }
            _ => {
                let wording = self.world.free_atom(self.rng);
                self.axiom(wording, goal)
            }
        }
    }

    /// Some goal with these weights, at this window, with a derivation of it.
    pub fn prove(&mut self, want: &[u32], goal: Window, fuel: u32, plain: bool) -> Deriv {
        let leaf = want.len() <= 1 && (fuel == 0 || self.rng.chance(1, 8));
        let bare = if leaf {
            self.leaf(want, goal, plain)
        } else {
            self.by_right(want, goal, fuel.saturating_sub(1), plain)
        };
        let extras = if fuel == 0 { 0 } else { self.rng.below(4) };
        self.decorate(bare, extras, fuel / 2)
    }

    fn by_right(&mut self, want: &[u32], goal: Window, fuel: u32, plain: bool) -> Deriv {
        let kinds: &[&str] = match (plain, fuel) {
            (_, 0) => &["tr"],
            (true, _) => &["tr", "tr", "sr"],
            (false, _) => &["tr", "sr", "wr", "wr", "p1", "p1", "p2", "p2", "br", "br", "hr"],
        };
        match self.rng.pick(kinds) {
            "sr" => self.affirmed(want, goal, fuel, plain),
            "wr" => {
                let a = self.prove(want, goal, fuel / 2, plain);
                let b = self.vary(a.clone());
                if self.rng.chance(1, 2) { wr(a, b) } else { wr(b, a) }
            }
            letters @ ("p1" | "p2") => {
                let a = self.prove(want, goal, fuel, plain);
                let other = self.world.wording(self.rng, want, 2);
                p(letters == "p1", a, &other)
            }
            "br" if want.is_empty() => br(self.closed(goal, fuel)),
            "hr" => {
                let inner = self.world.any(self.rng);
                hr(self.prove(want, inner, fuel, plain), goal)
            }
            _ => self.split(want, goal, fuel, plain),
        }
    }

    fn split(&mut self, want: &[u32], goal: Window, fuel: u32, plain: bool) -> Deriv {
        let cut = self.rng.below(want.len() + 1);
        let cut = if want.len() >= 2 { cut.clamp(1, want.len() - 1) } else { cut };
        let a = self.prove(&want[..cut], goal, fuel / 2, plain);
        let b = self.prove(&want[cut..], goal, fuel / 2, plain);
        tr(a, b)
    }

    fn affirmed(&mut self, want: &[u32], goal: Window, fuel: u32, plain: bool) -> Deriv {
        let principal = self.rng.pick(&self.world.principals);
        let a = self.prove(want, goal, fuel, plain);
        let mut a = af(a, principal);
        for _ in 0..self.rng.below(4) {
            let letters = self.rng.pick(&["sl", "sl", "sl", "tl", "cp", "hl", "ll", "al"]);
            a = self.try_left(a, letters, 1);
        }
        sr(a)
    }

    /// A derivation without single-use hypotheses.
    pub fn closed(&mut self, goal: Window, fuel: u32) -> Deriv {
        let mut a = self.prove(&[], goal, fuel, false);
        while let Some(h) = a.node.d.first().cloned() {
            a = self.copy(a, h.id);
        }
        a
    }

    /// The hypothesis comes from R: from one already there that is alike, or from a new one.
    pub fn copy(&mut self, a: Deriv, h: Id) -> Deriv {
        let of = a.hyp(h);
        let alike = a.r.iter().find(|r| r.wording == of.wording && r.window == of.window);
        let r = alike.map(|r| r.id).unwrap_or_else(|| self.id());
        cp(a, h, r)
    }

    /// Another goal of the same weights from the same hypotheses.
    fn vary(&mut self, a: Deriv) -> Deriv {
        let goal = a.goal().clone();
        match self.rng.below(7) {
            0 => a,
            1 => tr(a, or(goal.window)),
            2 => tr(or(goal.window), a),
            3 => sr(af(a, self.rng.pick(&self.world.principals))),
            4 => hr(a, goal.window),
            n => {
                let other = self.world.wording(self.rng, &weights(&goal.wording), 1);
                p(n == 5, a, &other)
            }
        }
    }

    pub fn decorate(&mut self, bare: Deriv, times: usize, fuel: u32) -> Deriv {
        let mut a = bare;
        for _ in 0..times {
            let letters = self.rng.pick(&LEFT);
            a = self.try_left(a, letters, fuel);
        }
        a
    }

    /// The left step below the derivation, if something there suits it.
    pub fn try_left(&mut self, a: Deriv, letters: &'static str, fuel: u32) -> Deriv {
        let fit = |h: &&Hyp| h.wording.size() <= 20;
        let d: Vec<Hyp> = a.node.d.iter().filter(fit).cloned().collect();
        if letters == "ol" {
            let w = self.world.any(self.rng);
            let l = self.hyp(one(), w);
            return left("ol", a, &[], l);
        }
        if letters == "bl" {
            let r: Vec<Hyp> = a.r.iter().filter(fit).cloned().collect();
            return if r.is_empty() { a } else { bl(a, self.rng.pick(&r).id, self.id()) };
        }
        if d.is_empty() {
            return a;
        }
        let h = self.rng.pick(&d);
        match letters {
            "cp" if h.wording.balanced() => self.copy(a, h.id),
            "tl" => self.join(a, &h, &d),
            "ll" | "ul" => self.arrow(a, &h, letters == "ll", fuel),
            "pl" => self.choice(a, &h),
            "w1" | "w2" | "hl" | "sl" => self.wrap(a, &h, letters, false),
            "al" => self.instance(a, &h),
            _ => a,
        }
    }

    fn join(&mut self, a: Deriv, h: &Hyp, d: &[Hyp]) -> Deriv {
        let like = |x: &&Hyp| x.window == h.window && x.id != h.id;
        let others: Vec<Hyp> = d.iter().filter(like).cloned().collect();
        if others.is_empty() {
            return a;
        }
        let other = self.rng.pick(&others);
        let l = self.hyp(tensor(&h.wording, &other.wording), h.window);
        left("tl", a, &[h.id, other.id], l)
    }

    fn arrow(&mut self, a: Deriv, h: &Hyp, linear: bool, fuel: u32) -> Deriv {
        let units = weights(&h.wording);
        let some = self.rng.below(units.len() + 1);
        let q = if linear {
            self.prove(&units[..some], h.window, fuel.clamp(2, 5), false)
        } else {
            self.closed(h.window, fuel.clamp(2, 5))
        };
        if q.goal().wording.size() > 20 {
            return a;
        }
        let outer = self.world.containing(self.rng, h.window);
        let l = self.id();
        arrow(linear, q, a, h.id, l, outer)
    }

    /// h below stands inside another wording; with `kept`, at the same window.
    fn wrap(&mut self, a: Deriv, h: &Hyp, letters: &'static str, kept: bool) -> Deriv {
        let other = self.world.wording(self.rng, &weights(&h.wording), 2);
        let mut w = h.window;
        let wording = match letters {
            "w1" => with(&h.wording, &other),
            "w2" => with(&other, &h.wording),
            "hl" => {
                w = if kept { w } else { self.world.any(self.rng) };
                at(&h.wording, h.window)
            }
            _ => match a.goal().by {
                Some(principal) if h.window.contains(a.goal().window) => says(principal, &h.wording),
                _ => return a,
            },
        };
        let l = self.hyp(wording, w);
        left(letters, a, &[h.id], l)
    }

    /// h below is a `q`, used at one holder.
    fn instance(&mut self, a: Deriv, h: &Hyp) -> Deriv {
        let Some((wording, holder)) = self.world.for_every(self.rng, &h.wording) else { return a };
        let l = self.hyp(wording, h.window);
        al(a, h.id, l, holder)
    }

    /// `pl`: one arm is h, the other is h dressed by other left steps.
    fn choice(&mut self, a: Deriv, h: &Hyp) -> Deriv {
        let mut b = a.clone();
        let mut dressed = h.clone();
        for _ in 0..self.rng.below(3) {
            b = match self.rng.pick(&["w1", "w2", "hl", "sl", "one", "ul", "al"]) {
                "one" => {
                    let extra = self.hyp(one(), h.window);
                    let l = self.hyp(tensor(&extra.wording, &dressed.wording), h.window);
                    left("tl", left("ol", b, &[], extra.clone()), &[extra.id, dressed.id], l)
                }
                "ul" => {
                    let l = self.id();
                    arrow(false, or(h.window), b, dressed.id, l, h.window)
                }
                "al" => self.instance(b, &dressed),
                letters => self.wrap(b, &dressed, letters, true),
            };
            let kept: Vec<Id> = a.node.d.iter().map(|x| x.id).filter(|id| *id != h.id).collect();
            dressed = b.without(&kept)[0].clone();
        }
        let l = self.id();
        if self.rng.chance(1, 2) { pl(a, h.id, b, dressed.id, l) } else { pl(b, dressed.id, a, h.id, l) }
    }

    /// h comes from an offer of it for something that weighs the same; gives the offer, which weighs nothing.
    pub fn offered(&mut self, a: Deriv, h: &Hyp) -> (Deriv, Id) {
        let q = self.prove(&weights(&h.wording), h.window, 0, true);
        let outer = self.world.containing(self.rng, h.window);
        let id = self.id();
        (arrow(true, q, a, h.id, id, outer), id)
    }

    /// Takes every hypothesis that is no plain single from standing coupons.
    pub fn finish(&mut self, a: Deriv) -> Deriv {
        let mut a = a;
        loop {
            let open = |h: &&Hyp| !h.wording.plain();
            let Some(h) = a.node.d.iter().find(open).cloned() else { return a };
            let (offered, id) = if h.wording.balanced() { (a, h.id) } else { self.offered(a, &h) };
            a = self.copy(offered, id);
        }
    }

    /// The goal of a plain hypothesis from it alone, at a window inside its own.
    pub fn identity(&mut self, h: Hyp, goal: Window) -> Deriv {
        match &*h.wording {
            Wording::Tensor(x, y) => {
                let (x, y) = (self.hyp(x.clone(), h.window), self.hyp(y.clone(), h.window));
                let (i, j) = (x.id, y.id);
                let both = tr(self.identity(x, goal), self.identity(y, goal));
                left("tl", both, &[i, j], h)
            }
            Wording::Says(k, x) => {
                let x = self.hyp(x.clone(), h.window);
                let i = x.id;
                let inner = af(self.identity(x, goal), *k);
                sr(left("sl", inner, &[i], h.clone()))
            }
            _ => ax(h, goal),
        }
    }
}
