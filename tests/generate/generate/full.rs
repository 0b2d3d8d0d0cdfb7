//! Bookings at the limits of a sheet: 256 steps, 64 labels, 32 holds, and one more of each.

use super::booking::{holds_for, place, Booking};
use super::derivation::{af, arrow, ax, hr, left, or, sr, tr, Deriv};
use super::grow::Grower;
use super::late::burn;
use super::model::Answer;
use super::rng::Rng;
use super::session::{Desk, Session};
use super::wording::*;
use super::world::World;

/// A goal without hypotheses that takes exactly this many steps; its size is the same number.
fn filler(steps: usize, w: Window) -> Deriv {
    match steps {
        1 => or(w),
        2 => hr(or(w), w),
        n => tr(or(w), filler(n - 2, w)),
    }
}

/// An atom booked in exactly so many steps and labels. Each round of `cp`, `ul`, filler, `ol` has a
/// coupon and takes two labels; the burnt labels have one coupon more.
fn sized(g: &mut Grower, steps: usize, labels: usize, w: Window) -> Deriv {
    let rounds = if labels.is_multiple_of(2) { 4 } else { 3 };
    let burnt = labels - (2 + 3 * rounds);
    let filling = steps - (1 + 3 * rounds + burnt);
    let h = g.hyp(atom(2, 7), w);
    let mut a = ax(h, w);
    let mut left_over = filling;
    for round in 0..rounds {
        let even = filling / rounds + round;
        let size = if round + 1 == rounds { left_over } else { even - 3 };
        left_over -= size;
        let l = g.hyp(one(), w);
        let (i, j) = (l.id, g.id());
        a = arrow(false, filler(size, w), left("ol", a, &[], l), i, j, w);
        a = g.copy(a, j);
    }
    burn(g, a, burnt, w)
}

fn play(desk: &mut Desk, b: &Booking) {
    let texts = b.texts();
    if b.fits_limits() {
        b.accept(desk);
    } else if texts.len() > 256 {
        desk.refuse(&b.sheet(&b.serials, &texts), 2, "range: beyond the high end");
    } else {
        let (step, lines) = b.script.overflow.expect("more than 64 labels");
        desk.expect(&b.sheet(&b.serials, &texts[..lines]), Answer::Refused(41, step), &[]);
    }
}

/// As many singles as that, joined in one goal, the shares between empty and full.
fn many_singles(g: &mut Grower, n: usize, w: Window) -> Deriv {
    if n == 1 {
        let session = g.rng.pick(&[7, 8, 263]);
        return g.axiom(atom(1, session), w);
    }
    let cut = 1 + g.rng.below(n - 1);
    let (a, b) = (many_singles(g, cut, w), many_singles(g, n - cut, w));
    tr(a, b)
}

pub fn session(seed: u64) -> Session {
    let mut rng = Rng::new(seed);
    let world = World::new(&mut rng);
    let mut desk = Desk::new();
    let mut g = Grower::new(&mut rng, &world);
    let w = with_break(3, 8, 6, 7);
    for (steps, labels) in [(256, 40), (255, 64), (256, 64), (257, 30), (200, 65), (200, 66), (180, 63)] {
        let deriv = sized(&mut g, steps, labels, w);
        let holds = holds_for(&deriv, g.rng);
        let Some(b) = place(&mut desk, deriv, holds, 5) else { continue };
        assert!(b.script.lines.len() == steps && b.script.labels() == labels, "sized as said");
        play(&mut desk, &b);
    }
    // 32 seats in one goal: bare, then the house's.
    let joined = many_singles(&mut g, 32, w);
    for goal in [joined.clone(), sr(af(joined, HOUSE))] {
        let holds = holds_for(&goal, g.rng);
        if let Some(b) = place(&mut desk, goal, holds, 5) {
            play(&mut desk, &b);
        }
    }
    desk.tally(7, 3);
    desk.tally(8, 9);
    desk.tally(263, 3);
    desk.tally(7, 6);
    desk.tally(8, 7);
    desk.session("full bookings", seed)
}
