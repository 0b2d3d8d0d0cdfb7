//! The till over time: issues, bookings of booked coupons, withdrawals of every sort, tallies between.

use super::booking::{place, Booking, Seen};
use super::derivation::{Deriv, Hyp};
use super::drills::exercise;
use super::form::Kind;
use super::grow::Grower;
use super::model::{Coupon, Steps, MOST_LIVE};
use super::rng::Rng;
use super::session::{Desk, Session};
use super::wording::*;
use super::world::{inside, minutes_of, World};
use super::write::Hold;

pub const LIFE: [&str; 11] = [
    "withdraw single", "withdraw standing", "withdraw booked", "withdraw dead", "booked coupon booked again",
    "spent single held", "spent single withdrawn", "withdrawn single held", "withdrawn standing held",
    "live after many came and went", "dead after many came and went",
];

/// A plain wording over the stock.
fn plain(rng: &mut Rng, world: &World, depth: u32) -> Part {
    match rng.below(if depth == 0 { 2 } else { 5 }) {
        0 => world.weighty_atom(rng, world.sessions[0]),
        1 => {
            let (predicate, session) = (rng.pick(&[1, 2, 9]), rng.pick(&world.sessions));
            world.some_atom(rng, predicate, session)
        }
        2 | 3 => tensor(&plain(rng, world, depth - 1), &plain(rng, world, depth - 1)),
        _ => says(rng.pick(&world.principals), &plain(rng, world, depth - 1)),
    }
}

/// A booking of one live single for its own wording, in a window inside its own.
fn again(desk: &mut Desk, g: &mut Grower, c: &Coupon) -> Option<Booking> {
    booked_as(desk, g, c, |g: &mut Grower, h, w| g.identity(h, w))
}

/// A booking of one live single for what is derived from it, in a window inside its own.
pub fn booked_as(
    desk: &mut Desk,
    g: &mut Grower,
    c: &Coupon,
    derived: fn(&mut Grower, Hyp, Window) -> Deriv,
) -> Option<Booking> {
    let inner = inside(g.rng, c.window);
    let inner = g.rng.pick(&[inner, c.window]);
    let h = g.hyp(c.wording.clone(), c.window);
    let id = h.id;
    let deriv = derived(g, h, inner);
    let hold = Hold { ids: vec![id], standing: false, wording: c.wording.clone(), window: c.window };
    let now = g.rng.pick(&minutes_of(inner));
    let mut b = place(desk, deriv, vec![hold], now)?;
    b.serials = vec![c.serial];
    b.fits_limits().then_some(b)
}

/// The same sheet held a dead coupon: 24, whatever its steps.
fn held_dead(desk: &mut Desk, b: &Booking, name: &'static str) {
    desk.refuse(&b.sheet(&b.serials, &b.texts()), 24, name);
}

fn withdraw(desk: &mut Desk, rng: &mut Rng, booked: &[u32], dead: &mut Vec<u32>) {
    if rng.chance(1, 4) && !dead.is_empty() {
        let serial = rng.pick(dead);
        desk.refuse(format!("withdraw,{serial}\n").as_bytes(), 24, "withdraw dead");
        return;
    }
    let Some(c) = some_live(desk, rng) else { return };
    let name = match c.kind {
        Kind::Standing => "withdraw standing",
        Kind::Single if booked.contains(&c.serial) => "withdraw booked",
        Kind::Single => "withdraw single",
    };
    desk.script(&format!("withdraw,{}", c.serial), &format!("ok,{}", c.serial), name);
    let own = c.wording.sessions();
    if c.kind == Kind::Single && desk.model.seated(&|s| own.iter().any(|t| alike(s, *t))) {
        desk.mark(&["alike: withdrawn beside the other"]);
    }
    dead.push(c.serial);
    let held = format!("book,0,0,0,0,0,0,1,1\nhold,{}\nax,0\n", c.serial);
    if desk.model.wordings[0].plain() {
        let standing = c.kind == Kind::Standing;
        let name = if standing { "withdrawn standing held" } else { "withdrawn single held" };
        desk.refuse(held.as_bytes(), 24, name);
    }
}

fn some_live(desk: &Desk, rng: &mut Rng) -> Option<Coupon> {
    (!desk.model.live.is_empty()).then(|| rng.pick(&desk.model.live))
}

fn book(desk: &mut Desk, g: &mut Grower, booked: &mut Vec<u32>, dead: &mut Vec<u32>) {
    let Some(c) = some_live(desk, g.rng).filter(|c| c.kind == Kind::Single) else { return };
    let Some(b) = again(desk, g, &c) else { return };
    b.accept(desk);
    if booked.contains(&c.serial) {
        desk.mark(&["booked coupon booked again"]);
    }
    booked.push(desk.model.given);
    dead.push(c.serial);
    held_dead(desk, &b, "spent single held");
    let serial = c.serial;
    desk.refuse(format!("withdraw,{serial}\n").as_bytes(), 24, "spent single withdrawn");
}

pub fn session(seed: u64, calls: usize) -> Session {
    let mut rng = Rng::new(seed);
    let world = World::new(&mut rng);
    let mut desk = Desk::new();
    desk.enter(&atom(1, world.sessions[0]));
    let (mut booked, mut dead) = (vec![], vec![]);
    for _ in 0..calls {
        match rng.below(7) {
            0 | 1 => {
                let part = plain(&mut rng, &world, 3);
                let missing = desk.missing(std::slice::from_ref(&part));
                if missing + desk.model.lines.len() <= 190 && part.size() <= 64 {
                    let w = world.any(&mut rng);
                    desk.issue(Kind::Single, &part, w);
                }
            }
            2 => {
                let w = world.any(&mut rng);
                let seat = atom(1, world.sessions[0]);
                let offer = lolli(&seat, &seat);
                desk.issue(Kind::Standing, &offer, w);
            }
            3 => withdraw(&mut desk, &mut rng, &booked, &mut dead),
            4 | 5 => book(&mut desk, &mut Grower::new(&mut rng, &world), &mut booked, &mut dead),
            _ => desk.tallies(&mut rng, 2),
        }
    }
    every_end(&mut desk);
    desk.session("life", seed)
}

/// Tallies at the ends of some live windows and of their breaks, for every session that occurs and one that is alike.
pub fn every_end(desk: &mut Desk) {
    let named = desk.model.live.iter().flat_map(|c| c.wording.sessions());
    let sessions: std::collections::BTreeSet<u32> = named.flat_map(|s| [s, s ^ 256]).collect();
    let windows: std::collections::BTreeSet<Window> = desk.model.live.iter().map(|c| c.window).collect();
    for session in sessions {
        for w in windows.iter().take(4) {
            desk.tally(session, w.from);
            desk.tally(session, (w.to + 1).min(LAST_MINUTE));
            if w.has_break() {
                [w.first - 1, w.first, w.last, w.last + 1].iter().for_each(|m| desk.tally(session, *m));
            }
        }
    }
    desk.play(b"tally,255,0\n", Steps::Close);
    desk.play(b"tally,65535,0\n", Steps::Close);
}

/// One coupon of each sort through all that can happen to it.
pub fn fixed() -> Session {
    let mut desk = Desk::new();
    desk.words(&["a,1,7", "l,0,0", "s,1,0"]);
    let booking = |serial: u32| format!("book,5,2,4,9,0,0,1,4|hold,{serial}|sr|sl,0|af|ax,1");
    for (n, kind) in ["s", "s", "s", "r"].iter().enumerate() {
        let wording = if *kind == "r" { 1 } else { 2 };
        desk.script(&format!("issue,{kind},{wording},0,9,0,0"), &format!("ok,{}", n + 1), "");
    }
    desk.script("tally,7,3", "ok,3,0,0", "tally");
    desk.script(&booking(1), "ok,5", "");
    desk.script("tally,7,3", "ok,2,1,0", "tally");
    desk.script(&booking(1), "no,24,0", "spent single held");
    desk.script("withdraw,1", "no,24,0", "spent single withdrawn");
    desk.script(&booking(5), "ok,6", "booked coupon booked again");
    desk.script("withdraw,6", "ok,6", "withdraw booked");
    desk.script(&booking(6), "no,24,0", "withdrawn single held");
    desk.script("withdraw,2", "ok,2", "withdraw single");
    desk.script("withdraw,2", "no,24,0", "withdraw dead");
    desk.script(&booking(2), "no,24,0", "withdrawn single held");
    desk.script("withdraw,4", "ok,4", "withdraw standing");
    desk.script("withdraw,4", "no,24,0", "withdraw dead");
    let both = "book,5,2,4,9,0,0,2,4|hold,3|hold,4|sr|sl,0|af|ax,2";
    desk.script(both, "no,24,0", "withdrawn standing held");
    desk.script("withdraw,7", "no,24,0", "withdraw dead");
    desk.script("issue,s,2,9,9,0,0", "ok,7", "");
    desk.script("tally,7,9", "ok,2,0,0", "tally");
    desk.script("tally,7,8", "ok,1,1,0", "tally");
    desk.script("tally,7,10", "ok,0,2,0", "tally");
    desk.script("tally,8,9", "ok,0,0,0", "tally");
    desk.words(&["a,2,7", "t,3,3", "s,1,4", "a,1,255", "a,2,0", "t,6,7", "t,0,0", "s,1,9", "s,1,8"]);
    for (serial, wording) in [(8, 5), (9, 11), (10, 10), (11, 0), (12, 9)] {
        desk.script(&format!("issue,s,{wording},0,9,0,0"), &format!("ok,{serial}"), "");
    }
    desk.script("tally,7,9", "ok,4,3,2", "tally");
    desk.script("tally,255,9", "ok,1,0,0", "tally");
    desk.script("tally,0,10", "ok,0,0,1", "tally");
    desk.session("life: one of each", 0)
}

/// A full till in which coupons go and others come, many times, bare seats and the house's; then every serial ever
/// given is asked for.
pub fn many(seed: u64) -> Session {
    let mut rng = Rng::new(seed);
    let mut desk = Desk::new();
    let w = window(0, 9);
    let seats = [atom(1, 7), says(HOUSE, &atom(1, 7))];
    while desk.model.live.len() < MOST_LIVE {
        desk.issue(Kind::Single, &rng.pick(&seats), w);
    }
    for n in 0..8_000 {
        let (c, next) = (rng.pick(&desk.model.live), desk.model.given + 1);
        let (serial, bare) = (c.serial, c.wording == seats[0]);
        if rng.chance(1, 2) {
            desk.script(&format!("withdraw,{serial}"), &format!("ok,{serial}"), "");
            desk.issue(Kind::Single, &rng.pick(&seats), w);
        } else {
            let (goal, steps) = match (bare, rng.chance(1, 3)) {
                (true, true) => (1, "3|hold,{}|sr|af|ax,0"),
                (true, false) => (0, "1|hold,{}|ax,0"),
                (false, _) => (1, "4|hold,{}|sr|sl,0|af|ax,1"),
            };
            let sheet = format!("book,5,{goal},0,9,0,0,1,{steps}").replace("{}", &serial.to_string());
            desk.script(&sheet, &format!("ok,{next}"), "");
        }
        if n % 500 == 0 {
            [9, 10].iter().for_each(|minute| desk.tally(7, *minute));
        }
    }
    desk.tally(7, 9);
    let mut all: Vec<u32> = (1..=desk.model.given).collect();
    rng.shuffle(&mut all);
    for serial in all {
        let sheet = format!("withdraw,{serial}");
        if desk.model.coupon(serial).is_some() {
            desk.script(&sheet, &format!("ok,{serial}"), "live after many came and went");
        } else {
            desk.script(&sheet, "no,24,0", "dead after many came and went");
        }
    }
    desk.tally(7, 9);
    desk.session("life: many come and go", seed)
}

/// Random derivations booked, broken first; then their goals booked on and withdrawn.
pub fn bookings(seed: u64, seen: &mut Seen, how_many: usize, breaks: usize) -> Session {
    let mut rng = Rng::new(seed);
    let world = World::new(&mut rng);
    let mut desk = Desk::new();
    let mut made = 0;
    for attempt in 0..how_many * 8 {
        if made == how_many {
            break;
        }
        let fuel = rng.between(3, 18).saturating_sub(attempt as u32 / 2);
        let mut g = Grower::new(&mut rng, &world);
        let Some(b) = super::booking::random(&mut desk, &mut g, fuel) else { continue };
        exercise(&b, &mut desk, &mut g, seen, breaks);
        made += 1;
        let goal = desk.model.live.last().expect("the goal's coupon").clone();
        desk.tallies(&mut rng, 3);
        let mut g = Grower::new(&mut rng, &world);
        if let Some(b) = again(&mut desk, &mut g, &goal) {
            b.accept(&mut desk);
            desk.mark(&["booked coupon booked again"]);
            held_dead(&mut desk, &b, "spent single held");
        }
        desk.tallies(&mut rng, 2);
    }
    desk.session("bookings", seed)
}
