//! Seeded sessions of sheets for the booking till, with the answers that document 01 demands, and document 02 so far as
//! it has landed (asks 1 to 4, 7 and 8, and 5 with what 8 says of texts in sessions of its own).

pub mod arrivals;
pub mod balance;
pub mod booking;
pub mod breaks;
pub mod capacity;
pub mod coverage;
pub mod damage;
pub mod derivation;
pub mod drills;
pub mod editions;
pub mod follow;
pub mod form;
pub mod full;
pub mod grid;
pub mod grow;
pub mod holders;
pub mod house;
pub mod instances;
pub mod late;
pub mod life;
pub mod long;
pub mod matrix;
pub mod midday;
pub mod model;
pub mod pairs;
pub mod papers;
pub mod ranges;
pub mod relation;
pub mod rng;
pub mod session;
pub mod slips;
pub mod spans;
pub mod text;
pub mod text_form;
pub mod text_life;
pub mod text_rules;
pub mod tour;
pub mod wording;
pub mod world;
pub mod write;

use booking::Seen;
use session::Session;

/// What a run was asked for.
pub struct Wish {
    pub seed: u64,
    /// Random sessions, beside the fixed ones.
    pub sessions: u64,
    /// With the run up to the last serial.
    pub long: bool,
    /// The sessions in which the till is closed and opened, and no others.
    pub texts: bool,
}

impl Wish {
    /// Seed and number of random sessions from the arguments, `--long` and `--texts` anywhere; the rest is returned.
    pub fn of(args: impl Iterator<Item = String>) -> (Wish, Vec<String>) {
        let (flags, rest): (Vec<String>, Vec<String>) = args.partition(|a| a == "--long" || a == "--texts");
        let mut rest = rest.into_iter();
        let mut number = |default: u64| rest.next().map_or(default, |a| a.parse().expect("a number"));
        let (seed, sessions) = (number(1), number(12));
        let asked = |flag: &str| flags.iter().any(|f| f == flag);
        (Wish { seed, sessions, long: asked("--long"), texts: asked("--texts") }, rest.collect())
    }
}

/// The fixed sessions, which differ by seed in numbers only.
fn fixed(seed: u64, seen: &mut Seen) -> Vec<Session> {
    let mut all = papers::sessions();
    all.extend(slips::sessions());
    all.extend(matrix::sessions());
    all.extend(balance::sessions());
    all.extend(capacity::sessions(seed));
    all.extend(ranges::sessions(seed));
    all.extend(pairs::sessions(seed));
    all.extend(tour::sessions());
    all.extend(midday::sessions());
    all.extend(grid::sessions());
    all.extend(house::sessions(seed));
    all.extend(holders::sessions(seed));
    all.push(full::session(seed));
    all.extend([life::fixed(), life::many(seed), life::session(seed, 120), balance::random(seed)]);
    all.extend(spans::sessions(seed));
    all.extend([damage::fixed(seed), damage::calls(seed), damage::random(seed)]);
    for paused in [false, true] {
        all.extend(drills::DRILLS.iter().map(|letters| drills::session(letters, paused, seed, seen)));
    }
    all
}

/// Sessions whose sheets are worth playing between closing and opening, and how many sheets lie between.
fn to_pack(seed: u64, seen: &mut Seen) -> Vec<(Session, u32)> {
    let mut all = papers::sessions();
    all.extend(slips::sessions());
    all.extend(balance::sessions());
    all.extend(capacity::sessions(seed));
    all.extend(tour::sessions().into_iter().filter(|session| !session.name.contains("straight through")));
    all.extend(house::sessions(seed));
    all.extend(holders::sessions(seed));
    all.extend([full::session(seed), life::fixed(), life::session(seed, 120), balance::random(seed)]);
    all.extend(spans::sessions(seed));
    all.extend(drills::DRILLS.iter().map(|letters| drills::session(letters, true, seed, seen)));
    // Where the till is filled its texts are long.
    let apart = |session: Session| {
        let sheets = session.cases.len() as u32;
        let issues = session.cases.iter().filter(|case| case.sheet.starts_with(b"issue,")).count();
        (session, if issues > 2_000 { sheets / 10 } else { 20 + sheets / 40 })
    };
    all.into_iter().map(apart).collect()
}

/// The sessions in which the till is closed and opened.
fn with_texts(wish: &Wish) -> Vec<Session> {
    let mut seen = Seen::new();
    let mut all = text_form::sessions(wish.seed);
    all.extend(text_rules::sessions(wish.seed));
    all.extend(text_life::sessions(wish.seed));
    all.extend(editions::sessions());
    let to_pack = to_pack(wish.seed, &mut seen);
    all.extend(to_pack.iter().map(|(session, apart)| text_life::packed(session, wish.seed, *apart)));
    let random = random(wish, &mut seen);
    all.extend(random.iter().map(|session| text_life::packed(session, session.seed, 12)));
    all
}

/// All sessions of a run.
pub fn sessions(wish: &Wish) -> Vec<Session> {
    relation::check();
    if wish.texts {
        return with_texts(wish);
    }
    let mut seen = Seen::new();
    let mut all = fixed(wish.seed, &mut seen);
    let late = arrivals::sessions(wish.seed, &all);
    all.extend(random(wish, &mut seen));
    all.extend(late);
    if wish.long {
        all.push(long::session());
    }
    all
}

/// The random sessions.
fn random(wish: &Wish, seen: &mut Seen) -> Vec<Session> {
    let mut all = vec![];
    for n in 0..wish.sessions {
        let seed = wish.seed.wrapping_mul(1_000_003).wrapping_add(n);
        all.push(match n % 8 {
            0 => life::session(seed, 60),
            3 => balance::random(seed),
            6 => damage::random(seed),
            _ => life::bookings(seed, seen, 4, 12),
        });
        if n % 8 == 5 {
            all.extend([house::random(seed), holders::random(seed)]);
        }
    }
    all
}
