//! What a formula has of each session: weight, seats and places. Only sessions that stand in it are
//! kept, in a list sorted by session; of every other it has weight 0, no seat and no place.

/// Predicate of a seat.
const SEAT: u8 = 1;
/// Predicate of a place.
const PLACE: u8 = 2;
/// The principal whose seats are the house's.
const HOUSE: u8 = 1;

/// The most sessions in one formula: each needs an atom, and n atoms make a size of at least
/// 2n - 1, which is at most 64.
const MAX_SESSIONS: usize = 32;

/// How many seats and places of one session stand in a formula.
#[derive(Clone, Copy)]
pub struct Atoms {
    pub seats: u8,
    /// Of the seats, those with no ⟨K⟩ above them in the formula.
    pub bare: u8,
    /// Of the seats, those whose nearest ⟨K⟩ above them is the house's.
    pub house: u8,
    pub places: u8,
}

pub const NO_ATOMS: Atoms = Atoms { seats: 0, bare: 0, house: 0, places: 0 };

/// What a formula has of one session; the size bound keeps the weight within -32 to 32.
#[derive(Clone, Copy)]
struct Share {
    session: u16,
    weight: i8,
    atoms: Atoms,
}

/// The share of a session that does not stand in a formula.
const fn nothing(session: u16) -> Share {
    Share { session, weight: 0, atoms: NO_ATOMS }
}

/// A formula's shares, sessions rising.
#[derive(Clone, Copy)]
pub struct Content {
    count: usize,
    shares: [Share; MAX_SESSIONS],
}

impl Content {
    /// The content of a formula in which no session stands.
    pub const EMPTY: Content = Content { count: 0, shares: [nothing(0); MAX_SESSIONS] };

    /// The content of an atom; a seat or place weighs 1, and a seat is bare.
    pub fn atom(predicate: u8, session: u16) -> Content {
        let weight = i8::from(matches!(predicate, SEAT | PLACE));
        let seats = u8::from(predicate == SEAT);
        let places = u8::from(predicate == PLACE);
        let mut content = Content::EMPTY;
        content.push(Share { session, weight, atoms: Atoms { seats, bare: seats, house: 0, places } });
        content
    }

    /// The content of ⟨K⟩ around a formula: K is now the nearest above its bare seats, and those that
    /// had one before keep it.
    pub fn said_by(&self, principal: u8) -> Content {
        let mut content = Content::EMPTY;
        for share in self.shares() {
            let Atoms { seats, bare, house, places } = share.atoms;
            let house = if principal == HOUSE { house + bare } else { house };
            content.push(Share { atoms: Atoms { seats, bare: 0, house, places }, ..*share });
        }
        content
    }

    /// The content of a formula with two parts: seats and places of both, and for each session the
    /// weight that `weigh` makes of the left and the right weight.
    pub fn join(left: &Content, right: &Content, weigh: impl Fn(i8, i8) -> i8) -> Content {
        let (mut lefts, mut rights) = (left.shares(), right.shares());
        let mut content = Content::EMPTY;
        while let Some(session) = lowest(lefts, rights) {
            let (l, r) = (take(&mut lefts, session), take(&mut rights, session));
            let weight = weigh(l.weight, r.weight);
            let seats = l.atoms.seats + r.atoms.seats;
            let bare = l.atoms.bare + r.atoms.bare;
            let house = l.atoms.house + r.atoms.house;
            let places = l.atoms.places + r.atoms.places;
            content.push(Share { session, weight, atoms: Atoms { seats, bare, house, places } });
        }
        content
    }

    /// The weight is 0 for every session.
    pub fn is_weightless(&self) -> bool {
        self.shares().iter().all(|share| share.weight == 0)
    }

    /// The sessions whose weight is not 0, rising, and their weights.
    pub fn weights(&self) -> impl Iterator<Item = (u16, i8)> + '_ {
        let heavy = self.shares().iter().filter(|share| share.weight != 0);
        heavy.map(|share| (share.session, share.weight))
    }

    /// Seats and places of a session.
    pub fn atoms(&self, session: u16) -> Atoms {
        // most formulas have one session
        if self.shares[0].session == session {
            return self.shares[0].atoms;
        }
        match self.shares().binary_search_by_key(&session, |share| share.session) {
            Ok(found) => self.shares[found].atoms,
            Err(_) => NO_ATOMS,
        }
    }

    /// The sessions that stand in the formula.
    pub fn sessions(&self) -> impl Iterator<Item = u16> + '_ {
        self.shares().iter().map(|share| share.session)
    }

    fn shares(&self) -> &[Share] {
        &self.shares[..self.count]
    }

    fn push(&mut self, share: Share) {
        self.shares[self.count] = share;
        self.count += 1;
    }
}

/// The lowest session of two sorted lists.
fn lowest(lefts: &[Share], rights: &[Share]) -> Option<u16> {
    let firsts = lefts.first().into_iter().chain(rights.first());
    firsts.map(|share| share.session).min()
}

/// Takes the session's share, if it comes first, off a sorted list that has none lower.
fn take(shares: &mut &[Share], session: u16) -> Share {
    match shares.split_first() {
        Some((first, rest)) if first.session == session => {
            *shares = rest;
            *first
        }
        _ => nothing(session),
    }
}
