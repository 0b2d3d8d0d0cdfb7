//! A small model of the till. It knows every check but those of the steps, whose end it is told.

use super::form::{read, BookHead, Kind, Sheet, WordingLine};
use super::wording::*;

#[derive(Clone, Copy, PartialEq, Eq, Debug)]
pub enum Answer {
    Done(u32),
    Counted(u32, u32, u32),
    Refused(u32, u32),
}

use Answer::*;

impl Answer {
    /// The answer as `tillrun` prints it.
    pub fn line(&self) -> String {
        match self {
            Done(n) => format!("ok,{n}"),
            Counted(open, shut, placed) => format!("ok,{open},{shut},{placed}"),
            Refused(number, step) => format!("no,{number},{step}"),
        }
    }

    /// The answer that a line of `tillrun` stands for.
    pub fn of(line: &str) -> Answer {
        let n: Vec<u32> = line[3..].split(',').map(|f| f.parse().expect("an answer line")).collect();
        match (&line[..3], n.as_slice()) {
            ("ok,", [n]) => Done(*n),
            ("ok,", [a, b, c]) => Counted(*a, *b, *c),
            ("no,", [a, b]) => Refused(*a, *b),
            _ => panic!("no answer line: {line}"),
        }
    }
}

/// How the steps of a booking end, known from the way they were made.
#[derive(Clone, Copy, PartialEq, Eq, Debug)]
pub enum Steps {
    Close,
    Stop(u32, u32),
    Unknown,
}

/// Tallies about a break, with seats of the house.
pub const TALLIED: [&str; 4] = [
    "tally: last minute before a break", "tally: first minute of a break", "tally: last minute of a break",
    "tally: first minute after a break",
];

/// A coupon (η-logic's credential).
#[derive(Clone, PartialEq, Eq, Debug)]
pub struct Coupon {
    pub serial: u32,
    pub kind: Kind,
    pub wording: Part,
    pub window: Window,
}

#[derive(Clone, PartialEq, Eq, Default, Debug)]
pub struct Model {
    pub lines: Vec<String>,
    pub wordings: Vec<Part>,
    pub live: Vec<Coupon>,
    pub given: u32,
}

/// No more coupons are live at a time (document 02, ask 8).
pub const MOST_LIVE: usize = 2_048;

/// A refusal number other than 40 to 42.
type Check<T> = Result<T, u32>;

fn ensure(good: bool, number: u32) -> Check<()> {
    if good {
        Ok(())
    } else {
        Err(number)
    }
}

impl Model {
    /// The answer to a sheet and the till after it; None if the steps decide and are unknown.
    pub fn answer(&mut self, sheet: &[u8], steps: Steps) -> Option<Answer> {
        let answer = match read(sheet) {
            Err(number) => Err(number),
            Ok(Sheet::Word(line)) => self.word(&line),
            Ok(Sheet::Issue(kind, n, w)) => self.issue(kind, n, w),
            Ok(Sheet::Withdraw(serial)) => self.withdraw(serial),
            Ok(Sheet::Tally(session, minute)) => Ok(self.tally(session, minute)),
            Ok(Sheet::Book(head)) => match (self.before_steps(&head), steps) {
                (Err(number), _) => Err(number),
                (Ok(_), Steps::Unknown) => return None,
                (Ok(_), Steps::Stop(number, step)) => return Some(Refused(number, step)),
                (Ok(goal), Steps::Close) => self.after_steps(&head, goal),
            },
        };
        Some(answer.unwrap_or_else(|number| Refused(number, 0)))
    }

    fn named(&self, n: u32) -> Check<Part> {
        self.wordings.get(n as usize).cloned().ok_or(10)
    }

    /// The wording of an issue or a booking: 10, then 53.
    fn usable(&self, n: u32) -> Check<Part> {
        let wording = self.named(n)?;
        ensure(!wording.loose(), 53)?;
        Ok(wording)
    }

    fn tree(&self, line: &WordingLine) -> Check<Part> {
        let p: Vec<Part> = line.refs.iter().map(|n| self.named(*n)).collect::<Check<_>>()?;
        Ok(match line.letter {
            'a' => atom(line.numbers[0], line.numbers[1]),
            'o' => one(),
            't' => tensor(&p[0], &p[1]),
            'w' => with(&p[0], &p[1]),
            'p' => plus(&p[0], &p[1]),
            'l' => lolli(&p[0], &p[1]),
            'u' => implies(&p[0], &p[1]),
            'b' => bang(&p[0]),
            'h' => at(&p[0], line.windows[0]),
            's' => says(line.numbers[0], &p[0]),
            'n' => named(line.numbers[0], line.numbers[1], line.numbers[2]),
            'q' => for_all(&p[0]),
            _ => covers(line.windows[0], line.windows[1]),
        })
    }

    pub fn word(&mut self, line: &WordingLine) -> Check<Answer> {
        let tree = self.tree(line)?;
        ensure(!tree.q_within_q(), 53)?;
        ensure(tree.size() <= 64, 12)?;
        ensure(!self.lines.contains(&line.text), 13)?;
        ensure(self.lines.len() < 200, 14)?;
        self.lines.push(line.text.clone());
        self.wordings.push(tree);
        Ok(Done(self.lines.len() as u32 - 1))
    }

    /// Checks 22 and 23, then the new coupon.
    fn add(&mut self, kind: Kind, wording: Part, window: Window, freed: &[u32]) -> Check<Answer> {
        ensure(self.live.len() - freed.len() < MOST_LIVE, 22)?;
        ensure(self.given < 999_999, 23)?;
        self.live.retain(|c| !freed.contains(&c.serial));
        self.given += 1;
        self.live.push(Coupon { serial: self.given, kind, wording, window });
        Ok(Done(self.given))
    }

    pub fn issue(&mut self, kind: Kind, n: u32, window: Window) -> Check<Answer> {
        let wording = self.usable(n)?;
        match kind {
            Kind::Single => ensure(wording.plain(), 20)?,
            Kind::Standing => ensure(wording.balanced(), 21)?,
        }
        self.add(kind, wording, window, &[])
    }

    pub fn coupon(&self, serial: u32) -> Option<&Coupon> {
        self.live.iter().find(|c| c.serial == serial)
    }

    fn withdraw(&mut self, serial: u32) -> Check<Answer> {
        ensure(self.coupon(serial).is_some(), 24)?;
        self.live.retain(|c| c.serial != serial);
        Ok(Done(serial))
    }

    /// Some live single has a seat or place of such a session.
    pub fn seated(&self, of: &dyn Fn(u32) -> bool) -> bool {
        let singles = self.live.iter().filter(|c| c.kind == Kind::Single);
        singles.into_iter().any(|c| c.wording.sessions().into_iter().any(of))
    }

    /// How the minute lies to the breaks of live singles with a house seat of the session.
    pub fn breaks_at(&self, session: u32, minute: u32) -> Vec<&'static str> {
        let seated = |c: &&Coupon| c.kind == Kind::Single && c.wording.house_seats(session, None) > 0;
        let names = self.live.iter().filter(seated).filter(|c| c.window.has_break()).flat_map(|c| {
            let w = c.window;
            let at = [w.first - 1 == minute, w.first == minute, w.last == minute, w.last + 1 == minute];
            (0..4).filter(move |n| at[*n]).map(|n| TALLIED[n])
        });
        names.collect()
    }

    fn tally(&self, session: u32, minute: u32) -> Answer {
        let (mut open, mut shut, mut placed) = (0, 0, 0);
        for c in self.live.iter().filter(|c| c.kind == Kind::Single) {
            let house = if c.window.has(minute) { c.wording.house_seats(session, None) } else { 0 };
            open += house;
            shut += c.wording.count(1, session) - house;
            placed += c.wording.count(2, session);
        }
        Counted(open, shut, placed)
    }

    fn before_steps(&self, head: &BookHead) -> Check<Part> {
        let goal = self.usable(head.wording)?;
        ensure(goal.plain(), 20)?;
        ensure(head.window.has(head.now), 30)?;
        ensure(head.holds.iter().all(|s| self.coupon(*s).is_some()), 24)?;
        let twice = |i: usize| head.holds[..i].contains(&head.holds[i]);
        ensure(!(0..head.holds.len()).any(twice), 31)?;
        Ok(goal)
    }

    fn after_steps(&mut self, head: &BookHead, goal: Part) -> Check<Answer> {
        let single = |s: &u32| self.coupon(*s).is_some_and(|c| c.kind == Kind::Single);
        let freed: Vec<u32> = head.holds.iter().copied().filter(single).collect();
        self.add(Kind::Single, goal, head.window, &freed)
    }
}
