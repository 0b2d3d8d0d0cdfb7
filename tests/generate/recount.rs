//! Counts again, from the accepted sheets and their answers alone: issued and withdrawn as the section "Booking, tally"
//! words it, and open, shut and placed as document 02, ask 3, divides them. All of it is held against the till's
//! tallies. After an opening (document 02, ask 5) all begins at its text, which must be the one that its till writes
//! (ask 8). What closing writes is held against the history.

use crate::generate::model::Answer;
use std::collections::{BTreeMap, BTreeSet};

/// A seat or place where it stands in a wording, and the principal of the nearest ⟨K⟩ above it there.
#[derive(Clone, Copy)]
struct Leaf {
    seat: bool,
    session: u32,
    nearest: Option<u32>,
}

/// A live coupon: its wording, and from, to, break first, break last.
struct Coupon {
    wording: u32,
    window: [u32; 4],
}

/// The history: wording n is the line that was answered n; a serial's coupon (η-logic's credential)
/// is the one issued, or the goal booked, by the sheet that answered that serial.
#[derive(Default)]
pub struct Recount {
    wordings: BTreeMap<u32, Vec<Leaf>>,
    lines: BTreeMap<u32, String>,
    /// The session numbers that occur in an atom.
    sessions: BTreeSet<u32>,
    /// Serial to wording, for single-use coupons (η-logic's linear), live or not.
    singles: BTreeMap<u32, u32>,
    /// Live singles by serial, and live standing coupons.
    live: BTreeMap<u32, Coupon>,
    standing: BTreeMap<u32, Coupon>,
    /// The last serial that was given, or that counts as given since an opening.
    last: u32,
    issued: Vec<u32>,
    withdrawn: Vec<u32>,
    minutes: BTreeSet<u32>,
    wrong: Vec<String>,
}

fn number(fields: &[&str], place: usize) -> Option<u32> {
    fields.get(place)?.parse().ok()
}

/// A window has the minute: its break, where it has one, begins after minute 0.
fn has([from, to, first, last]: [u32; 4], minute: u32) -> bool {
    from <= minute && minute <= to && (last == 0 || minute < first || last < minute)
}

impl Recount {
    /// One sheet of the list with its answer. A tally must give what is counted here.
    pub fn note(&mut self, sheet: &[u8], heard: Answer) {
        let text = String::from_utf8_lossy(sheet).into_owned();
        let lines: Vec<&str> = text.lines().collect();
        let read = match heard {
            Answer::Refused(..) => Some(()),
            Answer::Done(n) => self.accepted(&lines, n),
            Answer::Counted(..) => self.tallied(&lines, heard),
        };
        if read.is_none() {
            self.wrong.push(format!("accepted, but fits no form or names what is not there: {text:?}"));
        }
    }

    /// What was found wrong so far.
    pub fn wrong(&self) -> &[String] {
        &self.wrong
    }

    fn accepted(&mut self, lines: &[&str], answer: u32) -> Option<()> {
        let fields: Vec<&str> = lines.first()?.split(',').collect();
        match fields[0] {
            "word" => self.word(&fields[1..], answer)?,
            "issue" => {
                self.issue(&fields[1..], answer)?;
                self.last = answer;
            }
            "book" => {
                let (wording, window) = (number(&fields, 2)?, self.window(&fields[3..])?);
                for hold in lines.get(1..=number(&fields, 7)? as usize)? {
                    let serial = hold.strip_prefix("hold,")?.parse().ok()?;
                    (self.live.remove(&serial).is_some() || self.standing.contains_key(&serial)).then_some(())?;
                }
                self.single(answer, wording, window);
                self.last = answer;
            }
            "withdraw" => {
                let serial = number(&fields, 1)?;
                self.withdrawn.extend(self.singles.get(&serial));
                (self.live.remove(&serial).is_some() || self.standing.remove(&serial).is_some()).then_some(())?;
            }
            _ => return None,
        }
        Some(())
    }

    fn word(&mut self, fields: &[&str], answer: u32) -> Option<()> {
        let leaves = self.leaves(fields)?;
        self.wordings.insert(answer, leaves);
        self.lines.insert(answer, fields.join(","));
        Some(())
    }

    /// Kind, wording and window of a coupon that was issued, or stands in an opened text.
    fn issue(&mut self, fields: &[&str], serial: u32) -> Option<()> {
        let (wording, window) = (number(fields, 1)?, self.window(&fields[2..])?);
        if fields[0] == "s" {
            self.issued.push(wording);
            self.single(serial, wording, window);
        } else {
            self.standing.insert(serial, Coupon { wording, window });
        }
        Some(())
    }

    fn single(&mut self, serial: u32, wording: u32, window: [u32; 4]) {
        self.singles.insert(serial, wording);
        self.live.insert(serial, Coupon { wording, window });
    }

    /// An opening that was accepted: issued begins at what the opened singles hold, withdrawn at 0, and the history at
    /// the text. Its wordings and serials count as given.
    pub fn opened(&mut self, text: &[u8]) {
        let wrong = std::mem::take(&mut self.wrong);
        *self = Recount { wrong, ..Recount::default() };
        let text = String::from_utf8_lossy(text).into_owned();
        if self.begin(&text).is_none() {
            self.wrong.push(format!("read, but no text or names what is not there: {text:?}"));
        } else if self.text() != text {
            self.wrong.push(format!("read, but another text than its till's: {text:?}"));
        }
    }

    fn begin(&mut self, text: &str) -> Option<()> {
        let lines: Vec<Vec<&str>> = text.lines().map(|line| line.split(',').collect()).collect();
        let (wordings, coupons) = (number(lines.first()?, 3)?, number(lines.first()?, 4)?);
        self.last = number(&lines[0], 2)?.checked_sub(1)?;
        for n in 0..wordings {
            self.word(lines.get(1 + n as usize)?, n)?;
        }
        for line in lines.get(1 + wordings as usize..)? {
            self.issue(line.get(1..)?, number(line, 0)?)?;
        }
        (self.live.len() + self.standing.len() == coupons as usize).then_some(())
    }

    /// The text of the till: the lines answered, and the coupons that are live by the history. Its first line is the
    /// first edition's where a till of that could have been so: nothing in a holder's name, and 512 coupons at most.
    fn text(&self) -> String {
        let singles = self.live.iter().map(|(serial, coupon)| (*serial, "s", coupon));
        let standing = self.standing.iter().map(|(serial, coupon)| (*serial, "r", coupon));
        let mut live: Vec<(u32, &str, &Coupon)> = singles.chain(standing).collect();
        live.sort_by_key(|(serial, ..)| *serial);
        let old = |line: &String| !matches!(line.split(',').next(), Some("n" | "q"));
        let edition = if live.len() <= 512 && self.lines.values().all(old) { 1 } else { 2 };
        let mut due = format!("till,{edition},{},{},{}\n", self.last + 1, self.lines.len(), live.len());
        self.lines.values().for_each(|line| due += &format!("{line}\n"));
        for (serial, kind, Coupon { wording, window: [from, to, first, last] }) in live {
            due += &format!("{serial},{kind},{wording},{from},{to},{first},{last}\n");
        }
        due
    }

    /// The text that closing wrote.
    pub fn closed(&mut self, text: &[u8]) {
        let due = self.text();
        if due.as_bytes() != text {
            let text = String::from_utf8_lossy(text).into_owned();
            self.wrong.push(format!("closed as {text:?}, by the history {due:?}"));
        }
    }

    /// The four fields of a window; its ends and those of its break are noted.
    fn window(&mut self, fields: &[&str]) -> Option<[u32; 4]> {
        let [from, to, first, last] = [0, 1, 2, 3].map(|place| number(fields, place));
        let window @ [from, to, first, last] = [from?, to?, first?, last?];
        self.minutes.extend([from, to, to.saturating_add(1).min(9_999_999)]);
        if (first, last) != (0, 0) {
            self.minutes.extend([first.saturating_sub(1), first, last, last.saturating_add(1).min(9_999_999)]);
        }
        Some(window)
    }

    /// The seats and places of a wording, every part as often as it stands there, whoever holds them. A ⟨K⟩ is the
    /// nearest for those that have none within it.
    fn leaves(&mut self, fields: &[&str]) -> Option<Vec<Leaf>> {
        let part = |place: usize| self.wordings.get(&number(fields, place)?).cloned();
        Some(match fields[0] {
            "a" | "n" => {
                let (predicate, session) = (number(fields, 1)?, number(fields, 2)?);
                self.sessions.insert(session);
                let leaf = Leaf { seat: predicate == 1, session, nearest: None };
                if predicate == 1 || predicate == 2 { vec![leaf] } else { vec![] }
            }
            "t" | "w" | "p" | "l" | "u" => [part(1)?, part(2)?].concat(),
            "b" | "h" | "q" => part(1)?,
            "s" => {
                let principal = number(fields, 1);
                let near = |leaf: &Leaf| Leaf { nearest: leaf.nearest.or(principal), ..*leaf };
                part(2)?.iter().map(near).collect()
            }
            "o" | "g" => vec![],
            _ => return None,
        })
    }

    /// Seats and places of the session in a wording.
    fn count(&self, wording: u32, session: u32) -> u32 {
        let leaves = self.wordings.get(&wording).into_iter().flatten();
        leaves.filter(|leaf| leaf.session == session).count() as u32
    }

    /// Open, shut and placed: open are the seats whose nearest ⟨K⟩ is ⟨1⟩, in a window that has the minute.
    fn figures(&self, session: u32, minute: u32) -> Answer {
        let (mut open, mut shut, mut placed) = (0, 0, 0);
        for single in self.live.values() {
            for leaf in self.wordings[&single.wording].iter().filter(|leaf| leaf.session == session) {
                match (leaf.seat, leaf.nearest) {
                    (false, _) => placed += 1,
                    (true, Some(1)) if has(single.window, minute) => open += 1,
                    _ => shut += 1,
                }
            }
        }
        Answer::Counted(open, shut, placed)
    }

    fn tallied(&mut self, lines: &[&str], heard: Answer) -> Option<()> {
        let [line] = lines else { return None };
        let fields: Vec<&str> = line.strip_prefix("tally,")?.split(',').collect();
        let (session, minute) = (number(&fields, 0)?, number(&fields, 1)?);
        self.wrong.extend(self.compared(session, minute, Some(heard)));
        Some(())
    }

    /// What is wrong with a tally: the three figures are not those counted here, or open + shut + placed + withdrawn is
    /// not issued.
    fn compared(&self, session: u32, minute: u32, heard: Option<Answer>) -> Option<String> {
        let total = |list: &[u32]| list.iter().map(|w| self.count(*w, session)).sum::<u32>();
        let (issued, withdrawn) = (total(&self.issued), total(&self.withdrawn));
        let counted = self.figures(session, minute);
        let sum = matches!(heard, Some(Answer::Counted(open, shut, placed))
            if open + shut + placed + withdrawn == issued);
        let what = format!("withdrawn {withdrawn}, issued {issued}, counted {counted:?}, tally {heard:?}");
        (!sum || heard != Some(counted)).then(|| format!("session {session}, minute {minute}: {what}"))
    }

    /// The sessions that occur in an atom, and some that may not: both ends of the range, and for each the number that
    /// a byte keeps of it and two that a byte takes for it.
    fn asked(&self) -> BTreeSet<u32> {
        let mut all: BTreeSet<u32> = [0, 200, 255, 256, 65_535].into();
        for session in &self.sessions {
            all.extend([*session, session % 256, session ^ 256, session ^ 65_280]);
        }
        all
    }

    /// Some minutes: both ends of the range, and ends of windows and breaks.
    fn minutes(&self) -> Vec<u32> {
        let mut some = vec![0, 540, 9_999_999];
        let step = (self.minutes.len() / 5).max(1);
        some.extend(self.minutes.iter().copied().step_by(step));
        some
    }

    /// For every session that occurs (and some that may not), tallies as counted here. Gives the number of tallies made
    /// and what was found wrong.
    pub fn check(&self, tally: &mut dyn FnMut(u32, u32) -> Option<Answer>) -> (u32, Vec<String>) {
        let mut wrong = self.wrong().to_vec();
        let mut made = 0;
        for session in self.asked() {
            for minute in self.minutes() {
                made += 1;
                let heard = tally(session, minute);
                wrong.extend(self.compared(session, minute, heard));
            }
        }
        (made, wrong)
    }
}
