//! What the sheets before did: where serials went, which wordings were refused.

use crate::coupons;
use crate::input::Sheet;
use crate::text::listed;
use crate::till::credentials::Credential;
use crate::till::form::{self, Page, Request};
use crate::till::{Answer, Till};

/// What became of a serial; sheets by number, 0 for none.
#[derive(Clone, Copy, Default)]
struct Fate {
    /// The sheet that gave it, or 0: it came with the opened text, or before it.
    given: usize,
    /// The sheet that withdrew or spent it.
    gone: usize,
    spent: bool,
    /// What it was, once it is gone.
    was: Option<Credential>,
}

pub struct History {
    /// By serial.
    fates: Vec<Fate>,
    /// The `word` sheets that were refused.
    refused_words: Vec<usize>,
}

/// What a sheet does if it is accepted.
pub enum Act {
    Words,
    Withdraws(Option<Credential>),
    /// Issues or books a coupon, and spends these.
    Gives(Vec<Credential>),
    Nothing,
}

impl Act {
    /// What the sheet would do to the till.
    pub fn of(till: &Till, sheet: &Sheet) -> Act {
        let live = |serial: &u32| coupons::find(till, *serial).copied();
        let mut page = Page::new();
        match form::read(sheet.bytes, &mut page) {
            Ok(Request::Issue { .. }) => Act::Gives(Vec::new()),
            Ok(Request::Book(booking)) => {
                let holds = page.holds[..booking.holds].iter().filter_map(live);
                Act::Gives(holds.filter(|held| held.linear).collect())
            }
            Ok(Request::Withdraw { serial }) => Act::Withdraws(live(&serial)),
            _ if sheet.bytes.starts_with(b"word,") => Act::Words,
            _ => Act::Nothing,
        }
    }
}

impl History {
    pub fn new(till: &Till) -> History {
        let fates = vec![Fate::default(); till.credentials.next() as usize];
        History { fates, refused_words: Vec::new() }
    }

    /// Notes a sheet that was answered; `act` is what it did if it was accepted.
    pub fn note(&mut self, sheet: &Sheet, act: Act, answer: Answer) {
        match (act, answer) {
            (Act::Words, Answer::Refused(..)) => self.refused_words.push(sheet.number),
            (Act::Withdraws(Some(coupon)), Answer::Done(_)) => self.takes(coupon, sheet.number, false),
            (Act::Gives(spent), Answer::Done(_)) => {
                for coupon in spent {
                    self.takes(coupon, sheet.number, true);
                }
                self.gives(sheet.number);
            }
            _ => {}
        }
    }

    fn gives(&mut self, given: usize) {
        self.fates.push(Fate { given, ..Fate::default() });
    }

    fn takes(&mut self, was: Credential, gone: usize, spent: bool) {
        if let Some(fate) = self.fates.get_mut(was.serial as usize) {
            *fate = Fate { gone, spent, was: Some(was), ..*fate };
        }
    }

    /// Why a serial is not live.
    pub fn why_dead(&self, serial: u32) -> String {
        match self.fates.get(serial as usize) {
            None if self.fates.len() == 1 => "no serial was given yet".to_string(),
            None => format!("it was never given: the last one given is {}", self.fates.len() - 1),
            Some(Fate { gone: 0, .. }) => {
                "it is below the opened text's next serial but not in the text: spent or withdrawn before".to_string()
            }
            Some(&Fate { given, gone, spent, .. }) => {
                let from = if given == 0 { "the opened text".to_string() } else { format!("sheet {given}") };
                let how = if spent { "the booking on sheet" } else { "the withdrawal on sheet" };
                format!("it was given by {from} and taken by {how} {gone}")
            }
        }
    }

    /// What a serial was that is gone.
    pub fn was(&self, serial: u32) -> Option<&Credential> {
        self.fates.get(serial as usize)?.was.as_ref()
    }

    /// Whether a booking took the serial.
    pub fn spent(&self, serial: u32) -> bool {
        self.fates.get(serial as usize).is_some_and(|fate| fate.spent)
    }

    /// That refused words have no number, where there are any.
    pub fn refused_words(&self) -> Option<String> {
        let sheets: Vec<String> = self.refused_words.iter().take(5).map(usize::to_string).collect();
        let more = if self.refused_words.len() > 5 { ", .." } else { "" };
        let one = sheets.len() == 1;
        (!sheets.is_empty()).then(|| {
            let what = if one { "is a `word` that was" } else { "are `word`s that were" };
            let sheet = if one { "Sheet" } else { "Sheets" };
            let named = format!("{sheet} {}{more}", listed(&sheets));
            format!("{named} {what} refused and got no number, so later wordings have lower ones than planned.")
        })
    }
}
