//! What the sessions reached, and what they must reach.

use super::model::Answer;
use super::session::Case;
use super::*;
use std::collections::BTreeMap;

#[derive(Default)]
pub struct Coverage {
    marks: BTreeMap<String, u32>,
    sheets: u32,
    unknown: u32,
}

const LETTERS: [&str; 23] = [
    "ax", "cp", "tr", "tl", "or", "ol", "wr", "w1", "w2", "p1", "p2", "pl", "ll", "ul", "br", "bl", "hr",
    "hl", "sr", "af", "sl", "gr", "al",
];
const BOOKED: [&str; 9] = [
    "share empty", "share full", "share between", "goal under ⟨K⟩", "goal not under ⟨K⟩", "64 labels",
    "256 steps", "32 holds", "two premises within two",
];
const MORE: [&str; 6] = [
    "tally", "damaged at random", "empty sheet", "range: last wording there",
    "range: first wording not there", "range: first serial not given",
];
const REFUSALS: [u32; 18] = [1, 2, 3, 10, 12, 13, 14, 20, 21, 22, 24, 30, 31, 40, 41, 42, 43, 53];

fn all(list: &[&str]) -> Vec<String> {
    list.iter().map(|s| s.to_string()).collect()
}

/// Everything that sessions with texts must reach, in groups.
fn required_of_texts() -> Vec<(&'static str, Vec<String>)> {
    let damage: Vec<&str> = damage::DAMAGE.iter().copied().filter(|name| !name.contains("hexadecimal")).collect();
    vec![
        ("refusal numbers", all(&["refusal 50", "refusal 51"])),
        ("texts closed", all(&text_life::CLOSED)),
        ("texts opened", all(&text_life::OPENED)),
        ("after opening", all(&text_life::AFTER)),
        ("the form of a text broken", all(&text_form::FORM)),
        ("damage to texts", all(&damage)),
        ("single bytes of a text", all(&text_form::BYTES)),
        ("ranges in texts", all(&text_form::ENDS)),
        ("a rule broken in a text", all(&text_rules::RULES)),
        ("as word and issue answer", all(&text_rules::ASKED)),
        ("50 and 51 at once", all(&text_rules::BOTH)),
        ("closed and opened between sheets", all(&text_life::PACKED)),
        ("first lines that closing writes", all(&editions::CLOSED)),
        ("first lines that opening reads or refuses", all(&editions::OPENED)),
        ("a rule broken behind a first line", all(&editions::BEHIND)),
        ("tills opened from till,2 go on", all(&editions::ON)),
    ]
}

/// Places in a holder's name.
fn required_of_holders() -> [(&'static str, Vec<String>); 3] {
    let lines = [&holders::FORMS[..], &holders::WITHIN, &holders::LOOSE, &holders::TALLIED];
    let steps = [&instances::AL[..], &instances::ALONG, &instances::FIRSTS, &instances::EQUAL];
    [
        ("places in a holder's name", all(&lines.concat())),
        ("the step al", all(&steps.concat())),
        ("the step al, by chance", all(&holders::BY_CHANCE)),
    ]
}

/// Everything that must be reached, in groups.
fn required(wish: &Wish) -> Vec<(&'static str, Vec<String>)> {
    if wish.texts {
        return required_of_texts();
    }
    let long = wish.long;
    let mut refusals: Vec<String> = REFUSALS.iter().map(|n| format!("refusal {n}")).collect();
    refusals.extend(long.then(|| "refusal 23".to_string()));
    let rules = [
        &breaks::OF_R[..], &breaks::SPENT, &breaks::NEVER, &breaks::OTHER, &breaks::GOAL_OTHER,
        &breaks::GOAL_AFFIRMS, &breaks::REST, &breaks::OVER_BREAK.concat(),
    ];
    let later = [&late::LATE[..], &slips::ARMS, &slips::JOINED, &slips::NAMES, &slips::ARROWS];
    let at_once = [&pairs::BOOK_PAIRS[..], &pairs::STEP_ORDER, &pairs::CALL_PAIRS];
    let by_break = [&spans::RIGHT_BY_BREAK[..], &spans::WRONG_BY_BREAK];
    let about_breaks = [
        &midday::FITS[..], &midday::ORDER, &midday::NOW, &midday::TALLY, &model::TALLIED, &midday::JOINED, &midday::M1,
    ];
    let past_255 = [&tour::ENDS.concat()[..], &tour::TOUR];
    let mut groups = vec![
        ("refusal numbers", refusals),
        ("step letters in accepted bookings", all(&LETTERS)),
        ("connectives in standing coupons held", all(&booking::STANDING)),
        ("accepted bookings", all(&BOOKED)),
        ("ways to break a rule", all(&rules.concat())),
        ("faults found later", all(&later.concat())),
        ("every step on every connective", all(&matrix::MATRIX)),
        ("label 64", all(&late::WANTS_64)),
        ("windows", all(&[&spans::SPANS[..], &spans::NEW_COUPON].concat())),
        ("balance", all(&balance::BALANCE)),
        ("limits of the till", all(&capacity::CAPACITY)),
        ("ranges", all(&[&ranges::RANGES[..], &ranges::BACKWARD, &MORE].concat())),
        ("two checks at once", all(&at_once.concat())),
        ("damage", all(&damage::DAMAGE)),
        ("life of coupons", all(&life::LIFE)),
        ("document 01's sessions", all(&papers::PAPERS)),
        ("session numbers past 255", all(&past_255.concat())),
        ("sessions alike, by chance", all(&tour::ALIKE)),
        ("breaks in all relations, for each rule", all(&relation::RELATIONS.concat())),
        ("right or wrong only by a break", all(&by_break.concat())),
        ("right only by a break, by chance", all(&booking::RIGHT_BY_BREAK)),
        ("all pairs of small windows", all(&grid::GRID)),
        ("43 in every place", all(&midday::MISFITS.concat())),
        ("fields of a window, in every place", all(&midday::FORM.concat())),
        ("about breaks", all(&about_breaks.concat())),
        ("house seats", all(&[&house::HOUSE_SEATS[..], &house::MOVES].concat())),
        ("house seats, by chance", all(&house::BY_CHANCE)),
        ("guests who are late", all(&arrivals::NOW)),
        ("windows of guests who are late", all(&arrivals::WITHIN)),
        ("step letters in bookings of guests who are late", all(&arrivals::STEPS)),
    ];
    groups.extend(required_of_holders());
    groups.extend(long.then(|| ("the last serial", all(&long::LONG))));
    groups
}

impl Coverage {
    pub fn note(&mut self, case: &Case) {
        self.sheets += 1;
        match case.expected {
            Some(Answer::Refused(number, _)) => {
                *self.marks.entry(format!("refusal {number}")).or_insert(0) += 1;
            }
            None => self.unknown += 1,
            _ => {}
        }
        for mark in &case.marks {
            *self.marks.entry(mark.to_string()).or_insert(0) += 1;
        }
    }

    /// Prints what was reached; gives the number of required things that were not.
    pub fn report(&self, wish: &Wish) -> u32 {
        println!("coverage of {} sheets. To {} of them, bookings whose steps were damaged at random and what", self.sheets,
                 self.unknown);
        println!("follows them in a list, the generator foretells no answer; tests/tillrun/run compares programs there.");
        let mut missing = 0;
        for (group, names) in required(wish) {
            let count = |name: &String| self.marks.get(name).copied().unwrap_or(0);
            let reached = names.iter().filter(|n| count(n) > 0).count();
            let fewest = names.iter().map(count).min().unwrap_or(0);
            println!("  {group}: {reached} of {} (the rarest {fewest} times)", names.len());
            for name in names.iter().filter(|n| count(n) == 0) {
                println!("    NOT REACHED: {name}");
                missing += 1;
            }
        }
        let line: Vec<String> = self.marks.iter().filter(|(m, _)| m.starts_with("refusal"))
            .map(|(m, n)| format!("{} x{n}", &m[8..])).collect();
        println!("  refusals: {}", line.join(", "));
        missing
    }
}
