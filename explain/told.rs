//! What is said of a sheet, from its answer to the verdict.

use crate::checks::{Accepted, Desk};
use crate::coupons::find;
use crate::options::Which;
use crate::print::write_answer;
use crate::refused::{self, Refused};
use crate::text::{counted, grouped, Text};
use crate::till::credentials::Credential;
use crate::till::form::Request;
use crate::till::{Answer, Till};
use crate::tree::tree;
use crate::words::{coupon, signs, spell_line};

/// Stands once in every output.
pub const VERDICT: &str = "The till's answer is the verdict; explain is not proved.";

/// How many other refused sheets are named.
const OTHERS: usize = 8;

/// What was found, as an answer; what an accepted sheet is answered is the reference program's.
pub fn answer_line(found: &Result<Accepted, Refused>, answer: Answer) -> String {
    match (found, answer) {
        (Err(refused), _) => refused::answer(refused.number, refused.step) + "\n",
        (Ok(_), Answer::Refused(..)) => refused::answer(0, 0) + "\n",
        (Ok(_), answer) => written(answer),
    }
}

fn written(answer: Answer) -> String {
    let mut line = Vec::new();
    write_answer(&mut line, answer);
    String::from_utf8_lossy(&line).into_owned()
}

/// The first line of what is said of a sheet.
pub fn title(found: &Result<Accepted, Refused>, answer: Answer) -> String {
    match found {
        Err(refused) => refused::title(refused.number, refused.step),
        Ok(_) => answer_line(found, answer).trim_end().to_string(),
    }
}

/// Why a sheet was refused, or what it does.
pub fn tell(text: &mut Text, desk: &Desk, found: &Result<Accepted, Refused>, answer: Answer) {
    match found {
        Err(refused) => text.add(&refused.text),
        Ok(accepted) => text.add(&does(desk, accepted, answer)),
    }
    let (mine, due) = (answer_line(found, answer), written(answer));
    if mine != due {
        text.blank();
        text.say("", &format!("explain is wrong here: the reference program answers {}.", due.trim_end()));
    }
    text.blank();
}

/// What an accepted sheet does; the till is as before it.
fn does(desk: &Desk, accepted: &Accepted, answer: Answer) -> Text {
    let request = match (accepted, answer) {
        (Accepted::Booked(derivation), Answer::Done(serial)) => return tree(derivation, serial),
        (Accepted::Other(request), _) => *request,
        _ => return Text::default(),
    };
    let mut text = Text::default();
    text.say("Accepted: ", &done(&desk.till, request, answer));
    text
}

fn done(till: &Till, request: Request, answer: Answer) -> String {
    let formulas = &till.formulas;
    match (request, answer) {
        (Request::Word(formula), Answer::Done(number)) => {
            format!("wording {number} is {}", spell_line(formulas, formula))
        }
        (Request::Issue { linear, formula, interval }, Answer::Done(serial)) => {
            let issued = Credential { serial, interval, formula, linear };
            format!("serial {serial} is {}", coupon(formulas, &issued))
        }
        (Request::Withdraw { serial }, _) => {
            let was = find(till, serial).map_or(String::new(), |held| coupon(formulas, held));
            format!("serial {serial} is withdrawn; it was {was}")
        }
        (Request::Tally { session, minute }, Answer::Counted(open, shut, placed)) => {
            let (seats, places) = (counted(open as usize, "seat"), counted(placed as usize, "place"));
            format!("session {session} at minute {minute} has {seats} open, {shut} shut, and {places}")
        }
        _ => String::new(),
    }
}

/// A till's text that was opened, where no sheet follows.
pub fn opened(till: &Till, bytes: usize) -> String {
    let singles = till.credentials.rising().filter(|held| held.linear).count();
    let standing = till.credentials.count() - singles;
    let mut text = Text::default();
    text.line(format!("ok,{bytes}"));
    text.line("the text of --till; there is no sheet");
    text.blank();
    let wordings = counted(till.formulas.lines().len(), "wording");
    let coupons = format!("{standing} standing and {singles} single-use coupons");
    text.say("Opened: ", &format!("{wordings}, {coupons}; the next serial is {}", grouped(till.credentials.next())));
    text.blank();
    finished(text)
}

/// That other sheets were refused, where one was asked for.
pub fn others(text: &mut Text, which: Which, answers: &[Answer], wanted: &[usize]) {
    if which == Which::All && wanted.is_empty() {
        text.line(format!("No sheet of {} is refused.", answers.len()));
        text.blank();
    }
    let all = (1..).zip(answers).filter(|(_, answer)| matches!(answer, Answer::Refused(..)));
    let others: Vec<usize> = all.map(|(number, _)| number).filter(|number| !wanted.contains(number)).collect();
    if which != Which::Last || others.is_empty() {
        return;
    }
    let shown: Vec<String> = others.iter().take(OTHERS).map(usize::to_string).collect();
    let more = match others.len() - shown.len() {
        0 => String::new(),
        more => format!(" and {more} more"),
    };
    text.say("", &format!("Also refused: sheet {}{more}. --all explains every refused sheet.", shown.join(", ")));
    text.blank();
}

/// With the signs that it uses, and the verdict.
pub fn finished(mut text: Text) -> String {
    let signs = signs(&text.to_string());
    if !signs.is_empty() {
        text.line("Signs:");
        for sign in signs {
            text.line(format!("  {sign}"));
        }
        text.blank();
    }
    text.line(VERDICT);
    text.to_string()
}
