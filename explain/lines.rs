//! The lines of a sheet: refusal 2. Which lines a sheet has follows from its first one.

use crate::form::{read, Read};
use crate::forms::{find, HOLD, SHEETS, STEPS, WORDINGS};
use crate::input::{first_field, Line, Sheet};
use crate::refused::Fault;
use crate::spot::{short, Spot};
use crate::text::counted;

/// `word,` stands before a wording line.
const WORD: &[u8] = b"word,";

/// The sheet's lines, if they have their form.
pub fn read_sheet<'a>(sheet: &Sheet<'a>) -> Result<Vec<Read<'a>>, Fault<'a>> {
    let lines = sheet.lines();
    let Some((&head, below)) = lines.split_first() else {
        return Err(empty_sheet());
    };
    let head = match head.bytes.starts_with(WORD) {
        true => read(head, WORD.len(), &WORDINGS, "wording")?,
        false => read(head, 0, &SHEETS, "sheet")?,
    };
    if head.form.word == "book" {
        return booking(sheet, head, below);
    }
    match below.first() {
        Some(&line) => Err(line_too_many(line, &format!("a sheet `{}` has one line", sheet.word()))),
        None => Ok(vec![head]),
    }
}

fn empty_sheet<'a>() -> Fault<'a> {
    Fault::nowhere("The sheet is empty.")
        .found("an empty line at the start, or one more after the empty line that ends a sheet")
        .allowed("one empty line between two sheets")
        .to_do("Take the empty line out.")
}

/// The lines of a booking: as many hold and step lines as its head says.
fn booking<'a>(sheet: &Sheet<'a>, head: Read<'a>, below: &[Line<'a>]) -> Result<Vec<Read<'a>>, Fault<'a>> {
    let count = |name| head.value(name).unwrap_or(0) as usize;
    let counts = Counts { holds: count("holds"), steps: count("steps") };
    let mut lines = vec![head];
    for (at, &line) in below.iter().enumerate() {
        if at == counts.holds + counts.steps {
            return Err(counts.too_many(line, below));
        }
        counts.right_place(at, line, below)?;
        lines.push(match at < counts.holds {
            true => read(line, 0, &HOLD, "hold line")?,
            false => read(line, 0, &STEPS, "step")?,
        });
    }
    if below.len() < counts.holds + counts.steps {
        return Err(counts.too_few(sheet, below));
    }
    Ok(lines)
}

/// What the head of a booking says.
struct Counts {
    holds: usize,
    steps: usize,
}

impl Counts {
    /// A hold line among the steps, or a step line among the holds.
    fn right_place<'a>(&self, at: usize, line: Line<'a>, below: &[Line]) -> Result<(), Fault<'a>> {
        let word = first_field(line.bytes);
        if at < self.holds && find(&STEPS, word.as_bytes()).is_some() {
            let what = format!("a step line where hold {} of {} is due", at + 1, self.holds);
            return Err(self.told(Fault::new(Spot::whole(line), what), below, None));
        }
        if at >= self.holds && word == "hold" {
            let what = format!("a hold line where step {} of {} is due", at - self.holds + 1, self.steps);
            return Err(self.told(Fault::new(Spot::whole(line), what), below, None));
        }
        Ok(())
    }

    fn too_many<'a>(&self, line: Line<'a>, below: &[Line]) -> Fault<'a> {
        let fault = Fault::new(Spot::whole(line), "a line more than the head says");
        self.told(fault, below, misplaced(line.bytes, "line of a booking"))
    }

    fn too_few<'a>(&self, sheet: &Sheet<'a>, below: &[Line<'a>]) -> Fault<'a> {
        let missing = self.holds + self.steps - below.len();
        let what = format!("the sheet ends here, {} too early", counted(missing, "line"));
        let fault = match sheet.lines().last() {
            Some(&line) => Fault::new(Spot::end(line), what),
            None => Fault::nowhere(what),
        };
        let word = first_field(sheet.rest);
        let goes_on = word == "hold" || find(&STEPS, word.as_bytes()).is_some();
        let next = format!("The next sheet begins with `{word}`");
        let words = format!("{next}: an empty line stands inside the booking and ends it. Take it out.");
        self.told(fault, below, goes_on.then_some(words))
    }

    /// What the head says, what is there, and what to do.
    fn told<'a>(&self, fault: Fault<'a>, below: &[Line], cure: Option<String>) -> Fault<'a> {
        let holds = below.iter().filter(|line| first_field(line.bytes) == "hold").count();
        let there = format!("{} and {}", counted(holds, "hold line"), counted(below.len() - holds, "other line"));
        let said = format!("{} and {}", counted(self.holds, "hold"), counted(self.steps, "step"));
        let allowed = format!("{said}, as the head's last two fields say, the holds first");
        let cure = cure.unwrap_or("Put the counts right, or the lines.".to_string());
        fault.found(format!("below the head {there}")).allowed(allowed).to_do(cure)
    }
}

fn line_too_many<'a>(line: Line<'a>, form: &str) -> Fault<'a> {
    Fault::new(Spot::whole(line), "a line too many")
        .found(format!("`{}`", short(line.bytes)))
        .allowed(form)
        .may_do(misplaced(line.bytes, "line"))
}

/// What a line is that stands where something of another kind is due.
pub fn misplaced(bytes: &[u8], kind: &str) -> Option<String> {
    let word = first_field(bytes);
    let is = |forms| find(forms, word.as_bytes()).is_some();
    let words = match kind {
        "sheet" if word == "hold" || is(&STEPS) => {
            "This is a line of a booking. Is there an empty line inside the booking above? It ends it.".to_string()
        }
        "sheet" if is(&WORDINGS) => {
            format!("A wording stands after `word,`: write `word,{}`.", short(bytes))
        }
        "sheet" if word == "till" => {
            "This is a till's text, which is no sheet (docs/TEXT.md): hand it over with --till.".to_string()
        }
        "first line" if is(&SHEETS) => "These are sheets and no till's text: give the file without --till.".to_string(),
        "sheet" | "first line" => return None,
        _ if is(&SHEETS) => "Another sheet begins here: an empty line is missing before it.".to_string(),
        _ => return None,
    };
    Some(words)
}
