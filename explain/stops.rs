//! Refusals 40 to 42 in words.

use crate::refused::Refused;
use crate::rules::{does, rule_of, Condition};
use crate::spot::{shown, Spot};
use crate::text::{counted, Text};
use crate::till::refusal;
use crate::till::steps::{Entering, Hypothesis, Labels, Premise, Sequent, MAX_LABELS};
use crate::walk::{Taken, Walk};
use crate::words::{at, each, goal, set, window};

impl Walk<'_> {
    /// Refusal 40 of the step read last: the judged line, the rule, the condition that fails.
    pub fn breaks_rule(&self, sequent: Sequent, asked: Vec<Condition>) -> Refused {
        let line = &self.lines[self.read - 1];
        let rule = rule_of(line.form.word);
        let mut text = Text::default();
        let doing = does(rule, self.steps[self.read - 1]);
        self.show_step(&mut text, self.read, &format!("({doing}) breaks its rule"));
        text.blank();
        self.judged(&mut text, "The judged line before it:", (sequent, Entering::Nothing));
        text.blank();
        text.say("", &format!("The rule of `{}`: {}", line.form.spelled(), rule.asks));
        for condition in asked {
            text.say(if condition.holds { "  holds    " } else { "  FAILS    " }, &condition.words);
            if let Some(cure) = condition.to_do {
                text.say("  to do    ", &cure);
            }
        }
        Refused { number: refusal::STEP, step: self.read as u32, text }
    }

    /// Refusal 41: a premise of the step needs label 64.
    pub fn no_label(&self, step: usize, premise: Premise, second: bool) -> Refused {
        let mut text = Text::default();
        let which = if second { "its second premise" } else { "its premise" };
        self.show_step(&mut text, step, "is right");
        text.blank();
        let when = match second {
            true => format!(", which begins as step {} closes the first,", self.read),
            false => String::new(),
        };
        text.say("", &format!("But {which}{when} needs label {MAX_LABELS}, and labels are 0 to {}.", MAX_LABELS - 1));
        let holds = self.serials.len();
        let by_holds = counted(holds, "label");
        text.say("", &format!("{by_holds} by holds and {} by steps: all are taken.", MAX_LABELS - holds));
        text.blank();
        self.judged(&mut text, "The premise:", premise);
        text.blank();
        text.say("  to do    ", "Hold fewer coupons, copy less, or make two bookings of one. No label is used again.");
        Refused { number: refusal::LABELS, step: step as u32, text }
    }

    /// Refusal 42: the steps end with a premise open.
    pub fn premise_open(&self, sequent: Sequent) -> Refused {
        let steps = self.steps.len();
        let mut text = Text::default();
        self.show_step(&mut text, steps, "is the last, and a premise is still open");
        text.blank();
        let title = format!("What step {} would have to go on with:", steps + 1);
        self.judged(&mut text, &title, (sequent, Entering::Nothing));
        for (step, waiting) in self.waiting.iter().rev() {
            text.blank();
            self.judged(&mut text, &format!("After that, the second premise of step {step}:"), *waiting);
        }
        text.blank();
        text.say("  to do    ", "Add the steps that prove this, and count them in the head.");
        Refused { number: refusal::STEP_COUNT, step: steps as u32 + 1, text }
    }

    /// Refusal 42: lines follow the close.
    pub fn lines_follow(&self) -> Refused {
        let mut text = Text::default();
        let last = self.read;
        let closed = format!("is one too many: step {last} has closed the last premise");
        self.show_step(&mut text, last + 1, &closed);
        text.blank();
        let behind = counted(self.steps.len() - last, "line");
        text.say("  found    ", &format!("{behind} after the close"));
        text.say("  to do    ", &format!("Take them out, and write {last} as the head's count of steps."));
        Refused { number: refusal::STEP_COUNT, step: last as u32 + 1, text }
    }

    /// The step's number and line, and a sentence on it.
    fn show_step(&self, text: &mut Text, step: usize, what: &str) {
        let line = &self.lines[step - 1];
        text.say("", &format!("Step {step}, `{}`, {what}.", shown(line.bytes())));
        text.blank();
        Spot::whole(line.line).show(text);
    }

    /// A judged line: standing labels, single-use labels, goal; and what enters without a label yet.
    fn judged(&self, text: &mut Text, title: &str, (sequent, entering): Premise) {
        let told = |new: Hypothesis| at(self.formulas, new.formula, new.interval);
        let new = match entering {
            Entering::Nothing => Vec::new(),
            Entering::Linear(new) => vec![("D", told(new))],
            Entering::Linear2(left, right) => vec![("D", told(left)), ("D", told(right))],
            Entering::Unrestricted(new) => vec![("R", told(new))],
        };
        text.say("", title);
        self.labels(text, "R, standing", sequent.unrestricted);
        self.labels(text, "D, single-use", sequent.linear);
        for (place, new) in new {
            text.say(&format!("  new in {place}: "), &new);
        }
        let told = format!("{} at {}", goal(self.formulas, sequent.goal), window(sequent.interval));
        text.say("  goal: ", &told);
    }

    fn labels(&self, text: &mut Text, name: &str, labels: Labels) {
        text.line(format!("  {name}: {}", set(labels)));
        let mut rest: Vec<Taken> = each(labels).map(|label| self.taken(label)).collect();
        while !rest.is_empty() {
            // labels that stand for the same are told together
            let (label, is) = (rest[0].label, &rest[0].is);
            let alike = rest.iter().zip(label..).take_while(|(it, label)| it.label == *label && it.is == *is).count();
            let run: Vec<Taken> = rest.drain(..alike).collect();
            let (first, last) = (&run[0], &run[run.len() - 1]);
            match run.len() {
                1 => text.say(&format!("    {:>2}: ", first.label), &format!("{}  ({})", first.is, first.whence)),
                _ => {
                    let mark = format!("    {:>2} to {}: ", first.label, last.label);
                    text.say(&mark, &format!("{}  ({} to {})", first.is, first.whence, last.whence));
                }
            }
        }
    }
}
