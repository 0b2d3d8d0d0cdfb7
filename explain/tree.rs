//! An accepted booking as an indented tree.

use crate::text::Text;
use crate::walk::{Derivation, Next, Node};
use crate::words::set;

/// Columns by which a premise of two stands to the right of its step.
const INDENT: usize = 4;
/// Premises within so many others stand no further to the right.
const DEEPEST: usize = 10;

pub fn tree(derivation: &Derivation, serial: u32) -> Text {
    let mut text = Text::default();
    text.say("Goal:  ", &format!("{}, booked at minute {}", derivation.goal, derivation.now));
    for held in &derivation.holds {
        let fate = if held.spent { "spent" } else { "stays" };
        text.say(&format!("Label {}: ", held.label), &format!("serial {}, {}; {fate}", held.serial, held.coupon));
    }
    text.say("Gives: ", &format!("serial {serial}, {}", derivation.gives));
    text.blank();
    text.say("", "The derivation. Under each step: the labels taken as its premise began, and the judged line that it \
                  works on, with standing labels R, single-use labels D and the goal.");
    text.blank();
    branch(&mut text, derivation, &derivation.root, 0);
    text
}

/// A premise: its steps up to the one that closes it or leaves two.
fn branch(text: &mut Text, derivation: &Derivation, first: &Node, depth: usize) {
    let indent = " ".repeat(INDENT * depth.min(DEEPEST));
    let mut node = first;
    loop {
        step(text, derivation, node, &indent);
        match &node.next {
            Next::One(next) => node = next,
            Next::Closed => {
                text.line(format!("{indent}     closes"));
                return;
            }
            Next::Two(first, second) => {
                for (name, premise) in [("first", first), ("second", second)] {
                    text.line(format!("{indent}  {name} premise of step {}:", node.number));
                    branch(text, derivation, premise, depth + 1);
                }
                return;
            }
        }
    }
}

fn step(text: &mut Text, derivation: &Derivation, node: &Node, indent: &str) {
    text.say(&format!("{indent}{:>3}. ", node.number), &format!("{}  {}", node.line, node.does));
    for label in node.entered.iter().filter(|&&label| label >= derivation.holds.len()) {
        text.say(&format!("{indent}     label {label}: "), &derivation.labels[*label].is);
    }
    let line = format!("R {}, D {}, goal {}", set(node.standing), set(node.single), node.goal);
    text.say(&format!("{indent}     "), &line);
}
