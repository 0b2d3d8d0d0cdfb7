//! A derivation's steps with another holder somewhere: only `ax` compares holders, so the first `ax` that finds two
//! different atoms is wrong, and all before it is as it was.

use super::derivation::{Deriv, Id, Node};
use super::wording::Part;
use std::collections::BTreeMap;

/// What the hypotheses say.
pub type Says = BTreeMap<Id, Part>;

/// What the hypotheses of a derivation say before its first step.
pub fn at_first(deriv: &Deriv) -> Says {
    deriv.node.d.iter().chain(&deriv.r).map(|h| (h.id, h.wording.clone())).collect()
}

/// The first step (from 1) that is wrong where the hypotheses say this and where the `al` on one line, counted from 0,
/// has another holder; None where all are right.
pub fn first_wrong(deriv: &Deriv, says: &Says, other: Option<(usize, u32)>) -> Option<u32> {
    let mut follow = Follow { other, lines: 0 };
    follow.walk(&deriv.node, says, &deriv.goal().wording)
}

struct Follow {
    other: Option<(usize, u32)>,
    lines: usize,
}

impl Follow {
    fn walk(&mut self, node: &Node, says: &Says, goal: &Part) -> Option<u32> {
        let here = self.lines;
        self.lines += 1;
        let l = node.l.map(|id| says[&id].clone());
        if node.letters == "ax" {
            return (l.as_ref() != Some(goal)).then_some(here as u32 + 1);
        }
        for (n, premise) in node.premises.iter().enumerate() {
            let goal = next_goal(node.letters, n, l.as_ref(), goal);
            let mut says = says.clone();
            let takes = self.takes(node, here, n, l.as_ref());
            assert_eq!(takes.len(), premise.takes.len(), "{}", node.letters);
            says.extend(premise.takes.iter().map(|h| h.id).zip(takes));
            let wrong = self.walk(&premise.node, &says, &goal);
            if wrong.is_some() {
                return wrong;
            }
        }
        None
    }

    /// What the n-th premise takes in L's place.
    fn takes(&self, node: &Node, here: usize, n: usize, l: Option<&Part>) -> Vec<Part> {
        let parts = l.map(|l| l.parts()).unwrap_or_default();
        match (node.letters, n) {
            ("cp", _) => l.cloned().into_iter().collect(),
            ("al", _) => {
                let own = node.holder.expect("a holder");
                let holder = self.other.filter(|(line, _)| *line == here).map_or(own, |(_, holder)| holder);
                vec![parts[0].put(holder)]
            }
            ("tl", _) => parts,
            ("w1" | "bl" | "hl" | "sl", _) | ("pl", 0) => vec![parts[0].clone()],
            ("w2", _) | ("pl" | "ll" | "ul", 1) => vec![parts[1].clone()],
            _ => vec![],
        }
    }
}

/// The goal of the n-th premise.
fn next_goal(letters: &str, n: usize, l: Option<&Part>, goal: &Part) -> Part {
    let part = |n: usize| goal.parts()[n].clone();
    match (letters, n) {
        ("tr" | "wr", n) => part(n),
        ("p1" | "br" | "hr" | "sr", _) => part(0),
        ("p2", _) => part(1),
        ("ll" | "ul", 0) => l.expect("a label").parts()[0].clone(),
        _ => goal.clone(),
    }
}
