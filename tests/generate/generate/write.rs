//! Writes a derivation as step lines, giving labels by the section "Steps", and keeps what each step saw.

use super::derivation::{Deriv, Goal, Hyp, Id, Node};
use super::wording::{Part, Window};
use std::collections::BTreeMap;

/// A step line: letters, then label, holder, share and window where it has them.
#[derive(Clone, PartialEq, Debug)]
pub struct StepLine {
    pub letters: &'static str,
    pub label: Option<u32>,
    pub holder: Option<u32>,
    pub share: Option<u64>,
    pub window: Option<Window>,
}

impl StepLine {
    pub fn text(&self) -> String {
        let mut text = self.letters.to_string();
        if let Some(label) = self.label {
            text += &format!(",{label}");
        }
        if let Some(holder) = self.holder {
            text += &format!(",{holder}");
        }
        if let Some(share) = self.share {
            text += &format!(",{share:016x}");
        }
        if let Some(w) = self.window {
            text += &format!(",{}", w.text());
        }
        text
    }
}

/// A label with the hypothesis it stands for.
#[derive(Clone, Debug)]
pub struct Held {
    pub label: u32,
    pub standing: bool,
    pub wording: Part,
    pub window: Window,
}

/// The judged line that a step works on, and the labels of before.
#[derive(Clone, Debug)]
pub struct Scene {
    pub r: Vec<Held>,
    pub d: Vec<Held>,
    /// Taken before, but neither in R nor in D here.
    pub gone: Vec<Held>,
    pub goal: Goal,
    pub next: u32,
    /// The first line of each premise, counted from 0.
    pub starts: Vec<usize>,
}

/// A coupon that a booking holds, and the hypotheses it stands for.
#[derive(Clone, Debug)]
pub struct Hold {
    pub ids: Vec<Id>,
    pub standing: bool,
    pub wording: Part,
    pub window: Window,
}

#[derive(Default)]
pub struct Script {
    pub lines: Vec<StepLine>,
    pub scenes: Vec<Scene>,
    taken: Vec<Held>,
    /// The step whose rule first wants label 64, and the lines written by then.
    pub overflow: Option<(u32, usize)>,
}

type Labels = BTreeMap<Id, u32>;

impl Script {
    pub fn of(deriv: &Deriv, holds: &[Hold]) -> Script {
        let mut script = Script::default();
        let mut labels = Labels::new();
        let mut r = vec![];
        for hold in holds {
            let label = script.take(hold.standing, &hold.wording, hold.window);
            hold.ids.iter().for_each(|id| {
                labels.insert(*id, label);
            });
            if hold.standing {
                r.push(label);
            }
        }
        script.walk(&deriv.node, &labels, &r);
        script
    }

    /// Labels taken in all, holds included.
    pub fn labels(&self) -> usize {
        self.taken.len()
    }

    fn take(&mut self, standing: bool, wording: &Part, window: Window) -> u32 {
        let label = self.taken.len() as u32;
        self.taken.push(Held { label, standing, wording: wording.clone(), window });
        label
    }

    fn scene(&self, node: &Node, labels: &Labels, r: &[u32]) -> Scene {
        let d: Vec<u32> = node.d.iter().map(|h| labels[&h.id]).collect();
        let keep = |of: &dyn Fn(u32) -> bool| -> Vec<Held> {
            self.taken.iter().filter(|h| of(h.label)).cloned().collect()
        };
        Scene {
            r: keep(&|l| r.contains(&l)),
            d: keep(&|l| d.contains(&l)),
            gone: keep(&|l| !r.contains(&l) && !d.contains(&l)),
            goal: node.goal.clone(),
            next: self.taken.len() as u32,
            starts: vec![],
        }
    }

    fn line(node: &Node, labels: &Labels) -> StepLine {
        let bit = |id: &Id| 1u64.checked_shl(labels[id]).unwrap_or(0);
        StepLine {
            letters: node.letters,
            label: node.l.map(|id| labels[&id]),
            holder: node.holder,
            share: node.share.as_ref().map(|s| s.iter().map(bit).sum()),
            window: node.window,
        }
    }

    fn walk(&mut self, node: &Node, labels: &Labels, r: &[u32]) {
        let here = self.lines.len();
        self.scenes.push(self.scene(node, labels, r));
        self.lines.push(Script::line(node, labels));
        for premise in &node.premises {
            let (mut labels, mut r) = (labels.clone(), r.to_vec());
            for Hyp { id, wording, window } in &premise.takes {
                let label = self.take(premise.joins_r, wording, *window);
                labels.insert(*id, label);
                if premise.joins_r {
                    r.push(label);
                }
                if label >= 64 && self.overflow.is_none() {
                    self.overflow = Some((here as u32 + 1, self.lines.len()));
                }
            }
            let start = self.lines.len();
            self.scenes[here].starts.push(start);
            self.walk(&premise.node, &labels, &r);
        }
    }

    /// The step (from 1) that a single stuck in D at this line makes fail: it goes with the rest at
    /// `tr`, `ll`, `ul`, with the first arm at `wr`, `pl`, and stops the first step that wants it gone.
    pub fn stuck(&self, line: usize) -> u32 {
        let starts = &self.scenes[line].starts;
        match self.lines[line].letters {
            "ax" | "or" | "gr" | "br" => line as u32 + 1,
            "tr" | "ll" | "ul" => self.stuck(starts[1]),
            _ => self.stuck(starts[0]),
        }
    }

    /// The line behind the last of the premise that begins here.
    pub fn end(&self, start: usize) -> usize {
        self.scenes[start].starts.last().map_or(start + 1, |last| self.end(*last))
    }

    /// The first line from here on that names the label or has it in its share.
    pub fn first_use(&self, from: usize, label: u32) -> Option<u32> {
        let uses = |l: &StepLine| {
            l.label == Some(label) || l.share.is_some_and(|s| s >> label & 1 == 1)
        };
        (from..self.lines.len()).find(|i| uses(&self.lines[*i])).map(|i| i as u32 + 1)
    }
}
