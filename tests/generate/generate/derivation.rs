//! Derivations over multisets of hypotheses: each rule as a function from premises to conclusion.
//! Hypotheses have names of their own here; labels come only when a booking is written.

use super::wording::*;

pub type Id = u32;

/// A hypothesis: a wording at a window, named for the sake of the tree alone.
#[derive(Clone, PartialEq, Debug)]
pub struct Hyp {
    pub id: Id,
    pub wording: Part,
    pub window: Window,
}

/// A goal (η-logic's consequent): "A at I", or "K affirms A at I".
#[derive(Clone, PartialEq, Debug)]
pub struct Goal {
    pub by: Option<u32>,
    pub wording: Part,
    pub window: Window,
}

/// One use of a rule, with the single-use hypotheses and goal of its conclusion.
#[derive(Clone, Debug)]
pub struct Node {
    pub letters: &'static str,
    pub l: Option<Id>,
    pub share: Option<Vec<Id>>,
    pub window: Option<Window>,
    /// The holder at which `al` uses a `q`.
    pub holder: Option<u32>,
    pub d: Vec<Hyp>,
    pub goal: Goal,
    pub premises: Vec<Premise>,
}

/// A premise and the hypotheses that are new in it.
#[derive(Clone, Debug)]
pub struct Premise {
    pub takes: Vec<Hyp>,
    pub joins_r: bool,
    pub node: Node,
}

/// A derivation of a judged line (η-logic's sequent); r is what it needs of R
/// (standing labels, η-logic's unrestricted context), node.d is D (the linear context).
#[derive(Clone, Debug)]
pub struct Deriv {
    pub r: Vec<Hyp>,
    pub node: Node,
}

fn same(node: Node) -> Premise {
    Premise { takes: vec![], joins_r: false, node }
}

fn ids(d: &[Hyp]) -> Vec<Id> {
    d.iter().map(|h| h.id).collect()
}

fn union(a: Vec<Hyp>, b: Vec<Hyp>) -> Vec<Hyp> {
    let mut all = a;
    for h in b {
        if !all.iter().any(|x| x.id == h.id) {
            all.push(h);
        }
    }
    all
}

impl Deriv {
    pub fn goal(&self) -> &Goal {
        &self.node.goal
    }

    pub fn hyp(&self, id: Id) -> Hyp {
        self.node.d.iter().find(|h| h.id == id).expect("a hypothesis of D").clone()
    }

    pub fn without(&self, gone: &[Id]) -> Vec<Hyp> {
        self.node.d.iter().filter(|h| !gone.contains(&h.id)).cloned().collect()
    }
}

fn right(letters: &'static str, d: Vec<Hyp>, goal: Goal, premises: Vec<Premise>) -> Node {
    assert!(goal.by.is_none(), "right steps need a goal without affirms");
    Node { letters, l: None, share: None, window: None, holder: None, d, goal, premises }
}

pub fn at_goal(wording: Part, window: Window) -> Goal {
    Goal { by: None, wording, window }
}

pub fn ax(h: Hyp, goal_window: Window) -> Deriv {
    assert!(h.window.contains(goal_window) && h.wording.atomic().is_some());
    let goal = at_goal(h.wording.clone(), goal_window);
    let mut node = right("ax", vec![h.clone()], goal, vec![]);
    node.l = Some(h.id);
    Deriv { r: vec![], node }
}

pub fn or(window: Window) -> Deriv {
    Deriv { r: vec![], node: right("or", vec![], at_goal(one(), window), vec![]) }
}

pub fn gr(outer: Window, inner: Window, window: Window) -> Deriv {
    assert!(outer.contains(inner));
    Deriv { r: vec![], node: right("gr", vec![], at_goal(covers(outer, inner), window), vec![]) }
}

pub fn tr(a: Deriv, b: Deriv) -> Deriv {
    assert_eq!(a.goal().window, b.goal().window);
    let goal = at_goal(tensor(&a.goal().wording, &b.goal().wording), a.goal().window);
    let d = [a.node.d.clone(), b.node.d.clone()].concat();
    let share = Some(ids(&a.node.d));
    let mut node = right("tr", d, goal, vec![same(a.node), same(b.node)]);
    node.share = share;
    Deriv { r: union(a.r, b.r), node }
}

pub fn wr(a: Deriv, b: Deriv) -> Deriv {
    assert_eq!(a.goal().window, b.goal().window);
    let (mut left, mut other) = (ids(&a.node.d), ids(&b.node.d));
    left.sort();
    other.sort();
    assert_eq!(left, other);
    let goal = at_goal(with(&a.goal().wording, &b.goal().wording), a.goal().window);
    let node = right("wr", a.node.d.clone(), goal, vec![same(a.node), same(b.node)]);
    Deriv { r: union(a.r, b.r), node }
}

/// `p1` and `p2`: the other arm is free.
pub fn p(first: bool, a: Deriv, other: &Part) -> Deriv {
    let mine = &a.goal().wording;
    let wording = if first { plus(mine, other) } else { plus(other, mine) };
    let letters = if first { "p1" } else { "p2" };
    let goal = at_goal(wording, a.goal().window);
    Deriv { r: a.r, node: right(letters, a.node.d.clone(), goal, vec![same(a.node)]) }
}

pub fn br(a: Deriv) -> Deriv {
    assert!(a.node.d.is_empty());
    let goal = at_goal(bang(&a.goal().wording), a.goal().window);
    Deriv { r: a.r, node: right("br", vec![], goal, vec![same(a.node)]) }
}

pub fn hr(a: Deriv, window: Window) -> Deriv {
    let goal = at_goal(at(&a.goal().wording, a.goal().window), window);
    Deriv { r: a.r, node: right("hr", a.node.d.clone(), goal, vec![same(a.node)]) }
}

pub fn sr(a: Deriv) -> Deriv {
    let principal = a.goal().by.expect("an affirming goal");
    let goal = at_goal(says(principal, &a.goal().wording), a.goal().window);
    Deriv { r: a.r, node: right("sr", a.node.d.clone(), goal, vec![same(a.node)]) }
}

pub fn af(a: Deriv, principal: u32) -> Deriv {
    let goal = a.goal().clone();
    let mut node = right("af", a.node.d.clone(), goal, vec![same(a.node)]);
    node.goal.by = Some(principal);
    Deriv { r: a.r, node }
}

/// A left step with one premise: l stands below for what is taken above.
pub fn left(letters: &'static str, a: Deriv, taken: &[Id], l: Hyp) -> Deriv {
    let takes: Vec<Hyp> = taken.iter().map(|id| a.hyp(*id)).collect();
    let mut d = a.without(taken);
    d.push(l.clone());
    let goal = a.goal().clone();
    let premises = vec![Premise { takes, joins_r: false, node: a.node }];
    let node = Node { letters, l: Some(l.id), share: None, window: None, holder: None, d, goal, premises };
    Deriv { r: a.r, node }
}

/// `al`: l below is a `q`, and what is taken above its part with the holder put in.
pub fn al(a: Deriv, taken: Id, l: Hyp, holder: u32) -> Deriv {
    let above = a.hyp(taken);
    assert!(l.wording.letter() == 'q' && above.wording == l.wording.parts()[0].put(holder) && above.window == l.window);
    let mut out = left("al", a, &[taken], l);
    out.node.holder = Some(holder);
    out
}

/// `cp`: the hypothesis comes from R below, where it is called r.
pub fn cp(a: Deriv, taken: Id, r: Id) -> Deriv {
    let h = a.hyp(taken);
    let (d, goal) = (a.without(&[taken]), a.goal().clone());
    let standing = Hyp { id: r, ..h.clone() };
    let premises = vec![Premise { takes: vec![h], joins_r: false, node: a.node }];
    let node = Node { letters: "cp", l: Some(r), share: None, window: None, holder: None, d, goal, premises };
    Deriv { r: union(a.r, vec![standing]), node }
}

/// `bl`: r of R above is !r in D below.
pub fn bl(a: Deriv, r: Id, l: Id) -> Deriv {
    let h = a.r.iter().find(|h| h.id == r).expect("a hypothesis of R").clone();
    let below = Hyp { id: l, wording: bang(&h.wording), window: h.window };
    let rest = a.r.iter().filter(|x| x.id != r).cloned().collect();
    let mut out = left("bl", Deriv { r: rest, node: a.node }, &[], below);
    out.node.premises[0].takes = vec![h];
    out.node.premises[0].joins_r = true;
    out
}

pub fn pl(a: Deriv, ha: Id, b: Deriv, hb: Id, l: Id) -> Deriv {
    let (x, y) = (a.hyp(ha), b.hyp(hb));
    assert!(x.window == y.window && a.goal() == b.goal());
    assert_eq!(a.without(&[ha]).len(), b.without(&[hb]).len());
    let below = Hyp { id: l, wording: plus(&x.wording, &y.wording), window: x.window };
    let r = union(a.r.clone(), b.r.clone());
    let mut out = left("pl", Deriv { r, node: a.node }, &[ha], below);
    out.node.premises.push(Premise { takes: vec![y], joins_r: false, node: b.node });
    out
}

/// `ll` and `ul`: q proves the left part, a uses the right part h; outer is L's window below.
pub fn arrow(linear: bool, q: Deriv, a: Deriv, h: Id, l: Id, outer: Window) -> Deriv {
    let part = a.hyp(h);
    assert!(part.window == q.goal().window && outer.contains(part.window) && q.goal().by.is_none());
    assert!(linear || q.node.d.is_empty());
    let wording = if linear { lolli } else { implies }(&q.goal().wording, &part.wording);
    let letters = if linear { "ll" } else { "ul" };
    let r = union(q.r, a.r.clone());
    let mut out = left(letters, Deriv { r, node: a.node }, &[h], Hyp { id: l, wording, window: outer });
    out.node.window = Some(part.window);
    out.node.share = linear.then(|| ids(&q.node.d));
    out.node.d.extend(q.node.d.clone());
    out.node.premises.insert(0, same(q.node));
    out
}
