//! All pairs of windows of five minutes, for each rule that compares windows: 30 x 30.

use super::relation::{below, of, set, RELATIONS};
use super::session::{Desk, Session};
use super::wording::{with_break, Window};

pub const GRID: [&str; 5] = ["grid: ax", "grid: sl", "grid: ll", "grid: ul", "grid: gr"];

/// The minutes that 0 to 4 stand for.
type Minutes = [u32; 5];
const FIRST: Minutes = [0, 1, 2, 3, 4];
const LAST: Minutes = [9_999_995, 9_999_996, 9_999_997, 9_999_998, 9_999_999];
/// With others between them, parted where a number of 8 or 16 bits ends.
const FAR: Minutes = [0, 255, 256, 65_536, 9_999_999];

/// The window of these minutes in the place of 0 to 4; no break stays none.
fn moved(w: Window, to: &Minutes) -> Window {
    let pause = if w.has_break() { (to[w.first as usize], to[w.last as usize]) } else { (0, 0) };
    with_break(to[w.from as usize], to[w.to as usize], pause.0, pause.1)
}

/// ⊇ by the sets where the minutes follow each other, else by the minutes at and beside all ends.
fn good(w: Window, i: Window, minutes: &Minutes) -> bool {
    let (outer, inner) = (moved(w, minutes), moved(i, minutes));
    if minutes[4] - minutes[0] == 4 {
        return set(i) & !set(w) == 0;
    }
    let mut near = minutes.iter().flat_map(|m| [m.saturating_sub(1), *m, m + 1]);
    near.all(|m| !inner.has(m) || outer.has(m))
}

/// A booking that is right or wrong at its step; what it adds is withdrawn.
fn book(desk: &mut Desk, text: &str, step: Option<u32>, marks: &[&'static str]) {
    let serial = desk.model.given + 1;
    let answer = step.map_or(format!("ok,{serial}"), |step| format!("no,40,{step}"));
    desk.script(text, &answer, "");
    desk.mark(marks);
    if step.is_none() {
        desk.script(&format!("withdraw,{serial}"), &format!("ok,{serial}"), "withdraw booked");
    }
}

/// For a rule: the standing coupon's wording, the goal's, the steps with `{I}` for J, and the step that compares.
const RULES: [(u32, u32, &str, u32); 4] = [
    (0, 0, "cp,0|ax,1", 2), (1, 1, "sr|cp,0|sl,1|af|ax,2", 3), (3, 0, "cp,0|ll,1,0000000000000000,{I}|or|ax,2", 2),
    (4, 0, "cp,0|ul,1,{I}|or|ax,2", 2),
];

/// Every window as a standing coupon's, and every window as goal.
fn coupons(rule: usize, minutes: &Minutes) -> Session {
    let mut desk = Desk::new();
    desk.words(&["a,9,7", "s,1,0", "o", "l,2,0", "u,2,0"]);
    let (wording, goal, steps, step) = RULES[rule];
    let all = below(5);
    for (n, w) in all.iter().enumerate() {
        let issue = format!("issue,r,{wording},{}", moved(*w, minutes).text());
        desk.script(&issue, &format!("ok,{}", n + 1), "");
    }
    let lines = steps.split('|').count();
    for (n, w) in all.iter().enumerate() {
        for i in &all {
            let (outer, inner) = (moved(*w, minutes), moved(*i, minutes));
            let text = inner.text();
            let head = format!("book,{},{goal},{text},1,{lines}|hold,{}", inner.to, n + 1);
            let mut marks = vec![GRID[rule]];
            marks.extend(of(outer, inner).iter().map(|n| RELATIONS[rule][*n]));
            let wrong = (!good(*w, *i, minutes)).then_some(step);
            book(&mut desk, &format!("{head}|{}", steps.replace("{I}", &text)), wrong, &marks);
        }
    }
    desk.session(GRID[rule], 0)
}

/// A twelfth of the pairs as ⊇, each the price of an atom.
fn covers(part: usize) -> Session {
    let mut desk = Desk::new();
    desk.words(&["a,9,7"]);
    let all = below(5);
    let pairs: Vec<(Window, Window)> = all.iter().flat_map(|w| all.iter().map(|i| (*w, *i))).collect();
    for (w, i) in pairs.iter().skip(part).step_by(12) {
        let (line, serial) = (desk.model.lines.len(), desk.model.given + 1);
        desk.words(&[&format!("g,{},{}", w.text(), i.text()), &format!("l,{line},0")]);
        desk.script(&format!("issue,r,{},7,7,0,0", line + 1), &format!("ok,{serial}"), "");
        let mut marks = vec![GRID[4]];
        marks.extend(of(*w, *i).iter().map(|n| RELATIONS[4][*n]));
        let wrong = (!good(*w, *i, &FIRST)).then_some(3);
        let steps = "cp,0|ll,1,0000000000000000,7,7,0,0|gr|ax,2";
        book(&mut desk, &format!("book,7,0,7,7,0,0,1,4|hold,{serial}|{steps}"), wrong, &marks);
    }
    desk.session(GRID[4], 0)
}

pub fn sessions() -> Vec<Session> {
    let rules = [(0, FIRST), (0, LAST), (1, FIRST), (1, FAR), (2, FIRST), (2, LAST), (3, FIRST), (3, FAR)];
    let mut all: Vec<Session> = rules.iter().map(|(rule, minutes)| coupons(*rule, minutes)).collect();
    all.extend((0..12).map(covers));
    all
}
