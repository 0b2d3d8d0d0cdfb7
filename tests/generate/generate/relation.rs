//! How two windows lie to each other, by their breaks; and the inclusion test held against the sets themselves.

use super::wording::{with_break, Window};

/// For one rule: how the outer window's break lies to the inner window's break, then how it lies to the inner
/// window's ends, then what there is.
macro_rules! relations {
    ($rule:literal) => {
        relations!(@ $rule; "breaks equal" "break before the other" "break touches the other from before"
            "break overlaps the other's first" "break strictly within the other" "break within, first the same"
            "break within, last the same" "break strictly around the other" "break around, first the same"
            "break around, last the same" "break overlaps the other's last" "break touches the other from behind"
            "break behind the other" "break before all" "break touches from" "break over from" "break inside"
            "break over all" "break over to" "break touches to" "break behind all" "outer break only"
            "inner break only" "no break")
    };
    (@ $rule:literal; $($name:literal)*) => { [$(concat!("break, ", $rule, ": ", $name)),*] };
}

/// For each rule that compares windows, and for windows that other rules hand on to `ax`.
pub const RELATIONS: [[&str; 24]; 6] = [
    relations!("ax"), relations!("sl"), relations!("ll"), relations!("ul"), relations!("gr"), relations!("other"),
];

/// The relation of two breaks.
fn of_breaks(w: Window, i: Window) -> usize {
    use std::cmp::Ordering::*;
    match (w.first.cmp(&i.first), w.last.cmp(&i.last)) {
        _ if w.last + 1 < i.first => 1,
        _ if w.last + 1 == i.first => 2,
        _ if i.last + 1 < w.first => 12,
        _ if i.last + 1 == w.first => 11,
        (Equal, Equal) => 0,
        (Less, Less) => 3,
        (Greater, Less) => 4,
        (Equal, Less) => 5,
        (Greater, Equal) => 6,
        (Less, Greater) => 7,
        (Equal, Greater) => 8,
        (Less, Equal) => 9,
        (Greater, Greater) => 10,
    }
}

/// The relation of the outer window's break to the inner window's ends.
fn of_ends(w: Window, i: Window) -> usize {
    match (w.first <= i.from, i.to <= w.last) {
        _ if w.last + 1 < i.from => 13,
        _ if w.last + 1 == i.from => 14,
        _ if i.to + 1 < w.first => 20,
        _ if i.to + 1 == w.first => 19,
        (true, false) => 15,
        (false, false) => 16,
        (true, true) => 17,
        (false, true) => 18,
    }
}

/// The places in `RELATIONS` that hold of the two.
pub fn of(w: Window, i: Window) -> Vec<usize> {
    match (w.has_break(), i.has_break()) {
        (true, true) => vec![of_breaks(w, i), of_ends(w, i)],
        (true, false) => vec![of_ends(w, i), 21],
        (false, true) => vec![22],
        (false, false) => vec![23],
    }
}

/// All well-formed windows whose minutes lie below the limit.
pub fn below(limit: u32) -> Vec<Window> {
    let mut all = vec![];
    for (from, to) in (0..limit).flat_map(|from| (from..limit).map(move |to| (from, to))) {
        all.push(with_break(from, to, 0, 0));
        let breaks = (from + 1..to).flat_map(|first| (first..to).map(move |last| (first, last)));
        all.extend(breaks.map(|(first, last)| with_break(from, to, first, last)));
    }
    all
}

/// The window as a set: bit k stands for minute k.
pub fn set(w: Window) -> u32 {
    let minutes = |from: u32, to: u32| (from..=to).map(|m| 1u32 << m).sum::<u32>();
    let pause = if (w.first, w.last) == (0, 0) { 0 } else { minutes(w.first, w.last) };
    minutes(w.from, w.to) & !pause
}

/// "has the minute", ⊇ and 43 against the sets, for all windows and pairs of windows of minutes 0 to 9.
pub fn check() {
    let all = below(10);
    assert_eq!(all.len(), 385);
    for w in &all {
        assert!(w.break_fits() && (0..12).all(|m| w.has(m) == (set(*w) >> m & 1 == 1)), "{w:?}");
        for i in &all {
            assert_eq!(w.contains(*i), set(*i) & !set(*w) == 0, "{w:?} and {i:?}");
            assert_eq!(w == i, set(*w) == set(*i), "one set, one window: {w:?} and {i:?}");
        }
    }
    let tens = |n: u32| [n / 1000, n / 100 % 10, n / 10 % 10, n % 10];
    let ordered = (0..10_000).map(tens).filter(|[from, to, ..]| from <= to);
    let fit = ordered.filter(|[from, to, first, last]| with_break(*from, *to, *first, *last).break_fits());
    assert_eq!(fit.count(), all.len());
}
