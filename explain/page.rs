//! An accepted booking as a page: one HTML file, without scripts and without anything from elsewhere.

use crate::till::steps::Labels;
use crate::told::VERDICT;
use crate::walk::{Derivation, Next, Node};
use crate::words::{each, signs};

const STYLE: &str = include_str!("page.css");

/// The whole page. `sheet` says which sheet it is.
pub fn page(derivation: &Derivation, serial: u32, sheet: &str) -> String {
    let mut body = head(derivation, serial, sheet);
    body += "<h2>Derivation</h2>\n";
    body += "<p class=\"soft\">The goal is on top; each step leaves what is below it to prove. R: standing labels. D: \
             single-use labels.</p>\n";
    branch(&mut body, derivation, &derivation.root);
    let shown = signs(&body.replace("&amp;", "&"));
    body += "<h2>Signs</h2>\n<ul class=\"soft\">\n";
    for sign in shown {
        body += &format!("<li>{}</li>\n", escaped(sign));
    }
    body += &format!("</ul>\n<footer>{}</footer>\n", escaped(VERDICT));
    let title = format!("ok,{serial}: {}", derivation.goal);
    format!(
        "<!DOCTYPE html>\n<html lang=\"en\">\n<head>\n<meta charset=\"utf-8\">\n\
         <meta name=\"viewport\" content=\"width=device-width, initial-scale=1\">\n<title>{}</title>\n\
         <style>\n{STYLE}</style>\n</head>\n<body>\n<main>\n{body}</main>\n</body>\n</html>\n",
        escaped(&title)
    )
}

/// Answer, goal, holds, and what the booking gives.
fn head(derivation: &Derivation, serial: u32, sheet: &str) -> String {
    let mut text = format!("<p class=\"answer\">ok,{serial}</p>\n<h1>{}</h1>\n", escaped(&derivation.goal));
    let told = format!("{sheet}: booked at minute {} in {} steps", derivation.now, derivation.steps);
    text += &format!("<p class=\"soft\">{}</p>\n<h2>Held</h2>\n", escaped(&told));
    text += "<p class=\"soft\">The holds take labels 0, 1, .. in their order.</p>\n<ul class=\"rows\">\n";
    for held in &derivation.holds {
        let fate = if held.spent { "spent" } else { "stays" };
        let coupon = format!("serial {}, {}; {fate}", held.serial, held.coupon);
        text += &format!("<li><span class=\"chip\"><b>{}</b></span> {}</li>\n", held.label, escaped(&coupon));
    }
    let gives = format!("serial {serial}, {}", derivation.gives);
    text + &format!("</ul>\n<h2>Given</h2>\n<ul class=\"rows\">\n<li>{}</li>\n</ul>\n", escaped(&gives))
}

/// A premise: its steps up to the one that closes it or leaves two.
fn branch(body: &mut String, derivation: &Derivation, first: &Node) {
    let mut node = first;
    loop {
        *body += &step(derivation, node);
        match &node.next {
            Next::One(next) => node = next,
            Next::Closed => return,
            Next::Two(first, second) => {
                for (name, premise) in [("first", first), ("second", second)] {
                    *body += "<details class=\"premise\" open>\n";
                    *body += &format!("<summary>{name} premise of step {}</summary>\n", node.number);
                    branch(body, derivation, premise);
                    *body += "</details>\n";
                }
                return;
            }
        }
    }
}

fn step(derivation: &Derivation, node: &Node) -> String {
    let (line, does) = (escaped(&node.line), escaped(&node.does));
    let number = node.number;
    let mut text = format!("<div class=\"step\" id=\"step-{number}\"><b>{number}</b> <code>{line}</code> ");
    text += &format!("<span class=\"soft\">{does}</span>");
    if matches!(node.next, Next::Closed) {
        text += " <span class=\"closes\">✓ closes</span>";
    }
    text += &format!("\n<p><span class=\"soft\">goal</span> <strong>{}</strong></p>\n", escaped(&node.goal));
    let fresh = |label: usize| node.entered.contains(&label);
    text += &chips("D", derivation, node.single, |_| true);
    text + &chips("R", derivation, node.standing, fresh) + "</div>\n"
}

/// Labels, those that are to be spelled with what they stand for.
fn chips(name: &str, derivation: &Derivation, labels: Labels, spelled: impl Fn(usize) -> bool) -> String {
    let chip = |label: usize| {
        let is = if spelled(label) { format!(" {}", escaped(&derivation.labels[label].is)) } else { String::new() };
        format!("<span class=\"chip\"><b>{label}</b>{is}</span>")
    };
    let chips: Vec<String> = each(labels).map(chip).collect();
    let told = if chips.is_empty() { "empty".to_string() } else { chips.join(" ") };
    format!("<p><span class=\"soft\">{name}</span> {told}</p>\n")
}

fn escaped(text: &str) -> String {
    let mut escaped = String::new();
    for sign in text.chars() {
        match sign {
            '&' => escaped += "&amp;",
            '<' => escaped += "&lt;",
            '>' => escaped += "&gt;",
            '"' => escaped += "&quot;",
            '\'' => escaped += "&#39;",
            sign => escaped.push(sign),
        }
    }
    escaped
}
