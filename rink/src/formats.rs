//! A net in the formats of other programs: Graphviz and TINA.

use crate::net::{place_words, transition_words, Arc, Net};
use crate::plant::Plant;
use std::fmt::Write;

/// The clears of a transition in words, such as `clears 0 to 23`; empty where it has none.
pub fn clears_words(clears: &[(u16, u16)]) -> String {
    let ranges: Vec<String> = clears
        .iter()
        .map(|(first, last)| format!("{first} to {last}"))
        .collect();
    if ranges.is_empty() {
        String::new()
    } else {
        format!("clears {}", ranges.join(", "))
    }
}

/// A text between double quotes for Graphviz.
fn quoted(text: &str) -> String {
    format!("\"{}\"", text.replace('\\', "\\\\").replace('"', "\\\""))
}

/// The net for Graphviz; places that nothing ever marks are left out.
pub fn dot(plant: &Plant, net: &Net) -> String {
    let title = plant.title.as_deref().unwrap_or("net");
    let mut text = format!("digraph {} {{\n  rankdir=LR;\n", quoted(title));
    for place in (0..net.marks.len()).filter(|place| net.used(*place)) {
        let words = place_words(plant, place);
        let label = format!("p{place}\\n{words}\\n{}", net.marks[place]);
        let _ = writeln!(text, "  p{place} [shape=circle, label=\"{label}\"];");
    }
    for (number, transition) in net.transitions.iter().enumerate() {
        let words = transition_words(plant, net, number);
        let clears = clears_words(&transition.clears);
        let (from, to) = (transition.from, transition.to);
        let label = format!("t{number}\\n{words}\\n[{from}, {to}]\\n{clears}");
        let label = label.trim_end_matches("\\n");
        let _ = writeln!(text, "  t{number} [shape=box, label=\"{label}\"];");
        text += &dot_arcs(&transition.takes, |place| format!("p{place} -> t{number}"));
        text += &dot_arcs(&transition.gives, |place| format!("t{number} -> p{place}"));
    }
    text + "}\n"
}

fn dot_arcs(arcs: &[Arc], ends: impl Fn(u16) -> String) -> String {
    let line = |arc: &Arc| {
        let weight = match arc.weight {
            1 => String::new(),
            weight => format!(" [label=\"{weight}\"]"),
        };
        format!("  {}{weight};\n", ends(arc.place))
    };
    arcs.iter().map(line).collect()
}

/// The net for TINA. That format has no clears: a comment names them, and what TINA finds of a net that has some is not what the net
/// does.
pub fn tina(plant: &Plant, net: &Net) -> String {
    let title = plant.title.as_deref().unwrap_or("net");
    let mut text = format!("# times are ticks of 0.1 s\nnet {{{}}}\n", braced(title));
    if net
        .transitions
        .iter()
        .any(|transition| !transition.clears.is_empty())
    {
        text += "# this format has no clears: those of the net are named in comments, and are not part of what follows\n";
    }
    for (number, transition) in net.transitions.iter().enumerate() {
        let clears = clears_words(&transition.clears);
        if !clears.is_empty() {
            let _ = writeln!(text, "# t{number} {clears}");
        }
        let words = braced(&transition_words(plant, net, number));
        let (from, to) = (transition.from, transition.to);
        let (takes, gives) = (tina_arcs(&transition.takes), tina_arcs(&transition.gives));
        let _ = writeln!(
            text,
            "tr t{number} : {{{words}}} [{from},{to}]{takes} ->{gives}"
        );
    }
    for (place, mark) in net
        .marks
        .iter()
        .enumerate()
        .filter(|(place, _)| net.used(*place))
    {
        let words = braced(&place_words(plant, place));
        let _ = writeln!(text, "pl p{place} : {{{words}}} ({mark})");
    }
    text
}

/// A text for between braces: without braces and backslashes of its own.
fn braced(text: &str) -> String {
    text.replace(['{', '}', '\\'], " ")
}

fn tina_arcs(arcs: &[Arc]) -> String {
    let one = |arc: &Arc| match arc.weight {
        1 => format!(" p{}", arc.place),
        weight => format!(" p{}*{weight}", arc.place),
    };
    arcs.iter().map(one).collect()
}
