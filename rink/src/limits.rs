//! What `rink check` says of an accepted file: how much of each limit it uses, and what whoever drew it may not have meant.

use crate::annex;
use crate::boxes::{self, Boxed};
use crate::net::{self, Net};
use crate::plant::Plant;
use crate::play::words::{list_words, number_of, row_words, rows_words};
use crate::rounds;
use crate::structure::{self, branch_rows, Killer};
use effbd::Refusal;
use std::fmt::Write;

/// Constructs open together, at most.
const MOST_OPEN: usize = 12;

/// The lines of `check`; a refusal of the file is the proved reader's.
pub fn used(plant: &Plant, file: &[u8]) -> Result<String, Refusal> {
    let words = effbd::read_diagram(file)?;
    let net_file = net::translated(file)?;
    let net = Net::taken_apart(&net_file);
    let mut text = String::from("accepted\n");
    let mut line = |what: &str, used: usize, most: usize| {
        let _ = writeln!(text, "{what:<12} {used:>6} of {most}");
    };
    line("rows", plant.rows.len(), effbd::MOST_ROWS);
    line("items", plant.items.len(), effbd::MOST_ITEMS);
    line("depth", structure::depth(plant), MOST_OPEN);
    line("places", net.marks.len(), effbd::MOST_PLACES);
    line(
        "transitions",
        net.transitions.len(),
        effbd::MOST_TRANSITIONS,
    );
    line("net bytes", net_file.len(), effbd::NET_ROOM);
    line("state words", words as usize, effbd::MOST_STATE_WORDS);
    let _ = writeln!(text, "{:<12} {:>6}", "file bytes", file.len());
    for trigger in plant.triggers() {
        let _ = writeln!(text, "{}", trigger_line(plant, trigger));
    }
    for killer in structure::killers(plant) {
        let _ = writeln!(text, "{}", kill_line(plant, killer));
    }
    for boxed in boxes::all(plant) {
        let _ = writeln!(text, "{}", box_line(plant, &boxed));
    }
    if let Some(words) = annex::unprinted(net_file.len()) {
        let _ = writeln!(text, "annex: {words}");
    }
    for way in rounds::timeless(plant) {
        let _ = writeln!(text, "{}", round_line(plant, &way));
    }
    Ok(text)
}

/// A killing branch with those that it kills. One that ends with an LE or EXIT is never done: whoever drew it meant more.
fn kill_line(plant: &Plant, killer: Killer) -> String {
    let name = row_words(plant, killer.branch);
    let last = branch_rows(plant, killer.branch).last();
    match last.filter(|_| !killer.can_kill(plant)) {
        Some(last) => format!(
            "{name}: never kills, it ends with `{}`",
            plant.keyword(last)
        ),
        None => format!("{name}: kills {}", rows_words(plant, &killer.others(plant))),
    }
}

/// A box with the EXITs that leave it, in the order of its outlets.
fn box_line(plant: &Plant, boxed: &Boxed) -> String {
    let outlets = 0..boxed.outlets.len();
    let exits = outlets.flat_map(|outlet| boxed.exits_to(plant, outlet));
    let exits = exits.map(|exit| row_words(plant, exit));
    let name = row_words(plant, boxed.open);
    format!("{name}: left by {}", list_words(exits.collect()))
}

/// A trigger with its receivers. One that nobody takes has no count: whoever drew a give to it meant more.
fn trigger_line(plant: &Plant, trigger: usize) -> String {
    let takers: Vec<usize> = plant.takers(trigger).collect();
    let name = &plant.items[trigger].name;
    if takers.is_empty() {
        return format!("trigger {name}: no receiver, what is given to it changes nothing");
    }
    let receivers = number_of(takers.len() as u64, "receiver");
    format!(
        "trigger {name}: {receivers}, {}",
        rows_words(plant, &takers)
    )
}

/// A loop with a way round it, whole, since it is to be found in the drawing. Items may hold it up, so nothing is certain.
fn round_line(plant: &Plant, way: &[usize]) -> String {
    let mut rows = way.iter().map(|&row| row_words(plant, row));
    let name = rows.next().unwrap_or_default();
    let way = list_words(rows.collect());
    format!("warning: {name}: a way round it may spend no time: {way}")
}
