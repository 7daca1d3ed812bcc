//! Both ends in a line each, as lessons print them.

use super::screen::{shown_places, transition_clock};
use super::words::{busy_words, few_copies, number_of, seconds};
use super::Game;
use crate::net::{home, place_words, Home};
use crate::plant::Count;

/// Telegrams that a lesson's line shows, at most.
const FEW_TELEGRAMS: usize = 5;

/// Both ends in a line each, without items that have none, and whether they agree.
pub fn short_lines(game: &Game) -> Vec<String> {
    let sent = number_of(u64::from(game.sent_count()), "move");
    let taken = game.taken_count();
    let (panel_time, time) = (seconds(game.panel_time()), seconds(game.controller_time()));
    vec![
        format!("  panel ({sent}, {panel_time}): {}", panel_short(game)),
        format!(
            "  controller ({taken} taken, {time}): {}",
            controller_short(game)
        ),
        format!("  {}", bus_short(game)),
    ]
}

/// Whether the ends agree, and what is under way.
pub fn bus_short(game: &Game) -> String {
    let shown = game.under_way().iter().take(FEW_TELEGRAMS);
    let mut numbers: Vec<String> = shown.map(|telegram| telegram.number.to_string()).collect();
    if game.under_way().len() > FEW_TELEGRAMS {
        numbers.push("..".to_string());
    }
    let agreement = game.agreement_words();
    match numbers.as_slice() {
        [] => agreement,
        _ => format!("{agreement}; under way: {}", numbers.join(", ")),
    }
}

/// What is said of the panel in one line.
fn panel_short(game: &Game) -> String {
    let (plant, state) = (&game.plant, game.diagram_state());
    let busy = (0..plant.rows.len()).filter(|&row| state.busy(row));
    let rows = busy.map(|row| busy_words(plant, state, row));
    let counts = state.counts().filter(|(_, value)| *value > 0);
    let (counts, more) = few_copies(counts.collect(), |(count, _)| count.is_copy());
    short_line(game, rows.collect(), counts, more)
}

/// What is said of the controller in one line.
fn controller_short(game: &Game) -> String {
    let state = game.net_state();
    let (mut places, mut counts) = (Vec::new(), Vec::new());
    let (shown, more) = shown_places(game, false);
    for place in shown {
        match home(&game.plant, place) {
            Home::Count(count) => counts.push((count, state.mark(place))),
            Home::Row { .. } => places.push(place_short(game, place)),
        }
    }
    short_line(game, places, counts, more)
}

/// What is busy, then the counts, of which so many more are left out.
fn short_line(game: &Game, busy: Vec<String>, counts: Vec<(Count, u16)>, more: usize) -> String {
    let counts = counts.iter();
    let counts = counts.map(|(count, value)| format!("{} {value}", game.plant.count_name(*count)));
    let more = (more > 0).then(|| number_of(more as u64, "more count"));
    let counts: Vec<String> = counts.chain(more).collect();
    let parts = [busy.join("; "), counts.join(", ")];
    let parts = parts.iter().filter(|part| !part.is_empty());
    parts.cloned().collect::<Vec<String>>().join(" | ")
}

/// A marked place: with its mark where it counts turns, with the clock where a function runs.
fn place_short(game: &Game, place: usize) -> String {
    let words = place_words(&game.plant, place);
    let state = game.net_state();
    match (game.timed(place), home(&game.plant, place)) {
        (Some(number), _) => format!("{words} {}", transition_clock(game, number)),
        (None, Home::Row { which: 0, .. }) => words,
        (None, _) => format!("{words} {}", state.mark(place)),
    }
}

/// Whose game it is.
pub fn greeting(game: &Game) -> String {
    let title = game.plant.title.as_deref().unwrap_or("the plant");
    let station = game.station;
    format!("Panel, bus and controller of {title}, station {station}.")
}
