//! Both ends side by side, the bus below them, then the moves accepted now: plain text, [`COLUMNS`] wide at most.

use super::lines::{capitalised, shortened, table, Entry, COLUMNS};
use super::states::Activity;
use super::words::{
    activity_words, clock_words, few_copies, move_words, number_of, seconds, title_words,
    MOST_COPIES,
};
use super::{step, Game, UnderWay};
use crate::net::{home, place_words, transition_words, Home};
use crate::plant::{Count, Part, Plant};
use effbd::refusal;

const LEFT: usize = 52;
const BETWEEN: &str = " | ";
const RIGHT: usize = COLUMNS - LEFT - BETWEEN.len();
/// Diagrams of so many rows are shown whole.
const FEW_ROWS: usize = 16;
/// Telegrams and moves that a screen shows, at most.
const MOST_TELEGRAMS: usize = 8;
const MOST_MOVES: usize = 12;
/// Columns by which a deep row is indented, at most.
const MOST_INDENT: usize = 10;

/// The whole screen; `everything` with idle rows, all copies and empty places.
pub fn screen(game: &Game, everything: bool) -> Vec<String> {
    let mut lines = ends_lines(game, everything);
    lines.extend(bus_lines(game));
    lines.push(capitalised(&game.agreement_words()));
    lines.push(String::new());
    lines.extend(moves_lines(game, MOST_MOVES));
    lines
}

/// The panel left, the controller right.
fn ends_lines(game: &Game, everything: bool) -> Vec<String> {
    let rule = format!("{}-+-{}", "-".repeat(LEFT), "-".repeat(RIGHT));
    let left = panel_lines(game, everything);
    let right = controller_lines(game, everything);
    let mut lines = vec![beside(&panel_head(game), &controller_head(game)), rule];
    let longer = left.len().max(right.len());
    let at = |side: &[String], line: usize| side.get(line).cloned().unwrap_or_default();
    lines.extend((0..longer).map(|line| beside(&at(&left, line), &at(&right, line))));
    lines.push("-".repeat(COLUMNS));
    lines
}

fn panel_head(game: &Game) -> String {
    let moves = number_of(u64::from(game.sent_count()), "move");
    format!("PANEL  {moves} made, time {}", seconds(game.panel_time()))
}

fn controller_head(game: &Game) -> String {
    let (taken, time) = (game.taken_count(), seconds(game.controller_time()));
    format!("CONTROLLER  {taken} taken, time {time}")
}

fn beside(left: &str, right: &str) -> String {
    let left = shortened(left, LEFT);
    let line = format!("{left:<LEFT$}{BETWEEN}{}", shortened(right, RIGHT));
    line.trim_end().to_string()
}

/// The rows and the items of the diagram.
fn panel_lines(game: &Game, everything: bool) -> Vec<String> {
    let plant = &game.plant;
    let shown = shown_rows(game, everything);
    let idle = plant.rows.len() - shown.len();
    let deepest = shown.iter().map(|(_, depth)| *depth).max();
    let unit = if deepest <= Some(2) { 2 } else { 1 };
    let rows = shown.into_iter().map(|(row, depth)| {
        let indent = (unit * depth).min(MOST_INDENT);
        Entry {
            number: row.to_string(),
            name: format!("{:indent$}{}", "", title_words(plant, row)),
            words: row_state(game, row),
        }
    });
    let mut lines = vec!["rows".to_string()];
    lines.extend(table(rows.collect(), LEFT));
    if idle > 0 {
        let idle = number_of(idle as u64, "idle row");
        lines.push(format!("     and {idle}, all shows every row"));
    }
    lines.extend(count_lines(game, everything));
    lines
}

/// The counts of the items and of the triggers' copies; of many copies the first that have something.
fn count_lines(game: &Game, everything: bool) -> Vec<String> {
    let counts: Vec<(Count, u16)> = game.diagram_state().counts().collect();
    let copies = counts.iter().filter(|(count, _)| count.is_copy()).count();
    let whole = everything || copies <= MOST_COPIES;
    let shown = counts.iter().copied();
    let shown = shown.filter(|(count, value)| whole || !count.is_copy() || *value > 0);
    let (shown, _) = few_copies(shown.collect(), |(count, _)| !whole && count.is_copy());
    let left_out = counts.len() - shown.len();
    let entries = shown.into_iter().map(|(count, value)| Entry {
        number: String::new(),
        name: game.plant.count_name(count),
        words: value.to_string(),
    });
    let head = (!counts.is_empty()).then(|| "items".to_string());
    let lines = table(entries.collect(), LEFT);
    let lines = head.into_iter().chain(lines);
    lines.chain(copies_left_out(left_out)).collect()
}

/// Says that copies of triggers are left out, if any are.
fn copies_left_out(copies: usize) -> Option<String> {
    let counts = number_of(copies as u64, "count");
    (copies > 0).then(|| format!("     and {counts} of triggers, all shows them"))
}

/// What a row does; of a ready function also the item that it waits for.
fn row_state(game: &Game, row: usize) -> String {
    let (plant, state) = (&game.plant, game.diagram_state());
    let words = activity_words(plant, state, row);
    let short = match (&plant.rows[row].part, state.activity(row)) {
        (Part::Function(_), Activity::Ready) => game.tried(step(row)).err(),
        _ => None,
    };
    match short {
        Some(refused) if refused.number == refusal::ITEM_SHORT => {
            let item = &plant.items[refused.value as usize].name;
            format!("{words}, short of {item}")
        }
        _ => words,
    }
}

/// The rows to show, with how many of them are around each: of a long diagram those that are not idle, and what is around them.
fn shown_rows(game: &Game, everything: bool) -> Vec<(usize, usize)> {
    let (plant, state) = (&game.plant, game.diagram_state());
    let around = around(plant);
    let whole = everything || plant.rows.len() <= FEW_ROWS;
    let mut shown = vec![whole; plant.rows.len()];
    for row in (0..shown.len()).filter(|&row| state.busy(row)) {
        shown[row] = true;
        let telling = |outer: &usize| {
            let outer = &plant.rows[*outer];
            !outer.part.is_branch() || outer.name.is_some()
        };
        for outer in around[row].iter().copied().filter(telling) {
            shown[outer] = true;
        }
    }
    let rows = around.iter().enumerate().filter(|(row, _)| shown[*row]);
    let depth = |outer: &[usize]| outer.iter().filter(|&&row| shown[row]).count();
    rows.map(|(row, outer)| (row, depth(outer))).collect()
}

/// Of each row: the opens and BRANCH rows that it stands in, outermost first.
fn around(plant: &Plant) -> Vec<Vec<usize>> {
    let mut open: Vec<usize> = Vec::new();
    let mut around = Vec::new();
    let in_branch = |open: &[usize]| {
        let last = open.last();
        last.is_some_and(|&row| plant.rows[row].part.is_branch())
    };
    for (row, found) in plant.rows.iter().enumerate() {
        let part = &found.part;
        if (part.closes() || part.is_branch()) && in_branch(&open) {
            open.pop();
        }
        if part.closes() {
            open.pop();
        }
        around.push(open.clone());
        if part.opens() || part.is_branch() {
            open.push(row);
        }
    }
    around
}

/// The marked places and the enabled transitions of the net.
fn controller_lines(game: &Game, everything: bool) -> Vec<String> {
    let (plant, net, state) = (&game.plant, &game.net, game.net_state());
    let (places, left_out) = shown_places(game, everything);
    let places = places.into_iter().map(|place| Entry {
        number: place.to_string(),
        name: place_words(plant, place),
        words: match state.mark(place) {
            0 => "-".to_string(),
            mark => mark.to_string(),
        },
    });
    let enabled = (0..net.transitions.len()).filter(|&number| game.enabled(number));
    let transitions = enabled.map(|number| Entry {
        number: format!("t{number}"),
        name: transition_words(plant, net, number),
        words: transition_clock(game, number),
    });
    let head = if everything {
        "places"
    } else {
        "marked places"
    };
    let mut lines = vec![head.to_string()];
    lines.extend(table(places.collect(), RIGHT));
    lines.extend(copies_left_out(left_out));
    let transitions = table(transitions.collect(), RIGHT);
    let none = if transitions.is_empty() { "no " } else { "" };
    lines.push(format!("{none}enabled transitions"));
    lines.extend(transitions);
    lines
}

/// The clock of an enabled transition in its interval.
pub fn transition_clock(game: &Game, number: usize) -> String {
    let transition = &game.net.transitions[number];
    match (transition.from, transition.to) {
        (0, 0) => "due now".to_string(),
        (from, to) => clock_words(game.net_state().clock(number), from, to),
    }
}

/// The places to show: the marked ones, without the turns left of a repeat at rest; and how many copies are left out.
pub fn shown_places(game: &Game, everything: bool) -> (Vec<usize>, usize) {
    let (plant, state) = (&game.plant, game.net_state());
    let places = (0..game.net.marks.len()).filter(|&place| {
        let marked = state.mark(place) > 0 && !state.at_rest(plant, place);
        marked || (everything && game.net.used(place))
    });
    let is_copy = |place: &usize| match home(plant, *place) {
        Home::Count(count) => count.is_copy(),
        Home::Row { .. } => false,
    };
    few_copies(places.collect(), |place| !everything && is_copy(place))
}

/// The telegrams under way, the next one first.
fn bus_lines(game: &Game) -> Vec<String> {
    let under_way = game.under_way();
    let telegrams = match under_way.len() {
        0 => "no telegram".to_string(),
        several => number_of(several as u64, "telegram"),
    };
    let auto = if game.auto {
        ", each new one is delivered at once"
    } else {
        ""
    };
    let mut lines = vec![format!("BUS  {telegrams} under way{auto}")];
    let shown = under_way.iter().take(MOST_TELEGRAMS);
    let entries = shown.map(|telegram| telegram_entry(game, telegram));
    lines.extend(table(entries.collect(), COLUMNS));
    if under_way.len() > MOST_TELEGRAMS {
        let more = under_way.len() - MOST_TELEGRAMS;
        lines.push(format!("     and {more} behind these"));
    }
    lines
}

/// A telegram: its move, its age, and what the controller would answer now.
fn telegram_entry(game: &Game, telegram: &UnderWay) -> Entry {
    let again = if telegram.again { ", sent again" } else { "" };
    let now = match game.tried_take(&telegram.bytes) {
        Ok(_) => "would be taken",
        Err(refused) if refused.number == refusal::NUMBER_PAST => "taken already",
        Err(refused) if refused.number == refusal::NUMBER_AHEAD => "too early yet",
        Err(_) => "would be refused",
    };
    let age = match game.panel_time() - telegram.since {
        0 => "new".to_string(),
        ticks => format!("{} old", seconds(ticks)),
    };
    Entry {
        number: telegram.number.to_string(),
        name: move_words(&game.plant, telegram.made),
        words: format!("{age}{again}, {now}"),
    }
}

/// The moves accepted now, numbered.
pub fn moves_lines(game: &Game, most: usize) -> Vec<String> {
    let choices = game.choices();
    if choices.is_empty() {
        return vec!["NO MOVE IS ACCEPTED NOW".to_string()];
    }
    let mut lines = vec!["MOVES ACCEPTED NOW".to_string()];
    let shown = (1..).zip(&choices).take(most);
    let shown = shown.map(|(number, choice)| format!("{number:>3}  {}", choice.words));
    lines.extend(shown.map(|line| shortened(&line, COLUMNS)));
    if choices.len() > most {
        let more = choices.len() - most;
        lines.push(format!("     and {more} more, moves lists all"));
    }
    let end = game.plant.rows.len() - 1;
    if game.diagram_state().activity(end) == Activity::Ready {
        lines.push("     the end is reached, restart begins again".to_string());
    }
    lines
}
