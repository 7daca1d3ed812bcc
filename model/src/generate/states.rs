//! States: reached ones, random ones that pass 20, odd ones.

use super::diagrams::item_count_word;
use super::Random;
use crate::diagram::{parse, Diagram, Item, Row};
use crate::diagram_step::{self, activity, clock, turns, RUNNING, STEP, WAIT};

/// States reached from the fresh one by accepted moves, the fresh one first;
/// none for a refused file.
pub fn walk(random: &mut Random, file: &[u8], moves: usize) -> Vec<Vec<u16>> {
    let Ok(diagram) = parse(file) else {
        return Vec::new();
    };
    let mut state = diagram_step::fresh_state(&diagram);
    let mut states = vec![state.clone()];
    for _ in 0..moves {
        let (code, argument) = likely_move(random, &diagram, &state);
        if let Ok(next) = diagram_step::after(&diagram, &state, code, argument) {
            state = next;
            states.push(state.clone());
        }
    }
    states
}

/// A move that the diagram accepts, if one was found.
pub(super) fn likely_move(random: &mut Random, diagram: &Diagram, state: &[u16]) -> (u16, u16) {
    let waits = [1, random.between(1, 9), random.word()];
    let moves = accepted_moves(diagram, state, &waits);
    random.pick(&moves, (WAIT, 1))
}

/// The steps and those of these waits that the diagram accepts at a state that
/// passes 20.
pub(super) fn accepted_moves(diagram: &Diagram, state: &[u16], waits: &[u16]) -> Vec<(u16, u16)> {
    let steps = (0..diagram.rows.len()).map(|row| (STEP, row as u16));
    let waits = waits.iter().map(|ticks| (WAIT, *ticks));
    let is_accepted = |(code, argument): &(u16, u16)| {
        diagram_step::moved(diagram, state, *code, *argument).is_ok()
    };
    steps.chain(waits).filter(is_accepted).collect()
}

/// A random state that passes 20, reached or not; empty for a refused file.
pub fn passing_state(random: &mut Random, file: &[u8]) -> Vec<u16> {
    let Ok(diagram) = parse(file) else {
        return Vec::new();
    };
    let mut state = vec![0; diagram.state_length()];
    let busy_percent = random.pick(&[10, 30, 60, 95], 30);
    let nearly_full = random.chance(20);
    for (number, row) in diagram.rows.iter().enumerate() {
        if random.chance(busy_percent) {
            state[activity(number)] = busy_activity(random, row);
        }
        match row {
            Row::ItOpen { count, .. } => state[turns(number)] = random.between(0, *count),
            Row::Function(function) if state[activity(number)] == RUNNING => {
                let earliest = random.pick(&[0, function.alpha, function.beta], 0);
                state[clock(number)] = random.between(earliest, function.beta);
            }
            _ => {}
        }
    }
    // Of many copies, seldom none would be full.
    let full_percent = random.pick(&[0, 3, 50], 0);
    for (number, item) in diagram.items.iter().enumerate() {
        for word in diagram.given_words(number) {
            state[word] = match item {
                _ if !nearly_full => item_count_word(random),
                Item::Plain(_) => random.between(65_530, 65_535),
                Item::Trigger { .. } => 65_534 + u16::from(random.chance(full_percent)),
            };
        }
    }
    state
}

/// An activity other than idle, where the row's kind has one.
fn busy_activity(random: &mut Random, row: &Row) -> u16 {
    match row {
        Row::Function(_) => random.between(1, 2),
        Row::AndBranch { .. } => 3,
        Row::OrBranch(_) | Row::Outlet(_) | Row::AndClose(_) => 0,
        _ => 1,
    }
}

/// A state with a word off, of another length, or of any words.
pub fn odd_state(random: &mut Random, file: &[u8]) -> Vec<u16> {
    let mut state = passing_state(random, file);
    if let (Some(word), true) = (shared_count(random, file), random.chance(30)) {
        state[word] = random.word().max(1);
        return state;
    }
    match random.below(7) {
        0 => {
            state.pop();
        }
        1 => state.push(random.word()),
        2 => state.iter_mut().for_each(|word| *word = random.word()),
        // An activity that a row of another kind may have.
        3 | 4 => {
            let (row, value) = (quiet_row(random, file), random.between(1, 3));
            if let Some(word) = state.get_mut(activity(row)) {
                *word = value;
            }
        }
        _ => {
            let (at, value) = (random.below(state.len()), random.word());
            if let Some(word) = state.get_mut(at) {
                *word = value;
            }
        }
    }
    state
}

/// A row that is never ready, a BRANCH or the close of an AND, or any row.
fn quiet_row(random: &mut Random, file: &[u8]) -> usize {
    let Ok(diagram) = parse(file) else {
        return 0;
    };
    let is_quiet = |row: &usize| match diagram.rows[*row] {
        Row::AndBranch { .. } | Row::OrBranch(_) | Row::Outlet(_) | Row::AndClose(_) => true,
        _ => random.chance(20),
    };
    let rows: Vec<usize> = (0..diagram.rows.len()).filter(is_quiet).collect();
    random.pick(&rows, 0)
}

/// The word of a trigger's shared count, which remains 0.
fn shared_count(random: &mut Random, file: &[u8]) -> Option<usize> {
    let diagram = parse(file).ok()?;
    let items = diagram.items.iter().enumerate();
    let triggers = items.filter(|(_, item)| matches!(item, Item::Trigger { .. }));
    let words: Vec<usize> = triggers.map(|(item, _)| diagram.item_word(item)).collect();
    words.get(random.below(words.len())).copied()
}

/// Any words of this number: net states reached or not.
pub fn net_state(random: &mut Random, length: usize) -> Vec<u16> {
    (0..length).map(|_| item_count_word(random)).collect()
}
