//! Logs: accepted moves from fresh, and damaged ones.

use super::damage::damage_bytes;
use super::diagrams::part_of_hour;
use super::states::accepted_moves;
use super::Random;
use crate::diagram::{parse, Diagram, Row};
use crate::diagram_step::{activity, clock, fresh_state, moved, RUNNING};
use crate::logs::SETPOINT_LENGTH;
use crate::records::push_words;
use std::collections::BTreeMap;

/// Moves in which a round is looked for.
const ROUND: usize = 150;

/// A log of accepted moves: so many, fewer where the diagram comes to a state
/// without one, none for a refused file.
pub fn accepted_log(random: &mut Random, file: &[u8], moves: usize) -> Vec<u8> {
    match parse(file) {
        Ok(diagram) => walked_log(random, &diagram, moves, |_| {}),
        Err(_) => Vec::new(),
    }
}

/// A log of this many accepted moves that goes round: where a state is met
/// again, the moves between are made again and again. An accepted log as it is
/// where no state is, nothing for a refused file.
pub fn round_log(random: &mut Random, file: &[u8], moves: usize) -> Vec<u8> {
    let Ok(diagram) = parse(file) else {
        return Vec::new();
    };
    let mut met = BTreeMap::from([(fresh_state(&diagram), 0)]);
    let mut round = 0..0;
    let mut count = 0;
    let mut log = walked_log(random, &diagram, ROUND, |state| {
        count += 1;
        let first = *met.entry(state.to_vec()).or_insert(count);
        // The longest round has the most starts in it.
        if count - first > round.len() {
            round = first..count;
        }
    });
    if !round.is_empty() {
        let again = &log[SETPOINT_LENGTH * round.start..SETPOINT_LENGTH * round.end];
        let rounds = moves / round.len() + 1;
        log = [&log[..SETPOINT_LENGTH * round.start], &again.repeat(rounds)].concat();
    }
    log.truncate(SETPOINT_LENGTH * moves);
    log
}

/// Accepted moves from fresh; each state after one is shown.
fn walked_log(
    random: &mut Random,
    diagram: &Diagram,
    moves: usize,
    mut show: impl FnMut(&[u16]),
) -> Vec<u8> {
    let mut state = fresh_state(diagram);
    let mut log = Vec::with_capacity(SETPOINT_LENGTH * moves);
    for _ in 0..moves {
        let waits = likely_waits(random, diagram, &state);
        let accepted = accepted_moves(diagram, &state, &waits);
        let (code, argument) = random.pick(&accepted, (0, 0));
        let Ok(next) = moved(diagram, &state, code, argument) else {
            break;
        };
        state = next;
        push_words(&mut log, &[code, argument]);
        show(&state);
    }
    log
}

/// Ticks: few, a part of an hour, or any; and as many as the running rows let
/// pass.
fn likely_waits(random: &mut Random, diagram: &Diagram, state: &[u16]) -> [u16; 2] {
    let left = diagram.rows.iter().enumerate().filter_map(|(number, row)| {
        let running = state[activity(number)] == RUNNING;
        match row {
            Row::Function(function) if running => Some(function.beta - state[clock(number)]),
            _ => None,
        }
    });
    let ticks = match random.below(3) {
        0 => random.between(1, 9),
        1 => part_of_hour(random),
        _ => random.word().max(1),
    };
    [ticks, left.min().unwrap_or_default()]
}

/// Something done to a log, early or late in it: a move put in, left out or
/// made another, bytes damaged, or bytes too few or too many for whole moves.
pub fn damaged_log(random: &mut Random, mut log: Vec<u8>) -> Vec<u8> {
    let from = SETPOINT_LENGTH * random.below(log.len() / SETPOINT_LENGTH + 1);
    let to = (from + SETPOINT_LENGTH).min(log.len());
    match random.below(6) {
        0 => drop(log.splice(from..from, any_move(random))),
        1 => drop(log.splice(from..to, any_move(random))),
        2 => drop(log.drain(from..to)),
        3 => damage_bytes(random, &mut log),
        4 => log.truncate(log.len().saturating_sub(random.below(3) + 1)),
        _ => {
            let more = random.below(3) + 1;
            log.extend(random.bytes(more));
        }
    }
    log
}

/// The setpoint of a move, seldom one that is accepted.
fn any_move(random: &mut Random) -> Vec<u8> {
    let mut setpoint = Vec::new();
    let code = random.pick(&[0, 1, 1, 1, 2, 2, 3, 65_535], 1);
    push_words(&mut setpoint, &[code, random.word()]);
    setpoint
}
