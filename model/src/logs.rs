//! Document 02, logs: "setpoints of 4 bytes one after another, from fresh", and
//! request 1, "Starts in any hour".

use crate::diagram::{parse, Diagram, Row};
use crate::diagram_step::{activity, fresh_state, moved, RUNNING, STEP, WAIT};
use crate::records::{push_words, word};
use crate::refusal::{refusal, Answer, Refusal, LOG_OFF, MOVE_REFUSED, NOT_FUNCTION};

/// A setpoint: move code, row or ticks.
pub const SETPOINT_LENGTH: usize = 4;
pub const MOST_MOVES: usize = 65_535;
/// Ticks of an hour.
pub const HOUR: u32 = 36_000;

/// A log of whole setpoints, not too many; whether a diagram accepts its moves
/// only a walk tells.
#[derive(Clone, Copy, Debug)]
pub struct Log<'a> {
    setpoints: &'a [[u8; SETPOINT_LENGTH]],
}

/// A move as it stands in a log.
#[derive(Clone, Copy, PartialEq, Eq, Debug)]
pub struct Logged {
    pub index: usize,
    /// "The sum of the waits before it": at most 65,534 of 65,535 ticks, so it
    /// fits 32 bits.
    pub time: u32,
    pub code: u16,
    pub argument: u16,
}

impl<'a> Log<'a> {
    /// "40 log over 65,535 moves or not whole setpoints."
    pub fn read(bytes: &'a [u8]) -> Result<Self, Refusal> {
        let (setpoints, left_over) = bytes.as_chunks();
        if setpoints.len() > MOST_MOVES || !left_over.is_empty() {
            return Err(refusal(LOG_OFF, 0));
        }
        Ok(Log { setpoints })
    }

    /// The moves in their order.
    pub fn moves(self) -> impl Iterator<Item = Logged> + 'a {
        let mut waited = 0;
        let setpoints = self.setpoints.iter().enumerate();
        setpoints.map(move |(index, setpoint)| {
            let (code, argument) = (word(setpoint, 0), word(setpoint, 1));
            let time = waited;
            if code == WAIT {
                waited += u32::from(argument);
            }
            Logged {
                index,
                time,
                code,
                argument,
            }
        })
    }
}

/// The bytes of a log of these moves, each a code and an argument.
pub fn log(moves: &[(u16, u16)]) -> Vec<u8> {
    let mut bytes = Vec::with_capacity(SETPOINT_LENGTH * moves.len());
    for (code, argument) in moves {
        push_words(&mut bytes, &[*code, *argument]);
    }
    bytes
}

/// Makes moves of a log on a state that passes 20, as the fresh one does; each
/// is shown with the state after it. "42 a move refused, with its index": the
/// state is then the one before that move.
pub fn walk(
    diagram: &Diagram,
    state: &mut Vec<u16>,
    moves: impl Iterator<Item = Logged>,
    mut show: impl FnMut(&Logged, &[u16]),
) -> Result<(), Refusal> {
    for logged in moves {
        *state = moved(diagram, state, logged.code, logged.argument)
            .map_err(|_| refusal(MOVE_REFUSED, logged.index))?;
        show(&logged, state);
    }
    Ok(())
}

/// "41 row isn't a FUNCTION": the row, if it is one.
pub fn function_row(diagram: &Diagram, row: u16) -> Result<usize, Refusal> {
    let number = usize::from(row);
    match diagram.rows.get(number) {
        Some(Row::Function(_)) => Ok(number),
        _ => Err(refusal(NOT_FUNCTION, 0)),
    }
}

/// The starts of a FUNCTION row in a log from fresh: its steps after which it
/// runs, since a step of a running one ends it.
pub fn starts(diagram: &Diagram, log: Log, row: usize) -> Result<Vec<Logged>, Refusal> {
    let mut starts = Vec::new();
    let mut state = fresh_state(diagram);
    walk(diagram, &mut state, log.moves(), |logged, after| {
        let stepped = logged.code == STEP && usize::from(logged.argument) == row;
        if stepped && after[activity(row)] == RUNNING {
            starts.push(*logged);
        }
    })?;
    Ok(starts)
}

/// Of times that never fall: the most "in some span from t up to but not
/// including t + 36,000 ticks, and the earliest such t that is itself a start
/// (0 if none)". Of starts at one tick the first counts them all; the others
/// count fewer, and so never the most anew.
pub fn busiest_hour(times: &[u32]) -> (u32, u32) {
    let (mut most, mut at) = (0, 0);
    let mut end = 0;
    for (first, t) in times.iter().enumerate() {
        while end < times.len() && times[end] - t < HOUR {
            end += 1;
        }
        if end - first > most {
            (most, at) = (end - first, *t);
        }
    }
    (most as u32, at)
}

/// Request 1; accepted: the most starts, and `at` the earliest t. "After the
/// file's own: 40, 41, 42, in this order."
pub fn log_starts(file: &[u8], log: &[u8], row: u16, at: &mut u32) -> Answer {
    let diagram = parse(file)?;
    let log = Log::read(log)?;
    let row = function_row(&diagram, row)?;
    let starts = starts(&diagram, log, row)?;
    let times: Vec<u32> = starts.iter().map(|start| start.time).collect();
    let (most, earliest) = busiest_hour(&times);
    *at = earliest;
    Ok(most)
}
