//! "Diagram state and moves": fresh states, the state check 20, steps and
//! waits with refusals 21 to 26; document 02's requests 3, "Branches that kill",
//! and 7, "Boxes that open".

use crate::diagram::{parse, Construct, Diagram, Entered, Function, Item, Row};
use crate::refusal::{
    refusal, Answer, Refusal, CODE_OFF, ITEM_SHORT, NOT_STANDING, STATE_OFF, SUM_TOO_LARGE,
    TICKS_LACKING, WAIT_HELD,
};
use std::ops::Range;

/// Move codes: step a row, wait some ticks.
pub const STEP: u16 = 1;
pub const WAIT: u16 = 2;

/// Activities of a row.
pub const IDLE: u16 = 0;
pub const READY: u16 = 1;
pub const RUNNING: u16 = 2;
pub const DONE: u16 = 3;

/// Words of a row in the state.
pub fn activity(row: usize) -> usize {
    3 * row
}
pub fn turns(row: usize) -> usize {
    3 * row + 1
}
pub fn clock(row: usize) -> usize {
    3 * row + 2
}

/// Makes the state fresh; accepted value 0.
pub fn fresh(file: &[u8], state: &mut [u16]) -> Answer {
    let diagram = parse(file)?;
    if state.len() != diagram.state_length() {
        return Err(refusal(STATE_OFF, 0));
    }
    state.copy_from_slice(&fresh_state(&diagram));
    Ok(0)
}

/// Makes one move; accepted value 0.
pub fn step(file: &[u8], state: &mut [u16], code: u16, argument: u16) -> Answer {
    let next = after(&parse(file)?, state, code, argument)?;
    state.copy_from_slice(&next);
    Ok(0)
}

/// "Fresh: all 0, initial counts, row 0 entered."
pub fn fresh_state(diagram: &Diagram) -> Vec<u16> {
    let mut state = vec![0; 3 * diagram.rows.len()];
    state.extend(diagram.initial_counts());
    enter(diagram, &mut state, 0);
    state
}

/// The state after one move: "20, 21, 22 to 26".
pub fn after(
    diagram: &Diagram,
    state: &[u16],
    code: u16,
    argument: u16,
) -> Result<Vec<u16>, Refusal> {
    check(diagram, state)?;
    moved(diagram, state, code, argument)
}

/// The same of a state that passes 20: "21, 22 to 26".
pub fn moved(
    diagram: &Diagram,
    state: &[u16],
    code: u16,
    argument: u16,
) -> Result<Vec<u16>, Refusal> {
    match code {
        STEP => stepped(diagram, state, argument),
        WAIT if argument != 0 => waited(diagram, state, argument),
        _ => Err(refusal(CODE_OFF, 0)),
    }
}

/// Refusal 20: "state length wrong; activity that this kind never has, turns
/// above count or off an IT open, clock above β or off a running row"; a
/// trigger's "shared count and place remain 0 (else 20 in a diagram state)".
pub fn check(diagram: &Diagram, state: &[u16]) -> Result<(), Refusal> {
    let fits = state.len() == diagram.state_length()
        && diagram.rows.iter().enumerate().all(|(number, row)| {
            let running = state[activity(number)] == RUNNING;
            has_activity(row, state[activity(number)])
                && state[turns(number)] <= most_turns(row)
                && state[clock(number)] <= most_clock(row, running)
        })
        && diagram.items.iter().enumerate().all(|(number, item)| {
            let count = state[diagram.item_word(number)];
            matches!(item, Item::Plain(_)) || count == 0
        });
    if fits {
        Ok(())
    } else {
        Err(refusal(STATE_OFF, 0))
    }
}

/// "Activities: FUNCTION 0 to 2, BRANCH of AND 0 and 3, other BRANCH and AND
/// close 0, the rest 0 and 1." A box's outlets are other BRANCH rows.
fn has_activity(row: &Row, value: u16) -> bool {
    match row {
        Row::Function(_) => value <= RUNNING,
        Row::AndBranch { .. } => value == IDLE || value == DONE,
        Row::OrBranch(_) | Row::Outlet(_) | Row::AndClose(_) => value == IDLE,
        _ => value == IDLE || value == READY,
    }
}

fn most_turns(row: &Row) -> u16 {
    match row {
        Row::ItOpen { count, .. } => *count,
        _ => 0,
    }
}

fn most_clock(row: &Row, running: bool) -> u16 {
    match row {
        Row::Function(function) if running => function.beta,
        _ => 0,
    }
}

/// "Entering row s."
fn enter(diagram: &Diagram, state: &mut [u16], row: usize) {
    match diagram.entered(row) {
        Entered::Kill(and) => kill(state, and),
        Entered::Row(branch) if matches!(diagram.rows[branch], Row::AndBranch { .. }) => {
            state[activity(branch)] = DONE;
        }
        Entered::Row(changed) => {
            state[activity(changed)] = READY;
            state[clock(changed)] = 0;
        }
    }
}

/// "Every row strictly inside that AND is cleared, turns and clocks too, then
/// all its BRANCH rows are done."
fn kill(state: &mut [u16], and: &Construct) {
    clear(state, and.inside());
    for branch in &and.branches {
        state[activity(*branch)] = DONE;
    }
}

/// Rows get "activity, turns and clock 0".
fn clear(state: &mut [u16], rows: Range<usize>) {
    state[activity(rows.start)..activity(rows.end)].fill(0);
}

/// "Move code 1 steps row r; the row becomes idle unless said otherwise."
/// What stands at no case is 22.
fn stepped(diagram: &Diagram, state: &[u16], argument: u16) -> Result<Vec<u16>, Refusal> {
    let number = usize::from(argument);
    let not_standing = refusal(NOT_STANDING, number);
    let row = diagram.rows.get(number).ok_or(not_standing)?;
    let mut next = state.to_vec();
    match (row, state[activity(number)]) {
        (Row::Function(function), READY) => {
            start_function(diagram, &mut next, number, function)?;
        }
        (Row::Function(function), RUNNING) => {
            finish_function(diagram, &mut next, number, function)?;
        }
        (Row::AndOpen(construct), READY) => {
            next[activity(number)] = IDLE;
            for branch in &diagram.constructs[*construct].branches {
                enter(diagram, &mut next, branch + 1);
            }
        }
        (Row::AndClose(construct), _) if all_done(diagram, state, *construct) => {
            for branch in &diagram.constructs[*construct].branches {
                next[activity(*branch)] = IDLE;
            }
            enter(diagram, &mut next, number + 1);
        }
        (Row::OrBranch(construct), _) if or_is_ready(diagram, state, *construct) => {
            next[activity(diagram.constructs[*construct].open)] = IDLE;
            enter(diagram, &mut next, number + 1);
        }
        // "Stepping 29 enters the scenario", "stepping 30 enters the next row".
        (Row::OrClose(_) | Row::LpOpen(_) | Row::BoxOpen(_) | Row::BoxClose(_), READY) => {
            next[activity(number)] = IDLE;
            enter(diagram, &mut next, number + 1);
        }
        (Row::ItOpen { construct, count }, READY) => {
            next[activity(number)] = IDLE;
            if next[turns(number)] < *count {
                next[turns(number)] += 1;
                enter(diagram, &mut next, number + 1);
            } else {
                next[turns(number)] = 0;
                enter(diagram, &mut next, diagram.constructs[*construct].close + 1);
            }
        }
        (Row::ItClose(construct) | Row::LpClose(construct), READY) => {
            next[activity(number)] = IDLE;
            next[activity(diagram.constructs[*construct].open)] = READY;
        }
        (Row::LoopExit(construct), READY) => {
            let exited = &diagram.constructs[*construct];
            clear(&mut next, exited.open..exited.close + 1);
            enter(diagram, &mut next, exited.close + 1);
        }
        // "EXIT clears the rows from 29 to before the first outlet's BRANCH and
        // enters the row after its outlet's BRANCH."
        (Row::Exit { construct, outlet }, READY) => {
            let left = &diagram.constructs[*construct];
            clear(&mut next, left.box_and_scenario());
            enter(diagram, &mut next, left.branches[*outlet] + 1);
        }
        _ => return Err(not_standing),
    }
    Ok(next)
}

/// "FUNCTION ready, every count at least its take: takes are subtracted, it
/// runs, clock 0"; otherwise 23 with the lowest item short. A trigger is taken
/// from the row's own copy; a use that takes nothing has none.
fn start_function(
    diagram: &Diagram,
    next: &mut [u16],
    row: usize,
    function: &Function,
) -> Result<(), Refusal> {
    for used in function.each_use().filter(|used| used.take > 0) {
        let count = &mut next[diagram.taken_word(used.item, row)];
        *count = count
            .checked_sub(used.take)
            .ok_or(refusal(ITEM_SHORT, used.item))?;
    }
    next[activity(row)] = RUNNING;
    next[clock(row)] = 0;
    Ok(())
}

/// "Running, clock ≥ α: gives are added, clock 0, r + 1 is entered"; otherwise
/// 24 with the ticks lacking, or 25 with the lowest item that has a sum too
/// large, be it a copy's.
fn finish_function(
    diagram: &Diagram,
    next: &mut [u16],
    row: usize,
    function: &Function,
) -> Result<(), Refusal> {
    if next[clock(row)] < function.alpha {
        let lacking = function.alpha - next[clock(row)];
        return Err(refusal(TICKS_LACKING, usize::from(lacking)));
    }
    for used in function.each_use().filter(|used| used.give > 0) {
        for count in &mut next[diagram.given_words(used.item)] {
            *count = count
                .checked_add(used.give)
                .ok_or(refusal(SUM_TOO_LARGE, used.item))?;
        }
    }
    next[activity(row)] = IDLE;
    next[clock(row)] = 0;
    enter(diagram, next, row + 1);
    Ok(())
}

/// An AND close could step: "all its BRANCH rows done".
fn all_done(diagram: &Diagram, state: &[u16], construct: usize) -> bool {
    let branches = &diagram.constructs[construct].branches;
    branches.iter().all(|row| state[activity(*row)] == DONE)
}

/// "BRANCH of an OR whose open is ready."
fn or_is_ready(diagram: &Diagram, state: &[u16], construct: usize) -> bool {
    state[activity(diagram.constructs[construct].open)] == READY
}

/// "Code 2 waits d ticks: every running clock grows by d", unless held.
fn waited(diagram: &Diagram, state: &[u16], ticks: u16) -> Result<Vec<u16>, Refusal> {
    let mut next = state.to_vec();
    for (number, row) in diagram.rows.iter().enumerate() {
        if holds_wait(diagram, state, number, row, ticks) {
            return Err(refusal(WAIT_HELD, 0));
        }
        if state[activity(number)] == RUNNING {
            next[clock(number)] += ticks;
        }
    }
    Ok(next)
}

/// "Held if a row other than FUNCTION and END is ready, a ready FUNCTION has
/// all its takes, an AND close could step, or some running clock + d > β."
fn holds_wait(diagram: &Diagram, state: &[u16], number: usize, row: &Row, ticks: u16) -> bool {
    match (row, state[activity(number)]) {
        (Row::Function(function), READY) => has_takes(diagram, state, number, function),
        (Row::Function(function), RUNNING) => {
            u32::from(state[clock(number)]) + u32::from(ticks) > u32::from(function.beta)
        }
        (Row::End, _) => false,
        (Row::AndClose(construct), _) => all_done(diagram, state, *construct),
        (_, value) => value == READY,
    }
}

fn has_takes(diagram: &Diagram, state: &[u16], row: usize, function: &Function) -> bool {
    function
        .each_use()
        .filter(|used| used.take > 0)
        .all(|used| state[diagram.taken_word(used.item, row)] >= used.take)
}
