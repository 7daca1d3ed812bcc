//! Net states and moves, on any accepted net file.

use crate::diagram_step::{STEP, WAIT};
use crate::net::{parse, Arc, Net, Transition};
use crate::refusal::{
    refusal, Answer, Refusal, CODE_OFF, NOT_STANDING, STATE_OFF, SUM_TOO_LARGE, TICKS_LACKING,
    WAIT_HELD,
};

/// Makes the state fresh: the file's marks, clocks 0; accepted value 0.
pub fn fresh(net: &[u8], state: &mut [u16]) -> Answer {
    let net = parse(net)?;
    check(&net, state)?;
    let (marks, clocks) = state.split_at_mut(net.marks.len());
    marks.copy_from_slice(&net.marks);
    clocks.fill(0);
    Ok(0)
}

/// Makes one move; accepted value 0.
pub fn step(net: &[u8], state: &mut [u16], code: u16, argument: u16) -> Answer {
    let next = after(&parse(net)?, state, code, argument)?;
    state.copy_from_slice(&next);
    Ok(0)
}

/// The state after one move: "20, 21, 22 to 26".
pub fn after(net: &Net, state: &[u16], code: u16, argument: u16) -> Result<Vec<u16>, Refusal> {
    check(net, state)?;
    match code {
        STEP => stepped(net, state, argument),
        WAIT if argument != 0 => waited(net, state, argument),
        _ => Err(refusal(CODE_OFF, 0)),
    }
}

/// Refusal 20: state length wrong.
fn check(net: &Net, state: &[u16]) -> Result<(), Refusal> {
    if state.len() == net.state_length() {
        Ok(())
    } else {
        Err(refusal(STATE_OFF, 0))
    }
}

/// "Enabled: marks cover the takes."
fn enabled(net: &Net, transition: &Transition, marks: &[u16]) -> bool {
    net.arcs(transition).iter().all(|arc| match arc {
        Arc::Take { place, weight } => marks[usize::from(*place)] >= *weight,
        _ => true,
    })
}

/// The number of "the lowest-numbered enabled transition labelled r" at a state
/// of the right length.
pub fn fired_by(net: &Net, state: &[u16], label: u16) -> Option<usize> {
    let marks = &state[..net.marks.len()];
    let fires =
        |transition: &Transition| transition.label == label && enabled(net, transition, marks);
    net.transitions.iter().position(fires)
}

/// "Step r fires the lowest-numbered enabled transition labelled r"; none is
/// 22, and its clock below a is 24.
fn stepped(net: &Net, state: &[u16], label: u16) -> Result<Vec<u16>, Refusal> {
    let not_standing = refusal(NOT_STANDING, usize::from(label));
    let fired = fired_by(net, state, label).ok_or(not_standing)?;
    let clocks = &state[net.marks.len()..];
    let earliest = net.transitions[fired].a;
    if clocks[fired] < earliest {
        let lacking = usize::from(earliest - clocks[fired]);
        return Err(refusal(TICKS_LACKING, lacking));
    }
    fire(net, state, fired)
}

/// "Takes, clears, gives." "Another transition keeps its clock if it is
/// enabled after takes and clears; all other clocks become 0." The lowest place
/// whose sum is too large is 25.
fn fire(net: &Net, state: &[u16], fired: usize) -> Result<Vec<u16>, Refusal> {
    let mut next = state.to_vec();
    let (marks, clocks) = next.split_at_mut(net.marks.len());
    let arcs = net.arcs(&net.transitions[fired]);
    for arc in arcs {
        match *arc {
            Arc::Take { place, weight } => marks[usize::from(place)] -= weight,
            Arc::Clear { first, last } => marks[usize::from(first)..=usize::from(last)].fill(0),
            Arc::Give { .. } => {}
        }
    }
    for (number, transition) in net.transitions.iter().enumerate() {
        if number == fired || !enabled(net, transition, marks) {
            clocks[number] = 0;
        }
    }
    for arc in arcs {
        if let Arc::Give { place, weight } = *arc {
            let mark = &mut marks[usize::from(place)];
            *mark = mark
                .checked_add(weight)
                .ok_or(refusal(SUM_TOO_LARGE, usize::from(place)))?;
        }
    }
    Ok(next)
}

/// "Wait d adds d to enabled clocks, held if any would pass its b."
fn waited(net: &Net, state: &[u16], ticks: u16) -> Result<Vec<u16>, Refusal> {
    let mut next = state.to_vec();
    let (marks, clocks) = next.split_at_mut(net.marks.len());
    for (transition, clock) in net.transitions.iter().zip(clocks) {
        if enabled(net, transition, marks) {
            let grown = u32::from(*clock) + u32::from(ticks);
            if grown > u32::from(transition.b) {
                return Err(refusal(WAIT_HELD, 0));
            }
            *clock = grown as u16;
        }
    }
    Ok(next)
}
