//! Document 02's request 6, "Which transition, by arithmetic".

use crate::diagram::{parse, Diagram, Row};
use crate::diagram_step::{activity, check, IDLE};
use crate::refusal::{refusal, Answer, NOT_STANDING};
use crate::translate::table;

/// The transition of a ready or running FUNCTION: "the first one's number plus
/// activity less 1". Whether its step would be accepted is not asked. After the
/// file's own and 20, any other row is 22.
pub fn transition(file: &[u8], state: &[u16], row: u16) -> Answer {
    numbered(file, state, row, first_labelled)
}

/// The same, its first transition found by counting: for the benchmark, since a
/// plant with triggers may have 65,000 arcs in the net that is looked through
/// else.
pub fn transition_by_counting(file: &[u8], state: &[u16], row: u16) -> Answer {
    numbered(file, state, row, |diagram, row| {
        let before = diagram.rows.iter().take(usize::from(row));
        Some(before.map(transitions_of).sum())
    })
}

fn numbered(
    file: &[u8],
    state: &[u16],
    row: u16,
    first: impl FnOnce(&Diagram, u16) -> Option<usize>,
) -> Answer {
    let diagram = parse(file)?;
    check(&diagram, state)?;
    let number = usize::from(row);
    let not_standing = refusal(NOT_STANDING, number);
    let Some(Row::Function(_)) = diagram.rows.get(number) else {
        return Err(not_standing);
    };
    match state[activity(number)] {
        IDLE => Err(not_standing),
        busy => {
            let first = first(&diagram, row).ok_or(not_standing)?;
            Ok((first + usize::from(busy) - 1) as u32)
        }
    }
}

/// The lowest-numbered transition of the net that is labelled with the row.
fn first_labelled(diagram: &Diagram, row: u16) -> Option<usize> {
    let transitions = table(diagram).transitions;
    transitions
        .iter()
        .position(|transition| transition.label == row)
}

/// How many transitions of the net are labelled with a row.
fn transitions_of(row: &Row) -> usize {
    match row {
        Row::Function(_) | Row::ItOpen { .. } => 2,
        Row::AndBranch { .. } | Row::OrOpen(_) | Row::Outlet(_) | Row::End => 0,
        _ => 1,
    }
}
