//! Which moves kill: for tests, comparisons and the benchmark, which are to meet
//! them.

use crate::diagram::{Construct, Diagram, Entered, Row};
use crate::diagram_step::{activity, turns, RUNNING, STEP};

/// A killing branch that ends.
pub struct Kill<'a> {
    /// Its AND, its BRANCH row and the row that is stepped.
    pub and: &'a Construct,
    pub branch: usize,
    pub row: usize,
}

/// The kill that a move is, at a state where it is accepted.
pub fn kill_by<'a>(
    diagram: &'a Diagram,
    state: &[u16],
    (code, argument): (u16, u16),
) -> Option<Kill<'a>> {
    let row = usize::from(argument);
    if code != STEP {
        return None;
    }
    let behind = |construct: &usize| diagram.constructs[*construct].close + 1;
    let entered = match &diagram.rows[row] {
        Row::Function(_) if state[activity(row)] == RUNNING => row + 1,
        Row::AndClose(_) | Row::OrClose(_) | Row::BoxClose(_) => row + 1,
        Row::ItOpen { construct, count } if state[turns(row)] == *count => behind(construct),
        Row::LoopExit(construct) => behind(construct),
        _ => return None,
    };
    let Entered::Kill(and) = diagram.entered(entered) else {
        return None;
    };
    let branch = and.branches.iter().rev().find(|branch| **branch < entered);
    branch.map(|branch| Kill {
        and,
        branch: *branch,
        row,
    })
}

/// The row is a BRANCH that kills.
pub fn kills(diagram: &Diagram, row: usize) -> bool {
    matches!(diagram.rows[row], Row::AndBranch { kills: true, .. })
}

/// Some branch of the diagram kills.
pub fn has_kills(diagram: &Diagram) -> bool {
    (0..diagram.rows.len()).any(|row| kills(diagram, row))
}
