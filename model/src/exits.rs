//! Which moves leave a box: for tests, comparisons and the benchmark, which are to
//! meet them.

use crate::diagram::{Construct, Diagram, Row};
use crate::diagram_step::STEP;
use crate::records::BOX_OPEN;

/// An EXIT that is stepped.
pub struct Exit<'a> {
    /// Its box, the row that is stepped and the outlet that it names.
    pub left: &'a Construct,
    pub row: usize,
    pub outlet: usize,
}

/// The EXIT that a move is, at a state where it is accepted.
pub fn exit_by<'a>(diagram: &'a Diagram, (code, argument): (u16, u16)) -> Option<Exit<'a>> {
    let row = usize::from(argument);
    match diagram.rows.get(row) {
        Some(Row::Exit { construct, outlet }) if code == STEP => Some(Exit {
            left: &diagram.constructs[*construct],
            row,
            outlet: *outlet,
        }),
        _ => None,
    }
}

/// The diagram has a box.
pub fn has_boxes(diagram: &Diagram) -> bool {
    let mut constructs = diagram.constructs.iter();
    constructs.any(|construct| construct.kind == BOX_OPEN)
}
