//! "Image": the net state that belongs to a diagram state.

use crate::diagram::{parse, Diagram, Row};
use crate::diagram_step::{activity, clock, turns, DONE, READY, RUNNING};
use crate::translate::{place_p, place_q, place_r, table};

/// The image of a diagram state; None for a refused file or a wrong length.
pub fn image(file: &[u8], state: &[u16]) -> Option<Vec<u16>> {
    let diagram = parse(file).ok()?;
    (state.len() == diagram.state_length()).then(|| image_of(&diagram, state))
}

/// Marks, then clocks. A state with turns above count has no image by the
/// document; its R is 0 here.
pub fn image_of(diagram: &Diagram, state: &[u16]) -> Vec<u16> {
    let mut image = image_marks(diagram, state);
    image.extend(image_clocks(diagram, state));
    image
}

/// "P is 1 for ready or done; Q is 1 for running, or the turns at an IT open; R
/// is count less turns at an IT open; item counts equal"; copies too.
fn image_marks(diagram: &Diagram, state: &[u16]) -> Vec<u16> {
    let (row_words, counts) = state.split_at(3 * diagram.rows.len());
    let mut marks = vec![0; row_words.len()];
    for (number, row) in diagram.rows.iter().enumerate() {
        let value = state[activity(number)];
        marks[place_p(number)] = u16::from(value == READY || value == DONE);
        marks[place_q(number)] = u16::from(value == RUNNING);
        if let Row::ItOpen { count, .. } = row {
            marks[place_q(number)] = state[turns(number)];
            marks[place_r(number)] = count.saturating_sub(state[turns(number)]);
        }
    }
    marks.extend(counts);
    marks
}

/// "A FUNCTION's second transition has its clock; all else 0."
fn image_clocks(diagram: &Diagram, state: &[u16]) -> Vec<u16> {
    let transitions = table(diagram).transitions;
    let mut clocks = vec![0; transitions.len()];
    for (number, pair) in transitions.windows(2).enumerate() {
        let row = usize::from(pair[0].label);
        let second = number + 1;
        if pair[0].label == pair[1].label && matches!(diagram.rows[row], Row::Function(_)) {
            clocks[second] = state[clock(row)];
        }
    }
    clocks
}
