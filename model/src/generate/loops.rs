//! Time that loops spend, and loops that spend none.

use super::diagrams::{rows_of, RowsBuilder};
use super::Random;
use crate::diagram::{function_record, MOST_ROWS};
use crate::records::{record, word, EXIT, FUNCTION, LP_CLOSE, LP_OPEN};

/// Rows of an LP whatever else is in it: open, a FUNCTION that spends time, close.
pub(super) const LOOP_ROWS: usize = 3;

/// Word of a FUNCTION's record.
const ALPHA: usize = 2;

impl RowsBuilder<'_> {
    /// Time in a loop whose rows begin here. Where none of them spends any, a
    /// FUNCTION more does, as the first or the last; else there is a row left.
    pub(super) fn ensure_time(&mut self, inside: usize) {
        if self.rows[inside..].iter().any(|row| spends_time(row)) {
            self.left += 1;
        } else {
            let at = self.random.pick(&[inside, self.rows.len()], inside);
            self.function_at(at, 1);
        }
    }
}

fn spends_time(row: &[u8]) -> bool {
    word(row, 1) == FUNCTION && word(row, ALPHA) > 0
}

/// Few of the FUNCTIONs, or most, or all, lose their α, or its low byte alone.
pub(super) fn lose_time(random: &mut Random, rows: &mut [Vec<u8>]) {
    let percent = random.pick(&[15, 50, 85, 100], 50);
    let kept = random.pick(&[0, 0, 0, 0xFF00], 0);
    for row in rows.iter_mut().filter(|row| spends_time(row)) {
        if random.chance(percent) {
            let alpha = word(row, ALPHA) & kept;
            row[2 * ALPHA..2 * ALPHA + 2].copy_from_slice(&alpha.to_le_bytes());
        }
    }
}

/// A loop, if there is one, loses all its rows. It has no EXIT, which an outlet
/// outside of it might need.
pub(super) fn empty_a_loop(random: &mut Random, rows: &mut Vec<Vec<u8>>) {
    let opens = rows_of(rows, |kind| kind == LP_OPEN);
    let loops = opens
        .into_iter()
        .filter_map(|open| Some((open, close_of(rows, open)?)))
        .filter(|(open, close)| rows_of(&rows[*open..*close], |kind| kind == EXIT).is_empty());
    let loops: Vec<_> = loops.collect();
    if let Some((open, close)) = loops.get(random.below(loops.len())) {
        rows.drain(open + 1..*close);
    }
}

/// The close of the LP that this row opens.
fn close_of(rows: &[Vec<u8>], open: usize) -> Option<usize> {
    let mut loops_open = 0;
    (open..rows.len()).find(|row| {
        match word(&rows[*row], 1) {
            LP_OPEN => loops_open += 1,
            LP_CLOSE => loops_open -= 1,
            _ => {}
        }
        loops_open == 0
    })
}

/// A loop that spends no time, empty or with a FUNCTION of α 0, is put in; or one
/// that is there becomes empty.
pub(super) fn put_timeless_loop(random: &mut Random, rows: &mut Vec<Vec<u8>>) {
    if rows.len() + LOOP_ROWS > MOST_ROWS || random.chance(40) {
        return empty_a_loop(random, rows);
    }
    let mut timeless = vec![record(LP_OPEN, &[])];
    if random.chance(50) {
        timeless.push(function_record(0, random.word(), &[]));
    }
    timeless.push(record(LP_CLOSE, &[]));
    let at = random.below(rows.len());
    rows.splice(at..at, timeless);
}
