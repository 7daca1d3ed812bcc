//! Request 7 of document 02 through the proved functions: a decomposed function, a door that is opened, a box in a box, what row 30 ends, and 48
//! to 50 beside one another and beside 7, 8, 9, 44 and 45; each call compared with the model too.

mod common;

use common::{refused, same, Plant};
use compare::calls::{self, End};
use compare::met::Met;
use effbd::{read_diagram, Answer, STEP, WAIT};
use model::diagram_step::{activity, turns, DONE, READY};
use model::examples::{
    self, exit_to, nested, trip_rows, EXIT_B, F1, F2, FB, FD, FD_CLOSE, SUB_FD_2, TIMELESS,
};
use model::records::{
    record, AND_CLOSE, AND_OPEN, BOX_CLOSE, BOX_OPEN, BRANCH, END, EXIT, FUNCTION, IT_CLOSE,
    IT_OPEN, KILLING_BRANCH, LOOP_EXIT, LP_CLOSE, LP_OPEN, OR_CLOSE, OR_OPEN,
};
use model::refusal;

/// Makes these steps, all accepted.
fn make(plant: &mut Plant, rows: &[u16]) {
    for row in rows {
        plant.accepted(STEP, *row);
    }
}

/// Just these rows are busy, and the net is at the image.
fn assert_only(plant: &Plant, activities: &[(usize, u16)]) {
    let mut state = vec![0; plant.state.len()];
    for (row, value) in activities {
        state[activity(*row)] = *value;
    }
    assert_eq!(plant.state, state);
    let image = model::image::image(&plant.file, &state);
    assert_eq!(image.as_ref(), Some(&plant.marks));
}

/// Table 1.3 of the report.
#[test]
fn a_decomposed_function() {
    let mut plant = Plant::fresh(examples::decomposed());
    let held = refused(refusal::WAIT_HELD, 0);
    let gone = |row: u16| refused(refusal::NOT_STANDING, u32::from(row));
    make(&mut plant, &[F1]);
    plant.accepted(WAIT, 1);
    make(&mut plant, &[F1]);
    assert_only(&plant, &[(usize::from(FD), READY)]);
    assert_eq!(plant.moved(WAIT, 1), (held, held));
    make(&mut plant, &[FD, 6, SUB_FD_2]);
    plant.accepted(WAIT, 1);
    make(&mut plant, &[SUB_FD_2]);
    assert_only(&plant, &[(usize::from(EXIT_B), READY)]);
    assert_eq!(plant.moved(WAIT, 1), (held, held));
    for row in [5, 10, 12, FD, FD_CLOSE] {
        assert_eq!(plant.moved(STEP, row), (gone(row), gone(row)));
    }
    make(&mut plant, &[EXIT_B, FB]);
    plant.accepted(WAIT, 1);
    make(&mut plant, &[FB]);
    assert_only(&plant, &[(usize::from(FD_CLOSE), READY)]);
    assert_eq!(plant.moved(WAIT, 1), (held, held));
    for row in [10, 12] {
        assert_eq!(plant.moved(STEP, row), (gone(row), gone(row)));
    }
    make(&mut plant, &[FD_CLOSE]);
    assert_only(&plant, &[(usize::from(F2), READY)]);
}

/// An EXIT while a fan runs in its second round and a pump runs; by the outlet with a row, and by the empty one.
#[test]
fn a_door_is_opened() {
    for (exit, ready) in [([3, 4], 15), ([10, 11], 16)] {
        let mut plant = Plant::fresh(examples::door_box());
        make(&mut plant, &[0, 1, 3, 6, 7, 10]);
        plant.accepted(WAIT, 1);
        make(&mut plant, &[7, 8, 6, 7]);
        plant.accepted(WAIT, 1);
        assert_eq!(plant.state[turns(6)], 2);
        make(&mut plant, &exit);
        assert_only(&plant, &[(ready, READY)]);
    }
}

/// An EXIT in the inner box's outlet is the outer one's; an LE in the outer one's outlet leaves the loop around both.
#[test]
fn a_box_in_a_box() {
    let mut plant = Plant::fresh(examples::box_in_box());
    make(&mut plant, &[0, 1, 2, 3, 5, 6, 12]);
    assert_only(&plant, &[(17, READY)]);
    make(&mut plant, &[17]);
    plant.accepted(WAIT, 1);
    make(&mut plant, &[17, 24, 25, 0, 1]);
    for _ in 0..3 {
        make(&mut plant, &[2, 3, 7, 8, 9, 13, 14]);
    }
    make(&mut plant, &[2, 15, 20, 21]);
    assert_only(&plant, &[(26, READY)]);
}

/// Row 30 ends a killing branch; the EXIT of a killing branch does not kill.
#[test]
fn a_box_kills() {
    let kinds = [
        AND_OPEN,
        KILLING_BRANCH,
        BOX_OPEN,
        AND_OPEN,
        KILLING_BRANCH,
        exit_to(1),
        BRANCH,
        FUNCTION,
        exit_to(0),
        AND_CLOSE,
        BRANCH,
        BRANCH,
        BOX_CLOSE,
        BRANCH,
        IT_OPEN,
        FUNCTION,
        IT_CLOSE,
        AND_CLOSE,
        END,
    ];
    let mut plant = Plant::fresh(model::diagram::file(&[], &trip_rows(&kinds)));
    make(&mut plant, &[0, 2, 14, 15, 3, 7, 5]);
    assert_eq!(plant.state[turns(14)], 1);
    make(&mut plant, &[12]);
    assert_only(&plant, &[(1, DONE), (13, DONE)]);
}

/// Rows 29, 30 and EXIT are idle or ready, an outlet's BRANCH is idle.
#[test]
fn activities_of_a_box() {
    let file = examples::decomposed();
    let met = &mut Met::default();
    for row in [1, 5, 8, 10, 12, 14] {
        for value in 0..5 {
            let mut state = vec![0; 51];
            state[activity(row)] = value;
            for (code, argument) in [(STEP, row as u16), (STEP, 0), (WAIT, 1), (0, 0)] {
                same(calls::step_diagram(met, &file, &state, code, argument));
                same(calls::transition(met, &file, &state, argument));
            }
        }
    }
    assert_eq!(
        met.missing()
            .iter()
            .filter(|(number, _)| *number == 20)
            .count(),
        0
    );
}

/// The same answer of every call that reads a diagram file, into short areas and at states of a wrong length too.
fn assert_read(file: &[u8], answer: Answer) {
    let met = &mut Met::default();
    assert_eq!(read_diagram(file), answer);
    same(calls::read_diagram(met, file));
    for length in [0, 3, 6_000] {
        same(calls::translate(met, file, &vec![7; length]));
        same(calls::annex(file, &vec![7; length], &[7; 100]));
    }
    for row in 0..4 {
        same(calls::uses(file, row));
        same(calls::log_starts(met, file, &[0; 3], row, 7));
        same(calls::log_starts(met, file, &[], row, 7));
    }
    let end = End {
        count: 3,
        station: 9,
    };
    for words in [0, answer.unwrap_or(12) as usize] {
        let state = vec![0; words];
        same(calls::fresh_diagram(met, file, &state));
        for made in [(STEP, 0), (WAIT, 1), (0, 0)] {
            same(calls::step_diagram(met, file, &state, made.0, made.1));
            same(calls::transition(met, file, &state, made.1));
            same(calls::offer(met, file, &state, end, made, &[7; 3]));
        }
    }
}

const E0: u16 = exit_to(0);
const E1: u16 = exit_to(1);
const E2: u16 = exit_to(2);
const KILLS: u16 = KILLING_BRANCH;
/// An OR of two EXITs.
const TWO: [u16; 6] = [OR_OPEN, BRANCH, E0, BRANCH, E1, OR_CLOSE];

/// A box of this scenario and so many empty outlets.
fn boxed(scenario: &[u16], outlets: usize) -> Vec<u16> {
    [&[BOX_OPEN], scenario, &vec![BRANCH; outlets], &[BOX_CLOSE]].concat()
}

/// These kinds of rows and END are refused so.
fn assert_refused(kinds: &[u16], number: u32, row: u32) {
    let kinds = [kinds, &[END]].concat();
    assert_read(&nested(&kinds), refused(number, row));
}

#[test]
fn rows_that_may_not_stand() {
    let (broken, misplaced) = (refusal::NESTING_BROKEN, refusal::BOX_EXIT_MISPLACED);
    let cases: [(&[u16], u32, u32); 16] = [
        (&[BOX_OPEN, FUNCTION, BRANCH, BOX_CLOSE], broken, 3),
        (&[BOX_OPEN, E0, BOX_CLOSE], broken, 2),
        (&[BOX_OPEN, E0, KILLS, BRANCH, BOX_CLOSE], broken, 2),
        (
            &[BOX_OPEN, E0, BRANCH, KILLS, FUNCTION, BOX_CLOSE],
            broken,
            3,
        ),
        (&[BOX_OPEN, AND_OPEN, E0, BRANCH, BRANCH], broken, 2),
        (&[OR_OPEN, BRANCH, BRANCH, BOX_CLOSE], broken, 3),
        (&[E0], misplaced, 0),
        (&TWO, misplaced, 2),
        (&[BOX_OPEN, E0, BRANCH, E1, BRANCH, BOX_CLOSE], misplaced, 3),
        (&[BOX_OPEN, IT_OPEN, E0, IT_CLOSE, BRANCH], misplaced, 2),
        (&[BOX_OPEN, LP_OPEN, E0, LP_CLOSE, BRANCH], misplaced, 2),
        (&[BOX_OPEN, E0, FUNCTION, BRANCH, BRANCH], misplaced, 1),
        (&[BOX_OPEN, E0, E1, BRANCH, BRANCH, BOX_CLOSE], misplaced, 1),
        (
            &[BOX_OPEN, OR_OPEN, BRANCH, BRANCH, E0, AND_CLOSE],
            misplaced,
            4,
        ),
        (
            &[LP_OPEN, BOX_OPEN, LOOP_EXIT, BRANCH],
            refusal::LOOP_EXIT_MISPLACED,
            2,
        ),
        (
            &[
                LP_OPEN, FUNCTION, BOX_OPEN, OR_OPEN, BRANCH, LOOP_EXIT, BRANCH, E0, OR_CLOSE,
            ],
            refusal::LOOP_EXIT_MISPLACED,
            5,
        ),
    ];
    for (kinds, number, row) in cases {
        assert_refused(kinds, number, row);
    }
    assert_refused(&[BOX_OPEN; 13], refusal::TOO_MANY_OPEN, 12);
    assert_read(&nested(&[BOX_OPEN, E0]), refused(broken, 1));
}

#[test]
fn outlets_and_scenarios() {
    let (unmatched, falls) = (refusal::OUTLETS_UNMATCHED, refusal::SCENARIO_FALLS_THROUGH);
    let ending = |kinds: &[u16], outlets| boxed(&[&TWO[..], kinds].concat(), outlets);
    assert_refused(&boxed(&TWO, 3), unmatched, 0);
    assert_refused(&boxed(&[], 2), unmatched, 0);
    assert_refused(&ending(&[E1], 2), unmatched, 0);
    for outlet in [2, 256, 257, u16::MAX] {
        let mut rows = trip_rows(&[&boxed(&TWO, 2)[..], &[END]].concat());
        rows[5] = record(EXIT, &[outlet]);
        assert_read(&model::diagram::file(&[], &rows), refused(unmatched, 0));
    }
    let falling: [&[u16]; 8] = [
        &[FUNCTION],
        &[IT_OPEN, IT_CLOSE],
        &boxed(&TWO, 2),
        &[
            LP_OPEN, FUNCTION, OR_OPEN, BRANCH, LOOP_EXIT, BRANCH, OR_CLOSE, LP_CLOSE,
        ],
        &[OR_OPEN, BRANCH, BRANCH, OR_CLOSE],
        &[AND_OPEN, BRANCH, FUNCTION, BRANCH, AND_CLOSE],
        &[
            AND_OPEN, BRANCH, LP_OPEN, FUNCTION, LP_CLOSE, KILLS, FUNCTION, AND_CLOSE,
        ],
        &[
            OR_OPEN, BRANCH, LP_OPEN, FUNCTION, LP_CLOSE, BRANCH, FUNCTION, OR_CLOSE,
        ],
    ];
    for kinds in falling {
        assert_refused(&ending(kinds, 2), falls, 0);
    }
    let standing: [(&[u16], usize); 6] = [
        (&[], 2),
        (&[FUNCTION, E2], 3),
        (&[LP_OPEN, FUNCTION, LP_CLOSE], 2),
        (
            &[
                OR_OPEN, BRANCH, E2, BRANCH, LP_OPEN, FUNCTION, LP_CLOSE, OR_CLOSE,
            ],
            3,
        ),
        (&[AND_OPEN, BRANCH, E2, BRANCH, FUNCTION, AND_CLOSE], 3),
        (&[AND_OPEN, KILLS, E2, BRANCH, AND_CLOSE], 3),
    ];
    for (kinds, outlets) in standing {
        let kinds = [&ending(kinds, outlets)[..], &[END]].concat();
        assert_read(&nested(&kinds), Ok(3 * kinds.len() as u32));
    }
    // 49 of a later box, 50, 45.
    let (off, fallen) = (boxed(&TWO, 3), ending(&[FUNCTION], 2));
    let spinning = [LP_OPEN, TIMELESS, LP_CLOSE];
    assert_refused(&[&spinning[..], &fallen, &off].concat(), unmatched, 14);
    assert_refused(&[&spinning[..], &fallen].concat(), falls, 3);
    assert_refused(
        &[&boxed(&TWO, 2)[..], &spinning].concat(),
        refusal::LOOP_SPENDS_NO_TIME,
        10,
    );
}

/// As many rows and as many open as may be, and boxes one behind the other.
#[test]
fn deep_and_wide_boxes() {
    assert_read(&examples::deep_boxes_again(), Ok(192));
    assert_read(&examples::wide_boxes_again(4), Ok(183));
}
