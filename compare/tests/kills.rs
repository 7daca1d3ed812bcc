//! Request 3 of document 02 through the proved functions: the pressure trip, an LE and an IT that kill, a trip in a trip, and 44 beside 7 and 8;
//! each call compared with the model too.

mod common;

use common::{refused, same, Plant};
use compare::calls;
use compare::met::Met;
use effbd::{read_diagram, Answer, STEP, WAIT};
use model::diagram::{file, function_record};
use model::diagram_step::{activity, DONE, READY};
use model::examples::{self, rows_with, FAN_ROUNDS, TRIP, TRIPPED_FAN, TRIPPED_PUMP};
use model::records::{
    AND_CLOSE, AND_OPEN, BRANCH, END, FUNCTION, KILLING_BRANCH, LOOP_EXIT, LP_CLOSE, LP_OPEN,
    OR_CLOSE, OR_OPEN,
};
use model::refusal;

/// Makes these steps, all accepted.
fn make(plant: &mut Plant, rows: &[u16]) {
    for row in rows {
        plant.accepted(STEP, *row);
    }
}

/// Just these BRANCH rows are done, and nothing else is left of the rows.
fn assert_all_done(plant: &Plant, branches: &[usize]) {
    let mut state = vec![0; plant.state.len()];
    for branch in branches {
        state[activity(*branch)] = DONE;
    }
    assert_eq!(plant.state, state);
    let image = model::image::image(&plant.file, &state);
    assert_eq!(image.as_ref(), Some(&plant.marks));
}

#[test]
fn a_pressure_trip_ends_all_the_other_branches() {
    let mut plant = Plant::fresh(examples::pressure_trip());
    make(
        &mut plant,
        &[0, TRIP, FAN_ROUNDS, TRIPPED_FAN, TRIPPED_PUMP],
    );
    plant.accepted(WAIT, 1);
    make(&mut plant, &[TRIPPED_FAN, 6, FAN_ROUNDS, TRIPPED_FAN, TRIP]);
    assert_all_done(&plant, &[1, 3, 7]);
    let gone = refused(refusal::NOT_STANDING, u32::from(TRIPPED_PUMP));
    assert_eq!(plant.moved(STEP, TRIPPED_PUMP), (gone, gone));
    let held = refused(refusal::WAIT_HELD, 0);
    assert_eq!(plant.moved(WAIT, 1), (held, held));
    make(&mut plant, &[9]);
    assert_eq!(plant.state[activity(10)], READY);
}

#[test]
fn a_loop_exit_kills() {
    let mut plant = Plant::fresh(examples::trip_by_loop_exit());
    make(&mut plant, &[0, 2, 11, 12, 4, 5]);
    assert_all_done(&plant, &[1, 10]);
}

#[test]
fn an_ending_it_kills() {
    let mut plant = Plant::fresh(examples::trip_after_rounds());
    make(&mut plant, &[0, 5, 6, 2, 3, 2, 3, 2, 3, 2]);
    assert_all_done(&plant, &[1, 4]);
}

#[test]
fn a_trip_in_a_trip() {
    let mut plant = Plant::fresh(examples::trip_in_trip());
    make(&mut plant, &[0, 2, 4, 6, 11, 12, 15]);
    plant.accepted(WAIT, 1);
    make(&mut plant, &[4, 7]);
    assert_all_done(&plant, &[1, 8, 14]);
    let mut plant = Plant::fresh(examples::trip_in_trip());
    make(&mut plant, &[0, 2, 15, 10, 13]);
    assert_all_done(&plant, &[1, 8, 14]);
}

#[test]
fn killing_branches_that_may_not_stand() {
    let kills = KILLING_BRANCH;
    let empty = |row| refused(refusal::KILLING_BRANCH_EMPTY, row);
    let broken = |row| refused(refusal::NESTING_BROKEN, row);
    let misplaced = |row| refused(refusal::LOOP_EXIT_MISPLACED, row);
    let cases: [(&[u16], Answer); 14] = [
        (&[AND_OPEN, kills, FUNCTION, BRANCH, AND_CLOSE, END], Ok(18)),
        (&[AND_OPEN, kills, BRANCH, AND_CLOSE, END], empty(1)),
        (&[AND_OPEN, BRANCH, kills, BRANCH, AND_CLOSE, END], empty(2)),
        (
            &[AND_OPEN, BRANCH, kills, kills, FUNCTION, AND_CLOSE, END],
            empty(2),
        ),
        (&[AND_OPEN, BRANCH, kills, AND_CLOSE, END], empty(2)),
        (&[AND_OPEN, kills, AND_CLOSE, END], empty(1)),
        (&[AND_OPEN, kills, BRANCH, OR_CLOSE, END], empty(1)),
        (
            &[AND_OPEN, kills, BRANCH, LOOP_EXIT, AND_CLOSE, END],
            empty(1),
        ),
        (
            &[LOOP_EXIT, AND_OPEN, kills, BRANCH, AND_CLOSE, END],
            misplaced(0),
        ),
        (
            &[OR_OPEN, BRANCH, kills, FUNCTION, OR_CLOSE, END],
            broken(2),
        ),
        (&[OR_OPEN, kills, BRANCH, OR_CLOSE, END], broken(1)),
        (&[kills, END], broken(0)),
        (&[AND_OPEN, kills, FUNCTION, kills], broken(3)),
        (
            &[
                LP_OPEN, OR_OPEN, BRANCH, LOOP_EXIT, kills, OR_CLOSE, LP_CLOSE, END,
            ],
            broken(4),
        ),
    ];
    for (kinds, answer) in cases {
        let rows = rows_with(kinds, &function_record(1, 9, &[]), 2);
        let file = file(&[], &rows);
        assert_eq!(read_diagram(&file), answer, "{kinds:?}");
        same(calls::read_diagram(&mut Met::default(), &file));
    }
}
