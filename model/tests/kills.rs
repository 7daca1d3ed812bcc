//! Document 02's request 3, "Branches that kill": plants worked out by hand.

mod common;

use common::{arcs, both, fresh, make, net_of, only, refused, Pair};
use model::annex::annex;
use model::diagram::{file_of, function_record, read};
use model::diagram_step::{activity, clock, turns, DONE, READY, RUNNING};
use model::examples::{self, trip_rows, FAN_ROUNDS, TRIP, TRIPPED_FAN, TRIPPED_PUMP};
use model::history::claim;
use model::records::{
    record, AND_CLOSE, AND_OPEN, BRANCH, END, FUNCTION, ITEM, IT_CLOSE, IT_OPEN, KILLING_BRANCH,
    LOOP_EXIT, LP_CLOSE, LP_OPEN, TRIGGER,
};

/// The trip ends while the fan runs in its second round and the pump runs: all
/// three BRANCH rows are done, nothing else is left, and the close steps.
#[test]
fn a_pressure_trip_ends_all_the_other_branches() {
    let mut plant = Pair::new(examples::pressure_trip());
    assert_eq!(read(&plant.file), Ok(33));
    make(
        &mut plant,
        &[0, TRIP, FAN_ROUNDS, TRIPPED_FAN, TRIPPED_PUMP],
    );
    assert_eq!(plant.wait(1), both(Ok(0)));
    make(&mut plant, &[TRIPPED_FAN, 6, FAN_ROUNDS, TRIPPED_FAN]);
    assert_eq!(plant.wait(1), both(Ok(0)));
    assert_eq!(plant.state[turns(4)], 2);
    assert_eq!((plant.state[clock(5)], plant.state[clock(8)]), (1, 2));
    make(&mut plant, &[TRIP]);
    assert_eq!(plant.state, only(11, &[(1, DONE), (3, DONE), (7, DONE)]));
    // R of row 4 is whole again; all clocks are 0.
    let marked: Vec<usize> = (0..44).filter(|at| plant.net_state[*at] > 0).collect();
    assert_eq!(marked, [3, 9, 14, 21]);
    assert_eq!(plant.net_state[14], 3);
    for row in [TRIP, FAN_ROUNDS, TRIPPED_FAN, TRIPPED_PUMP] {
        assert_eq!(plant.step(row), both(refused(22, u32::from(row))));
    }
    assert_eq!(plant.wait(1), both(refused(26, 0)));
    make(&mut plant, &[9]);
    assert_eq!(plant.state, only(11, &[(10, READY)]));
}

/// A branch that does not kill ends alone, whatever stands beside it.
#[test]
fn another_branch_ends_alone() {
    let mut plant = Pair::new(examples::pressure_trip());
    make(&mut plant, &[0, TRIPPED_PUMP, TRIP, 4, 5]);
    assert_eq!(plant.wait(1), both(Ok(0)));
    make(&mut plant, &[TRIPPED_PUMP]);
    let after = [plant.state[activity(7)], plant.state[activity(1)]];
    assert_eq!(after, [DONE, 0]);
    assert_eq!(plant.state[activity(5)], RUNNING);
    assert_eq!(plant.step(9), both(refused(22, 9)));
    // The trip ends what is left.
    make(&mut plant, &[TRIP, 9]);
    // With BRANCH 18 in its place it ends alone too.
    let mut bytes = examples::pressure_trip();
    bytes[16] = BRANCH as u8;
    let mut plant = Pair::new(bytes);
    make(&mut plant, &[0, 2, 4, 5, 8]);
    assert_eq!(plant.wait(1), both(Ok(0)));
    make(&mut plant, &[2]);
    assert_eq!(plant.state[activity(8)], RUNNING);
    assert_eq!(plant.state[turns(4)], 1);
}

#[test]
fn net_of_the_pressure_trip() {
    let transitions = "\
t 0 label 0 from 0 to 0
take 0 1
give 6 1
give 12 1
give 24 1
t 1 label 2 from 0 to 0
take 6 1
give 7 1
t 2 label 2 from 1 to 9
take 7 1
clear 3 26
give 3 1
give 9 1
give 14 3
give 21 1
t 3 label 4 from 0 to 0
take 12 1
take 14 1
give 13 1
give 15 1
t 4 label 4 from 0 to 0
take 12 1
take 13 3
give 9 1
give 14 3
t 5 label 5 from 0 to 0
take 15 1
give 16 1
t 6 label 5 from 1 to 9
take 16 1
give 18 1
t 7 label 6 from 0 to 0
take 18 1
give 12 1
t 8 label 8 from 0 to 0
take 24 1
give 25 1
t 9 label 8 from 1 to 9
take 25 1
give 21 1
t 10 label 9 from 0 to 0
take 3 1
take 9 1
take 21 1
give 30 1
";
    let marks = format!("marks 1{} 3{}", " 0".repeat(13), " 0".repeat(18));
    let text = format!("net 33 11\n{marks}\n{transitions}");
    assert_eq!(annex(&examples::pressure_trip()), text);
    // Head, 33 places, 11 transitions, 34 arcs.
    let length = 8 + 33 * 6 + 11 * 10 + 34 * 8;
    assert_eq!(net_of(&examples::pressure_trip()).len(), length);
}

/// "An LE's own range merging with it": one clear, and the LE's loop restores
/// no R a second time.
#[test]
fn a_loop_exit_kills() {
    let file = examples::trip_by_loop_exit();
    let le = "take 15 1, clear 3 41, give 3 1, give 30 1, give 35 3, ";
    assert_eq!(arcs(&file, 5), le);
    let mut plant = Pair::new(file);
    make(&mut plant, &[0, 2, 11, 12, 6, 7]);
    assert_eq!(plant.wait(1), both(Ok(0)));
    make(&mut plant, &[7, 8, 9, 2, 4, 5]);
    assert_eq!(plant.state, only(16, &[(1, DONE), (10, DONE)]));
    make(&mut plant, &[14]);
    assert_eq!(plant.state, only(16, &[(15, READY)]));
}

/// "Each R given once, an ending IT's own included."
#[test]
fn an_ending_it_kills() {
    let file = examples::trip_after_rounds();
    let first = "take 6 1, take 8 1, give 7 1, give 9 1, ";
    let second = "take 6 1, take 7 3, clear 3 23, give 3 1, give 8 3, give 12 1, give 17 3, ";
    assert_eq!(arcs(&file, 2), format!("{first}{second}"));
    let mut plant = Pair::new(file);
    make(&mut plant, &[0, 5, 6, 2, 3, 2, 3, 2, 3]);
    assert_eq!(plant.wait(1), both(refused(26, 0)));
    make(&mut plant, &[2]);
    assert_eq!(plant.state, only(10, &[(1, DONE), (4, DONE)]));
}

/// The inner trip leaves the outer AND alone; the inner close then ends the
/// outer killing branch. The OR close is the other way.
#[test]
fn a_trip_in_a_trip() {
    let file = examples::trip_in_trip();
    // Inner: rows 3 to 6. Outer: rows 1 to 15.
    let inner = "take 13 1, clear 9 20, give 9 1, give 15 1, ";
    assert_eq!(arcs(&file, 4), format!("take 12 1, give 13 1, {inner}"));
    let outer = "clear 3 47, give 3 1, give 24 1, give 42 1, ";
    assert_eq!(arcs(&file, 7), format!("take 9 1, take 15 1, {outer}"));
    assert_eq!(arcs(&file, 13), format!("take 39 1, {outer}"));
    let mut plant = Pair::new(file.clone());
    make(&mut plant, &[0, 2, 4, 6, 11, 12, 15]);
    assert_eq!(plant.wait(1), both(Ok(0)));
    make(&mut plant, &[4]);
    let running: Vec<usize> = (0..18)
        .filter(|row| plant.state[activity(*row)] == RUNNING)
        .collect();
    assert_eq!(running, [12, 15]);
    assert_eq!(plant.state[clock(15)], 1);
    make(&mut plant, &[7]);
    let all_done = only(18, &[(1, DONE), (8, DONE), (14, DONE)]);
    assert_eq!(plant.state, all_done);
    let mut plant = Pair::new(file);
    make(&mut plant, &[0, 2, 4, 6, 10, 13]);
    assert_eq!(plant.state, all_done);
    make(&mut plant, &[16]);
    assert_eq!(plant.state, only(18, &[(17, READY)]));
}

/// A plant of the kinds, then one of these items and FUNCTIONs in their order.
fn with_functions(items: &[Vec<u8>], rows: &[u16], functions: &[Vec<u8>]) -> Vec<u8> {
    let mut functions = functions.iter();
    let mut records = trip_rows(rows);
    for (record, kind) in records.iter_mut().zip(rows) {
        if *kind == FUNCTION {
            *record = functions.next().expect("a FUNCTION for each row").clone();
        }
    }
    file_of(items, &records)
}

/// What a killed FUNCTION took is lost, in items and copies; what the trip gives
/// is given. 25 leaves all as it is.
#[test]
fn items_and_copies_are_not_cleared() {
    let rows = [
        AND_OPEN,
        BRANCH,
        FUNCTION,
        KILLING_BRANCH,
        FUNCTION,
        AND_CLOSE,
        END,
    ];
    let functions = [
        function_record(0, 9, &[[0, 2, 2], [1, 1, 1]]),
        function_record(0, 9, &[[0, 0, 3], [1, 0, 1]]),
    ];
    let items = [record(ITEM, &[5]), record(TRIGGER, &[4])];
    let mut plant = Pair::new(with_functions(&items, &rows, &functions));
    // Item 0, the shared count, the copy of row 2.
    assert_eq!(plant.state[21..], [5, 0, 4]);
    make(&mut plant, &[0, 2, 4]);
    assert_eq!(plant.state[21..], [3, 0, 3]);
    plant.state[21] = u16::MAX - 2;
    plant.net_state[21] = u16::MAX - 2;
    assert_eq!(plant.step(4), (refused(25, 0), refused(25, 21)));
    assert_eq!(plant.state[activity(2)], RUNNING);
    (plant.state[21], plant.net_state[21]) = (3, 3);
    make(&mut plant, &[4]);
    assert_eq!(plant.state[21..], [6, 0, 4]);
    let done = only(7, &[(1, DONE), (3, DONE)]);
    assert_eq!(plant.state[..21], done);
    let end = "take 13 1, clear 3 14, give 3 1, give 9 1, give 21 3, give 23 1, ";
    assert_eq!(arcs(&plant.file, 4), format!("take 12 1, give 13 1, {end}"));
}

/// The first killing branch to end kills the others; a loop starts them anew.
#[test]
fn all_branches_kill_again_and_again() {
    let rows = [
        LP_OPEN,
        AND_OPEN,
        KILLING_BRANCH,
        FUNCTION,
        KILLING_BRANCH,
        FUNCTION,
        KILLING_BRANCH,
        IT_OPEN,
        FUNCTION,
        IT_CLOSE,
        AND_CLOSE,
        LP_CLOSE,
        END,
    ];
    let mut plant = Pair::new(model::diagram::file(&[], &trip_rows(&rows)));
    for (others, trip) in [([5, 8], 3), ([3, 8], 5), ([8, 5], 3)] {
        make(&mut plant, &[0, 1, 7, trip]);
        make(&mut plant, &others);
        assert_eq!(plant.wait(1), both(Ok(0)));
        make(&mut plant, &[trip]);
        let done = only(13, &[(2, DONE), (4, DONE), (6, DONE)]);
        assert_eq!(plant.state, done);
        make(&mut plant, &[10, 11]);
    }
}

/// A killing branch that ends in LE never kills: its loop lies outside, and the
/// row behind the loop is entered.
#[test]
fn a_killing_branch_that_ends_in_a_loop_exit() {
    let rows = [
        LP_OPEN,
        AND_OPEN,
        KILLING_BRANCH,
        LOOP_EXIT,
        BRANCH,
        FUNCTION,
        AND_CLOSE,
        LP_CLOSE,
        END,
    ];
    let file = model::diagram::file(&[], &trip_rows(&rows));
    assert_eq!(arcs(&file, 3), "take 9 1, clear 0 23, give 24 1, ");
    let mut plant = Pair::new(file);
    make(&mut plant, &[0, 1, 5, 3]);
    assert_eq!(plant.state, only(9, &[(8, READY)]));
}

/// The loop that an LE leaves, and the AND around the LE, lie in a killing
/// branch: the LE clears the outer AND and restores R in and beside its loop.
#[test]
fn a_loop_exit_out_of_an_inner_and_kills() {
    let rows = [
        AND_OPEN,
        BRANCH,
        IT_OPEN,
        FUNCTION,
        IT_CLOSE,
        KILLING_BRANCH,
        LP_OPEN,
        IT_OPEN,
        AND_OPEN,
        KILLING_BRANCH,
        LOOP_EXIT,
        KILLING_BRANCH,
        FUNCTION,
        AND_CLOSE,
        IT_CLOSE,
        LP_CLOSE,
        AND_CLOSE,
        END,
    ];
    let file = model::diagram::file(&[], &trip_rows(&rows));
    let le = "take 30 1, clear 3 47, give 3 1, give 8 3, give 15 1, give 23 3, ";
    assert_eq!(arcs(&file, 10), le);
    let mut plant = Pair::new(file);
    make(&mut plant, &[0, 2, 3, 6, 7, 8, 12]);
    assert_eq!((plant.state[turns(2)], plant.state[turns(7)]), (1, 1));
    make(&mut plant, &[10]);
    assert_eq!(plant.state, only(18, &[(1, DONE), (5, DONE)]));
}

/// Fresh states and lists with kills.
#[test]
fn lists_with_kills_agree() {
    let files = [
        examples::pressure_trip(),
        examples::trip_by_loop_exit(),
        examples::trip_after_rounds(),
        examples::trip_in_trip(),
    ];
    let mut random = model::generate::Random::new(60);
    for file in files {
        assert_eq!(fresh(&file)[0], READY);
        for _ in 0..40 {
            let calls = model::generate::bus_list(&mut random, &file, 9, 40);
            assert_eq!(claim(&file, 9, &calls), Ok(()));
        }
    }
}
