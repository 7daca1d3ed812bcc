//! Request 6 of document 02 through the proved function: the numbers of worked plants, each row number, each word of a state off, and which
//! refusal comes first; each call compared with the model too.

mod common;

use common::{refused, same, Plant};
use compare::calls;
use compare::met::Met;
use effbd::{Answer, STEP, WAIT};
use model::diagram_step::{activity, READY, RUNNING};
use model::examples::{self, nested, DOOR, FAN, FAN_ROUNDS, PUMP, TRIP, TRIPPED_FAN, TRIPPED_PUMP};
use model::generate::{diagram, passing_state, Random};
use model::records::{
    AND_CLOSE, AND_OPEN, BRANCH, END, FUNCTION, IT_CLOSE, IT_OPEN, KILLING_BRANCH, LOOP_EXIT,
    LP_CLOSE, LP_OPEN, OR_CLOSE, OR_OPEN,
};

/// The answer, as the model has it.
fn transition(file: &[u8], state: &[u16], row: u16) -> Answer {
    same(calls::transition(&mut Met::default(), file, state, row));
    effbd::transition(file, state, row)
}

/// Just these rows have a number, this one.
fn assert_told(plant: &Plant, told: &[(u16, u32)]) {
    let rows = plant.state.len() as u16 / 3;
    for row in (0..=rows).chain([63, 64, 65, 255, 256, 65_535]) {
        let number = told.iter().find(|(told_row, _)| *told_row == row);
        let answer = number.map_or(refused(22, u32::from(row)), |(_, number)| Ok(*number));
        assert_eq!(transition(&plant.file, &plant.state, row), answer);
    }
}

#[test]
fn a_starts_and_ends() {
    let mut a = Plant::fresh(examples::a());
    assert_told(&a, &[(0, 0)]);
    a.accepted(STEP, 0);
    assert_eq!(a.moved(STEP, 0), (refused(24, 2), refused(24, 2)));
    assert_told(&a, &[(0, 1)]);
    a.accepted(WAIT, 2);
    assert_told(&a, &[(0, 1)]);
    a.accepted(STEP, 0);
    assert_told(&a, &[]);
}

#[test]
fn a_refused_step_has_its_number() {
    let mut short = Plant::fresh(examples::e());
    assert_eq!(short.moved(STEP, 0), (refused(23, 0), refused(22, 0)));
    assert_told(&short, &[(0, 0)]);
    let mut full = Plant::fresh(examples::item_given_one(65_535));
    full.accepted(STEP, 0);
    assert_eq!(full.moved(STEP, 0), (refused(25, 0), refused(25, 6)));
    assert_told(&full, &[(0, 1)]);
}

#[test]
fn plants_without_functions() {
    assert_told(&Plant::fresh(examples::b()), &[]);
    let plants: [(Vec<u8>, &[u16]); 2] =
        [(examples::f(), &[0, 1, 0, 1, 0]), (examples::g(), &[0, 3])];
    for (file, rows) in plants {
        let mut plant = Plant::fresh(file);
        for row in rows {
            assert_told(&plant, &[]);
            plant.accepted(STEP, *row);
        }
        assert_told(&plant, &[]);
    }
}

#[test]
fn loops_triggers_and_kills() {
    let mut h = Plant::fresh(examples::h());
    let told: [(u16, &[(u16, u32)]); 4] = [(0, &[]), (1, &[]), (5, &[(5, 3)]), (3, &[(5, 4)])];
    for (row, told) in told {
        assert_told(&h, told);
        h.accepted(STEP, row);
    }
    assert_told(&h, &[]);

    let mut door = Plant::fresh(examples::door_open());
    door.accepted(STEP, 0);
    assert_told(&door, &[(DOOR, 1), (FAN, 3), (PUMP, 5)]);
    door.accepted(STEP, DOOR);
    assert_told(&door, &[(DOOR, 2), (FAN, 3), (PUMP, 5)]);
    door.accepted(STEP, DOOR);
    door.accepted(STEP, PUMP);
    assert_told(&door, &[(FAN, 3), (PUMP, 6)]);

    let mut trip = Plant::fresh(examples::pressure_trip());
    for row in [0, FAN_ROUNDS, TRIP, TRIPPED_PUMP] {
        trip.accepted(STEP, row);
    }
    assert_told(&trip, &[(TRIP, 2), (TRIPPED_FAN, 5), (TRIPPED_PUMP, 9)]);
    trip.accepted(STEP, TRIPPED_FAN);
    trip.accepted(WAIT, 1);
    trip.accepted(STEP, TRIP);
    assert_told(&trip, &[]);
}

/// A state in which nothing but this row goes on.
fn state_with(file: &[u8], row: u16, value: u16) -> Vec<u16> {
    let mut state = vec![0; effbd::read_diagram(file).expect("accepted") as usize];
    state[activity(usize::from(row))] = value;
    state
}

/// Up to t 125, the last one of 63 FUNCTIONs.
#[test]
fn sixty_three_functions() {
    for file in [
        examples::many_rows(64),
        examples::longest_plain_net(),
        examples::longest_net(),
    ] {
        for row in 0..63 {
            for (value, number) in [(READY, 2 * row), (RUNNING, 2 * row + 1)] {
                let state = state_with(&file, row, value);
                let told = transition(&file, &state, row);
                assert_eq!(told, Ok(u32::from(number)));
            }
        }
        let at_end = state_with(&file, 63, READY);
        for row in [0, 62, 63, 64, 65_535] {
            let expected = refused(22, u32::from(row));
            assert_eq!(transition(&file, &at_end, row), expected);
        }
    }
}

/// How many transitions each kind has, told by a FUNCTION right behind it.
#[test]
fn rows_before() {
    let cases: [(&[u16], u32); 7] = [
        (&[FUNCTION], 2),
        (&[IT_OPEN, IT_OPEN, IT_CLOSE, IT_CLOSE], 6),
        (&[LP_OPEN, FUNCTION, LP_CLOSE], 4),
        (&[AND_OPEN, BRANCH, BRANCH, BRANCH, AND_CLOSE], 2),
        (&[AND_OPEN, KILLING_BRANCH, FUNCTION, BRANCH, AND_CLOSE], 4),
        (&[OR_OPEN, BRANCH, BRANCH, OR_CLOSE], 3),
        (
            &[
                LP_OPEN, OR_OPEN, BRANCH, LOOP_EXIT, BRANCH, FUNCTION, OR_CLOSE, LP_CLOSE,
            ],
            8,
        ),
    ];
    for (before, first) in cases {
        let file = nested(&[before, &[FUNCTION, END]].concat());
        let row = before.len() as u16;
        for (value, number) in [(READY, first), (RUNNING, first + 1)] {
            let state = state_with(&file, row, value);
            assert_eq!(transition(&file, &state, row), Ok(number));
        }
    }
}

/// 22 returns all 16 bits of the row.
#[test]
fn every_row_number() {
    let a = examples::a();
    let running = [2, 0, 5, 0, 0, 0, 0];
    for row in 0..=u16::MAX {
        let expected = match row {
            0 => Ok(1),
            _ => refused(22, u32::from(row)),
        };
        assert_eq!(transition(&a, &running, row), expected);
    }
}

/// Each word of a state that passes, with other values: 20 for every row, or as if nothing were.
#[test]
fn each_word_off() {
    let mut random = Random::new(63);
    let mut files = vec![
        examples::a(),
        examples::f(),
        examples::h(),
        examples::door_open(),
        examples::pressure_trip(),
        examples::trigger_before_plain(3, 4),
    ];
    files.extend((0..20).map(|_| diagram(&mut random)));
    for file in files {
        let state = passing_state(&mut random, &file);
        for at in 0..state.len() {
            for value in [0, 1, 2, 3, 4, 255, 256, 65_535] {
                let mut off = state.clone();
                off[at] = value;
                for row in [at as u16 / 3, 0, 65_535] {
                    same(calls::transition(&mut Met::default(), &file, &off, row));
                }
            }
        }
    }
}

/// The file's own before 20, 20 before 22.
#[test]
fn which_refusal_comes_first() {
    let a = examples::a();
    let fresh = Plant::fresh(a.clone()).state;
    for row in [0, 1, 64, 65_535] {
        for cut in 0..a.len() {
            let offset = match cut {
                0..=9 => 0,
                10..=15 => 10,
                16..=29 => 16,
                _ => 30,
            };
            for state in [&fresh[..], &[], &[9; 7]] {
                assert_eq!(transition(&a[..cut], state, row), refused(1, offset));
            }
        }
        for length in (0..30).filter(|length| *length != fresh.len()) {
            let mut state = fresh.clone();
            state.resize(length, 0);
            assert_eq!(transition(&a, &state, row), refused(20, 0));
        }
        for value in [3, 256, 257, 65_535] {
            let mut state = fresh.clone();
            state[0] = value;
            assert_eq!(transition(&a, &state, row), refused(20, 0));
        }
    }
}
