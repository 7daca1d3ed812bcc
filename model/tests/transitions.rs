//! Document 02's request 6, "Which transition, by arithmetic": plants worked out
//! by hand, the refusals, and that the net fires the transition told.

mod common;

use common::{fresh, net_of, refused, Pair, Shapes};
use model::diagram::{parse, Row};
use model::diagram_step::{activity, after, check, turns, READY, RUNNING, STEP};
use model::examples::{self, nested, DOOR, FAN, FAN_ROUNDS, PUMP, TRIP, TRIPPED_FAN, TRIPPED_PUMP};
use model::generate::{self, Random};
use model::net_step::fired_by;
use model::records::{
    AND_CLOSE, AND_OPEN, BRANCH, END, FUNCTION, IT_CLOSE, IT_OPEN, KILLING_BRANCH, LOOP_EXIT,
    LP_CLOSE, LP_OPEN, OR_CLOSE, OR_OPEN,
};
use model::refusal::{ITEM_SHORT, NOT_STANDING, SUM_TOO_LARGE, TICKS_LACKING};
use model::transitions::{transition, transition_by_counting};
use model::{image, net, Answer};

/// The answer at the diagram's state, which the net's at its image bears out
/// where the step is accepted.
fn told(plant: &Pair, row: u16) -> Answer {
    let answer = transition(&plant.file, &plant.state, row);
    let diagram = parse(&plant.file).expect("accepted diagram");
    if let (Ok(number), Ok(_)) = (answer, after(&diagram, &plant.state, STEP, row)) {
        let net = net::parse(&plant.net).expect("accepted net");
        let fired = fired_by(&net, &plant.net_state, row);
        assert_eq!(fired, Some(number as usize));
    }
    answer
}

/// Every row but these is 22, with the row, and some that do not exist.
fn assert_no_others(plant: &Pair, busy: &[u16]) {
    let rows = plant.state.len() as u16;
    for row in (0..rows).chain([63, 64, 65, 255, 256, 65_535]) {
        if !busy.contains(&row) {
            assert_eq!(told(plant, row), refused(22, u32::from(row)));
        }
    }
}

fn step(plant: &mut Pair, row: u16) {
    assert_eq!(plant.step(row), (Ok(0), Ok(0)), "step {row}");
}

/// Ready t 0, running t 1, also while ticks lack.
#[test]
fn a_starts_and_ends() {
    let mut a = Pair::new(examples::a());
    assert_eq!(told(&a, 0), Ok(0));
    assert_no_others(&a, &[0]);
    step(&mut a, 0);
    assert_eq!(a.step(0).0, refused(24, 2));
    assert_eq!(told(&a, 0), Ok(1));
    assert_eq!(a.wait(2), (Ok(0), Ok(0)));
    assert_eq!(told(&a, 0), Ok(1));
    assert_no_others(&a, &[0]);
    step(&mut a, 0);
    // END is ready, and no FUNCTION.
    assert_eq!(a.state[activity(1)], READY);
    assert_no_others(&a, &[]);
}

#[test]
fn b_has_no_function() {
    assert_no_others(&Pair::new(examples::b()), &[]);
}

/// An item short, and a sum too large: refused steps, told all the same.
#[test]
fn a_refused_step_has_its_number() {
    let mut e = Pair::new(examples::e());
    assert_eq!(e.step(0).0, refused(23, 0));
    assert_eq!(told(&e, 0), Ok(0));
    let mut full = Pair::new(examples::item_given_one(65_535));
    assert_eq!(told(&full, 0), Ok(0));
    step(&mut full, 0);
    assert_eq!(full.step(0).0, refused(25, 0));
    assert_eq!(told(&full, 0), Ok(1));
}

/// An IT open, ready, has two transitions as well; its turns are no activity.
#[test]
fn f_turns_are_not_told() {
    let mut f = Pair::new(examples::f());
    for row in [0, 1, 0, 1, 0] {
        assert_no_others(&f, &[]);
        step(&mut f, row);
    }
    assert_no_others(&f, &[]);
}

#[test]
fn g_has_no_function() {
    let mut g = Pair::new(examples::g());
    for row in [0, 3] {
        assert_no_others(&g, &[]);
        step(&mut g, row);
    }
    assert_no_others(&g, &[]);
}

/// The annex has t 3 and t 4 of row 5: LP, AND and LE have one each, BRANCH rows
/// none.
#[test]
fn h_is_cleared() {
    let mut h = Pair::new(examples::h());
    assert_no_others(&h, &[]);
    step(&mut h, 0);
    step(&mut h, 1);
    assert_eq!(told(&h, 5), Ok(3));
    assert_no_others(&h, &[5]);
    step(&mut h, 5);
    assert_eq!(told(&h, 5), Ok(4));
    assert_no_others(&h, &[5]);
    step(&mut h, 3);
    assert_no_others(&h, &[]);
}

/// The annex has t 1 to t 6 of door, fan and pump. Fan and pump wait for their
/// copies of the trigger.
#[test]
fn door_open() {
    let mut plant = Pair::new(examples::door_open());
    assert_no_others(&plant, &[]);
    step(&mut plant, 0);
    for (row, first) in [(DOOR, 1), (FAN, 3), (PUMP, 5)] {
        assert_eq!(told(&plant, row), Ok(first));
    }
    assert_eq!(plant.step(PUMP).0, refused(23, 0));
    step(&mut plant, DOOR);
    assert_eq!(told(&plant, DOOR), Ok(2));
    step(&mut plant, DOOR);
    step(&mut plant, PUMP);
    assert_no_others(&plant, &[FAN, PUMP]);
    assert_eq!((told(&plant, FAN), told(&plant, PUMP)), (Ok(3), Ok(6)));
    step(&mut plant, FAN);
    assert_eq!((told(&plant, FAN), told(&plant, PUMP)), (Ok(4), Ok(6)));
}

/// AND open has t 0, the trip t 1 and t 2, the fan's IT t 3 and t 4, the fan t 5
/// and t 6, the IT close t 7, the pump t 8 and t 9. The trip kills both.
#[test]
fn a_trip_kills() {
    let mut plant = Pair::new(examples::pressure_trip());
    for row in [0, FAN_ROUNDS] {
        step(&mut plant, row);
    }
    let rows = [TRIP, TRIPPED_FAN, TRIPPED_PUMP];
    let all = |plant: &Pair| rows.map(|row| told(plant, row));
    assert_eq!(all(&plant), [Ok(1), Ok(5), Ok(8)]);
    for row in rows {
        step(&mut plant, row);
    }
    assert_eq!(all(&plant), [Ok(2), Ok(6), Ok(9)]);
    assert_no_others(&plant, &rows);
    assert_eq!(plant.wait(1), (Ok(0), Ok(0)));
    step(&mut plant, TRIP);
    assert_no_others(&plant, &[]);
}

/// A state that passes 20 in which a row has this activity, and nothing else goes
/// on.
fn state_with(file: &[u8], row: usize, value: u16) -> Vec<u16> {
    let mut state = fresh(file);
    state.fill(0);
    state[activity(row)] = value;
    let diagram = parse(file).expect("accepted diagram");
    assert_eq!(check(&diagram, &state), Ok(()));
    state
}

/// Each row's number, ready and running.
fn assert_first(file: &[u8], row: u16, first: u32) {
    for (value, number) in [(READY, first), (RUNNING, first + 1)] {
        let state = state_with(file, usize::from(row), value);
        assert_eq!(transition(file, &state, row), Ok(number), "row {row}");
    }
}

/// With and without uses: the last FUNCTION of 64 rows, row 62, has t 124 and
/// t 125, the highest of all.
#[test]
fn sixty_four_rows() {
    for file in [
        examples::many_rows(64),
        examples::longest_plain_net(),
        examples::longest_net(),
    ] {
        for row in 0..63 {
            assert_first(&file, row, 2 * u32::from(row));
        }
        let at_end = state_with(&file, 63, READY);
        for row in [0, 62, 63, 64, 65_535] {
            let expected = refused(22, u32::from(row));
            assert_eq!(transition(&file, &at_end, row), expected);
        }
    }
}

/// Reached, not forged: the 63 FUNCTIONs one after the other.
#[test]
fn sixty_three_functions_run() {
    let mut plant = Pair::new(examples::many_rows(64));
    for row in 0..63 {
        for number in [2 * row, 2 * row + 1] {
            assert_eq!(told(&plant, row), Ok(u32::from(number)));
            assert_no_others(&plant, &[row]);
            step(&mut plant, row);
        }
    }
    assert_no_others(&plant, &[]);
}

/// How many transitions each kind has, told by a FUNCTION right behind it.
#[test]
fn rows_before() {
    let cases: [(&[u16], u32); 10] = [
        (&[], 0),
        (&[FUNCTION], 2),
        (&[IT_OPEN, IT_CLOSE], 3),
        (&[IT_OPEN, IT_OPEN, IT_CLOSE, IT_CLOSE], 6),
        (&[LP_OPEN, FUNCTION, LP_CLOSE], 4),
        (&[AND_OPEN, BRANCH, BRANCH, AND_CLOSE], 2),
        (&[AND_OPEN, BRANCH, BRANCH, BRANCH, AND_CLOSE], 2),
        (&[AND_OPEN, KILLING_BRANCH, FUNCTION, BRANCH, AND_CLOSE], 4),
        (&[OR_OPEN, BRANCH, BRANCH, OR_CLOSE], 3),
        (
            &[
                LP_OPEN, OR_OPEN, BRANCH, LOOP_EXIT, BRANCH, FUNCTION, OR_CLOSE, LP_CLOSE,
            ],
            8,
        ),
    ];
    for (before, first) in cases {
        let file = nested(&[before, &[FUNCTION, END]].concat());
        assert_first(&file, before.len() as u16, first);
    }
    // The rows behind do not count.
    let file = nested(&[FUNCTION, IT_OPEN, FUNCTION, IT_CLOSE, FUNCTION, END]);
    for (row, first) in [(0, 0), (2, 4), (4, 7)] {
        assert_first(&file, row, first);
    }
}

/// The file's own before 20, 20 before 22; and nothing but a state is 20, though
/// the row be ready.
#[test]
fn order_of_the_refusals() {
    let a = examples::a();
    let cut = &a[..a.len() - 1];
    for row in [0, 1, 64, 65_535] {
        assert_eq!(transition(cut, &[9], row), refused(1, 30));
        assert_eq!(transition(cut, &fresh(&a), row), refused(1, 30));
        assert_eq!(transition(&[], &[], row), refused(1, 0));
        assert_eq!(transition(&a, &[], row), refused(20, 0));
        for length in [0, 3, 6, 8] {
            let mut state = fresh(&a);
            state.resize(length, 0);
            assert_eq!(transition(&a, &state, row), refused(20, 0));
        }
    }
    // A word of another row is off: the clock of END, which is idle.
    let mut off = fresh(&a);
    off[5] = 1;
    assert_eq!(transition(&a, &off, 0), refused(20, 0));
    // A clock above β.
    for (clock, expected) in [(5, Ok(1)), (6, refused(20, 0))] {
        assert_eq!(transition(&a, &[2, 0, clock, 0, 0, 0, 3], 0), expected);
    }
    // Activity 3 is no FUNCTION's.
    assert_eq!(transition(&a, &[3, 0, 0, 0, 0, 0, 3], 0), refused(20, 0));
    // A trigger's shared count.
    let triggers = examples::trigger_before_plain(3, 4);
    let mut state = fresh(&triggers);
    assert_eq!(transition(&triggers, &state, 0), Ok(0));
    state[9] = 1;
    assert_eq!(transition(&triggers, &state, 0), refused(20, 0));
    // Turns.
    let f = nested(&[IT_OPEN, FUNCTION, IT_CLOSE, END]);
    let mut state = state_with(&f, 1, RUNNING);
    for (value, expected) in [(2, Ok(3)), (3, refused(20, 0))] {
        state[turns(0)] = value;
        assert_eq!(transition(&f, &state, 1), expected);
    }
}

/// What is told of every row at a state, and some that do not exist; where a
/// FUNCTION's step is accepted, the net fires the transition told.
fn assert_told(file: &[u8], net: &net::Net, state: &[u16], shapes: &mut Shapes) {
    let diagram = parse(file).expect("accepted diagram");
    let image = image::image_of(&diagram, state);
    for row in (0..diagram.rows.len() as u16 + 2).chain([64, 65_535]) {
        let answer = transition(file, state, row);
        assert_eq!(transition_by_counting(file, state, row), answer);
        let stepped = after(&diagram, state, STEP, row).map(|_| 0);
        let number = stepped.map_or_else(|refused| refused.number, |_| 0);
        match diagram.rows.get(usize::from(row)) {
            Some(Row::Function(_)) if number != NOT_STANDING => {
                let told = answer.expect("a number of a busy FUNCTION") as usize;
                let running = state[activity(usize::from(row))] == RUNNING;
                assert_eq!(net.transitions[told].label, row);
                assert_eq!(net.transitions[told - usize::from(running)].label, row);
                if stepped.is_ok() {
                    assert_eq!(fired_by(net, &image, row), Some(told));
                }
                shapes.note("starts", stepped.is_ok() && !running);
                shapes.note("ends", stepped.is_ok() && running);
                shapes.note("short", number == ITEM_SHORT);
                shapes.note("early", number == TICKS_LACKING);
                shapes.note("full", number == SUM_TOO_LARGE);
            }
            found => {
                assert_eq!(answer, refused(22, u32::from(row)));
                shapes.note("idle", matches!(found, Some(Row::Function(_))));
                shapes.note("another kind steps", stepped.is_ok());
                shapes.note("no row", found.is_none());
            }
        }
    }
}

/// Along random lists of moves; and at states that pass 20, reached or not, of
/// which the same is true.
#[test]
fn the_net_fires_the_transition_told() {
    let mut random = Random::new(60);
    let (mut reached, mut passing) = (Shapes::default(), Shapes::default());
    for number in 0..1_000 {
        let file = match number % 5 {
            0 => generate::killing_diagram(&mut random),
            1 => generate::looping_diagram(&mut random),
            2 => generate::boxed_diagram(&mut random),
            _ => generate::diagram(&mut random),
        };
        let net = net::parse(&net_of(&file)).expect("accepted net");
        for state in generate::walk(&mut random, &file, 30) {
            assert_told(&file, &net, &state, &mut reached);
        }
        for _ in 0..4 {
            let state = generate::passing_state(&mut random, &file);
            assert_told(&file, &net, &state, &mut passing);
        }
    }
    reached.assert_met(5);
    passing.assert_met(20);
}

/// The same of plants with as many triggers as may be.
#[test]
fn the_net_fires_the_transition_told_in_crowds() {
    let mut random = Random::new(61);
    let mut shapes = Shapes::default();
    for _ in 0..4 {
        let file = generate::crowded_diagram(&mut random);
        let net = net::parse(&net_of(&file)).expect("accepted net");
        for state in generate::walk(&mut random, &file, 4) {
            assert_told(&file, &net, &state, &mut shapes);
        }
    }
    assert!(
        shapes.times["starts"] > 0 && shapes.times["ends"] > 0,
        "{:?}",
        shapes.times
    );
}

/// A state with words off is 20, whatever row is asked.
#[test]
fn odd_states() {
    let mut random = Random::new(62);
    let (mut off, mut fine) = (0, 0);
    for _ in 0..2_000 {
        let file = generate::diagram(&mut random);
        let diagram = parse(&file).expect("accepted diagram");
        let state = generate::odd_state(&mut random, &file);
        let row = random.word();
        match check(&diagram, &state) {
            Err(refusal) => {
                off += 1;
                assert_eq!(transition(&file, &state, row), Err(refusal));
            }
            Ok(()) => fine += 1,
        }
    }
    assert!(off > 500 && fine > 50, "{off} off, {fine} fine");
}
