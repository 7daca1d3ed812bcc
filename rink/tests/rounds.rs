//! Ways round a loop that spend no time: those of each sort by hand, and of random plants beside the proved stepper.

use effbd::Move;
use model::generate::{diagram_up_to, killing_diagram, Random};
use rink::plant::{records, Part, Plant};
use rink::rounds::timeless;
use rink::structure::run_from;
use rink::text;
use std::collections::BTreeSet;

/// The ways of a plant whose rows stand on one line. `timed` takes a tick, `instant` none.
fn ways(rows: &str) -> Vec<Vec<usize>> {
    let rows = rows.replace("timed", "function timed 1..9");
    let rows = rows.replace("instant", "function instant 0..9");
    let text = format!("{}\nend\n", rows.replace(", ", "\n"));
    let (_, plant) = text::make(&text).unwrap_or_else(|fault| panic!("{text}{}", fault.words));
    timeless(&plant)
}

fn none(rows: &str) {
    assert_eq!(ways(rows), [[0; 0]; 0], "{rows}");
}

fn one(rows: &str, way: &[usize]) {
    assert_eq!(ways(rows), [way], "{rows}");
}

#[test]
fn by_a_branch_of_an_or() {
    one(
        "loop, or, branch, timed, branch, end or, end loop",
        &[0, 1, 4, 5, 6],
    );
    one(
        "loop, or, branch, timed, branch, instant, end or, instant, end loop",
        &[0, 1, 4, 5, 6, 7, 8],
    );
    // Of several the shortest, of equals the first.
    one(
        "loop, or, branch, instant, branch, timed, branch, branch, end or, end loop",
        &[0, 1, 6, 8, 9],
    );
    none("loop, or, branch, timed, branch, end or, timed, end loop");
    none("loop, or, branch, timed, branch, timed, instant, end or, end loop");
}

#[test]
fn by_a_branch_that_kills() {
    one(
        "loop, and, branch, timed, killing branch, instant, end and, end loop",
        &[0, 1, 4, 5, 6, 7],
    );
    one(
        "loop, and, killing branch, timed, killing branch, instant, branch, end and, end loop",
        &[0, 1, 4, 5, 7, 8],
    );
    none("loop, and, branch, killing branch, timed, end and, end loop");
    none("loop, and, branch, instant, branch, timed, end and, end loop");
    // A branch that ends with an LE is never done.
    none("loop, and, branch, timed, killing branch, instant, exit loop, end and, end loop");
    one(
        "loop, and, branch, branch, instant, end and, or, branch, timed, branch, end or, end loop",
        &[0, 1, 2, 3, 4, 5, 6, 9, 10, 11],
    );
}

#[test]
fn by_leaving_an_inner_loop() {
    one(
        "loop, loop, or, branch, exit loop, branch, end or, timed, end loop, end loop",
        &[0, 1, 2, 3, 4, 9],
    );
    // Other branches of its AND need not end, turns of an IT need not be all gone through.
    one(
        "loop, loop, repeat 9, and, branch, timed, branch, instant, exit loop, end and, end repeat, end loop, instant, end loop",
        &[0, 1, 2, 3, 6, 7, 8, 12, 13],
    );
    none("loop, loop, timed, or, branch, exit loop, branch, end or, end loop, end loop");
    // Nothing leaves the inner loop in no time, or at all.
    none("loop, loop, or, branch, timed, exit loop, branch, timed, end or, end loop, end loop");
    none("loop, loop, timed, end loop, end loop");
    none("loop, loop, loop, or, branch, exit loop, branch, timed, end or, end loop, timed, end loop, end loop");
}

/// The LE leaves the very loop: that is no way round it.
#[test]
fn by_leaving_the_loop_itself() {
    none("loop, or, branch, exit loop, branch, timed, end or, end loop");
    none("loop, and, branch, exit loop, branch, timed, end and, end loop");
    // By the inner loop's LE, though its own is nearer.
    one(
        "loop, or, branch, exit loop, branch, loop, or, branch, instant, exit loop, branch, timed, end or, end loop, end or, end loop",
        &[0, 1, 4, 5, 6, 7, 8, 9, 14, 15],
    );
}

/// From the EXIT on by its outlet; what else runs in the scenario need not end.
#[test]
fn by_an_outlet_of_a_box() {
    let either = "or, branch, instant, exit to a, branch, timed, exit to b, end or";
    one(
        &format!("loop, box, {either}, outlet a, instant, outlet b, end box, or, branch, timed, branch, end or, end loop"),
        &[0, 1, 2, 3, 4, 5, 10, 11, 13, 14, 17, 18, 19],
    );
    none(&format!(
        "loop, box, {either}, outlet a, timed, outlet b, end box, end loop"
    ));
    // By the other one, though it is longer; out of an AND, an IT and a loop that nothing else leaves.
    one(
        "loop, box, and, branch, exit to a, branch, repeat 2, loop, and, branch, timed, branch, instant, exit to b, end and, end loop, end repeat, end and, outlet a, timed, outlet b, end box, end loop",
        &[0, 1, 2, 5, 6, 7, 8, 11, 12, 13, 20, 21, 22],
    );
    // By an outlet of the inner box, whose EXIT leaves the outer one.
    one(
        "loop, box, box, or, branch, exit to a, branch, exit to b, end or, outlet a, timed, exit to c, outlet b, instant, exit to d, end box, timed, exit to e, outlet c, outlet d, outlet e, end box, or, branch, timed, branch, end or, end loop",
        &[0, 1, 2, 3, 6, 7, 12, 13, 14, 19, 21, 22, 25, 26, 27],
    );
    // An LE in an outlet leaves the loop around the box.
    one(
        "loop, loop, box, and, branch, exit to a, branch, timed, exit to b, end and, outlet a, or, branch, exit loop, branch, end or, timed, outlet b, end box, end loop, end loop",
        &[0, 1, 2, 3, 4, 5, 10, 11, 12, 13, 20],
    );
    none("loop, loop, box, and, branch, timed, exit to a, branch, timed, exit to b, end and, outlet a, or, branch, exit loop, branch, end or, outlet b, end box, end loop, end loop");
}

#[test]
fn nested() {
    one(
        "repeat 3, loop, repeat 2, or, branch, repeat 5, end repeat, branch, timed, end or, end repeat, end loop, end repeat",
        &[1, 2, 3, 4, 5, 6, 9, 10, 11],
    );
    // Past an AND by the branch that kills, in it past a loop by its LE, there by a branch of an OR.
    one(
        "loop, and, branch, timed, killing branch, loop, or, branch, timed, branch, and, branch, exit loop, branch, timed, end and, end or, end loop, end and, end loop",
        &[0, 1, 4, 5, 6, 9, 10, 11, 12, 18, 19],
    );
    // Each loop for itself.
    assert_eq!(
        ways("loop, timed, or, branch, loop, or, branch, timed, branch, end or, end loop, branch, loop, or, branch, branch, timed, end or, end loop, end or, end loop"),
        [[4, 5, 8, 9, 10], [12, 13, 14, 17, 18]]
    );
    // Without loops there is nothing to go round.
    none("or, branch, branch, end or, repeat 2, instant, end repeat");
}

/// The plant without uses, with two turns of each IT, and about half of its FUNCTIONs without a tick.
fn hurried(file: &[u8], random: &mut Random) -> Plant {
    let mut plant = Plant::of_records(&records(file));
    for row in &mut plant.rows {
        match &mut row.part {
            Part::Function(function) => {
                function.uses.clear();
                function.shortest = u16::from(random.chance(50));
                function.longest = 9;
            }
            Part::Repeat { count } => *count = 2,
            _ => {}
        }
    }
    plant
}

/// Whether steps of these rows alone, without a wait, lead from the loop's open to its close.
fn goes_round(file: &[u8], rows: &[usize], open: usize, close: usize) -> bool {
    let words = effbd::read_diagram(file).expect("accepted") as usize;
    let mut first = vec![0; words];
    first[3 * open] = 1;
    let mut met = BTreeSet::from([first.clone()]);
    let mut due = vec![first];
    while let Some(state) = due.pop() {
        if state[3 * close] == 1 {
            return true;
        }
        // Where the loop was left nothing more is looked at.
        let inside = state[3 * open..3 * close].iter().any(|word| *word > 0);
        for &row in rows.iter().filter(|_| inside) {
            let mut next = state.clone();
            let step = Move::Step(row as u16);
            if effbd::move_diagram(file, &mut next, step).is_ok() && met.insert(next.clone()) {
                due.push(next);
            }
        }
    }
    false
}

/// A way is told just where the proved stepper finds one, and its rows are enough for it; of loops with a FUNCTION that takes a tick.
#[test]
fn as_the_stepper_goes() {
    let (mut with, mut without, mut by_boxes) = (0, 0, 0);
    for seed in 0..20_000 {
        let random = &mut Random::new(seed);
        let file = match seed % 2 {
            0 => diagram_up_to(random, 24),
            _ => killing_diagram(random),
        };
        let plant = hurried(&file, random);
        let file = plant.file().expect("a plant of a file");
        let is_loop = |row: &usize| plant.rows[*row].part == Part::Loop;
        if plant.rows.len() > 24 || effbd::read_diagram(&file).is_err() {
            continue;
        }
        let told = timeless(&plant);
        for open in (0..plant.rows.len()).filter(is_loop) {
            let (_, close) = run_from(&plant, open + 1);
            let all: Vec<usize> = (open..=close).collect();
            let way = told.iter().find(|way| way[0] == open);
            let found = goes_round(&file, &all, open, close);
            assert_eq!(way.is_some(), found, "seed {seed}, row {open}, {file:?}");
            let enough = way.is_none_or(|way| goes_round(&file, way, open, close));
            assert!(enough, "seed {seed}, {way:?}, {file:?}");
            let is_box = |row: &&usize| plant.rows[**row].part == Part::Box;
            by_boxes += way.map_or(0, |way| way.iter().filter(is_box).count());
            with += usize::from(found);
            without += usize::from(!found);
        }
    }
    assert!(
        with > 100 && without > 100,
        "{with} with, {without} without"
    );
    assert!(by_boxes > 20, "{by_boxes} boxes on the way");
}
