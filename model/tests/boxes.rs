//! Document 02's request 7, "Boxes that open": plants worked out by hand.

mod common;

use common::{arcs, both, fresh, make, net_of, only, refused, Pair};
use model::annex::annex;
use model::diagram::{file, file_of, function_record, parse, read};
use model::diagram_step::{self, activity, check, clock, turns, DONE, READY, RUNNING};
use model::examples::{self, exit_to, trip_rows, EXIT_B, F1, F2, FB, FD, FD_CLOSE, SUB_FD_2};
use model::generate::{bus_list, Random};
use model::history::claim;
use model::records::{
    record, AND_CLOSE, AND_OPEN, BOX_CLOSE, BOX_OPEN, BRANCH, END, EXIT, FUNCTION, ITEM, IT_CLOSE,
    IT_OPEN, KILLING_BRANCH, LP_CLOSE, LP_OPEN, OR_CLOSE, OR_OPEN, TRIGGER,
};
use model::transitions::transition;

/// "Row 31, length 6, is EXIT; its field names an outlet"; 29 and 30 have 4 bytes.
#[test]
fn records_of_a_box() {
    assert_eq!(record(BOX_OPEN, &[]), [4, 0, 29, 0]);
    assert_eq!(record(BOX_CLOSE, &[]), [4, 0, 30, 0]);
    assert_eq!(record(EXIT, &[258]), [6, 0, 31, 0, 2, 1]);
    assert_eq!(read(&examples::decomposed()), Ok(51));
    assert_eq!(read(&examples::door_box()), Ok(54));
    assert_eq!(read(&examples::box_in_box()), Ok(81));
    assert_eq!(read(&examples::wide_boxes_again(4)), Ok(183));
    assert_eq!(read(&examples::deep_boxes_again()), Ok(192));
}

#[test]
fn net_of_the_decomposed_function() {
    let transitions = "\
t 0 label 0 from 0 to 0
take 0 1
give 1 1
t 1 label 0 from 1 to 9
take 1 1
give 3 1
t 2 label 1 from 0 to 0
take 3 1
give 6 1
t 3 label 3 from 0 to 0
take 6 1
give 12 1
t 4 label 4 from 0 to 0
take 12 1
give 13 1
t 5 label 4 from 1 to 9
take 13 1
give 15 1
t 6 label 5 from 0 to 0
take 15 1
clear 3 29
give 33 1
t 7 label 6 from 0 to 0
take 6 1
give 21 1
t 8 label 7 from 0 to 0
take 21 1
give 22 1
t 9 label 7 from 1 to 9
take 22 1
give 24 1
t 10 label 8 from 0 to 0
take 24 1
clear 3 29
give 39 1
t 11 label 9 from 0 to 0
take 27 1
give 42 1
t 12 label 11 from 0 to 0
take 33 1
give 34 1
t 13 label 11 from 1 to 9
take 34 1
give 42 1
t 14 label 13 from 0 to 0
take 39 1
give 40 1
t 15 label 13 from 1 to 9
take 40 1
give 42 1
t 16 label 14 from 0 to 0
take 42 1
give 45 1
t 17 label 15 from 0 to 0
take 45 1
give 46 1
t 18 label 15 from 1 to 9
take 46 1
give 48 1
";
    let text = format!("net 51 19\nmarks 1{}\n{transitions}", " 0".repeat(50));
    assert_eq!(annex(&examples::decomposed()), text);
    let net = net_of(&examples::decomposed());
    // Head, 51 places, 19 transitions, 40 arcs.
    assert_eq!(net.len(), 8 + 51 * 6 + 19 * 10 + 40 * 8);
    let exit_of_row_5 = [
        10, 0, 34, 0, 5, 0, 0, 0, 0, 0, // the transition
        8, 0, 35, 0, 15, 0, 1, 0, // takes P of row 5
        8, 0, 36, 0, 3, 0, 29, 0, // clears rows 1 to 9
        8, 0, 37, 0, 33, 0, 1, 0, // gives P of row 11
    ];
    // Behind the head, the places and the 6 transitions and 12 arcs of t 0 to t 5.
    let at = 8 + 51 * 6 + 6 * 10 + 12 * 8;
    assert_eq!(net[at..at + exit_of_row_5.len()], exit_of_row_5);
}

/// Table 1.3 of the report: F1; FD and its OR; SubFD2; EXIT to exitB; Fb; the
/// closing OR; F2. At each step just one row is not idle.
#[test]
fn time_line_of_the_decomposed_function() {
    let mut plant = Pair::new(examples::decomposed());
    let at = |plant: &Pair, row: u16, value| {
        assert_eq!(plant.state, only(17, &[(usize::from(row), value)]));
    };
    at(&plant, F1, READY);
    make(&mut plant, &[F1]);
    assert_eq!(plant.wait(1), both(Ok(0)));
    make(&mut plant, &[F1]);
    // 29, the OR, EXIT and 30 are ready and hold every wait.
    at(&plant, FD, READY);
    assert_eq!(plant.wait(1), both(refused(26, 0)));
    make(&mut plant, &[FD]);
    at(&plant, 2, READY);
    make(&mut plant, &[6]);
    at(&plant, SUB_FD_2, READY);
    make(&mut plant, &[SUB_FD_2]);
    assert_eq!(plant.wait(9), both(Ok(0)));
    make(&mut plant, &[SUB_FD_2]);
    at(&plant, EXIT_B, READY);
    assert_eq!(plant.wait(1), both(refused(26, 0)));
    // Neither the other EXIT nor an outlet's BRANCH steps.
    for row in [5, 10, 12, FD, FD_CLOSE] {
        assert_eq!(plant.step(row), both(refused(22, u32::from(row))));
    }
    make(&mut plant, &[EXIT_B]);
    at(&plant, FB, READY);
    make(&mut plant, &[FB]);
    assert_eq!(plant.wait(1), both(Ok(0)));
    make(&mut plant, &[FB]);
    at(&plant, FD_CLOSE, READY);
    assert_eq!(plant.wait(1), both(refused(26, 0)));
    for row in [10, 12] {
        assert_eq!(plant.step(row), both(refused(22, u32::from(row))));
    }
    make(&mut plant, &[FD_CLOSE]);
    at(&plant, F2, READY);
}

/// The other way: behind Fa stands the next outlet's BRANCH, which makes row 30
/// ready too.
#[test]
fn a_later_outlets_branch_is_entered() {
    let mut plant = Pair::new(examples::decomposed());
    make(&mut plant, &[F1]);
    assert_eq!(plant.wait(1), both(Ok(0)));
    make(&mut plant, &[F1, FD, 3, 4]);
    assert_eq!(plant.wait(1), both(Ok(0)));
    make(&mut plant, &[4, 5]);
    assert_eq!(plant.state, only(17, &[(11, READY)]));
    make(&mut plant, &[11]);
    assert_eq!(plant.wait(1), both(Ok(0)));
    make(&mut plant, &[11]);
    let close = usize::from(FD_CLOSE);
    assert_eq!(plant.state, only(17, &[(close, READY)]));
}

/// The door's EXIT comes while the fan runs in its second round and the pump runs:
/// nothing is left of the scenario, and the row behind outlet 1 is ready.
#[test]
fn an_exit_clears_the_scenario() {
    let door = "take 9 1, give 10 1, take 10 1, give 12 1, ";
    let file = examples::door_box();
    assert_eq!(arcs(&file, 3), door);
    // Rows 0 to 12; R of row 6 is whole again; row 15, behind outlet 1.
    let exit = "take 12 1, clear 0 38, give 20 3, give 45 1, ";
    assert_eq!(arcs(&file, 4), exit);
    // Outlet 0 is empty: row 16 is entered.
    let empty = "take 33 1, clear 0 38, give 20 3, give 48 1, ";
    assert_eq!(arcs(&file, 11), empty);
    // The AND close, which never steps, is before the first outlet.
    assert_eq!(
        arcs(&file, 12),
        "take 6 1, take 15 1, take 27 1, give 48 1, "
    );

    let mut plant = Pair::new(file.clone());
    make(&mut plant, &[0, 1, 3, 6, 7, 10]);
    assert_eq!(plant.wait(1), both(Ok(0)));
    make(&mut plant, &[7, 8, 6, 7]);
    assert_eq!(plant.wait(1), both(Ok(0)));
    assert_eq!((plant.state[turns(6)], plant.state[clock(10)]), (2, 2));
    make(&mut plant, &[3, 4]);
    assert_eq!(plant.state, only(18, &[(15, READY)]));
    let marked: Vec<usize> = (0..71).filter(|at| plant.net_state[*at] > 0).collect();
    assert_eq!(marked, [20, 45]);
    assert_eq!(plant.net_state[20], 3);
    for row in [3, 6, 7, 10, 11, 12] {
        assert_eq!(plant.step(row), both(refused(22, u32::from(row))));
    }
    make(&mut plant, &[15]);
    assert_eq!(plant.wait(1), both(Ok(0)));
    make(&mut plant, &[15, 16]);
    assert_eq!(plant.state, only(18, &[(17, READY)]));

    // By the empty outlet, while the door has ended too: its EXIT is cleared.
    let mut plant = Pair::new(file);
    make(&mut plant, &[0, 1, 3, 6, 10]);
    assert_eq!(plant.wait(1), both(refused(26, 0)));
    make(&mut plant, &[7]);
    assert_eq!(plant.wait(3), both(Ok(0)));
    make(&mut plant, &[3, 10, 11]);
    assert_eq!(plant.state, only(18, &[(16, READY)]));
}

/// An EXIT leaves what stands in the outlets, and row 30, as they are: only states
/// that no moves reach have anything there. Row 29 is cleared.
#[test]
fn an_exit_leaves_the_outlets() {
    let file = examples::door_box();
    let mut state = only(18, &[(0, READY), (4, READY), (15, RUNNING), (16, READY)]);
    state[clock(15)] = 4;
    let diagram = parse(&file).expect("accepted diagram");
    assert_eq!(check(&diagram, &state), Ok(()));
    // Row 15 is entered, so that it is ready again.
    let after = diagram_step::after(&diagram, &state, 1, 4);
    assert_eq!(after, Ok(only(18, &[(15, READY), (16, READY)])));
    state[activity(4)] = 0;
    state[activity(11)] = READY;
    let mut expected = state.clone();
    (expected[activity(0)], expected[activity(11)]) = (0, 0);
    assert_eq!(diagram_step::after(&diagram, &state, 1, 11), Ok(expected));
}

/// The inner box's EXIT of row 6 goes to its outlet 1, rows 11 and 12, which ends
/// in an EXIT of the outer box; that clears the IT around the inner one.
#[test]
fn a_box_in_a_box() {
    let file = examples::box_in_box();
    // Inner box: rows 3 to 9, outlets 10 and 11. Outer: rows 1 to 15, R of row 2.
    assert_eq!(arcs(&file, 6), "take 18 1, clear 9 29, give 36 1, ");
    assert_eq!(arcs(&file, 9), "take 27 1, clear 9 29, give 39 1, ");
    let outer = "clear 3 47, give 8 3, ";
    assert_eq!(arcs(&file, 12), format!("take 36 1, {outer}give 51 1, "));
    assert_eq!(arcs(&file, 15), format!("take 45 1, {outer}give 57 1, "));
    // The LE in the outer box's outlet clears the whole loop.
    assert_eq!(
        arcs(&file, 21),
        "take 63 1, clear 0 77, give 8 3, give 78 1, "
    );
    // 29 and 30 as OR close; 30's next row is the IT's or the LP's close.
    assert_eq!(arcs(&file, 3), "take 9 1, give 12 1, ");
    assert_eq!(arcs(&file, 13), "take 39 1, give 42 1, ");
    assert_eq!(arcs(&file, 24), "take 72 1, give 75 1, ");

    let mut plant = Pair::new(file);
    make(&mut plant, &[0, 1, 2, 3, 5, 6]);
    let mut expected = only(27, &[(12, READY)]);
    expected[turns(2)] = 1;
    assert_eq!(plant.state, expected);
    make(&mut plant, &[12]);
    assert_eq!(plant.state, only(27, &[(17, READY)]));
    make(&mut plant, &[17]);
    assert_eq!(plant.wait(1), both(Ok(0)));
    make(&mut plant, &[17, 24, 25, 0, 1]);
    // Three rounds by the empty outlet 0, then the straight EXIT; the LE leaves.
    for _ in 0..3 {
        make(&mut plant, &[2, 3, 7, 8, 9, 13, 14]);
    }
    make(&mut plant, &[2]);
    assert_eq!(plant.state, only(27, &[(15, READY)]));
    make(&mut plant, &[15, 20, 21]);
    assert_eq!(plant.state, only(27, &[(26, READY)]));
}

/// Row 30 ends a killing branch; an EXIT in a killing branch does not.
#[test]
fn a_box_kills() {
    let rows = trip_rows(&[
        AND_OPEN,
        KILLING_BRANCH,
        BOX_OPEN,
        AND_OPEN,
        KILLING_BRANCH,
        exit_to(1),
        KILLING_BRANCH,
        FUNCTION,
        exit_to(0),
        AND_CLOSE,
        BRANCH,
        BRANCH,
        FUNCTION,
        BOX_CLOSE,
        BRANCH,
        IT_OPEN,
        FUNCTION,
        IT_CLOSE,
        AND_CLOSE,
        END,
    ]);
    let file = file(&[], &rows);
    assert_eq!(arcs(&file, 5), "take 15 1, clear 6 29, give 36 1, ");
    let close = "take 39 1, clear 3 53, give 3 1, give 42 1, give 47 3, ";
    assert_eq!(arcs(&file, 13), close);
    let mut plant = Pair::new(file);
    make(&mut plant, &[0, 2, 15, 16, 3, 7]);
    make(&mut plant, &[5]);
    assert_eq!(plant.state[activity(12)], READY);
    assert_eq!(plant.state[activity(16)], RUNNING);
    let done = [1, 4, 6, 14].map(|branch| plant.state[activity(branch)]);
    assert_eq!(done, [0; 4]);
    make(&mut plant, &[12]);
    assert_eq!(plant.wait(1), both(Ok(0)));
    make(&mut plant, &[12, 13]);
    assert_eq!(plant.state, only(20, &[(1, DONE), (14, DONE)]));
    make(&mut plant, &[18]);
    assert_eq!(plant.state, only(20, &[(19, READY)]));
}

/// A box in a branch that is killed, in its scenario and in its outlet.
#[test]
fn a_box_is_killed() {
    let rows = trip_rows(&[
        AND_OPEN,
        BRANCH,
        BOX_OPEN,
        OR_OPEN,
        BRANCH,
        FUNCTION,
        exit_to(0),
        BRANCH,
        exit_to(1),
        OR_CLOSE,
        BRANCH,
        BRANCH,
        FUNCTION,
        BOX_CLOSE,
        KILLING_BRANCH,
        FUNCTION,
        AND_CLOSE,
        END,
    ]);
    let file = file(&[], &rows);
    for in_box in [[4, 5].as_slice(), &[7, 8, 12]] {
        let mut plant = Pair::new(file.clone());
        make(&mut plant, &[0, 15, 2]);
        make(&mut plant, in_box);
        assert_eq!(plant.wait(1), both(Ok(0)));
        make(&mut plant, &[15]);
        assert_eq!(plant.state, only(18, &[(1, DONE), (14, DONE)]));
    }
    // By the empty outlet its branch ends alone.
    let mut plant = Pair::new(file);
    make(&mut plant, &[0, 15, 2, 4, 5]);
    assert_eq!(plant.wait(1), both(Ok(0)));
    make(&mut plant, &[5, 6, 13]);
    assert_eq!(plant.state[activity(1)], DONE);
    assert_eq!(plant.state[activity(15)], RUNNING);
}

/// What a FUNCTION of the scenario took is lost, in items and copies.
#[test]
fn items_and_copies_are_not_cleared() {
    let mut rows = trip_rows(&[
        BOX_OPEN,
        AND_OPEN,
        BRANCH,
        FUNCTION,
        exit_to(1),
        BRANCH,
        exit_to(0),
        AND_CLOSE,
        BRANCH,
        BRANCH,
        BOX_CLOSE,
        END,
    ]);
    rows[3] = function_record(0, 9, &[[0, 2, 2], [1, 1, 1]]);
    let items = [record(ITEM, &[5]), record(TRIGGER, &[4])];
    let mut plant = Pair::new(file_of(&items, &rows));
    assert_eq!(plant.state[36..], [5, 0, 4]);
    make(&mut plant, &[0, 1, 3, 6]);
    assert_eq!(plant.state[36..], [3, 0, 3]);
    assert_eq!(plant.state[..36], only(12, &[(10, READY)]));
}

/// "The rest 0 and 1"; an outlet is another BRANCH: 0.
#[test]
fn activities_of_a_box() {
    let file = examples::decomposed();
    let diagram = parse(&file).expect("accepted diagram");
    for (row, most) in [(1, 1), (5, 1), (8, 1), (10, 0), (12, 0), (14, 1)] {
        for value in 0..6 {
            let state = only(17, &[(row, value)]);
            let passes = check(&diagram, &state).is_ok();
            assert_eq!(passes, value <= most, "row {row}, activity {value}");
        }
        for word in [turns(row), clock(row)] {
            let mut state = only(17, &[]);
            state[word] = 1;
            assert!(check(&diagram, &state).is_err());
        }
    }
}

/// The annex has t 2 of 29, t 6 and t 10 of the EXITs, t 16 of 30, none of the
/// outlets.
#[test]
fn transitions_behind_a_box() {
    let file = examples::decomposed();
    let firsts = [(0, 0), (4, 4), (7, 8), (11, 12), (13, 14), (15, 17)];
    for (row, first) in firsts {
        for (value, number) in [(READY, first), (RUNNING, first + 1)] {
            let state = only(17, &[(usize::from(row), value)]);
            assert_eq!(transition(&file, &state, row), Ok(number));
        }
    }
    // No FUNCTIONs, though ready.
    for row in [1, 5, 8, 14] {
        let state = only(17, &[(usize::from(row), READY)]);
        assert_eq!(transition(&file, &state, row), refused(22, u32::from(row)));
    }
}

/// A box's close in an outlet before another outlet's BRANCH, before row 30, before
/// a BRANCH of an OR and as the last of an IT's body.
#[test]
fn what_row_30_enters() {
    let inner = [
        BOX_OPEN,
        OR_OPEN,
        BRANCH,
        exit_to(0),
        BRANCH,
        exit_to(1),
        OR_CLOSE,
        BRANCH,
        BRANCH,
        BOX_CLOSE,
    ];
    let around = |before: &[u16], behind: &[u16]| {
        let kinds = [before, &inner, behind, &[END]].concat();
        (before.len(), file(&[], &trip_rows(&kinds)))
    };
    let outer = [
        BOX_OPEN,
        OR_OPEN,
        BRANCH,
        exit_to(0),
        BRANCH,
        exit_to(1),
        OR_CLOSE,
        BRANCH,
    ];
    let last_outlet = [&outer[..], &[BRANCH]].concat();
    // Place P of the row that becomes ready.
    let cases = [
        (around(&outer, &[BRANCH, BOX_CLOSE]), 19),
        (around(&last_outlet, &[BOX_CLOSE]), 19),
        (around(&[OR_OPEN, BRANCH], &[BRANCH, OR_CLOSE]), 13),
        (around(&[IT_OPEN], &[IT_CLOSE]), 11),
        (around(&[LP_OPEN, FUNCTION], &[LP_CLOSE]), 12),
        (around(&[], &[]), 10),
    ];
    for ((open, file), ready) in cases {
        assert_eq!(read(&file).err(), None);
        let close = open + 9;
        let expected = format!("take {} 1, give {} 1, ", 3 * close, 3 * ready);
        assert_eq!(arcs(&file, close), expected);
    }
    // Of an AND it makes the branch done.
    let (open, file) = around(&[AND_OPEN, BRANCH], &[BRANCH, AND_CLOSE]);
    assert_eq!(arcs(&file, open + 9), "take 33 1, give 3 1, ");
}

/// Fresh states and lists.
#[test]
fn lists_with_exits_agree() {
    let files = [
        examples::decomposed(),
        examples::door_box(),
        examples::box_in_box(),
        examples::wide_boxes_again(4),
        examples::deep_boxes_again(),
    ];
    let mut random = Random::new(80);
    for file in files {
        assert_eq!(fresh(&file)[0], READY);
        for _ in 0..20 {
            let calls = bus_list(&mut random, &file, 9, 60);
            assert_eq!(claim(&file, 9, &calls), Ok(()));
        }
    }
}
