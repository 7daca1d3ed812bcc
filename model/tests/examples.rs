//! "Plant-room examples", with every number that the text gives.

mod common;

use common::{both, fresh, fresh_net, net_of, refused, Pair};
use model::bus::{self, Telegram};
use model::diagram::{file, function_record};
use model::diagram_step::{activity, clock, turns, IDLE, READY, RUNNING};
use model::records::{
    record, AND_CLOSE, AND_OPEN, BRANCH, END, FUNCTION, IT_CLOSE, IT_OPEN, LOOP_EXIT, LP_CLOSE,
    LP_OPEN, OR_CLOSE, OR_OPEN,
};
use model::{annex::annex, diagram, diagram_step, examples, net};

const ANNEX_OF_A: &str = "\
net 7 2
marks 1 0 0 0 0 0 3
t 0 label 0 from 0 to 0
take 0 1
take 6 1
give 1 1
t 1 label 0 from 2 to 5
take 1 1
give 3 1
";

#[test]
fn a_bytes_and_annex() {
    let a = examples::a();
    let expected = [
        10, 0, 1, 0, 1, 0, 2, 0, 1, 0, // head: edition 1, 2 rows, 1 item
        6, 0, 2, 0, 3, 0, // item 3
        14, 0, 16, 0, 2, 0, 5, 0, 0, 0, 1, 0, 0, 0, // FUNCTION
        4, 0, 27, 0, // END
    ];
    assert_eq!(a, expected);
    assert_eq!(a.len(), 34);
    assert_eq!(net_of(&a).len(), 110);
    assert_eq!(diagram::read(&a), Ok(7));
    assert_eq!(net::read(&net_of(&a)), Ok(9));
    assert_eq!(annex(&a), ANNEX_OF_A);
    assert_eq!(annex(&a[..33]), "refused 1 30\n");
}

#[test]
fn a_net_bytes() {
    let mut expected = vec![8, 0, 32, 0, 7, 0, 2, 0];
    for mark in [1, 0, 0, 0, 0, 0, 3] {
        expected.extend([6, 0, 33, 0, mark, 0]);
    }
    expected.extend([10, 0, 34, 0, 0, 0, 0, 0, 0, 0]);
    expected.extend([8, 0, 35, 0, 0, 0, 1, 0]);
    expected.extend([8, 0, 35, 0, 6, 0, 1, 0]);
    expected.extend([8, 0, 37, 0, 1, 0, 1, 0]);
    expected.extend([10, 0, 34, 0, 0, 0, 2, 0, 5, 0]);
    expected.extend([8, 0, 35, 0, 1, 0, 1, 0]);
    expected.extend([8, 0, 37, 0, 3, 0, 1, 0]);
    assert_eq!(net_of(&examples::a()), expected);
}

#[test]
fn b_end_alone() {
    let mut b = Pair::new(examples::b());
    assert_eq!(b.net.len(), 26);
    assert_eq!(b.wait(65_535), both(Ok(0)));
    assert_eq!(b.step(0), both(refused(22, 0)));
    assert_eq!(b.state, [READY, 0, 0]);
    assert_eq!(b.net_state, [1, 0, 0]);
}

#[test]
fn c_function_runs_to_its_end() {
    let mut c = Pair::new(examples::a());
    assert_eq!(c.state, [READY, 0, 0, IDLE, 0, 0, 3]);
    assert_eq!(c.step(0), both(Ok(0)));
    assert_eq!(c.state, [RUNNING, 0, 0, IDLE, 0, 0, 2]);
    assert_eq!(c.step(0), both(refused(24, 2)));
    assert_eq!(c.wait(2), both(Ok(0)));
    assert_eq!(c.state[clock(0)], 2);
    assert_eq!(c.net_state, [0, 1, 0, 0, 0, 0, 2, 0, 2]);
    assert_eq!(c.step(0), both(Ok(0)));
    assert_eq!(c.state, [IDLE, 0, 0, READY, 0, 0, 2]);
    assert_eq!(c.net_state, [0, 0, 0, 1, 0, 0, 2, 0, 0]);
}

#[test]
fn d_wait_up_to_beta() {
    let mut d = Pair::new(examples::a());
    assert_eq!(d.wait(1), both(refused(26, 0)));
    assert_eq!(d.step(0), both(Ok(0)));
    assert_eq!(d.wait(6), both(refused(26, 0)));
    assert_eq!(d.wait(5), both(Ok(0)));
    assert_eq!(d.wait(1), both(refused(26, 0)));
    assert_eq!(d.state[clock(0)], 5);
}

#[test]
fn e_item_short() {
    let mut e = Pair::new(examples::e());
    assert_eq!(e.step(0), (refused(23, 0), refused(22, 0)));
    assert_eq!(e.wait(1), both(Ok(0)));
    assert_eq!(e.state, fresh(&examples::e()));
}

#[test]
fn f_two_turns() {
    let mut f = Pair::new(examples::f());
    assert_eq!((f.file.len(), f.net.len()), (24, 172));
    for (row, expected_turns) in [(0, 1), (1, 1), (0, 2), (1, 2), (0, 0)] {
        assert_eq!(f.wait(1), both(refused(26, 0)));
        assert_eq!(f.step(row), both(Ok(0)));
        assert_eq!(f.state[turns(0)], expected_turns);
    }
    assert_eq!(f.step(0), both(refused(22, 0)));
    assert_eq!(f.state[activity(2)], READY);
    assert_eq!(f.net_state, [0, 0, 2, 0, 0, 0, 1, 0, 0, 0, 0, 0]);
    let expected = "\
net 9 3
marks 1 0 2 0 0 0 0 0 0
t 0 label 0 from 0 to 0
take 0 1
take 2 1
give 1 1
give 3 1
t 1 label 0 from 0 to 0
take 0 1
take 1 2
give 2 2
give 6 1
t 2 label 1 from 0 to 0
take 3 1
give 0 1
";
    assert_eq!(annex(&f.file), expected);
}

#[test]
fn g_ready_close_holds_time() {
    let mut g = Pair::new(examples::g());
    assert_eq!((g.file.len(), g.net.len()), (30, 166));
    assert_eq!(g.step(3), both(refused(22, 3)));
    assert_eq!(g.step(0), both(Ok(0)));
    assert_eq!(g.state, [0, 0, 0, 3, 0, 0, 3, 0, 0, 0, 0, 0, 0, 0, 0]);
    assert_eq!(g.wait(1), both(refused(26, 0)));
    assert_eq!(g.step(3), both(Ok(0)));
    assert_eq!(g.state, [0, 0, 0, 0, 0, 0, 0, 0, 0, 0, 0, 0, 1, 0, 0]);
    assert_eq!(g.wait(1), both(Ok(0)));
}

#[test]
fn h_loop_exit_clears_the_other_branch() {
    let mut h = Pair::new(examples::h());
    assert_eq!((h.file.len(), h.net.len()), (50, 376));
    for row in [0, 1, 5, 3] {
        assert_eq!(h.step(row), both(Ok(0)));
    }
    let mut expected = vec![0; 27 + 7];
    expected[24] = 1;
    assert_eq!(h.net_state, expected);
    let expected = "\
net 27 7
marks 1 0 0 0 0 0 0 0 0 0 0 0 0 0 0 0 0 0 0 0 0 0 0 0 0 0 0
t 0 label 0 from 0 to 0
take 0 1
give 3 1
t 1 label 1 from 0 to 0
take 3 1
give 9 1
give 15 1
t 2 label 3 from 0 to 0
take 9 1
clear 0 23
give 24 1
t 3 label 5 from 0 to 0
take 15 1
give 16 1
t 4 label 5 from 1 to 9
take 16 1
give 12 1
t 5 label 6 from 0 to 0
take 6 1
take 12 1
give 21 1
t 6 label 7 from 0 to 0
take 21 1
give 0 1
";
    assert_eq!(annex(&h.file), expected);
}

/// An AND that ends in LE on one branch closes never: its close takes from all
/// BRANCH rows.
#[test]
fn h_other_branch_ends_but_the_and_does_not() {
    let mut h = Pair::new(examples::h());
    for row in [0, 1, 5] {
        assert_eq!(h.step(row), both(Ok(0)));
    }
    assert_eq!(h.wait(1), both(refused(26, 0)));
    assert_eq!(h.step(5), both(refused(24, 1)));
    assert_eq!(h.step(6), both(refused(22, 6)));
    assert_eq!(h.step(3), both(Ok(0)));
}

#[test]
fn i_follower_counts() {
    let net = net_of(&examples::b());
    let station = 9;
    for (number, expected) in [(4, refused(32, 4)), (5, Ok(5)), (6, refused(33, 4))] {
        let mut state = fresh_net(&net);
        let telegram = Telegram {
            number,
            station,
            code: 2,
            argument: 1,
        };
        let taken = bus::take(&net, &mut state, 4, station, &telegram.encode());
        assert_eq!(taken, expected);
        assert_eq!(state, [1, 0, 0]);
    }
}

#[test]
fn rows_64_and_65() {
    assert_eq!(diagram::read(&examples::many_rows(64)), Ok(192));
    let net = net_of(&examples::many_rows(64));
    assert_eq!(net::read(&net), Ok(192 + 126));
    assert_eq!(diagram::read(&examples::many_rows(65)), refused(4, 0));
    let mut head_says_64 = examples::many_rows(65);
    head_says_64[6] = 64;
    assert_eq!(diagram::read(&head_says_64), refused(6, 10 + 64 * 8));
}

#[test]
fn longest_plain_net() {
    let net = net_of(&examples::longest_plain_net());
    assert_eq!(net.len(), 20_660);
    assert_eq!(net::read(&net), Ok(208 + 126));
}

#[test]
fn open_12_and_13() {
    assert_eq!(diagram::read(&examples::many_open(12)), Ok(78));
    assert_eq!(diagram::read(&examples::many_open(13)), refused(9, 12));
}

#[test]
fn item_given_one() {
    let mut below = Pair::new(examples::item_given_one(65_534));
    assert_eq!(below.step(0), both(Ok(0)));
    assert_eq!(below.step(0), both(Ok(0)));
    assert_eq!(below.state[6], 65_535);
    let mut full = Pair::new(examples::item_given_one(65_535));
    assert_eq!(full.step(0), both(Ok(0)));
    assert_eq!(full.step(0), (refused(25, 0), refused(25, 6)));
    assert_eq!(full.state[6], 65_535);
}

/// "Clearing a loop without restoring R inside it."
#[test]
fn loop_exit_restores_r() {
    let mut rows = examples::rows(&[LP_OPEN]);
    rows.push(record(IT_OPEN, &[3]));
    rows.extend(examples::rows(&[
        OR_OPEN, BRANCH, LOOP_EXIT, BRANCH, OR_CLOSE, IT_CLOSE,
    ]));
    rows.push(function_record(1, 9, &[]));
    rows.extend(examples::rows(&[LP_CLOSE, END]));
    let mut pair = Pair::new(file(&[], &rows));
    let text = annex(&pair.file);
    let exit = "t 4 label 4 from 0 to 0\ntake 12 1\nclear 0 29\ngive 5 3\ngive 30 1\n";
    assert!(text.contains(exit), "{text}");
    for row in [0, 1, 5, 6, 7, 1, 3, 4] {
        assert_eq!(pair.step(row), both(Ok(0)));
    }
    let mut expected = vec![0; pair.net_state.len()];
    (expected[5], expected[30]) = (3, 1);
    assert_eq!(pair.net_state, expected);
}

/// An LE's "loop is the innermost open LP".
#[test]
fn loop_exit_leaves_the_innermost_loop() {
    let kinds = [
        LP_OPEN, LP_OPEN, OR_OPEN, BRANCH, LOOP_EXIT, BRANCH, OR_CLOSE, FUNCTION, LP_CLOSE,
        LP_CLOSE, END,
    ];
    let rows = examples::rows_with(&kinds, &function_record(1, 9, &[]), 2);
    let mut pair = Pair::new(file(&[], &rows));
    let text = annex(&pair.file);
    let exit = "label 4 from 0 to 0\ntake 12 1\nclear 3 26\ngive 27 1\n";
    assert!(text.contains(exit), "{text}");
    for row in [0, 1, 3, 4] {
        assert_eq!(pair.step(row), both(Ok(0)));
    }
    assert_eq!(pair.state[activity(9)], READY);
}

/// "Every row from its LP open to its LP close gets activity, turns and clock
/// 0", in any state that passes 20; no row outside does.
#[test]
fn loop_exit_clears_every_row() {
    let mut rows = vec![function_record(0, 9, &[])];
    rows.extend(examples::rows(&[LP_OPEN]));
    rows.push(record(IT_OPEN, &[5]));
    rows.extend(examples::rows(&[AND_OPEN, BRANCH, LOOP_EXIT, BRANCH]));
    rows.push(function_record(1, 9, &[]));
    rows.extend(examples::rows(&[AND_CLOSE, IT_CLOSE, LP_CLOSE]));
    rows.push(function_record(0, 9, &[]));
    rows.extend(examples::rows(&[END]));
    let file = file(&[], &rows);
    let mut state = fresh(&file);
    for (row, value) in [2, 1, 1, 1, 3, 1, 3, 2, 0, 1, 1, 2, 1].iter().enumerate() {
        state[activity(row)] = *value;
    }
    (state[clock(0)], state[turns(2)], state[clock(7)]) = (3, 4, 5);
    let mut expected = state.clone();
    expected[activity(1)..=clock(10)].fill(0);
    expected[activity(11)] = READY;
    assert_eq!(diagram_step::step(&file, &mut state, 1, 5), Ok(0));
    assert_eq!(state, expected);
}

/// "Any other row becomes ready, clock 0": also one that was running.
#[test]
fn entering_restarts_a_running_row() {
    let rows = [
        function_record(0, 9, &[]),
        function_record(0, 9, &[]),
        record(END, &[]),
    ];
    let file = file(&[], &rows);
    let mut state = [2, 0, 4, 2, 0, 6, 0, 0, 0];
    assert_eq!(diagram_step::step(&file, &mut state, 1, 0), Ok(0));
    assert_eq!(state, [0, 0, 0, 1, 0, 0, 0, 0, 0]);
}

/// "Restarting a running clock when another branch fires."
#[test]
fn other_branch_keeps_the_running_clock() {
    let mut rows = examples::rows(&[AND_OPEN, BRANCH]);
    rows.push(function_record(3, 9, &[]));
    rows.extend(examples::rows(&[BRANCH]));
    rows.push(function_record(1, 4, &[]));
    rows.extend(examples::rows(&[AND_CLOSE, END]));
    let mut pair = Pair::new(file(&[], &rows));
    for row in [0, 2, 4] {
        assert_eq!(pair.step(row), both(Ok(0)));
    }
    assert_eq!(pair.wait(2), both(Ok(0)));
    assert_eq!(pair.step(4), both(Ok(0)));
    assert_eq!(pair.state[clock(2)], 2);
    assert_eq!(pair.step(2), both(refused(24, 1)));
    assert_eq!(pair.wait(7), both(Ok(0)));
    assert_eq!(pair.step(2), both(Ok(0)));
    assert_eq!(pair.step(5), both(Ok(0)));
}

/// The entry place may lie below the row's own places; gives still rise.
#[test]
fn gives_rise_by_place() {
    let mut rows = examples::rows(&[AND_OPEN, BRANCH]);
    rows.push(record(IT_OPEN, &[2]));
    rows.extend(examples::rows(&[IT_CLOSE, BRANCH, AND_CLOSE, END]));
    let text = annex(&file(&[], &rows));
    let opened = "t 0 label 0 from 0 to 0\ntake 0 1\ngive 6 1\ngive 12 1\n";
    let turned = "t 2 label 2 from 0 to 0\ntake 6 1\ntake 7 2\ngive 3 1\ngive 8 2\n";
    let closed = "t 4 label 5 from 0 to 0\ntake 3 1\ntake 12 1\ngive 18 1\n";
    for part in [opened, turned, closed] {
        assert!(text.contains(part), "{text}");
    }
}

/// An OR with an empty branch and a FUNCTION: every entry is the OR close's.
#[test]
fn or_takes_one_branch() {
    let mut rows = examples::rows(&[OR_OPEN, BRANCH, BRANCH]);
    rows.push(function_record(0, 0, &[]));
    rows.extend(examples::rows(&[OR_CLOSE, END]));
    let bytes = file(&[], &rows);
    let text = annex(&bytes);
    let transitions = "\
t 0 label 1 from 0 to 0
take 0 1
give 12 1
t 1 label 2 from 0 to 0
take 0 1
give 9 1
t 2 label 3 from 0 to 0
take 9 1
give 10 1
t 3 label 3 from 0 to 0
take 10 1
give 12 1
t 4 label 4 from 0 to 0
take 12 1
give 15 1
";
    assert!(text.ends_with(transitions), "{text}");
    let mut empty = Pair::new(bytes.clone());
    assert_eq!(empty.step(0), both(refused(22, 0)));
    assert_eq!(empty.wait(1), both(refused(26, 0)));
    for row in [1, 4] {
        assert_eq!(empty.step(row), both(Ok(0)));
        assert_eq!(empty.step(2), both(refused(22, 2)));
    }
    let mut full = Pair::new(bytes);
    for row in [2, 3, 3, 4] {
        assert_eq!(full.step(row), both(Ok(0)));
    }
    assert_eq!(full.state[activity(5)], READY);
}

/// Takes and gives of several items, zero weights left out.
#[test]
fn items_taken_and_given() {
    let function = function_record(1, 1, &[[0, 2, 0], [2, 1, 5], [3, 0, 4]]);
    let rows = [function, record(END, &[])];
    let mut pair = Pair::new(file(&[2, 8, 1, 0], &rows));
    let transitions = "\
t 0 label 0 from 0 to 0
take 0 1
take 6 2
take 8 1
give 1 1
t 1 label 0 from 1 to 1
take 1 1
give 3 1
give 8 5
give 9 4
";
    assert!(annex(&pair.file).ends_with(transitions));
    assert_eq!(pair.step(0), both(Ok(0)));
    assert_eq!(pair.state[6..], [0, 8, 0, 0]);
    assert_eq!(pair.wait(1), both(Ok(0)));
    assert_eq!(pair.step(0), both(Ok(0)));
    assert_eq!(pair.state[6..], [0, 8, 5, 4]);
}

/// The uses are the very bytes of the caller's file.
#[test]
fn uses_are_parts_of_the_file() {
    let function = function_record(0, 0, &[[0, 1, 2], [1, 3, 4]]);
    let rows = [function, function_record(5, 6, &[]), record(END, &[])];
    let bytes = file(&[0, 0], &rows);
    let part = |start: usize, end: usize| bytes[start..end].as_ptr_range();
    assert_eq!(diagram::uses(&bytes, 0).as_ptr_range(), part(30, 42));
    assert_eq!(diagram::uses(&bytes, 1).as_ptr_range(), part(50, 50));
    for other_row in [2, 3, 65_535] {
        let other = diagram::uses(&bytes, other_row);
        assert_eq!(other.as_ptr_range(), part(0, 0));
        assert_eq!(diagram::uses_place(&bytes, other_row), (0, 0));
    }
    assert_eq!(diagram::uses_place(&bytes, 0), (30, 12));
    assert_eq!(diagram::uses_place(&bytes, 1), (50, 0));
    let refused_file = &bytes[..bytes.len() - 1];
    let nothing = diagram::uses(refused_file, 0);
    assert_eq!(nothing.as_ptr_range(), part(0, 0));
    assert!(diagram::uses(&[], 0).is_empty());
}
