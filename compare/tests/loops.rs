//! Request 4 of document 02 through the proved functions: which loop is refused, what comes before 45 and what behind it; each call compared
//! with the model too.

mod common;

use common::{refused, same, Plant};
use compare::calls::{self, End};
use compare::met::Met;
use effbd::{read_diagram, Answer, STEP, WAIT};
use model::examples::{self, nested, TIMELESS};
use model::records::{
    AND_CLOSE, AND_OPEN, BRANCH, END, FUNCTION, IT_CLOSE, IT_OPEN, KILLING_BRANCH, LOOP_EXIT,
    LP_CLOSE, LP_OPEN, OR_CLOSE, OR_OPEN,
};
use model::refusal;

fn timeless(row: u32) -> Answer {
    refused(refusal::LOOP_SPENDS_NO_TIME, row)
}

/// The same answer of every call that reads a diagram file, into short areas and at states of a wrong length too.
fn assert_read(file: &[u8], answer: Answer) {
    let met = &mut Met::default();
    assert_eq!(read_diagram(file), answer);
    same(calls::read_diagram(met, file));
    for length in [0, 3, 2_000] {
        same(calls::translate(met, file, &vec![7; length]));
        same(calls::annex(file, &vec![7; length], &[7; 100]));
    }
    for row in 0..4 {
        same(calls::uses(file, row));
        same(calls::log_starts(met, file, &[0; 3], row, 7));
        same(calls::log_starts(met, file, &[], row, 7));
    }
    let end = End {
        count: 3,
        station: 9,
    };
    for words in [0, answer.unwrap_or(12) as usize] {
        let state = vec![0; words];
        same(calls::fresh_diagram(met, file, &state));
        for made in [(STEP, 0), (WAIT, 1), (0, 0)] {
            same(calls::step_diagram(met, file, &state, made.0, made.1));
            same(calls::transition(met, file, &state, made.1));
            same(calls::offer(met, file, &state, end, made, &[7; 3]));
        }
    }
}

#[test]
fn loops_that_spend_no_time() {
    let cases: [(&[u16], u32); 10] = [
        (&[LP_OPEN, LP_CLOSE, END], 0),
        (&[FUNCTION, LP_OPEN, TIMELESS, LP_CLOSE, FUNCTION, END], 1),
        (&[LP_OPEN, FUNCTION, LP_CLOSE, LP_OPEN, LP_CLOSE, END], 3),
        (&[LP_OPEN, LP_CLOSE, LP_OPEN, TIMELESS, LP_CLOSE, END], 0),
        (&[LP_OPEN, FUNCTION, LP_OPEN, LP_CLOSE, LP_CLOSE, END], 2),
        (&[LP_OPEN, LP_OPEN, LP_CLOSE, FUNCTION, LP_CLOSE, END], 1),
        (&[LP_OPEN, LP_OPEN, TIMELESS, LP_CLOSE, LP_CLOSE, END], 0),
        (&[LP_OPEN, IT_OPEN, TIMELESS, IT_CLOSE, LP_CLOSE, END], 0),
        (
            &[
                LP_OPEN,
                AND_OPEN,
                KILLING_BRANCH,
                TIMELESS,
                BRANCH,
                AND_CLOSE,
                LP_CLOSE,
                END,
            ],
            0,
        ),
        (
            &[
                LP_OPEN, OR_OPEN, BRANCH, LOOP_EXIT, BRANCH, OR_CLOSE, LP_CLOSE, END,
            ],
            0,
        ),
    ];
    for (kinds, row) in cases {
        assert_read(&nested(kinds), timeless(row));
    }
    assert_read(&examples::spinning_panel(), timeless(1));
    assert_read(&examples::loop_of_alpha(0), timeless(0));
}

#[test]
fn loops_that_spend_time() {
    let accepted: [&[u16]; 4] = [
        &[LP_OPEN, TIMELESS, FUNCTION, LP_CLOSE, TIMELESS, END],
        &[LP_OPEN, LP_OPEN, FUNCTION, LP_CLOSE, LP_CLOSE, END],
        &[LP_OPEN, IT_OPEN, FUNCTION, IT_CLOSE, LP_CLOSE, END],
        &[IT_OPEN, TIMELESS, IT_OPEN, IT_CLOSE, IT_CLOSE, END],
    ];
    for kinds in accepted {
        assert_read(&nested(kinds), Ok(3 * kinds.len() as u32));
    }
    for alpha in [1, 255, 256, 0xFF00, u16::MAX] {
        assert_read(&examples::loop_of_alpha(alpha), Ok(12));
    }
    assert_read(&examples::deep_loops(), Ok(192));
    assert_read(&examples::h(), Ok(27));
}

/// The time of the outer loop is in the inner one.
#[test]
fn an_inner_loop_goes_round() {
    let mut plant = Plant::fresh(examples::many_open(2));
    for row in [0, 1, 2] {
        plant.accepted(STEP, row);
    }
    plant.accepted(WAIT, 1);
    for row in [2, 3, 1, 2] {
        plant.accepted(STEP, row);
    }
}

#[test]
fn what_comes_before_and_behind() {
    let open_13 = [vec![LP_OPEN, LP_CLOSE], vec![LP_OPEN; 13], vec![END]].concat();
    let cases: [(&[u16], Answer); 4] = [
        (
            &[LP_OPEN, LP_CLOSE, LP_CLOSE, END],
            refused(refusal::NESTING_BROKEN, 2),
        ),
        (
            &[LP_OPEN, LP_CLOSE, LOOP_EXIT, END],
            refused(refusal::LOOP_EXIT_MISPLACED, 2),
        ),
        (
            &[
                LP_OPEN,
                LP_CLOSE,
                AND_OPEN,
                KILLING_BRANCH,
                BRANCH,
                AND_CLOSE,
                END,
            ],
            refused(refusal::KILLING_BRANCH_EMPTY, 3),
        ),
        (&open_13, refused(refusal::TOO_MANY_OPEN, 14)),
    ];
    for (kinds, answer) in cases {
        assert_read(&nested(kinds), answer);
    }
    let spinning = examples::loop_of_alpha(0);
    let longer = [&spinning[..], &[0]].concat();
    assert_read(&longer, refused(refusal::BYTES_AFTER_LAST, 30));
    assert_read(&spinning[..29], refused(refusal::CUT_SHORT, 26));
}
