//! Request 2 of document 02 through the proved functions: the "door open" plant, triggers without receivers, full copies, takes and gives above
//! 1, and the longest net; each call compared with the model too.

mod common;

use common::{refused, same, Plant};
use compare::calls;
use compare::met::Met;
use effbd::{read_diagram, refusal, step_diagram, Answer, STEP, WAIT};
use model::diagram::{file_of, function_record};
use model::examples::{self, DOOR, FAN, PUMP};
use model::records::{record, END, ITEM, TRIGGER};

#[test]
fn door_open_reaches_fan_and_pump() {
    let mut plant = Plant::fresh(examples::door_open());
    plant.accepted(STEP, 0);
    let short = (refused(23, 0), refused(22, u32::from(PUMP)));
    assert_eq!(plant.moved(STEP, PUMP), short);
    plant.accepted(STEP, DOOR);
    plant.accepted(STEP, DOOR);
    assert_eq!(plant.state[27..], [0, 1, 1]);
    plant.accepted(STEP, FAN);
    assert_eq!(plant.state[27..], [0, 0, 1]);
    let held = (refused(26, 0), refused(26, 0));
    assert_eq!(plant.moved(WAIT, 1), held);
    plant.accepted(STEP, PUMP);
    plant.accepted(WAIT, 1);
    for row in [PUMP, FAN, 7] {
        plant.accepted(STEP, row);
    }
    assert_eq!(plant.state[24..], [1, 0, 0, 0, 0, 0]);
}

#[test]
fn nobody_hears_a_trigger_without_receivers() {
    let mut plant = Plant::fresh(examples::unheard_trigger(65_535));
    assert_eq!(plant.state, [1, 0, 0, 0, 0, 0, 0]);
    plant.accepted(STEP, 0);
    plant.accepted(STEP, 0);
    assert_eq!(plant.state, [0, 0, 0, 1, 0, 0, 0]);
}

/// The diagram names the lowest item, the net the lowest place.
#[test]
fn full_counts() {
    let full = u16::MAX;
    let cases = [
        (full, full, refused(25, 0), refused(25, 10)),
        (full, 0, refused(25, 0), refused(25, 11)),
        (0, full, refused(25, 1), refused(25, 10)),
        (full - 1, full - 1, Ok(0), Ok(0)),
    ];
    for (trigger, plain, by_diagram, by_net) in cases {
        let mut plant = Plant::fresh(examples::trigger_before_plain(trigger, plain));
        plant.accepted(STEP, 0);
        assert_eq!(plant.moved(STEP, 0), (by_diagram, by_net));
    }
}

#[test]
fn shared_counts_remain_0() {
    let plant = Plant::fresh(examples::trigger_before_plain(1, 1));
    let mut state = plant.state.clone();
    state[9] = 1;
    let off = step_diagram(&plant.file, &mut state, STEP, 0);
    assert_eq!(off, refused(20, 0));
}

/// A trigger between two plain items, and one FUNCTION with these uses.
fn one_function(uses: &[[u16; 3]]) -> Vec<u8> {
    let items = [ITEM, TRIGGER, ITEM].map(|kind| record(kind, &[1]));
    file_of(&items, &[function_record(0, 0, uses), record(END, &[])])
}

#[test]
fn takes_and_gives_above_1() {
    let off = refused(refusal::TRIGGER_OFF, 28);
    let field_off = refused(refusal::FIELD_OFF, 28);
    let cases: [(&[[u16; 3]], Answer); 9] = [
        (&[[0, 2, 2], [1, 1, 1], [2, 2, 2]], Ok(10)),
        (&[[1, 0, 1]], Ok(9)),
        (&[[1, 2, 0]], off),
        (&[[1, 0, 2]], off),
        (&[[0, 2, 0], [1, 1, 65_535]], off),
        (&[[1, 256, 1], [2, 2, 0]], off),
        (&[[0, 0, 0], [1, 2, 0]], field_off),
        (&[[1, 2, 0], [2, 0, 0]], field_off),
        (&[[1, 2, 0], [3, 1, 0]], field_off),
    ];
    for (uses, answer) in cases {
        let file = one_function(uses);
        assert_eq!(read_diagram(&file), answer);
        same(calls::read_diagram(&mut Met::default(), &file));
    }
}

/// Each row of the longest net starts, waits and ends.
#[test]
fn the_longest_net() {
    let mut plant = Plant::fresh(examples::longest_net());
    assert_eq!(plant.net.len(), 526_676);
    assert!(plant.net.len() <= effbd::NET_ROOM);
    assert_eq!(plant.state.len(), effbd::MOST_STATE_WORDS);
    for row in 0..63 {
        plant.accepted(STEP, row);
        plant.accepted(WAIT, 1);
        plant.accepted(STEP, row);
    }
    assert_eq!(plant.state[208..], [63; 1_008]);
    for cut in [65_535, 65_536, 526_673, 526_674, 526_675] {
        same(calls::read_net(&mut Met::default(), &plant.net[..cut]));
    }
}
