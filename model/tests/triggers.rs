//! Document 02's request 2, "Triggers reach everyone": plants worked out by
//! hand.

mod common;

use common::{both, fresh, net_of, refused, Pair};
use model::annex::annex;
use model::diagram::{file_of, function_record, parse, read, Item};
use model::diagram_step::{activity, READY, RUNNING};
use model::examples::{self, rows, DOOR, FAN, PUMP};
use model::generate::{self, Random};
use model::history::{agreement, claim, moves_to_try};
use model::net;
use model::records::{
    record, AND_CLOSE, AND_OPEN, BRANCH, END, ITEM, LOOP_EXIT, LP_CLOSE, LP_OPEN, OR_CLOSE,
    OR_OPEN, TRIGGER,
};

/// 9 rows and a trigger, its shared count word 27; the copy of the fan is word
/// 28, that of the pump 29. The door takes nothing and has none.
#[test]
fn door_open_reaches_fan_and_pump() {
    let mut plant = Pair::new(examples::door_open());
    assert_eq!(read(&plant.file), Ok(30));
    let counts = |plant: &Pair| plant.state[27..].to_vec();
    assert_eq!(plant.step(0), both(Ok(0)));
    for (row, word) in [(FAN, 4), (PUMP, 6)] {
        assert_eq!(plant.step(row), (refused(23, 0), refused(22, word)));
    }
    assert_eq!(plant.step(DOOR), both(Ok(0)));
    assert_eq!(plant.wait(1), both(Ok(0)));
    assert_eq!(plant.step(DOOR), both(Ok(0)));
    assert_eq!(counts(&plant), [0, 1, 1]);
    assert_eq!(plant.step(FAN), both(Ok(0)));
    assert_eq!(counts(&plant), [0, 0, 1]);
    // The pump has heard it too: time does not pass before it starts.
    assert_eq!(plant.wait(1), both(refused(26, 0)));
    assert_eq!(plant.step(PUMP), both(Ok(0)));
    assert_eq!(counts(&plant), [0, 0, 0]);
    assert_eq!(plant.wait(1), both(Ok(0)));
    for row in [FAN, PUMP, 7] {
        assert_eq!(plant.step(row), both(Ok(0)));
    }
    assert_eq!(plant.state[activity(8)], READY);
}

/// With one count "only the first to start hears it".
#[test]
fn a_plain_door_open_reaches_one() {
    let mut bytes = examples::door_open();
    bytes[12] = ITEM as u8;
    let mut plant = Pair::new(bytes);
    for row in [0, DOOR, DOOR, FAN] {
        assert_eq!(plant.step(row), both(Ok(0)));
    }
    assert_eq!(plant.step(PUMP), (refused(23, 0), refused(22, 6)));
}

#[test]
fn net_of_the_door_open_plant() {
    let transitions = "\
t 0 label 0 from 0 to 0
take 0 1
give 6 1
give 12 1
give 18 1
t 1 label 2 from 0 to 0
take 6 1
give 7 1
t 2 label 2 from 0 to 9
take 7 1
give 3 1
give 28 1
give 29 1
t 3 label 4 from 0 to 0
take 12 1
take 28 1
give 13 1
t 4 label 4 from 1 to 9
take 13 1
give 9 1
t 5 label 6 from 0 to 0
take 18 1
take 29 1
give 19 1
t 6 label 6 from 1 to 9
take 19 1
give 15 1
t 7 label 7 from 0 to 0
take 3 1
take 9 1
take 15 1
give 24 1
";
    let marks = format!("marks 1{}", " 0".repeat(29));
    let text = format!("net 30 8\n{marks}\n{transitions}");
    assert_eq!(annex(&examples::door_open()), text);
}

/// "The copies follow the items, by item and then row", fresh at the initial
/// counts; a row that only gives has none.
#[test]
fn copies_stand_by_item_and_then_row() {
    let items = [(TRIGGER, 7), (ITEM, 5), (TRIGGER, 9), (TRIGGER, 8)];
    let items = items.map(|(kind, count)| record(kind, &[count]));
    let rows = [
        function_record(0, 0, &[[2, 1, 0], [3, 0, 1]]),
        function_record(0, 0, &[[0, 1, 1], [1, 2, 0], [2, 1, 1]]),
        function_record(0, 0, &[[0, 1, 0]]),
        record(END, &[]),
    ];
    let mut plant = Pair::new(file_of(&items, &rows));
    // Item 0: rows 1 and 2; item 2: rows 0 and 1; item 3: nobody.
    assert_eq!(plant.state[12..], [0, 5, 0, 0, 7, 7, 9, 9]);
    assert_eq!(plant.net_state[12..20], [0, 5, 0, 0, 7, 7, 9, 9]);
    assert_eq!(plant.step(0), both(Ok(0)));
    assert_eq!(plant.state[12..], [0, 5, 0, 0, 7, 7, 8, 9]);
    // Item 3 is given, and nobody hears.
    assert_eq!(plant.step(0), both(Ok(0)));
    assert_eq!(plant.state[12..], [0, 5, 0, 0, 7, 7, 8, 9]);
    assert_eq!(plant.step(1), both(Ok(0)));
    assert_eq!(plant.state[12..], [0, 3, 0, 0, 6, 7, 8, 8]);
    // A give reaches the giver's own copy too.
    assert_eq!(plant.step(1), both(Ok(0)));
    assert_eq!(plant.state[12..], [0, 3, 0, 0, 7, 8, 9, 9]);
}

/// "No receiver, no count": never 25, whatever the initial count.
#[test]
fn a_trigger_without_receivers() {
    for count in [0, 1, 65_535] {
        let mut plant = Pair::new(examples::unheard_trigger(count));
        assert_eq!(plant.state, [1, 0, 0, 0, 0, 0, 0]);
        assert_eq!(plant.step(0), both(Ok(0)));
        assert_eq!(plant.step(0), both(Ok(0)));
        assert_eq!(plant.state, [0, 0, 0, 1, 0, 0, 0]);
        // Head, 7 places, 2 transitions with a take and a give each.
        assert_eq!(plant.net.len(), 8 + 7 * 6 + 2 * (10 + 16));
    }
}

/// Item 0 a trigger with its copy behind item 1: words 9, 11 and 10. The diagram
/// names the lowest item, the net the lowest place.
#[test]
fn sums_too_large() {
    let full = u16::MAX;
    let cases = [
        (full, full, refused(25, 0), refused(25, 10)),
        (full, 0, refused(25, 0), refused(25, 11)),
        (0, full, refused(25, 1), refused(25, 10)),
        (full - 1, full - 1, Ok(0), Ok(0)),
    ];
    for (trigger, plain, by_diagram, by_net) in cases {
        let mut plant = Pair::new(examples::trigger_before_plain(trigger, plain));
        assert_eq!(plant.step(0), both(Ok(0)));
        assert_eq!(plant.step(0), (by_diagram, by_net));
        assert_eq!(plant.state[9], 0);
    }
    // The start of a receiver makes room in its own copy, not in another's.
    for (word, by_both) in [(10, Ok(0)), (11, refused(25, 0))] {
        let mut plant = Pair::new(examples::triggers(1, 2));
        plant.state[word] = full;
        plant.net_state = model::image::image(&plant.file, &plant.state).expect("image");
        assert_eq!(plant.step(0), both(Ok(0)));
        assert_eq!(plant.wait(1), both(Ok(0)));
        let by_net = by_both.map_err(|refusal| model::Refusal {
            value: 11,
            ..refusal
        });
        assert_eq!(plant.step(0), (by_both, by_net));
    }
}

/// 23 names the lowest item short, be it a trigger or not.
#[test]
fn items_short() {
    let items = [(ITEM, 1), (TRIGGER, 0), (ITEM, 0), (TRIGGER, 0)];
    let items = items.map(|(kind, count)| record(kind, &[count]));
    let function = function_record(0, 0, &[[0, 1, 0], [1, 1, 0], [2, 1, 0], [3, 1, 0]]);
    let mut plant = Pair::new(file_of(&items, &[function, record(END, &[])]));
    assert_eq!(plant.state[6..], [1, 0, 0, 0, 0, 0]);
    // The words of items 1, 2 and 3 that the row takes from.
    for (item, word) in [(1, 10), (2, 8), (3, 11)] {
        assert_eq!(plant.step(0), (refused(23, item), refused(22, 0)));
        assert_eq!(plant.wait(1), both(Ok(0)));
        plant.state[word] = 1;
        plant.net_state = model::image::image(&plant.file, &plant.state).expect("image");
    }
    assert_eq!(plant.wait(1), both(refused(26, 0)));
    assert_eq!(plant.step(0), both(Ok(0)));
    assert_eq!(plant.state[6..], [0, 0, 0, 0, 0, 0]);
}

/// Nothing clears copies: an LE out of the loop of its receiver does not.
#[test]
fn loop_exits_keep_copies() {
    let mut kinds = rows(&[LP_OPEN, AND_OPEN, BRANCH]);
    kinds.push(function_record(1, 1, &[[0, 1, 0]]));
    kinds.extend(rows(&[BRANCH, LOOP_EXIT, AND_CLOSE, LP_CLOSE, END]));
    let mut plant = Pair::new(file_of(&[record(TRIGGER, &[5])], &kinds));
    for row in [0, 1, 3, 5] {
        assert_eq!(plant.step(row), both(Ok(0)));
    }
    assert_eq!(plant.state[activity(3)], 0);
    assert_eq!(plant.state[27..], [0, 4]);
    assert!(annex(&plant.file).contains("clear 0 23\n"));
    // An OR passes its receiver by.
    let mut kinds = rows(&[OR_OPEN, BRANCH, BRANCH]);
    kinds.push(function_record(1, 1, &[[0, 1, 0]]));
    kinds.extend(rows(&[OR_CLOSE, END]));
    let mut plant = Pair::new(file_of(&[record(TRIGGER, &[5])], &kinds));
    for row in [1, 4] {
        assert_eq!(plant.step(row), both(Ok(0)));
    }
    assert_eq!(plant.state[18..], [0, 5]);
}

/// 63 FUNCTIONs that take and give 16 triggers.
#[test]
fn longest_net() {
    let file = examples::longest_net();
    let net = net_of(&file);
    assert_eq!(net.len(), 526_676);
    assert_eq!(read(&file), Ok(1_216));
    assert_eq!(net::read(&net), Ok(1_216 + 126));
    assert_eq!(net::parse(&net).expect("accepted net").marks.len(), 1_216);
    let mut area = vec![6; 526_680];
    let short = model::translate::translate(&file, &mut area[..526_675]);
    assert_eq!(short, refused(10, 526_676));
    assert!(area.iter().all(|byte| *byte == 6));
    let fits = model::translate::translate(&file, &mut area);
    assert_eq!(fits, Ok(526_676));
    assert!(area[..526_676] == net && area[526_676..] == [6; 4]);
    // The annex program lends 65,536 bytes.
    assert_eq!(annex(&file), "refused 10 526676\n");
    // Offsets pass 16 bits too.
    assert_eq!(net::read(&net[..526_673]), refused(1, 526_668));
}

/// "Up to 1,216 places", of nets that no diagram has.
#[test]
fn places_of_a_net() {
    let of_places = |count: usize| model::net::Net::new(vec![1; count]).encode();
    assert_eq!(net::read(&of_places(1_216)), Ok(1_216));
    assert_eq!(net::read(&of_places(1_217)), refused(4, 0));
}

/// Fresh, then start, wait and end of each row of the longest net.
#[test]
fn every_row_of_the_longest_net() {
    let mut plant = Pair::new(examples::longest_net());
    for row in 0..63 {
        assert_eq!(plant.step(row), both(Ok(0)));
        assert_eq!(plant.state[activity(usize::from(row))], RUNNING);
        assert_eq!(plant.wait(1), both(Ok(0)));
        assert_eq!(plant.step(row), both(Ok(0)));
    }
    assert_eq!(plant.state[192..208], [0; 16]);
    // Each of the 63 gave all copies 1; each took 1 of its own.
    assert_eq!(plant.state[208..], [63; 1_008]);
}

/// Diagram and net agree on plants with long nets too.
#[test]
fn long_nets_agree() {
    let mut random = Random::new(50);
    for _ in 0..5 {
        let file = generate::crowded_diagram(&mut random);
        let net = net_of(&file);
        for state in generate::walk(&mut random, &file, 40).iter().rev().take(4) {
            for (code, argument) in moves_to_try(&file, state) {
                assert_eq!(agreement(&file, &net, state, code, argument), Ok(()));
            }
        }
    }
    let file = examples::door_open();
    for _ in 0..50 {
        let calls = generate::bus_list(&mut random, &file, 9, 40);
        assert_eq!(claim(&file, 9, &calls), Ok(()));
    }
}

/// Most generated diagrams have no trigger; those of the others have no
/// receiver, one and many; some long nets are as long as may be.
#[test]
fn generated_triggers() {
    let mut random = Random::new(51);
    let (mut without, mut receivers) = (0, [0; 64]);
    for _ in 0..3_000 {
        let file = generate::diagram(&mut random);
        let diagram = parse(&file).expect("accepted diagram");
        let mut none = true;
        for item in &diagram.items {
            if let Item::Trigger { receivers: by, .. } = item {
                none = false;
                receivers[by.rows.len()] += 1;
            }
        }
        without += usize::from(none);
    }
    assert!((1_800..2_700).contains(&without), "{without}");
    let many: usize = receivers[5..].iter().sum();
    for times in [receivers[0], receivers[1], many] {
        assert!(times > 100, "{receivers:?}");
    }
    let lengths: Vec<usize> = (0..100)
        .map(|_| net_of(&generate::crowded_diagram(&mut random)).len())
        .collect();
    let long = lengths.iter().filter(|length| **length > 65_536).count();
    assert!((60..100).contains(&long), "{long}");
    assert!(lengths.contains(&526_676));
    assert_eq!(
        fresh(&generate::lasting_trigger_diagram(&mut random, 9))[0],
        1
    );
}
