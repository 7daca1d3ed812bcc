//! Net files: refusals 1 to 6, foreign nets, encoding and reading.

mod common;

use common::{fresh_net, net_of, refused};
use model::diagram;
use model::examples;
use model::generate::{self, Random};
use model::net::{parse, read, Arc, Net};
use model::net_step;
use model::records::{record, CLEAR, GIVE, NET_HEAD, PLACE, TAKE, TRANSITION};
use model::translate::table;

/// Every call that takes a net file refuses it alike and alters nothing.
fn assert_net_refused(bytes: &[u8], number: u32, value: u32) {
    let expected = refused(number, value);
    let mut state = [5; 9];
    assert_eq!(read(bytes), expected);
    assert_eq!(net_step::fresh(bytes, &mut state), expected);
    assert_eq!(net_step::step(bytes, &mut state, 0, 0), expected);
    assert_eq!(state, [5; 9]);
}

/// Example A's net: head 0, places 8 to 50, transition 50, arcs 60, 68, 76,
/// transition 84, arcs 94, 102.
#[test]
fn a_cut() {
    let net = net_of(&examples::a());
    assert_eq!(read(&net[..102]), Ok(9));
    assert_eq!(read(&net[..94]), Ok(9));
    assert_net_refused(&net[..105], 6, 102);
    assert_net_refused(&net[..107], 1, 102);
    for cut in 0..net.len() {
        let starts = [0, 8, 14, 20, 26, 32, 38, 44, 50, 60, 68, 76, 84, 94, 102];
        let start = starts.iter().rev().find(|start| **start <= cut);
        let start = *start.expect("start");
        let left = cut - start;
        if start >= 94 && left == 0 {
            assert_eq!(read(&net[..cut]), Ok(9), "{cut}");
        } else if start >= 94 && left < 4 {
            assert_net_refused(&net[..cut], 6, start as u32);
        } else {
            assert_net_refused(&net[..cut], 1, start as u32);
        }
    }
}

/// A net of 3 places and two transitions, with these arcs at each of them.
fn with_arcs(first: &[(u16, u16, u16)], second: &[(u16, u16, u16)]) -> Vec<u8> {
    let mut bytes = record(NET_HEAD, &[3, 2]);
    for _ in 0..3 {
        bytes.extend(record(PLACE, &[0]));
    }
    for arcs in [first, second] {
        bytes.extend(record(TRANSITION, &[0, 0, 0]));
        for (kind, place, other) in arcs {
            bytes.extend(record(*kind, &[*place, *other]));
        }
    }
    bytes
}

#[test]
fn arcs_out_of_order() {
    let disorders = [(CLEAR, TAKE), (GIVE, TAKE), (GIVE, CLEAR)];
    for (kind, later) in disorders {
        let arcs = [(kind, 0, 1), (later, 2, 2)];
        // 26 + 10: the first arc; 8 on: the second. Behind the last: 10 more.
        assert_net_refused(&with_arcs(&arcs, &[]), 2, 44);
        assert_net_refused(&with_arcs(&[], &arcs), 6, 54);
    }
    for other in [NET_HEAD, PLACE, 0, 38, 48] {
        assert_net_refused(&with_arcs(&[(other, 0, 1)], &[]), 2, 36);
        assert_net_refused(&with_arcs(&[], &[(other, 0, 1)]), 6, 46);
    }
    // A transition more than the head says.
    let mut more = with_arcs(&[], &[]);
    more.extend(record(TRANSITION, &[0, 0, 0]));
    assert_net_refused(&more, 6, 46);
    // An arc before the first transition.
    let mut early = record(NET_HEAD, &[1, 1]);
    early.extend(record(PLACE, &[0]));
    early.extend(record(TAKE, &[0, 1]));
    assert_net_refused(&early, 2, 14);
}

#[test]
fn arc_fields() {
    let off: [&[(u16, u16, u16)]; 12] = [
        &[(TAKE, 0, 0)],
        &[(TAKE, 3, 1)],
        &[(GIVE, 2, 0)],
        &[(GIVE, 3, 1)],
        &[(CLEAR, 2, 1)],
        &[(CLEAR, 1, 3)],
        &[(TAKE, 1, 1), (TAKE, 1, 1)],
        &[(TAKE, 2, 1), (TAKE, 1, 1)],
        &[(GIVE, 1, 1), (GIVE, 0, 1)],
        &[(CLEAR, 0, 1), (CLEAR, 1, 2)],
        &[(CLEAR, 2, 2), (CLEAR, 0, 1)],
        &[(TAKE, 2, 1), (CLEAR, 0, 0), (GIVE, 0, 1), (GIVE, 0, 1)],
    ];
    for arcs in off {
        let behind = 8 * (arcs.len() as u32 - 1);
        assert_net_refused(&with_arcs(arcs, &[]), 5, 36 + behind);
        assert_net_refused(&with_arcs(&[], arcs), 5, 46 + behind);
    }
    let all = [
        (TAKE, 0, 1),
        (TAKE, 2, 65_535),
        (CLEAR, 0, 0),
        (CLEAR, 1, 2),
        (GIVE, 0, 1),
        (GIVE, 1, 65_535),
    ];
    assert_eq!(read(&with_arcs(&all, &all)), Ok(5));
}

#[test]
fn heads_places_transitions() {
    assert_net_refused(&record(NET_HEAD, &[0, 0]), 4, 0);
    assert_net_refused(&record(NET_HEAD, &[1_217, 0]), 4, 0);
    assert_net_refused(&record(NET_HEAD, &[1_216, 0]), 1, 8);
    assert_net_refused(&record(NET_HEAD, &[1, 129]), 4, 0);
    assert_net_refused(&record(PLACE, &[0]), 2, 0);
    assert_net_refused(&[10, 0, 32, 0, 1, 0, 0, 0, 0, 0], 3, 0);
    assert_net_refused(&record(NET_HEAD, &[1, 0]), 1, 8);
    // No transitions: any byte more is 6.
    let b = net_of(&examples::b());
    assert_eq!(read(&b), Ok(3));
    for more in [1, 3, 4, 8] {
        let mut longer = b.clone();
        longer.extend([8, 0, 35, 0, 0, 0, 1, 0].iter().take(more));
        assert_net_refused(&longer, 6, 26);
    }
    let labelled = |fields: [[u16; 3]; 2]| {
        let mut bytes = record(NET_HEAD, &[1, 2]);
        bytes.extend(record(PLACE, &[65_535]));
        bytes.extend(record(TRANSITION, &fields[0]));
        bytes.extend(record(TRANSITION, &fields[1]));
        bytes
    };
    assert_eq!(read(&labelled([[3, 0, 0], [3, 0, 65_535]])), Ok(3));
    assert_eq!(read(&labelled([[0, 5, 5], [63, 0, 0]])), Ok(3));
    assert_net_refused(&labelled([[64, 0, 0], [64, 0, 0]]), 5, 14);
    assert_net_refused(&labelled([[3, 2, 1], [3, 0, 0]]), 5, 14);
    assert_net_refused(&labelled([[3, 0, 0], [2, 0, 0]]), 5, 24);
    assert_net_refused(&labelled([[3, 0, 0], [64, 0, 0]]), 5, 24);
    let mut wrong_length = labelled([[3, 0, 0], [3, 0, 0]]);
    wrong_length[24] = 8;
    assert_net_refused(&wrong_length, 3, 24);
    // A due arc behind the last transition is checked as any record.
    let mut arc = labelled([[3, 0, 0], [3, 0, 0]]);
    arc.extend([6, 0, 37, 0, 0, 0]);
    assert_net_refused(&arc, 3, 34);
}

#[test]
fn encoded_nets_read_back() {
    let mut random = Random::new(1);
    let mut longest = 0;
    for _ in 0..2_000 {
        let file = generate::diagram(&mut random);
        let diagram = diagram::parse(&file).expect("accepted diagram");
        let net = table(&diagram);
        let bytes = net_of(&file);
        assert_eq!(net.encode(), bytes);
        assert_eq!(parse(&bytes), Ok(net));
        longest = longest.max(bytes.len());
    }
    assert!(longest > 3_000 && longest <= 20_660, "{longest}");
    for _ in 0..2_000 {
        let bytes = generate::foreign_net(&mut random);
        let net = parse(&bytes).expect("accepted net");
        assert_eq!(net.encode(), bytes);
    }
}

/// Accepted damaged nets still encode to themselves; refused ones alter
/// nothing; all numbers from 1 to 6 occur.
#[test]
fn damaged_nets() {
    let mut random = Random::new(2);
    let mut seen = [0; 7];
    for _ in 0..5_000 {
        let bytes = generate::damaged_net(&mut random);
        match parse(&bytes) {
            Ok(net) => {
                seen[0] += 1;
                assert_eq!(net.encode(), bytes);
            }
            Err(refusal) => {
                seen[refusal.number as usize] += 1;
                assert_net_refused(&bytes, refusal.number, refusal.value);
            }
        }
    }
    assert!(seen.iter().all(|count| *count > 20), "{seen:?}");
}

/// "Step r fires the lowest-numbered enabled transition labelled r": if its
/// clock is below a, 24, even if a later one could fire.
#[test]
fn lowest_enabled_transition_counts() {
    let mut net = Net::new(vec![1, 1]);
    net.add_transition(5, 0, 9);
    net.add_arc(Arc::Take {
        place: 0,
        weight: 2,
    });
    net.add_transition(5, 4, 9);
    net.add_arc(Arc::Take {
        place: 0,
        weight: 1,
    });
    net.add_transition(5, 0, 9);
    net.add_arc(Arc::Take {
        place: 1,
        weight: 1,
    });
    let bytes = net.encode();
    let mut state = fresh_net(&bytes);
    assert_eq!(net_step::step(&bytes, &mut state, 1, 5), refused(24, 4));
    assert_eq!(net_step::step(&bytes, &mut state, 2, 3), Ok(0));
    assert_eq!(state, [1, 1, 0, 3, 3]);
    assert_eq!(net_step::step(&bytes, &mut state, 1, 5), refused(24, 1));
    assert_eq!(net_step::step(&bytes, &mut state, 2, 1), Ok(0));
    assert_eq!(net_step::step(&bytes, &mut state, 1, 5), Ok(0));
    assert_eq!(state, [0, 1, 0, 0, 4]);
    assert_eq!(net_step::step(&bytes, &mut state, 1, 5), Ok(0));
    assert_eq!(state, [0, 0, 0, 0, 0]);
    assert_eq!(net_step::step(&bytes, &mut state, 1, 5), refused(22, 5));
    assert_eq!(net_step::step(&bytes, &mut state, 1, 4), refused(22, 4));
}

/// "Another transition keeps its clock if it is enabled after takes and
/// clears": judged between clears and gives.
#[test]
fn clocks_after_a_firing() {
    let mut net = Net::new(vec![1, 1, 2]);
    net.add_transition(0, 0, 9);
    net.add_arc(Arc::Take {
        place: 0,
        weight: 1,
    });
    net.add_arc(Arc::Clear { first: 1, last: 1 });
    net.add_arc(Arc::Give {
        place: 0,
        weight: 1,
    });
    net.add_arc(Arc::Give {
        place: 1,
        weight: 1,
    });
    for place in 0..3 {
        net.add_transition(1 + place, 0, 9);
        net.add_arc(Arc::Take { place, weight: 1 });
    }
    net.add_transition(9, 0, 9);
    let bytes = net.encode();
    let mut state = fresh_net(&bytes);
    assert_eq!(net_step::step(&bytes, &mut state, 2, 7), Ok(0));
    assert_eq!(net_step::step(&bytes, &mut state, 1, 0), Ok(0));
    // Fired: 0. Taken and cleared in between: 0, though given again. Others
    // keep theirs.
    assert_eq!(state, [1, 1, 2, 0, 0, 0, 7, 7]);
    // Fired and still enabled: 0 all the same.
    assert_eq!(net_step::step(&bytes, &mut state, 1, 3), Ok(0));
    assert_eq!(state, [1, 1, 1, 0, 0, 0, 0, 7]);
}

/// Clocks of transitions that are not enabled are neither raised nor checked
/// nor zeroed by a wait; a clock above b does not stop a firing.
#[test]
fn odd_clocks() {
    let mut net = Net::new(vec![0, 1]);
    net.add_transition(0, 0, 2);
    net.add_arc(Arc::Take {
        place: 0,
        weight: 1,
    });
    net.add_transition(1, 0, 2);
    net.add_arc(Arc::Take {
        place: 1,
        weight: 1,
    });
    let bytes = net.encode();
    let mut state = [0, 1, 65_535, 0];
    assert_eq!(net_step::step(&bytes, &mut state, 2, 2), Ok(0));
    assert_eq!(state, [0, 1, 65_535, 2]);
    let mut state = [0, 1, 0, 65_535];
    assert_eq!(
        net_step::step(&bytes, &mut state, 2, 65_535),
        refused(26, 0)
    );
    assert_eq!(net_step::step(&bytes, &mut state, 1, 1), Ok(0));
    assert_eq!(state, [0, 0, 0, 0]);
}

/// 25 names the lowest place whose sum passes 65,535, after takes and clears.
#[test]
fn sums_too_large() {
    let mut net = Net::new(vec![65_535, 65_535, 65_535, 65_535]);
    net.add_transition(0, 0, 0);
    net.add_arc(Arc::Take {
        place: 0,
        weight: 1,
    });
    net.add_arc(Arc::Clear { first: 1, last: 1 });
    for place in 0..4 {
        net.add_arc(Arc::Give { place, weight: 1 });
    }
    let bytes = net.encode();
    let mut state = fresh_net(&bytes);
    assert_eq!(net_step::step(&bytes, &mut state, 1, 0), refused(25, 2));
    assert_eq!(state, fresh_net(&bytes));
    state[2] = 0;
    assert_eq!(net_step::step(&bytes, &mut state, 1, 0), refused(25, 3));
    state[3] = 65_534;
    assert_eq!(net_step::step(&bytes, &mut state, 1, 0), Ok(0));
    assert_eq!(state, [65_535, 1, 1, 65_535, 0]);
}

/// Any words are a net state; a refused move alters none of them.
#[test]
fn any_net_state_moves() {
    let mut random = Random::new(3);
    let mut seen = std::collections::BTreeMap::new();
    for _ in 0..1_500 {
        let bytes = generate::foreign_net(&mut random);
        let length = read(&bytes).expect("accepted net") as usize;
        for _ in 0..10 {
            let state = generate::net_state(&mut random, length);
            let code = random.pick(&[0, 1, 1, 1, 2, 2, 3], 1);
            let argument = random.word();
            let mut lent = state.clone();
            let answer = net_step::step(&bytes, &mut lent, code, argument);
            let number = answer.map_or_else(|refusal| refusal.number, |_| 0);
            *seen.entry(number).or_insert(0) += 1;
            assert!(answer.is_ok() || lent == state);
        }
    }
    let numbers: Vec<u32> = seen.keys().copied().collect();
    assert_eq!(numbers, [0, 21, 22, 24, 25, 26], "{seen:?}");
}
