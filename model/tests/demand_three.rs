//! Demand 3 on random diagrams and lists: a bus that loses, repeats, reorders
//! and delays telegrams, and also hands over rubbish.

mod common;

use common::refused;
use model::bus::Telegram;
use model::examples;
use model::generate::{self, Random};
use model::history::{claim, history, Call};

#[test]
fn on_random_lists() {
    let mut random = Random::new(20);
    let (mut added, mut taken, mut behind, mut refused_calls) = (0, 0, 0, 0);
    for _ in 0..250 {
        let file = generate::diagram(&mut random);
        let station = random.word();
        let length = random.below(80);
        let calls = generate::bus_list(&mut random, &file, station, length);
        assert_eq!(calls.len(), length);
        if let Err(text) = claim(&file, station, &calls) {
            panic!("{text}\n{calls:?}\n{}", model::annex::annex(&file));
        }
        let history = history(&file, station, &calls).expect("accepted diagram");
        assert_eq!(history.states.len() as u32, history.added() + 1);
        added += history.added();
        taken += history.taken;
        behind += u32::from(history.taken < history.added());
        refused_calls += history.counted.iter().filter(|counts| !**counts).count();
    }
    // The lists are worth something.
    assert!(added > 2_000 && taken > 1_000, "{added} {taken}");
    assert!(
        behind > 100 && refused_calls > 2_000,
        "{behind} {refused_calls}"
    );
}

fn offer(code: u16, argument: u16, area_length: usize) -> Call {
    Call::Offer {
        code,
        argument,
        area: vec![6; area_length],
    }
}

fn hand(number: u32, station: u16, code: u16, argument: u16) -> Call {
    let telegram = Telegram {
        number,
        station,
        code,
        argument,
    };
    Call::Hand {
        bytes: telegram.encode().to_vec(),
    }
}

/// One list on example A, its history worked out by hand.
#[test]
fn history_of_a_list() {
    let calls = [
        offer(1, 0, 14),     // adds state 1: running
        offer(1, 0, 14),     // 24
        offer(2, 3, 13),     // 10
        offer(2, 3, 20),     // adds state 2: clock 3
        hand(2, 8, 2, 3),    // 33
        hand(1, 9, 1, 0),    // 31
        hand(1, 8, 1, 0),    // taken
        hand(1, 8, 1, 0),    // 32
        offer(1, 0, 14),     // adds state 3: END ready
        hand(2, 8, 2, 3),    // taken
        offer(7, 7, 14),     // 21
        offer(2, 9, 65_536), // adds state 4: no clock runs
    ];
    let a = examples::a();
    assert_eq!(claim(&a, 8, &calls), Ok(()));
    let history = history(&a, 8, &calls).expect("accepted diagram");
    let expected = [
        [1, 0, 0, 0, 0, 0, 3],
        [2, 0, 0, 0, 0, 0, 2],
        [2, 0, 3, 0, 0, 0, 2],
        [0, 0, 0, 1, 0, 0, 2],
        [0, 0, 0, 1, 0, 0, 2],
    ];
    assert_eq!(history.states, expected);
    assert_eq!((history.added(), history.taken), (4, 2));
    let counted = [0, 3, 6, 8, 9, 11];
    for (number, counts) in history.counted.iter().enumerate() {
        assert_eq!(*counts, counted.contains(&number), "call {number}");
    }
}

/// The claim is not made for lists with forged telegrams.
#[test]
fn forged_telegrams_are_outside_the_claim() {
    let a = examples::a();
    let early = [hand(1, 8, 1, 0), offer(1, 0, 14)];
    assert!(claim(&a, 8, &early).is_err());
    let other_move = [offer(1, 0, 14), hand(1, 8, 2, 1)];
    assert!(claim(&a, 8, &other_move).is_err());
    let earlier = [offer(1, 0, 14), hand(1, 8, 1, 0)];
    assert_eq!(claim(&a, 8, &earlier), Ok(()));
}

/// A refused diagram has no history.
#[test]
fn refused_diagram() {
    let cut = &examples::a()[..33];
    assert!(claim(cut, 8, &[]).is_err());
    let refusal = history(cut, 8, &[]).err();
    assert_eq!(refusal.map_or(Ok(0), Err), refused(1, 30));
}
