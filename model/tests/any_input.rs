//! No input makes a call panic, and no refusal alters what was lent.

mod common;

use model::generate::{self, Random};
use model::{
    annex, bus, diagram, diagram_step, editions, image, logs, net, net_step, transitions, translate,
};
use std::collections::BTreeMap;

/// Numbers of refusals and how often they came; 0 is accepted.
type Seen = BTreeMap<u32, usize>;

fn note(seen: &mut Seen, answer: model::Answer) {
    let number = answer.map_or_else(|refusal| refusal.number, |_| 0);
    *seen.entry(number).or_insert(0) += 1;
}

fn assert_saw(seen: &Seen, numbers: &[u32], at_least: usize) {
    for number in numbers {
        let times = seen.get(number).copied().unwrap_or(0);
        assert!(times >= at_least, "{number} in {seen:?}");
    }
}

#[test]
fn generated_diagrams_are_accepted() {
    let mut random = Random::new(30);
    let mut rows_seen = BTreeMap::new();
    for _ in 0..5_000 {
        let file = generate::diagram(&mut random);
        let diagram = diagram::parse(&file).expect("accepted diagram");
        *rows_seen.entry(diagram.rows.len()).or_insert(0) += 1;
    }
    assert!(rows_seen.contains_key(&1) && rows_seen.contains_key(&64));
    assert!(rows_seen.len() > 55, "{rows_seen:?}");
}

#[test]
fn damaged_diagrams() {
    let mut random = Random::new(31);
    let mut seen = Seen::new();
    for _ in 0..20_000 {
        let file = generate::damaged_diagram(&mut random);
        let read = diagram::read(&file);
        note(&mut seen, read);
        let needed = translate::net_of(&file).map_or(100, |net| net.len());
        let mut area = vec![6; needed + 9];
        let translated = translate::translate(&file, &mut area);
        let uses = diagram::uses(&file, random.between(0, 70));
        assert!(uses.len() <= 96);
        match read {
            Ok(_) => {
                let length = translated.expect("translated") as usize;
                assert!(net::read(&area[..length]).is_ok());
                assert!(area[length..].iter().all(|byte| *byte == 6));
            }
            Err(refusal) => {
                assert_eq!(translated, Err(refusal));
                assert!(area.iter().all(|byte| *byte == 6));
                let text = format!("refused {} {}\n", refusal.number, refusal.value);
                assert_eq!(annex::annex(&file), text);
            }
        }
    }
    let numbers = [0, 1, 2, 3, 4, 5, 6, 7, 8, 9, 43, 44, 45, 48, 49, 50];
    assert_saw(&seen, &numbers, 50);
}

#[test]
fn any_diagram_state() {
    let mut random = Random::new(32);
    let (mut passing, mut odd) = (Seen::new(), Seen::new());
    for _ in 0..2_000 {
        let file = generate::diagram(&mut random);
        let state = generate::passing_state(&mut random, &file);
        assert!(image::image(&file, &state).is_some());
        try_moves(&mut random, &file, &state, &mut passing);
        let state = generate::odd_state(&mut random, &file);
        try_moves(&mut random, &file, &state, &mut odd);
    }
    assert_saw(&passing, &[0, 21, 22, 23, 24, 25, 26], 50);
    assert!(!passing.contains_key(&20));
    assert_saw(&odd, &[0, 20, 21, 22], 50);
}

/// Some moves at one state.
fn try_moves(random: &mut Random, file: &[u8], state: &[u16], seen: &mut Seen) {
    let rows = diagram::parse(file).expect("accepted diagram").rows.len();
    for _ in 0..20 {
        let code = random.pick(&[0, 1, 1, 1, 1, 1, 1, 2, 2, 3], 1);
        let argument = if random.chance(80) {
            random.below(rows + 1) as u16
        } else {
            random.word()
        };
        let mut lent = state.to_vec();
        let answer = diagram_step::step(file, &mut lent, code, argument);
        assert!(answer.is_ok() || lent == state);
        assert_offer_is_step(random, file, state, (code, argument), &lent, answer);
        note(seen, answer);
        // What a passing state goes to passes again.
        if answer.is_ok() {
            let again = diagram_step::step(file, &mut lent, 0, 0);
            assert_eq!(again, common::refused(21, 0));
        }
    }
}

/// The leader's call does what the step does, and no more unless it counts.
fn assert_offer_is_step(
    random: &mut Random,
    file: &[u8],
    state: &[u16],
    (code, argument): (u16, u16),
    stepped: &[u16],
    answer: model::Answer,
) {
    let mut area = vec![6; random.below(20)];
    let before = area.clone();
    let count = random.pick(&[0, 5, u32::MAX - 1, u32::MAX], 0);
    let mut lent = state.to_vec();
    let offered = bus::offer(file, &mut lent, count, 3, code, argument, &mut area);
    match (answer, offered) {
        (Err(refusal), _) => assert_eq!(offered, Err(refusal)),
        (Ok(_), Ok(number)) => {
            assert_eq!(number, count + 1);
            assert_eq!(lent, stepped);
            let telegram = bus::Telegram::decode(&area[..14]).expect("telegram");
            assert_eq!((telegram.number, telegram.station), (number, 3));
            assert_eq!((telegram.code, telegram.argument), (code, argument));
            assert_eq!(area[14..], before[14..]);
        }
        (Ok(_), Err(refusal)) => {
            let expected = if count == u32::MAX {
                (27, count)
            } else {
                (10, 14)
            };
            assert_eq!((refusal.number, refusal.value), expected);
        }
    }
    if offered.is_err() {
        assert_eq!((lent.as_slice(), area), (state, before));
    }
}

#[test]
fn random_bytes() {
    let mut random = Random::new(33);
    for _ in 0..20_000 {
        let length = random.below(60);
        let mut bytes = random.bytes(length);
        // Small words get further than bytes of any value.
        bytes
            .iter_mut()
            .skip(1)
            .step_by(2)
            .for_each(|byte| *byte &= 1);
        let length = random.below(40);
        let mut state: Vec<u16> = (0..length).map(|_| random.word()).collect();
        let before = state.clone();
        let mut area = [6; 20];
        let (mut at, mut station) = (8, 9);
        let (code, argument) = (random.word(), random.word());
        let answers = [
            diagram::read(&bytes),
            diagram_step::fresh(&bytes, &mut state),
            diagram_step::step(&bytes, &mut state, code, argument),
            transitions::transition(&bytes, &state, argument),
            translate::translate(&bytes, &mut area),
            bus::offer(&bytes, &mut state, 1, 1, code, argument, &mut area),
            net::read(&bytes),
            net_step::fresh(&bytes, &mut state),
            net_step::step(&bytes, &mut state, code, argument),
            bus::take(&bytes, &mut state, 1, argument, &bytes),
            logs::log_starts(&bytes, &bytes, argument, &mut at),
            editions::telegrams_up(&bytes, argument, 1, &mut area),
            editions::telegrams_down(&bytes, &mut area, &mut station, &mut at),
        ];
        if answers.iter().all(|answer| answer.is_err()) {
            assert_eq!((state, area, at, station), (before, [6; 20], 8, 9));
        }
        annex::annex(&bytes);
    }
}
