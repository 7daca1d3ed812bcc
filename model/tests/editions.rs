//! Request 5 of document 02: runs of telegrams between the editions.

mod common;

use common::refused;
use model::bus::{self, Telegram};
use model::diagram_step::{STEP, WAIT};
use model::editions::{self, OldTelegram};
use model::examples;
use model::generate::{self, Random};
use model::refusal::{refusal, returned, AREA_SHORT};
use model::Answer;
use std::collections::BTreeMap;

/// Step 0, then wait 300, of the old edition.
const OLD: [u8; 16] = [8, 0, 47, 0, 1, 0, 0, 0, 8, 0, 47, 0, 2, 0, 44, 1];

/// The same from station 0x0102, numbered 65,535 and 65,536.
const NEW: [u8; 28] = [
    14, 0, 48, 0, 255, 255, 0, 0, 2, 1, 1, 0, 0, 0, //
    14, 0, 48, 0, 0, 0, 1, 0, 2, 1, 2, 0, 44, 1,
];

/// The answer, and the area afterwards, whose bytes were 6.
fn up(old: &[u8], first: u32, area_length: usize) -> (Answer, Vec<u8>) {
    let mut area = vec![6; area_length];
    let answer = editions::telegrams_up(old, 0x0102, first, &mut area);
    (answer, area)
}

/// The answer, the area afterwards, whose bytes were 6, and station and first
/// number, which were 7 and 8.
fn down(run: &[u8], area_length: usize) -> (Answer, Vec<u8>, u16, u32) {
    let mut area = vec![6; area_length];
    let (mut station, mut first) = (7, 8);
    let answer = editions::telegrams_down(run, &mut area, &mut station, &mut first);
    (answer, area, station, first)
}

/// Refused, in an area long enough and in none; nothing lent is altered.
fn assert_up_refused(old: &[u8], first: u32, number: u32, value: u32) {
    for length in [0, 60] {
        let expected = (refused(number, value), vec![6; length]);
        assert_eq!(up(old, first, length), expected, "{old:?} from {first}");
    }
}

/// The same downward.
fn assert_down_refused(run: &[u8], number: u32, value: u32) {
    for length in [0, 60] {
        let expected = (refused(number, value), vec![6; length], 7, 8);
        assert_eq!(down(run, length), expected, "{run:?}");
    }
}

/// So many telegrams of the old edition.
fn old_run(telegrams: usize) -> Vec<u8> {
    OLD[..8].repeat(telegrams)
}

/// Telegrams of these stations and numbers.
fn run_of(telegrams: &[(u16, u32)]) -> Vec<u8> {
    let bytes = telegrams.iter().map(|(station, number)| {
        let telegram = Telegram {
            number: *number,
            station: *station,
            code: STEP,
            argument: 5,
        };
        telegram.encode()
    });
    bytes.flatten().collect()
}

#[test]
fn two_setpoints_both_ways() {
    assert_eq!(up(&OLD, 65_535, 28), (Ok(28), NEW.to_vec()));
    assert_eq!(down(&NEW, 16), (Ok(16), OLD.to_vec(), 0x0102, 65_535));
}

/// Setpoints are carried over whatever they are, move or no move.
#[test]
fn any_setpoint() {
    let old = [8, 0, 47, 0, 255, 254, 253, 252];
    let new = [14, 0, 48, 0, 4, 3, 2, 1, 2, 1, 255, 254, 253, 252];
    assert_eq!(up(&old, 0x0102_0304, 14), (Ok(14), new.to_vec()));
    assert_eq!(down(&new, 8), (Ok(8), old.to_vec(), 0x0102, 0x0102_0304));
}

#[test]
fn bytes_beyond_the_result_are_kept() {
    let (answer, area) = up(&OLD, 65_535, 31);
    assert_eq!(
        (answer, &area[..28], &area[28..]),
        (Ok(28), &NEW[..], &[6; 3][..])
    );
    let (answer, area, ..) = down(&NEW, 19);
    assert_eq!(
        (answer, &area[..16], &area[16..]),
        (Ok(16), &OLD[..], &[6; 3][..])
    );
}

#[test]
fn an_empty_run_is_empty() {
    for first in [0, 5, u32::MAX] {
        assert_eq!(up(&[], first, 0), (Ok(0), vec![]));
        assert_eq!(up(&[], first, 3), (Ok(0), vec![6; 3]));
    }
    assert_eq!(down(&[], 0), (Ok(0), vec![], 0, 0));
    assert_eq!(down(&[], 3), (Ok(0), vec![6; 3], 0, 0));
}

#[test]
fn a_short_area() {
    for length in [0, 14, 27] {
        let expected = (refused(10, 28), vec![6; length]);
        assert_eq!(up(&OLD, 0, length), expected);
    }
    for length in [0, 8, 15] {
        let expected = (refused(10, 16), vec![6; length], 7, 8);
        assert_eq!(down(&NEW, length), expected);
    }
}

#[test]
fn numbers_upward_end_at_the_last() {
    let (answer, area) = up(&old_run(2), u32::MAX - 1, 28);
    let numbers = [&area[4..8], &area[18..22]];
    assert_eq!(answer, Ok(28));
    assert_eq!(numbers, [[254, 255, 255, 255], [255; 4]]);
    assert_eq!(up(&old_run(1), u32::MAX, 14).0, Ok(14));
    assert_up_refused(&old_run(2), u32::MAX, 46, 1);
    assert_up_refused(&old_run(4), u32::MAX - 1, 46, 2);
    // The first number may be 0.
    assert_eq!(up(&old_run(1), 0, 14).1[4..8], [0; 4]);
}

/// Size, length or kind off, in each of its bytes.
#[test]
fn no_telegram() {
    for byte in 0..4 {
        for index in 0..2 {
            let mut off = OLD;
            off[8 * index + byte] ^= 1;
            assert_up_refused(&off, 9, 30, index as u32);
            let mut off = NEW;
            off[14 * index + byte] ^= 1;
            assert_down_refused(&off, 30, index as u32);
        }
    }
    // Each edition turns away the other one's.
    assert_up_refused(&NEW, 9, 30, 0);
    assert_down_refused(&OLD, 30, 0);
}

/// Bytes that are no whole telegram are one more.
#[test]
fn bytes_left_over() {
    for cut in 1..8 {
        assert_up_refused(&OLD[..cut], 9, 30, 0);
        assert_up_refused(&OLD[..8 + cut], 9, 30, 1);
        assert_up_refused(&[&OLD[..], &OLD[..cut]].concat(), 9, 30, 2);
    }
    for cut in 1..14 {
        assert_down_refused(&NEW[..cut], 30, 0);
        assert_down_refused(&NEW[..14 + cut], 30, 1);
        assert_down_refused(&[&NEW[..], &NEW[..cut]].concat(), 30, 2);
    }
}

#[test]
fn numbers_downward_rise_by_one() {
    for (first, next) in [(5, 5), (5, 4), (5, 7), (5, 0), (65_535, 0), (u32::MAX, 0)] {
        assert_down_refused(&run_of(&[(3, first), (3, next)]), 46, 1);
    }
    // A number that comes back does not make up for the gap before it.
    assert_down_refused(&run_of(&[(3, 5), (3, 7), (3, 7), (3, 8)]), 46, 1);
    assert_down_refused(&run_of(&[(3, 5), (3, 6), (3, 6)]), 46, 2);
    // After the last number every one is refused.
    for next in [0, 1, u32::MAX] {
        let run = run_of(&[(3, u32::MAX - 1), (3, u32::MAX), (3, next)]);
        assert_down_refused(&run, 46, 2);
    }
    let (answer, _, station, first) = down(&run_of(&[(3, 0), (3, 1), (3, 2)]), 24);
    assert_eq!((answer, station, first), (Ok(24), 3, 0));
    let (answer, _, station, first) = down(&run_of(&[(0, u32::MAX - 1), (0, u32::MAX)]), 16);
    assert_eq!((answer, station, first), (Ok(16), 0, u32::MAX - 1));
}

#[test]
fn one_station_downward() {
    // In the low byte alone, in the high one alone.
    for station in [2, 0x0103, 0xFFFF, 0] {
        assert_down_refused(&run_of(&[(3, 5), (station, 6)]), 47, 1);
    }
    assert_down_refused(&run_of(&[(3, 5), (3, 6), (4, 7), (3, 8)]), 47, 2);
}

/// "At each telegram 30, 46, 47; the first telegram off decides."
#[test]
fn which_refusal_comes_first() {
    let mut off = old_run(3);
    off[8] ^= 1;
    // At one telegram 30 before 46.
    assert_up_refused(&off, u32::MAX, 30, 1);
    off[8] ^= 1;
    off[16] ^= 1;
    // 46 at a telegram, 30 at the next; also where that is but a part of one.
    assert_up_refused(&off, u32::MAX, 46, 1);
    assert_up_refused(&old_run(3)[..17], u32::MAX, 46, 1);
    assert_up_refused(&off, u32::MAX - 1, 30, 2);
    assert_up_refused(&old_run(2)[..9], u32::MAX, 30, 1);

    let both = run_of(&[(3, 5), (4, 7)]);
    assert_down_refused(&both, 46, 1);
    let mut off = both.clone();
    off[14] ^= 1;
    assert_down_refused(&off, 30, 1);
    assert_down_refused(&run_of(&[(3, 5), (4, 6), (4, 8)]), 47, 1);
    assert_down_refused(&run_of(&[(3, 5), (3, 7), (4, 8)]), 46, 1);
    assert_down_refused(&[&both[..], &[0]].concat(), 46, 1);
    assert_down_refused(&[&run_of(&[(3, 5), (4, 6)])[..], &[0]].concat(), 47, 1);
}

/// What a leader wrote, move by move, goes down and up again.
#[test]
fn a_leaders_telegrams() {
    let file = examples::a();
    let mut state = common::fresh(&file);
    let mut run = Vec::new();
    for (count, (code, argument)) in (0..).zip([(STEP, 0), (WAIT, 2), (STEP, 0)]) {
        let mut area = [0; 14];
        let offered = bus::offer(&file, &mut state, count, 0x0102, code, argument, &mut area);
        assert_eq!(offered, Ok(count + 1));
        run.extend(area);
    }
    let (answer, old, station, first) = down(&run, 24);
    assert_eq!((answer, station, first), (Ok(24), 0x0102, 1));
    assert_eq!(old[4..8], [1, 0, 0, 0]);
    assert_eq!(old[12..16], [2, 0, 2, 0]);
    assert_eq!(up(&old, first, 42), (Ok(42), run));
}

/// Values have 32 bits; of runs of gigabytes they stop at the last.
#[test]
fn values_stop_at_the_last() {
    assert_eq!(returned(u32::MAX as usize), u32::MAX);
    let needed = 14 * (u32::MAX as usize / 14 + 1);
    assert_eq!(returned(needed), u32::MAX);
    assert_eq!(
        Answer::Err(refusal(AREA_SHORT, needed)),
        refused(10, u32::MAX)
    );
}

/// "Up then down yields the old bytes; down then up, with that station and first
/// number, the new ones." And what is turned away has no way back: no station
/// and first number make that run of any old one.
#[test]
fn generated_runs_both_ways() {
    let mut random = Random::new(40);
    let mut seen = BTreeMap::new();
    for _ in 0..20_000 {
        let old = generate::old_run(&mut random);
        let (station, first) = (random.word(), generate::first_number(&mut random));
        let mut new = vec![0; old.len() / 8 * 14];
        let answer = editions::telegrams_up(&old, station, first, &mut new);
        note(&mut seen, "up", answer);
        if answer.is_ok() {
            let mut back = vec![0; old.len()];
            let (mut its_station, mut its_first) = (0, 0);
            let answer =
                editions::telegrams_down(&new, &mut back, &mut its_station, &mut its_first);
            assert_eq!((answer, &back), (Ok(old.len() as u32), &old));
            let added = if old.is_empty() {
                (0, 0)
            } else {
                (station, first)
            };
            assert_eq!((its_station, its_first), added);
        }

        let run = generate::run(&mut random);
        let mut old = vec![0; run.len() / 14 * 8];
        let (mut station, mut first) = (0, 0);
        let answer = editions::telegrams_down(&run, &mut old, &mut station, &mut first);
        note(&mut seen, "down", answer);
        let mut back = vec![0; run.len()];
        if answer.is_ok() {
            let answer = editions::telegrams_up(&old, station, first, &mut back);
            assert_eq!((answer, back), (Ok(run.len() as u32), run));
        } else {
            assert!(!comes_from_below(&run), "{run:?}");
        }
    }
    for (way, numbers) in [("up", &[0, 30, 46][..]), ("down", &[0, 30, 46, 47])] {
        for number in numbers {
            let times = seen.get(&(way, *number)).copied().unwrap_or(0);
            assert!(times >= 200, "{way} {number} in {seen:?}");
        }
    }
}

fn note(seen: &mut BTreeMap<(&'static str, u32), usize>, way: &'static str, answer: Answer) {
    let number = answer.map_or_else(|refusal| refusal.number, |_| 0);
    *seen.entry((way, number)).or_insert(0) += 1;
}

/// Whether the setpoints of a run, with station and number of its first
/// telegram, go up to just these bytes.
fn comes_from_below(run: &[u8]) -> bool {
    let Some(head) = run.get(..14).and_then(Telegram::decode) else {
        return run.is_empty();
    };
    let setpoints = run.chunks_exact(14).map(|bytes| OldTelegram {
        code: u16::from_le_bytes([bytes[10], bytes[11]]),
        argument: u16::from_le_bytes([bytes[12], bytes[13]]),
    });
    let old: Vec<u8> = setpoints.flat_map(|setpoint| setpoint.encode()).collect();
    let mut new = vec![0; run.len()];
    let answer = editions::telegrams_up(&old, head.station, head.number, &mut new);
    answer == Ok(run.len() as u32) && new == run
}
