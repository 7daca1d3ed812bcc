//! Request 5 of document 02 through the proved functions: both ways, first and last numbers, which refusal comes first, areas at their edges,
//! runs of many telegrams.

mod common;

use common::{refused, same};
use compare::calls;
use compare::met::Met;
use effbd::{telegrams_down, telegrams_up, Answer};
use model::bus::{Telegram, TELEGRAM_LENGTH};
use model::diagram_step::STEP;
use model::editions::{OldTelegram, OLD_TELEGRAM_LENGTH};

/// Step 0, then wait 300, of the old edition.
const OLD: [u8; 16] = [8, 0, 47, 0, 1, 0, 0, 0, 8, 0, 47, 0, 2, 0, 44, 1];

/// The same from station 0x0102, numbered 65,535 and 65,536.
const NEW: [u8; 28] = [
    14, 0, 48, 0, 255, 255, 0, 0, 2, 1, 1, 0, 0, 0, //
    14, 0, 48, 0, 0, 0, 1, 0, 2, 1, 2, 0, 44, 1,
];

const STATION: u16 = 0x0102;

/// The answer, and the area afterwards, whose bytes were 6; as the model has them.
fn up(old: &[u8], first: u32, area_length: usize) -> (Answer, Vec<u8>) {
    let mut area = vec![6; area_length];
    let met = &mut Met::default();
    same(calls::telegrams_up(met, old, STATION, first, &area));
    let answer = telegrams_up(old, STATION, first, &mut area);
    (answer, area)
}

/// The answer, the area afterwards, whose bytes were 6, and station and first number, which were 7 and 8; as the model has them.
fn down(run: &[u8], area_length: usize) -> (Answer, Vec<u8>, u16, u32) {
    let (mut area, mut station, mut first) = (vec![6; area_length], 7, 8);
    let met = &mut Met::default();
    same(calls::telegrams_down(met, run, &area, (station, first)));
    let answer = telegrams_down(run, &mut area, &mut station, &mut first);
    (answer, area, station, first)
}

/// Refused, in an area long enough and in none; nothing lent is altered.
fn assert_up_refused(old: &[u8], first: u32, number: u32, value: u32) {
    for length in [0, 2 * old.len()] {
        let expected = (refused(number, value), vec![6; length]);
        assert_eq!(up(old, first, length), expected);
    }
}

/// The same downward.
fn assert_down_refused(run: &[u8], number: u32, value: u32) {
    for length in [0, run.len()] {
        let expected = (refused(number, value), vec![6; length], 7, 8);
        assert_eq!(down(run, length), expected);
    }
}

/// Telegrams of these stations and numbers.
fn run_of(telegrams: &[(u16, u32)]) -> Vec<u8> {
    let telegrams = telegrams.iter().map(|(station, number)| Telegram {
        number: *number,
        station: *station,
        code: STEP,
        argument: 5,
    });
    telegrams.flat_map(|telegram| telegram.encode()).collect()
}

#[test]
fn two_setpoints_both_ways() {
    assert_eq!(up(&OLD, 65_535, 28), (Ok(28), NEW.to_vec()));
    assert_eq!(down(&NEW, 16), (Ok(16), OLD.to_vec(), STATION, 65_535));
}

/// Every length of area up to one longer than needed: just the result, or nothing.
#[test]
fn areas_at_their_edges() {
    for length in 0..28 {
        assert_eq!(up(&OLD, 65_535, length), (refused(10, 28), vec![6; length]));
    }
    assert_eq!(up(&OLD, 65_535, 29), (Ok(28), [&NEW[..], &[6]].concat()));
    for length in 0..16 {
        let expected = (refused(10, 16), vec![6; length], 7, 8);
        assert_eq!(down(&NEW, length), expected);
    }
    let expected = (Ok(16), [&OLD[..], &[6]].concat(), STATION, 65_535);
    assert_eq!(down(&NEW, 17), expected);
}

#[test]
fn an_empty_run_is_empty() {
    for length in [0, 3] {
        assert_eq!(up(&[], u32::MAX, length), (Ok(0), vec![6; length]));
        assert_eq!(down(&[], length), (Ok(0), vec![6; length], 0, 0));
    }
}

#[test]
fn first_and_last_numbers() {
    let expected = (Ok(14), run_of(&[(STATION, 0)]));
    let old = OldTelegram {
        code: STEP,
        argument: 5,
    };
    let old = [old.encode(); 3].concat();
    assert_eq!(up(&old[..8], 0, 14), expected);
    let last = run_of(&[(STATION, u32::MAX - 1), (STATION, u32::MAX)]);
    assert_eq!(up(&old[..16], u32::MAX - 1, 28), (Ok(28), last.clone()));
    assert_eq!(
        down(&last, 16),
        (Ok(16), old[..16].to_vec(), STATION, u32::MAX - 1)
    );
    assert_up_refused(&old[..16], u32::MAX, 46, 1);
    assert_up_refused(&old, u32::MAX - 1, 46, 2);
    for next in [0, 1, u32::MAX] {
        assert_down_refused(&run_of(&[(3, u32::MAX), (3, next)]), 46, 1);
    }
}

/// Each bit of a number and of a station counts, and each of a telegram's length and kind.
#[test]
fn one_bit_off() {
    for bit in 0..32 {
        let run = run_of(&[(3, 5), (3, 6 ^ 1 << bit)]);
        assert_down_refused(&run, 46, 1);
    }
    for bit in 0..16 {
        assert_down_refused(&run_of(&[(3, 5), (3 ^ 1 << bit, 6)]), 47, 1);
    }
    for bit in 0..32 {
        let mut off = OLD;
        off[8 + bit / 8] ^= 1 << (bit % 8);
        assert_up_refused(&off, 9, 30, 1);
        let mut off = NEW;
        off[14 + bit / 8] ^= 1 << (bit % 8);
        assert_down_refused(&off, 30, 1);
    }
}

#[test]
fn which_refusal_comes_first() {
    // At one telegram 30, 46, 47.
    let mut off = [OLD, OLD].concat();
    off[8] ^= 1;
    assert_up_refused(&off, u32::MAX, 30, 1);
    let both = run_of(&[(3, 5), (4, 7)]);
    assert_down_refused(&both, 46, 1);
    let mut off = both.clone();
    off[14] ^= 1;
    assert_down_refused(&off, 30, 1);
    // Else the first telegram that is off; bytes left over are one.
    let mut off = [OLD, OLD].concat();
    off[16] ^= 1;
    assert_up_refused(&off, u32::MAX, 46, 1);
    assert_up_refused(&off[..17], u32::MAX, 46, 1);
    assert_up_refused(&off[..9], u32::MAX, 30, 1);
    assert_down_refused(&run_of(&[(3, 5), (4, 6), (4, 9)]), 47, 1);
    assert_down_refused(&[&both[..], &[14]].concat(), 46, 1);
    assert_down_refused(&[&NEW[..], &[14]].concat(), 30, 2);
}

/// Numbers from 0 on past 16 bits, and each refusal at the last telegram of many.
#[test]
fn many_telegrams() {
    const MANY: u32 = 100_000;
    let setpoints = (0..MANY).map(|at| OldTelegram {
        code: at as u16,
        argument: (at >> 2) as u16,
    });
    let old: Vec<u8> = setpoints.flat_map(|setpoint| setpoint.encode()).collect();
    let (answer, new) = up(&old, 0, MANY as usize * TELEGRAM_LENGTH);
    assert_eq!(answer, Ok(1_400_000));
    let last = Telegram::decode(&new[new.len() - TELEGRAM_LENGTH..]);
    assert_eq!(last.map(|telegram| telegram.number), Some(MANY - 1));
    let room = MANY as usize * OLD_TELEGRAM_LENGTH;
    assert_eq!(down(&new, room), (Ok(800_000), old.clone(), STATION, 0));
    assert_up_refused(&old, u32::MAX - MANY + 2, 46, MANY - 1);
    assert_up_refused(&[&old[..], &[8]].concat(), 0, 30, MANY);
    for (at, number) in [(4, 46), (8, 47), (0, 30)] {
        let mut off = new.clone();
        off[14 * (MANY as usize - 1) + at] ^= 1;
        assert_down_refused(&off, number, MANY - 1);
    }
}
