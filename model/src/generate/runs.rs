//! Runs of telegrams of both editions, whole and with something done to them.

use super::damage::damage_bytes;
use super::diagrams::diagram;
use super::lists::bus_list;
use super::Random;
use crate::bus::{Telegram, TELEGRAM_LENGTH};
use crate::editions::{OldTelegram, OLD_TELEGRAM_LENGTH};
use crate::history::history;

/// A number for the first telegram of a run: few from 0, from a byte's end, or
/// from the last that there is; or any.
pub fn first_number(random: &mut Random) -> u32 {
    let near = random.below(12) as u32;
    match random.below(8) {
        0 => 0,
        1 | 2 => u32::MAX - near,
        3 => random.pick(&[0xFF, 0xFFFF, 0xFF_FFFF], 0) - near,
        4 => random.draw() as u32,
        _ => near,
    }
}

/// A run of the old edition, often with something done to it.
pub fn old_run(random: &mut Random) -> Vec<u8> {
    let telegrams = telegram_count(random);
    let old = (0..telegrams).map(|_| any_old_telegram(random).encode());
    let mut run: Vec<u8> = old.flatten().collect();
    if random.chance(30) {
        let other = any_telegram(random).encode();
        damage_run(random, &mut run, OLD_TELEGRAM_LENGTH, &other);
    }
    run
}

/// A run of the new edition, of one station and with rising numbers, more often
/// than not with something done to it. Numbers may pass the last and begin at 0
/// again.
pub fn run(random: &mut Random) -> Vec<u8> {
    let mut telegrams = match random.below(20) {
        0 => leaders_telegrams(random),
        _ => numbered_telegrams(random),
    };
    if random.chance(50) {
        disturb(random, &mut telegrams);
    }
    let mut run: Vec<u8> = telegrams.iter().flat_map(Telegram::encode).collect();
    if random.chance(25) {
        let other = any_old_telegram(random).encode();
        damage_run(random, &mut run, TELEGRAM_LENGTH, &other);
    }
    run
}

/// Few telegrams, none, or some hundred now and then.
fn telegram_count(random: &mut Random) -> usize {
    match random.below(40) {
        0 => random.below(600),
        1 | 2 => 0,
        _ => 1 + random.below(12),
    }
}

fn any_old_telegram(random: &mut Random) -> OldTelegram {
    OldTelegram {
        code: random.word(),
        argument: random.word(),
    }
}

fn any_telegram(random: &mut Random) -> Telegram {
    let OldTelegram { code, argument } = any_old_telegram(random);
    Telegram {
        number: first_number(random),
        station: random.word(),
        code,
        argument,
    }
}

fn numbered_telegrams(random: &mut Random) -> Vec<Telegram> {
    let Telegram {
        mut number,
        station,
        ..
    } = any_telegram(random);
    let mut telegrams = Vec::new();
    for _ in 0..telegram_count(random) {
        telegrams.push(Telegram {
            number,
            station,
            ..any_telegram(random)
        });
        number = number.wrapping_add(1);
    }
    telegrams
}

/// What a leader wrote, its accepted offers one after another.
fn leaders_telegrams(random: &mut Random) -> Vec<Telegram> {
    let (file, station) = (diagram(random), random.word());
    let calls = bus_list(random, &file, station, 40);
    history(&file, station, &calls).map_or_else(|_| Vec::new(), |history| history.telegrams)
}

/// Something done to the telegrams of a run: one repeated, lost, exchanged with
/// the next, numbered or stationed anew, or all from one on.
fn disturb(random: &mut Random, telegrams: &mut Vec<Telegram>) {
    let at = random.below(telegrams.len());
    let from = telegrams.get_mut(at..).unwrap_or_default();
    match (random.below(8), from) {
        (0, [one, ..]) => {
            let repeated = *one;
            telegrams.insert(at, repeated);
        }
        (1, [_, ..]) => drop(telegrams.remove(at)),
        (2, [one, next, ..]) => std::mem::swap(one, next),
        (3, [one, ..]) => one.number = other_number(random, one.number),
        (4, from) => {
            let by = random.pick(&[1, 2, 256, 65_536, u32::MAX, u32::MAX - 1], 1);
            for telegram in from {
                telegram.number = telegram.number.wrapping_add(by);
            }
        }
        (5, [one, ..]) => one.station = other_station(random, one.station),
        (6, from) => {
            let station = random.word();
            for telegram in from {
                telegram.station = station;
            }
        }
        (_, from) => {
            // Both off, at one telegram or at two.
            if let [one, rest @ ..] = from {
                one.station = other_station(random, one.station);
                let next = if random.chance(50) {
                    rest.first_mut()
                } else {
                    None
                };
                let misnumbered = next.unwrap_or(one);
                misnumbered.number = other_number(random, misnumbered.number);
            }
        }
    }
}

/// A number near this one, one of its bits the other way, 0, or any.
fn other_number(random: &mut Random, number: u32) -> u32 {
    match random.below(5) {
        0 => number.wrapping_sub(1),
        1 => number.wrapping_add(1),
        2 => number ^ 1 << random.below(32),
        3 => 0,
        _ => random.draw() as u32,
    }
}

/// A station with one bit the other way, its bytes exchanged, or any.
fn other_station(random: &mut Random, station: u16) -> u16 {
    match random.below(3) {
        0 => station ^ 1 << random.below(16),
        1 => station.swap_bytes(),
        _ => random.word(),
    }
}

/// Something done to the bytes of a run: a telegram's length or kind off, bytes
/// too few or too many behind it or within it, one of the other edition in it.
fn damage_run(random: &mut Random, run: &mut Vec<u8>, telegram_length: usize, other: &[u8]) {
    let at = telegram_length * random.below(run.len() / telegram_length);
    let bytes = random.below(telegram_length - 1) + 1;
    match random.below(7) {
        0 => {
            let flipped = 1 << random.below(8);
            if let Some(byte) = run.get_mut(at + random.below(4)) {
                *byte ^= flipped;
            }
        }
        1 => {
            let value: u16 = random.pick(&[7, 8, 9, 13, 14, 15, 46, 47, 48, 49], 0);
            let word = at + 2 * random.below(2);
            if let Some(field) = run.get_mut(word..word + 2) {
                field.copy_from_slice(&value.to_le_bytes());
            }
        }
        2 => run.truncate(run.len().saturating_sub(bytes)),
        3 => run.extend(random.bytes(bytes)),
        4 => {
            let end = run.len().min(at + bytes);
            run.drain(at..end);
        }
        5 => drop(run.splice(at..at, other.iter().copied())),
        _ => damage_bytes(random, run),
    }
}
