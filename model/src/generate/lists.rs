//! Lists of calls on the bus.

use super::states::likely_move;
use super::Random;
use crate::bus::Telegram;
use crate::diagram::{parse, Diagram};
use crate::history::{Call, History};

/// A list as demand 3 has it: any offers, and a bus that loses, repeats,
/// reorders and delays telegrams and hands over rubbish. Empty for a refused
/// file.
pub fn bus_list(random: &mut Random, file: &[u8], station: u16, length: usize) -> Vec<Call> {
    let Ok(diagram) = parse(file) else {
        return Vec::new();
    };
    let mut history = History::new(&diagram, station);
    let offer_percent = random.pick(&[30, 50, 70], 50);
    let mut calls = Vec::new();
    for _ in 0..length {
        let call = if random.chance(offer_percent) {
            random_offer(random, &diagram, history.last())
        } else {
            Call::Hand {
                bytes: handed_bytes(random, &history, station),
            }
        };
        history.call(&diagram, &call);
        calls.push(call);
    }
    calls
}

/// An offer: two in three likely, one of any code, row or ticks; any area.
fn random_offer(random: &mut Random, diagram: &Diagram, state: &[u16]) -> Call {
    let (code, argument) = if random.chance(67) {
        likely_move(random, diagram, state)
    } else {
        let code = random.pick(&[0, 1, 1, 1, 2, 2, 3, 65_535], 1);
        let argument = if random.chance(50) {
            random.below(diagram.rows.len() + 2) as u16
        } else {
            random.word()
        };
        (code, argument)
    };
    let area_length = if random.chance(15) {
        random.below(14)
    } else {
        14 + random.below(4)
    };
    Call::Offer {
        code,
        argument,
        area: random.bytes(area_length),
    }
}

/// The next telegram, any earlier one, or rubbish.
fn handed_bytes(random: &mut Random, history: &History, station: u16) -> Vec<u8> {
    let next = history.telegrams.get(history.taken as usize);
    let any = history.telegrams.get(random.below(history.telegrams.len()));
    match (random.below(10), next, any) {
        (0..=4, Some(telegram), _) => telegram.encode().to_vec(),
        (5..=7, _, Some(telegram)) => telegram.encode().to_vec(),
        _ => rubbish(random, history, station),
    }
}

/// Bytes that are no telegram of this station, most of them nearly one.
fn rubbish(random: &mut Random, history: &History, station: u16) -> Vec<u8> {
    let telegram = Telegram {
        number: history.taken.wrapping_add(random.between(0, 2).into()),
        station: station.wrapping_add(random.between(1, u16::MAX)),
        code: random.between(0, 3),
        argument: random.between(0, 9),
    };
    let own = Telegram {
        station,
        ..telegram
    };
    let mut bytes = own.encode().to_vec();
    match random.below(6) {
        0 => bytes = telegram.encode().to_vec(),
        1 => bytes[0] ^= 1 << random.below(8),
        2 => bytes[2] ^= 1 << random.below(8),
        3 => bytes.truncate(random.below(14)),
        4 => bytes.push(0),
        _ => {
            let length = random.below(20);
            bytes = random.bytes(length);
        }
    }
    // Random bytes might be a telegram of this station after all.
    if Telegram::decode(&bytes).is_some_and(|found| found.station == station) {
        bytes.clear();
    }
    bytes
}
