//! "Bus ends": telegrams, the leader's call and the follower's call.

use crate::diagram;
use crate::diagram_step;
use crate::net_step;
use crate::records::{bytes_of, word, TELEGRAM};
use crate::refusal::{
    refusal, Answer, Refusal, AREA_SHORT, COUNT_FULL, NO_TELEGRAM, NUMBER_AHEAD, NUMBER_PAST,
    OTHER_STATION,
};

pub const TELEGRAM_LENGTH: usize = 14;

/// A telegram without its length and kind.
#[derive(Clone, Copy, PartialEq, Eq, Debug)]
pub struct Telegram {
    pub number: u32,
    pub station: u16,
    /// Setpoint: move code, row or ticks.
    pub code: u16,
    pub argument: u16,
}

impl Telegram {
    /// "Telegram, 14 bytes: length 14, kind 48, number (32 bits), station,
    /// setpoint (move code, row or ticks)."
    pub fn encode(&self) -> [u8; TELEGRAM_LENGTH] {
        bytes_of(&[
            TELEGRAM_LENGTH as u16,
            TELEGRAM,
            self.number as u16,
            (self.number >> 16) as u16,
            self.station,
            self.code,
            self.argument,
        ])
    }

    /// None where "size, length or kind" is off.
    pub fn decode(bytes: &[u8]) -> Option<Telegram> {
        let is_telegram = bytes.len() == TELEGRAM_LENGTH
            && usize::from(word(bytes, 0)) == TELEGRAM_LENGTH
            && word(bytes, 1) == TELEGRAM;
        is_telegram.then(|| Telegram {
            number: u32::from(word(bytes, 2)) | u32::from(word(bytes, 3)) << 16,
            station: word(bytes, 4),
            code: word(bytes, 5),
            argument: word(bytes, 6),
        })
    }
}

/// The leader's call: makes the move and "writes each, numbered with the new
/// count, into the first 14 bytes of a lent area"; accepted: the new count.
/// "Steps: file, 20, 21, 22 to 26, 27, 10."
pub fn offer(
    file: &[u8],
    state: &mut [u16],
    count: u32,
    station: u16,
    code: u16,
    argument: u16,
    area: &mut [u8],
) -> Answer {
    let next = diagram_step::after(&diagram::parse(file)?, state, code, argument)?;
    let number = count.checked_add(1).ok_or(Refusal {
        number: COUNT_FULL,
        value: count,
    })?;
    let written = area
        .get_mut(..TELEGRAM_LENGTH)
        .ok_or(refusal(AREA_SHORT, TELEGRAM_LENGTH))?;
    let telegram = Telegram {
        number,
        station,
        code,
        argument,
    };
    written.copy_from_slice(&telegram.encode());
    state.copy_from_slice(&next);
    Ok(number)
}

/// The follower's call: makes the move of the telegram that comes next;
/// accepted: the new count. "Telegrams: 30 to 33, then the net's."
pub fn take(net: &[u8], state: &mut [u16], count: u32, station: u16, telegram: &[u8]) -> Answer {
    let telegram = Telegram::decode(telegram).ok_or(refusal(NO_TELEGRAM, 0))?;
    if telegram.station != station {
        return Err(refusal(OTHER_STATION, usize::from(telegram.station)));
    }
    let refuse_number = |number| {
        Err(Refusal {
            number,
            value: count,
        })
    };
    if telegram.number <= count {
        return refuse_number(NUMBER_PAST);
    }
    if telegram.number - count > 1 {
        return refuse_number(NUMBER_AHEAD);
    }
    net_step::step(net, state, telegram.code, telegram.argument)?;
    Ok(telegram.number)
}
