//! Document 02, request 5, "Old panels on the new bus": runs of telegrams, one
//! after another, converted between the editions.
//!
//! Bytes left over that are no whole telegram are one more telegram, which is
//! 30: `chunks` has them last.

use crate::bus::{Telegram, TELEGRAM_LENGTH};
use crate::records::{bytes_of, word, OLD_TELEGRAM};
use crate::refusal::{
    refusal, returned, Answer, Refusal, AREA_SHORT, NO_TELEGRAM, NUMBER_NOT_NEXT, STATION_DIFFERS,
};

pub const OLD_TELEGRAM_LENGTH: usize = 8;

/// A telegram of the old edition: its setpoint.
#[derive(Clone, Copy, PartialEq, Eq, Debug)]
pub struct OldTelegram {
    pub code: u16,
    pub argument: u16,
}

impl OldTelegram {
    /// "Length 8, kind 47, setpoint."
    pub fn encode(&self) -> [u8; OLD_TELEGRAM_LENGTH] {
        bytes_of(&[
            OLD_TELEGRAM_LENGTH as u16,
            OLD_TELEGRAM,
            self.code,
            self.argument,
        ])
    }

    /// None where "size, length or kind" is off.
    pub fn decode(bytes: &[u8]) -> Option<OldTelegram> {
        let is_telegram = bytes.len() == OLD_TELEGRAM_LENGTH
            && usize::from(word(bytes, 0)) == OLD_TELEGRAM_LENGTH
            && word(bytes, 1) == OLD_TELEGRAM;
        is_telegram.then(|| OldTelegram {
            code: word(bytes, 2),
            argument: word(bytes, 3),
        })
    }
}

/// The number of the telegram with this index; none "past 4,294,967,295".
fn number_of(first: u32, index: usize) -> Option<u32> {
    first.checked_add(u32::try_from(index).ok()?)
}

/// The first bytes of an area; "a short area is 10".
fn room(area: &mut [u8], needed: usize) -> Result<&mut [u8], Refusal> {
    area.get_mut(..needed).ok_or(refusal(AREA_SHORT, needed))
}

/// The telegram of the new edition with this index.
fn upward(bytes: &[u8], index: usize, station: u16, first: u32) -> Result<Telegram, Refusal> {
    let OldTelegram { code, argument } =
        OldTelegram::decode(bytes).ok_or(refusal(NO_TELEGRAM, index))?;
    Ok(Telegram {
        number: number_of(first, index).ok_or(refusal(NUMBER_NOT_NEXT, index))?,
        station,
        code,
        argument,
    })
}

/// "Upward adds a given station and numbers from a given first one"; accepted:
/// the bytes written.
pub fn telegrams_up(old: &[u8], station: u16, first: u32, area: &mut [u8]) -> Answer {
    let telegrams = || old.chunks(OLD_TELEGRAM_LENGTH).enumerate();
    for (index, bytes) in telegrams() {
        upward(bytes, index, station, first)?;
    }
    let written = room(area, old.len() / OLD_TELEGRAM_LENGTH * TELEGRAM_LENGTH)?;
    for (into, (index, bytes)) in written.chunks_exact_mut(TELEGRAM_LENGTH).zip(telegrams()) {
        into.copy_from_slice(&upward(bytes, index, station, first)?.encode());
    }
    Ok(returned(written.len()))
}

/// Station and first number that "give all of them back". "An empty run is empty,
/// and downward its station and first number are 0."
fn station_and_first(run: &[u8]) -> Result<(u16, u32), Refusal> {
    let (mut station, mut first, mut last) = (0, 0, 0_u32);
    for (index, bytes) in run.chunks(TELEGRAM_LENGTH).enumerate() {
        let telegram = Telegram::decode(bytes).ok_or(refusal(NO_TELEGRAM, index))?;
        if index == 0 {
            (station, first) = (telegram.station, telegram.number);
        } else if last.checked_add(1) != Some(telegram.number) {
            return Err(refusal(NUMBER_NOT_NEXT, index));
        } else if telegram.station != station {
            return Err(refusal(STATION_DIFFERS, index));
        }
        last = telegram.number;
    }
    Ok((station, first))
}

/// "Downward drops them, and is allowed only where station and first number give
/// all of them back"; accepted: the bytes written, and both numbers.
pub fn telegrams_down(run: &[u8], area: &mut [u8], station: &mut u16, first: &mut u32) -> Answer {
    let dropped = station_and_first(run)?;
    let written = room(area, run.len() / TELEGRAM_LENGTH * OLD_TELEGRAM_LENGTH)?;
    let telegrams = run.chunks(TELEGRAM_LENGTH).flat_map(Telegram::decode);
    for (into, telegram) in written.chunks_exact_mut(OLD_TELEGRAM_LENGTH).zip(telegrams) {
        let Telegram { code, argument, .. } = telegram;
        into.copy_from_slice(&OldTelegram { code, argument }.encode());
    }
    (*station, *first) = dropped;
    Ok(returned(written.len()))
}
