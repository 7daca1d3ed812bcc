//! Runs of telegrams of the old edition and of the new one: converted by the proved functions, and what those refuse in words.
//!
//! The verdict is theirs. What is said here explains it to whoever captured the run, and is never asked whether a run is right.

use crate::play::words::{list_words, number_of};
use crate::refused;
use effbd::{refusal, Refusal, OLD_TELEGRAM_LENGTH, TELEGRAM_LENGTH};

/// An edition of the telegrams.
#[derive(Clone, Copy, PartialEq, Eq, Debug)]
pub enum Edition {
    Old,
    New,
}

impl Edition {
    fn name(self) -> &'static str {
        match self {
            Edition::Old => "old",
            Edition::New => "new",
        }
    }

    /// Bytes of a telegram.
    fn length(self) -> usize {
        match self {
            Edition::Old => OLD_TELEGRAM_LENGTH,
            Edition::New => TELEGRAM_LENGTH,
        }
    }

    fn kind(self) -> u16 {
        match self {
            Edition::Old => 47,
            Edition::New => 48,
        }
    }

    fn other(self) -> Edition {
        match self {
            Edition::Old => Edition::New,
            Edition::New => Edition::Old,
        }
    }

    /// The command that converts runs of this edition.
    fn command(self) -> &'static str {
        match self {
            Edition::Old => "up",
            Edition::New => "down",
        }
    }

    /// Just the room that a run of this edition needs in the other one, telegram for telegram.
    fn area(self, run: &[u8]) -> Vec<u8> {
        vec![0; run.len() / self.length() * self.other().length()]
    }
}

/// What a run of the new edition has besides the setpoints.
#[derive(Clone, Copy, PartialEq, Eq, Debug)]
pub struct Added {
    pub station: u16,
    /// The number of the first telegram.
    pub first: u32,
}

/// A run of the old edition in the new one.
pub fn up(run: &[u8], added: Added) -> Result<Vec<u8>, Refusal> {
    let mut area = Edition::Old.area(run);
    effbd::telegrams_up(run, added.station, added.first, &mut area)?;
    Ok(area)
}

/// A run of the new edition in the old one, and that with which [`up`] gives it back.
pub fn down(run: &[u8]) -> Result<(Vec<u8>, Added), Refusal> {
    let mut area = Edition::New.area(run);
    let (mut station, mut first) = (0, 0);
    effbd::telegrams_down(run, &mut area, &mut station, &mut first)?;
    Ok((area, Added { station, first }))
}

/// Why a run of this edition was refused: which telegram, where it stands, and what is wrong; with a hint where the run seems to be of the
/// other edition. A telegram is named by its index in the run, since its number is what it has on the bus.
pub fn refused_words(run: &[u8], edition: Edition, refusal: Refusal) -> String {
    let index = refusal.value as usize;
    let offset = index * edition.length();
    let rest = run.get(offset..).unwrap_or_default();
    let why = match (refusal.number, edition) {
        (refusal::NO_TELEGRAM, _) => shape_words(rest, edition),
        (refusal::NUMBER_NOT_NEXT, Edition::Old) => Some(past_words()),
        (refusal::NUMBER_NOT_NEXT, Edition::New) => number_words(run, index),
        (refusal::STATION_DIFFERS, _) => station_words(run, index),
        _ => None,
    };
    let why = why.unwrap_or_else(|| refusal.words().to_string());
    let words = refused::with_number(&why, refusal);
    let hint = hint(run, edition);
    format!("refused at the telegram of index {index}, offset {offset}: {words}\n{hint}")
}

/// The length and kind that stand at the front of these bytes.
fn front(bytes: &[u8]) -> Option<(u16, u16)> {
    Some((word(bytes, 0)?, word(bytes, 2)?))
}

fn word(bytes: &[u8], offset: usize) -> Option<u16> {
    let bytes = bytes.get(offset..offset + 2)?;
    Some(u16::from_le_bytes(bytes.try_into().ok()?))
}

/// Why bytes are no telegram: too few of them, or another length or kind.
fn shape_words(bytes: &[u8], edition: Edition) -> Option<String> {
    let (name, due) = (edition.name(), edition.length());
    let left = bytes.len();
    if left < due {
        let verb = if left == 1 { "is" } else { "are" };
        let left = number_of(left as u64, "byte");
        return Some(format!(
            "only {left} {verb} left, and a telegram of the {name} edition has {due}"
        ));
    }
    let (length, kind) = front(bytes)?;
    let mut off = vec![
        ("length", usize::from(length), due),
        ("kind", usize::from(kind), usize::from(edition.kind())),
    ];
    off.retain(|(_, found, due)| found != due);
    let found = off.iter().map(|(what, found, _)| format!("{what} {found}"));
    let due = off.iter().map(|(what, _, due)| format!("{what} {due}"));
    let (found, due) = (list_words(found.collect()), list_words(due.collect()));
    Some(format!(
        "it has {found}, and a telegram of the {name} edition {due}"
    ))
}

/// Why a telegram of the old edition gets no number: those before it have them one after another, up to the highest.
fn past_words() -> String {
    let past = u64::from(u32::MAX) + 1;
    format!(
        "its number would be {past}, and the highest is {}",
        u32::MAX
    )
}

/// Why a telegram's number may not follow the one before it.
fn number_words(run: &[u8], index: usize) -> Option<String> {
    let (found, last) = (
        number_at(run, index)?,
        number_at(run, index.checked_sub(1)?)?,
    );
    Some(match last.checked_add(1) {
        Some(due) => format!("its number is {found}, and {due} is due, one above the last"),
        None => format!("its number is {found}, and none is due: the last is {last}, the highest"),
    })
}

fn station_words(run: &[u8], index: usize) -> Option<String> {
    let (found, first) = (station_at(run, index)?, station_at(run, 0)?);
    Some(format!(
        "its station is {found}, and the first one's {first}"
    ))
}

/// The number of a telegram of the new edition.
fn number_at(run: &[u8], index: usize) -> Option<u32> {
    let offset = index * TELEGRAM_LENGTH + 4;
    let (low, high) = (word(run, offset)?, word(run, offset + 2)?);
    Some(u32::from(high) << 16 | u32::from(low))
}

/// The station of a telegram of the new edition.
fn station_at(run: &[u8], index: usize) -> Option<u16> {
    word(run, index * TELEGRAM_LENGTH + 8)
}

/// Where the run begins as one of the other edition does: the command for it.
fn hint(run: &[u8], edition: Edition) -> String {
    let other = edition.other();
    match front(run) {
        Some((length, kind)) if (usize::from(length), kind) == (other.length(), other.kind()) => {
            let (name, command) = (other.name(), other.command());
            format!("This looks like a run of the {name} edition: `rink {command}` converts it.\n")
        }
        _ => String::new(),
    }
}
