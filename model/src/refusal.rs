//! "Returned when turned away": the numbers of the table and their values.

/// What a call hands back: a value, or a refusal.
pub type Answer = Result<u32, Refusal>;

/// A row of the table "Returned when turned away": its number, and the value
/// of its column "Returned".
#[derive(Clone, Copy, PartialEq, Eq, Debug)]
pub struct Refusal {
    pub number: u32,
    pub value: u32,
}

/// A value as it is returned, in 32 bits. Only of runs of telegrams of gigabytes
/// it could be more: then it stops at 4,294,967,295.
pub fn returned(value: usize) -> u32 {
    u32::try_from(value).unwrap_or(u32::MAX)
}

/// The refusal of this number.
pub fn refusal(number: u32, value: usize) -> Refusal {
    Refusal {
        number,
        value: returned(value),
    }
}

pub const CUT_SHORT: u32 = 1;
pub const KIND_NOT_DUE: u32 = 2;
pub const LENGTH_WRONG: u32 = 3;
pub const HEAD_VALUE_OFF: u32 = 4;
pub const FIELD_OFF: u32 = 5;
pub const BYTES_AFTER_LAST: u32 = 6;
pub const NESTING_BROKEN: u32 = 7;
pub const LOOP_EXIT_MISPLACED: u32 = 8;
pub const TOO_MANY_OPEN: u32 = 9;
pub const AREA_SHORT: u32 = 10;
pub const STATE_OFF: u32 = 20;
pub const CODE_OFF: u32 = 21;
pub const NOT_STANDING: u32 = 22;
pub const ITEM_SHORT: u32 = 23;
pub const TICKS_LACKING: u32 = 24;
pub const SUM_TOO_LARGE: u32 = 25;
pub const WAIT_HELD: u32 = 26;
pub const COUNT_FULL: u32 = 27;
pub const NO_TELEGRAM: u32 = 30;
pub const OTHER_STATION: u32 = 31;
pub const NUMBER_PAST: u32 = 32;
pub const NUMBER_AHEAD: u32 = 33;
pub const LOG_OFF: u32 = 40;
pub const NOT_FUNCTION: u32 = 41;
pub const MOVE_REFUSED: u32 = 42;
pub const TRIGGER_OFF: u32 = 43;
pub const KILLING_BRANCH_EMPTY: u32 = 44;
pub const LOOP_SPENDS_NO_TIME: u32 = 45;
pub const NUMBER_NOT_NEXT: u32 = 46;
pub const STATION_DIFFERS: u32 = 47;
pub const BOX_EXIT_MISPLACED: u32 = 48;
pub const OUTLETS_UNMATCHED: u32 = 49;
pub const SCENARIO_FALLS_THROUGH: u32 = 50;
