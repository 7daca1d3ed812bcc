//! Flow diagrams, their nets, both bus ends, runs of telegrams and logs: safe calls of the proved functions.
//!
//! Each function takes whatever bytes, numbers and lent memory it is given, and answers with a value or with a numbered [`Refusal`] of
//! the table of documents 01 and 02. A refusal alters nothing that was lent. What each call promises is proved in the Rattle crate that has it
//! (`crates/*/src`); this file only passes lists on as pointer and number of elements.
//!
//! A file is looked at first (refusals 1 to 9; 43 right after 5 at the same record, 44 between 7 and 8 and 48 between 8 and 9 at the same row;
//! where no row is refused 49, 50, 45), then a state (20), the move (21 to 26), the leader's count (27), the area (10). The follower looks at
//! the telegram (30 to 33) before all of these. Of a log, after the file: its length (40), the row (41), its moves (42). Of a run of telegrams
//! each telegram in its turn (30, 46, 47), then the area (10).
//!
//! Example A of document 01, one move over the bus:
//!
//! ```
//! use effbd::{refusal, Move, Refusal};
//!
//! let file = [
//!     10, 0, 1, 0, 1, 0, 2, 0, 1, 0, // head: edition 1, 2 rows, 1 item
//!     6, 0, 2, 0, 3, 0, // item: 3
//!     14, 0, 16, 0, 2, 0, 5, 0, 0, 0, 1, 0, 0, 0, // FUNCTION: 2 to 5 ticks, takes 1 of item 0
//!     4, 0, 27, 0, // END
//! ];
//! let mut area = vec![0; effbd::NET_ROOM];
//! let length = effbd::translate(&file, &mut area)? as usize;
//! let net = &area[..length];
//! let mut leader = vec![0; effbd::read_diagram(&file)? as usize];
//! let mut follower = vec![0; effbd::read_net(net)? as usize];
//! effbd::fresh_diagram(&file, &mut leader)?;
//! effbd::fresh_net(net, &mut follower)?;
//!
//! let station = 9;
//! let mut telegram = [0; effbd::TELEGRAM_LENGTH];
//! let sent = effbd::offer_move(&file, &mut leader, 0, station, Move::Step(0), &mut telegram)?;
//! let taken = effbd::take(net, &mut follower, 0, station, &telegram)?;
//! assert_eq!((sent, taken), (1, 1));
//!
//! // The bus repeats the telegram: refused with the follower's count, and nothing changes.
//! let again = effbd::take(net, &mut follower, taken, station, &telegram);
//! assert_eq!(again, Err(Refusal { number: refusal::NUMBER_PAST, value: 1 }));
//! # Ok::<(), Refusal>(())
//! ```

use std::fmt;
use std::ops::Range;

/// Rows of a diagram, at most.
pub const MOST_ROWS: usize = 64;
/// Items of a diagram, at most.
pub const MOST_ITEMS: usize = 16;
/// Places of a net, at most.
pub const MOST_PLACES: usize = 1_216;
/// Transitions of a net, at most.
pub const MOST_TRANSITIONS: usize = 128;
/// Words of a diagram's state, at most: 3 for each row, 1 for each item, 1 for each copy of a trigger. All but END may take every trigger.
pub const MOST_STATE_WORDS: usize = 3 * MOST_ROWS + MOST_ITEMS + MOST_ITEMS * (MOST_ROWS - 1);
/// Words of a net's state, at most: 1 for each place, 1 for each transition.
pub const MOST_NET_STATE_WORDS: usize = MOST_PLACES + MOST_TRANSITIONS;
/// Bytes that have room for the net of any diagram.
pub const NET_ROOM: usize = 584_072;
/// Bytes that the annex program lends for the net.
pub const ANNEX_NET_ROOM: usize = 65_536;
/// Bytes that have room for the annex text of any file, where [`ANNEX_NET_ROOM`] bytes are lent for the net.
pub const ANNEX_ROOM: usize = 393_216;
/// Bytes of a telegram.
pub const TELEGRAM_LENGTH: usize = 14;
/// Bytes of a telegram of the old edition.
pub const OLD_TELEGRAM_LENGTH: usize = 8;
/// Bytes of a setpoint, one move of a log.
pub const SETPOINT_LENGTH: usize = 4;
/// Moves of a log, at most.
pub const MOST_LOG_MOVES: usize = 65_535;

/// Move code of a step.
pub const STEP: u16 = 1;
/// Move code of a wait.
pub const WAIT: u16 = 2;

/// A move with a code that exists. The calls that take a code and an argument try any.
///
/// ```
/// use effbd::{refusal, Move, Refusal};
///
/// let end_alone = [10, 0, 1, 0, 1, 0, 1, 0, 0, 0, 4, 0, 27, 0];
/// let mut state = [0; 3];
/// effbd::fresh_diagram(&end_alone, &mut state)?;
/// effbd::move_diagram(&end_alone, &mut state, Move::Wait(65_535))?;
/// let stepped = effbd::move_diagram(&end_alone, &mut state, Move::Step(0));
/// assert_eq!(stepped, Err(Refusal { number: refusal::NOT_STANDING, value: 0 }));
/// let off = effbd::step_diagram(&end_alone, &mut state, 3, 0);
/// assert_eq!(off, Err(Refusal { number: refusal::CODE_OFF, value: 0 }));
/// # Ok::<(), Refusal>(())
/// ```
#[derive(Clone, Copy, PartialEq, Eq, Debug)]
pub enum Move {
    /// A step of this row of a diagram, of this label of a net.
    Step(u16),
    /// A wait of so many ticks of 0.1 s; 0 ticks are refused.
    Wait(u16),
}

impl Move {
    /// Its code: [`STEP`] or [`WAIT`].
    pub fn code(self) -> u16 {
        match self {
            Move::Step(_) => STEP,
            Move::Wait(_) => WAIT,
        }
    }

    /// Its row, label or ticks.
    pub fn argument(self) -> u16 {
        match self {
            Move::Step(argument) | Move::Wait(argument) => argument,
        }
    }

    /// Its bytes in a log: code and argument, each with the low byte first.
    ///
    /// ```
    /// assert_eq!(effbd::Move::Wait(600).setpoint(), [2, 0, 88, 2]);
    /// ```
    pub fn setpoint(self) -> [u8; SETPOINT_LENGTH] {
        let [code_low, code_high] = self.code().to_le_bytes();
        let [low, high] = self.argument().to_le_bytes();
        [code_low, code_high, low, high]
    }
}

/// A row of document 01's table "Returned when turned away", which document 02 goes on with: its number, and the value that is returned
/// with it.
#[derive(Clone, Copy, PartialEq, Eq, Debug)]
pub struct Refusal {
    /// One of [`refusal`]'s.
    pub number: u32,
    /// An offset, row, item, count ..: what the table says for the number.
    pub value: u32,
}

/// A value, or a refusal.
pub type Answer = Result<u32, Refusal>;

/// A constant for each number, and its words.
macro_rules! refusals {
    ($($number:literal $name:ident $words:literal)*) => {
        /// The refusals' numbers, as refusals.txt at the repository's root lists them.
        pub mod refusal {
            $(#[doc = $words] pub const $name: u32 = $number;)*
        }

        impl Refusal {
            /// The refusal's number in words.
            pub fn words(self) -> &'static str {
                match self.number {
                    $(refusal::$name => $words,)*
                    _ => "no number of the table",
                }
            }
        }
    };
}

refusals! {
    1 CUT_SHORT "cut short"
    2 KIND_NOT_DUE "kind not due here"
    3 LENGTH_WRONG "length wrong for kind"
    4 HEAD_VALUE_OFF "head value off"
    5 FIELD_OFF "field off"
    6 BYTES_AFTER_LAST "bytes after the last record"
    7 NESTING_BROKEN "nesting broken"
    8 LOOP_EXIT_MISPLACED "LE misplaced"
    9 TOO_MANY_OPEN "a 13th open"
    10 AREA_SHORT "area too short"
    20 STATE_OFF "state off"
    21 CODE_OFF "no move"
    22 NOT_STANDING "step not standing"
    23 ITEM_SHORT "item short"
    24 TICKS_LACKING "ticks lacking"
    25 SUM_TOO_LARGE "sum above 65,535"
    26 WAIT_HELD "wait held"
    27 COUNT_FULL "leader's count full"
    30 NO_TELEGRAM "no telegram"
    31 OTHER_STATION "other station"
    32 NUMBER_PAST "number at or below count"
    33 NUMBER_AHEAD "number above count + 1"
    40 LOG_OFF "log too long or not whole"
    41 NOT_FUNCTION "row is no FUNCTION"
    42 MOVE_REFUSED "a move of the log refused"
    43 TRIGGER_OFF "trigger's take or give above 1"
    44 KILLING_BRANCH_EMPTY "killing branch empty"
    45 LOOP_SPENDS_NO_TIME "loop spends no time"
    46 NUMBER_NOT_NEXT "number not one above the last, or past 4,294,967,295"
    47 STATION_DIFFERS "station differs from the first"
    48 BOX_EXIT_MISPLACED "EXIT misplaced"
    49 OUTLETS_UNMATCHED "outlets and EXIT rows not one to one"
    50 SCENARIO_FALLS_THROUGH "a scenario falls through"
}

impl fmt::Display for Refusal {
    fn fmt(&self, to: &mut fmt::Formatter<'_>) -> fmt::Result {
        write!(to, "{} ({}, {})", self.words(), self.number, self.value)
    }
}

impl std::error::Error for Refusal {}

mod proved {
    extern "C" {
        pub fn effbd_read(file: *const u8, file_count: usize) -> u64;
        pub fn effbd_uses(file: *const u8, file_count: usize, row: u16) -> u64;
        pub fn effbd_fresh(
            file: *const u8,
            file_count: usize,
            state: *mut u16,
            state_count: usize,
        ) -> u64;
        pub fn effbd_step(
            file: *const u8,
            file_count: usize,
            state: *mut u16,
            state_count: usize,
            code: u16,
            argument: u16,
        ) -> u64;
        pub fn effbd_transition(
            file: *const u8,
            file_count: usize,
            state: *const u16,
            state_count: usize,
            row: u16,
        ) -> u64;
        pub fn effbd_translate(
            file: *const u8,
            file_count: usize,
            area: *mut u8,
            area_count: usize,
        ) -> u64;
        pub fn effbd_annex(
            file: *const u8,
            file_count: usize,
            net: *mut u8,
            net_count: usize,
            text: *mut u8,
            text_count: usize,
        ) -> u64;
        pub fn tpn_read(net: *const u8, net_count: usize) -> u64;
        pub fn tpn_fresh(
            net: *const u8,
            net_count: usize,
            state: *mut u16,
            state_count: usize,
        ) -> u64;
        pub fn tpn_step(
            net: *const u8,
            net_count: usize,
            state: *mut u16,
            state_count: usize,
            code: u16,
            argument: u16,
        ) -> u64;
        pub fn leader_offer(
            file: *const u8,
            file_count: usize,
            state: *mut u16,
            state_count: usize,
            count: u32,
            station: u16,
            code: u16,
            argument: u16,
            area: *mut u8,
            area_count: usize,
        ) -> u64;
        pub fn follower_take(
            net: *const u8,
            net_count: usize,
            state: *mut u16,
            state_count: usize,
            count: u32,
            station: u16,
            telegram: *const u8,
            telegram_count: usize,
        ) -> u64;
        pub fn log_starts(
            file: *const u8,
            file_count: usize,
            log: *const u8,
            log_count: usize,
            row: u16,
            at: *mut u32,
        ) -> u64;
        pub fn telegrams_up(
            old: *const u8,
            old_count: usize,
            station: u16,
            first: u32,
            area: *mut u8,
            area_count: usize,
        ) -> u64;
        pub fn telegrams_down(
            run: *const u8,
            run_count: usize,
            area: *mut u8,
            area_count: usize,
            station: *mut u16,
            first: *mut u32,
        ) -> u64;
    }
}

/// An answer is number * 2^32 + value, number 0 where accepted.
fn answer(packed: u64) -> Answer {
    let value = packed as u32;
    match (packed >> 32) as u32 {
        0 => Ok(value),
        number => Err(Refusal { number, value }),
    }
}

/// A diagram file. Accepted: the number of words of its state, 3 for each row, 1 for each item, 1 for each copy of a trigger: there is one
/// for each FUNCTION row that takes it.
pub fn read_diagram(file: &[u8]) -> Answer {
    // SAFETY: the pointer and the number of elements are those of a live slice; the call keeps neither.
    answer(unsafe { proved::effbd_read(file.as_ptr(), file.len()) })
}

/// The uses of FUNCTION row `row`, 6 bytes a use (item, take, give): the very bytes of the file. A refused file, a row of another kind and a
/// row that the file does not have: an empty part at the file's start.
///
/// ```
/// let file = [
///     10, 0, 1, 0, 1, 0, 2, 0, 1, 0, 6, 0, 2, 0, 3, 0, 14, 0, 16, 0, 2, 0, 5, 0, 0, 0, 1, 0, 0, 0, 4,
///     0, 27, 0,
/// ];
/// assert_eq!(effbd::uses(&file, 0), [0, 0, 1, 0, 0, 0]);
/// assert_eq!(effbd::uses_range(&file, 0), 24..30);
/// assert_eq!(effbd::uses_range(&file, 1), 0..0);
/// ```
pub fn uses(file: &[u8], row: u16) -> &[u8] {
    &file[uses_range(file, row)]
}

/// Where the uses of FUNCTION row `row` stand in the file. A FUNCTION without uses has the empty range where they would stand; a refused
/// file, a row of another kind and a row that the file does not have: `0..0`.
pub fn uses_range(file: &[u8], row: u16) -> Range<usize> {
    // SAFETY: as in `read_diagram`.
    let part = unsafe { proved::effbd_uses(file.as_ptr(), file.len(), row) };
    let (start, size) = ((part >> 32) as usize, part as u32 as usize);
    start..start + size
}

/// The fresh state of a diagram, into all words of `state`. Accepted: 0.
///
/// A number of words other than [`read_diagram`] answers is [`refusal::STATE_OFF`].
pub fn fresh_diagram(file: &[u8], state: &mut [u16]) -> Answer {
    // SAFETY: as in `read_diagram`; the mutable slice is borrowed for the call alone.
    answer(unsafe {
        proved::effbd_fresh(file.as_ptr(), file.len(), state.as_mut_ptr(), state.len())
    })
}

/// [`STEP`] steps row `argument` of a diagram, [`WAIT`] waits `argument` ticks; any other code is refused. Accepted: 0.
///
/// [`refusal::STATE_OFF`]: a number of words other than [`read_diagram`] answers, or words that are no state of this diagram.
pub fn step_diagram(file: &[u8], state: &mut [u16], code: u16, argument: u16) -> Answer {
    // SAFETY: as in `fresh_diagram`.
    answer(unsafe {
        proved::effbd_step(
            file.as_ptr(),
            file.len(),
            state.as_mut_ptr(),
            state.len(),
            code,
            argument,
        )
    })
}

/// [`step_diagram`] with a [`Move`].
pub fn move_diagram(file: &[u8], state: &mut [u16], made: Move) -> Answer {
    step_diagram(file, state, made.code(), made.argument())
}

/// Which transition of the net a ready or running FUNCTION's step fires: the row's first transition's number plus activity less 1, the number
/// behind `t` in the annex. Accepted: the number. It does not ask whether the step would be accepted now. Where it is, at any state that moves
/// have reached, the net of the diagram fires just this transition.
///
/// [`refusal::STATE_OFF`] as [`step_diagram`]; [`refusal::NOT_STANDING`], with the row, where it is no FUNCTION, is idle, or the file does not
/// have it.
///
/// ```
/// use effbd::{refusal, Move, Refusal};
///
/// let file = [
///     10, 0, 1, 0, 1, 0, 2, 0, 1, 0, // head: edition 1, 2 rows, 1 item
///     6, 0, 2, 0, 3, 0, // item: 3
///     14, 0, 16, 0, 2, 0, 5, 0, 0, 0, 1, 0, 0, 0, // FUNCTION: 2 to 5 ticks, takes 1 of item 0
///     4, 0, 27, 0, // END
/// ];
/// let mut state = [0; 7];
/// effbd::fresh_diagram(&file, &mut state)?;
/// assert_eq!(effbd::transition(&file, &state, 0), Ok(0)); // ready: it starts
/// effbd::move_diagram(&file, &mut state, Move::Step(0))?;
/// assert_eq!(effbd::transition(&file, &state, 0), Ok(1)); // running: it ends
/// let at_end = effbd::transition(&file, &state, 1);
/// assert_eq!(at_end, Err(Refusal { number: refusal::NOT_STANDING, value: 1 }));
/// # Ok::<(), Refusal>(())
/// ```
pub fn transition(file: &[u8], state: &[u16], row: u16) -> Answer {
    // SAFETY: as in `read_diagram`.
    answer(unsafe {
        proved::effbd_transition(file.as_ptr(), file.len(), state.as_ptr(), state.len(), row)
    })
}

/// The net of a diagram, into the first bytes of an area; those beyond the net keep their values. Accepted: the net's length, at most
/// [`NET_ROOM`].
///
/// [`refusal::AREA_SHORT`] returns the bytes needed:
///
/// ```
/// use effbd::{refusal, Refusal};
///
/// let end_alone = [10, 0, 1, 0, 1, 0, 1, 0, 0, 0, 4, 0, 27, 0];
/// let short = effbd::translate(&end_alone, &mut []);
/// assert_eq!(short, Err(Refusal { number: refusal::AREA_SHORT, value: 26 }));
/// let mut area = [7; 30];
/// assert_eq!(effbd::translate(&end_alone, &mut area), Ok(26));
/// assert_eq!(area[26..], [7; 4]);
/// ```
pub fn translate(file: &[u8], area: &mut [u8]) -> Answer {
    // SAFETY: as in `fresh_diagram`.
    answer(unsafe {
        proved::effbd_translate(file.as_ptr(), file.len(), area.as_mut_ptr(), area.len())
    })
}

/// What the annex program prints of a diagram, into the first bytes of `text`, and its net into the first bytes of `net`; those beyond keep
/// their values. The result is the length of the text. Where that is more than `text` has, the text's first bytes fill it.
///
/// Never refuses: where [`translate`] would refuse the file, or the net's area with [`refusal::AREA_SHORT`], the text is the one line
/// `refused NUMBER VALUE` and `net` keeps its bytes. The annex program lends [`ANNEX_NET_ROOM`] bytes for the net; [`ANNEX_ROOM`]
/// bytes then hold every text.
///
/// ```
/// let end_alone = [10, 0, 1, 0, 1, 0, 1, 0, 0, 0, 4, 0, 27, 0];
/// let (mut net, mut text) = ([7; 30], [b'.'; 16]);
/// assert_eq!(effbd::annex(&end_alone, &mut net[..25], &mut text), 14);
/// assert_eq!(&text, b"refused 10 26\n..");
/// assert_eq!(net, [7; 30]);
///
/// // The net fits; the text is longer than its area.
/// assert_eq!(effbd::annex(&end_alone, &mut net, &mut text), 20);
/// assert_eq!(&text, b"net 3 0\nmarks 1 ");
/// assert_eq!(net[26..], [7; 4]);
/// ```
pub fn annex(file: &[u8], net: &mut [u8], text: &mut [u8]) -> usize {
    // SAFETY: as in `fresh_diagram`; net and text are two slices, so they do not overlap.
    let length = unsafe {
        proved::effbd_annex(
            file.as_ptr(),
            file.len(),
            net.as_mut_ptr(),
            net.len(),
            text.as_mut_ptr(),
            text.len(),
        )
    };
    length as usize
}

/// The whole text that the annex program prints of a diagram file, as [`annex`] with [`ANNEX_NET_ROOM`] bytes for the net and room for every
/// text.
///
/// ```
/// let file = [
///     10, 0, 1, 0, 1, 0, 2, 0, 1, 0, // head: edition 1, 2 rows, 1 item
///     6, 0, 2, 0, 3, 0, // item: 3
///     14, 0, 16, 0, 2, 0, 5, 0, 0, 0, 1, 0, 0, 0, // FUNCTION: 2 to 5 ticks, takes 1 of item 0
///     4, 0, 27, 0, // END
/// ];
/// let text = "\
/// net 7 2
/// marks 1 0 0 0 0 0 3
/// t 0 label 0 from 0 to 0
/// take 0 1
/// take 6 1
/// give 1 1
/// t 1 label 0 from 2 to 5
/// take 1 1
/// give 3 1
/// ";
/// assert_eq!(effbd::annex_text(&file), text.as_bytes());
/// assert_eq!(effbd::annex_text(&file[..33]), b"refused 1 30\n");
/// ```
pub fn annex_text(file: &[u8]) -> Vec<u8> {
    let (mut net, mut text) = (vec![0; ANNEX_NET_ROOM], vec![0; ANNEX_ROOM]);
    let length = annex(file, &mut net, &mut text);
    text.truncate(length);
    text
}

/// A net file: just the net's bytes, without the rest of the area. Accepted: the number of words of its state, places and transitions.
pub fn read_net(net: &[u8]) -> Answer {
    // SAFETY: as in `read_diagram`.
    answer(unsafe { proved::tpn_read(net.as_ptr(), net.len()) })
}

/// The fresh state of a net, into all words of `state`. Accepted: 0.
///
/// A number of words other than [`read_net`] answers is [`refusal::STATE_OFF`].
pub fn fresh_net(net: &[u8], state: &mut [u16]) -> Answer {
    // SAFETY: as in `fresh_diagram`.
    answer(unsafe { proved::tpn_fresh(net.as_ptr(), net.len(), state.as_mut_ptr(), state.len()) })
}

/// [`STEP`] steps label `argument` of a net, [`WAIT`] waits `argument` ticks; any other code is refused. Accepted: 0.
///
/// [`refusal::STATE_OFF`]: a number of words other than [`read_net`] answers; any words of that number are a state of the net.
pub fn step_net(net: &[u8], state: &mut [u16], code: u16, argument: u16) -> Answer {
    // SAFETY: as in `fresh_diagram`.
    answer(unsafe {
        proved::tpn_step(
            net.as_ptr(),
            net.len(),
            state.as_mut_ptr(),
            state.len(),
            code,
            argument,
        )
    })
}

/// [`step_net`] with a [`Move`].
pub fn move_net(net: &[u8], state: &mut [u16], made: Move) -> Answer {
    step_net(net, state, made.code(), made.argument())
}

/// The leader's call: makes the move as [`step_diagram`] does, with its refusals, and writes its telegram, numbered `count + 1`, into the
/// first [`TELEGRAM_LENGTH`] bytes of the area; those beyond keep their values. Accepted: the new count.
///
/// [`refusal::COUNT_FULL`]: the count is [`u32::MAX`]; [`refusal::AREA_SHORT`]: the area has fewer bytes. The move is then not made.
pub fn offer(
    file: &[u8],
    state: &mut [u16],
    count: u32,
    station: u16,
    code: u16,
    argument: u16,
    area: &mut [u8],
) -> Answer {
    // SAFETY: as in `fresh_diagram`; state and area are two slices, so they do not overlap.
    answer(unsafe {
        proved::leader_offer(
            file.as_ptr(),
            file.len(),
            state.as_mut_ptr(),
            state.len(),
            count,
            station,
            code,
            argument,
            area.as_mut_ptr(),
            area.len(),
        )
    })
}

/// [`offer`] with a [`Move`].
pub fn offer_move(
    file: &[u8],
    state: &mut [u16],
    count: u32,
    station: u16,
    made: Move,
    area: &mut [u8],
) -> Answer {
    let (code, argument) = (made.code(), made.argument());
    offer(file, state, count, station, code, argument, area)
}

/// The follower's call: bytes that came over the bus. A telegram of this station numbered `count + 1` makes its move as [`step_net`] does,
/// with its refusals. Accepted: the new count.
///
/// Other bytes are refused before net and state are looked at: [`refusal::NO_TELEGRAM`], [`refusal::OTHER_STATION`],
/// [`refusal::NUMBER_PAST`] (a repeat), [`refusal::NUMBER_AHEAD`] (one was lost).
pub fn take(net: &[u8], state: &mut [u16], count: u32, station: u16, telegram: &[u8]) -> Answer {
    // SAFETY: as in `fresh_diagram`.
    answer(unsafe {
        proved::follower_take(
            net.as_ptr(),
            net.len(),
            state.as_mut_ptr(),
            state.len(),
            count,
            station,
            telegram.as_ptr(),
            telegram.len(),
        )
    })
}

/// The most starts of FUNCTION row `row` in an hour, 36,000 ticks, of a log: moves from the fresh state on, [`SETPOINT_LENGTH`] bytes each,
/// as [`Move::setpoint`] writes them. Accepted: that number; `at` becomes the time, in ticks, of the earliest start from which an hour on has
/// so many, 0 where there is no start.
///
/// [`refusal::LOG_OFF`]: more than [`MOST_LOG_MOVES`] moves, or bytes that are no whole number of them; [`refusal::NOT_FUNCTION`]: another
/// row, or none; [`refusal::MOVE_REFUSED`] returns the index of the first move that is refused.
pub fn log_starts(file: &[u8], log: &[u8], row: u16, at: &mut u32) -> Answer {
    // SAFETY: as in `fresh_diagram`; `at` is a live number, borrowed for the call alone.
    answer(unsafe {
        proved::log_starts(file.as_ptr(), file.len(), log.as_ptr(), log.len(), row, at)
    })
}

/// The starts of a FUNCTION in the hour that has the most.
#[derive(Clone, Copy, PartialEq, Eq, Debug)]
pub struct Starts {
    /// How many there are; 0 where the log has no start of the row.
    pub most: u32,
    /// The time of the first of them, in ticks from the log's beginning, in the earliest such hour; 0 where there is none.
    pub at: u32,
}

/// [`log_starts`] with both numbers in its answer.
///
/// ```
/// use effbd::{refusal, Move, Refusal, Starts};
///
/// // A compressor that runs for 2 to 5 ticks, again and again.
/// let file = [
///     10, 0, 1, 0, 1, 0, 4, 0, 0, 0, // head: edition 1, 4 rows, no item
///     4, 0, 24, 0, // LP
///     8, 0, 16, 0, 2, 0, 5, 0, // FUNCTION: 2 to 5 ticks
///     4, 0, 25, 0, // LP close
///     4, 0, 27, 0, // END
/// ];
/// let round = [Move::Step(0), Move::Step(1), Move::Wait(5), Move::Step(1), Move::Step(2)];
/// let log: Vec<u8> = round.repeat(3).iter().flat_map(|made| made.setpoint()).collect();
/// assert_eq!(effbd::most_starts(&file, &log, 1), Ok(Starts { most: 3, at: 0 }));
///
/// // Its end comes too early: the fourth move of the log.
/// let early = [Move::Step(0), Move::Step(1), Move::Wait(1), Move::Step(1)];
/// let log: Vec<u8> = early.iter().flat_map(|made| made.setpoint()).collect();
/// let refused = effbd::most_starts(&file, &log, 1);
/// assert_eq!(refused, Err(Refusal { number: refusal::MOVE_REFUSED, value: 3 }));
/// ```
pub fn most_starts(file: &[u8], log: &[u8], row: u16) -> Result<Starts, Refusal> {
    let mut at = 0;
    let most = log_starts(file, log, row, &mut at)?;
    Ok(Starts { most, at })
}

/// A run of telegrams of the old edition (length 8, kind 47, setpoint), one after another, as telegrams of this one, into the first bytes of an
/// area; those beyond keep their values. They get `station`, and numbers from `first` on. Accepted: the bytes written, [`TELEGRAM_LENGTH`] for
/// each [`OLD_TELEGRAM_LENGTH`] of the run.
///
/// At the first telegram that is off, with its index: [`refusal::NO_TELEGRAM`], also where fewer bytes are left;
/// [`refusal::NUMBER_NOT_NEXT`] where its number would be past 4,294,967,295. Then [`refusal::AREA_SHORT`] returns the bytes needed. A value
/// that 32 bits cannot hold, of runs of gigabytes, is returned as 4,294,967,295.
///
/// ```
/// use effbd::{refusal, Refusal};
///
/// let old = [8, 0, 47, 0, 1, 0, 0, 0, 8, 0, 47, 0, 2, 0, 44, 1]; // step 0, wait 300
/// let short = effbd::telegrams_up(&old, 9, 7, &mut []);
/// assert_eq!(short, Err(Refusal { number: refusal::AREA_SHORT, value: 28 }));
/// let mut run = [0; 28];
/// assert_eq!(effbd::telegrams_up(&old, 9, 7, &mut run), Ok(28));
/// assert_eq!(run[14..], [14, 0, 48, 0, 8, 0, 0, 0, 9, 0, 2, 0, 44, 1]); // numbered 8
///
/// // And back.
/// let (mut area, mut station, mut first) = ([0; 16], 0, 0);
/// assert_eq!(effbd::telegrams_down(&run, &mut area, &mut station, &mut first), Ok(16));
/// assert_eq!((area, station, first), (old, 9, 7));
/// ```
pub fn telegrams_up(old: &[u8], station: u16, first: u32, area: &mut [u8]) -> Answer {
    // SAFETY: as in `fresh_diagram`.
    answer(unsafe {
        proved::telegrams_up(
            old.as_ptr(),
            old.len(),
            station,
            first,
            area.as_mut_ptr(),
            area.len(),
        )
    })
}

/// The other way: a run of telegrams as telegrams of the old edition, into the first bytes of an area; those beyond keep their values.
/// Accepted: the bytes written; `station` and `first` become the station and the number of the first telegram, with which [`telegrams_up`]
/// gives the run back; of an empty run both 0.
///
/// At the first telegram that is off, with its index: [`refusal::NO_TELEGRAM`]; [`refusal::NUMBER_NOT_NEXT`] where its number is not one above
/// the last; [`refusal::STATION_DIFFERS`] where its station is not the first one's. Then [`refusal::AREA_SHORT`] returns the bytes needed.
pub fn telegrams_down(run: &[u8], area: &mut [u8], station: &mut u16, first: &mut u32) -> Answer {
    // SAFETY: as in `fresh_diagram`; the two numbers are live, borrowed for the call alone.
    answer(unsafe {
        proved::telegrams_down(
            run.as_ptr(),
            run.len(),
            area.as_mut_ptr(),
            area.len(),
            station,
            first,
        )
    })
}
