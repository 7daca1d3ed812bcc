//! The diagrams of "Plant-room examples". C and D run A; I runs B's net. Then
//! plants for the requests of document 02, with logs.

use crate::diagram::{file, file_of, function_record, MOST_ITEMS, MOST_OPEN, MOST_ROWS};
use crate::diagram_step::{STEP, WAIT};
use crate::logs::log;
use crate::records::{
    record, AND_CLOSE, AND_OPEN, BOX_CLOSE, BOX_OPEN, BRANCH, END, EXIT, FUNCTION, ITEM, IT_CLOSE,
    IT_OPEN, KILLING_BRANCH, LOOP_EXIT, LP_CLOSE, LP_OPEN, OR_CLOSE, OR_OPEN, TRIGGER,
};

/// Row records of length 4.
pub fn rows(kinds: &[u16]) -> Vec<Vec<u8>> {
    kinds.iter().map(|kind| record(*kind, &[])).collect()
}

/// Row records of any kind: each FUNCTION is this one, each IT open has this
/// count. EXIT is `exit_to` an outlet.
pub fn rows_with(kinds: &[u16], function: &[u8], count: u16) -> Vec<Vec<u8>> {
    let with_fields = |kind: &u16| match *kind {
        FUNCTION => function.to_vec(),
        IT_OPEN => record(IT_OPEN, &[count]),
        kind if kind >= EXIT_TO => record(EXIT, &[kind - EXIT_TO]),
        kind => record(kind, &[]),
    };
    kinds.iter().map(with_fields).collect()
}

/// An EXIT whose field names this outlet, as a kind of row of `rows_with` and
/// `nested`.
pub const fn exit_to(outlet: u16) -> u16 {
    EXIT_TO + outlet
}

/// The EXIT to outlet 0, behind the kinds that there are.
const EXIT_TO: u16 = 200;

/// A FUNCTION that spends no time, as a kind of row of `nested`.
pub const TIMELESS: u16 = 100 + FUNCTION;

/// A file of these kinds of rows: ITs of count 2, FUNCTIONs of 1 to 2 ticks,
/// timeless ones of 0 to 1.
pub fn nested(kinds: &[u16]) -> Vec<u8> {
    let mut rows = Vec::new();
    for kind in kinds {
        let (kind, alpha) = match *kind {
            TIMELESS => (FUNCTION, 0),
            kind => (kind, 1),
        };
        let function = function_record(alpha, alpha + 1, &[]);
        rows.extend(rows_with(&[kind], &function, 2));
    }
    file(&[], &rows)
}

/// "FUNCTION α 2, β 5 taking 1 of item 0; END", with this initial count.
fn taking_function(count: u16) -> Vec<u8> {
    let function = function_record(2, 5, &[[0, 1, 0]]);
    file(&[count], &[function, record(END, &[])])
}

/// "A: item 3; FUNCTION α 2, β 5 taking 1 of item 0; END."
pub fn a() -> Vec<u8> {
    taking_function(3)
}

/// "B: END alone."
pub fn b() -> Vec<u8> {
    file(&[], &rows(&[END]))
}

/// "E: A with its item's count 0."
pub fn e() -> Vec<u8> {
    taking_function(0)
}

/// "F: IT open 2, IT close, END."
pub fn f() -> Vec<u8> {
    let it_open = record(IT_OPEN, &[2]);
    file(&[], &[it_open, record(IT_CLOSE, &[]), record(END, &[])])
}

/// "G: AND, two empty branches, close, END."
pub fn g() -> Vec<u8> {
    file(&[], &rows(&[AND_OPEN, BRANCH, BRANCH, AND_CLOSE, END]))
}

/// "H: LP, AND, BRANCH, LE, BRANCH, FUNCTION α 1 β 9, AND close, LP close, END."
pub fn h() -> Vec<u8> {
    let mut h = rows(&[LP_OPEN, AND_OPEN, BRANCH, LOOP_EXIT, BRANCH]);
    h.push(function_record(1, 9, &[]));
    h.extend(rows(&[AND_CLOSE, LP_CLOSE, END]));
    file(&[], &h)
}

/// "64 and 65 rows": empty FUNCTIONs and an END, this many rows in all.
pub fn many_rows(count: usize) -> Vec<u8> {
    let mut many = vec![function_record(0, 0, &[]); count.saturating_sub(1)];
    many.push(record(END, &[]));
    file(&[], &many)
}

/// "12 and 13 open": this many LP one in the other, a FUNCTION in the innermost.
pub fn many_open(count: usize) -> Vec<u8> {
    file(&[], &in_loops(count, &[function_record(1, 9, &[])]))
}

/// Rows in this many LP one in the other, so that they go on for ever, and END.
fn in_loops(count: usize, inside: &[Vec<u8>]) -> Vec<Vec<u8>> {
    let mut looped = rows(&vec![LP_OPEN; count]);
    looped.extend_from_slice(inside);
    looped.extend(rows(&vec![LP_CLOSE; count]));
    looped.push(record(END, &[]));
    looped
}

/// "An item at 65,534 and 65,535 given 1."
pub fn item_given_one(count: u16) -> Vec<u8> {
    let function = function_record(0, 0, &[[0, 0, 1]]);
    file(&[count], &[function, record(END, &[])])
}

/// The longest net without triggers has 63 FUNCTIONs that take and give all 16
/// items, 20,660 bytes; neither kills nor boxes make one longer
/// (tests/longest.rs).
pub fn longest_plain_net() -> Vec<u8> {
    let function = function_record(0, 0, &uses_of_all(MOST_ITEMS));
    let mut rows = vec![function; MOST_ROWS - 1];
    rows.push(record(END, &[]));
    file(&[1; MOST_ITEMS], &rows)
}

/// Takes and gives 1 of each item.
fn uses_of_all(items: usize) -> Vec<[u16; 3]> {
    (0..items as u16).map(|item| [item, 1, 1]).collect()
}

/// "A 'door open' order goes to fan and pump": a door row gives the trigger, and
/// beside it fan and pump take it, each from its own copy.
pub fn door_open() -> Vec<u8> {
    let door = function_record(0, 9, &[[0, 0, 1]]);
    let taking = function_record(1, 9, &[[0, 1, 0]]);
    let mut door_open = rows(&[AND_OPEN, BRANCH]);
    door_open.push(door);
    door_open.extend(rows(&[BRANCH]));
    door_open.push(taking.clone());
    door_open.extend(rows(&[BRANCH]));
    door_open.push(taking);
    door_open.extend(rows(&[AND_CLOSE, END]));
    file_of(&[record(TRIGGER, &[0])], &door_open)
}

/// The rows of `door_open` that are FUNCTIONs.
pub const DOOR: u16 = 2;
pub const FAN: u16 = 4;
pub const PUMP: u16 = 6;

/// Item 0 a trigger, item 1 plain, with these initial counts: row 0 gives both,
/// row 1 takes the trigger.
pub fn trigger_before_plain(trigger: u16, plain: u16) -> Vec<u8> {
    let rows = [
        function_record(0, 0, &[[0, 0, 1], [1, 0, 1]]),
        function_record(0, 0, &[[0, 1, 0]]),
        record(END, &[]),
    ];
    let items = [record(TRIGGER, &[trigger]), record(ITEM, &[plain])];
    file_of(&items, &rows)
}

/// A FUNCTION gives a trigger of this initial count that nobody takes.
pub fn unheard_trigger(count: u16) -> Vec<u8> {
    let function = function_record(0, 0, &[[0, 0, 1]]);
    file_of(&[record(TRIGGER, &[count])], &[function, record(END, &[])])
}

/// So many FUNCTIONs, each of which takes and gives all of so many triggers, and
/// END: every trigger has all of them as receivers. Each FUNCTION runs for 1 to
/// 9 ticks.
pub fn triggers(triggers: usize, receivers: usize) -> Vec<u8> {
    let mut rows = receiver_rows(triggers, receivers);
    rows.push(record(END, &[]));
    file_of(&vec![record(TRIGGER, &[1]); triggers], &rows)
}

/// The FUNCTIONs of such a plant.
pub fn receiver_rows(triggers: usize, receivers: usize) -> Vec<Vec<u8>> {
    vec![function_record(1, 9, &uses_of_all(triggers)); receivers]
}

/// The same in an LP, so that it goes on for ever.
pub fn triggers_again(triggers: usize, receivers: usize) -> Vec<u8> {
    let again = in_loops(1, &receiver_rows(triggers, receivers));
    file_of(&vec![record(TRIGGER, &[1]); triggers], &again)
}

/// The longest net of all has 63 FUNCTIONs that take and give all 16 triggers,
/// 526,676 bytes; neither kills nor boxes make one longer.
pub fn longest_net() -> Vec<u8> {
    triggers(MOST_ITEMS, MOST_ROWS - 1)
}

/// FUNCTIONs of 1 to 9 ticks, ITs of count 3.
pub fn trip_rows(kinds: &[u16]) -> Vec<Vec<u8>> {
    rows_with(kinds, &function_record(1, 9, &[]), 3)
}

/// "A pressure trip ends all the other branches": beside the trip a fan runs
/// three times and a pump runs.
pub fn pressure_trip() -> Vec<u8> {
    let rows = trip_rows(&[
        AND_OPEN,
        KILLING_BRANCH,
        FUNCTION,
        BRANCH,
        IT_OPEN,
        FUNCTION,
        IT_CLOSE,
        BRANCH,
        FUNCTION,
        AND_CLOSE,
        END,
    ]);
    file(&[], &rows)
}

/// The rows of `pressure_trip` that are stepped.
pub const TRIP: u16 = 2;
pub const FAN_ROUNDS: u16 = 4;
pub const TRIPPED_FAN: u16 = 5;
pub const TRIPPED_PUMP: u16 = 8;

/// The killing branch is an LP that an LE leaves: the LE's own range, rows 2 to
/// 9, merges with that of the AND, rows 1 to 13.
pub fn trip_by_loop_exit() -> Vec<u8> {
    let rows = trip_rows(&[
        AND_OPEN,
        KILLING_BRANCH,
        LP_OPEN,
        OR_OPEN,
        BRANCH,
        LOOP_EXIT,
        BRANCH,
        FUNCTION,
        OR_CLOSE,
        LP_CLOSE,
        BRANCH,
        IT_OPEN,
        FUNCTION,
        IT_CLOSE,
        AND_CLOSE,
        END,
    ]);
    file(&[], &rows)
}

/// The killing branch is an IT: its own R, of row 2, is given once, as that of
/// row 5, which it kills.
pub fn trip_after_rounds() -> Vec<u8> {
    let rows = trip_rows(&[
        AND_OPEN,
        KILLING_BRANCH,
        IT_OPEN,
        IT_CLOSE,
        BRANCH,
        IT_OPEN,
        FUNCTION,
        IT_CLOSE,
        AND_CLOSE,
        END,
    ]);
    file(&[], &rows)
}

/// A trip in a trip: the close of the inner AND, rows 2 to 7, ends the killing
/// branch of the outer one; beside it an OR ends another killing branch.
pub fn trip_in_trip() -> Vec<u8> {
    let rows = trip_rows(&[
        AND_OPEN,
        KILLING_BRANCH,
        AND_OPEN,
        KILLING_BRANCH,
        FUNCTION,
        BRANCH,
        FUNCTION,
        AND_CLOSE,
        KILLING_BRANCH,
        OR_OPEN,
        BRANCH,
        BRANCH,
        FUNCTION,
        OR_CLOSE,
        BRANCH,
        FUNCTION,
        AND_CLOSE,
        END,
    ]);
    file(&[], &rows)
}

/// Rows in an LP, so that they go on for ever.
fn again_and_again(inside: &[u16]) -> Vec<u8> {
    file(&[], &in_loops(1, &trip_rows(inside)))
}

/// An AND of so many branches, again and again: every other one is a FUNCTION
/// that kills, those between are FUNCTIONs in rounds.
pub fn trips_again(branches: usize) -> Vec<u8> {
    let trip = [KILLING_BRANCH, FUNCTION].as_slice();
    let rounds = [BRANCH, IT_OPEN, FUNCTION, IT_CLOSE].as_slice();
    let mut kinds = vec![AND_OPEN];
    for branch in 0..branches {
        kinds.extend(if branch % 2 == 0 { trip } else { rounds });
    }
    kinds.push(AND_CLOSE);
    again_and_again(&kinds)
}

/// A FUNCTION and an AND of so many branches, again and again: each branch is an
/// IT that kills.
pub fn killing_rounds_again(branches: usize) -> Vec<u8> {
    let mut kinds = vec![FUNCTION, AND_OPEN];
    kinds.extend([KILLING_BRANCH, IT_OPEN, IT_CLOSE].repeat(branches));
    kinds.push(AND_CLOSE);
    again_and_again(&kinds)
}

/// So many ANDs one in the other, again and again: each lies in the killing
/// branch of the next one out, beside a FUNCTION.
pub fn deep_trips_again(depth: usize) -> Vec<u8> {
    let mut kinds = [AND_OPEN, KILLING_BRANCH].repeat(depth);
    kinds.push(FUNCTION);
    kinds.extend([BRANCH, FUNCTION, AND_CLOSE].repeat(depth));
    again_and_again(&kinds)
}

/// LP, a FUNCTION of this α that may last, LP close, END: "an LP with no FUNCTION
/// of α at least 1" if it is 0.
pub fn loop_of_alpha(alpha: u16) -> Vec<u8> {
    file(&[], &in_loops(1, &[function_record(alpha, u16::MAX, &[])]))
}

/// "A drawing let the panel spin in a loop between two ticks", row 1: FUNCTIONs
/// spend time right before its open and right behind its close, none between.
pub fn spinning_panel() -> Vec<u8> {
    let mut panel = in_loops(1, &[function_record(0, u16::MAX, &[])]);
    let spends_time = function_record(1, 9, &[]);
    panel.insert(0, spends_time.clone());
    panel.insert(panel.len() - 1, spends_time);
    file(&[], &panel)
}

/// As many LP one in the other as may be open, in as many rows as there may be:
/// of the FUNCTIONs in the innermost one only the last spends time.
pub fn deep_loops() -> Vec<u8> {
    let functions = MOST_ROWS - 2 * MOST_OPEN - 1;
    let mut inside = vec![function_record(0, 9, &[]); functions - 1];
    inside.push(function_record(1, 9, &[]));
    file(&[], &in_loops(MOST_OPEN, &inside))
}

/// Fig. 1.5 of the report: F1, the decomposed function FD, F2. In FD's scenario an
/// OR of SubFD1 and SubFD2, each with its EXIT; behind the outlets Fa and Fb.
pub fn decomposed() -> Vec<u8> {
    let rows = trip_rows(&[
        FUNCTION,
        BOX_OPEN,
        OR_OPEN,
        BRANCH,
        FUNCTION,
        exit_to(0),
        BRANCH,
        FUNCTION,
        exit_to(1),
        OR_CLOSE,
        BRANCH,
        FUNCTION,
        BRANCH,
        FUNCTION,
        BOX_CLOSE,
        FUNCTION,
        END,
    ]);
    file(&[], &rows)
}

/// The rows of `decomposed`.
pub const F1: u16 = 0;
pub const FD: u16 = 1;
pub const SUB_FD_2: u16 = 7;
pub const EXIT_B: u16 = 8;
pub const FB: u16 = 13;
pub const FD_CLOSE: u16 = 14;
pub const F2: u16 = 15;

/// A door is opened while a fan runs in rounds and a pump runs: the EXIT of row 4
/// leaves them all by outlet 1, whose row follows; that of row 11 by outlet 0,
/// which is empty.
pub fn door_box() -> Vec<u8> {
    let rows = trip_rows(&[
        BOX_OPEN,
        AND_OPEN,
        BRANCH,
        FUNCTION,
        exit_to(1),
        BRANCH,
        IT_OPEN,
        FUNCTION,
        IT_CLOSE,
        BRANCH,
        FUNCTION,
        exit_to(0),
        AND_CLOSE,
        BRANCH,
        BRANCH,
        FUNCTION,
        BOX_CLOSE,
        END,
    ]);
    file(&[], &rows)
}

/// A box in a box, in a loop: the inner one's outlet 1 ends in an EXIT of the outer
/// one (row 12), which also has a straight one (row 15). An LE in the outer one's
/// outlet leaves the loop.
pub fn box_in_box() -> Vec<u8> {
    let rows = trip_rows(&[
        LP_OPEN,
        BOX_OPEN,
        IT_OPEN,
        BOX_OPEN,
        OR_OPEN,
        BRANCH,
        exit_to(1),
        BRANCH,
        OR_CLOSE,
        exit_to(0),
        BRANCH,
        BRANCH,
        exit_to(0),
        BOX_CLOSE,
        IT_CLOSE,
        exit_to(1),
        BRANCH,
        FUNCTION,
        BRANCH,
        OR_OPEN,
        BRANCH,
        LOOP_EXIT,
        BRANCH,
        OR_CLOSE,
        BOX_CLOSE,
        LP_CLOSE,
        END,
    ]);
    file(&[], &rows)
}

/// Boxes one behind the other, again and again, by turns of an AND and of an OR: of
/// the AND two branches end in EXIT beside rounds, of the OR both do.
pub fn wide_boxes_again(boxes: usize) -> Vec<u8> {
    let of_and = [
        BOX_OPEN,
        AND_OPEN,
        BRANCH,
        FUNCTION,
        exit_to(0),
        BRANCH,
        IT_OPEN,
        FUNCTION,
        IT_CLOSE,
        BRANCH,
        FUNCTION,
        exit_to(1),
        AND_CLOSE,
        BRANCH,
        FUNCTION,
        BRANCH,
        BOX_CLOSE,
    ];
    let of_or = [
        BOX_OPEN,
        OR_OPEN,
        BRANCH,
        FUNCTION,
        exit_to(1),
        BRANCH,
        exit_to(0),
        OR_CLOSE,
        BRANCH,
        BRANCH,
        FUNCTION,
        BOX_CLOSE,
    ];
    let mut kinds = Vec::new();
    for number in 0..boxes {
        let each = if number % 2 == 0 { &of_and[..] } else { &of_or };
        kinds.extend(each);
    }
    again_and_again(&kinds)
}

/// As many rows as there may be and as many constructs open together, again and
/// again: an LP, eight boxes one in the other, two ITs and an OR. Of a box's two
/// EXITs one is the last row of its scenario; the other stands in an outlet of the
/// next box in, or in the OR. FUNCTIONs stand in the OR, before the outermost box
/// and in its inner three's outlets.
pub fn deep_boxes_again() -> Vec<u8> {
    let boxes = 8;
    let mut kinds = vec![FUNCTION];
    kinds.extend(vec![BOX_OPEN; boxes]);
    kinds.extend([IT_OPEN, IT_OPEN, OR_OPEN, BRANCH, exit_to(0)]);
    kinds.extend([BRANCH, FUNCTION, OR_CLOSE, IT_CLOSE, IT_CLOSE]);
    for number in 0..boxes {
        kinds.extend([exit_to(1), BRANCH]);
        kinds.extend((number < 3).then_some(FUNCTION));
        kinds.push(BRANCH);
        kinds.extend((number + 1 < boxes).then_some(exit_to(0)));
        kinds.push(BOX_CLOSE);
    }
    again_and_again(&kinds)
}

/// A FUNCTION of a tick or more that runs again and again.
pub fn again() -> Vec<u8> {
    loop_of_alpha(1)
}

/// The FUNCTION of `again`.
pub const AGAIN_ROW: u16 = 1;

/// An IT in an IT, with the most turns that they may have, around a FUNCTION of
/// any number of ticks: it may run again at the same tick.
pub fn rounds() -> Vec<u8> {
    let kinds = [IT_OPEN, IT_OPEN, FUNCTION, IT_CLOSE, IT_CLOSE, END];
    let function = function_record(0, u16::MAX, &[]);
    file(&[], &rows_with(&kinds, &function, MOST_TURNS))
}

/// The FUNCTION of `rounds`.
pub const ROUNDS_ROW: u16 = 2;
const MOST_TURNS: u16 = 255;

/// A log of `rounds` whose FUNCTION starts at these times, the first at 0; it
/// ends at the tick at which it starts again.
pub fn log_of_starts(times: &[u16]) -> Vec<u8> {
    let mut moves = Vec::new();
    let mut now = 0;
    for (number, time) in times.iter().enumerate() {
        let mut steps = Vec::new();
        if number > 0 {
            moves.extend((*time > now).then(|| (WAIT, time - now)));
            steps.extend([ROUNDS_ROW, 3]);
        }
        if number % usize::from(MOST_TURNS) == 0 {
            // The inner IT has had its turns: the outer one turns.
            steps.extend(if number > 0 { &[1, 4, 0][..] } else { &[0] });
        }
        steps.extend([1, ROUNDS_ROW]);
        moves.extend(steps.into_iter().map(|row| (STEP, row)));
        now = *time;
    }
    log(&moves)
}

/// A log of `again` of this many moves, whose FUNCTION runs for so many ticks
/// each time: rounds of five moves.
pub fn log_of_rounds(ticks: u16, move_count: usize) -> Vec<u8> {
    let round = [
        (STEP, 0),
        (STEP, AGAIN_ROW),
        (WAIT, ticks),
        (STEP, AGAIN_ROW),
        (STEP, 2),
    ];
    let moves: Vec<_> = round.into_iter().cycle().take(move_count).collect();
    log(&moves)
}
