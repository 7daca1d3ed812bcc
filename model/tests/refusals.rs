//! "Returned when turned away": every number with its value, the order of the
//! refusals, and nothing lent altered.

mod common;

use common::{assert_file_refused, fresh, fresh_net, net_of, refused};
use model::bus::{self, Telegram};
use model::diagram::{file, file_of, function_record, read};
use model::diagram_step::{self, activity, clock, turns};
use model::examples::{self, nested, rows, TIMELESS};
use model::records::{
    record, shape, AND_CLOSE, AND_OPEN, BRANCH, END, EXIT, FUNCTION, HEAD, ITEM, IT_CLOSE, IT_OPEN,
    KILLING_BRANCH, LOOP_EXIT, LP_CLOSE, LP_OPEN, OR_CLOSE, OR_OPEN, TRIGGER,
};
use model::transitions::transition;
use model::translate::translate;
use model::{net_step, Answer};

/// Example A with the 16-bit word at this offset set.
fn a_with(offset: usize, value: u16) -> Vec<u8> {
    let mut bytes = examples::a();
    bytes[offset..offset + 2].copy_from_slice(&value.to_le_bytes());
    bytes
}

#[test]
fn lengths_are_the_fields_lengths() {
    for kind in 0..=u16::MAX {
        if let Some((base_length, field_count)) = shape(kind) {
            assert_eq!(base_length, 4 + 2 * field_count);
        }
    }
    let kinds = (0..=u16::MAX).filter(|kind| shape(*kind).is_some());
    assert_eq!(kinds.count(), 27);
}

#[test]
fn cut_files() {
    let a = examples::a();
    for cut in 0..a.len() {
        let offset = match cut {
            0..=9 => 0,
            10..=15 => 10,
            16..=29 => 16,
            _ => 30,
        };
        assert_file_refused(&a[..cut], 1, offset);
    }
}

#[test]
fn kinds_not_due() {
    for kind in [0, 2, 16, 27, 32, 65_535] {
        assert_file_refused(&a_with(2, kind), 2, 0);
    }
    for kind in [0, 1, 4, 16, 27] {
        assert_file_refused(&a_with(12, kind), 2, 10);
    }
    for kind in [1, 2, 3, 15, 32, 35, 48] {
        assert_file_refused(&a_with(18, kind), 2, 16);
    }
    // 28 to 31 are due there; their length is wrong.
    for kind in KILLING_BRANCH..=EXIT {
        assert_file_refused(&a_with(18, kind), 3, 16);
    }
}

#[test]
fn lengths_wrong() {
    for length in [0, 4, 8, 9, 11, 65_535] {
        assert_file_refused(&a_with(0, length), 3, 0);
    }
    assert_file_refused(&a_with(10, 4), 3, 10);
    // One use may be there, no other number of bytes; two uses are too many.
    for length in [0, 4, 7, 9, 13, 15, 20, 26, 65_534] {
        assert_file_refused(&a_with(16, length), 3, 16);
    }
    assert_file_refused(&a_with(30, 6), 3, 30);
    // Also where the file is cut short.
    assert_file_refused(&a_with(16, 20)[..20], 3, 16);
    assert_file_refused(&a_with(0, 12)[..4], 3, 0);
    // Kind before length.
    assert_file_refused(&[9, 0, 9, 0], 2, 0);
}

#[test]
fn head_values_off() {
    for edition in [0, 2, 256] {
        assert_file_refused(&a_with(4, edition), 4, 0);
    }
    for row_count in [0, 65, 256 + 2] {
        assert_file_refused(&a_with(6, row_count), 4, 0);
    }
    for item_count in [17, 256] {
        assert_file_refused(&a_with(8, item_count), 4, 0);
    }
    // All 16 items and their uses are fine.
    let uses: Vec<[u16; 3]> = (0..16).map(|item| [item, 1, 1]).collect();
    let most = file(&[1; 16], &[function_record(0, 0, &uses), record(END, &[])]);
    assert_eq!(read(&most), Ok(22));
}

#[test]
fn fields_off() {
    assert_file_refused(&a_with(20, 6), 5, 16);
    assert_eq!(read(&a_with(20, 5)), Ok(7));
    assert_file_refused(&a_with(24, 1), 5, 16);
    assert_file_refused(&a_with(26, 0), 5, 16);
    let with_uses = |uses: &[[u16; 3]]| {
        let rows = [function_record(0, 0, uses), record(END, &[])];
        file(&[0, 0, 0], &rows)
    };
    assert_file_refused(&with_uses(&[[1, 1, 0], [1, 1, 0]]), 5, 28);
    assert_file_refused(&with_uses(&[[2, 1, 0], [1, 1, 0]]), 5, 28);
    assert_file_refused(&with_uses(&[[0, 1, 0], [1, 0, 0]]), 5, 28);
    assert_file_refused(&with_uses(&[[0, 1, 0], [3, 0, 1]]), 5, 28);
    assert_eq!(read(&with_uses(&[[0, 1, 0], [2, 0, 1]])), Ok(9));
    for count in [0, 1, 256, 65_535] {
        let rows = [
            record(IT_OPEN, &[count]),
            record(IT_CLOSE, &[]),
            record(END, &[]),
        ];
        assert_file_refused(&file(&[], &rows), 5, 10);
    }
    for count in [2, 255] {
        let rows = [
            record(IT_OPEN, &[count]),
            record(IT_CLOSE, &[]),
            record(END, &[]),
        ];
        assert_eq!(read(&file(&[], &rows)), Ok(9));
    }
}

/// A plain item, a trigger and a plain item; FUNCTIONs with these uses from
/// offset 28 on, and END.
fn mixed_items(functions: &[&[[u16; 3]]]) -> Vec<u8> {
    let items = [ITEM, TRIGGER, ITEM].map(|kind| record(kind, &[1]));
    let mut rows: Vec<Vec<u8>> = functions
        .iter()
        .map(|uses| function_record(0, 0, uses))
        .collect();
    rows.push(record(END, &[]));
    file_of(&items, &rows)
}

#[test]
fn triggers_off() {
    for (take, give) in [(2, 0), (0, 2), (1, 2), (2, 1), (256, 0), (0, 65_535)] {
        let off: [&[[u16; 3]]; 3] = [
            &[[1, take, give]],
            &[[0, 2, 2], [1, take, give]],
            &[[1, take, give], [2, 0, 3]],
        ];
        for uses in off {
            assert_file_refused(&mixed_items(&[uses]), 43, 28);
        }
    }
    // Plain items may have any take and give; a trigger 0 or 1 of each.
    for (take, give) in [(1, 0), (0, 1), (1, 1)] {
        let uses = [[0, 2, 65_535], [1, take, give], [2, 65_535, 2]];
        let copies = u32::from(take);
        assert_eq!(read(&mixed_items(&[&uses])), Ok(6 + 3 + copies));
    }
}

/// "After 5 at the same record", wherever in it; a record before decides.
#[test]
fn triggers_off_after_fields_off() {
    let five: [&[[u16; 3]]; 5] = [
        &[[0, 0, 0], [1, 2, 0]],
        &[[1, 2, 0], [2, 0, 0]],
        &[[1, 2, 0], [3, 1, 0]],
        &[[1, 2, 0], [1, 1, 0]],
        &[[1, 2, 0], [0, 1, 0]],
    ];
    for uses in five {
        assert_file_refused(&mixed_items(&[uses]), 5, 28);
        // Record by record: the one before is 43, the one behind 5, and so round.
        assert_file_refused(&mixed_items(&[&[[1, 2, 0]], uses]), 43, 28);
        assert_file_refused(&mixed_items(&[uses, &[[1, 2, 0]]]), 5, 28);
        assert_file_refused(&mixed_items(&[&[], &[[1, 0, 2]]]), 43, 36);
    }
    let late = [function_record(2, 1, &[[0, 2, 0]]), record(END, &[])];
    let trigger = [record(TRIGGER, &[1])];
    assert_file_refused(&file_of(&trigger, &late), 5, 16);
    // Before the bytes behind the last record, and before the nesting.
    let mut longer = mixed_items(&[&[[1, 2, 0]]]);
    longer.push(0);
    assert_file_refused(&longer, 43, 28);
    let unclosed = [record(LP_OPEN, &[]), function_record(0, 0, &[[0, 0, 2]])];
    assert_file_refused(&file_of(&trigger, &unclosed), 43, 20);
    // More uses than items is 3, also of triggers.
    let too_many = [
        function_record(0, 0, &[[0, 2, 0], [1, 1, 0]]),
        record(END, &[]),
    ];
    assert_file_refused(&file_of(&trigger, &too_many), 3, 16);
}

#[test]
fn bytes_after_the_last_record() {
    for more in 1..6 {
        let mut bytes = examples::a();
        bytes.extend(vec![27; more]);
        assert_file_refused(&bytes, 6, 34);
    }
    // Before the nesting: END twice, one of them not counted.
    let mut bytes = file(&[], &rows(&[BRANCH]));
    bytes.extend(record(END, &[]));
    assert_file_refused(&bytes, 6, 14);
}

#[test]
fn nesting_broken() {
    let cases: [(&[u16], u32); 27] = [
        (&[FUNCTION], 0),
        (&[FUNCTION, FUNCTION], 1),
        (&[END, END], 0),
        (&[BRANCH, END], 0),
        (&[AND_CLOSE, END], 0),
        (&[LP_CLOSE, END], 0),
        (&[AND_OPEN, END], 1),
        (&[AND_OPEN, FUNCTION, BRANCH, BRANCH, AND_CLOSE, END], 1),
        (&[OR_OPEN, OR_CLOSE, END], 1),
        (&[AND_OPEN, BRANCH, AND_CLOSE, END], 2),
        (&[OR_OPEN, BRANCH, OR_CLOSE, END], 2),
        (&[AND_OPEN, BRANCH, BRANCH, OR_CLOSE, END], 3),
        (&[OR_OPEN, BRANCH, BRANCH, AND_CLOSE, END], 3),
        (&[AND_OPEN, BRANCH, BRANCH, END], 3),
        (&[AND_OPEN, BRANCH, BRANCH, AND_CLOSE], 3),
        (&[IT_OPEN, LP_CLOSE, END], 1),
        (&[LP_OPEN, IT_CLOSE, END], 1),
        (&[LP_OPEN, END], 1),
        (&[IT_OPEN, BRANCH, IT_CLOSE, END], 1),
        (&[LP_OPEN, BRANCH, LP_CLOSE, END], 1),
        (&[AND_OPEN, BRANCH, LP_OPEN, BRANCH, END], 3),
        (&[AND_OPEN, BRANCH, BRANCH, LP_OPEN, AND_CLOSE, END], 4),
        (&[LP_OPEN, LP_CLOSE, LP_CLOSE, END], 2),
        (&[AND_OPEN, BRANCH, END, BRANCH, AND_CLOSE, END], 2),
        // 7 comes before 8: an LE behind an open, and as last row.
        (&[LP_OPEN, AND_OPEN, LOOP_EXIT, BRANCH, END], 2),
        (&[LP_OPEN, AND_OPEN, BRANCH, LOOP_EXIT], 3),
        // The LE stands, the close after one BRANCH does not.
        (&[LP_OPEN, OR_OPEN, BRANCH, LOOP_EXIT, OR_CLOSE, END], 4),
    ];
    for (kinds, row) in cases {
        assert_file_refused(&nested(kinds), 7, row);
    }
}

#[test]
fn loop_exit_misplaced() {
    let cases: [(&[u16], u32); 10] = [
        (&[LOOP_EXIT, END], 0),
        (&[LP_OPEN, LOOP_EXIT, LP_CLOSE, END], 1),
        (&[IT_OPEN, LOOP_EXIT, IT_CLOSE, END], 1),
        (&[AND_OPEN, BRANCH, LOOP_EXIT, BRANCH, AND_CLOSE, END], 2),
        (&[IT_OPEN, OR_OPEN, BRANCH, LOOP_EXIT, BRANCH, END], 3),
        (&[LP_OPEN, AND_OPEN, BRANCH, LOOP_EXIT, END], 3),
        (&[LP_OPEN, AND_OPEN, BRANCH, LOOP_EXIT, FUNCTION, END], 3),
        (
            &[LP_OPEN, AND_OPEN, BRANCH, BRANCH, LOOP_EXIT, OR_CLOSE, END],
            4,
        ),
        (
            &[LP_OPEN, OR_OPEN, BRANCH, BRANCH, LOOP_EXIT, AND_CLOSE, END],
            4,
        ),
        // The loop lies inside the branch but is not innermost.
        (
            &[LP_OPEN, AND_OPEN, BRANCH, LP_OPEN, LOOP_EXIT, LP_CLOSE, END],
            4,
        ),
    ];
    for (kinds, row) in cases {
        assert_file_refused(&nested(kinds), 8, row);
    }
    // The loop has been closed before.
    let kinds = [
        LP_OPEN, LP_CLOSE, OR_OPEN, BRANCH, LOOP_EXIT, BRANCH, OR_CLOSE, END,
    ];
    assert_file_refused(&nested(&kinds), 8, 4);
    // Some open LP, not the next one out.
    let kinds = [
        LP_OPEN, IT_OPEN, OR_OPEN, BRANCH, LOOP_EXIT, BRANCH, LOOP_EXIT, OR_CLOSE, IT_CLOSE,
        FUNCTION, LP_CLOSE, END,
    ];
    assert_eq!(read(&nested(&kinds)), Ok(36));
}

/// 28 as here, so that a list of kinds has room.
const KILLS: u16 = KILLING_BRANCH;

/// Refusal 44: the next row is a BRANCH of either kind or the AND's close,
/// "whatever comes later".
#[test]
fn killing_branch_empty() {
    let cases: [(&[u16], u32); 12] = [
        // First, middle, last, each of two.
        (&[AND_OPEN, KILLS, BRANCH, AND_CLOSE, END], 1),
        (&[AND_OPEN, KILLS, KILLS, FUNCTION, AND_CLOSE, END], 1),
        (&[AND_OPEN, BRANCH, KILLS, BRANCH, AND_CLOSE, END], 2),
        (
            &[AND_OPEN, BRANCH, KILLS, KILLS, FUNCTION, AND_CLOSE, END],
            2,
        ),
        (&[AND_OPEN, BRANCH, KILLS, AND_CLOSE, END], 2),
        (&[AND_OPEN, KILLS, FUNCTION, KILLS, AND_CLOSE, END], 3),
        // Before a 7 of a later row: one BRANCH, another's close, an END.
        (&[AND_OPEN, KILLS, AND_CLOSE, END], 1),
        (&[AND_OPEN, KILLS, BRANCH, OR_CLOSE, END], 1),
        (&[AND_OPEN, KILLS, KILLS, END, END], 1),
        (&[AND_OPEN, KILLS, AND_CLOSE, AND_CLOSE, FUNCTION], 1),
        // Before an 8 and a 9 of a later row.
        (&[AND_OPEN, KILLS, BRANCH, LOOP_EXIT, AND_CLOSE, END], 1),
        (
            &[
                AND_OPEN, KILLS, BRANCH, LP_OPEN, LP_OPEN, LP_OPEN, LP_OPEN, LP_OPEN, LP_OPEN,
                LP_OPEN, LP_OPEN, LP_OPEN, LP_OPEN, LP_OPEN, LP_OPEN, END,
            ],
            1,
        ),
    ];
    for (kinds, row) in cases {
        assert_file_refused(&nested(kinds), 44, row);
    }
    // An 8 of an earlier row comes first.
    let kinds = [LOOP_EXIT, AND_OPEN, KILLS, BRANCH, AND_CLOSE, END];
    assert_file_refused(&nested(&kinds), 8, 0);
    let kinds = [AND_OPEN, BRANCH, LOOP_EXIT, KILLS, AND_CLOSE, END];
    assert_file_refused(&nested(&kinds), 8, 2);
    // With an LE, a FUNCTION or another AND in it it is not empty.
    let accepted: [&[u16]; 4] = [
        &[AND_OPEN, KILLS, FUNCTION, BRANCH, AND_CLOSE, END],
        &[AND_OPEN, BRANCH, KILLS, FUNCTION, AND_CLOSE, END],
        &[
            LP_OPEN, AND_OPEN, KILLS, LOOP_EXIT, KILLS, LOOP_EXIT, AND_CLOSE, FUNCTION, LP_CLOSE,
            END,
        ],
        &[
            AND_OPEN, KILLS, AND_OPEN, BRANCH, BRANCH, AND_CLOSE, KILLS, IT_OPEN, IT_CLOSE,
            AND_CLOSE, END,
        ],
    ];
    for kinds in accepted {
        assert_eq!(read(&nested(kinds)), Ok(3 * kinds.len() as u32));
    }
}

/// Row 28 where it may not stand, and behind an LE, where "as a next row it
/// counts as any BRANCH".
#[test]
fn killing_branch_misplaced() {
    let cases: [(&[u16], u32); 14] = [
        (&[KILLS], 0),
        (&[KILLS, END], 0),
        (&[KILLS, AND_CLOSE, END], 0),
        (&[OR_OPEN, KILLS, FUNCTION, BRANCH, OR_CLOSE, END], 1),
        (&[OR_OPEN, BRANCH, KILLS, FUNCTION, OR_CLOSE, END], 2),
        (&[OR_OPEN, BRANCH, KILLS, OR_CLOSE, END], 2),
        (&[OR_OPEN, BRANCH, KILLS, BRANCH, OR_CLOSE, END], 2),
        (&[IT_OPEN, KILLS, IT_CLOSE, END], 1),
        (&[LP_OPEN, KILLS, FUNCTION, LP_CLOSE, END], 1),
        (&[AND_OPEN, KILLS], 1),
        (&[AND_OPEN, KILLS, FUNCTION, KILLS], 3),
        // Not empty: another row than a BRANCH or its own close follows.
        (&[AND_OPEN, KILLS, OR_CLOSE, END], 2),
        (&[AND_OPEN, KILLS, END, END], 2),
        // In an AND of one BRANCH the close is what may not follow.
        (&[AND_OPEN, KILLS, FUNCTION, AND_CLOSE, END], 3),
    ];
    for (kinds, row) in cases {
        assert_file_refused(&nested(kinds), 7, row);
    }
    let kinds = [LP_OPEN, OR_OPEN, BRANCH, LOOP_EXIT, KILLS, FUNCTION, END];
    assert_file_refused(&nested(&kinds), 7, 4);
    // The last row is 7 even where an LE stands behind AND open.
    let kinds = [LP_OPEN, AND_OPEN, BRANCH, LOOP_EXIT, KILLS];
    assert_file_refused(&nested(&kinds), 7, 4);
    let kinds = [LP_OPEN, AND_OPEN, BRANCH, LOOP_EXIT, KILLS, BRANCH, END];
    assert_file_refused(&nested(&kinds), 44, 4);
}

#[test]
fn a_13th_open() {
    assert_file_refused(&examples::many_open(13), 9, 12);
    // Rows upward: the 13th open before the broken end.
    let mut kinds = vec![IT_OPEN; 13];
    kinds.push(BRANCH);
    kinds.push(END);
    assert_file_refused(&nested(&kinds), 9, 12);
    // At one row 7 before 9: BRANCH is due, or END.
    let mut kinds = vec![LP_OPEN; 11];
    kinds.extend([AND_OPEN, LP_OPEN, END]);
    assert_file_refused(&nested(&kinds), 7, 12);
    assert_file_refused(&nested(&[LP_OPEN; 13]), 7, 12);
    // Side by side they do not count together.
    let mut kinds = [LP_OPEN, FUNCTION, LP_CLOSE].repeat(20);
    kinds.push(END);
    assert_eq!(read(&nested(&kinds)), Ok(183));
}

/// Refusal 45, at the lowest LP without a FUNCTION of α at least 1.
#[test]
fn loop_spends_no_time() {
    let cases: [(&[u16], u32); 14] = [
        (&[LP_OPEN, LP_CLOSE, END], 0),
        (&[LP_OPEN, TIMELESS, LP_CLOSE, END], 0),
        // Time right before the open and right behind the close.
        (&[FUNCTION, LP_OPEN, TIMELESS, LP_CLOSE, FUNCTION, END], 1),
        // The second of two, and the first of two that spend none.
        (&[LP_OPEN, FUNCTION, LP_CLOSE, LP_OPEN, LP_CLOSE, END], 3),
        (&[LP_OPEN, TIMELESS, LP_CLOSE, LP_OPEN, LP_CLOSE, END], 0),
        // Inside one that spends time, before it and behind it.
        (&[LP_OPEN, FUNCTION, LP_OPEN, LP_CLOSE, LP_CLOSE, END], 2),
        (&[LP_OPEN, LP_OPEN, LP_CLOSE, FUNCTION, LP_CLOSE, END], 1),
        // The time of another loop inside is not its own.
        (
            &[
                LP_OPEN, LP_OPEN, FUNCTION, LP_CLOSE, LP_OPEN, TIMELESS, LP_CLOSE, LP_CLOSE, END,
            ],
            4,
        ),
        // The outer one has none either.
        (&[LP_OPEN, LP_OPEN, LP_CLOSE, LP_CLOSE, END], 0),
        (
            &[
                LP_OPEN, TIMELESS, LP_OPEN, TIMELESS, LP_CLOSE, LP_CLOSE, END,
            ],
            0,
        ),
        // An IT's count, a branch that kills and an LE are no time.
        (&[LP_OPEN, IT_OPEN, TIMELESS, IT_CLOSE, LP_CLOSE, END], 0),
        (
            &[
                LP_OPEN, AND_OPEN, KILLS, TIMELESS, BRANCH, AND_CLOSE, LP_CLOSE, END,
            ],
            0,
        ),
        (
            &[
                LP_OPEN, OR_OPEN, BRANCH, LOOP_EXIT, BRANCH, OR_CLOSE, LP_CLOSE, END,
            ],
            0,
        ),
        (&[IT_OPEN, LP_OPEN, LP_CLOSE, IT_CLOSE, FUNCTION, END], 1),
    ];
    for (kinds, row) in cases {
        assert_file_refused(&nested(kinds), 45, row);
    }
    assert_file_refused(&examples::spinning_panel(), 45, 1);
    let empty = [vec![LP_OPEN; 12], vec![LP_CLOSE; 12], vec![END]].concat();
    assert_file_refused(&nested(&empty), 45, 0);
}

/// "Between open and close", at any depth, inner loops included.
#[test]
fn loop_spends_time() {
    let accepted: [&[u16]; 9] = [
        &[LP_OPEN, TIMELESS, FUNCTION, LP_CLOSE, TIMELESS, END],
        &[LP_OPEN, LP_OPEN, FUNCTION, LP_CLOSE, LP_CLOSE, END],
        &[
            LP_OPEN, TIMELESS, LP_OPEN, FUNCTION, LP_CLOSE, TIMELESS, LP_CLOSE, END,
        ],
        &[LP_OPEN, IT_OPEN, FUNCTION, IT_CLOSE, LP_CLOSE, END],
        &[
            LP_OPEN, OR_OPEN, BRANCH, BRANCH, FUNCTION, OR_CLOSE, LP_CLOSE, END,
        ],
        &[
            LP_OPEN, AND_OPEN, BRANCH, BRANCH, FUNCTION, AND_CLOSE, LP_CLOSE, END,
        ],
        &[
            LP_OPEN, AND_OPEN, KILLS, FUNCTION, BRANCH, AND_CLOSE, LP_CLOSE, END,
        ],
        // An LE may come first; rounds of an IT need no time.
        &[
            LP_OPEN, OR_OPEN, BRANCH, LOOP_EXIT, BRANCH, FUNCTION, OR_CLOSE, LP_CLOSE, END,
        ],
        &[IT_OPEN, TIMELESS, IT_OPEN, IT_CLOSE, IT_CLOSE, END],
    ];
    for kinds in accepted {
        assert_eq!(read(&nested(kinds)), Ok(3 * kinds.len() as u32));
    }
    // Either byte of α.
    for alpha in [1, 2, 255, 256, 512, 0x8000, 0xFF00, u16::MAX] {
        assert_eq!(read(&examples::loop_of_alpha(alpha)), Ok(12));
    }
    assert_file_refused(&examples::loop_of_alpha(0), 45, 0);
    assert_eq!(read(&examples::h()), Ok(27));
}

/// "After the whole walk up to 9"; `assert_file_refused` lends short areas too.
#[test]
fn loops_come_after_the_walk() {
    let open_13 = [vec![LP_OPEN, LP_CLOSE], vec![LP_OPEN; 13], vec![END]].concat();
    let cases: [(&[u16], u32, u32); 6] = [
        (&[LP_OPEN, LP_CLOSE], 7, 1),
        (&[LP_OPEN, TIMELESS, LP_CLOSE, AND_OPEN, END], 7, 4),
        (&[LP_OPEN, LP_CLOSE, LOOP_EXIT, END], 8, 2),
        (
            &[LP_OPEN, LP_CLOSE, AND_OPEN, KILLS, BRANCH, AND_CLOSE, END],
            44,
            3,
        ),
        (&open_13, 9, 14),
        // In the loop itself.
        (&[LP_OPEN, LOOP_EXIT, LP_CLOSE, END], 8, 1),
    ];
    for (kinds, number, row) in cases {
        assert_file_refused(&nested(kinds), number, row);
    }
    let timeless = nested(&[LP_OPEN, LP_CLOSE, FUNCTION, END]);
    assert_file_refused(&timeless, 45, 0);
    assert_file_refused(&[&timeless[..], &[0]].concat(), 6, 30);
    assert_file_refused(&timeless[..29], 1, 26);
    // The FUNCTION's α above its β.
    let mut off = timeless;
    off[22] = 9;
    assert_file_refused(&off, 5, 18);
}

#[test]
fn area_shorter_than_the_net() {
    let a = examples::a();
    for length in [0, 1, 109] {
        let mut area = vec![6; length];
        assert_eq!(translate(&a, &mut area), refused(10, 110));
        assert_eq!(area, vec![6; length]);
    }
    let net = net_of(&a);
    for length in [110, 111, 200] {
        let mut area = vec![6; length];
        assert_eq!(translate(&a, &mut area), Ok(110));
        assert_eq!(area[..110], net);
        assert_eq!(area[110..], vec![6; length - 110]);
    }
}

/// Every call that takes a diagram state says 20 and alters nothing.
fn assert_state_off(file: &[u8], state: &[u16]) {
    let mut lent = state.to_vec();
    let mut area = [6; 14];
    // 20 stands before 21.
    for code in [0, 1, 2] {
        assert_eq!(diagram_step::step(file, &mut lent, code, 1), refused(20, 0));
        let offered = bus::offer(file, &mut lent, u32::MAX, 1, code, 1, &mut area);
        assert_eq!(offered, refused(20, 0));
    }
    // 20 stands before 22.
    for row in [0, 1, 64, 65_535] {
        assert_eq!(transition(file, &lent, row), refused(20, 0));
    }
    assert_eq!(lent, state);
    assert_eq!(area, [6; 14]);
}

#[test]
fn states_off() {
    let a = examples::a();
    let with = |file: &[u8], word: usize, value: u16| {
        let mut state = fresh(file);
        state[word] = value;
        state
    };
    for length in [0, 6, 8] {
        assert_state_off(&a, &vec![0; length]);
        let mut state = vec![5; length];
        assert_eq!(diagram_step::fresh(&a, &mut state), refused(20, 0));
        assert_eq!(state, vec![5; length]);
        let mut state = vec![5; length];
        let net = net_of(&a);
        assert_eq!(net_step::fresh(&net, &mut state), refused(20, 0));
        assert_eq!(net_step::step(&net, &mut state, 0, 0), refused(20, 0));
        assert_eq!(state, vec![5; length]);
    }
    // FUNCTION 0 to 2, END 0 and 1; turns off an IT open; clock off a running row.
    assert_state_off(&a, &with(&a, activity(0), 3));
    assert_state_off(&a, &with(&a, activity(1), 2));
    assert_state_off(&a, &with(&a, turns(0), 1));
    assert_state_off(&a, &with(&a, turns(1), 1));
    assert_state_off(&a, &with(&a, clock(0), 1));
    assert_state_off(&a, &with(&a, clock(1), 1));
    let mut running = with(&a, activity(0), 2);
    running[clock(0)] = 6;
    assert_state_off(&a, &running);
    running[clock(0)] = 5;
    assert_eq!(diagram_step::step(&a, &mut running, 1, 0), Ok(0));
    // IT open: turns up to count, also while idle.
    let f = examples::f();
    assert_state_off(&f, &with(&f, turns(0), 3));
    assert_state_off(&f, &with(&f, turns(1), 1));
    assert_state_off(&f, &with(&f, activity(0), 2));
    assert_state_off(&f, &with(&f, activity(1), 2));
    let mut idle = with(&f, turns(0), 2);
    (idle[activity(0)], idle[activity(1)]) = (0, 1);
    assert_eq!(diagram_step::step(&f, &mut idle, 1, 1), Ok(0));
    // AND open 0 and 1, its BRANCH 0 and 3, its close 0.
    let g = examples::g();
    for (row, value) in [(0, 2), (0, 3), (1, 1), (1, 2), (2, 4), (3, 1), (3, 3)] {
        assert_state_off(&g, &with(&g, activity(row), value));
    }
    // A killing BRANCH too, 0 and 3.
    let trip = examples::pressure_trip();
    for (row, value) in [(1, 1), (1, 2), (1, 4), (3, 1), (9, 3)] {
        assert_state_off(&trip, &with(&trip, activity(row), value));
    }
    for (row, value) in [(1, 3), (3, 3), (7, 3)] {
        let mut state = with(&trip, activity(row), value);
        assert_eq!(diagram_step::step(&trip, &mut state, 1, 0), Ok(0));
    }
    // OR open and close 0 and 1, its BRANCH 0.
    let or = nested(&[OR_OPEN, BRANCH, BRANCH, OR_CLOSE, END]);
    for (row, value) in [(0, 2), (0, 3), (1, 1), (1, 3), (2, 2), (3, 2), (3, 3)] {
        assert_state_off(&or, &with(&or, activity(row), value));
    }
    // A trigger's shared count remains 0; a copy has any.
    let triggers = examples::trigger_before_plain(3, 4);
    for value in [1, 3, 65_535] {
        assert_state_off(&triggers, &with(&triggers, 9, value));
    }
    for word in [10, 11] {
        let mut state = with(&triggers, word, 65_535);
        assert_eq!(diagram_step::step(&triggers, &mut state, 1, 0), Ok(0));
    }
    // LP open, LP close and LE 0 and 1.
    let h = examples::h();
    for (row, value) in [(0, 2), (3, 2), (3, 3), (7, 3)] {
        assert_state_off(&h, &with(&h, activity(row), value));
    }
}

/// One move on the diagram and on the net at its image.
fn assert_moves(file: &[u8], state: &[u16], setpoint: (u16, u16), answers: (Answer, Answer)) {
    let net = net_of(file);
    let image = model::image::image(file, state).expect("image");
    let (mut lent, mut lent_image) = (state.to_vec(), image.clone());
    let (code, argument) = setpoint;
    let by_diagram = diagram_step::step(file, &mut lent, code, argument);
    let by_net = net_step::step(&net, &mut lent_image, code, argument);
    assert_eq!((by_diagram, by_net), answers, "{code} {argument}");
    assert!(by_diagram.is_ok() || lent == state);
    assert!(by_net.is_ok() || lent_image == image);
    // Ahead of 27 and 10 the leader says the same.
    let mut area = [6; 13];
    let offered = bus::offer(file, &mut lent, u32::MAX, 1, code, argument, &mut area);
    if by_diagram.is_err() {
        assert_eq!((offered, lent.as_slice()), (by_diagram, state));
    }
    assert_eq!(area, [6; 13]);
}

#[test]
fn moves_refused() {
    let a = examples::a();
    let state = fresh(&a);
    let same = |number, value| (refused(number, value), refused(number, value));
    for setpoint in [(0, 0), (3, 0), (65_535, 1), (2, 0)] {
        assert_moves(&a, &state, setpoint, same(21, 0));
    }
    for row in [1, 2, 63, 64, 65_535] {
        assert_moves(&a, &state, (1, row), same(22, u32::from(row)));
    }
    // The lowest item short.
    let function = function_record(7, 7, &[[0, 1, 0], [1, 5, 9], [3, 9, 1]]);
    let short = file(&[1, 4, 0, 8], &[function, record(END, &[])]);
    let mut state = fresh(&short);
    let answers = (refused(23, 1), refused(22, 0));
    assert_moves(&short, &state, (1, 0), answers);
    state[7] = 5;
    let answers = (refused(23, 3), refused(22, 0));
    assert_moves(&short, &state, (1, 0), answers);
    // Ticks lacking before a sum too large, then the lowest such item.
    (state[activity(0)], state[7], state[9]) = (2, 65_527, 65_535);
    assert_moves(&short, &state, (1, 0), same(24, 7));
    state[clock(0)] = 7;
    assert_moves(&short, &state, (1, 0), (refused(25, 1), refused(25, 7)));
    state[7] = 65_526;
    assert_moves(&short, &state, (1, 0), (refused(25, 3), refused(25, 9)));
    state[9] = 65_534;
    assert_moves(&short, &state, (1, 0), (Ok(0), Ok(0)));
    assert_moves(&short, &state, (2, 1), same(26, 0));
    assert_moves(&short, &state, (2, 65_535), same(26, 0));
}

#[test]
fn leader_at_its_limit() {
    let b = examples::b();
    let mut state = fresh(&b);
    let mut area = [6; 20];
    // 27 before 10, and only for a move otherwise accepted.
    for length in [0, 13, 14] {
        let lent = &mut area[..length];
        let full = bus::offer(&b, &mut state, u32::MAX, 1, 2, 1, lent);
        assert_eq!(full, refused(27, u32::MAX));
        let not_standing = bus::offer(&b, &mut state, u32::MAX, 1, 1, 0, lent);
        assert_eq!(not_standing, refused(22, 0));
    }
    assert_eq!(area, [6; 20]);
    let last = bus::offer(&b, &mut state, u32::MAX - 1, 1, 2, 1, &mut area);
    assert_eq!(last, Ok(u32::MAX));
    assert_eq!(area[4..8], [255; 4]);
}

#[test]
fn leader_writes_the_first_14_bytes() {
    let a = examples::a();
    for length in 0..14 {
        let mut state = fresh(&a);
        let mut area = vec![6; length];
        let short = bus::offer(&a, &mut state, 0, 1, 1, 0, &mut area);
        assert_eq!(short, refused(10, 14));
        assert_eq!((area, state), (vec![6; length], fresh(&a)));
    }
    let mut state = fresh(&a);
    let mut area = [6; 16];
    let offered = bus::offer(&a, &mut state, 0x0102_0303, 0x0506, 1, 0, &mut area);
    assert_eq!(offered, Ok(0x0102_0304));
    let expected = [14, 0, 48, 0, 4, 3, 2, 1, 6, 5, 1, 0, 0, 0, 6, 6];
    assert_eq!(area, expected);
    assert_eq!(state[activity(0)], 2);
}

#[test]
fn telegrams_refused() {
    let net = net_of(&examples::a());
    let telegram = Telegram {
        number: 6,
        station: 0x0201,
        code: 1,
        argument: 0,
    };
    let bytes = telegram.encode();
    let take = |count: u32, station: u16, bytes: &[u8]| {
        let mut state = fresh_net(&net);
        let answer = bus::take(&net, &mut state, count, station, bytes);
        assert!(answer.is_ok() || state == fresh_net(&net));
        // On a broken net the telegram is looked at first.
        let broken = bus::take(&[], &mut state, count, station, bytes);
        let telegram_refused = answer.is_err_and(|refusal| refusal.number >= 30);
        assert_eq!(
            broken,
            if telegram_refused {
                answer
            } else {
                refused(1, 0)
            }
        );
        answer
    };
    for length in 0..14 {
        assert_eq!(take(5, 0x0201, &bytes[..length]), refused(30, 0));
    }
    let mut longer = bytes.to_vec();
    longer.push(0);
    assert_eq!(take(5, 0x0201, &longer), refused(30, 0));
    for byte in 0..4 {
        let mut off = bytes;
        off[byte] ^= 1;
        assert_eq!(take(5, 0x0201, &off), refused(30, 0));
    }
    // The telegram's station; before its number.
    assert_eq!(take(5, 0x0101, &bytes), refused(31, 0x0201));
    assert_eq!(take(9, 0x0200, &bytes), refused(31, 0x0201));
    // The follower's own count.
    for count in [6, 7, u32::MAX] {
        assert_eq!(take(count, 0x0201, &bytes), refused(32, count));
    }
    for count in [0, 3, 4] {
        assert_eq!(take(count, 0x0201, &bytes), refused(33, count));
    }
    assert_eq!(take(5, 0x0201, &bytes), Ok(6));
    // Then the net's refusals.
    let with_move = |code, argument| {
        let moved = Telegram {
            code,
            argument,
            ..telegram
        };
        take(5, 0x0201, &moved.encode())
    };
    assert_eq!(with_move(0, 0), refused(21, 0));
    assert_eq!(with_move(1, 1), refused(22, 1));
    assert_eq!(with_move(2, 1), refused(26, 0));
    let mut short_state = [0; 8];
    let taken = bus::take(&net, &mut short_state, 5, 0x0201, &bytes);
    assert_eq!(taken, refused(20, 0));
}

#[test]
fn head_and_item_kinds_are_no_rows() {
    for kind in [HEAD, ITEM] {
        let rows = [
            record(kind, &[0; 3][..shape(kind).map_or(0, |s| s.1)]),
            record(END, &[]),
        ];
        assert_file_refused(&file(&[], &rows), 2, 10);
    }
}
