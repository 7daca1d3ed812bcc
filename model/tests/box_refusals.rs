//! Document 02's request 7, "Boxes that open": the refusals, each at its row, and
//! their order.

mod common;

use common::assert_file_refused;
use model::diagram::{file, read};
use model::examples::{exit_to, nested, rows, trip_rows, TIMELESS};
use model::records::{
    record, AND_CLOSE, AND_OPEN, BOX_CLOSE, BOX_OPEN, BRANCH, END, EXIT, FUNCTION, IT_CLOSE,
    IT_OPEN, KILLING_BRANCH, LOOP_EXIT, LP_CLOSE, LP_OPEN, OR_CLOSE, OR_OPEN,
};

/// As here, so that a list of kinds has room.
const KILLS: u16 = KILLING_BRANCH;
const E0: u16 = exit_to(0);
const E1: u16 = exit_to(1);
const E2: u16 = exit_to(2);
const E3: u16 = exit_to(3);

/// An OR of two EXITs.
const TWO: [u16; 6] = [OR_OPEN, BRANCH, E0, BRANCH, E1, OR_CLOSE];
/// A whole box of it, both outlets empty: ten rows.
const BOX: [u16; 10] = [
    BOX_OPEN, OR_OPEN, BRANCH, E0, BRANCH, E1, OR_CLOSE, BRANCH, BRANCH, BOX_CLOSE,
];

/// A box of this scenario and so many empty outlets.
fn boxed(scenario: &[u16], outlets: usize) -> Vec<u16> {
    let mut kinds = vec![BOX_OPEN];
    kinds.extend(scenario);
    kinds.extend(vec![BRANCH; outlets]);
    kinds.push(BOX_CLOSE);
    kinds
}

fn accepted(kinds: &[u16]) {
    let kinds = [kinds, &[END]].concat();
    assert_eq!(
        read(&nested(&kinds)),
        Ok(3 * kinds.len() as u32),
        "{kinds:?}"
    );
}

fn refused(kinds: &[u16], number: u32, row: u32) {
    let kinds = [kinds, &[END]].concat();
    assert_file_refused(&nested(&kinds), number, row);
}

/// Lengths of 29, 30 and 31, and that any field of EXIT passes the records.
#[test]
fn records() {
    let with = |row: Vec<u8>| file(&[], &[vec![row], rows(&[END])].concat());
    for kind in [BOX_OPEN, BOX_CLOSE] {
        assert_file_refused(&with(record(kind, &[0])), 3, 10);
    }
    assert_file_refused(&with(record(EXIT, &[])), 3, 10);
    assert_file_refused(&with(record(EXIT, &[0, 0])), 3, 10);
    for outlet in [0, 1, 64, 255, 256, u16::MAX] {
        // Then the nesting: outside a scenario.
        assert_file_refused(&with(record(EXIT, &[outlet])), 48, 0);
    }
    let cut = with(record(EXIT, &[0]));
    assert_file_refused(&cut[..15], 1, 10);
    assert_file_refused(&cut[..16], 1, 16);
}

/// 7 of rows 29, 30, 18 and 28 where they may not follow.
#[test]
fn nesting_broken() {
    let cases: [(&[u16], u32); 21] = [
        // No outlet, one outlet, with rows in it or not.
        (&[BOX_OPEN, BOX_CLOSE], 1),
        (&[BOX_OPEN, FUNCTION, BOX_CLOSE], 2),
        (&[BOX_OPEN, BRANCH, BOX_CLOSE], 2),
        (&[BOX_OPEN, FUNCTION, BRANCH, FUNCTION, BOX_CLOSE], 4),
        (&[BOX_OPEN, E0, BRANCH, BOX_CLOSE], 3),
        // BRANCH rows of an AND or OR are no outlets.
        (&[BOX_OPEN, OR_OPEN, BRANCH, BRANCH, OR_CLOSE, BOX_CLOSE], 5),
        (
            &[
                BOX_OPEN, E0, BRANCH, AND_OPEN, BRANCH, BRANCH, AND_CLOSE, BOX_CLOSE,
            ],
            7,
        ),
        // 28 as an outlet, the first or a later one, before what else is off.
        (&[BOX_OPEN, FUNCTION, KILLS, FUNCTION, BRANCH, BOX_CLOSE], 2),
        (&[BOX_OPEN, KILLS, BRANCH, BOX_CLOSE], 1),
        (&[BOX_OPEN, E0, BRANCH, KILLS, FUNCTION, BOX_CLOSE], 3),
        (&[BOX_OPEN, E0, BRANCH, KILLS, BOX_CLOSE], 3),
        // "A close needs its own kind innermost."
        (&[BOX_CLOSE], 0),
        (&[OR_OPEN, BRANCH, BRANCH, BOX_CLOSE], 3),
        (&[BOX_OPEN, FUNCTION, BRANCH, BRANCH, OR_CLOSE], 4),
        (&[BOX_OPEN, FUNCTION, LP_CLOSE], 2),
        (&[BOX_OPEN, FUNCTION, BRANCH, BRANCH, IT_OPEN, BOX_CLOSE], 5),
        // END with the box open.
        (&[BOX_OPEN, FUNCTION, BRANCH, BRANCH], 4),
        (&[BOX_OPEN], 1),
        // A BRANCH in an IT or LP of a scenario or an outlet.
        (&[BOX_OPEN, LP_OPEN, BRANCH, BRANCH, BOX_CLOSE], 2),
        (&[BOX_OPEN, E0, BRANCH, IT_OPEN, BRANCH, BOX_CLOSE], 4),
        // "AND open and OR open are followed by BRANCH at once."
        (
            &[AND_OPEN, BOX_OPEN, FUNCTION, BRANCH, BRANCH, BOX_CLOSE],
            1,
        ),
    ];
    for (kinds, row) in cases {
        refused(kinds, 7, row);
    }
    for kind in [BOX_OPEN, BOX_CLOSE, E0] {
        assert_file_refused(&nested(&[kind]), 7, 0);
        assert_file_refused(&nested(&[BOX_OPEN, kind]), 7, 1);
    }
    accepted(&BOX);
}

/// 48: "EXIT outside a scenario, or innermost open construct IT or LP, or next row
/// not BRANCH or that construct's close".
#[test]
fn exit_misplaced() {
    let in_outlet = [
        BOX_OPEN, OR_OPEN, BRANCH, E0, BRANCH, E1, OR_CLOSE, BRANCH, BRANCH, E2, BOX_CLOSE,
    ];
    let in_or_of_outlet = [
        BOX_OPEN, E0, BRANCH, OR_OPEN, BRANCH, E1, BRANCH, OR_CLOSE, BRANCH, BOX_CLOSE,
    ];
    let behind = [&BOX[..], &[E0]].concat();
    let or_behind = [&BOX[..], &TWO].concat();
    let cases: [(&[u16], u32); 20] = [
        // Outside.
        (&[E0], 0),
        (&TWO, 2),
        (&[AND_OPEN, BRANCH, BRANCH, E0, AND_CLOSE], 3),
        (&behind, 10),
        (&or_behind, 12),
        // In an outlet of a box that no scenario is around.
        (&in_outlet, 9),
        (&in_or_of_outlet, 5),
        (&[BOX_OPEN, E0, BRANCH, E1, BRANCH, BOX_CLOSE], 3),
        // Straight in an IT or LP.
        (
            &[
                BOX_OPEN, IT_OPEN, E0, IT_CLOSE, E1, BRANCH, BRANCH, BOX_CLOSE,
            ],
            2,
        ),
        (
            &[
                BOX_OPEN, LP_OPEN, FUNCTION, E0, LP_CLOSE, BRANCH, BRANCH, BOX_CLOSE,
            ],
            3,
        ),
        (&[BOX_OPEN, IT_OPEN, E0, BRANCH, BRANCH, BOX_CLOSE], 2),
        (
            &[
                BOX_OPEN, OR_OPEN, BRANCH, IT_OPEN, E0, IT_CLOSE, BRANCH, OR_CLOSE,
            ],
            4,
        ),
        // The next row: a FUNCTION, another EXIT, an open, END, another's close.
        (&[BOX_OPEN, E0, FUNCTION, BRANCH, BRANCH, BOX_CLOSE], 1),
        (&[BOX_OPEN, E0, E1, BRANCH, BRANCH, BOX_CLOSE], 1),
        (&[BOX_OPEN, E0, OR_OPEN, BRANCH, BRANCH, OR_CLOSE], 1),
        (&[BOX_OPEN, E0], 1),
        (
            &[BOX_OPEN, AND_OPEN, BRANCH, BRANCH, E0, OR_CLOSE, BOX_CLOSE],
            4,
        ),
        (
            &[BOX_OPEN, OR_OPEN, BRANCH, BRANCH, E0, AND_CLOSE, BOX_CLOSE],
            4,
        ),
        (&[BOX_OPEN, OR_OPEN, BRANCH, BRANCH, E0, BOX_CLOSE], 4),
        (&[BOX_OPEN, E0, OR_CLOSE, BRANCH, BRANCH, BOX_CLOSE], 1),
    ];
    for (kinds, row) in cases {
        refused(kinds, 48, row);
    }
}

/// An EXIT that stands: the row behind it is what may not follow.
#[test]
fn exit_stands() {
    let cases: [(&[u16], u32); 5] = [
        (&[BOX_OPEN, E0, BOX_CLOSE], 2),
        (&[BOX_OPEN, E0, KILLS, BRANCH, BOX_CLOSE], 2),
        (
            &[BOX_OPEN, OR_OPEN, BRANCH, E0, KILLS, FUNCTION, OR_CLOSE],
            4,
        ),
        (&[BOX_OPEN, OR_OPEN, BRANCH, E0, OR_CLOSE, E1, BRANCH], 4),
        // 7 before 48 at a row: BRANCH is due.
        (&[BOX_OPEN, AND_OPEN, E0, BRANCH, BRANCH, AND_CLOSE], 2),
    ];
    for (kinds, row) in cases {
        refused(kinds, 7, row);
    }
    // 28 "as a next row counts as any BRANCH"; EXIT alone is not empty.
    accepted(&boxed(&[AND_OPEN, BRANCH, E0, KILLS, E1, AND_CLOSE], 2));
    // 44 stands before the 48 of a later row, and the other way round.
    let empty = [BOX_OPEN, AND_OPEN, KILLS, BRANCH, E0, FUNCTION, AND_CLOSE];
    refused(&empty, 44, 2);
    let later = [BOX_OPEN, AND_OPEN, BRANCH, E0, FUNCTION, KILLS, AND_CLOSE];
    refused(&later, 48, 3);
}

/// "An LE's loop must lie in the LE's own scenario (else 8)."
#[test]
fn loop_exit_over_a_border() {
    let le_in_or = [OR_OPEN, BRANCH, LOOP_EXIT, BRANCH, E0, OR_CLOSE, E1];
    let in_box = |scenario: &[u16]| boxed(scenario, 2);
    let in_loop = |kinds: &[u16]| [&[LP_OPEN, FUNCTION], kinds, &[LP_CLOSE]].concat();
    refused(&in_loop(&in_box(&le_in_or)), 8, 5);
    // Two borders, the loop between them or outside of both.
    let inner = in_box(&le_in_or);
    let outer = in_box(&[&inner[..], &[E0]].concat());
    refused(&in_loop(&outer), 8, 6);
    let between = in_box(&[&in_loop(&inner)[..], &TWO].concat());
    refused(&between, 8, 6);
    // Straight in a scenario or an outlet the innermost is the box.
    let straight = [LP_OPEN, BOX_OPEN, LOOP_EXIT, BRANCH, BRANCH, BOX_CLOSE];
    refused(&straight, 8, 2);
    let in_outlet = [LP_OPEN, BOX_OPEN, E0, BRANCH, LOOP_EXIT, BRANCH, BOX_CLOSE];
    refused(&in_outlet, 8, 4);
    let before_30 = [LP_OPEN, BOX_OPEN, E0, BRANCH, BRANCH, LOOP_EXIT, BOX_CLOSE];
    refused(&before_30, 8, 5);
    // The loop in the LE's own scenario.
    accepted(&in_box(
        &[
            &in_loop(&[OR_OPEN, BRANCH, LOOP_EXIT, BRANCH, OR_CLOSE])[..],
            &TWO,
        ]
        .concat(),
    ));
    // An outlet is in the scenario that the box is in: its LE reaches the loop.
    let outlet_le = [
        &[BOX_OPEN][..],
        &TWO,
        &[BRANCH, OR_OPEN, BRANCH, LOOP_EXIT, BRANCH, OR_CLOSE],
        &[BRANCH, BOX_CLOSE],
    ]
    .concat();
    accepted(&in_loop(&outlet_le));
    // But not out of the scenario that the box is in.
    let in_scenario = in_box(&[&outlet_le[..], &TWO].concat());
    refused(&in_loop(&in_scenario), 8, 13);
    accepted(&in_box(&[&in_loop(&outlet_le)[..], &TWO].concat()));
}

/// "Counts as an open."
#[test]
fn a_13th_open() {
    for opens in [LP_OPEN, IT_OPEN, BOX_OPEN] {
        refused(&[vec![opens; 12], vec![BOX_OPEN]].concat(), 9, 12);
        refused(&[opens; 13], 9, 12);
    }
    refused(&[vec![BOX_OPEN; 12], vec![LP_OPEN]].concat(), 9, 12);
    // A box may be the 12th open, though not in an accepted file.
    let twelfth = [vec![LP_OPEN; 11], vec![BOX_OPEN, E0, BRANCH, BOX_CLOSE]].concat();
    refused(&twelfth, 7, 14);
    refused(
        &[vec![LP_OPEN; 11], vec![BOX_OPEN, OR_OPEN]].concat(),
        9,
        12,
    );
    // The 11th, with an OR in it.
    let deep = [vec![IT_OPEN; 10], BOX.to_vec(), vec![IT_CLOSE; 10]].concat();
    accepted(&deep);
    refused(&[&[IT_OPEN][..], &deep, &[IT_CLOSE]].concat(), 9, 12);
    // 7 before 9.
    refused(
        &[vec![IT_OPEN; 11], vec![AND_OPEN, BOX_OPEN]].concat(),
        7,
        12,
    );
}

/// 49: "outlets and EXIT rows not one to one".
#[test]
fn outlets_unmatched() {
    let two_of = |first, second| [OR_OPEN, BRANCH, first, BRANCH, second, OR_CLOSE];
    // Two for one outlet; an outlet that there is not.
    for (first, second) in [(E0, E0), (E1, E1), (E0, E2), (E2, E1), (E2, E3)] {
        refused(&boxed(&two_of(first, second), 2), 49, 0);
    }
    for outlet in [64, 255, 256, 257, 0x8000, u16::MAX] {
        let mut rows = trip_rows(&[&boxed(&TWO, 2)[..], &[END]].concat());
        rows[5] = record(EXIT, &[outlet]);
        assert_file_refused(&file(&[], &rows), 49, 0);
    }
    // An EXIT or an outlet more.
    refused(&boxed(&TWO, 3), 49, 0);
    refused(
        &boxed(&[OR_OPEN, BRANCH, E0, BRANCH, OR_CLOSE, E1], 3),
        49,
        0,
    );
    refused(
        &boxed(&[OR_OPEN, BRANCH, E0, BRANCH, E1, OR_CLOSE, E1], 2),
        49,
        0,
    );
    refused(
        &boxed(&[OR_OPEN, BRANCH, E0, BRANCH, E1, OR_CLOSE, E2], 2),
        49,
        0,
    );
    refused(&boxed(&[E0], 2), 49, 0);
    // No EXIT at all; an empty scenario too, which falls through.
    refused(&boxed(&[FUNCTION], 2), 49, 0);
    refused(&boxed(&[], 2), 49, 0);
    // Any order, and as many as may be.
    accepted(&boxed(&two_of(E1, E0), 2));
    let mut many = vec![OR_OPEN];
    many.extend((0..19).rev().flat_map(|outlet| [BRANCH, exit_to(outlet)]));
    many.push(OR_CLOSE);
    accepted(&boxed(&many, 19));
    refused(&boxed(&many, 18), 49, 0);
    refused(&boxed(&many, 20), 49, 0);
}

/// "EXIT belongs to the innermost box whose scenario it is in."
#[test]
fn exits_of_boxes_in_boxes() {
    let inner_with = |outlets: [&[u16]; 2]| {
        [
            &[BOX_OPEN][..],
            &TWO,
            &[BRANCH],
            outlets[0],
            &[BRANCH],
            outlets[1],
            &[BOX_CLOSE],
        ]
        .concat()
    };
    let inner_and = |outlets, behind: &[u16]| [&inner_with(outlets)[..], behind].concat();
    // Straight in the outlets, and behind the inner box.
    accepted(&boxed(&inner_and([&[E0], &[E1]], &[E2]), 3));
    accepted(&boxed(&inner_and([&[], &[E1]], &[E0]), 2));
    // In an OR in an outlet; three boxes.
    accepted(&boxed(&inner_and([&TWO, &[]], &[E2]), 3));
    let middle = boxed(&inner_and([&[E0], &[]], &[E1]), 2);
    let outer = boxed(&[&middle[..], &TWO].concat(), 2);
    accepted(&outer);
    // An outlet of the inner one has no EXIT of the outer one.
    refused(&boxed(&inner_and([&[E0], &[]], &[E1]), 3), 49, 0);
    refused(&boxed(&inner_and([&[], &[]], &[E0]), 2), 49, 0);
    // The inner one's EXITs are its own.
    let inner_off = boxed(&[OR_OPEN, BRANCH, E0, BRANCH, E0, OR_CLOSE], 2);
    refused(&boxed(&[&inner_off[..], &TWO].concat(), 2), 49, 1);
    // In the middle one's outlet an EXIT of the outermost.
    let in_outlet = [
        &[BOX_OPEN][..], // outermost
        &[BOX_OPEN],
        &TWO,
        &[BRANCH, BOX_OPEN],
        &TWO,
        &[BRANCH, E0, BRANCH, BOX_CLOSE],
        &[BRANCH, BOX_CLOSE, E1],
        &[BRANCH, BRANCH, BOX_CLOSE],
    ]
    .concat();
    accepted(&in_outlet);
}

/// The lowest box, behind a box that is fine and around one that is off too.
#[test]
fn the_lowest_box() {
    let unmatched = boxed(&TWO, 3);
    refused(&[&BOX[..], &unmatched].concat(), 49, 10);
    refused(&[&BOX[..], &unmatched, &unmatched].concat(), 49, 10);
    let around = |scenario: &[u16], outlets| boxed(&[scenario, &TWO].concat(), outlets);
    refused(&around(&unmatched, 2), 49, 1);
    refused(&around(&unmatched, 3), 49, 0);
    let falling = boxed(&[&TWO[..], &[FUNCTION]].concat(), 2);
    refused(&falling, 50, 0);
    refused(&[&BOX[..], &falling].concat(), 50, 10);
    refused(&[&falling[..], &falling].concat(), 50, 0);
    refused(&around(&falling, 2), 50, 1);
    let around_falling = |scenario: &[u16]| boxed(&[&TWO[..], scenario].concat(), 2);
    // The box is the last construct of a scenario, so that this falls through too.
    refused(&around_falling(&falling), 50, 0);
    refused(&around_falling(&BOX), 50, 0);
}

/// A scenario of an OR of two EXITs and then these rows, the EXITs of which are 2
/// and 3.
fn ending_in(kinds: &[u16]) -> Vec<u16> {
    let exits = kinds.iter().filter(|kind| [E2, E3].contains(kind)).count();
    boxed(&[&TWO[..], kinds].concat(), 2 + exits)
}

/// 50: "A run falls through unless its last construct is EXIT, LE, LP (one that no
/// LE leaves), an OR none of whose branches fall through, or an AND with one that
/// doesn't and no killing branch that does."
#[test]
fn scenario_falls_through() {
    let falling: [&[u16]; 19] = [
        &[FUNCTION],
        &[IT_OPEN, FUNCTION, IT_CLOSE],
        // By the letter: an IT, though its body does not.
        &[IT_OPEN, OR_OPEN, BRANCH, E2, BRANCH, E3, OR_CLOSE, IT_CLOSE],
        // A box, though its outlets do not.
        &[
            BOX_OPEN, OR_OPEN, BRANCH, E0, BRANCH, E1, OR_CLOSE, BRANCH, E2, BRANCH, E3, BOX_CLOSE,
        ],
        // An LP that an LE leaves, from an inner IT and from an inner box's outlet.
        &[
            LP_OPEN, FUNCTION, OR_OPEN, BRANCH, LOOP_EXIT, BRANCH, OR_CLOSE, LP_CLOSE,
        ],
        &[
            LP_OPEN, IT_OPEN, AND_OPEN, BRANCH, FUNCTION, LOOP_EXIT, BRANCH, E2, AND_CLOSE,
            IT_CLOSE, LP_CLOSE,
        ],
        &[
            LP_OPEN, BOX_OPEN, OR_OPEN, BRANCH, E0, BRANCH, E1, OR_CLOSE, BRANCH, OR_OPEN, BRANCH,
            LOOP_EXIT, BRANCH, FUNCTION, OR_CLOSE, BRANCH, BOX_CLOSE, LP_CLOSE,
        ],
        // An OR one of whose branches falls through, the first or the last.
        &[OR_OPEN, BRANCH, BRANCH, OR_CLOSE],
        &[OR_OPEN, BRANCH, E2, BRANCH, OR_CLOSE],
        &[OR_OPEN, BRANCH, FUNCTION, BRANCH, E2, BRANCH, E3, OR_CLOSE],
        &[OR_OPEN, BRANCH, E2, BRANCH, FUNCTION, BRANCH, E3, OR_CLOSE],
        &[
            OR_OPEN, BRANCH, E2, BRANCH, OR_OPEN, BRANCH, E3, BRANCH, OR_CLOSE, OR_CLOSE,
        ],
        // An AND all of whose branches fall through, or a killing one.
        &[AND_OPEN, BRANCH, BRANCH, AND_CLOSE],
        &[AND_OPEN, BRANCH, FUNCTION, KILLS, FUNCTION, AND_CLOSE],
        &[AND_OPEN, KILLS, FUNCTION, BRANCH, E2, AND_CLOSE],
        &[AND_OPEN, BRANCH, E2, KILLS, FUNCTION, AND_CLOSE],
        &[AND_OPEN, KILLS, E2, KILLS, FUNCTION, BRANCH, E3, AND_CLOSE],
        &[
            AND_OPEN, BRANCH, OR_OPEN, BRANCH, E2, BRANCH, OR_CLOSE, BRANCH, AND_CLOSE,
        ],
        // Only the last construct counts.
        &[LP_OPEN, FUNCTION, LP_CLOSE, FUNCTION],
    ];
    for kinds in falling {
        refused(&ending_in(kinds), 50, 0);
    }
    let ending: [&[u16]; 16] = [
        &[],
        &[E2],
        &[FUNCTION, E2],
        &[IT_OPEN, IT_CLOSE, E2],
        // An LP that no LE leaves: with EXITs, with an LE of an inner one.
        &[LP_OPEN, FUNCTION, LP_CLOSE],
        &[
            LP_OPEN, FUNCTION, OR_OPEN, BRANCH, E2, BRANCH, OR_CLOSE, LP_CLOSE,
        ],
        &[
            LP_OPEN, LP_OPEN, FUNCTION, OR_OPEN, BRANCH, LOOP_EXIT, BRANCH, OR_CLOSE, LP_CLOSE,
            LP_CLOSE,
        ],
        // The LE of another LP, before it.
        &[
            LP_OPEN, FUNCTION, OR_OPEN, BRANCH, LOOP_EXIT, BRANCH, OR_CLOSE, LP_CLOSE, LP_OPEN,
            FUNCTION, LP_CLOSE,
        ],
        &[OR_OPEN, BRANCH, E2, BRANCH, FUNCTION, E3, OR_CLOSE],
        &[
            OR_OPEN, BRANCH, LP_OPEN, FUNCTION, LP_CLOSE, BRANCH, E2, OR_CLOSE,
        ],
        &[
            OR_OPEN, BRANCH, E2, BRANCH, AND_OPEN, BRANCH, E3, BRANCH, AND_CLOSE, OR_CLOSE,
        ],
        // An AND with one, the first or the last, and a killing one that does not.
        &[AND_OPEN, BRANCH, E2, BRANCH, AND_CLOSE],
        &[AND_OPEN, BRANCH, FUNCTION, BRANCH, E2, AND_CLOSE],
        &[AND_OPEN, KILLS, E2, BRANCH, FUNCTION, AND_CLOSE],
        &[
            AND_OPEN, BRANCH, FUNCTION, KILLS, FUNCTION, E2, BRANCH, AND_CLOSE,
        ],
        &[
            AND_OPEN, KILLS, OR_OPEN, BRANCH, E2, BRANCH, E3, OR_CLOSE, BRANCH, AND_CLOSE,
        ],
    ];
    for kinds in ending {
        accepted(&ending_in(kinds));
    }
    // Neither the outermost run nor an outlet is asked.
    accepted(&[&BOX[..], &[FUNCTION]].concat());
    let outlets = [
        &[BOX_OPEN][..],
        &TWO,
        &[BRANCH, FUNCTION, BRANCH, FUNCTION, BOX_CLOSE],
    ];
    accepted(&outlets.concat());
}

/// "49 first, after the walk and before 45."
#[test]
fn order() {
    let unmatched = boxed(&TWO, 3);
    let falling = ending_in(&[FUNCTION]);
    let spinning = [LP_OPEN, TIMELESS, LP_CLOSE];
    let all = |parts: &[&[u16]]| parts.concat();
    // 49 of a later box before 50 of an earlier one; 50 before 45.
    refused(&all(&[&falling, &unmatched]), 49, falling.len() as u32);
    refused(&all(&[&unmatched, &falling]), 49, 0);
    refused(
        &all(&[&spinning, &falling, &unmatched]),
        49,
        3 + falling.len() as u32,
    );
    refused(&all(&[&spinning, &falling]), 50, 3);
    refused(&all(&[&falling, &spinning]), 50, 0);
    refused(&all(&[&BOX, &spinning]), 45, 10);
    // Both off in one box, and a loop in its scenario.
    refused(&boxed(&[&TWO[..], &[FUNCTION]].concat(), 3), 49, 0);
    refused(&ending_in(&[LP_OPEN, LP_CLOSE]), 45, 7);
    refused(&ending_in(&[LP_OPEN, LP_CLOSE, FUNCTION]), 50, 0);
    // The walk of all rows comes first.
    refused(&all(&[&unmatched, &[LP_CLOSE]]), 7, unmatched.len() as u32);
    refused(&all(&[&falling, &[E0]]), 48, falling.len() as u32);
    refused(&all(&[&falling, &[LOOP_EXIT]]), 8, falling.len() as u32);
    let killing = [AND_OPEN, KILLS, BRANCH, AND_CLOSE];
    refused(
        &all(&[&unmatched, &killing]),
        44,
        unmatched.len() as u32 + 1,
    );
    refused(
        &all(&[&unmatched, &[IT_OPEN; 13]]),
        9,
        unmatched.len() as u32 + 12,
    );
    let longer = [&nested(&all(&[&unmatched, &[END]]))[..], &[0]].concat();
    assert_file_refused(&longer, 6, longer.len() as u32 - 1);
}

/// The time of a loop may be in a box's scenario or in an outlet.
#[test]
fn loops_and_boxes() {
    let in_loop = |kinds: &[u16]| [&[LP_OPEN], kinds, &[LP_CLOSE]].concat();
    refused(&in_loop(&BOX), 45, 0);
    accepted(&in_loop(&boxed(&[&[FUNCTION][..], &TWO].concat(), 2)));
    let timeless = boxed(&[&[TIMELESS][..], &TWO].concat(), 2);
    refused(&in_loop(&timeless), 45, 0);
    let outlet = [
        &[BOX_OPEN][..],
        &TWO,
        &[BRANCH, BRANCH, FUNCTION, BOX_CLOSE],
    ];
    accepted(&in_loop(&outlet.concat()));
    // A loop in a scenario whose time is behind an outlet.
    let behind = [
        &[BOX_OPEN, LP_OPEN][..],
        &TWO,
        &[LP_CLOSE, BRANCH, FUNCTION, BRANCH, BOX_CLOSE],
    ];
    refused(&behind.concat(), 45, 1);
}
