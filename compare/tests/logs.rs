//! Request 1 of document 02 at its edges, through the proved function: an hour's last tick, starts at one tick, equal hours, the longest log.

use effbd::{log_starts, most_starts, refusal, Refusal, Starts, MOST_LOG_MOVES, SETPOINT_LENGTH};
use model::examples::{again, log_of_rounds, log_of_starts, rounds, AGAIN_ROW, ROUNDS_ROW};

/// What the model says of a row of a log.
fn by_model(file: &[u8], log: &[u8], row: u16) -> Starts {
    let mut at = 0;
    let most = model::logs::log_starts(file, log, row, &mut at).expect("an accepted log");
    Starts { most, at }
}

#[test]
fn hours_at_their_edges() {
    let expected: [(&[u16], u32, u32); 11] = [
        (&[], 0, 0),
        (&[0], 1, 0),
        (&[0, 35_999], 2, 0),
        (&[0, 36_000], 1, 0),
        (&[0, 0, 20_000, 35_999, 36_000], 4, 0),
        (&[0, 2, 36_000, 36_001], 3, 2),
        (&[0, 1, 36_000, 36_001], 2, 0),
        (&[0, 20_000, 40_000, 60_000], 2, 0),
        (&[0, 36_000, 36_000, 36_000], 3, 36_000),
        (&[0, 0, 0, 36_000, 36_000, 36_000], 3, 0),
        (&[0, 40_000, 40_001, 65_000, 65_001], 4, 40_000),
    ];
    for (times, most, at) in expected {
        let found = most_starts(&rounds(), &log_of_starts(times), ROUNDS_ROW);
        assert_eq!(found, Ok(Starts { most, at }), "{times:?}");
    }
}

#[test]
fn as_many_moves_as_may_be_and_no_more() {
    let most = log_of_rounds(u16::MAX, MOST_LOG_MOVES);
    let found = most_starts(&again(), &most, AGAIN_ROW);
    assert_eq!(found, Ok(Starts { most: 1, at: 0 }));
    let more = log_of_rounds(9_000, MOST_LOG_MOVES + 1);
    let mut at = 7;
    for end in [more.len(), more.len() - 1, more.len() - SETPOINT_LENGTH - 1] {
        let (number, value) = (refusal::LOG_OFF, 0);
        let found = log_starts(&again(), &more[..end], AGAIN_ROW, &mut at);
        assert_eq!((found, at), (Err(Refusal { number, value }), 7));
    }
    let whole = &more[..more.len() - SETPOINT_LENGTH];
    let found = log_starts(&again(), whole, AGAIN_ROW, &mut at);
    assert_eq!((found, at), (Ok(4), 0));
}

#[test]
fn gaps_of_every_size() {
    let near_an_hour = [
        9_000, 17_999, 18_000, 35_839, 35_840, 35_999, 36_000, 36_001,
    ];
    for gap in (1..=600).chain(near_an_hour).chain([u16::MAX]) {
        let log = log_of_rounds(gap, 200);
        let found = most_starts(&again(), &log, AGAIN_ROW);
        let expected = by_model(&again(), &log, AGAIN_ROW);
        assert_eq!(found, Ok(expected), "rounds of {gap}");
    }
    // Gaps of one byte and of two, one after another.
    let times: Vec<u16> = (0..500)
        .map(|start| start / 3 * 255 + start % 3 / 2)
        .collect();
    let log = log_of_starts(&times);
    let found = most_starts(&rounds(), &log, ROUNDS_ROW);
    assert_eq!(found, Ok(by_model(&rounds(), &log, ROUNDS_ROW)));
}

#[test]
fn as_many_starts_as_a_log_has_room_for() {
    let at_one_tick = log_of_starts(&[0; 16_336]);
    let found = most_starts(&rounds(), &at_one_tick, ROUNDS_ROW);
    let (most, at) = (16_336, 0);
    assert_eq!(found, Ok(Starts { most, at }));
    for ticks in [1, 2, 3, 40] {
        let log = log_of_rounds(ticks, MOST_LOG_MOVES);
        let found = most_starts(&again(), &log, AGAIN_ROW);
        let expected = by_model(&again(), &log, AGAIN_ROW);
        assert_eq!(found, Ok(expected), "a tick or more a round: {ticks}");
    }
}
