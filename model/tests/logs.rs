//! Request 1 of document 02: starts in any hour of a log.

mod common;

use common::{fresh, refused};
use model::diagram::{file, function_record, parse, Row};
use model::diagram_step::{self, activity, READY, RUNNING, STEP, WAIT};
use model::examples::{
    self, again, log_of_rounds, log_of_starts, rounds, rows, AGAIN_ROW, ROUNDS_ROW,
};
use model::generate::{self, Random};
use model::logs::{self, busiest_hour, log, Log, Logged, HOUR, MOST_MOVES};
use model::records::{AND_CLOSE, AND_OPEN, BRANCH, END, LOOP_EXIT, LP_CLOSE, LP_OPEN};
use model::Answer;

/// The answer, and `at` afterwards, which was 7.
fn log_starts(file: &[u8], log: &[u8], row: u16) -> (Answer, u32) {
    let mut at = 7;
    (logs::log_starts(file, log, row, &mut at), at)
}

/// The most starts and their earliest t, for starts at these times.
fn assert_busiest(times: &[u16], most: u32, at: u32) {
    let found = log_starts(&rounds(), &log_of_starts(times), ROUNDS_ROW);
    assert_eq!(found, (Ok(most), at), "{times:?}");
}

#[test]
fn few_starts() {
    assert_busiest(&[], 0, 0);
    assert_busiest(&[0], 1, 0);
    // Moves, but none that makes the row run.
    let entered = log(&[(STEP, 0)]);
    assert_eq!(log_starts(&again(), &entered, AGAIN_ROW), (Ok(0), 0));
}

#[test]
fn the_hour_ends_before_its_last_tick() {
    assert_busiest(&[0, 0, 20_000, 35_999, 36_000], 4, 0);
    assert_busiest(&[0, 36_000], 1, 0);
    assert_busiest(&[0, 35_999], 2, 0);
    assert_busiest(&[0, 1, 36_000], 2, 0);
    assert_busiest(&[0, 2, 36_000, 36_001], 3, 2);
}

#[test]
fn the_earliest_t_of_several() {
    assert_busiest(&[0, 1, 36_000, 36_001], 2, 0);
    assert_busiest(&[0, 40_000, 40_001, 65_000, 65_001], 4, 40_000);
    assert_busiest(&[0, 20_000, 40_000, 60_000], 2, 0);
}

#[test]
fn all_starts_of_one_tick_count() {
    assert_busiest(&[0, 36_000, 36_000, 36_000], 3, 36_000);
    assert_busiest(&[0, 0, 0, 36_000, 36_000, 36_000], 3, 0);
    // No log has room for more.
    assert_busiest(&[0; 16_336], 16_336, 0);
    assert_eq!(log_of_starts(&[0; 16_336]).len(), 4 * MOST_MOVES);
}

#[test]
fn an_hour_apart() {
    let three = log_of_rounds(36_000, 15);
    assert_eq!(log_starts(&again(), &three, AGAIN_ROW), (Ok(1), 0));
    let close = log_of_rounds(35_999, 15);
    assert_eq!(log_starts(&again(), &close, AGAIN_ROW), (Ok(2), 0));
}

#[test]
fn up_to_65_535_moves() {
    let most = log_of_rounds(9_000, MOST_MOVES);
    assert_eq!(log_starts(&again(), &most, AGAIN_ROW), (Ok(4), 0));
    let longest = log_of_rounds(u16::MAX, MOST_MOVES);
    assert_eq!(log_starts(&again(), &longest, AGAIN_ROW), (Ok(1), 0));
    let more = log_of_rounds(9_000, MOST_MOVES + 1);
    let off = (refused(40, 0), 7);
    assert_eq!(log_starts(&again(), &more, AGAIN_ROW), off);
    for over in 1..4 {
        let part = &more[..4 * MOST_MOVES + over];
        assert_eq!(log_starts(&again(), part, AGAIN_ROW), off);
        let less = &more[..4 * MOST_MOVES - over];
        assert_eq!(log_starts(&again(), less, AGAIN_ROW), off);
    }
}

/// An LE clears a running row: two starts, no end.
#[test]
fn starts_and_ends_need_not_alternate() {
    let mut plant = rows(&[LP_OPEN, LP_OPEN, AND_OPEN, BRANCH, LOOP_EXIT, BRANCH]);
    plant.push(function_record(1, 9, &[]));
    plant.extend(rows(&[AND_CLOSE, LP_CLOSE, LP_CLOSE, END]));
    let plant = file(&[], &plant);
    let moves = [0, 1, 2, 6, 4, 9, 0, 1, 2, 6].map(|row| (STEP, row));
    assert_eq!(log_starts(&plant, &log(&moves), 6), (Ok(2), 0));
}

#[test]
fn moves_have_index_and_time() {
    let moves = [(WAIT, 3), (STEP, 0), (WAIT, 4), (WAIT, 65_535), (9, 9)];
    let bytes = log(&moves);
    assert_eq!(bytes[..8], [2, 0, 3, 0, 1, 0, 0, 0]);
    let read = Log::read(&bytes).expect("whole setpoints");
    let times = [0, 3, 3, 7, 65_542];
    for (index, logged) in read.moves().enumerate() {
        let (code, argument) = moves[index];
        let expected = Logged {
            index,
            time: times[index],
            code,
            argument,
        };
        assert_eq!(logged, expected);
    }
    assert_eq!(read.moves().count(), 5);
}

#[test]
fn rows_that_are_no_function() {
    let h = examples::h();
    for row in (0..70).chain([255, 256, 65_535]) {
        let expected = if row == 5 {
            (Ok(0), 0)
        } else {
            (refused(41, 0), 7)
        };
        assert_eq!(log_starts(&h, &[], row), expected, "row {row}");
    }
}

#[test]
fn refused_moves_have_their_index() {
    let a = examples::a();
    // Example A: the second step comes too early.
    let early = log(&[(STEP, 0), (WAIT, 1), (STEP, 0), (0, 0)]);
    assert_eq!(log_starts(&a, &early, 0), (refused(42, 2), 7));
    for (code, argument) in [(0, 0), (3, 0), (STEP, 1), (STEP, 2), (WAIT, 0), (WAIT, 1)] {
        let first = log(&[(code, argument), (STEP, 0)]);
        assert_eq!(log_starts(&a, &first, 0), (refused(42, 0), 7));
    }
    let mut late = log_of_rounds(1, MOST_MOVES);
    late[4 * MOST_MOVES - 4] = 9;
    let last = (refused(42, 65_534), 7);
    assert_eq!(log_starts(&again(), &late, AGAIN_ROW), last);
}

#[test]
fn file_then_40_then_41_then_42() {
    let a = examples::a();
    let refused_move = log(&[(STEP, 1)]);
    let not_whole = &refused_move[..3];
    let answers = [
        (log_starts(&a[..33], not_whole, 1), refused(1, 30)),
        (log_starts(&a[..33], &refused_move, 1), refused(1, 30)),
        (log_starts(&a[..33], &[], 0), refused(1, 30)),
        (log_starts(&a, not_whole, 1), refused(40, 0)),
        (log_starts(&a, not_whole, 0), refused(40, 0)),
        (log_starts(&a, &refused_move, 1), refused(41, 0)),
        (log_starts(&a, &refused_move, 0), refused(42, 0)),
    ];
    for (found, expected) in answers {
        assert_eq!(found, (expected, 7));
    }
}

/// How many of the times fall in the span from t on.
fn in_span(times: &[u32], t: u32) -> u32 {
    let inside = times.iter().filter(|time| (t..t + HOUR).contains(time));
    inside.count() as u32
}

/// Each start as t, and of those with the most the lowest.
fn busiest_by_trying(times: &[u32]) -> (u32, u32) {
    let most = times.iter().map(|t| in_span(times, *t)).max().unwrap_or(0);
    let with_most = times.iter().filter(|t| in_span(times, **t) == most);
    (most, with_most.min().copied().unwrap_or(0))
}

/// Times that never fall; the gaps are of one kind, so that many spans tie.
fn random_times(random: &mut Random, count: usize) -> Vec<u32> {
    let gaps: &[u32] = match random.below(4) {
        0 => &[0, 1, 35_998, 35_999, 36_000, 36_001],
        1 => &[0, 0, 12_000, 18_000],
        2 => &[1, 7, 300, 9_000],
        _ => &[0, 1, 2],
    };
    let mut time = random.below(2) as u32 * random.between(1, 50_000) as u32;
    let mut times = Vec::new();
    for _ in 0..count {
        times.push(time);
        time += random.pick(gaps, 0);
    }
    times
}

#[test]
fn the_search_finds_what_trying_finds() {
    let mut random = Random::new(40);
    for _ in 0..20_000 {
        let count = random.below(40);
        let times = random_times(&mut random, count);
        assert_eq!(busiest_hour(&times), busiest_by_trying(&times), "{times:?}");
    }
}

/// A span from a tick that is no start has no more.
#[test]
fn no_span_at_all_has_more() {
    let mut random = Random::new(41);
    for _ in 0..40 {
        let times = random_times(&mut random, 8);
        let (most, at) = busiest_hour(&times);
        assert_eq!(in_span(&times, at), most);
        let last = times.last().copied().unwrap_or(0);
        assert!((0..=last).all(|t| in_span(&times, t) <= most), "{times:?}");
    }
}

/// The times of a row's starts, by calls that read the file and check the state
/// at each move; or the index of the first refused one.
fn starts_by_calls(file: &[u8], moves: &[Logged], row: usize) -> Result<Vec<u32>, u32> {
    let mut state = fresh(file);
    let (mut times, mut now) = (Vec::new(), 0);
    for (index, made) in moves.iter().enumerate() {
        let before = state[activity(row)];
        diagram_step::step(file, &mut state, made.code, made.argument).map_err(|_| index as u32)?;
        if (before, state[activity(row)]) == (READY, RUNNING) {
            assert_eq!((made.code, usize::from(made.argument)), (STEP, row));
            times.push(now);
        }
        if made.code == WAIT {
            now += u32::from(made.argument);
        }
    }
    Ok(times)
}

#[test]
fn along_random_logs() {
    let mut random = Random::new(42);
    let (mut accepted, mut refused_logs, mut several, mut later) = (0, 0, 0, 0);
    for _ in 0..600 {
        let file = if random.chance(70) {
            let row_count = 4 + random.below(20);
            generate::lasting_diagram(&mut random, row_count)
        } else {
            generate::diagram(&mut random)
        };
        let length = random.below(250);
        let mut bytes = match random.below(2) {
            0 => generate::accepted_log(&mut random, &file, length),
            _ => generate::round_log(&mut random, &file, length),
        };
        let diagram = parse(&file).expect("accepted diagram");
        if random.chance(25) {
            bytes = generate::damaged_log(&mut random, bytes);
        }
        let Ok(read) = Log::read(&bytes) else {
            continue;
        };
        let moves: Vec<Logged> = read.moves().collect();
        for (row, kind) in diagram.rows.iter().enumerate() {
            if !matches!(kind, Row::Function(_)) {
                continue;
            }
            let found = log_starts(&file, &bytes, row as u16);
            match starts_by_calls(&file, &moves, row) {
                Ok(times) => {
                    let (most, at) = busiest_by_trying(&times);
                    assert_eq!(found, (Ok(most), at));
                    accepted += 1;
                    several += usize::from(most > 1 && times.len() > most as usize);
                    later += usize::from(at > 0);
                }
                Err(index) => {
                    assert_eq!(found, (refused(42, index), 7));
                    refused_logs += 1;
                }
            }
        }
    }
    // The logs are worth something.
    assert!(
        accepted > 2_000 && refused_logs > 200,
        "{accepted} {refused_logs}"
    );
    assert!(several > 150 && later > 500, "{several} {later}");
}

/// Generated logs of whole moves are accepted, and as long as asked for where
/// the diagram goes on for ever.
#[test]
fn generated_logs_are_accepted() {
    let mut random = Random::new(43);
    for _ in 0..300 {
        let row_count = 4 + random.below(61);
        let file = generate::lasting_diagram(&mut random, row_count);
        let diagram = parse(&file).expect("accepted diagram");
        assert_eq!(diagram.rows.len(), row_count);
        for bytes in [
            generate::accepted_log(&mut random, &file, 200),
            generate::round_log(&mut random, &file, 400),
        ] {
            // A log that found no round to go is not made longer.
            assert!([200, 400, 150].contains(&(bytes.len() / 4)));
            let read = Log::read(&bytes).expect("whole setpoints");
            assert!(logs::starts(&diagram, read, 1).is_ok());
        }
    }
}
