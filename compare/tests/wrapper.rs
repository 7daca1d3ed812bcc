//! What the Rust wrapper adds to the calls: its constants, its moves, and its words.

use effbd::{
    annex_text, fresh_diagram, fresh_net, log_starts, most_starts, move_diagram, move_net, offer,
    offer_move, read_diagram, read_net, refusal, step_diagram, step_net, translate, Move, Refusal,
    Starts,
};
use model::records::{push_record, record, NET_HEAD, PLACE, TRANSITION};
use model::{annex, bus, diagram, diagram_step, editions, examples, logs, net};

#[test]
fn constants_are_those_of_the_model() {
    assert_eq!(effbd::MOST_ROWS, diagram::MOST_ROWS);
    assert_eq!(effbd::MOST_ITEMS, diagram::MOST_ITEMS);
    assert_eq!(effbd::MOST_PLACES, net::MOST_PLACES);
    assert_eq!(effbd::MOST_TRANSITIONS, net::MOST_TRANSITIONS);
    assert_eq!(effbd::ANNEX_NET_ROOM, annex::AREA_LENGTH);
    assert_eq!(effbd::TELEGRAM_LENGTH, bus::TELEGRAM_LENGTH);
    assert_eq!(effbd::OLD_TELEGRAM_LENGTH, editions::OLD_TELEGRAM_LENGTH);
    assert_eq!(effbd::SETPOINT_LENGTH, logs::SETPOINT_LENGTH);
    assert_eq!(effbd::MOST_LOG_MOVES, logs::MOST_MOVES);
    assert_eq!(
        (effbd::STEP, effbd::WAIT),
        (diagram_step::STEP, diagram_step::WAIT)
    );
}

#[test]
fn the_largest_states_have_the_words_said() {
    let file = examples::longest_net();
    let mut area = vec![0; effbd::NET_ROOM];
    assert_eq!(read_diagram(&file), Ok(effbd::MOST_STATE_WORDS as u32));
    assert_eq!(translate(&file, &mut area), Ok(526_676));
    let (places, transitions) = (effbd::MOST_PLACES, effbd::MOST_TRANSITIONS);
    let mut net = record(NET_HEAD, &[places as u16, transitions as u16]);
    for _ in 0..places {
        push_record(&mut net, PLACE, &[0]);
    }
    for _ in 0..transitions {
        push_record(&mut net, TRANSITION, &[0, 0, 0]);
    }
    assert_eq!(read_net(&net), Ok(effbd::MOST_NET_STATE_WORDS as u32));
}

/// A `Move` does what its code and argument do, at both steppers and at the leader.
#[test]
fn moves_are_codes_and_arguments() {
    let file = examples::a();
    let mut net = [0; 110];
    translate(&file, &mut net).expect("A's net");
    let (mut state, mut marks) = ([0; 7], [0; 9]);
    fresh_diagram(&file, &mut state).expect("A's state");
    fresh_net(&net, &mut marks).expect("its image");
    let (mut raw_state, mut raw_marks) = (state, marks);
    let moves = [
        (Move::Wait(1), 2, 1),
        (Move::Step(0), 1, 0),
        (Move::Step(7), 1, 7),
        (Move::Wait(0), 2, 0),
        (Move::Wait(3), 2, 3),
        (Move::Step(0), 1, 0),
    ];
    for (count, (made, code, argument)) in moves.into_iter().enumerate() {
        let (mut offered, mut raw_offered) = (state, raw_state);
        let (mut area, mut raw_area) = ([0; 14], [0; 14]);
        let count = count as u32;
        assert_eq!(
            offer_move(&file, &mut offered, count, 7, made, &mut area),
            offer(
                &file,
                &mut raw_offered,
                count,
                7,
                code,
                argument,
                &mut raw_area
            )
        );
        assert_eq!((offered, area), (raw_offered, raw_area));
        assert_eq!(
            move_diagram(&file, &mut state, made),
            step_diagram(&file, &mut raw_state, code, argument)
        );
        assert_eq!(
            move_net(&net, &mut marks, made),
            step_net(&net, &mut raw_marks, code, argument)
        );
        assert_eq!((state, marks), (raw_state, raw_marks));
    }
    assert_eq!(state, [0, 0, 0, 1, 0, 0, 2]);
}

/// A log of `Move`s is one of codes and arguments, and `Starts` are the answer and its number.
#[test]
fn logs_are_moves_and_starts_are_answers() {
    let moves = [Move::Step(0), Move::Wait(517), Move::Step(0)];
    let log: Vec<u8> = moves.iter().flat_map(|made| made.setpoint()).collect();
    assert_eq!(log, logs::log(&[(1, 0), (2, 517), (1, 0)]));
    let file = examples::a();
    for end in [0, 4, 6, 8] {
        for row in [0, 1] {
            let mut at = 7;
            let answer = log_starts(&file, &log[..end], row, &mut at);
            let starts = most_starts(&file, &log[..end], row);
            assert_eq!(starts, answer.map(|most| Starts { most, at }));
            assert!(answer.is_ok() || at == 7);
        }
    }
    let once = Starts { most: 1, at: 0 };
    assert_eq!(most_starts(&file, &log[..4], 0), Ok(once));
}

/// `annex_text` is the whole text of the model, also of the longest net and of files that are refused.
#[test]
fn annex_texts_are_whole() {
    let files = [
        examples::a(),
        examples::h(),
        examples::door_open(),
        examples::longest_plain_net(),
        examples::longest_net(),
        examples::many_rows(65),
        Vec::new(),
    ];
    for file in files {
        assert_eq!(annex_text(&file), annex::annex(&file).into_bytes());
    }
}

#[test]
fn a_refusal_says_its_words() {
    let (number, value) = (refusal::TICKS_LACKING, 2);
    let lacking = Refusal { number, value };
    assert_eq!(lacking.to_string(), "ticks lacking (24, 2)");
    let number = 99;
    let unknown = Refusal { number, value };
    assert_eq!(unknown.words(), "no number of the table");
}
