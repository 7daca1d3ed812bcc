//! Each exported function beside the model's: the same answer, the same lent memory afterwards. What differs is told with the call's whole
//! input: bytes in hexadecimal, words and numbers in decimal.

use crate::guard::lend;
use crate::met::Met;
use crate::{told, Verdict};
use effbd::refusal::{
    AREA_SHORT, NOT_STANDING, NO_TELEGRAM, NUMBER_NOT_NEXT, STATE_OFF, STATION_DIFFERS,
};
use effbd::Answer;
use std::fmt::{Debug, Write};

/// Guards that are no likely content.
const BYTE_GUARD: u8 = 0xA5;
const WORD_GUARD: u16 = 0xA5A5;
const NUMBER_GUARD: u32 = 0xA5A5_A5A5;

pub fn equal<T: PartialEq + Debug>(what: &str, model: &T, proved: &T) -> Verdict {
    if model == proved {
        Ok(())
    } else {
        Err(format!(
            "{what}: the model has {model:?}, the proved function {proved:?}"
        ))
    }
}

/// Lent bytes of one length; they may be many, so the first that differs is told.
fn equal_bytes(what: &str, model: &[u8], proved: &[u8]) -> Verdict {
    let mut pairs = model.iter().zip(proved);
    match pairs.position(|(expected, found)| expected != found) {
        None => Ok(()),
        Some(at) => equal(&format!("byte {at} of the {what}"), &model[at], &proved[at]),
    }
}

pub fn hex(bytes: &[u8]) -> String {
    bytes.iter().fold(String::new(), |mut text, byte| {
        // Writing to a String does not fail.
        let _ = write!(text, "{byte:02x}");
        text
    })
}

pub fn read_diagram(met: &mut Met, file: &[u8]) -> Verdict {
    let found = effbd::read_diagram(file);
    met.note(found);
    equal("read a diagram", &told(model::diagram::read(file)), &found)
        .map_err(|why| format!("{why}\nfile {}", hex(file)))
}

/// The range, and the very bytes of the file.
pub fn uses(file: &[u8], row: u16) -> Verdict {
    let expected = model::diagram::uses(file, row);
    let found = effbd::uses(file, row);
    equal(
        "start and size of a row's uses",
        &model::diagram::uses_place(file, row),
        &start_and_size(effbd::uses_range(file, row)),
    )
    .and_then(|()| equal("a row's uses", &expected, &found))
    .and_then(|()| {
        equal(
            "where a row's uses stand",
            &expected.as_ptr(),
            &found.as_ptr(),
        )
    })
    .map_err(|why| format!("{why}\nfile {}, row {row}", hex(file)))
}

fn start_and_size(range: std::ops::Range<usize>) -> (usize, usize) {
    (range.start, range.len())
}

pub fn translate(met: &mut Met, file: &[u8], area: &[u8]) -> Verdict {
    let mut expected = area.to_vec();
    let answer = told(model::translate::translate(file, &mut expected));
    lend(area, BYTE_GUARD, |lent| effbd::translate(file, lent))
        .and_then(|(found, after)| {
            met.note(found);
            equal("translate", &answer, &found)?;
            equal_bytes("area", &expected, &after)
        })
        .map_err(|why| format!("{why}\nfile {}, area of {} bytes", hex(file), area.len()))
}

/// The text's length, and what is left in both areas.
pub fn annex(file: &[u8], net: &[u8], text: &[u8]) -> Verdict {
    let (mut expected_net, mut expected_text) = (net.to_vec(), text.to_vec());
    let length = model::annex::annex_into(file, &mut expected_net, &mut expected_text);
    let proved = lend(net, BYTE_GUARD, |net| {
        lend(text, BYTE_GUARD, |text| effbd::annex(file, net, text))
    });
    proved
        .and_then(|(lent, after_net)| {
            let (found, after_text) = lent?;
            equal("length of the annex text", &length, &found)?;
            equal_bytes("annex text's area", &expected_text, &after_text)?;
            equal_bytes("area", &expected_net, &after_net)
        })
        .map_err(|why| {
            format!(
                "{why}\nfile {}, area of {} bytes, text's area of {} bytes",
                hex(file),
                net.len(),
                text.len()
            )
        })
}

/// A call that is lent a state, by the model and proved.
fn with_state(
    met: &mut Met,
    what: &str,
    state: &[u16],
    by_model: impl FnOnce(&mut [u16]) -> model::Answer,
    proved: impl FnOnce(&mut [u16]) -> Answer,
) -> Verdict {
    let mut expected = state.to_vec();
    let answer = told(by_model(&mut expected));
    let (found, after) = lend(state, WORD_GUARD, proved)?;
    met.note(found);
    equal(what, &answer, &found)?;
    equal(&format!("{what}, the state"), &expected, &after)
}

pub fn fresh_diagram(met: &mut Met, file: &[u8], state: &[u16]) -> Verdict {
    with_state(
        met,
        "fresh diagram",
        state,
        |lent| model::diagram_step::fresh(file, lent),
        |lent| effbd::fresh_diagram(file, lent),
    )
    .map_err(|why| format!("{why}\nfile {}, state {state:?}", hex(file)))
}

pub fn step_diagram(
    met: &mut Met,
    file: &[u8],
    state: &[u16],
    code: u16,
    argument: u16,
) -> Verdict {
    with_state(
        met,
        "step of a diagram",
        state,
        |lent| model::diagram_step::step(file, lent, code, argument),
        |lent| effbd::step_diagram(file, lent, code, argument),
    )
    .map_err(|why| {
        format!(
            "{why}\nfile {}, state {state:?}, code {code}, argument {argument}",
            hex(file)
        )
    })
}

/// Answers that a row's transition should have: accepted, and each refusal behind the file's own.
const OF_A_ROW: [u32; 3] = [0, STATE_OFF, NOT_STANDING];

/// File and state are lent between guards, and have to stay as they are.
pub fn transition(met: &mut Met, file: &[u8], state: &[u16], row: u16) -> Verdict {
    let answer = told(model::transitions::transition(file, state, row));
    let proved = lend(file, BYTE_GUARD, |file| {
        lend(state, WORD_GUARD, |state| {
            effbd::transition(file, state, row)
        })
    });
    proved
        .and_then(|(lent, after_file)| {
            let (found, after) = lent?;
            met.note_among("transition", &OF_A_ROW, found);
            equal("transition of a row", &answer, &found)?;
            equal("transition of a row, the state", &state, &&after[..])?;
            equal_bytes("file", file, &after_file)
        })
        .map_err(|why| format!("{why}\nfile {}, state {state:?}, row {row}", hex(file)))
}

pub fn read_net(met: &mut Met, net: &[u8]) -> Verdict {
    let found = effbd::read_net(net);
    met.note(found);
    equal("read a net", &told(model::net::read(net)), &found)
        .map_err(|why| format!("{why}\nnet {}", hex(net)))
}

pub fn fresh_net(met: &mut Met, net: &[u8], state: &[u16]) -> Verdict {
    with_state(
        met,
        "fresh net",
        state,
        |lent| model::net_step::fresh(net, lent),
        |lent| effbd::fresh_net(net, lent),
    )
    .map_err(|why| format!("{why}\nnet {}, state {state:?}", hex(net)))
}

pub fn step_net(met: &mut Met, net: &[u8], state: &[u16], code: u16, argument: u16) -> Verdict {
    with_state(
        met,
        "step of a net",
        state,
        |lent| model::net_step::step(net, lent, code, argument),
        |lent| effbd::step_net(net, lent, code, argument),
    )
    .map_err(|why| {
        format!(
            "{why}\nnet {}, state {state:?}, code {code}, argument {argument}",
            hex(net)
        )
    })
}

/// What an end of the bus has besides its file and state.
#[derive(Clone, Copy, Debug)]
pub struct End {
    pub count: u32,
    pub station: u16,
}

pub fn offer(
    met: &mut Met,
    file: &[u8],
    state: &[u16],
    End { count, station }: End,
    (code, argument): (u16, u16),
    area: &[u8],
) -> Verdict {
    let (mut expected, mut expected_area) = (state.to_vec(), area.to_vec());
    let answer = told(model::bus::offer(
        file,
        &mut expected,
        count,
        station,
        code,
        argument,
        &mut expected_area,
    ));
    let proved = lend(state, WORD_GUARD, |state| {
        lend(area, BYTE_GUARD, |area| {
            effbd::offer(file, state, count, station, code, argument, area)
        })
    });
    proved
        .and_then(|(answered, after)| {
            let (found, after_area) = answered?;
            met.note(found);
            equal("offer", &answer, &found)?;
            equal("offer, the state", &expected, &after)?;
            equal_bytes("area", &expected_area, &after_area)
        })
        .map_err(|why| {
            format!(
                "{why}\nfile {}, state {state:?}, count {count}, station {station}, code {code}, argument {argument}, area of {} bytes",
                hex(file),
                area.len()
            )
        })
}

pub fn take(
    met: &mut Met,
    net: &[u8],
    state: &[u16],
    End { count, station }: End,
    telegram: &[u8],
) -> Verdict {
    with_state(
        met,
        "take",
        state,
        |lent| model::bus::take(net, lent, count, station, telegram),
        |lent| effbd::take(net, lent, count, station, telegram),
    )
    .map_err(|why| {
        format!(
            "{why}\nnet {}, state {state:?}, count {count}, station {station}, telegram {}",
            hex(net),
            hex(telegram)
        )
    })
}

/// File and log are lent between guards too, and have to stay as they are.
pub fn log_starts(met: &mut Met, file: &[u8], log: &[u8], row: u16, at: u32) -> Verdict {
    let mut expected = at;
    let answer = told(model::logs::log_starts(file, log, row, &mut expected));
    let proved = lend(file, BYTE_GUARD, |file| {
        lend(log, BYTE_GUARD, |log| {
            lend(&[at], NUMBER_GUARD, |at| {
                effbd::log_starts(file, log, row, &mut at[0])
            })
        })
    });
    proved
        .and_then(|(lent, after_file)| {
            let (lent, after_log) = lent?;
            let (found, after) = lent?;
            met.note(found);
            equal("starts of a log", &answer, &found)?;
            equal("starts of a log, the earliest t", &expected, &after[0])?;
            equal_bytes("file", file, &after_file)?;
            equal_bytes("log", log, &after_log)
        })
        .map_err(|why| {
            format!(
                "{why}\nfile {}, log {}, row {row}, at {at}",
                hex(file),
                hex(log)
            )
        })
}

/// Answers that a run of telegrams should have: accepted and each refusal.
const UPWARD: [u32; 4] = [0, NO_TELEGRAM, NUMBER_NOT_NEXT, AREA_SHORT];
const DOWNWARD: [u32; 5] = [0, NO_TELEGRAM, NUMBER_NOT_NEXT, STATION_DIFFERS, AREA_SHORT];

/// The run is lent between guards too, and has to stay as it is; so in `telegrams_down`.
pub fn telegrams_up(met: &mut Met, old: &[u8], station: u16, first: u32, area: &[u8]) -> Verdict {
    let mut expected = area.to_vec();
    let answer = told(model::editions::telegrams_up(
        old,
        station,
        first,
        &mut expected,
    ));
    let proved = lend(old, BYTE_GUARD, |old| {
        lend(area, BYTE_GUARD, |area| {
            effbd::telegrams_up(old, station, first, area)
        })
    });
    proved
        .and_then(|(lent, after_run)| {
            let (found, after) = lent?;
            met.note_among("telegrams up", &UPWARD, found);
            equal("telegrams upward", &answer, &found)?;
            equal_bytes("area", &expected, &after)?;
            equal_bytes("run", old, &after_run)
        })
        .map_err(|why| {
            format!(
                "{why}\nrun {}, station {station}, first {first}, area of {} bytes",
                hex(old),
                area.len()
            )
        })
}

/// Station and first number as they are before the call.
pub fn telegrams_down(
    met: &mut Met,
    run: &[u8],
    area: &[u8],
    (station, first): (u16, u32),
) -> Verdict {
    let mut expected = (area.to_vec(), station, first);
    let answer = told(model::editions::telegrams_down(
        run,
        &mut expected.0,
        &mut expected.1,
        &mut expected.2,
    ));
    let proved = lend(run, BYTE_GUARD, |run| {
        lend(area, BYTE_GUARD, |area| {
            lend(&[station], WORD_GUARD, |station| {
                lend(&[first], NUMBER_GUARD, |first| {
                    effbd::telegrams_down(run, area, &mut station[0], &mut first[0])
                })
            })
        })
    });
    proved
        .and_then(|(lent, after_run)| {
            let (lent, after) = lent?;
            let (lent, after_station) = lent?;
            let (found, after_first) = lent?;
            met.note_among("telegrams down", &DOWNWARD, found);
            equal("telegrams downward", &answer, &found)?;
            equal(
                "telegrams downward, the station",
                &expected.1,
                &after_station[0],
            )?;
            equal(
                "telegrams downward, the first number",
                &expected.2,
                &after_first[0],
            )?;
            equal_bytes("area", &expected.0, &after)?;
            equal_bytes("run", run, &after_run)
        })
        .map_err(|why| {
            format!(
                "{why}\nrun {}, area of {} bytes, station {station}, first {first}",
                hex(run),
                area.len()
            )
        })
}
