//! One case of each kind, made from random numbers.

use crate::calls::{self, equal, hex, End};
use crate::met::{Met, Sight};
use crate::Verdict;
use model::bus::{Telegram, TELEGRAM_LENGTH};
use model::diagram::{Diagram, Row, MOST_ROWS};
use model::diagram_step::{activity, check, fresh_state, moved, IDLE, READY, STEP};
use model::editions::OLD_TELEGRAM_LENGTH;
use model::exits::{exit_by, has_boxes};
use model::generate::{
    accepted_log, boxed_diagram, bus_list, crowded_diagram, damaged_diagram, damaged_log,
    damaged_net, diagram, first_number, foreign_net, killing_diagram, lasting_box_diagram,
    lasting_diagram, lasting_killing_diagram, lasting_trigger_diagram, leaky_diagram,
    looping_diagram, net_state, odd_box_diagram, odd_state, old_run, passing_state, round_log, run,
    timeless_diagram, walk, Random,
};
use model::history::{moves_to_try, Call, History};
use model::kills::{has_kills, kill_by};
use model::logs::{Log, MOST_MOVES};
use model::refusal::{
    BOX_EXIT_MISPLACED, LOOP_SPENDS_NO_TIME, OUTLETS_UNMATCHED, SCENARIO_FALLS_THROUGH,
};
use model::translate::net_of;

/// A kind of case.
pub struct Kind {
    pub name: &'static str,
    pub case: fn(&mut Random, &mut Met) -> Verdict,
}

const fn kind(name: &'static str, case: fn(&mut Random, &mut Met) -> Verdict) -> Kind {
    Kind { name, case }
}

pub const KINDS: [Kind; 11] = [
    kind("diagram files and translation", diagram_file),
    kind("annex texts", annex_text),
    kind("uses of rows", uses_of_rows),
    kind("steps of diagrams", diagram_steps),
    kind("net files", net_file),
    kind("steps of nets", net_steps),
    kind("both bus ends", bus_ends),
    kind("lists of calls", call_list),
    kind("starts in logs", starts_in_logs),
    kind("runs between editions", runs_between_editions),
    kind("transitions of rows", transitions_of_rows),
];

/// An accepted file. One with a long net costs as much as a hundred others.
fn plant(random: &mut Random) -> Vec<u8> {
    match random.below(100) {
        0 => crowded_diagram(random),
        1..=15 => killing_diagram(random),
        16..=20 => looping_diagram(random),
        21..=40 => boxed_diagram(random),
        _ => diagram(random),
    }
}

/// A file: accepted, with loops that may spend no time, with scenarios that may fall through, with something done to its boxes, damaged, or
/// any bytes.
fn any_diagram(random: &mut Random) -> Vec<u8> {
    match random.below(15) {
        0..=3 => plant(random),
        4 | 5 => timeless_diagram(random),
        6 | 7 => leaky_diagram(random),
        8..=10 => odd_box_diagram(random),
        11..=13 => damaged_diagram(random),
        _ => {
            let length = random.below(200);
            random.bytes(length)
        }
    }
}

/// A file that is mostly accepted.
fn likely_diagram(random: &mut Random) -> Vec<u8> {
    match random.below(20) {
        0 | 1 => any_diagram(random),
        2 => timeless_diagram(random),
        3 => leaky_diagram(random),
        4 | 5 => odd_box_diagram(random),
        _ => plant(random),
    }
}

fn any_net(random: &mut Random) -> Vec<u8> {
    match random.below(8) {
        0..=1 => net_of(&plant(random)).unwrap_or_default(),
        2..=4 => foreign_net(random),
        5..=6 => damaged_net(random),
        _ => {
            let length = random.below(200);
            random.bytes(length)
        }
    }
}

/// The length of an area, near `needed` or far from it.
fn any_area_length(random: &mut Random, needed: usize) -> usize {
    match random.below(6) {
        0 => needed.saturating_sub(1),
        1 => needed,
        2 => needed + 1,
        3 => random.below(needed + 1),
        _ => needed + random.below(40),
    }
}

/// The length of an area for a net: the translator goes another way from 65,535 bytes on.
fn any_net_area_length(random: &mut Random, needed: usize) -> usize {
    match random.below(16) {
        0 => 65_534,
        1 => 65_535,
        2 => 65_536,
        3 => 65_536 + random.below(600_000),
        _ => any_area_length(random, needed),
    }
}

/// An area of any bytes, eight from each draw.
fn any_area(random: &mut Random, length: usize) -> Vec<u8> {
    let words = (0..length.div_ceil(8)).map(|_| random.draw().to_le_bytes());
    let mut area: Vec<u8> = words.flatten().collect();
    area.truncate(length);
    area
}

/// A number of words that is right, or one off.
fn any_length(random: &mut Random, right: usize) -> usize {
    match random.below(8) {
        0 => right + 1,
        1 => right.saturating_sub(1),
        2 => random.below(1_400),
        _ => right,
    }
}

fn diagram_file(random: &mut Random, met: &mut Met) -> Verdict {
    let file = any_diagram(random);
    note_sights(met, "read and translate", &file, Sought::of_plant(&file));
    calls::read_diagram(met, &file)?;
    let needed = net_of(&file).map_or(20, |net| net.len());
    let length = any_net_area_length(random, needed);
    calls::translate(met, &file, &any_area(random, length))?;
    let words = model::diagram::read(&file).unwrap_or(7) as usize;
    let length = any_length(random, words);
    calls::fresh_diagram(met, &file, &net_state(random, length))
}

/// Any area for the net, and one for the text that is near the text's length or far from it.
fn annex_text(random: &mut Random, met: &mut Met) -> Verdict {
    let file = any_diagram(random);
    note_sights(met, "annex", &file, Sought::of_plant(&file));
    let needed = net_of(&file).map_or(20, |net| net.len());
    let length = any_net_area_length(random, needed);
    let net = any_area(random, length);
    let needed = model::annex::annex_in(&file, &mut net.clone()).len();
    let length = any_area_length(random, needed);
    calls::annex(&file, &net, &any_area(random, length))
}

/// Every row, some that the file does not have, and any.
fn rows_and_others(random: &mut Random, file: &[u8]) -> impl Iterator<Item = u16> {
    let rows = model::diagram::parse(file).map_or(8, |diagram| diagram.rows.len() as u16);
    (0..rows + 2).chain([63, 64, 65, 65_535, random.word()])
}

fn uses_of_rows(random: &mut Random, met: &mut Met) -> Verdict {
    let file = if random.chance(70) {
        plant(random)
    } else {
        any_diagram(random)
    };
    note_sights(met, "uses", &file, Sought::of_plant(&file));
    for row in rows_and_others(random, &file) {
        calls::uses(&file, row)?;
    }
    Ok(())
}

/// A state reached where some move kills or leaves a box, or else the last of a long walk.
fn state_before_sought(random: &mut Random, file: &[u8]) -> Vec<u16> {
    let mut states = walk(random, file, 40);
    let steps: Vec<_> = (0..MOST_ROWS as u16).map(|row| (STEP, row)).collect();
    if Sought::of_plant(file).any() {
        let sought = |state: &&Vec<u16>| Sought::among(file, state, &steps).any();
        let before: Vec<_> = states.iter().filter(sought).cloned().collect();
        if !before.is_empty() {
            states = before;
            states.truncate(random.below(states.len()) + 1);
        }
    }
    states.pop().unwrap_or_default()
}

/// A state of a diagram: reached, passing 20, odd, or any words.
fn any_state(random: &mut Random, file: &[u8]) -> Vec<u16> {
    match random.below(8) {
        0..=2 => walk(random, file, 12).pop().unwrap_or_default(),
        3 => state_before_sought(random, file),
        4..=5 => passing_state(random, file),
        6 => odd_state(random, file),
        _ => {
            let length = any_length(random, model::diagram::read(file).unwrap_or(7) as usize);
            net_state(random, length)
        }
    }
}

/// What plants and moves are made for.
#[derive(Clone, Copy, Default)]
struct Sought {
    /// Plants with branches that kill, or moves that kill.
    kills: usize,
    /// Plants with boxes, or moves that leave one.
    exits: usize,
}

impl Sought {
    /// 1 of each that a plant has.
    fn of_plant(file: &[u8]) -> Self {
        match model::diagram::parse(file) {
            Ok(diagram) => Sought {
                kills: usize::from(has_kills(&diagram)),
                exits: usize::from(has_boxes(&diagram)),
            },
            Err(_) => Sought::default(),
        }
    }

    /// How many of these moves are accepted at a state and are sought.
    fn among(file: &[u8], state: &[u16], moves: &[(u16, u16)]) -> Self {
        let mut sought = Sought::default();
        let Ok(diagram) = model::diagram::parse(file) else {
            return sought;
        };
        for (code, argument) in moves {
            if model::diagram_step::after(&diagram, state, *code, *argument).is_ok() {
                sought.count(&diagram, state, (*code, *argument));
            }
        }
        sought
    }

    /// Counts a move that is accepted at a state.
    fn count(&mut self, diagram: &Diagram, state: &[u16], made: (u16, u16)) {
        self.kills += usize::from(kill_by(diagram, state, made).is_some());
        self.exits += usize::from(exit_by(diagram, made).is_some());
    }

    fn any(self) -> bool {
        self.kills + self.exits > 0
    }

    fn note(self, met: &mut Met, call: &'static str) {
        met.note_sight(Sight::Kills, call, self.kills);
        met.note_sight(Sight::Exits, call, self.exits);
    }
}

/// What files are made to be refused for.
const FILES_REFUSED: [u32; 4] = [
    LOOP_SPENDS_NO_TIME,
    BOX_EXIT_MISPLACED,
    OUTLETS_UNMATCHED,
    SCENARIO_FALLS_THROUGH,
];

/// Notes what a call that reads this file meets.
fn note_sights(met: &mut Met, call: &'static str, file: &[u8], sought: Sought) {
    sought.note(met, call);
    let refused = model::diagram::parse(file).err();
    for number in FILES_REFUSED {
        let is_met = refused.is_some_and(|refused| refused.number == number);
        met.note_sight(Sight::Refused(number), call, usize::from(is_met));
    }
}

/// Every move worth trying at a state, and some of any code.
fn moves(random: &mut Random, file: &[u8], state: &[u16]) -> Vec<(u16, u16)> {
    let mut moves = moves_to_try(file, state);
    for _ in 0..4 {
        moves.push((random.pick(&[0, 1, 1, 2, 2, 3], 1), random.word()));
    }
    moves
}

fn diagram_steps(random: &mut Random, met: &mut Met) -> Verdict {
    let file = likely_diagram(random);
    let state = any_state(random, &file);
    let moves = moves(random, &file, &state);
    let sought = Sought::among(&file, &state, &moves);
    note_sights(met, "diagram step", &file, sought);
    for (code, argument) in moves {
        calls::step_diagram(met, &file, &state, code, argument)?;
    }
    Ok(())
}

fn net_file(random: &mut Random, met: &mut Met) -> Verdict {
    let net = any_net(random);
    calls::read_net(met, &net)?;
    let length = any_length(random, model::net::read(&net).unwrap_or(5) as usize);
    calls::fresh_net(met, &net, &net_state(random, length))
}

fn net_steps(random: &mut Random, met: &mut Met) -> Verdict {
    if random.chance(30) {
        return plant_net_steps(random, met);
    }
    let net = any_net(random);
    let length = any_length(random, model::net::read(&net).unwrap_or(5) as usize);
    let mut state = net_state(random, length);
    if random.chance(60) {
        // An error leaves the random words.
        let _ = model::net_step::fresh(&net, &mut state);
    }
    for _ in 0..24 {
        let code = random.pick(&[1, 1, 1, 2, 2, 0, 3], 1);
        let argument = if random.chance(70) {
            random.between(0, 12)
        } else {
            random.word()
        };
        calls::step_net(met, &net, &state, code, argument)?;
        let _ = model::net_step::step(&net, &mut state, code, argument);
    }
    Ok(())
}

/// Every move worth trying at the image of a state of a plant.
fn plant_net_steps(random: &mut Random, met: &mut Met) -> Verdict {
    let file = plant(random);
    let net = net_of(&file).unwrap_or_default();
    let state = any_state(random, &file);
    let marks = model::image::image(&file, &state).unwrap_or_default();
    let moves = moves(random, &file, &state);
    Sought::among(&file, &state, &moves).note(met, "net step");
    for (code, argument) in moves {
        calls::step_net(met, &net, &marks, code, argument)?;
    }
    Ok(())
}

fn any_count(random: &mut Random) -> u32 {
    match random.below(6) {
        0 => u32::MAX,
        1 => u32::MAX - 1,
        2 => random.draw() as u32,
        _ => random.below(5) as u32,
    }
}

/// The telegram that is due, or one that is off in one place.
fn any_telegram(random: &mut Random, end: End, (code, argument): (u16, u16)) -> Vec<u8> {
    let number = match random.below(6) {
        0 => end.count,
        1 => end.count.wrapping_add(2),
        2 => random.draw() as u32,
        _ => end.count.wrapping_add(1),
    };
    let station = match random.below(20) {
        0 => random.word(),
        1 => end.station.swap_bytes(),
        2 => end.station ^ (1 << random.below(16)),
        _ => end.station,
    };
    let mut bytes = Telegram {
        number,
        station,
        code,
        argument,
    }
    .encode()
    .to_vec();
    match random.below(8) {
        0 => bytes.truncate(random.below(14)),
        1 => bytes.push(0),
        2 => {
            let at = random.below(4);
            bytes[at] = random.draw() as u8;
        }
        _ => {}
    }
    bytes
}

fn bus_ends(random: &mut Random, met: &mut Met) -> Verdict {
    let file = likely_diagram(random);
    let state = any_state(random, &file);
    let net = if random.chance(80) {
        net_of(&file).unwrap_or_default()
    } else {
        any_net(random)
    };
    let marks = model::image::image(&file, &state).unwrap_or_default();
    let moves = moves(random, &file, &state);
    let sought = Sought::among(&file, &state, &moves);
    note_sights(met, "offer and take", &file, sought);
    for made in moves {
        let end = End {
            count: any_count(random),
            station: random.word(),
        };
        let length = any_area_length(random, 14);
        let area = any_area(random, length);
        calls::offer(met, &file, &state, end, made, &area)?;
        let telegram = any_telegram(random, end, made);
        calls::take(met, &net, &marks, end, &telegram)?;
    }
    Ok(())
}

/// The area that each offer of a list leaves: its telegram in the first 14 bytes where it added a state, else as it was lent.
fn areas_due(calls: &[Call], history: &History) -> Vec<Vec<u8>> {
    let mut telegrams = history.telegrams.iter();
    let mut areas = Vec::new();
    for (call, counted) in calls.iter().zip(&history.counted) {
        let Call::Offer { area, .. } = call else {
            continue;
        };
        let mut due = area.clone();
        if *counted {
            let telegram = telegrams.next().map(Telegram::encode).unwrap_or_default();
            due[..TELEGRAM_LENGTH].copy_from_slice(&telegram);
        }
        areas.push(due);
    }
    areas
}

/// A list of calls on both ends, held against the model's history: demand 3 of the proved functions.
fn call_list(random: &mut Random, met: &mut Met) -> Verdict {
    let file = plant(random);
    let station = random.word();
    let list = bus_list(random, &file, station, 40);
    play(met, &file, station, &list).map_err(|why| {
        let calls: Vec<String> = list.iter().map(spelled).collect();
        let calls = calls.join("\n");
        format!("{why}\nfile {}, station {station}\n{calls}", hex(&file))
    })
}

fn spelled(call: &Call) -> String {
    match call {
        Call::Offer {
            code,
            argument,
            area,
        } => format!("offer {code} {argument} area {}", hex(area)),
        Call::Hand { bytes } => format!("hand {}", hex(bytes)),
    }
}

fn play(met: &mut Met, file: &[u8], station: u16, list: &[Call]) -> Verdict {
    let refused = |refusal: model::Refusal| format!("the model refuses: {refusal:?}");
    let net = net_of(file).map_err(refused)?;
    let mut leader = vec![0; model::diagram::read(file).map_err(refused)? as usize];
    let mut follower = vec![0; model::net::read(&net).map_err(refused)? as usize];
    let (mut sent, mut taken) = (0, 0);
    let fresh = effbd::fresh_diagram(file, &mut leader);
    equal("fresh leader", &Ok(0), &fresh)?;
    let fresh = effbd::fresh_net(&net, &mut follower);
    equal("fresh follower", &Ok(0), &fresh)?;
    let (mut seen, mut areas) = (Vec::new(), Vec::new());
    for call in list {
        let answer = match call {
            Call::Offer {
                code,
                argument,
                area,
            } => {
                let mut lent = area.clone();
                let state = &mut leader;
                let answer = effbd::offer(file, state, sent, station, *code, *argument, &mut lent);
                sent = answer.unwrap_or(sent);
                areas.push(lent);
                answer
            }
            Call::Hand { bytes } => {
                let answer = effbd::take(&net, &mut follower, taken, station, bytes);
                taken = answer.unwrap_or(taken);
                answer
            }
        };
        met.note(answer);
        seen.push(answer.is_ok());
    }
    let history = model::history::history(file, station, list).map_err(refused)?;
    for (state, telegram) in history.states.iter().zip(&history.telegrams) {
        let made = (telegram.code, telegram.argument);
        Sought::among(file, state, &[made]).note(met, "list");
    }
    let due = areas_due(list, &history);
    equal("accepted and taken, call by call", &history.counted, &seen)?;
    equal("the areas of the offers", &due, &areas)?;
    equal("the leader's last state", &history.last(), &&leader[..])?;
    equal("the leader's count", &history.added(), &sent)?;
    equal("the follower's count", &history.taken, &taken)?;
    let due = history
        .states
        .get(taken as usize)
        .and_then(|state| model::image::image(file, state))
        .unwrap_or_default();
    equal("the follower's state", &due, &follower)
}

/// A plant for a log: mostly one that goes on for ever.
fn logging_diagram(random: &mut Random) -> Vec<u8> {
    let row_count = match random.below(10) {
        0..=5 => 4 + random.below(12),
        6 => 4 + random.below(61),
        7 => return likely_diagram(random),
        8 => return odd_box_diagram(random),
        _ => return any_diagram(random),
    };
    match random.below(10) {
        0 | 1 => lasting_trigger_diagram(random, row_count),
        2 | 3 => lasting_killing_diagram(random, row_count),
        4 | 5 => lasting_box_diagram(random, row_count + 12),
        _ => lasting_diagram(random, row_count),
    }
}

/// A log of a diagram: none, accepted moves, or rounds of them; some with something done to it.
fn any_log(random: &mut Random, file: &[u8]) -> Vec<u8> {
    let log = match random.below(20) {
        0 => Vec::new(),
        1..=9 => {
            let moves = random.below(300);
            accepted_log(random, file, moves)
        }
        _ => {
            let moves = random.below(2_000);
            round_log(random, file, moves)
        }
    };
    if random.chance(40) {
        damaged_log(random, log)
    } else {
        log
    }
}

/// A small plant with a log at the limit of its length: as many moves as may be or one more, a byte more or less, or the last one refused.
fn longest_log(random: &mut Random) -> (Vec<u8>, Vec<u8>) {
    let row_count = 4 + random.below(12);
    let file = lasting_diagram(random, row_count);
    let moves = MOST_MOVES + random.below(2);
    let mut log = round_log(random, &file, moves);
    match random.below(6) {
        0 => log.push(0),
        1 => drop(log.pop()),
        2 => {
            let last = log.len().saturating_sub(4);
            log.splice(last.., [9, 0, 0, 0]);
        }
        _ => {}
    }
    (file, log)
}

/// Some of the FUNCTION rows, and sometimes any row or one that the file does not have.
fn rows_to_ask(random: &mut Random, file: &[u8]) -> Vec<u16> {
    let parsed = model::diagram::parse(file);
    let rows = parsed.map_or_else(|_| Vec::new(), |diagram| diagram.rows);
    let numbered = (0..).zip(&rows);
    let functions = numbered.filter(|(_, row)| matches!(row, Row::Function(_)));
    let mut asked: Vec<u16> = functions.map(|(number, _)| number).collect();
    while asked.len() > 3 {
        asked.swap_remove(random.below(asked.len()));
    }
    if asked.is_empty() || random.chance(25) {
        asked.push(random.below(rows.len() + 2) as u16);
    }
    if random.chance(10) {
        asked.push(random.word());
    }
    asked
}

/// What is sought among the first moves of a log.
fn sought_in_log(file: &[u8], log: &[u8]) -> Sought {
    let mut sought = Sought::default();
    let (Ok(diagram), Ok(log)) = (model::diagram::parse(file), Log::read(log)) else {
        return sought;
    };
    let mut state = fresh_state(&diagram);
    for made in log.moves().take(40) {
        let Ok(next) = moved(&diagram, &state, made.code, made.argument) else {
            break;
        };
        sought.count(&diagram, &state, (made.code, made.argument));
        state = next;
    }
    sought
}

fn starts_in_logs(random: &mut Random, met: &mut Met) -> Verdict {
    // A log of 65,535 moves costs as much as hundreds of others.
    let (file, log) = if random.below(150) == 0 {
        longest_log(random)
    } else {
        let file = logging_diagram(random);
        let log = any_log(random, &file);
        (file, log)
    };
    note_sights(met, "log", &file, sought_in_log(&file, &log));
    for row in rows_to_ask(random, &file) {
        calls::log_starts(met, &file, &log, row, random.draw() as u32)?;
    }
    Ok(())
}

/// Bytes of a run in one edition, for so many in the other.
fn converted(run: &[u8], from: usize, to: usize) -> usize {
    run.len() / from * to
}

/// An area for a run: none, or near the bytes needed, or far from them.
fn any_run_area(random: &mut Random, needed: usize) -> Vec<u8> {
    let length = match random.below(12) {
        0 => 0,
        _ => any_area_length(random, needed),
    };
    any_area(random, length)
}

fn runs_between_editions(random: &mut Random, met: &mut Met) -> Verdict {
    // A run costs a hundredth of what a plant does.
    for _ in 0..8 {
        let (old, station, first) = (old_run(random), random.word(), first_number(random));
        let needed = converted(&old, OLD_TELEGRAM_LENGTH, TELEGRAM_LENGTH);
        let area = any_run_area(random, needed);
        calls::telegrams_up(met, &old, station, first, &area)?;
        up_then_down(&old, station, first)?;

        let new = run(random);
        let needed = converted(&new, TELEGRAM_LENGTH, OLD_TELEGRAM_LENGTH);
        let area = any_run_area(random, needed);
        let lent = (random.word(), random.draw() as u32);
        calls::telegrams_down(met, &new, &area, lent)?;
        down_then_up(&new)?;
    }
    Ok(())
}

/// "Up then down yields the old bytes", and station and first number, which are 0 where the run is empty. Nothing of a run that is refused.
fn up_then_down(old: &[u8], station: u16, first: u32) -> Verdict {
    let mut new = vec![0; converted(old, OLD_TELEGRAM_LENGTH, TELEGRAM_LENGTH)];
    if effbd::telegrams_up(old, station, first, &mut new).is_err() {
        return Ok(());
    }
    let added = if old.is_empty() {
        (0, 0)
    } else {
        (station, first)
    };
    let mut back = (vec![0; old.len()], !added.0, !added.1);
    let answer = effbd::telegrams_down(&new, &mut back.0, &mut back.1, &mut back.2);
    equal("up then down", &Ok(old.len() as u32), &answer)
        .and_then(|()| equal("up then down, the old bytes", &old, &&back.0[..]))
        .and_then(|()| equal("up then down, what was added", &added, &(back.1, back.2)))
        .map_err(|why| format!("{why}\nrun {}, station {station}, first {first}", hex(old)))
}

/// "Down then up, with that station and first number, the new ones." Nothing of a run that is refused.
fn down_then_up(new: &[u8]) -> Verdict {
    let mut old = vec![0; converted(new, TELEGRAM_LENGTH, OLD_TELEGRAM_LENGTH)];
    let (mut station, mut first) = (0, 0);
    if effbd::telegrams_down(new, &mut old, &mut station, &mut first).is_err() {
        return Ok(());
    }
    let mut back = vec![0; new.len()];
    let answer = effbd::telegrams_up(&old, station, first, &mut back);
    equal("down then up", &Ok(new.len() as u32), &answer)
        .and_then(|()| equal("down then up, the new bytes", &new, &&back[..]))
        .map_err(|why| format!("{why}\nrun {}", hex(new)))
}

/// What a row is at a state that passes: all of these a run should ask of.
const ROWS: [&str; 6] = [
    "ready",
    "running",
    "idle",
    "another kind, idle",
    "another kind, not idle",
    "no row",
];

/// Which of these a row is; none at a state that does not pass, or of a refused file.
fn row_asked(file: &[u8], state: &[u16], row: u16) -> Option<&'static str> {
    let diagram = model::diagram::parse(file).ok()?;
    check(&diagram, state).ok()?;
    let number = usize::from(row);
    let Some(found) = diagram.rows.get(number) else {
        return Some("no row");
    };
    Some(match (found, state[activity(number)]) {
        (Row::Function(_), IDLE) => "idle",
        (Row::Function(_), READY) => "ready",
        (Row::Function(_), _) => "running",
        (_, IDLE) => "another kind, idle",
        _ => "another kind, not idle",
    })
}

fn transitions_of_rows(random: &mut Random, met: &mut Met) -> Verdict {
    let file = likely_diagram(random);
    let state = any_state(random, &file);
    note_sights(met, "transition", &file, Sought::of_plant(&file));
    for row in rows_and_others(random, &file) {
        let asked = row_asked(&file, &state, row);
        for name in ROWS {
            met.note_sight(
                Sight::Row(name),
                "transition",
                usize::from(asked == Some(name)),
            );
        }
        calls::transition(met, &file, &state, row)?;
    }
    let reached = walk(random, &file, 20).pop().unwrap_or_default();
    fires_as_told(&file, &reached)
}

/// At a state reached, "where the row's step is accepted, that is the transition that the net fires at the image": the number that the proved
/// function tells beside the one that the model's net fires. Nothing of a refused file.
fn fires_as_told(file: &[u8], state: &[u16]) -> Verdict {
    let Ok(diagram) = model::diagram::parse(file) else {
        return Ok(());
    };
    let net = model::translate::table(&diagram);
    let image = model::image::image_of(&diagram, state);
    for (row, found) in (0..).zip(&diagram.rows) {
        let accepted = effbd::step_diagram(file, &mut state.to_vec(), STEP, row).is_ok();
        if !matches!(found, Row::Function(_)) || !accepted {
            continue;
        }
        let fired = model::net_step::fired_by(&net, &image, row).map(|number| Ok(number as u32));
        let told = effbd::transition(file, state, row);
        equal("the transition that the net fires", &fired, &Some(told))
            .map_err(|why| format!("{why}\nfile {}, state {state:?}, row {row}", hex(file)))?;
    }
    Ok(())
}
