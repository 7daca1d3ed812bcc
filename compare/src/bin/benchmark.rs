//! `benchmark`: the time of each proved function, of the model, and their ratio, at 5, 30 and 64 rows, what one row more costs, and the same at
//! plants with triggers, at plants with branches that kill, at a plant of loops and at plants with boxes, and of runs of telegrams between the
//! editions, in one run; last, which ratio is the largest.
//!
//! Both are built for release and get the same inputs in the same order; states and areas that are written are copied anew before each call, for
//! both.
//! At each size the calls go round plants of 960 rows in all, equally often: no single diagram's mix of rows decides the ratio, and the
//! processor has as much to foresee at each size, and as many turns to learn it.
//!
//! Logs are of 65,535 random accepted moves, steps and waits, of plants that go on for ever; their times are of one move. At 64 rows a move
//! in the log stands beside a call that steps the diagram, on the same moves: the call reads the file and checks the state anew.
//!
//! `16 x 63` is the plant of 16 triggers and 63 FUNCTIONs that take and give each of them, so that each has 63 receivers: at most, by the
//! limits. Its moves are starts, which take from copies, waits, and ends, which give to all copies, of rows from the first to the last. Its logs
//! are of such moves too, in an LP, which leaves room for 61.
//!
//! `16 trips` is an AND of 16 branches, every other of which kills, `19 rounds` one of 19 ITs that all kill, `11 deep` is ANDs one in the killing
//! branch of the other; each in an LP. Of the moves of their calls one half kill, in the order of a random log; their logs are random too.
//!
//! `12 loops` is 12 LPs one in the other, 64 rows in all, where only the last FUNCTION of the innermost spends time: all of them are looked
//! through for it. Of its moves one half are steps of LP rows; its log is random.
//!
//! `8 boxes` is 64 rows with 12 open together: an LP, eight boxes one in the other, two ITs and an OR; `4 boxes` is boxes one behind the other in
//! an LP, by turns of an AND and of an OR whose branches end in EXIT, 61 rows; `1 box` is the first of these alone. Of their moves one half are
//! EXITs, in the order of a random log; their logs are random too.
//!
//! A row's transition is asked at the states before the moves, of the last FUNCTION row that is ready or running, which has the most rows before
//! it, or of END where none is. The model counts the transitions of those rows here; elsewhere it looks for the row in the whole net, which of
//! `16 x 63` has 65,000 arcs.
//!
//! Runs are of 10, 1,000 and 100,000 telegrams, in areas of just their length; their times are of one telegram, which show whether a run costs as
//! much as its telegrams do.

use model::bus::Telegram;
use model::diagram::{Diagram, Row, MOST_ITEMS, MOST_ROWS};
use model::diagram_step::{activity, IDLE, STEP, WAIT};
use model::editions::OldTelegram;
use model::examples::{
    deep_boxes_again, deep_loops, deep_trips_again, killing_rounds_again, triggers, triggers_again,
    trips_again, wide_boxes_again,
};
use model::exits::exit_by;
use model::generate::{accepted_log, lasting_diagram, plain_diagram_up_to, Random};
use model::kills::kill_by;
use model::logs::{log, Log, Logged, MOST_MOVES};
use model::transitions::transition_by_counting;
use model::translate::net_of;
use std::fmt;
use std::hint::black_box;
use std::time::Instant;

const STATION: u16 = 9;
/// Words of the longest state: places and clocks of a net.
const STATE_ROOM: usize = effbd::MOST_NET_STATE_WORDS;
const ROWS: usize = 960;
const MOVES: usize = 24;
/// Turns round the plants in one round: each move of each plant is made ten times.
const TURNS: usize = 10 * MOVES;
const ROUNDS: usize = 10;
const SWEEPS: usize = 10;
/// Logs of one size.
const LOGS: usize = 4;
/// Rows of a plant with triggers whose moves are made.
const ROWS_MOVED: usize = MOVES / 3;
/// Bytes of nets in one round on a plant with triggers, or all its moves once.
const NET_BYTES: usize = 1_000_000;
/// A round there, or on a plant with kills, loops or boxes, may be long; as many sweeps come back to it.
const LONG_ROUNDS: usize = 3;
/// Telegrams of the longest run, and of each round on shorter ones.
const TELEGRAMS: usize = 100_000;

/// The plants that a time is of.
#[derive(Clone, Copy, PartialEq, Eq)]
enum Size {
    Rows(usize),
    Triggers {
        triggers: usize,
        receivers: usize,
    },
    /// A plant by its name.
    Named(&'static str),
    /// Runs of so many telegrams.
    Telegrams(usize),
}

impl fmt::Display for Size {
    fn fmt(&self, to: &mut fmt::Formatter<'_>) -> fmt::Result {
        match self {
            Size::Rows(rows) => write!(to, "{rows} rows"),
            Size::Triggers {
                triggers,
                receivers,
            } => write!(to, "{triggers} x {receivers}"),
            Size::Named(name) => to.write_str(name),
            Size::Telegrams(telegrams) => write!(to, "{telegrams}"),
        }
    }
}

/// Plants of one size, and how often they are called in one sweep.
struct Course {
    size: Size,
    plants: Vec<Plant>,
    calls: usize,
    rounds: usize,
}

/// A diagram of just so many rows, its net, and accepted moves.
struct Plant {
    file: Vec<u8>,
    net: Vec<u8>,
    moves: Vec<Move>,
}

/// A move with the diagram's state before it, that state's image, the row whose transition is asked there and the telegram that carries it.
struct Move {
    before: Vec<u16>,
    asked: u16,
    image: Vec<u16>,
    telegram: [u8; effbd::TELEGRAM_LENGTH],
    code: u16,
    argument: u16,
}

/// The plants of one number of rows, without triggers.
fn plain_course(rows: usize) -> Course {
    let mut random = Random::new(rows as u64);
    let mut plants = Vec::new();
    while plants.len() < ROWS / rows {
        let file = plain_diagram_up_to(&mut random, rows);
        plants.extend(plant(&mut random, file, rows));
    }
    Course {
        size: Size::Rows(rows),
        calls: TURNS * plants.len(),
        rounds: ROUNDS,
        plants,
    }
}

/// The plant of so many triggers and receivers.
fn trigger_course(triggers: usize, receivers: usize) -> Course {
    let plant = trigger_plant(triggers, receivers).expect("a plant whose moves are accepted");
    let turns = (NET_BYTES / plant.net.len()).clamp(1, TURNS);
    Course {
        size: Size::Triggers {
            triggers,
            receivers,
        },
        calls: turns * plant.moves.len(),
        rounds: LONG_ROUNDS,
        plants: vec![plant],
    }
}

/// Its moves are start, wait and end of rows from the first to the last, as many as have room.
fn trigger_plant(trigger_count: usize, receivers: usize) -> Option<Plant> {
    let file = triggers(trigger_count, receivers);
    let net = net_of(&file).ok()?;
    let moved = receivers.min(ROWS_MOVED);
    let rows_moved: Vec<usize> = (0..moved)
        .map(|number| number * (receivers - 1) / (moved - 1))
        .collect();
    let mut state = vec![0; model::diagram::read(&file).ok()? as usize];
    model::diagram_step::fresh(&file, &mut state).ok()?;
    let mut moves = Vec::new();
    for row in 0..receivers {
        let step = (STEP, row as u16);
        for (code, argument) in [step, (WAIT, 1), step] {
            let before = state.clone();
            model::diagram_step::step(&file, &mut state, code, argument).ok()?;
            if rows_moved.contains(&row) {
                moves.push(carried(&file, before, code, argument)?);
            }
        }
    }
    Some(Plant { file, net, moves })
}

/// Whether a move, accepted at this state, is one that a plant is there for.
type IsSought = fn(&Diagram, &[u16], (u16, u16)) -> bool;

fn is_kill(diagram: &Diagram, state: &[u16], made: (u16, u16)) -> bool {
    kill_by(diagram, state, made).is_some()
}

fn is_loop_step(diagram: &Diagram, _: &[u16], (code, argument): (u16, u16)) -> bool {
    let row = diagram.rows.get(usize::from(argument));
    code == STEP && matches!(row, Some(Row::LpOpen(_) | Row::LpClose(_)))
}

fn is_exit(diagram: &Diagram, _: &[u16], made: (u16, u16)) -> bool {
    exit_by(diagram, made).is_some()
}

/// A plant with a random log.
fn named_courses(name: &'static str, file: Vec<u8>, is_sought: IsSought) -> (Course, LogCourse) {
    let mut random = Random::new(MOST_ROWS as u64);
    let (logged, _) = random_log_plant(&mut random, file).expect("a plant with a log");
    let plant = plant_of_log(&logged, is_sought).expect("a log with moves that are sought");
    let size = Size::Named(name);
    let rows = plant.moves[0].before.len() / 3;
    let course = Course {
        size,
        calls: TURNS * ROWS / rows,
        rounds: LONG_ROUNDS,
        plants: vec![plant],
    };
    let logs = LogCourse {
        size,
        rounds: LONG_ROUNDS,
        plants: vec![logged],
    };
    (course, logs)
}

/// Its moves are the first that are sought, and as many of the others.
fn plant_of_log(logged: &LogPlant, is_sought: IsSought) -> Option<Plant> {
    let file = logged.file.clone();
    let diagram = model::diagram::parse(&file).ok()?;
    let (mut moves, mut left) = (Vec::new(), [MOVES / 2; 2]);
    let mut state = logged.fresh.clone();
    for made in &logged.moves {
        let (code, argument) = (made.code, made.argument);
        let sought = is_sought(&diagram, &state, (code, argument));
        let left = &mut left[usize::from(sought)];
        if *left > 0 {
            *left -= 1;
            moves.push(carried(&file, state.clone(), code, argument)?);
        }
        state = model::diagram_step::moved(&diagram, &state, code, argument).ok()?;
    }
    let net = net_of(&file).ok()?;
    (moves.len() == MOVES).then_some(Plant { file, net, moves })
}

/// The plant of a file that has just so many rows and enough accepted moves.
fn plant(random: &mut Random, file: Vec<u8>, rows: usize) -> Option<Plant> {
    let diagram = model::diagram::parse(&file).ok()?;
    let moves = (diagram.rows.len() == rows).then(|| accepted_moves(random, &file, rows))??;
    let net = net_of(&file).ok()?;
    (moves.len() == MOVES).then_some(Plant { file, net, moves })
}

/// Accepted moves from the fresh state on; fewer than asked for where the plant comes to its end.
fn accepted_moves(random: &mut Random, file: &[u8], rows: usize) -> Option<Vec<Move>> {
    let mut state = vec![0; model::diagram::read(file).ok()? as usize];
    model::diagram_step::fresh(file, &mut state).ok()?;
    let mut moves = Vec::new();
    let mut idle = 0;
    while moves.len() < MOVES && idle < 200 {
        let (code, argument) = if random.chance(80) {
            (1, random.below(rows) as u16)
        } else {
            (2, random.between(1, 40))
        };
        let before = state.clone();
        if model::diagram_step::step(file, &mut state, code, argument).is_ok() {
            // Waits at the very end would measure nothing but waits.
            idle = if code == 1 { 0 } else { idle + 1 };
            moves.push(carried(file, before, code, argument)?);
        } else {
            idle += 1;
        }
    }
    Some(moves)
}

/// The move with its image and its telegram.
fn carried(file: &[u8], before: Vec<u16>, code: u16, argument: u16) -> Option<Move> {
    let telegram = Telegram {
        number: 4,
        station: STATION,
        code,
        argument,
    };
    Some(Move {
        image: model::image::image(file, &before)?,
        asked: row_to_ask(file, &before)?,
        telegram: telegram.encode(),
        before,
        code,
        argument,
    })
}

/// The last FUNCTION row that is ready or running, or else END.
fn row_to_ask(file: &[u8], state: &[u16]) -> Option<u16> {
    let rows = model::diagram::parse(file).ok()?.rows;
    let is_busy =
        |row: &usize| matches!(rows[*row], Row::Function(_)) && state[activity(*row)] != IDLE;
    let asked = (0..rows.len()).rev().find(is_busy);
    Some(asked.unwrap_or(rows.len() - 1) as u16)
}

/// The plant of a call and its move: the plants take turns, each with its moves in order.
fn turn(plants: &[Plant], number: usize) -> (&Plant, &Move) {
    let plant = &plants[number % plants.len()];
    (
        plant,
        &plant.moves[number / plants.len() % plant.moves.len()],
    )
}

/// The time of `calls` calls, in nanoseconds a call; the compiler must not leave a result out.
fn nanoseconds<T>(calls: usize, call: &mut impl FnMut(usize) -> T) -> f64 {
    let start = Instant::now();
    for number in 0..calls {
        black_box(call(number));
    }
    start.elapsed().as_nanos() as f64 / calls as f64
}

/// The least times of one function at one size, in nanoseconds a call or a move.
struct Times {
    name: &'static str,
    size: Size,
    proved: f64,
    model: f64,
}

impl Times {
    fn ratio(&self) -> f64 {
        self.proved / self.model
    }
}

/// Times a function, `proved` and `model`, in calls that go round the plants.
fn compare<P, M>(
    table: &mut Vec<Times>,
    name: &'static str,
    course: &Course,
    mut proved: impl FnMut(usize) -> P,
    mut model: impl FnMut(usize) -> M,
) {
    let proved = || nanoseconds(course.calls, &mut proved);
    let model = || nanoseconds(course.calls, &mut model);
    keep_least(table, name, course.size, course.rounds, proved, model);
}

/// Takes the times of rounds and keeps the least of each. The rounds take turns, so that a machine that slows down slows both; each sweep
/// comes back to every function, so that a slow spell spoils none.
fn keep_least(
    table: &mut Vec<Times>,
    name: &'static str,
    size: Size,
    rounds: usize,
    mut proved: impl FnMut() -> f64,
    mut model: impl FnMut() -> f64,
) {
    let mut least = (f64::INFINITY, f64::INFINITY);
    for _ in 0..rounds {
        least.0 = least.0.min(proved());
        least.1 = least.1.min(model());
    }
    match table
        .iter_mut()
        .find(|line| line.name == name && line.size == size)
    {
        Some(line) => {
            line.proved = line.proved.min(least.0);
            line.model = line.model.min(least.1);
        }
        None => table.push(Times {
            name,
            size,
            proved: least.0,
            model: least.1,
        }),
    }
}

/// Reading and translating.
fn compare_files(table: &mut Vec<Times>, course: &Course) {
    let plants = &course.plants;
    let file = |number| black_box(&turn(plants, number).0.file);
    let net = |number| black_box(&turn(plants, number).0.net);
    let mut areas = (vec![0; effbd::NET_ROOM], vec![0; effbd::NET_ROOM]);
    compare(
        table,
        "read",
        course,
        |number| effbd::read_diagram(file(number)),
        |number| model::diagram::read(file(number)),
    );
    compare(
        table,
        "read net",
        course,
        |number| effbd::read_net(net(number)),
        |number| model::net::read(net(number)),
    );
    compare(
        table,
        "translate",
        course,
        |number| effbd::translate(file(number), &mut areas.0),
        |number| model::translate::translate(file(number), &mut areas.1),
    );
}

/// Lends a state: the first words of the buffer, copied anew.
fn lent<'a>(buffer: &'a mut [u16], before: &[u16]) -> &'a mut [u16] {
    let state = &mut buffer[..before.len()];
    state.copy_from_slice(before);
    state
}

/// The diagram's step, the leader's call and a row's transition.
fn compare_diagram(table: &mut Vec<Times>, course: &Course) {
    let plants = &course.plants;
    let mut states = ([0; STATE_ROOM], [0; STATE_ROOM]);
    compare(
        table,
        "diagram step",
        course,
        |number| {
            let (plant, made) = turn(plants, number);
            let state = lent(&mut states.0, &made.before);
            effbd::step_diagram(&plant.file, state, made.code, made.argument)
        },
        |number| {
            let (plant, made) = turn(plants, number);
            let state = lent(&mut states.1, &made.before);
            model::diagram_step::step(&plant.file, state, made.code, made.argument)
        },
    );
    let mut areas = ([0; 14], [0; 14]);
    compare(
        table,
        "offer",
        course,
        |number| {
            let (plant, made) = turn(plants, number);
            let state = lent(&mut states.0, &made.before);
            let area = &mut areas.0;
            effbd::offer(
                &plant.file,
                state,
                3,
                STATION,
                made.code,
                made.argument,
                area,
            )
        },
        |number| {
            let (plant, made) = turn(plants, number);
            let state = lent(&mut states.1, &made.before);
            let area = &mut areas.1;
            model::bus::offer(
                &plant.file,
                state,
                3,
                STATION,
                made.code,
                made.argument,
                area,
            )
        },
    );
    compare(
        table,
        "transition",
        course,
        |number| {
            let (plant, made) = turn(plants, number);
            effbd::transition(&plant.file, &made.before, made.asked)
        },
        |number| {
            let (plant, made) = turn(plants, number);
            transition_by_counting(&plant.file, &made.before, made.asked)
        },
    );
}

/// The net's step and the follower's call, on the same moves.
fn compare_net(table: &mut Vec<Times>, course: &Course) {
    let plants = &course.plants;
    let mut states = ([0; STATE_ROOM], [0; STATE_ROOM]);
    compare(
        table,
        "net step",
        course,
        |number| {
            let (plant, made) = turn(plants, number);
            let state = lent(&mut states.0, &made.image);
            effbd::step_net(&plant.net, state, made.code, made.argument)
        },
        |number| {
            let (plant, made) = turn(plants, number);
            let state = lent(&mut states.1, &made.image);
            model::net_step::step(&plant.net, state, made.code, made.argument)
        },
    );
    compare(
        table,
        "take",
        course,
        |number| {
            let (plant, made) = turn(plants, number);
            let state = lent(&mut states.0, &made.image);
            effbd::take(&plant.net, state, 3, STATION, &made.telegram)
        },
        |number| {
            let (plant, made) = turn(plants, number);
            let state = lent(&mut states.1, &made.image);
            model::bus::take(&plant.net, state, 3, STATION, &made.telegram)
        },
    );
}

/// A diagram that goes on for ever, with a log of accepted moves and the FUNCTION row that starts most often in it.
struct LogPlant {
    file: Vec<u8>,
    fresh: Vec<u16>,
    log: Vec<u8>,
    moves: Vec<Logged>,
    row: u16,
}

/// Plants with logs of one size, and how often they are called in one sweep.
struct LogCourse {
    size: Size,
    plants: Vec<LogPlant>,
    rounds: usize,
}

/// The plants with logs of one number of rows, without triggers.
fn plain_log_course(rows: usize) -> LogCourse {
    let mut random = Random::new(rows as u64);
    let mut plants = Vec::new();
    while plants.len() < LOGS {
        let file = lasting_diagram(&mut random, rows);
        plants.extend(log_plant(&mut random, file, rows));
    }
    LogCourse {
        size: Size::Rows(rows),
        plants,
        rounds: ROUNDS,
    }
}

/// The plant with a log of so many triggers and receivers.
fn trigger_log_course(triggers: usize, receivers: usize) -> LogCourse {
    let plant = trigger_log_plant(triggers, receivers).expect("a plant with a log");
    LogCourse {
        size: Size::Triggers {
            triggers,
            receivers,
        },
        plants: vec![plant],
        rounds: LONG_ROUNDS,
    }
}

/// Its log goes round the LP: start, wait and end of each row, the first of which is asked.
fn trigger_log_plant(triggers: usize, receivers: usize) -> Option<LogPlant> {
    let file = triggers_again(triggers, receivers);
    let close = receivers as u16 + 1;
    let of_row = |row| [(STEP, row), (WAIT, 1), (STEP, row)];
    let mut round = vec![(STEP, 0)];
    round.extend((1..close).flat_map(of_row));
    round.push((STEP, close));
    let moves: Vec<_> = round.into_iter().cycle().take(MOST_MOVES).collect();
    let log = log(&moves);
    let fresh = model::diagram_step::fresh_state(&model::diagram::parse(&file).ok()?);
    let moves = Log::read(&log).ok()?.moves().collect();
    model::logs::log_starts(&file, &log, 1, &mut 0).ok()?;
    Some(LogPlant {
        file,
        fresh,
        log,
        moves,
        row: 1,
    })
}

/// The plant of a file whose log moves as a plant does: no standstill, several FUNCTIONs, and neither steps nor waits few.
fn log_plant(random: &mut Random, file: Vec<u8>, rows: usize) -> Option<LogPlant> {
    let (plant, starts) = random_log_plant(random, file)?;
    let waits = plant.moves.iter().filter(|made| made.code == WAIT).count();
    let started = starts.iter().filter(|(times, _)| *times >= 100).count();
    let fits = (MOST_MOVES / 6..MOST_MOVES / 2).contains(&waits) && started >= (rows / 10).max(2);
    fits.then_some(plant)
}

/// The plant of a file with a random log of as many moves as may be, and how often each FUNCTION row starts in it.
fn random_log_plant(random: &mut Random, file: Vec<u8>) -> Option<(LogPlant, Vec<(usize, u16)>)> {
    let log = accepted_log(random, &file, MOST_MOVES);
    let diagram = model::diagram::parse(&file).ok()?;
    let moves: Vec<Logged> = Log::read(&log).ok()?.moves().collect();
    let fresh = model::diagram_step::fresh_state(&diagram);
    let starts = starts_by_row(&diagram, &log)?;
    let (_, row) = *starts.iter().max()?;
    let plant = LogPlant {
        file,
        fresh,
        log,
        moves,
        row,
    };
    (plant.moves.len() == MOST_MOVES).then_some((plant, starts))
}

/// How often each FUNCTION row starts, with its number.
fn starts_by_row(diagram: &Diagram, log: &[u8]) -> Option<Vec<(usize, u16)>> {
    let log = Log::read(log).ok()?;
    let functions = (0..diagram.rows.len() as u16)
        .filter(|row| model::logs::function_row(diagram, *row).is_ok());
    functions
        .map(|row| {
            let starts = model::logs::starts(diagram, log, usize::from(row)).ok()?;
            Some((starts.len(), row))
        })
        .collect()
}

/// The time of a move, in nanoseconds; a call makes all moves of one plant.
fn nanoseconds_a_move<T>(plants: &[LogPlant], mut call: impl FnMut(&LogPlant) -> T) -> f64 {
    nanoseconds(plants.len(), &mut |number| call(&plants[number])) / MOST_MOVES as f64
}

/// A log in one call.
fn log_starts(plant: &LogPlant) -> (effbd::Answer, u32) {
    let mut at = 0;
    let most = effbd::log_starts(black_box(&plant.file), &plant.log, plant.row, &mut at);
    (most, at)
}

/// The same by the model.
fn model_log_starts(plant: &LogPlant) -> (model::Answer, u32) {
    let mut at = 0;
    let most = model::logs::log_starts(black_box(&plant.file), &plant.log, plant.row, &mut at);
    (most, at)
}

/// The same moves, each by a call that steps the diagram.
fn step_all(plant: &LogPlant, state: &mut [u16]) {
    let state = lent(state, &plant.fresh);
    for made in &plant.moves {
        let answer = effbd::step_diagram(&plant.file, state, made.code, made.argument);
        black_box(answer).expect("an accepted move");
    }
}

fn compare_logs(table: &mut Vec<Times>, course: &LogCourse) {
    let proved = || nanoseconds_a_move(&course.plants, log_starts);
    let model = || nanoseconds_a_move(&course.plants, model_log_starts);
    keep_least(table, "log", course.size, course.rounds, proved, model);
}

/// A move in a log beside a step's call, both proved.
fn compare_with_steps(table: &mut Vec<Times>, course: &LogCourse) {
    let mut state = [0; STATE_ROOM];
    let in_log = || nanoseconds_a_move(&course.plants, log_starts);
    let by_steps = || nanoseconds_a_move(&course.plants, |plant| step_all(plant, &mut state));
    keep_least(table, "log", course.size, 1, in_log, by_steps);
}

/// A run in both editions.
struct Run {
    telegrams: usize,
    old: Vec<u8>,
    new: Vec<u8>,
}

/// A run of so many telegrams with random setpoints.
fn run_of(telegrams: usize) -> Run {
    let mut random = Random::new(telegrams as u64);
    let setpoints = (0..telegrams).map(|_| OldTelegram {
        code: random.word(),
        argument: random.word(),
    });
    let old: Vec<u8> = setpoints.flat_map(|setpoint| setpoint.encode()).collect();
    let mut new = vec![0; telegrams * effbd::TELEGRAM_LENGTH];
    let converted = model::editions::telegrams_up(&old, STATION, 1, &mut new);
    assert!(converted.is_ok(), "a run that goes up");
    Run {
        telegrams,
        old,
        new,
    }
}

/// The time of a telegram, in nanoseconds; a call makes all of a run.
fn nanoseconds_a_telegram<T>(run: &Run, mut call: impl FnMut() -> T) -> f64 {
    let calls = TELEGRAMS / run.telegrams;
    nanoseconds(calls, &mut |_| call()) / run.telegrams as f64
}

/// A run upward, and downward.
fn compare_runs(table: &mut Vec<Times>, run: &Run) {
    let size = Size::Telegrams(run.telegrams);
    let mut areas = (vec![0; run.new.len()], vec![0; run.new.len()]);
    let proved = || {
        nanoseconds_a_telegram(run, || {
            effbd::telegrams_up(black_box(&run.old), STATION, 1, &mut areas.0)
        })
    };
    let model = || {
        nanoseconds_a_telegram(run, || {
            model::editions::telegrams_up(black_box(&run.old), STATION, 1, &mut areas.1)
        })
    };
    keep_least(table, "telegrams up", size, ROUNDS, proved, model);
    assert!(
        areas.0 == run.new && areas.1 == run.new,
        "a run that went up"
    );
    let mut areas = (vec![0; run.old.len()], vec![0; run.old.len()]);
    let (mut station, mut first) = ((0, 0), (0, 0));
    let proved = || {
        nanoseconds_a_telegram(run, || {
            effbd::telegrams_down(
                black_box(&run.new),
                &mut areas.0,
                &mut station.0,
                &mut first.0,
            )
        })
    };
    let model = || {
        nanoseconds_a_telegram(run, || {
            model::editions::telegrams_down(
                black_box(&run.new),
                &mut areas.1,
                &mut station.1,
                &mut first.1,
            )
        })
    };
    keep_least(table, "telegrams down", size, ROUNDS, proved, model);
    assert!(
        areas.0 == run.old && areas.1 == run.old,
        "a run that went down"
    );
}

/// One line for each function and size: two times and their ratio.
fn print_times([unit, first, second]: [&str; 3], table: &[Times]) {
    println!(
        "{:<14} {:>9} {:>13} {:>13} {:>8}",
        unit, "", first, second, "ratio"
    );
    for line in table {
        println!(
            "{:<14} {:>9} {:>10.1} ns {:>10.1} ns {:>8.2}",
            line.name,
            line.size.to_string(),
            line.proved,
            line.model,
            line.ratio()
        );
    }
}

/// What one row more costs, from each size to the next: a call's head and items, which are as many at each size, have no part in it.
fn print_rows(table: &[Times]) {
    println!(
        "{:<14} {:>9} {:>13} {:>13} {:>8}",
        "one row more", "", "proved", "model", "ratio"
    );
    for (number, line) in table.iter().enumerate() {
        let next = table[number + 1..]
            .iter()
            .find(|other| other.name == line.name);
        let (Some(next), Size::Rows(rows)) = (next, line.size) else {
            continue;
        };
        if let Size::Rows(next_rows) = next.size {
            let more = (next_rows - rows) as f64;
            let proved = (next.proved - line.proved) / more;
            let model = (next.model - line.model) / more;
            println!(
                "{:<14} {:>2} to {:>2} {:>11.1} ns {:>10.1} ns {:>8.2}",
                line.name,
                rows,
                next_rows,
                proved,
                model,
                proved / model
            );
        }
    }
}

/// The line with the largest ratio of all tables of functions.
fn print_largest<'a>(lines: impl Iterator<Item = &'a Times>) {
    let largest = lines.max_by(|one, other| one.ratio().total_cmp(&other.ratio()));
    if let Some(line) = largest {
        let ratio = line.ratio();
        println!("largest ratio: {ratio:.2}, {} at {}", line.name, line.size);
    }
}

/// Every function that is called with one plant.
fn compare_calls(table: &mut Vec<Times>, course: &Course) {
    compare_files(table, course);
    compare_diagram(table, course);
    compare_net(table, course);
}

fn main() {
    let plain = [5, 30, MOST_ROWS].map(|rows| (plain_course(rows), plain_log_course(rows)));
    let mut with_triggers = Vec::new();
    for triggers in [4, MOST_ITEMS] {
        for receivers in [5, 30, MOST_ROWS - 1] {
            // The LP of a log takes two rows more.
            let in_loop = receivers.min(MOST_ROWS - 3);
            let logs = trigger_log_course(triggers, in_loop);
            with_triggers.push((trigger_course(triggers, receivers), logs));
        }
    }
    let named = [
        named_courses("2 trips", trips_again(2), is_kill),
        named_courses("16 trips", trips_again(16), is_kill),
        named_courses("19 rounds", killing_rounds_again(19), is_kill),
        named_courses("11 deep", deep_trips_again(11), is_kill),
        named_courses("12 loops", deep_loops(), is_loop_step),
        named_courses("1 box", wide_boxes_again(1), is_exit),
        named_courses("4 boxes", wide_boxes_again(4), is_exit),
        named_courses("8 boxes", deep_boxes_again(), is_exit),
    ];
    let (mut calls, mut moves, mut steps) = (Vec::new(), Vec::new(), Vec::new());
    let (mut trigger_calls, mut trigger_moves) = (Vec::new(), Vec::new());
    let (mut named_calls, mut named_moves) = (Vec::new(), Vec::new());
    let runs = [10, 1_000, TELEGRAMS].map(run_of);
    let mut telegrams = Vec::new();
    for _ in 0..SWEEPS {
        for (course, logs) in &plain {
            compare_calls(&mut calls, course);
            compare_logs(&mut moves, logs);
            if logs.size == Size::Rows(MOST_ROWS) {
                compare_with_steps(&mut steps, logs);
            }
        }
        for (course, logs) in &with_triggers {
            compare_calls(&mut trigger_calls, course);
            compare_logs(&mut trigger_moves, logs);
        }
        for (course, logs) in &named {
            compare_calls(&mut named_calls, course);
            compare_logs(&mut named_moves, logs);
        }
        for run in &runs {
            compare_runs(&mut telegrams, run);
        }
    }
    print_times(["a call", "proved", "model"], &calls);
    print_rows(&calls);
    print_times(["a move", "proved", "model"], &moves);
    print_times(["a move", "in the log", "step's call"], &steps);
    print_times(["triggers, call", "proved", "model"], &trigger_calls);
    print_times(["triggers, move", "proved", "model"], &trigger_moves);
    print_times(["kills .. boxes", "proved", "model"], &named_calls);
    print_times(["the same, move", "proved", "model"], &named_moves);
    print_times(["a telegram", "proved", "model"], &telegrams);
    let tables = [
        &calls,
        &moves,
        &trigger_calls,
        &trigger_moves,
        &named_calls,
        &named_moves,
        &telegrams,
    ];
    print_largest(tables.into_iter().flatten());
}
