//! Demand 3, "one claim about a whole list": the history, and the claim as a
//! check.

use crate::bus::{self, Telegram, TELEGRAM_LENGTH};
use crate::diagram::{self, Diagram, Row};
use crate::diagram_step::{self, activity, clock, RUNNING, STEP, WAIT};
use crate::image::image;
use crate::net;
use crate::net_step;
use crate::refusal::{refusal, Answer, Refusal, ITEM_SHORT, NOT_STANDING, SUM_TOO_LARGE};
use crate::transitions::transition;
use crate::translate::net_of;

/// "The list mixes, in any order, moves offered to the leader (any code, row or
/// ticks, and any area) and bytes handed to the follower."
#[derive(Clone, PartialEq, Eq, Debug)]
pub enum Call {
    Offer {
        code: u16,
        argument: u16,
        /// The lent area as it is before the call.
        area: Vec<u8>,
    },
    Hand {
        bytes: Vec<u8>,
    },
}

/// What the list comes to, "from the diagram, the station and the list alone".
pub struct History {
    /// Diagram states, state 0 the fresh one.
    pub states: Vec<Vec<u16>>,
    /// t of the document: how far the follower came.
    pub taken: u32,
    /// Telegrams of the offers that added a state.
    pub telegrams: Vec<Telegram>,
    /// For each call, whether it added a state or raised t.
    pub counted: Vec<bool>,
    station: u16,
}

impl History {
    /// "Diagram states, at first the fresh one, state 0; and t, at first 0."
    pub fn new(diagram: &Diagram, station: u16) -> Self {
        History {
            states: vec![diagram_step::fresh_state(diagram)],
            taken: 0,
            telegrams: Vec::new(),
            counted: Vec::new(),
            station,
        }
    }

    /// The last state of the history.
    pub fn last(&self) -> &[u16] {
        self.states.last().map_or(&[], Vec::as_slice)
    }

    /// Number of states added.
    pub fn added(&self) -> u32 {
        self.telegrams.len() as u32
    }

    /// One call more.
    pub fn call(&mut self, diagram: &Diagram, call: &Call) {
        let counts = match call {
            Call::Offer {
                code,
                argument,
                area,
            } => self.offer(diagram, *code, *argument, area.len()),
            Call::Hand { bytes } => self.hand(bytes),
        };
        self.counted.push(counts);
    }

    /// "An offer adds the state after its move if none of the diagram's 21 to
    /// 26 stands against it at the last state, fewer than 4,294,967,295 were
    /// added before and the area has 14 bytes or more; otherwise it adds
    /// nothing."
    fn offer(&mut self, diagram: &Diagram, code: u16, argument: u16, area_length: usize) -> bool {
        let moved = diagram_step::after(diagram, self.last(), code, argument);
        let (Ok(next), Some(number)) = (moved, self.added().checked_add(1)) else {
            return false;
        };
        if area_length < TELEGRAM_LENGTH {
            return false;
        }
        self.states.push(next);
        self.telegrams.push(Telegram {
            number,
            station: self.station,
            code,
            argument,
        });
        true
    }

    /// "A telegram of this station numbered t + 1 raises t by 1; other bytes
    /// don't."
    fn hand(&mut self, bytes: &[u8]) -> bool {
        let raised = self.taken.checked_add(1);
        match Telegram::decode(bytes) {
            Some(telegram) if telegram.station == self.station => {
                let raises = raised == Some(telegram.number);
                self.taken += u32::from(raises);
                raises
            }
            _ => false,
        }
    }

    /// "The bytes are the 14 that an earlier accepted offer of the list wrote,
    /// as they were then, or are no telegram of this station (30, 31)."
    pub fn may_be_handed(&self, bytes: &[u8]) -> bool {
        match Telegram::decode(bytes) {
            Some(telegram) if telegram.station == self.station => {
                self.telegrams.contains(&telegram)
            }
            _ => true,
        }
    }
}

/// The history of a whole list.
pub fn history(file: &[u8], station: u16, calls: &[Call]) -> Result<History, Refusal> {
    let diagram = diagram::parse(file)?;
    let mut history = History::new(&diagram, station);
    for call in calls {
        history.call(&diagram, call);
    }
    Ok(history)
}

/// One end of the bus: its state and its count.
struct End {
    state: Vec<u16>,
    count: u32,
}

/// Demand 3 for one list: both ends run it from fresh, then all is compared
/// with the history. The text says what does not hold.
pub fn claim(file: &[u8], station: u16, calls: &[Call]) -> Result<(), String> {
    let (mut leader, mut follower, net) = fresh_ends(file).map_err(describe)?;
    check_premise(file, station, calls)?;
    let history = history(file, station, calls).map_err(describe)?;

    let mut expected_telegrams = history.telegrams.iter();
    for (number, call) in calls.iter().enumerate() {
        let answer = match call {
            Call::Offer {
                code,
                argument,
                area,
            } => {
                let mut lent = area.clone();
                let answer = leader_call(&mut leader, file, station, *code, *argument, &mut lent);
                let mut expected = area.clone();
                if history.counted[number] {
                    if let Some(telegram) = expected_telegrams.next() {
                        expected[..TELEGRAM_LENGTH].copy_from_slice(&telegram.encode());
                    }
                }
                ensure(lent == expected, || format!("call {number}: area"))?;
                answer
            }
            Call::Hand { bytes } => follower_call(&mut follower, &net, station, bytes),
        };
        ensure(answer.is_ok() == history.counted[number], || {
            format!("call {number}: {answer:?}")
        })?;
    }

    let image_of_taken = history
        .states
        .get(history.taken as usize)
        .and_then(|state| image(file, state));
    ensure(leader.state == history.last(), || "leader's state".into())?;
    ensure(leader.count == history.added(), || "leader's count".into())?;
    ensure(follower.count == history.taken, || {
        "follower's count".into()
    })?;
    ensure(Some(follower.state) == image_of_taken, || {
        "follower's state".into()
    })?;
    for state in &history.states {
        for (code, argument) in moves_to_try(file, state) {
            agreement(file, &net, state, code, argument)?;
        }
    }
    Ok(())
}

/// "Both ends start fresh, count 0; the follower has the net translated from
/// the leader's accepted diagram."
fn fresh_ends(file: &[u8]) -> Result<(End, End, Vec<u8>), Refusal> {
    let mut leader = End {
        state: vec![0; diagram::read(file)? as usize],
        count: 0,
    };
    diagram_step::fresh(file, &mut leader.state)?;
    let net = net_of(file)?;
    let mut follower = End {
        state: vec![0; net::read(&net)? as usize],
        count: 0,
    };
    net_step::fresh(&net, &mut follower.state)?;
    Ok((leader, follower, net))
}

/// "Each call gets the state and count that the last one at its end returned or
/// left."
fn leader_call(
    leader: &mut End,
    file: &[u8],
    station: u16,
    code: u16,
    argument: u16,
    area: &mut [u8],
) -> Answer {
    let (state, count) = (&mut leader.state, leader.count);
    let answer = bus::offer(file, state, count, station, code, argument, area);
    leader.count = answer.unwrap_or(count);
    answer
}

fn follower_call(follower: &mut End, net: &[u8], station: u16, bytes: &[u8]) -> Answer {
    let answer = bus::take(net, &mut follower.state, follower.count, station, bytes);
    follower.count = answer.unwrap_or(follower.count);
    answer
}

/// The claim is made for lists whose bytes may be handed over.
fn check_premise(file: &[u8], station: u16, calls: &[Call]) -> Result<(), String> {
    let diagram = diagram::parse(file).map_err(describe)?;
    let mut history = History::new(&diagram, station);
    for (number, call) in calls.iter().enumerate() {
        if let Call::Hand { bytes } = call {
            ensure(history.may_be_handed(bytes), || {
                format!("call {number}: forged telegram")
            })?;
        }
        history.call(&diagram, call);
    }
    Ok(())
}

/// "At every state of the history the diagram's stepper, and the net's at its
/// image, accept the same moves", for one move. Also: the image of the new
/// state is the net's new state, a refusal alters neither, the net's refusal is
/// the one that belongs to the diagram's, and the transition is request 6's.
pub fn agreement(
    file: &[u8],
    net: &[u8],
    state: &[u16],
    code: u16,
    argument: u16,
) -> Result<(), String> {
    let diagram = diagram::parse(file).map_err(describe)?;
    let mut diagram_state = state.to_vec();
    let mut net_state = image(file, state).ok_or("no image")?;
    let by_diagram = diagram_step::step(file, &mut diagram_state, code, argument);
    let by_net = net_step::step(net, &mut net_state, code, argument);
    let expected = by_diagram.map_err(|refused| net_refusal(&diagram, state, argument, refused));
    ensure(by_net == expected, || {
        format!("move {code} {argument} at {state:?}: {by_diagram:?} but net {by_net:?}")
    })?;
    ensure(by_diagram.is_ok() || diagram_state == state, || {
        format!("move {code} {argument} at {state:?}: refused, but {diagram_state:?}")
    })?;
    ensure(image(file, &diagram_state) == Some(net_state), || {
        format!("move {code} {argument} at {state:?}: images differ")
    })?;
    match diagram.rows.get(usize::from(argument)) {
        Some(Row::Function(_)) if code == STEP && by_diagram.is_ok() => {
            fires_as_told(file, net, state, argument)
        }
        _ => Ok(()),
    }
}

/// Request 6: "at every state reached by a list of moves where the row's step is
/// accepted, that is the transition that the net fires at the image". Of their
/// numbers, since two transitions may do the same.
fn fires_as_told(file: &[u8], net: &[u8], state: &[u16], row: u16) -> Result<(), String> {
    let net = net::parse(net).map_err(describe)?;
    let image = image(file, state).ok_or("no image")?;
    let fired = net_step::fired_by(&net, &image, row).map(|number| Ok(number as u32));
    let told = transition(file, state, row);
    ensure(fired == Some(told), || {
        format!("row {row} at {state:?}: told {told:?} but net fires {fired:?}")
    })
}

/// The net's refusal for the diagram's at a state: 23 "the net says 22"; 25 names
/// the lowest place, which need not be of the lowest item, since the copies of a
/// trigger stand behind all items; all others are the same.
fn net_refusal(diagram: &Diagram, state: &[u16], row: u16, refused: Refusal) -> Refusal {
    match refused.number {
        ITEM_SHORT => refusal(NOT_STANDING, usize::from(row)),
        SUM_TOO_LARGE => match lowest_full_place(diagram, state, usize::from(row)) {
            Some(place) => refusal(SUM_TOO_LARGE, place),
            None => refused,
        },
        _ => refused,
    }
}

/// The lowest place of an item or copy that a FUNCTION's gives would take above
/// 65,535; counts have the same number in the state and in the net.
fn lowest_full_place(diagram: &Diagram, state: &[u16], row: usize) -> Option<usize> {
    let Some(Row::Function(function)) = diagram.rows.get(row) else {
        return None;
    };
    let full = function.each_use().flat_map(|used| {
        let places = diagram.given_words(used.item);
        places.filter(move |place| state[*place].checked_add(used.give).is_none())
    });
    full.min()
}

/// Moves that stand for "whatever code, row or ticks" at a state: codes off,
/// every row and some that do not exist, and ticks around every limit.
pub fn moves_to_try(file: &[u8], state: &[u16]) -> Vec<(u16, u16)> {
    let Ok(diagram) = diagram::parse(file) else {
        return Vec::new();
    };
    let rows = diagram.rows.len() as u16;
    let mut moves = vec![(0, 0), (3, 1), (u16::MAX, 1)];
    moves.extend((0..=rows).map(|row| (STEP, row)));
    moves.push((STEP, u16::MAX));
    for ticks in [0, 1, 2, u16::MAX] {
        moves.push((WAIT, ticks));
    }
    for (number, row) in diagram.rows.iter().enumerate() {
        let running = state.get(activity(number)) == Some(&RUNNING);
        if let (Row::Function(function), true) = (row, running) {
            let passed = state.get(clock(number)).copied().unwrap_or(0);
            let left = function.beta.saturating_sub(passed);
            moves.push((WAIT, left));
            moves.push((WAIT, left.saturating_add(1)));
        }
    }
    moves
}

fn describe(refused: Refusal) -> String {
    format!("refused {} {}", refused.number, refused.value)
}

fn ensure(holds: bool, text: impl FnOnce() -> String) -> Result<(), String> {
    if holds {
        Ok(())
    } else {
        Err(text())
    }
}
