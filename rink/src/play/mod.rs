//! The game of both bus ends: a panel that steps the diagram, a controller that steps its net, and a bus between them that the person can
//! let lose, repeat and delay telegrams.
//!
//! Moves are made by the proved leader's call, telegrams taken by the proved follower's call, and what is accepted now is found by trying
//! these on a copy. What stands here is the bus, the commands and the words.

mod act;
mod bus;
mod choices;
mod command;
mod expect;
mod lines;
mod screen;
mod script;
mod short;
mod states;
mod terminal;
mod transitions;
pub mod words;

pub use act::{Report, Then};
pub use choices::Choice;
pub use command::{parse, Command, Expectation, Fault, Which, HELP};
pub use lines::COLUMNS;
pub use screen::screen;
pub use script::{scripted, ScriptFault};
pub use states::{Activity, DiagramState, NetState};
pub use terminal::terminal;

use crate::net::{alone, translated, Net};
use crate::plant::Plant;
use effbd::{Answer, Move, Refusal, TELEGRAM_LENGTH};

/// An end of the bus: the words of its state, and its count of moves made or telegrams taken.
#[derive(Clone, PartialEq, Eq, Debug)]
struct End {
    state: Vec<u16>,
    count: u32,
}

/// A telegram that the panel sent: its move, its bytes, the panel's time then, in ticks, and what last became of it.
#[derive(Clone, PartialEq, Eq, Debug)]
struct Sent {
    made: Move,
    bytes: [u8; TELEGRAM_LENGTH],
    time: u64,
    fate: Fate,
}

/// What became of a telegram, or of its last copy.
#[derive(Clone, Copy, PartialEq, Eq, Debug)]
enum Fate {
    UnderWay,
    Lost,
    Refused(u32),
}

/// A telegram on the bus: its number, move and bytes, whether it was sent again, and the panel's time when it was put there.
#[derive(Clone, Copy, PartialEq, Eq, Debug)]
pub struct UnderWay {
    pub number: u32,
    pub made: Move,
    pub bytes: [u8; TELEGRAM_LENGTH],
    pub again: bool,
    pub since: u64,
}

/// What came of a call.
#[derive(Clone, Copy, PartialEq, Eq, Debug)]
pub enum Outcome {
    /// The panel made a move, whose telegram has this number.
    Accepted(u32),
    /// The controller took the telegram of this number.
    Taken(u32),
    /// An end refused with this number.
    Refused(u32),
    /// The transition that the move accepted just before fires, or the telegram taken just before fired.
    Fires(usize),
}

/// Both ends and the bus between them.
pub struct Game {
    plant: Plant,
    file: Vec<u8>,
    net_file: Vec<u8>,
    net: Net,
    /// Of each transition the net file that has it alone.
    alone: Vec<Vec<u8>>,
    station: u16,
    panel: End,
    controller: End,
    /// Telegram n stands at n - 1.
    sent: Vec<Sent>,
    /// Telegrams under way, the one that comes next first.
    bus: Vec<UnderWay>,
    /// Whether every telegram is delivered at once.
    auto: bool,
    /// What came of the calls of the last command that made any.
    outcomes: Vec<Outcome>,
}

impl Game {
    /// Both ends fresh, nothing on the bus. A plant that is not the file's own lends no names: then they are made up.
    pub fn new(plant: Plant, file: Vec<u8>, station: u16) -> Result<Game, Refusal> {
        let made_up = Plant::read(&file)?;
        let plant = match plant.file() {
            Some(own) if own == file => plant,
            _ => made_up,
        };
        let net_file = translated(&file)?;
        let (panel, controller) = fresh(&file, &net_file)?;
        let net = Net::taken_apart(&net_file);
        Ok(Game {
            alone: alone(&net_file),
            net,
            plant,
            file,
            net_file,
            station,
            panel,
            controller,
            sent: Vec::new(),
            bus: Vec::new(),
            auto: false,
            outcomes: Vec::new(),
        })
    }

    /// As at the beginning; whether telegrams are delivered at once stays as it is.
    fn restart(&mut self) -> Result<Vec<String>, String> {
        let fresh = fresh(&self.file, &self.net_file);
        (self.panel, self.controller) = fresh.map_err(|refused| refused.to_string())?;
        self.sent.clear();
        self.bus.clear();
        let words = "both ends are fresh, nothing is on the bus";
        Ok(vec![words.to_string()])
    }

    pub fn plant(&self) -> &Plant {
        &self.plant
    }

    pub fn net(&self) -> &Net {
        &self.net
    }

    /// Moves that the panel made.
    pub fn sent_count(&self) -> u32 {
        self.panel.count
    }

    /// Telegrams that the controller took.
    pub fn taken_count(&self) -> u32 {
        self.controller.count
    }

    pub fn under_way(&self) -> &[UnderWay] {
        &self.bus
    }

    /// What came of the calls of the last command that made any.
    pub fn outcomes(&self) -> &[Outcome] {
        &self.outcomes
    }

    /// What the panel's state says.
    pub fn diagram_state(&self) -> DiagramState<'_> {
        self.reading(&self.panel.state)
    }

    /// What the controller's state says.
    pub fn net_state(&self) -> NetState<'_> {
        NetState {
            words: &self.controller.state,
            places: self.net.marks.len(),
        }
    }

    /// What other words of a state of this diagram say.
    fn reading<'a>(&'a self, words: &'a [u16]) -> DiagramState<'a> {
        let plant = &self.plant;
        DiagramState { words, plant }
    }

    /// Whether the controller's marks and clocks are what the panel's state says.
    pub fn agree(&self) -> bool {
        states::agree(&self.net, self.diagram_state(), self.net_state())
    }

    /// The panel's time, in ticks.
    pub fn panel_time(&self) -> u64 {
        time(&self.sent)
    }

    /// The controller's time: that of the telegrams which it took.
    pub fn controller_time(&self) -> u64 {
        time(&self.sent[..self.controller.count as usize])
    }

    /// The panel's state after a move, by the proved call on a copy.
    fn tried(&self, made: Move) -> Result<Vec<u16>, Refusal> {
        let mut state = self.panel.state.clone();
        let mut telegram = [0; TELEGRAM_LENGTH];
        let (count, station) = (self.panel.count, self.station);
        effbd::offer_move(&self.file, &mut state, count, station, made, &mut telegram)?;
        Ok(state)
    }

    /// What the controller would answer to these bytes, by the proved call on a copy.
    fn tried_take(&self, bytes: &[u8]) -> Answer {
        let mut state = self.controller.state.clone();
        let count = self.controller.count;
        effbd::take(&self.net_file, &mut state, count, self.station, bytes)
    }
}

/// The step of a row of an accepted diagram, which has 64 at most.
fn step(row: usize) -> Move {
    Move::Step(row as u16)
}

/// Both ends of a diagram file and its net, fresh.
fn fresh(file: &[u8], net_file: &[u8]) -> Result<(End, End), Refusal> {
    let mut state = vec![0; effbd::read_diagram(file)? as usize];
    effbd::fresh_diagram(file, &mut state)?;
    let panel = End { state, count: 0 };
    let mut state = vec![0; effbd::read_net(net_file)? as usize];
    effbd::fresh_net(net_file, &mut state)?;
    let controller = End { state, count: 0 };
    Ok((panel, controller))
}

/// The sum of the waits among these.
fn time(sent: &[Sent]) -> u64 {
    let waits = sent.iter().map(|sent| match sent.made {
        Move::Wait(ticks) => u64::from(ticks),
        Move::Step(_) => 0,
    });
    waits.sum()
}
