//! What the words of both ends' states say, and whether the ends agree. The layout of states stands here alone.

use crate::net::{home, Home, Net};
use crate::plant::{Count, Part, Plant};

/// What a row of the panel's diagram does.
#[derive(Clone, Copy, PartialEq, Eq, Debug)]
pub enum Activity {
    Idle,
    Ready,
    Running,
    Done,
}

impl Activity {
    fn of(word: u16) -> Activity {
        match word {
            1 => Activity::Ready,
            2 => Activity::Running,
            3 => Activity::Done,
            _ => Activity::Idle,
        }
    }

    pub fn word(self) -> &'static str {
        match self {
            Activity::Idle => "idle",
            Activity::Ready => "ready",
            Activity::Running => "running",
            Activity::Done => "done",
        }
    }
}

/// The words of a diagram's state: three for each row, then the counts, in the order of [`Plant::counts`].
#[derive(Clone, Copy)]
pub struct DiagramState<'a> {
    pub words: &'a [u16],
    pub plant: &'a Plant,
}

impl<'a> DiagramState<'a> {
    pub fn activity(&self, row: usize) -> Activity {
        Activity::of(self.words[3 * row])
    }

    pub fn turns(&self, row: usize) -> u16 {
        self.words[3 * row + 1]
    }

    pub fn clock(&self, row: usize) -> u16 {
        self.words[3 * row + 2]
    }

    /// Every count with its value.
    fn all_counts(&self) -> impl Iterator<Item = (Count, u16)> + 'a {
        let values = &self.words[3 * self.plant.rows.len()..];
        self.plant.counts().zip(values.iter().copied())
    }

    /// The counts that can change, each with its value: a trigger has copies in place of its own.
    pub fn counts(&self) -> impl Iterator<Item = (Count, u16)> + 'a {
        let items = &self.plant.items;
        self.all_counts().filter(|(count, _)| match count {
            Count::Item(item) => !items[*item].trigger,
            Count::Copy { .. } => true,
        })
    }

    /// The value of one of the plant's counts.
    pub fn count(&self, count: Count) -> u16 {
        let found = self.all_counts().find(|(other, _)| *other == count);
        found.map_or(0, |(_, value)| value)
    }

    /// Whether there is something to say of the row: it is not idle, or has made turns.
    pub fn busy(&self, row: usize) -> bool {
        self.activity(row) != Activity::Idle || self.turns(row) > 0
    }
}

/// The words of a net's state: the marks, then the clocks.
#[derive(Clone, Copy)]
pub struct NetState<'a> {
    pub words: &'a [u16],
    pub places: usize,
}

impl NetState<'_> {
    pub fn mark(&self, place: usize) -> u16 {
        self.words[place]
    }

    pub fn clock(&self, transition: usize) -> u16 {
        self.words[self.places + transition]
    }

    /// Whether a place has the turns left of an IT that is neither ready nor in a turn.
    pub fn at_rest(&self, plant: &Plant, place: usize) -> bool {
        match home(plant, place) {
            Home::Row { which: 2, .. } => self.mark(place - 2) == 0 && self.mark(place - 1) == 0,
            _ => false,
        }
    }
}

/// Whether every mark and clock of the net is what the diagram's state says.
pub fn agree(net: &Net, panel: DiagramState, controller: NetState) -> bool {
    let rows = (0..panel.plant.rows.len()).flat_map(|row| marks_said(panel, row));
    let said = rows.chain(panel.all_counts().map(|(_, value)| value));
    let marks = (0..net.marks.len()).map(|place| controller.mark(place));
    let clocks = (0..net.transitions.len())
        .all(|transition| controller.clock(transition) == clock_said(net, panel, transition));
    marks.eq(said) && clocks
}

/// The marks of a row's places P, Q and R that a diagram's state says.
fn marks_said(panel: DiagramState, row: usize) -> [u16; 3] {
    let activity = panel.activity(row);
    let entered = u16::from(matches!(activity, Activity::Ready | Activity::Done));
    match panel.plant.rows[row].part {
        Part::Repeat { count } => {
            let turns = panel.turns(row);
            [entered, turns, count.saturating_sub(turns)]
        }
        _ => [entered, u16::from(activity == Activity::Running), 0],
    }
}

/// The clock that a diagram's state says: of a FUNCTION's second transition its row's.
fn clock_said(net: &Net, panel: DiagramState, transition: usize) -> u16 {
    let row = usize::from(net.transitions[transition].label);
    match panel.plant.rows[row].part {
        Part::Function(_) if net.turn(transition) > 0 => panel.clock(row),
        _ => 0,
    }
}
