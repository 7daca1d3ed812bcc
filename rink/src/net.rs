//! The net of a plant: the proved translation's bytes, taken apart, with a name for every place and transition.

use crate::plant::{records, Count, Part, Plant};
use crate::structure::killers;
use effbd::Refusal;

/// A time Petri net as its file has it.
#[derive(Clone, PartialEq, Eq, Debug, Default)]
pub struct Net {
    /// The mark of every place.
    pub marks: Vec<u16>,
    pub transitions: Vec<Transition>,
    /// Of every place whether it has a mark or an arc names it.
    used: Vec<bool>,
}

/// A transition with its interval and arcs.
#[derive(Clone, PartialEq, Eq, Debug, Default)]
pub struct Transition {
    pub label: u16,
    pub from: u16,
    pub to: u16,
    pub takes: Vec<Arc>,
    /// Ranges of places, first and last.
    pub clears: Vec<(u16, u16)>,
    pub gives: Vec<Arc>,
}

/// An arc from or to a place.
#[derive(Clone, Copy, PartialEq, Eq, Debug)]
pub struct Arc {
    pub place: u16,
    pub weight: u16,
}

const PLACE: u16 = 33;
const TRANSITION: u16 = 34;
const TAKE: u16 = 35;
const CLEAR: u16 = 36;
const GIVE: u16 = 37;
/// Where the head has the number of transitions.
const TRANSITIONS_AT: usize = 6;

/// The net file of a diagram file, as the proved translation writes it.
pub fn translated(file: &[u8]) -> Result<Vec<u8>, Refusal> {
    let mut area = vec![0; effbd::NET_ROOM];
    let length = effbd::translate(file, &mut area)?;
    area.truncate(length as usize);
    Ok(area)
}

/// Of each transition the file of a net that has the places of this one and that transition alone.
pub fn alone(net: &[u8]) -> Vec<Vec<u8>> {
    let mut bounds: Vec<usize> = records(net)
        .iter()
        .filter(|record| record.kind == TRANSITION)
        .map(|record| record.offset)
        .collect();
    bounds.push(net.len());
    let mut places = net[..bounds[0]].to_vec();
    places[TRANSITIONS_AT..TRANSITIONS_AT + 2].copy_from_slice(&1u16.to_le_bytes());
    let transitions = bounds.windows(2).map(|ends| &net[ends[0]..ends[1]]);
    transitions
        .map(|own| [places.as_slice(), own].concat())
        .collect()
}

impl Net {
    /// The net of a diagram file.
    pub fn of_diagram(file: &[u8]) -> Result<Net, Refusal> {
        Ok(Net::taken_apart(&translated(file)?))
    }

    /// The records of an accepted net file.
    pub fn taken_apart(net: &[u8]) -> Net {
        let mut found = Net::default();
        for record in records(net) {
            let (first, second) = match record.fields.as_slice() {
                [first, second, ..] => (*first, *second),
                [first] => (*first, 0),
                [] => (0, 0),
            };
            let arc = Arc {
                place: first,
                weight: second,
            };
            if record.kind == PLACE {
                found.marks.push(first);
            } else if record.kind == TRANSITION {
                found.transitions.push(Transition {
                    label: first,
                    from: second,
                    to: record.fields.get(2).copied().unwrap_or(0),
                    ..Transition::default()
                });
            } else if let Some(last) = found.transitions.last_mut() {
                match record.kind {
                    TAKE => last.takes.push(arc),
                    CLEAR => last.clears.push((first, second)),
                    GIVE => last.gives.push(arc),
                    _ => {}
                }
            }
        }
        found.used = found.marks.iter().map(|mark| *mark > 0).collect();
        for transition in &found.transitions {
            for arc in transition.takes.iter().chain(&transition.gives) {
                found.used[usize::from(arc.place)] = true;
            }
        }
        found
    }

    /// Whether an arc names the place, or it has a mark: others stay empty for ever.
    pub fn used(&self, place: usize) -> bool {
        self.used[place]
    }

    /// Which of its label's transitions it is: 0 for the first.
    pub fn turn(&self, transition: usize) -> usize {
        let label = self.transitions[transition].label;
        let before = &self.transitions[..transition];
        before.iter().filter(|other| other.label == label).count()
    }
}

/// What a place belongs to.
#[derive(Clone, Copy, PartialEq, Eq, Debug)]
pub enum Home {
    /// Place P, Q or R (0, 1, 2) of a row.
    Row {
        row: usize,
        which: usize,
    },
    Count(Count),
}

/// The homes of all places of this plant's net, in order.
pub fn homes(plant: &Plant) -> impl Iterator<Item = Home> + '_ {
    let rows = (0..3 * plant.rows.len()).map(|place| Home::Row {
        row: place / 3,
        which: place % 3,
    });
    rows.chain(plant.counts().map(Home::Count))
}

/// The home of a place of this plant's net.
pub fn home(plant: &Plant, place: usize) -> Home {
    let home = homes(plant).nth(place);
    home.expect("a net has places of rows, items and copies alone")
}

/// Places next to one another: `4`, or `4..7`.
pub fn place_range(first: usize, last: usize) -> String {
    if first == last {
        first.to_string()
    } else {
        format!("{first}..{last}")
    }
}

/// A place in words: what a token there says.
pub fn place_words(plant: &Plant, place: usize) -> String {
    let (row, which) = match home(plant, place) {
        Home::Count(count) => return format!("count of {}", plant.count_name(count)),
        Home::Row { row, which } => (row, which),
    };
    let name = plant.row_name(row);
    match (&plant.rows[row].part, which) {
        (Part::Repeat { .. }, 1) => format!("{name}: turns made"),
        (Part::Repeat { .. }, 2) => format!("{name}: turns left"),
        (Part::Branch { .. }, 0) => format!("{name} done"),
        (Part::End, 0) => "the end reached".to_string(),
        (_, 0) => format!("{name} ready"),
        (Part::Function(_), 1) => format!("{name} runs"),
        _ => "never marked".to_string(),
    }
}

/// The open row of the AND whose branches a transition ends: it marks a killing branch of it as done, and so the others.
pub fn killed(plant: &Plant, net: &Net, transition: usize) -> Option<usize> {
    let gives = &net.transitions[transition].gives;
    let marked = |row: usize| gives.iter().any(|arc| usize::from(arc.place) == 3 * row);
    let mut killers = killers(plant).into_iter();
    let done = killers.find(|killer| marked(killer.branch))?;
    Some(done.and)
}

/// A transition in words: what its firing does.
pub fn transition_words(plant: &Plant, net: &Net, transition: usize) -> String {
    let words = own_words(plant, net, transition);
    match killed(plant, net, transition) {
        None => words,
        Some(and) => {
            let and = plant.row_name(and);
            format!("{words}, killing the other branches of {and}")
        }
    }
}

/// What the firing of a transition says of its own row.
fn own_words(plant: &Plant, net: &Net, transition: usize) -> String {
    let row = usize::from(net.transitions[transition].label);
    let name = plant.row_name(row);
    match (&plant.rows[row].part, net.turn(transition)) {
        (Part::Function(_), 0) => format!("{name} starts"),
        (Part::Function(_), _) => format!("{name} ends"),
        (Part::Repeat { .. }, 0) => format!("{name}: one more turn"),
        (Part::Repeat { .. }, _) => format!("{name}: turns done"),
        (Part::Branch { .. }, _) => format!("{name} chosen"),
        (Part::And, _) => format!("{name}: branches begin"),
        (Part::EndAnd, _) => format!("{name}: branches joined"),
        (Part::EndRepeat | Part::EndLoop, _) => format!("{name}: back"),
        (Part::ExitLoop, _) => format!("{name}: loop left"),
        (Part::Box, _) => format!("{name}: scenario begins"),
        (Part::ExitTo { .. }, _) => format!("{name}: box left"),
        _ => format!("{name} passed"),
    }
}
