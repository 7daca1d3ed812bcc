//! The net of a plant, drawn: each row's places and transitions where the diagram has the row.
//!
//! The layout offers a way to every arc that goes with the flow; which arcs there are is asked of the net alone. An arc without
//! a way, such as one to an item, ends at a copy of its place under the transition: the sign once more, dashed. What is given to all
//! copies of a trigger, places of their own, ends at one such sign.

mod signs;
mod turns;

use super::cell::{Cell, Cells, Port};
use super::page::Page;
use super::sheet::{Frame, Group, Line, Node, Outline, Sheet};
use super::text::Words;
use super::tree;
use crate::net::{homes, killed, place_words, Arc, Home, Net};
use crate::plant::{Count, Part, Plant};
use crate::structure;
use signs::{side_by_side, Column, BAR, PLACE};

/// The net of a plant, drawn.
pub fn sheet(plant: &Plant, net: &Net) -> Sheet {
    let rows = structure::of(plant);
    let mut cells = Marked {
        plant,
        net,
        homes: homes(plant).collect(),
        arcs: arcs(net),
        copies: Vec::new(),
    };
    let ways = tree::sheet(None, &tree::run(plant, &cells, &rows)).lines;
    let wayless = |arc: &NetArc| !ways.iter().any(|line| arc.goes(line));
    cells.copies = cells.bundled(cells.arcs.iter().copied().filter(wayless));
    let mut drawing = tree::sheet(None, &tree::run(plant, &cells, &rows));
    drawing.lines.retain(|line| cells.has(line));
    let legend = cells.legend(&drawing);
    Page {
        title: plant.title.as_ref().map(|title| format!("{title}: net")),
        drawing,
        heading: (!legend.is_empty()).then(|| "Places of the items".to_string()),
        legend,
        notes: notes(plant, net),
    }
    .sheet()
}

fn notes(plant: &Plant, net: &Net) -> Vec<String> {
    let places = 0..net.marks.len();
    let drawn = places.filter(|place| net.used(*place)).count();
    let left_out = net.marks.len() - drawn;
    let mut notes = vec![
        "P, Q, R and a number: a place. t and a number: a transition, with its interval in ticks of 0.1 s."
            .to_string(),
        "A dashed place stands for the one of its number. ×n: an arc of weight n.".to_string(),
        format!("Drawn are {drawn} places. Left out are {left_out} that no arc names and that are never marked."),
    ];
    if let Some(trigger) = plant.triggers().next() {
        let name = &plant.items[trigger].name;
        notes.push(format!(
            "{name}@ and a row: the copy of trigger {name} that the row takes from. {name}@*: all its copies, with an arc to each."
        ));
    }
    if plant.rows.iter().any(|row| row.part == Part::Box) {
        notes.push(
            "A border: the scenario of a box. An EXIT clears all places inside it, gives each IT there its turns back, and marks the first place of its outlet."
                .to_string(),
        );
    }
    if (0..net.transitions.len()).any(|number| killed(plant, net, number).is_some()) {
        notes.push(
            "Red clears: a transition that kills. It clears all places inside its AND, gives each IT there its turns back, and marks all branches as done."
                .to_string(),
        );
    }
    notes
}

/// An arc of the net.
#[derive(Clone, Copy, PartialEq, Eq)]
struct NetArc {
    transition: usize,
    place: usize,
    weight: u16,
    gives: bool,
}

impl NetArc {
    /// What it goes from and to.
    fn ends(&self) -> (Node, Node) {
        let place = Node::Place(self.place);
        let transition = Node::Transition(self.transition);
        if self.gives {
            (transition, place)
        } else {
            (place, transition)
        }
    }

    /// Whether the line is this arc.
    fn goes(&self, line: &Line) -> bool {
        (line.from, line.to) == self.ends() && line.weight == self.weight
    }
}

/// All arcs of the net, as its transitions have them.
fn arcs(net: &Net) -> Vec<NetArc> {
    let arc = |transition: usize, arc: &Arc, gives: bool| NetArc {
        transition,
        place: usize::from(arc.place),
        weight: arc.weight,
        gives,
    };
    let transitions = net.transitions.iter().enumerate();
    transitions
        .flat_map(|(number, transition)| {
            let takes = transition.takes.iter();
            let gives = transition.gives.iter();
            takes
                .map(move |take| arc(number, take, false))
                .chain(gives.map(move |give| arc(number, give, true)))
        })
        .collect()
}

/// Arcs of a transition that end at one sign: to or from one place, or to all copies of a trigger.
#[derive(Clone, Copy, PartialEq, Eq)]
struct Bundle {
    first: NetArc,
    last: usize,
}

/// The cells of a net.
struct Marked<'a> {
    plant: &'a Plant,
    net: &'a Net,
    /// What each place belongs to.
    homes: Vec<Home>,
    arcs: Vec<NetArc>,
    /// Those that end at copies.
    copies: Vec<Bundle>,
}

impl Cells for Marked<'_> {
    fn cell(&self, row: usize) -> Option<Cell> {
        let part = &self.plant.rows[row].part;
        if let (Part::Repeat { .. }, [more, done]) = (part, self.transitions(row).as_slice()) {
            return Some(self.turns(row, *more, *done));
        }
        let cell = side_by_side(self.columns(row))?;
        Some(match part {
            Part::EndRepeat | Part::EndLoop | Part::ExitTo { .. } | Part::End => Cell {
                onward: None,
                ..cell
            },
            Part::ExitLoop => Cell {
                exit: cell.onward,
                onward: None,
                ..cell
            },
            Part::Loop => Cell {
                back: cell.entry.map(over_entry),
                ..cell
            },
            _ => cell,
        })
    }

    /// An OR's BRANCH has a transition, an AND's none.
    fn start(&self, row: usize) -> Option<Cell> {
        let transitions = self.transitions(row).into_iter();
        side_by_side(transitions.map(|number| self.transition(number)).collect())
    }

    /// An AND's BRANCH has a place that says it is done.
    fn end(&self, row: usize) -> Option<Cell> {
        let places = self.places(row).into_iter();
        side_by_side(places.map(|place| self.place(place, true)).collect())
    }

    /// An EXIT's arcs lead to its outlet: nothing stands at the border.
    fn gate(&self, _open: usize) -> Option<Cell> {
        None
    }
}

/// The top of the sign that the flow enters.
fn over_entry(entry: Port) -> Port {
    let (width, height) = match entry.node {
        Node::Place(_) => (PLACE, PLACE),
        _ => BAR,
    };
    Port {
        at: (entry.at.0 + width / 2, entry.at.1 - height / 2),
        ..entry
    }
}

impl Marked<'_> {
    /// The trigger that a place is a copy of.
    fn trigger(&self, place: usize) -> Option<usize> {
        match self.homes[place] {
            Home::Count(Count::Copy { item, .. }) => Some(item),
            _ => None,
        }
    }

    /// The arcs, those that give to copies of one trigger together.
    fn bundled(&self, arcs: impl Iterator<Item = NetArc>) -> Vec<Bundle> {
        let mut bundles: Vec<Bundle> = Vec::new();
        for arc in arcs {
            let goes_on = |Bundle { first, last }: &Bundle| {
                let trigger = self.trigger(arc.place);
                let next = NetArc {
                    place: last + 1,
                    ..*first
                };
                arc.gives && arc == next && trigger.is_some() && trigger == self.trigger(*last)
            };
            match bundles.last_mut() {
                Some(bundle) if goes_on(bundle) => bundle.last = arc.place,
                _ => bundles.push(Bundle {
                    first: arc,
                    last: arc.place,
                }),
            }
        }
        bundles
    }

    /// The transitions that a row labels.
    fn transitions(&self, row: usize) -> Vec<usize> {
        let transitions = self.net.transitions.iter().enumerate();
        let own = transitions.filter(|(_, transition)| usize::from(transition.label) == row);
        own.map(|(number, _)| number).collect()
    }

    /// The places of a row that are used.
    fn places(&self, row: usize) -> Vec<usize> {
        let places = 3 * row..3 * row + 3;
        places.filter(|place| self.net.used(*place)).collect()
    }

    /// Places and transitions of a row by turns: P, the first, Q, the second.
    fn columns(&self, row: usize) -> Vec<Column> {
        let (places, transitions) = (self.places(row), self.transitions(row));
        // Where no transition tells what a token in a place says, words do.
        let told = transitions.is_empty();
        let places = places.into_iter();
        let places = places.map(|place| (2 * (place % 3), self.place(place, told)));
        let transitions = transitions.into_iter().enumerate();
        let transitions = transitions.map(|(turn, number)| (2 * turn + 1, self.transition(number)));
        let mut columns: Vec<(usize, Column)> = places.chain(transitions).collect();
        columns.sort_by_key(|(order, _)| *order);
        columns.into_iter().map(|(_, column)| column).collect()
    }

    /// Whether the net has the line's arc.
    fn has(&self, line: &Line) -> bool {
        let copied = [line.from, line.to]
            .iter()
            .any(|node| matches!(node, Node::Copy { .. }));
        copied || self.arcs.iter().any(|arc| arc.goes(line))
    }

    /// The used places that the drawing has nowhere: the items'.
    fn legend(&self, drawing: &Sheet) -> Vec<Group> {
        let groups = drawing.groups.iter();
        let drawn: Vec<&str> = groups
            .filter_map(|group| group.attribute.as_ref())
            .map(|(_, value)| value.as_str())
            .collect();
        let places = 0..self.net.marks.len();
        let places = places.filter(|place| self.net.used(*place));
        let left = places.filter(|place| !drawn.contains(&format!("p{place}").as_str()));
        left.map(|place| self.listed(place)).collect()
    }

    /// A place with its mark and what it is.
    fn listed(&self, place: usize) -> Group {
        let what = match self.homes[place] {
            Home::Count(count) => self.plant.count_name(count),
            Home::Row { .. } => place_words(self.plant, place),
        };
        let words = vec![Words::plain(format!("{place} {what}"), 11)];
        let label = Frame::around(Outline::Note, words, 0, 0);
        let top = (PLACE - label.height) / 2;
        let label = label.at(PLACE + 6, top);
        self.place_group(place, vec![self.circle(place), label])
    }
}
