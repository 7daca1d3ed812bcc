//! Boxes: their outlets, the EXITs that leave them, and where a scenario falls through.

use crate::plant::{Part, Plant};
use crate::structure::{walk, Branch, Frame, Node};
use std::collections::BTreeMap;
use std::ops::Range;

const KILLING: Part = Part::Branch { kills: true };

/// A box: its open row, the BRANCH rows of its outlets, and the EXIT rows that leave it.
#[derive(Clone, PartialEq, Eq, Debug, Default)]
pub struct Boxed {
    pub open: usize,
    pub outlets: Vec<usize>,
    pub exits: Vec<usize>,
}

/// The boxes of any plant, by rising rows.
pub fn all(plant: &Plant) -> Vec<Boxed> {
    let mut boxes: BTreeMap<usize, Boxed> = BTreeMap::new();
    walk(plant, |row, open| match plant.rows[row].part {
        Part::Box => {
            let boxed = Boxed {
                open: row,
                ..Boxed::default()
            };
            boxes.insert(row, boxed);
        }
        Part::Branch { kills: false } | Part::Outlet => {
            let innermost = open.last();
            if let Some(boxed) = innermost.and_then(|frame| boxes.get_mut(&frame.open)) {
                boxed.outlets.push(row);
            }
        }
        Part::ExitTo { .. } => {
            let around = scenario(plant, open);
            if let Some(boxed) = around.and_then(|frame| boxes.get_mut(&frame.open)) {
                boxed.exits.push(row);
            }
        }
        _ => {}
    });
    boxes.into_values().collect()
}

/// Of these open constructs the box whose scenario a row there is in: the innermost that has no outlet yet.
pub fn scenario<'a>(plant: &Plant, open: &'a [Frame]) -> Option<&'a Frame> {
    let inside = |frame: &&Frame| plant.rows[frame.open].part == Part::Box && frame.branches == 0;
    open.iter().rev().find(inside)
}

/// The box that an EXIT leaves.
pub fn left(plant: &Plant, exit: usize) -> Option<Boxed> {
    let mut boxes = all(plant).into_iter();
    boxes.find(|boxed| boxed.exits.contains(&exit))
}

/// The BRANCH row of the outlet that an EXIT names.
pub fn outlet(plant: &Plant, exit: usize) -> Option<usize> {
    let Part::ExitTo { outlet } = plant.rows[exit].part else {
        return None;
    };
    left(plant, exit)?.outlets.get(usize::from(outlet)).copied()
}

impl Boxed {
    /// The EXIT rows that name an outlet, by its number.
    pub fn exits_to(&self, plant: &Plant, number: usize) -> Vec<usize> {
        let names = |exit: &&usize| match plant.rows[**exit].part {
            Part::ExitTo { outlet } => usize::from(outlet) == number,
            _ => false,
        };
        self.exits.iter().filter(names).copied().collect()
    }

    /// The rows that an EXIT clears: its open and its scenario.
    pub fn cleared(&self) -> Range<usize> {
        let first = self.outlets.first();
        self.open..first.copied().unwrap_or(self.open)
    }
}

/// The row behind which a run falls through, if it does: `before`, the row before it, where it is empty. Its last construct decides alone.
pub fn falls_behind(plant: &Plant, before: usize, run: &[Node]) -> Option<usize> {
    let Some(last) = run.last() else {
        return Some(before);
    };
    match last {
        Node::Single { row } => (!plant.rows[*row].part.leaves()).then_some(*row),
        Node::Around { open, .. } if is_endless(plant, *open) => None,
        Node::Around { close, .. } | Node::Boxed { close, .. } => Some(*close),
        Node::Branched {
            open,
            branches,
            close,
        } => {
            let falls = |branch: &Branch| falls_behind(plant, branch.row, &branch.run);
            if plant.rows[*open].part == Part::Or {
                return branches.iter().find_map(falls);
            }
            let kills = |branch: &&Branch| plant.rows[branch.row].part == KILLING;
            let killing = branches.iter().filter(kills).find_map(falls);
            let all = branches.iter().all(|branch| falls(branch).is_some());
            killing.or(all.then_some(*close))
        }
    }
}

/// Whether an LP opens here that no LE leaves.
fn is_endless(plant: &Plant, open: usize) -> bool {
    let is_loop = |frame: &&Frame| plant.rows[frame.open].part == Part::Loop;
    let mut endless = plant.rows[open].part == Part::Loop;
    walk(plant, |row, around| {
        let leaves = plant.rows[row].part == Part::ExitLoop;
        let innermost = around.iter().rev().find(is_loop);
        endless &= !leaves || innermost.map(|frame| frame.open) != Some(open);
    });
    endless
}
