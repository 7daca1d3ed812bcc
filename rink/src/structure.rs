//! How the rows of an accepted diagram nest.

use crate::plant::{Part, Plant};
use std::ops::Range;

/// A run of rows: constructs and single rows, in order.
pub type Run = Vec<Node>;

/// A row that stands alone, or a construct with the runs inside it.
#[derive(Clone, PartialEq, Eq, Debug)]
pub enum Node {
    /// FUNCTION, LE, EXIT or END.
    Single { row: usize },
    /// IT or LP.
    Around {
        open: usize,
        body: Run,
        close: usize,
    },
    /// AND or OR.
    Branched {
        open: usize,
        branches: Vec<Branch>,
        close: usize,
    },
    Boxed {
        open: usize,
        scenario: Run,
        outlets: Vec<Branch>,
        close: usize,
    },
}

/// A branch: its BRANCH row and the run behind it.
#[derive(Clone, PartialEq, Eq, Debug)]
pub struct Branch {
    pub row: usize,
    pub run: Run,
}

/// The run of an accepted diagram's rows.
pub fn of(plant: &Plant) -> Run {
    run_from(plant, 0).0
}

/// The run that begins at a row, and the row behind it: a BRANCH or close, of the whole diagram none.
pub fn run_from(plant: &Plant, mut row: usize) -> (Run, usize) {
    let nodes = run(plant, &mut row);
    (nodes, row)
}

/// The run that begins at `row`, which becomes the row behind it.
fn run(plant: &Plant, row: &mut usize) -> Run {
    let mut nodes = Vec::new();
    while let Some(found) = plant.rows.get(*row) {
        let part = &found.part;
        if part.closes() || part.is_branch() {
            break;
        }
        let open = *row;
        *row += 1;
        nodes.push(match part {
            Part::And | Part::Or => Node::Branched {
                open,
                branches: branch_runs(plant, row),
                close: closed(row),
            },
            Part::Box => Node::Boxed {
                open,
                scenario: run(plant, row),
                outlets: branch_runs(plant, row),
                close: closed(row),
            },
            Part::Repeat { .. } | Part::Loop => Node::Around {
                open,
                body: run(plant, row),
                close: closed(row),
            },
            _ => Node::Single { row: open },
        });
    }
    nodes
}

/// The branches from `row` on, which becomes their close.
fn branch_runs(plant: &Plant, row: &mut usize) -> Vec<Branch> {
    let mut branches = Vec::new();
    while plant.rows[*row].part.is_branch() {
        let branch = *row;
        *row += 1;
        let run = run(plant, row);
        branches.push(Branch { row: branch, run });
    }
    branches
}

/// The close at `row`, which becomes the row behind it.
fn closed(row: &mut usize) -> usize {
    *row += 1;
    *row - 1
}

/// An open construct: its open row, and how many of its BRANCH rows came so far.
#[derive(Clone, Copy, PartialEq, Eq, Debug)]
pub struct Frame {
    pub open: usize,
    pub branches: usize,
}

/// Goes through the rows of any plant, nested well or not: each with the constructs open before it, the innermost last.
pub fn walk(plant: &Plant, mut see: impl FnMut(usize, &[Frame])) {
    let mut open: Vec<Frame> = Vec::new();
    for (row, found) in plant.rows.iter().enumerate() {
        see(row, &open);
        let part = &found.part;
        if part.opens() {
            open.push(Frame {
                open: row,
                branches: 0,
            });
        } else if part.closes() {
            open.pop();
        } else if part.is_branch() {
            if let Some(innermost) = open.last_mut() {
                innermost.branches += 1;
            }
        }
    }
}

/// The constructs open before a row of any plant, the innermost last.
pub fn open_before(plant: &Plant, row: usize) -> Vec<Frame> {
    let mut found = Vec::new();
    walk(plant, |other, open| {
        if other == row {
            found = open.to_vec();
        }
    });
    found
}

/// Of each row: the open row of the innermost construct around it. An open and a close belong to what is around their construct,
/// a BRANCH to its own.
pub fn owners(plant: &Plant) -> Vec<Option<usize>> {
    let mut owners = Vec::new();
    walk(plant, |row, open| {
        let own = usize::from(plant.rows[row].part.closes());
        owners.push(open.iter().rev().nth(own).map(|frame| frame.open));
    });
    owners
}

/// The BRANCH rows of the AND, OR or box that opens here.
pub fn branches(plant: &Plant, open: usize) -> Vec<usize> {
    let owners = owners(plant).into_iter().enumerate();
    let own =
        owners.filter(|&(row, owner)| owner == Some(open) && plant.rows[row].part.is_branch());
    own.map(|(row, _)| row).collect()
}

/// The rows of a branch of an accepted diagram, its BRANCH row left out.
pub fn branch_rows(plant: &Plant, branch: usize) -> Range<usize> {
    let owners = owners(plant);
    let first = branch + 1;
    // Behind it stands the next branch, or the close, which belongs to what is around the construct.
    let ends = |row: &usize| {
        let part = &plant.rows[*row].part;
        (part.is_branch() && owners[*row] == owners[branch])
            || (part.closes() && owners[*row] < owners[branch])
    };
    let behind = (first..plant.rows.len()).find(ends);
    first..behind.unwrap_or(first)
}

/// A branch that kills: its BRANCH row, and the row that opens its AND.
#[derive(Clone, Copy, PartialEq, Eq, Debug)]
pub struct Killer {
    pub branch: usize,
    pub and: usize,
}

/// The branches that kill, by rising rows.
pub fn killers(plant: &Plant) -> Vec<Killer> {
    let owners = owners(plant).into_iter().enumerate();
    let kills = owners.filter(|&(row, _)| plant.rows[row].part == Part::Branch { kills: true });
    kills
        .filter_map(|(branch, owner)| owner.map(|and| Killer { branch, and }))
        .collect()
}

impl Killer {
    /// The BRANCH rows of the branches that it kills.
    pub fn others(&self, plant: &Plant) -> Vec<usize> {
        let mut others = branches(plant, self.and);
        others.retain(|other| *other != self.branch);
        others
    }

    /// Whether its end can come: a branch that ends with an LE or EXIT is never done.
    pub fn can_kill(&self, plant: &Plant) -> bool {
        let last = branch_rows(plant, self.branch).last();
        last.is_some_and(|last| !plant.rows[last].part.leaves())
    }
}

/// How many constructs are open together, at most.
pub fn depth(plant: &Plant) -> usize {
    let mut deepest = 0;
    let mut open = 0usize;
    for row in &plant.rows {
        if row.part.opens() {
            open += 1;
        } else if row.part.closes() {
            open = open.saturating_sub(1);
        }
        deepest = deepest.max(open);
    }
    deepest
}
