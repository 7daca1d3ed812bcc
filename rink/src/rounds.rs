//! Ways round a loop that spend no time. Refusal 45 shuts out a loop with no FUNCTION that takes a tick, not a way round past one.
//!
//! Items are not weighed: a FUNCTION that takes no tick may still wait for what it is short of.

use crate::plant::{Function, Part, Plant};
use crate::structure::{self, Branch, Node};

/// Rows gone through, in the order of the diagram.
pub type Way = Vec<usize>;

/// Of each loop that can be gone round in no time, by rising rows: the shortest such way, from the LP open to its close.
pub fn timeless(plant: &Plant) -> Vec<Way> {
    let loops = (0..plant.rows.len()).filter(|&row| is_loop(plant, row));
    loops.filter_map(|open| round(plant, open)).collect()
}

fn is_loop(plant: &Plant, row: usize) -> bool {
    plant.rows[row].part == Part::Loop
}

fn round(plant: &Plant, open: usize) -> Option<Way> {
    let (body, close) = structure::run_from(plant, open + 1);
    Some(between(open, through(plant, &body)?, close))
}

fn between(open: usize, inside: Way, close: usize) -> Way {
    [vec![open], inside, vec![close]].concat()
}

/// The first of the ways with the fewest rows.
fn shortest(ways: impl Iterator<Item = Way>) -> Option<Way> {
    ways.min_by_key(Vec::len)
}

/// From the beginning of a run to its end.
fn through(plant: &Plant, run: &[Node]) -> Option<Way> {
    let ways: Option<Vec<Way>> = run.iter().map(|node| past(plant, node)).collect();
    Some(ways?.concat())
}

/// From before a row or construct to behind it. An LP is left by an LE alone, a box by its outlets.
fn past(plant: &Plant, node: &Node) -> Option<Way> {
    match node {
        Node::Single { row } => instant(&plant.rows[*row].part).then(|| vec![*row]),
        Node::Around { open, body, .. } if is_loop(plant, *open) => {
            Some([vec![*open], to_exit(plant, body, &Part::ExitLoop)?].concat())
        }
        Node::Around { open, body, close } => Some(between(*open, through(plant, body)?, *close)),
        Node::Branched {
            open,
            branches,
            close,
        } => {
            let inside = match plant.rows[*open].part {
                Part::Or => shortest(along(plant, branches).flatten()),
                _ => past_and(plant, branches),
            };
            Some(between(*open, inside?, *close))
        }
        Node::Boxed {
            open,
            scenario,
            outlets,
            close,
        } => shortest(
            to_outlets(plant, *open, scenario, outlets).filter_map(|(way, outlet)| {
                let inside = through(plant, &outlet.run)?;
                Some([way, inside, vec![*close]].concat())
            }),
        ),
    }
}

/// Whether a row that stands alone can be passed in no time: no LE or EXIT is passed.
fn instant(part: &Part) -> bool {
    matches!(part, Part::Function(Function { shortest: 0, .. }))
}

/// Along each branch, from its BRANCH row to its end.
fn along<'a>(plant: &'a Plant, branches: &'a [Branch]) -> impl Iterator<Item = Option<Way>> + 'a {
    branches.iter().map(|branch| {
        let inside = through(plant, &branch.run)?;
        Some([vec![branch.row], inside].concat())
    })
}

/// Along one branch that kills, or along all: an AND with a branch that kills never closes without one.
fn past_and(plant: &Plant, branches: &[Branch]) -> Option<Way> {
    let kills = |way: &Way| plant.rows[way[0]].part == Part::Branch { kills: true };
    let killing = shortest(along(plant, branches).flatten().filter(kills));
    killing.or_else(|| {
        let all: Option<Vec<Way>> = along(plant, branches).collect();
        Some(all?.concat())
    })
}

/// From before a box to each outlet that can be come to, its BRANCH row included.
fn to_outlets<'a>(
    plant: &'a Plant,
    open: usize,
    scenario: &'a [Node],
    outlets: &'a [Branch],
) -> impl Iterator<Item = (Way, &'a Branch)> + 'a {
    (0..).zip(outlets).filter_map(move |(number, outlet)| {
        let exit = to_exit(plant, scenario, &Part::ExitTo { outlet: number })?;
        Some(([vec![open], exit, vec![outlet.row]].concat(), outlet))
    })
}

/// From the beginning of a run to an LE of the loop that the run belongs to, or such an EXIT of its box.
fn to_exit(plant: &Plant, run: &[Node], exit: &Part) -> Option<Way> {
    let ways = run.iter().enumerate().filter_map(|(at, node)| {
        let way = exit_in(plant, node, exit)?;
        Some([through(plant, &run[..at])?, way].concat())
    });
    shortest(ways)
}

/// From before a row or construct to such an LE or EXIT. Other branches of an AND need not end. An LE in an inner loop leaves that one,
/// an EXIT in the scenario of an inner box that one; no LE stands there for a loop outside.
fn exit_in(plant: &Plant, node: &Node, exit: &Part) -> Option<Way> {
    match node {
        Node::Single { row } => (plant.rows[*row].part == *exit).then(|| vec![*row]),
        Node::Around { open, .. } if is_loop(plant, *open) && *exit == Part::ExitLoop => None,
        Node::Around { open, body, .. } => {
            Some([vec![*open], to_exit(plant, body, exit)?].concat())
        }
        Node::Branched { open, branches, .. } => shortest(branches.iter().filter_map(|branch| {
            let way = to_exit(plant, &branch.run, exit)?;
            Some([vec![*open, branch.row], way].concat())
        })),
        Node::Boxed {
            open,
            scenario,
            outlets,
            ..
        } => shortest(
            to_outlets(plant, *open, scenario, outlets).filter_map(|(way, outlet)| {
                Some([way, to_exit(plant, &outlet.run, exit)?].concat())
            }),
        ),
    }
}
