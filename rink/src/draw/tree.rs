//! The cells of a plant's rows, as its rows nest.

use super::cell::{Around, Boxed, Branched, Cell, Cells, Tree, Twig};
use super::layout;
use super::page::{MARGIN, WIDTH};
use super::route;
use super::sheet::Sheet;
use crate::plant::{Part, Plant};
use crate::structure::{Branch, Node, Run};

/// The run of cells of a run of rows.
pub fn run(plant: &Plant, cells: &impl Cells, rows: &Run) -> Vec<Tree> {
    let trees = rows.iter().map(|node| tree(plant, cells, node));
    trees.flatten().collect()
}

fn tree(plant: &Plant, cells: &impl Cells, node: &Node) -> Option<Tree> {
    match node {
        Node::Single { row } => cells.cell(*row).map(Tree::Cell),
        Node::Around { open, body, close } => Some(Tree::Around(Around {
            open: cells.cell(*open).unwrap_or_default(),
            body: run(plant, cells, body),
            close: cells.cell(*close).unwrap_or_default(),
            catches: plant.rows[*open].part == Part::Loop,
        })),
        Node::Branched {
            open,
            branches,
            close,
        } => {
            let opened = cells.cell(*open);
            Some(Tree::Branched(branched(
                plant, cells, opened, branches, *close,
            )))
        }
        Node::Boxed {
            open,
            scenario,
            outlets,
            close,
        } => Some(Tree::Boxed(Box::new(Boxed {
            row: *open,
            open: cells.cell(*open).unwrap_or_default(),
            scenario: run(plant, cells, scenario),
            outlets: branched(plant, cells, cells.gate(*open), outlets, *close),
        }))),
    }
}

/// Branches, behind what opens them.
fn branched(
    plant: &Plant,
    cells: &impl Cells,
    open: Option<Cell>,
    branches: &[Branch],
    close: usize,
) -> Branched {
    let twigs = branches.iter().map(|branch| twig(plant, cells, branch));
    Branched {
        open: open.unwrap_or_default(),
        branches: twigs.collect(),
        close: cells.cell(close).unwrap_or_default(),
    }
}

fn twig(plant: &Plant, cells: &impl Cells, branch: &Branch) -> Twig {
    Twig {
        start: cells.start(branch.row),
        run: run(plant, cells, &branch.run),
        end: cells.end(branch.row),
    }
}

/// Room that deep constructs get beyond what they need at least, lest they become a tower.
const EASE: i32 = 240;

/// The trees on a sheet as wide as a page, or wider where they need it, behind what stands at their start.
pub fn sheet(start: Option<Cell>, trees: &[Tree]) -> Sheet {
    let beside = start.as_ref().map_or(0, |cell| cell.width + layout::GAP);
    let least = layout::run(trees, 0).width;
    let room = (least + EASE).max(WIDTH - 2 * MARGIN - beside);
    route::sheet(start, &layout::run(trees, room))
}
