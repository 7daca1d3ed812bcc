//! What a layout is made of: cells, and the constructs that hold them.

use super::sheet::{Group, Line, Node, Point};

/// Where lines begin or end at a cell, told from its upper left corner.
#[derive(Clone, Copy, PartialEq, Eq, Debug)]
pub struct Port {
    pub node: Node,
    pub at: Point,
}

/// What is drawn for a row, or for a part of it.
#[derive(Clone, PartialEq, Eq, Debug, Default)]
pub struct Cell {
    pub width: i32,
    pub height: i32,
    /// The level at which the flow comes and goes.
    pub axis: i32,
    pub groups: Vec<Group>,
    /// The lines inside it.
    pub lines: Vec<Line>,
    /// Where the flow enters.
    pub entry: Option<Port>,
    /// Where it goes on.
    pub onward: Option<Port>,
    /// Where it leaves for behind the loop.
    pub exit: Option<Port>,
    /// Where the line back over a body ends (of an open) or begins (of a close).
    pub back: Option<Port>,
    /// Where a line begins that passes under the body.
    pub under: Option<Port>,
}

impl Cell {
    /// What it has under its axis.
    pub fn below(&self) -> i32 {
        self.height - self.axis
    }
}

/// A cell, or a construct of cells.
#[derive(Clone, PartialEq, Eq, Debug)]
pub enum Tree {
    Cell(Cell),
    Around(Around),
    Branched(Branched),
    Boxed(Box<Boxed>),
}

/// A body with a line back over it.
#[derive(Clone, PartialEq, Eq, Debug)]
pub struct Around {
    pub open: Cell,
    pub body: Vec<Tree>,
    pub close: Cell,
    /// Whether exits out of the body end here, behind the close.
    pub catches: bool,
}

/// Branches one under the other.
#[derive(Clone, PartialEq, Eq, Debug)]
pub struct Branched {
    pub open: Cell,
    pub branches: Vec<Twig>,
    pub close: Cell,
}

/// A scenario inside a border, and behind it its outlets one under the other.
#[derive(Clone, PartialEq, Eq, Debug)]
pub struct Boxed {
    /// The row that opens it.
    pub row: usize,
    pub open: Cell,
    pub scenario: Vec<Tree>,
    /// They open with what stands at the border, if anything does.
    pub outlets: Branched,
}

/// A branch: what stands at its start, its run, what stands at its end.
#[derive(Clone, PartialEq, Eq, Debug)]
pub struct Twig {
    pub start: Option<Cell>,
    pub run: Vec<Tree>,
    pub end: Option<Cell>,
}

impl Tree {
    /// Whether lines leave it for behind a loop around it.
    pub fn exits(&self) -> bool {
        match self {
            Tree::Cell(cell) => cell.exit.is_some(),
            Tree::Around(around) => !around.catches && around.body.iter().any(Tree::exits),
            Tree::Branched(branched) => branched.exits(),
            // An LE leaves a loop of its own scenario.
            Tree::Boxed(boxed) => boxed.outlets.exits(),
        }
    }
}

impl Branched {
    pub fn exits(&self) -> bool {
        self.branches.iter().any(Twig::exits)
    }
}

impl Twig {
    fn exits(&self) -> bool {
        self.run.iter().any(Tree::exits)
    }
}

/// Where the cells of a plant's rows come from.
pub trait Cells {
    /// Of a row that stands alone, opens or closes; `None` where nothing is drawn.
    fn cell(&self, row: usize) -> Option<Cell>;
    /// Of a BRANCH, at the start of its branch.
    fn start(&self, row: usize) -> Option<Cell>;
    /// Of a BRANCH, at the end of its branch.
    fn end(&self, row: usize) -> Option<Cell>;
    /// Of a box, at its border, where the flow comes to its outlets.
    fn gate(&self, open: usize) -> Option<Cell>;
}
