//! Where everything goes: nested bounding boxes, from the inside out.
//!
//! Every construct reserves its own lanes: a channel right of its bodies where exits go down, a lane over a body for the line
//! back, a lane under it for lines that pass it by. So no line ever needs to go through a box.

use super::cell::{Around, Boxed, Branched, Cell, Tree, Twig};

/// Between two pieces of a run.
pub const GAP: i32 = 24;
/// Between a lane and what is beside it.
pub const LANE: i32 = 12;
/// Between an upright line and the box that a line from it enters.
const HEAD: i32 = 18;
/// Between two branches.
const BETWEEN: i32 = 14;
/// Where the line back over a body stands, and the room it takes.
pub const BACK: i32 = 8;
const BACK_ROOM: i32 = 20;
/// Left of a run of several lines, for the connectors.
pub const INDENT: i32 = 18;
pub const CONNECTOR: i32 = 4;
/// Between a border and what is inside it.
const INSIDE: i32 = 12;
/// A level this close to the middle of a construct is taken for its middle.
const SNAP: i32 = 12;

/// A laid piece of a run, told from its upper left corner.
pub struct Piece<'a> {
    pub width: i32,
    pub height: i32,
    pub axis: i32,
    /// Whether lines leave it at its bottom for behind the loop.
    pub exits: bool,
    /// The highest level at which such a line may pass under it.
    pub floor: i32,
    pub body: Body<'a>,
}

pub enum Body<'a> {
    Cell(&'a Cell),
    Around(Box<AroundLaid<'a>>),
    Branched(Box<BranchedLaid<'a>>),
    Boxed(Box<BoxedLaid<'a>>),
}

/// A laid run: in at the left at `enter`, out at the right at `leave`.
pub struct RunLaid<'a> {
    pub width: i32,
    pub height: i32,
    pub enter: i32,
    pub leave: i32,
    pub floor: i32,
    pub lines: Vec<LineLaid<'a>>,
}

/// A line of a run.
pub struct LineLaid<'a> {
    pub axis: i32,
    pub bottom: i32,
    pub right: i32,
    /// The level of the lane for exits, under its pieces.
    pub lane: i32,
    /// The level on which the connector to the next line goes back.
    pub connector: i32,
    /// Each with its left side.
    pub pieces: Vec<(i32, Piece<'a>)>,
}

pub struct AroundLaid<'a> {
    pub around: &'a Around,
    pub run: RunLaid<'a>,
    pub run_left: i32,
    /// Where exits go down.
    pub channel: i32,
    /// Where the flow comes up again from the last line of the body.
    pub riser: i32,
    pub close_left: i32,
    /// The level of the lane under the body.
    pub lane: i32,
    /// Where lines from that lane come up again.
    pub join: i32,
}

pub struct BranchedLaid<'a> {
    pub branched: &'a Branched,
    pub twigs: Vec<TwigLaid<'a>>,
    /// Where the flow parts.
    pub split: i32,
    pub start_left: i32,
    pub run_left: i32,
    pub channel: i32,
    pub end_left: i32,
    /// Where it comes together.
    pub join: i32,
    pub close_left: i32,
}

pub struct BoxedLaid<'a> {
    pub boxed: &'a Boxed,
    pub open_left: i32,
    pub run: RunLaid<'a>,
    pub run_left: i32,
    /// The border's upper side, width and height; its left side is the piece's.
    pub border: (i32, i32, i32),
    pub outlets: Piece<'a>,
}

pub struct TwigLaid<'a> {
    pub twig: &'a Twig,
    pub run: RunLaid<'a>,
    /// Its level.
    pub axis: i32,
}

/// The run in as many lines as `room` asks for.
pub fn run(trees: &[Tree], room: i32) -> RunLaid<'_> {
    let inner = if trees.len() > 1 {
        room - INDENT - LANE
    } else {
        room
    };
    let pieces: Vec<Piece> = trees.iter().map(|tree| piece(tree, inner)).collect();
    let widths: Vec<i32> = pieces.iter().map(|piece| piece.width).collect();
    if widths.len() < 2 || row_width(&widths) <= room {
        stacked(pieces, vec![widths.len()], 0)
    } else {
        stacked(pieces, balanced(&widths, inner), INDENT)
    }
}

/// The width of these pieces side by side.
fn row_width(widths: &[i32]) -> i32 {
    let gaps = GAP * (widths.len() as i32 - 1).max(0);
    widths.iter().sum::<i32>() + gaps
}

/// How many pieces each line has, as many as fit.
fn filled(widths: &[i32], room: i32) -> Vec<usize> {
    let mut counts = Vec::new();
    let mut first = 0;
    for last in 0..widths.len() {
        if last > first && row_width(&widths[first..=last]) > room {
            counts.push(last - first);
            first = last;
        }
    }
    counts.push(widths.len() - first);
    counts
}

/// As many lines as `filled` needs, but of more even widths.
fn balanced(widths: &[i32], room: i32) -> Vec<usize> {
    let mut best = filled(widths, room);
    let widest = widths.iter().copied().max().unwrap_or(0);
    let narrower = (widest..room).rev().step_by(8);
    for counts in narrower.map(|room| filled(widths, room)) {
        if counts.len() > best.len() {
            break;
        }
        best = counts;
    }
    best
}

/// The pieces in lines of these counts, one under the other.
fn stacked(pieces: Vec<Piece>, counts: Vec<usize>, indent: i32) -> RunLaid {
    let mut pieces = pieces.into_iter();
    let mut lines: Vec<LineLaid> = Vec::new();
    for count in counts {
        let top = lines.last().map_or(0, |line| line.connector + LANE);
        lines.push(line(pieces.by_ref().take(count), top, indent));
    }
    let rights = lines.iter().map(|line| line.right).max();
    let connectors = if indent > 0 { LANE } else { 0 };
    let last = &lines[lines.len() - 1];
    RunLaid {
        width: rights.unwrap_or(0) + connectors,
        height: last.bottom,
        enter: lines[0].axis,
        leave: last.axis,
        floor: last.lane,
        lines,
    }
}

/// A line of a run whose top is given.
fn line<'a>(pieces: impl Iterator<Item = Piece<'a>>, top: i32, left: i32) -> LineLaid<'a> {
    let mut right = left - GAP;
    let mut placed: Vec<(i32, Piece)> = Vec::new();
    for piece in pieces {
        let left = right + GAP;
        right = left + piece.width;
        placed.push((left, piece));
    }
    let most = |of: fn(&Piece) -> i32| placed.iter().map(|(_, piece)| of(piece)).max();
    let axis = top + most(|piece| piece.axis).unwrap_or(LANE);
    let below = most(|piece| piece.height - piece.axis).unwrap_or(LANE);
    let floor = most(|piece| piece.floor - piece.axis).unwrap_or(2 * LANE);
    // An LE leaves on its own level: it is a cell, and the last of its run.
    let leaves = |piece: &Piece| piece.exits && !matches!(piece.body, Body::Cell(_));
    let lane_used = placed.iter().any(|(_, piece)| leaves(piece));
    let bottom = axis + if lane_used { below.max(floor) } else { below };
    LineLaid {
        axis,
        bottom,
        right: right.max(left),
        lane: axis + floor,
        connector: bottom + LANE,
        pieces: placed,
    }
}

fn piece(tree: &Tree, room: i32) -> Piece<'_> {
    match tree {
        Tree::Cell(cell) => Piece {
            width: cell.width,
            height: cell.height,
            axis: cell.axis,
            exits: cell.exit.is_some(),
            floor: cell.height + LANE,
            body: Body::Cell(cell),
        },
        Tree::Around(around) => around_laid(around, room),
        Tree::Branched(branched) => branched_laid(branched, room),
        Tree::Boxed(boxed) => boxed_laid(boxed, room),
    }
}

fn around_laid(around: &Around, room: i32) -> Piece<'_> {
    let Around { open, close, .. } = around;
    let exits = around.body.iter().any(Tree::exits);
    let lane_used = open.under.is_some() || (around.catches && exits);
    let lanes = i32::from(exits) + i32::from(lane_used);
    let beside = open.width + GAP + LANE + HEAD + close.width + lanes * LANE;
    let run = run(&around.body, room - beside);
    let run_left = open.width + GAP;
    let run_right = run_left + run.width;
    let channel = run_right + LANE;
    let riser = if exits { channel + LANE } else { channel };
    let close_left = match (run.leave != run.enter, exits) {
        (true, _) => riser + HEAD,
        (false, true) => channel + HEAD,
        (false, false) => run_right + GAP,
    };
    let close_right = close_left + close.width;
    let join = close_right + LANE;
    let levels = around_levels(around, &run, exits, lane_used);
    Piece {
        width: if lane_used { join } else { close_right },
        height: levels.height,
        axis: levels.axis,
        exits: exits && !around.catches,
        floor: levels.floor,
        body: Body::Around(Box::new(AroundLaid {
            around,
            run,
            run_left,
            channel,
            riser,
            close_left,
            lane: levels.lane,
            join,
        })),
    }
}

/// The levels of a body and its cells.
struct Levels {
    axis: i32,
    lane: i32,
    height: i32,
    floor: i32,
}

/// Exits may keep to the body's own lane, what passes the body by may not. Lines in the lane of this construct go under body and
/// close alone, lines from outside under the open too.
fn around_levels(around: &Around, run: &RunLaid, exits: bool, lane_used: bool) -> Levels {
    let Around { open, close, .. } = around;
    let axis = BACK_ROOM + open.axis.max(close.axis).max(run.enter);
    let body_floor = (close.below() + LANE).max(run.floor - run.enter);
    let lane = match open.under {
        Some(port) => (body_floor + i32::from(exits) * LANE).max(port.at.1 - open.axis),
        None => body_floor,
    };
    let cells = open.below().max(close.below());
    let below = cells.max(run.height - run.enter);
    let (below, floor) = if lane_used {
        (below.max(lane), below.max(lane) + LANE)
    } else {
        (below, body_floor.max(open.below() + LANE))
    };
    Levels {
        axis,
        lane: axis + lane,
        height: axis + below,
        floor: axis + floor,
    }
}

/// The widest of the cells that there are.
fn cell_width<'a>(cells: impl Iterator<Item = &'a Option<Cell>>) -> Option<i32> {
    cells.flatten().map(|cell| cell.width).max()
}

fn branched_laid(branched: &Branched, room: i32) -> Piece<'_> {
    let Branched { open, close, .. } = branched;
    let starts = cell_width(branched.branches.iter().map(|twig| &twig.start));
    let ends = cell_width(branched.branches.iter().map(|twig| &twig.end));
    let split = open.width + LANE;
    let start_left = split + HEAD;
    let run_left = start_left + starts.map_or(0, |width| width + HEAD);
    let exits = branched.exits();
    let lanes = LANE + i32::from(exits) * LANE;
    let behind = lanes + ends.map_or(0, |width| width + HEAD) + HEAD + close.width;
    let mut twigs: Vec<TwigLaid> = branched
        .branches
        .iter()
        .map(|twig| TwigLaid {
            twig,
            run: run(&twig.run, room - run_left - behind),
            axis: 0,
        })
        .collect();
    let (axis, bottom) = levels(&mut twigs, open.axis.max(close.axis));
    let widest = twigs.iter().map(|twig| twig.run.width).max();
    let runs_right = run_left + widest.unwrap_or(0);
    let channel = runs_right + LANE;
    let channel_right = if exits { channel } else { runs_right };
    let end_left = channel_right + HEAD;
    let join = ends.map_or(channel_right, |width| end_left + width) + LANE;
    let close_left = join + HEAD;
    let height = bottom.max(axis + open.below().max(close.below()));
    Piece {
        width: close_left + close.width,
        height,
        axis,
        exits,
        floor: height + LANE,
        body: Body::Branched(Box::new(BranchedLaid {
            branched,
            twigs,
            split,
            start_left,
            run_left,
            channel,
            end_left,
            join,
            close_left,
        })),
    }
}

/// The outlets get the room that the scenario leaves, and at least what they need.
fn boxed_laid(boxed: &Boxed, room: i32) -> Piece<'_> {
    let open = &boxed.open;
    let run_left = INSIDE + open.width + GAP;
    let least = branched_laid(&boxed.outlets, 0).width;
    let run = run(&boxed.scenario, room - run_left - INSIDE - least);
    let width = run_left + run.width + INSIDE;
    let outlets = branched_laid(&boxed.outlets, room - width);
    let above = INSIDE + open.axis.max(run.enter);
    let below = INSIDE + open.below().max(run.height - run.enter);
    let axis = above.max(outlets.axis);
    let height = axis + below.max(outlets.height - outlets.axis);
    Piece {
        width: width + outlets.width,
        height,
        axis,
        exits: outlets.exits,
        floor: height + LANE,
        body: Body::Boxed(Box::new(BoxedLaid {
            boxed,
            open_left: INSIDE,
            run,
            run_left,
            border: (axis - above, width, above + below),
            outlets,
        })),
    }
}

/// Puts the branches one under the other, `above` or more over the middle of them all; that middle and the bottom.
fn levels(twigs: &mut [TwigLaid], above: i32) -> (i32, i32) {
    let mut bottom = -BETWEEN;
    for twig in twigs.iter_mut() {
        let (above, below) = extent(twig);
        twig.axis = bottom + BETWEEN + above;
        bottom = twig.axis + below;
    }
    let first = twigs.first().map_or(0, |twig| twig.axis);
    let last = twigs.last().map_or(0, |twig| twig.axis);
    let middle = (first + last) / 2;
    let ends = twigs.iter().flat_map(|twig| [twig.axis, twig.leave()]);
    let near = ends.min_by_key(|axis| (axis - middle).abs());
    let snapped = near.filter(|axis| (axis - middle).abs() <= SNAP);
    let axis = snapped.unwrap_or(middle);
    let down = (above - axis).max(0);
    for twig in twigs.iter_mut() {
        twig.axis += down;
    }
    (axis + down, bottom + down)
}

impl TwigLaid<'_> {
    /// The level at which the flow leaves its run.
    pub fn leave(&self) -> i32 {
        self.axis - self.run.enter + self.run.leave
    }
}

/// What a branch has over and under its level.
fn extent(laid: &TwigLaid) -> (i32, i32) {
    let run = &laid.run;
    let fall = run.leave - run.enter;
    let start = laid.twig.start.as_ref();
    let start = start.map_or((0, 0), |cell| (cell.axis, cell.below()));
    let end = laid.twig.end.as_ref();
    let end = end.map_or((0, 0), |cell| (cell.axis - fall, cell.below() + fall));
    let above = run.enter.max(start.0).max(end.0);
    let below = (run.height - run.enter).max(start.1).max(end.1);
    (above, below)
}
