//! Draws a layout: puts the cells where they were laid, and leads the lines through the lanes between them.

use super::cell::{Cell, Port};
use super::layout::{
    AroundLaid, Body, BoxedLaid, BranchedLaid, LineLaid, Piece, RunLaid, TwigLaid, BACK, CONNECTOR,
    GAP, LANE,
};
use super::sheet::{Border, Line, Node, Point, Sheet, Style};

/// A line on its way.
#[derive(Clone)]
struct Pen {
    from: Node,
    style: Style,
    points: Vec<Point>,
}

/// The lines that a piece sends on: to what follows it, and for behind the loop.
struct Sent {
    onward: Vec<Pen>,
    exits: Vec<Pen>,
}

impl Pen {
    fn at(port: Option<Port>, corner: Point, style: Style) -> Vec<Pen> {
        let pens = port.iter().map(|port| Pen {
            from: port.node,
            style,
            points: vec![moved(port.at, corner)],
        });
        pens.collect()
    }

    fn here(&self) -> Point {
        self.points[self.points.len() - 1]
    }

    /// Goes straight on to a point.
    fn go(&mut self, to: Point) {
        let here = self.here();
        if here == to {
            return;
        }
        debug_assert!(here.0 == to.0 || here.1 == to.1, "{here:?} to {to:?}");
        if let [.., before, _] = self.points[..] {
            let level = before.1 == here.1 && here.1 == to.1;
            let upright = before.0 == here.0 && here.0 == to.0;
            if level || upright {
                self.points.pop();
            }
        }
        self.points.push(to);
    }

    fn go_to_x(&mut self, x: i32) {
        let (_, y) = self.here();
        self.go((x, y));
    }

    fn go_to_y(&mut self, y: i32) {
        let (x, _) = self.here();
        self.go((x, y));
    }

    /// As `turn`, but a line that has just come up from a lane goes down from there instead.
    fn turn_down(&mut self, (x, y): Point) {
        let came_up = match self.points[..] {
            [.., before, here] => before.0 == here.0 && here.1 < before.1 && before.1 <= y,
            _ => false,
        };
        if !came_up {
            return self.turn((x, y));
        }
        self.points.pop();
        // Nor need it go on in the lane, if it came down into it.
        if let [.., before, corner, here] = self.points[..] {
            if before.0 == corner.0 && corner.1 == here.1 && corner.0 < here.0 {
                self.points.pop();
            }
        }
        self.go_to_y(y);
    }

    /// Goes along its level to `x`, there up or down to `y`.
    fn turn(&mut self, (x, y): Point) {
        self.go_to_x(x);
        self.go_to_y(y);
    }
}

fn moved(point: Point, by: Point) -> Point {
    (point.0 + by.0, point.1 + by.1)
}

fn turn_all(pens: &mut [Pen], corner: Point) {
    pens.iter_mut().for_each(|pen| pen.turn(corner));
}

/// Ends the lines at a port.
fn end_all(pens: Vec<Pen>, port: Option<Port>, corner: Point, sheet: &mut Sheet) {
    let Some(port) = port else { return };
    let (x, y) = moved(port.at, corner);
    for mut pen in pens {
        pen.turn((x, y));
        let line = Line::new(pen.from, port.node, pen.style, pen.points);
        sheet.lines.push(line);
    }
}

/// The run with its upper left corner at 0, 0, or right of what stands at its start.
pub fn sheet(start: Option<Cell>, run: &RunLaid) -> Sheet {
    let mut sheet = Sheet::default();
    let mut pens = Vec::new();
    let mut left = 0;
    if let Some(start) = start {
        let corner = (0, run.enter - start.axis);
        pens = draw_cell(&start, corner, pens, &mut sheet).onward;
        left = start.width + GAP;
    }
    draw_run(run, (left, 0), pens, &mut sheet);
    Sheet {
        width: left + run.width,
        height: run.height,
        ..sheet
    }
}

/// Lines come in at its left side, and go out at its right.
fn draw_run(run: &RunLaid, corner: Point, mut pens: Vec<Pen>, sheet: &mut Sheet) -> Sent {
    let right = corner.0 + run.width;
    let mut exits = Vec::new();
    let mut before: Option<&LineLaid> = None;
    for line in &run.lines {
        if let Some(before) = before {
            let away = corner.0 + before.right + LANE - 2;
            let down = corner.1 + before.connector;
            pens.iter_mut().for_each(|pen| pen.turn_down((away, down)));
            turn_all(&mut pens, (corner.0 + CONNECTOR, corner.1 + line.axis));
        }
        let sent = draw_line(line, corner, pens, sheet);
        pens = sent.onward;
        exits.extend(sent.exits);
        before = Some(line);
    }
    pens.iter_mut().for_each(|pen| pen.go_to_x(right));
    exits.iter_mut().for_each(|pen| pen.go_to_x(right));
    let onward = pens;
    Sent { onward, exits }
}

/// The pieces of a line; exits stand on the line's lane.
fn draw_line(line: &LineLaid, corner: Point, mut pens: Vec<Pen>, sheet: &mut Sheet) -> Sent {
    let mut exits = Vec::new();
    for (left, piece) in &line.pieces {
        let top = line.axis - piece.axis;
        let mut sent = draw_piece(piece, moved(corner, (*left, top)), pens, sheet);
        if !matches!(piece.body, Body::Cell(_)) {
            let lane = corner.1 + line.lane;
            sent.exits.iter_mut().for_each(|pen| pen.go_to_y(lane));
        }
        pens = sent.onward;
        exits.extend(sent.exits);
    }
    let onward = pens;
    Sent { onward, exits }
}

fn draw_piece(piece: &Piece, corner: Point, pens: Vec<Pen>, sheet: &mut Sheet) -> Sent {
    match &piece.body {
        Body::Cell(cell) => draw_cell(cell, corner, pens, sheet),
        Body::Around(laid) => draw_around(laid, piece, corner, pens, sheet),
        Body::Branched(laid) => draw_branched(laid, piece, corner, pens, sheet),
        Body::Boxed(laid) => draw_boxed(laid, piece, corner, pens, sheet),
    }
}

/// Lines end at its entry, and new ones begin.
fn draw_cell(cell: &Cell, corner: Point, pens: Vec<Pen>, sheet: &mut Sheet) -> Sent {
    end_all(pens, cell.entry, corner, sheet);
    let groups = cell.groups.iter().map(|group| group.moved(corner));
    sheet.groups.extend(groups);
    let lines = cell.lines.iter().map(|line| line.moved(corner));
    sheet.lines.extend(lines);
    Sent {
        onward: Pen::at(cell.onward, corner, Style::Flow),
        exits: Pen::at(cell.exit, corner, Style::Exit),
    }
}

fn draw_around(
    laid: &AroundLaid,
    piece: &Piece,
    corner: Point,
    pens: Vec<Pen>,
    sheet: &mut Sheet,
) -> Sent {
    let around = laid.around;
    let axis = corner.1 + piece.axis;
    let open_corner = (corner.0, axis - around.open.axis);
    let close_corner = (corner.0 + laid.close_left, axis - around.close.axis);
    let opened = draw_cell(&around.open, open_corner, pens, sheet);
    let run_corner = (corner.0 + laid.run_left, axis - laid.run.enter);
    let mut inside = draw_run(&laid.run, run_corner, opened.onward, sheet);
    if laid.run.leave != laid.run.enter {
        turn_all(&mut inside.onward, (corner.0 + laid.riser, axis));
    }
    let closed = draw_cell(&around.close, close_corner, inside.onward, sheet);

    let mut back = Pen::at(around.close.back, close_corner, Style::Flow);
    back.iter_mut().for_each(|pen| pen.go_to_y(corner.1 + BACK));
    end_all(back, around.open.back, open_corner, sheet);

    let mut passing = Pen::at(around.open.under, open_corner, Style::Flow);
    let beside = corner.0 + around.open.width + LANE;
    turn_all(&mut passing, (beside, corner.1 + laid.lane));
    turn_all(&mut passing, (corner.0 + laid.join, axis));

    let mut sent = Sent {
        onward: [closed.onward, passing].concat(),
        exits: inside.exits,
    };
    let channel = corner.0 + laid.channel;
    if around.catches {
        turn_all(&mut sent.exits, (channel, corner.1 + laid.lane));
        catch((corner.0 + laid.join, axis), &mut sent, sheet);
    } else {
        turn_all(&mut sent.exits, (channel, corner.1 + piece.height));
    }
    sent
}

/// Exits come up behind the close: they end in the flow that goes on from it, or go on themselves where there is none.
fn catch(join: Point, sent: &mut Sent, sheet: &mut Sheet) {
    let mut exits = std::mem::take(&mut sent.exits);
    turn_all(&mut exits, join);
    match sent.onward.first() {
        None => sent.onward = exits,
        Some(flow) => {
            let node = match flow.from {
                Node::Row(close) => Node::Behind(close),
                other => other,
            };
            let port = Port { node, at: join };
            end_all(exits, Some(port), (0, 0), sheet);
        }
    }
}

fn draw_branched(
    laid: &BranchedLaid,
    piece: &Piece,
    corner: Point,
    pens: Vec<Pen>,
    sheet: &mut Sheet,
) -> Sent {
    let branched = laid.branched;
    let axis = corner.1 + piece.axis;
    let open_corner = (corner.0, axis - branched.open.axis);
    let opened = draw_cell(&branched.open, open_corner, pens, sheet);
    let mut joined = Vec::new();
    let mut exits = Vec::new();
    for twig in &laid.twigs {
        let mut pens = opened.onward.clone();
        turn_all(&mut pens, (corner.0 + laid.split, corner.1 + twig.axis));
        let mut sent = draw_twig(laid, twig, corner, pens, sheet);
        turn_all(&mut sent.onward, (corner.0 + laid.join, axis));
        let bottom = corner.1 + piece.height;
        turn_all(&mut sent.exits, (corner.0 + laid.channel, bottom));
        joined.extend(sent.onward);
        exits.extend(sent.exits);
    }
    let close_corner = (corner.0 + laid.close_left, axis - branched.close.axis);
    let closed = draw_cell(&branched.close, close_corner, joined, sheet);
    let onward = closed.onward;
    Sent { onward, exits }
}

/// No line goes out of the border: the EXITs inside name the outlets.
fn draw_boxed(
    laid: &BoxedLaid,
    piece: &Piece,
    corner: Point,
    pens: Vec<Pen>,
    sheet: &mut Sheet,
) -> Sent {
    let axis = corner.1 + piece.axis;
    let (top, width, height) = laid.border;
    sheet.borders.push(Border {
        row: laid.boxed.row,
        x: corner.0,
        y: corner.1 + top,
        width,
        height,
    });
    let open = &laid.boxed.open;
    let open_corner = (corner.0 + laid.open_left, axis - open.axis);
    let opened = draw_cell(open, open_corner, pens, sheet);
    let run_corner = (corner.0 + laid.run_left, axis - laid.run.enter);
    draw_run(&laid.run, run_corner, opened.onward, sheet);
    let outlets_corner = (corner.0 + width, axis - laid.outlets.axis);
    draw_piece(&laid.outlets, outlets_corner, Vec::new(), sheet)
}

/// What stands at its start, its run, what stands at its end.
fn draw_twig(
    laid: &BranchedLaid,
    twig: &TwigLaid,
    corner: Point,
    mut pens: Vec<Pen>,
    sheet: &mut Sheet,
) -> Sent {
    let (left, top) = corner;
    if let Some(start) = &twig.twig.start {
        let at = (left + laid.start_left, top + twig.axis - start.axis);
        pens = draw_cell(start, at, pens, sheet).onward;
    }
    let run = &twig.run;
    let run_at = (left + laid.run_left, top + twig.axis - run.enter);
    let mut sent = draw_run(run, run_at, pens, sheet);
    if let Some(end) = &twig.twig.end {
        let at = (left + laid.end_left, top + twig.leave() - end.axis);
        sent.onward = draw_cell(end, at, sent.onward, sheet).onward;
    }
    sent
}
