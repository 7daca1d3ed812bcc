//! The cells of a diagram: what mechanics know of EFFBDs.

use super::cell::{Cell, Cells, Port};
use super::page::Page;
use super::sheet::{Frame, Group, Line, Node, Outline, Point, Sheet, Style};
use super::text::{name_lines, Words};
use super::tree;
use crate::boxes;
use crate::plant::{Function, Item, Part, Plant, Use};
use crate::structure;
use crate::times;

const CIRCLE: i32 = 44;
const END: (i32, i32) = (56, 30);
const DOT: i32 = 12;
/// A FUNCTION's name is broken where it is wider.
const BLOCK_ROOM: i32 = 150;
/// The name of a construct or branch is.
const CAPTION_ROOM: i32 = 80;
/// From a block's side to the line that goes down beside its items, and from there to them.
const RAIL: i32 = 8;
const STUB: i32 = 14;
/// Height of an item at a block, the room between two and over the first.
const ITEM: i32 = 19;
const ITEM_GAP: i32 = 5;
const OVER_ITEMS: i32 = 10;

/// The diagram of a plant.
pub fn sheet(plant: &Plant) -> Sheet {
    let cells = Blocks { plant };
    let trees = tree::run(plant, &cells, &structure::of(plant));
    let mut drawing = tree::sheet(Some(start()), &trees);
    drawing.lines = merged(drawing.lines);
    let legend = (0..plant.items.len()).map(|item| {
        let words = Words::plain(legend_words(plant, item), 11);
        let outline = outline(&plant.items[item]);
        Group::loose(vec![Frame::around(
            outline,
            vec![words],
            beside(outline) + 2,
            3,
        )])
    });
    let some = !plant.items.is_empty();
    Page {
        title: plant.title.clone(),
        drawing,
        heading: some.then(|| "Items and their counts at the beginning".to_string()),
        legend: legend.collect(),
        notes: notes(plant),
    }
    .sheet()
}

/// An item's count at the beginning; of a trigger that of each block which takes it.
fn legend_words(plant: &Plant, item: usize) -> String {
    let Item {
        name,
        count,
        trigger,
    } = &plant.items[item];
    match plant.takers(item).count() {
        _ if !trigger => format!("{name}: {count}"),
        0 => format!("{name}: no block takes it"),
        1 => format!("{name}: {count} for the block that takes it"),
        takers => format!("{name}: {count} for each of {takers} blocks"),
    }
}

/// Items are round, triggers pointed.
fn outline(item: &Item) -> Outline {
    if item.trigger {
        Outline::Flag
    } else {
        Outline::Pill
    }
}

/// Room that an item's outline leaves its text at each side.
fn beside(outline: Outline) -> i32 {
    match outline {
        Outline::Flag => 12,
        _ => 8,
    }
}

/// What the signs that the diagram has mean.
fn notes(plant: &Plant) -> Vec<String> {
    let has = |sign: fn(&Part) -> bool| plant.rows.iter().any(|row| sign(&row.part));
    let uses = |part: &Part| matches!(part, Part::Function(function) if !function.uses.is_empty());
    let signs = [
        (
            has(uses),
            "−n: the block takes n of the item as it starts. +n: it gives n as it ends.",
        ),
        (
            plant.triggers().next().is_some(),
            "A pointed item is a trigger: each block that takes it has a count of its own, and a give adds to all of them.",
        ),
        (
            has(|part| *part == Part::And),
            "AND: all branches run, side by side; behind it the flow goes on when all are done.",
        ),
        (
            has(|part| *part == Part::Branch { kills: true }),
            "KILL, and the red tag: a branch that kills. When the flow gets to KILL, the other branches of this AND end too, wherever they are.",
        ),
        (
            has(|part| *part == Part::Or),
            "OR: one of the branches is chosen.",
        ),
        (
            has(|part| matches!(part, Part::Repeat { .. })),
            "IT n: what is inside is gone through n times.",
        ),
        (
            has(|part| *part == Part::Loop),
            "LP: what is inside is gone through again and again, until an LE leaves it.",
        ),
        (
            has(|part| *part == Part::ExitLoop),
            "LE: the innermost LP around it is left; the dashed line goes to behind it.",
        ),
        (
            has(|part| *part == Part::Box),
            "BOX: what is inside the border runs until one of its EXITs is come to. All inside ends then, and the flow goes on at the outlet that the EXIT names.",
        ),
    ];
    let meant = signs.iter().filter(|(there, _)| *there);
    meant.map(|(_, words)| words.to_string()).collect()
}

struct Blocks<'a> {
    plant: &'a Plant,
}

impl Cells for Blocks<'_> {
    fn cell(&self, row: usize) -> Option<Cell> {
        Some(match &self.plant.rows[row].part {
            Part::Function(function) => self.function(row, function),
            Part::And | Part::EndAnd => self.circle(row, "AND"),
            Part::Or | Part::EndOr => self.circle(row, "OR"),
            Part::Repeat { count } => self.circle(row, &format!("IT {count}")),
            Part::EndRepeat => self.circle(row, "IT"),
            Part::Loop | Part::EndLoop => self.circle(row, "LP"),
            Part::ExitLoop => {
                let circle = self.circle(row, "LE");
                Cell {
                    exit: circle.onward,
                    onward: None,
                    ..circle
                }
            }
            Part::Box | Part::EndBox => self.circle(row, "BOX"),
            Part::ExitTo { .. } => self.exit(row),
            Part::End => self.end_mark(row),
            Part::Branch { .. } | Part::Outlet => return None,
        })
    }

    fn start(&self, row: usize) -> Option<Cell> {
        let mut words = vec![row_words(row)];
        words.extend(self.name(row));
        let outline = match self.plant.rows[row].part {
            Part::Branch { kills: true } => Outline::KillTag,
            _ => Outline::Tag,
        };
        Some(passed(row, Frame::around(outline, words, 6, 2)))
    }

    /// A killing branch whose end can come has a sign there.
    fn end(&self, row: usize) -> Option<Cell> {
        let mut killers = structure::killers(self.plant).into_iter();
        let killer = killers.find(|killer| killer.branch == row)?;
        killer.can_kill(self.plant).then(|| kill(row))
    }

    /// A dot, as where the whole flow begins.
    fn gate(&self, open: usize) -> Option<Cell> {
        let dot = Frame::sign(Outline::Dot, DOT, DOT, Vec::new());
        let cell = boxed(Node::Gate(open), ("data-gate", open), dot);
        Some(Cell {
            entry: None,
            ..cell
        })
    }
}

/// The lines of a name that stands under a sign or in a tag.
fn caption(name: &str) -> Vec<Words> {
    name_lines(name, &Words::bold("", 11), CAPTION_ROOM)
}

fn row_words(row: usize) -> Words {
    Words::plain(format!("row {row}"), 10)
}

/// A row's cell of one box that the flow passes.
fn passed(row: usize, frame: Frame) -> Cell {
    boxed(Node::Row(row), ("data-row", row), frame)
}

/// Where the flow of a killing branch ends the others.
fn kill(row: usize) -> Cell {
    let label = vec![Words::bold("KILL", 12)];
    let sign = Frame::sign(Outline::Kill, CIRCLE, CIRCLE, label);
    boxed(Node::Kill(row), ("data-kill", row), sign)
}

/// A cell of one box that the flow passes, with the attribute that says whose it is.
fn boxed(node: Node, (attribute, row): (&'static str, usize), frame: Frame) -> Cell {
    let axis = frame.level();
    Cell {
        width: frame.right(),
        height: frame.bottom(),
        axis,
        entry: Some(Port {
            node,
            at: (frame.x, axis),
        }),
        onward: Some(Port {
            node,
            at: (frame.right(), axis),
        }),
        groups: vec![Group::new(attribute, row, vec![frame])],
        ..Cell::default()
    }
}

/// A sign with words under it.
fn captioned(row: usize, sign: Frame, words: Vec<Words>) -> Cell {
    let caption = Frame::around(Outline::None, words, 0, 0);
    let width = caption.width.max(sign.width);
    let sign = sign.centred(width, 0);
    let caption = caption.centred(width, sign.bottom() + 2);
    let height = caption.bottom();
    let back = Port {
        node: Node::Row(row),
        at: (sign.middle(), 0),
    };
    let cell = passed(row, sign);
    Cell {
        width,
        height,
        back: Some(back),
        groups: with(cell.groups, caption),
        ..cell
    }
}

/// Where the flow begins.
fn start() -> Cell {
    let dot = Frame::sign(Outline::Dot, DOT, DOT, Vec::new());
    let onward = Port {
        node: Node::Start,
        at: (DOT, DOT / 2),
    };
    Cell {
        width: DOT,
        height: DOT,
        axis: DOT / 2,
        onward: Some(onward),
        groups: vec![Group::loose(vec![dot])],
        ..Cell::default()
    }
}

impl Blocks<'_> {
    /// The lines of a construct's or branch's name, if it has one.
    fn name(&self, row: usize) -> Vec<Words> {
        let name = self.plant.rows[row].name.iter();
        name.flat_map(|name| caption(name)).collect()
    }

    /// A circle with its row and name under it.
    fn circle(&self, row: usize, label: &str) -> Cell {
        self.sign(row, label, self.name(row))
    }

    /// An EXIT, with its outlet: no line goes there.
    fn exit(&self, row: usize) -> Cell {
        let outlet = boxes::outlet(self.plant, row);
        let target = outlet.map(|outlet| format!("to {}", self.plant.row_name(outlet)));
        let under = target.map_or(Vec::new(), |target| caption(&target));
        Cell {
            onward: None,
            ..self.sign(row, "EXIT", under)
        }
    }

    /// A circle with its row and these lines under it.
    fn sign(&self, row: usize, label: &str, under: Vec<Words>) -> Cell {
        let mut words = vec![row_words(row)];
        words.extend(under);
        let size = if label.len() > 5 { 11 } else { 12 };
        let label = vec![Words::bold(label, size)];
        let circle = Frame::sign(Outline::Circle, CIRCLE, CIRCLE, label);
        captioned(row, circle, words)
    }

    fn end_mark(&self, row: usize) -> Cell {
        let label = vec![Words::bold("END", 12)];
        let mark = Frame::sign(Outline::Terminal, END.0, END.1, label);
        Cell {
            onward: None,
            ..captioned(row, mark, vec![row_words(row)])
        }
    }

    /// A block with its items under it.
    fn function(&self, row: usize, function: &Function) -> Cell {
        let name = self.plant.rows[row].name.as_deref().unwrap_or_default();
        let mut words = name_lines(name, &Words::bold("", 14), BLOCK_ROOM);
        words.push(Words::plain(format!("row {row} · {}", times(function)), 11));
        let block = Frame::around(Outline::Block, words, 10, 7);
        let items = function.uses.iter().map(|used| self.item(used));
        let items: Vec<Frame> = items.collect();
        let beside = 2 * (RAIL + STUB);
        let widest = items.iter().map(|item| item.width + beside).max();
        let width = block.width.max(widest.unwrap_or(0));
        let block = Frame { width, ..block };
        let items = items.into_iter().zip(0..).map(|(item, number)| Frame {
            x: RAIL + STUB,
            y: block.bottom() + OVER_ITEMS + number * (ITEM + ITEM_GAP),
            width: width - beside,
            ..item
        });
        let items: Vec<Frame> = items.collect();
        let lines = use_lines(row, function, &items, block.bottom());
        let cell = passed(row, block);
        Cell {
            height: items.last().map_or(cell.height, Frame::bottom),
            groups: items.into_iter().fold(cell.groups, with),
            lines,
            ..cell
        }
    }

    /// An item as a block uses it.
    fn item(&self, used: &Use) -> Frame {
        let item = &self.plant.items[usize::from(used.item)];
        let take = (used.take > 0).then(|| format!("−{}", used.take));
        let give = (used.give > 0).then(|| format!("+{}", used.give));
        let parts = [take, Some(item.name.clone()), give];
        let text: Vec<String> = parts.into_iter().flatten().collect();
        let words = vec![Words::plain(text.join("  "), 11)];
        let outline = outline(item);
        let frame = Frame::around(outline, words, beside(outline), 0);
        Frame {
            height: ITEM,
            ..frame
        }
    }
}

/// The first group with one more box.
fn with(mut groups: Vec<Group>, frame: Frame) -> Vec<Group> {
    if let Some(group) = groups.first_mut() {
        group.frames.push(frame);
    }
    groups
}

/// Left of the items up into the block for takes, right of them down from it for gives. The first of a side goes all the way,
/// each other one only to the one over it.
fn use_lines(row: usize, function: &Function, items: &[Frame], bottom: i32) -> Vec<Line> {
    let block = Node::Row(row);
    let (mut takes_end, mut gives_end) = (bottom, bottom);
    let mut lines = Vec::new();
    for (used, frame) in function.uses.iter().zip(items) {
        let item = usize::from(used.item);
        let item = Node::Item { row, item };
        let level = frame.level();
        if used.take > 0 {
            let rail = frame.x - STUB;
            let points = vec![(frame.x, level), (rail, level), (rail, takes_end)];
            lines.push(Line {
                head: takes_end == bottom,
                ..Line::new(item, block, Style::Use, points)
            });
            takes_end = frame.y;
        }
        if used.give > 0 {
            let rail = frame.right() + STUB;
            let points = vec![(rail, gives_end), (rail, level), (frame.right(), level)];
            lines.push(Line::new(block, item, Style::Use, points));
            gives_end = frame.y;
        }
    }
    lines
}

/// A FUNCTION's time in seconds.
fn times(function: &Function) -> String {
    let seconds = |ticks: u16| times::seconds(u64::from(ticks));
    let (shortest, longest) = (seconds(function.shortest), seconds(function.longest));
    if shortest == longest {
        format!("{shortest} s")
    } else {
        format!("{shortest} to {longest} s")
    }
}

/// Dashed exits, each cut off where it comes upon one to the same end: dashes on dashes would look like a whole line.
fn merged(lines: Vec<Line>) -> Vec<Line> {
    let mut done: Vec<Line> = Vec::new();
    for mut line in lines {
        if line.style == Style::Exit {
            line.style = Style::Dashed;
            let others = done.iter().filter(|other| other.to == line.to);
            let cut = others.filter_map(|other| cut(&line.points, &other.points));
            if let Some(points) = cut.min_by_key(|points| length(points)) {
                line.points = points;
                line.head = false;
            }
        }
        done.push(line);
    }
    done
}

fn length(points: &[Point]) -> i32 {
    let stretches = points.windows(2);
    stretches
        .map(|ends| (ends[0].0 - ends[1].0).abs() + (ends[0].1 - ends[1].1).abs())
        .sum()
}

/// The line up to where it comes upon the other.
fn cut(points: &[Point], other: &[Point]) -> Option<Vec<Point>> {
    for (number, ends) in points.windows(2).enumerate() {
        let corners = other.iter().copied();
        let corners = corners.filter(|at| lies_on(*at, ends[0], ends[1]));
        let end = Some(ends[1]).filter(|at| other.windows(2).any(|of| lies_on(*at, of[0], of[1])));
        let met = corners.chain(end);
        if let Some(first) = met.min_by_key(|at| length(&[ends[0], *at])) {
            return Some([&points[..=number], &[first]].concat());
        }
    }
    None
}

fn lies_on(at: Point, from: Point, to: Point) -> bool {
    let within = |at: i32, from: i32, to: i32| from.min(to) <= at && at <= from.max(to);
    within(at.0, from.0, to.0) && within(at.1, from.1, to.1)
}
