//! A net's signs: places and transitions, each with what stands under it.

use super::{Bundle, Marked};
use crate::draw::cell::{Cell, Port};
use crate::draw::sheet::{Frame, Group, Line, Node, Outline, Point, Style};
use crate::draw::text::{wrapped, Words};
use crate::net::{killed, place_range, place_words, transition_words, Home};

pub const PLACE: i32 = 32;
pub const BAR: (i32, i32) = (10, 40);
/// From a sign to the label under it.
pub const UNDER: i32 = 3;
/// Between the columns of a cell.
const APART: i32 = 10;
/// Words are broken where they are wider.
const WORDS_ROOM: i32 = 96;
/// The level at a bar, under its middle, of arcs to copies.
const COPIES_LEVEL: i32 = 16;
/// From copies to the arcs that go up beside them.
const STUB: i32 = 14;
const LETTERS: [&str; 3] = ["P", "Q", "R"];

/// A sign with what stands under it, told from its left side and the middle of the sign.
pub struct Column {
    pub node: Node,
    pub width: i32,
    /// Left and right side of the sign.
    pub left: i32,
    pub right: i32,
    /// How far the sign goes up, and what is under it down.
    pub above: i32,
    pub below: i32,
    pub group: Group,
    pub lines: Vec<Line>,
}

/// A cell of columns; the flow goes through them from left to right, and back from the last one's top.
pub fn side_by_side(columns: Vec<Column>) -> Option<Cell> {
    let axis = columns.iter().map(|column| column.above).max()?;
    let below = columns.iter().map(|column| column.below).max()?;
    let mut cell = Cell {
        width: -APART,
        height: axis + below,
        axis,
        ..Cell::default()
    };
    for column in columns {
        let left = cell.width + APART;
        let port = |at: Point| Port {
            node: column.node,
            at,
        };
        let enters = port((left + column.left, axis));
        if let Some(before) = cell.onward {
            let points = vec![before.at, enters.at];
            let line = Line::new(before.node, column.node, Style::Flow, points);
            cell.lines.push(line);
        }
        let middle = left + (column.left + column.right) / 2;
        cell.entry = cell.entry.or(Some(enters));
        cell.onward = Some(port((left + column.right, axis)));
        cell.back = Some(port((middle, axis - column.above)));
        cell.width = left + column.width;
        put(&mut cell, &column, (left, axis));
    }
    Some(cell)
}

/// Puts a column into a cell.
pub fn put(cell: &mut Cell, column: &Column, at: Point) {
    cell.groups.push(column.group.moved(at));
    let lines = column.lines.iter().map(|line| line.moved(at));
    cell.lines.extend(lines);
}

impl Marked<'_> {
    pub fn circle(&self, place: usize) -> Frame {
        let mark = self.net.marks[place];
        Frame::sign(Outline::Place { mark }, PLACE, PLACE, Vec::new())
    }

    /// Its number and which of its row's places it is.
    pub fn place_label(&self, place: usize) -> Words {
        let letter = match self.homes[place] {
            Home::Row { which, .. } => LETTERS[which],
            Home::Count(_) => "item",
        };
        Words::bold(format!("{letter} {place}"), 10)
    }

    pub fn place_group(&self, place: usize, frames: Vec<Frame>) -> Group {
        let group = Group::new("data-node", format!("p{place}"), frames);
        Group {
            hint: Some(place_words(self.plant, place)),
            ..group
        }
    }

    /// A place over its label; `told` adds in words what a token there says.
    pub fn place(&self, place: usize, told: bool) -> Column {
        let mut words = vec![self.place_label(place)];
        if told {
            let sentence = place_words(self.plant, place);
            words.extend(wrapped(&sentence, &Words::plain("", 10), WORDS_ROOM));
        }
        let label = Frame::around(Outline::None, words, 0, 0);
        let frames = stacked(self.circle(place), vec![label], 0);
        let group = |frames| self.place_group(place, frames);
        column(Node::Place(place), frames, group, 0)
    }

    /// A bar over its label, its clears and its copies.
    pub fn transition(&self, number: usize) -> Column {
        let mut under = vec![self.transition_label(number)];
        under.extend(self.clears(number));
        let copies = self.copies.iter();
        let copies: Vec<&Bundle> = copies
            .filter(|bundle| bundle.first.transition == number)
            .collect();
        let first_copy = 1 + under.len();
        under.extend(copies.iter().map(|bundle| self.copy(bundle)));
        let beside = if copies.is_empty() { 0 } else { STUB };
        let bar = Frame::sign(Outline::Bar, BAR.0, BAR.1, Vec::new());
        let frames = stacked(bar, under, beside);
        let group = |frames| Group {
            hint: Some(transition_words(self.plant, self.net, number)),
            ..Group::new("data-node", format!("t{number}"), frames)
        };
        let column = column(Node::Transition(number), frames, group, beside);
        let frames = &column.group.frames;
        let signs = copies.iter().zip(&frames[first_copy..]);
        let lines = signs.map(|(bundle, copy)| copy_line(bundle, copy, &frames[0], column.width));
        Column {
            lines: lines.collect(),
            ..column
        }
    }

    /// Its number, its interval and what its firing does.
    fn transition_label(&self, number: usize) -> Frame {
        let transition = &self.net.transitions[number];
        let interval = format!("t {number} [{}, {}]", transition.from, transition.to);
        let mut words = vec![Words::bold(interval, 10)];
        let sentence = transition_words(self.plant, self.net, number);
        words.extend(wrapped(&sentence, &Words::plain("", 10), WORDS_ROOM));
        Frame::around(Outline::None, words, 0, 0)
    }

    fn clears(&self, number: usize) -> impl Iterator<Item = Frame> + '_ {
        let outline = match killed(self.plant, self.net, number) {
            Some(_) => Outline::KillTag,
            None => Outline::Tag,
        };
        let clears = self.net.transitions[number].clears.iter();
        clears.map(move |(first, last)| {
            let words = Words::plain(format!("clears {first}..{last}"), 10);
            Frame::around(outline, vec![words], 6, 2)
        })
    }

    /// A place once more, or all copies of a trigger, with the arcs' weight.
    fn copy(&self, Bundle { first, last }: &Bundle) -> Frame {
        let what = match (self.homes[first.place], self.trigger(first.place)) {
            (Home::Row { row, which }, _) => format!("{} of row {row}", LETTERS[which]),
            (_, Some(trigger)) if first.place != *last => {
                format!("{}@*", self.plant.items[trigger].name)
            }
            (Home::Count(count), _) => self.plant.count_name(count),
        };
        let weight = match first.weight {
            1 => String::new(),
            weight => format!(" ×{weight}"),
        };
        let places = place_range(first.place, *last);
        let words = Words::plain(format!("{places} {what}{weight}"), 10);
        Frame::around(Outline::Copy, vec![words], 8, 2)
    }
}

/// The sign, and these under it, in the middle of their width and of what is left free beside them.
fn stacked(sign: Frame, under: Vec<Frame>, beside: i32) -> Vec<Frame> {
    let widest = under.iter().map(|frame| frame.width).max();
    let width = widest.unwrap_or(0).max(sign.width) + 2 * beside;
    let half = sign.height / 2;
    let mut frames = vec![sign.centred(width, -half)];
    for frame in under {
        let top = frames[frames.len() - 1].bottom() + UNDER;
        frames.push(frame.centred(width, top));
    }
    frames
}

/// The column of these boxes, the sign first.
fn column(
    node: Node,
    frames: Vec<Frame>,
    group: impl Fn(Vec<Frame>) -> Group,
    beside: i32,
) -> Column {
    let sign = &frames[0];
    let rights = frames.iter().map(Frame::right).max();
    let bottoms = frames.iter().map(Frame::bottom).max();
    Column {
        node,
        width: rights.unwrap_or(0) + beside,
        left: sign.x,
        right: sign.right(),
        above: -sign.y,
        below: bottoms.unwrap_or(0),
        group: group(frames),
        lines: Vec::new(),
    }
}

/// From a copy up beside what is over it and into the bar, or the other way round.
fn copy_line(bundle: &Bundle, copy: &Frame, bar: &Frame, width: i32) -> Line {
    let level = bar.level() + COPIES_LEVEL;
    let Bundle { first: arc, last } = *bundle;
    let transition = Node::Transition(arc.transition);
    let place = Node::Copy {
        transition: arc.transition,
        first: arc.place,
        last,
    };
    let path = |side: i32, rail: i32, bar: i32| -> Vec<Point> {
        let low = copy.level();
        vec![(side, low), (rail, low), (rail, level), (bar, level)]
    };
    let line = if arc.gives {
        let mut points = path(copy.right(), width, bar.right());
        points.reverse();
        Line::new(transition, place, Style::Use, points)
    } else {
        Line::new(place, transition, Style::Use, path(copy.x, 0, bar.x))
    };
    Line {
        weight: arc.weight,
        ..line
    }
}
