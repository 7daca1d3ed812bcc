//! An IT open: R and Q stand between its two transitions, of which the second passes the body by.

use super::signs::{put, Column, BAR, PLACE, UNDER};
use super::Marked;
use crate::draw::cell::{Cell, Port};
use crate::draw::sheet::{Frame, Group, Line, Node, Outline, Point, Style};
use crate::draw::text::Words;

/// The level at a bar, off its middle, of arcs to R and Q.
const LEVEL: i32 = 10;
/// Between an upright arc and what stands beside it.
const BESIDE: i32 = 12;
/// Between R, Q and the transitions.
const APART: i32 = 8;
/// Room for a weight over or under R and Q.
const WEIGHT: i32 = 22;

/// Where the signs stand, from left to right: P, the arc down to the second transition, R, both transitions, Q.
struct Stand {
    p: (i32, i32),
    down: i32,
    /// The middles of R and Q.
    r: i32,
    q: i32,
    /// Left and right side of both bars.
    bars: (i32, i32),
    /// The levels of the first transition, of R and Q, of the second transition.
    upper: i32,
    middle: i32,
    lower: i32,
    width: i32,
}

impl Stand {
    fn of(entry: &Column, more: &Column, done: &Column, labels: i32) -> Stand {
        let half = PLACE / 2;
        let down = entry.width + BESIDE;
        let r = down + BESIDE + half;
        let left = r + half + UNDER + labels + APART;
        let between = more.width.max(done.width);
        let bar = left + between / 2 - BAR.0 / 2;
        let q = left + between + APART + half;
        let fall = (more.below + APART + done.above).max(2 * (half + LEVEL + WEIGHT));
        let upper = more.above.max(entry.above);
        Stand {
            p: (entry.left, entry.right),
            down,
            r,
            q,
            bars: (bar, bar + BAR.0),
            upper,
            middle: upper + fall / 2,
            lower: upper + fall,
            width: q + half + UNDER + labels,
        }
    }

    /// The ways of the arcs inside, by their ends.
    fn ways(&self, [p, q, r]: [Node; 3], [more, done]: [Node; 2]) -> Vec<Line> {
        let half = PLACE / 2;
        let (left, right) = self.bars;
        let (high, low) = (self.upper + LEVEL, self.lower - LEVEL);
        let (over, under) = (self.middle - half, self.middle + half);
        let from_p = (self.p.1, self.upper);
        let beside = [(self.down, self.upper), (self.down, self.lower)];
        let way = |from, to, points: &[Point]| Line::new(from, to, Style::Flow, points.to_vec());
        vec![
            way(p, more, &[from_p, (left, self.upper)]),
            way(p, done, &[from_p, beside[0], beside[1], (left, self.lower)]),
            way(r, more, &[(self.r, over), (self.r, high), (left, high)]),
            way(more, q, &[(right, high), (self.q, high), (self.q, over)]),
            way(q, done, &[(self.q, under), (self.q, low), (right, low)]),
            way(done, r, &[(left, low), (self.r, low), (self.r, under)]),
        ]
    }
}

impl Marked<'_> {
    /// The cell of an IT open with its two transitions: one more turn, and turns done.
    pub fn turns(&self, row: usize, more: usize, done: usize) -> Cell {
        let [p, q, r] = [3 * row, 3 * row + 1, 3 * row + 2];
        let entry = self.place(p, false);
        let labels = [q, r].map(|place| self.place_label(place).width());
        let (first, second) = (self.transition(more), self.transition(done));
        let stand = Stand::of(&entry, &first, &second, labels[0].max(labels[1]));

        let mut cell = Cell {
            width: stand.width,
            height: stand.lower + second.below,
            axis: stand.upper,
            ..Cell::default()
        };
        put(&mut cell, &entry, (0, stand.upper));
        let bars = stand.bars.0;
        put(&mut cell, &first, (bars - first.left, stand.upper));
        put(&mut cell, &second, (bars - second.left, stand.lower));
        cell.groups
            .push(self.beside_label(r, (stand.r, stand.middle)));
        cell.groups
            .push(self.beside_label(q, (stand.q, stand.middle)));

        let transitions = [more, done].map(Node::Transition);
        let ways = stand.ways([p, q, r].map(Node::Place), transitions);
        let ways: Vec<Line> = ways.into_iter().map(|way| self.weighed(way)).collect();
        cell.groups.extend(ways.iter().filter_map(weight_label));
        cell.lines.extend(ways);
        let port = |node: Node, at: Point| Some(Port { node, at });
        let (left, right) = stand.p;
        let top = ((left + right) / 2, stand.upper - entry.above);
        Cell {
            entry: port(entry.node, (left, stand.upper)),
            back: port(entry.node, top),
            onward: port(transitions[0], (stand.bars.1, stand.upper)),
            under: port(transitions[1], (stand.bars.1, stand.lower)),
            ..cell
        }
    }

    /// A place with its middle here, its label right of it.
    fn beside_label(&self, place: usize, (x, y): Point) -> Group {
        let half = PLACE / 2;
        let circle = self.circle(place).at(x - half, y - half);
        let label = Frame::around(Outline::None, vec![self.place_label(place)], 0, 0);
        let top = y - label.height / 2;
        let label = label.at(circle.right() + UNDER, top);
        self.place_group(place, vec![circle, label])
    }

    /// The line with the weight of its arc.
    fn weighed(&self, line: Line) -> Line {
        let ends = (line.from, line.to);
        let arc = self.arcs.iter().find(|arc| arc.ends() == ends);
        Line {
            weight: arc.map_or(line.weight, |arc| arc.weight),
            ..line
        }
    }
}

/// At the corner of an arc whose weight is above 1.
fn weight_label(line: &Line) -> Option<Group> {
    if line.weight < 2 {
        return None;
    }
    let words = vec![Words::bold(format!("×{}", line.weight), 10)];
    let label = Frame::around(Outline::None, words, 0, 0);
    let corner = line.points[1];
    let top = corner.1 - label.height - UNDER;
    Some(Group::loose(vec![label.at(corner.0 + UNDER + 1, top)]))
}
