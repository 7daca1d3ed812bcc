//! A drawing as data: boxes with reserved rectangles, and lines between them.

use super::text::Words;

pub type Point = (i32, i32);

/// What a line may begin or end at.
#[derive(Clone, Copy, PartialEq, Eq, PartialOrd, Ord, Hash, Debug)]
pub enum Node {
    /// Where the flow begins.
    Start,
    Row(usize),
    /// The flow behind the loop that this row closes.
    Behind(usize),
    /// The end of the killing branch that this row begins.
    Kill(usize),
    /// Where the flow comes out of the box that this row opens.
    Gate(usize),
    /// An item at the row that uses it.
    Item {
        row: usize,
        item: usize,
    },
    Place(usize),
    Transition(usize),
    /// Places drawn once more, as one sign at this transition: one place, or all copies of a trigger.
    Copy {
        transition: usize,
        first: usize,
        last: usize,
    },
}

/// How a box is drawn.
#[derive(Clone, Copy, PartialEq, Eq, Debug)]
pub enum Outline {
    /// Text alone, in the middle.
    None,
    /// Text alone, from the left.
    Note,
    Block,
    Circle,
    /// With rounded corners.
    Tag,
    /// As a tag, of what kills.
    KillTag,
    /// With eight corners: the end of a branch that kills.
    Kill,
    /// Rounded all the way, as items are.
    Pill,
    /// Pointed at the right, as triggers are.
    Flag,
    /// As a pill, dashed.
    Copy,
    /// A place with this mark.
    Place {
        mark: u16,
    },
    Bar,
    Dot,
    Terminal,
}

/// A box: its reserved rectangle, and its lines of text one under the other in the middle.
#[derive(Clone, PartialEq, Eq, Debug)]
pub struct Frame {
    pub outline: Outline,
    pub x: i32,
    pub y: i32,
    pub width: i32,
    pub height: i32,
    pub words: Vec<Words>,
}

/// Boxes that belong together, with the attribute that says to what.
#[derive(Clone, PartialEq, Eq, Debug, Default)]
pub struct Group {
    pub attribute: Option<(&'static str, String)>,
    /// Said where a pointer rests on it.
    pub hint: Option<String>,
    pub frames: Vec<Frame>,
}

/// How a line is drawn.
#[derive(Clone, Copy, PartialEq, Eq, Debug)]
pub enum Style {
    Flow,
    /// From an LE to behind its loop.
    Exit,
    /// As `Exit`, dashed: where no two such lines lie on one another.
    Dashed,
    /// Between a block and an item.
    Use,
}

/// A line of level and upright stretches.
#[derive(Clone, PartialEq, Eq, Debug)]
pub struct Line {
    pub from: Node,
    pub to: Node,
    pub style: Style,
    pub points: Vec<Point>,
    /// Of an arc of a net.
    pub weight: u16,
    /// Whether an arrow head ends it.
    pub head: bool,
}

/// The line around the scenario of the box that this row opens.
#[derive(Clone, Copy, PartialEq, Eq, Debug)]
pub struct Border {
    pub row: usize,
    pub x: i32,
    pub y: i32,
    pub width: i32,
    pub height: i32,
}

/// A whole drawing.
#[derive(Clone, PartialEq, Eq, Debug, Default)]
pub struct Sheet {
    pub width: i32,
    pub height: i32,
    /// An outer one before those inside it.
    pub borders: Vec<Border>,
    pub groups: Vec<Group>,
    pub lines: Vec<Line>,
}

/// A reserved rectangle, and what stands in it.
#[derive(Clone, PartialEq, Eq, Debug)]
pub struct Placed {
    pub what: String,
    pub x: i32,
    pub y: i32,
    pub width: i32,
    pub height: i32,
}

impl Frame {
    /// A box around its text, which it leaves this much room on each side.
    pub fn around(outline: Outline, words: Vec<Words>, beside: i32, above: i32) -> Frame {
        Frame {
            outline,
            x: 0,
            y: 0,
            width: super::text::widest(&words) + 2 * beside,
            height: super::text::height(&words) + 2 * above,
            words,
        }
    }

    /// A sign of this size.
    pub fn sign(outline: Outline, width: i32, height: i32, words: Vec<Words>) -> Frame {
        Frame {
            outline,
            x: 0,
            y: 0,
            width,
            height,
            words,
        }
    }

    pub fn at(self, x: i32, y: i32) -> Frame {
        Frame { x, y, ..self }
    }

    /// In the middle of this width.
    pub fn centred(self, width: i32, top: i32) -> Frame {
        let left = (width - self.width) / 2;
        self.at(left, top)
    }

    pub fn right(&self) -> i32 {
        self.x + self.width
    }

    pub fn bottom(&self) -> i32 {
        self.y + self.height
    }

    /// The middle between left and right.
    pub fn middle(&self) -> i32 {
        self.x + self.width / 2
    }

    /// The middle between top and bottom.
    pub fn level(&self) -> i32 {
        self.y + self.height / 2
    }

    fn placed(&self) -> Placed {
        let words = self.words.iter().map(|words| words.text.as_str());
        let words: Vec<&str> = words.collect();
        Placed {
            what: format!("{:?} {}", self.outline, words.join(" / ")),
            x: self.x,
            y: self.y,
            width: self.width,
            height: self.height,
        }
    }
}

impl Group {
    pub fn new(attribute: &'static str, value: impl ToString, frames: Vec<Frame>) -> Group {
        Group {
            attribute: Some((attribute, value.to_string())),
            hint: None,
            frames,
        }
    }

    pub fn loose(frames: Vec<Frame>) -> Group {
        Group {
            frames,
            ..Group::default()
        }
    }

    /// The width and height that its boxes need from 0, 0.
    pub fn size(&self) -> (i32, i32) {
        let right = self.frames.iter().map(Frame::right).max();
        let bottom = self.frames.iter().map(Frame::bottom).max();
        (right.unwrap_or(0), bottom.unwrap_or(0))
    }

    pub fn moved(&self, by: Point) -> Group {
        let frames = self.frames.iter();
        let frames = frames.map(|frame| frame.clone().at(frame.x + by.0, frame.y + by.1));
        Group {
            frames: frames.collect(),
            ..self.clone()
        }
    }
}

impl Line {
    pub fn new(from: Node, to: Node, style: Style, points: Vec<Point>) -> Line {
        Line {
            from,
            to,
            style,
            points,
            weight: 1,
            head: true,
        }
    }

    pub fn moved(&self, by: Point) -> Line {
        let points = self.points.iter();
        Line {
            points: points.map(|(x, y)| (x + by.0, y + by.1)).collect(),
            ..self.clone()
        }
    }
}

impl Border {
    pub fn moved(&self, by: Point) -> Border {
        Border {
            x: self.x + by.0,
            y: self.y + by.1,
            ..*self
        }
    }
}

impl Sheet {
    /// The reserved rectangles of all boxes.
    pub fn boxes(&self) -> Vec<Placed> {
        let frames = self.groups.iter().flat_map(|group| &group.frames);
        frames.map(Frame::placed).collect()
    }
}
