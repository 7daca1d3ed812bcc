//! A sheet as SVG.

use super::sheet::{Border, Frame, Group, Line, Node, Outline, Point, Sheet, Style};
use super::text::{self, escaped, Words};
use crate::net::place_range;
use std::fmt::Write;

const FONTS: &str = "DejaVu Sans, Helvetica, Arial, sans-serif";
const INK: &str = "#111";
/// Of what ends more than itself: lines that leave a loop, branches that kill.
const RED: &str = "#b00020";
/// Length of a flag's point.
const FLAG_POINT: i32 = 9;
/// How far a corner is rounded.
const ROUND: i32 = 5;
/// Length of an arrow head, and half its width.
const HEAD: i32 = 8;
const HEAD_HALF: i32 = 4;

impl Sheet {
    pub fn svg(&self) -> String {
        let (width, height) = (self.width, self.height);
        let mut svg = format!(
            "<svg xmlns=\"http://www.w3.org/2000/svg\" width=\"{width}\" height=\"{height}\" \
             viewBox=\"0 0 {width} {height}\" font-family=\"{FONTS}\">\n\
             <rect width=\"{width}\" height=\"{height}\" fill=\"#fff\"/>\n"
        );
        // Half a pixel aside thin lines are sharp, and lie on one another unseen.
        svg.push_str("<g transform=\"translate(0.5 0.5)\">\n");
        for border in &self.borders {
            svg.push_str(&border_svg(border));
        }
        for line in &self.lines {
            svg.push_str(&line_svg(line));
        }
        svg.push_str("</g>\n");
        for group in &self.groups {
            svg.push_str(&group_svg(group));
        }
        svg.push_str("</svg>\n");
        svg
    }
}

fn border_svg(border: &Border) -> String {
    let Border {
        row,
        x,
        y,
        width,
        height,
    } = border;
    format!("<rect data-box=\"{row}\" x=\"{x}\" y=\"{y}\" width=\"{width}\" height=\"{height}\" stroke=\"{INK}\" stroke-width=\"1\" fill=\"#fafafa\"/>\n")
}

/// What a line of a net says about its arc.
fn arc_attributes(line: &Line) -> String {
    let (kind, transition, place) = match (line.from, line.to) {
        (Node::Transition(transition), place) => ("give", transition, place),
        (place, Node::Transition(transition)) => ("take", transition, place),
        _ => return String::new(),
    };
    let place = match place {
        Node::Copy { first, last, .. } => place_range(first, last),
        Node::Place(place) => place.to_string(),
        _ => return String::new(),
    };
    let weight = line.weight;
    format!(
        " data-arc=\"{kind}\" data-transition=\"{transition}\" data-place=\"{place}\" data-weight=\"{weight}\""
    )
}

fn line_svg(line: &Line) -> String {
    let (ink, look) = match line.style {
        Style::Flow => (INK, "stroke-width=\"1.5\""),
        Style::Dashed => (RED, "stroke-width=\"1.5\" stroke-dasharray=\"6 4\""),
        Style::Exit => (RED, "stroke-width=\"1.3\""),
        Style::Use => (INK, "stroke-width=\"1\""),
    };
    let attributes = arc_attributes(line);
    let path = path(&line.points, line.head);
    let mut svg =
        format!("<g{attributes}><path d=\"{path}\" fill=\"none\" stroke=\"{ink}\" {look}/>");
    if line.head {
        let head = head(&line.points);
        let _ = write!(svg, "<path d=\"{head}\" fill=\"{ink}\"/>");
    }
    svg.push_str("</g>\n");
    svg
}

/// One step from `from` towards `to`, this long.
fn towards(from: Point, to: Point, length: i32) -> Point {
    let step = |from: i32, to: i32| from + (to - from).signum() * length;
    (step(from.0, to.0), step(from.1, to.1))
}

fn distance(from: Point, to: Point) -> i32 {
    (from.0 - to.0).abs() + (from.1 - to.1).abs()
}

/// The line with rounded corners, up to the arrow head if it has one.
fn path(points: &[Point], head: bool) -> String {
    let mut path = format!("M{} {}", points[0].0, points[0].1);
    for corner in points.windows(3) {
        let [before, at, behind] = [corner[0], corner[1], corner[2]];
        let room = distance(before, at).min(distance(at, behind)) / 2;
        let (x1, y1) = towards(at, before, ROUND.min(room));
        let (x2, y2) = towards(at, behind, ROUND.min(room));
        let (x, y) = at;
        let _ = write!(path, "L{x1} {y1}Q{x} {y} {x2} {y2}");
    }
    if let [.., before, end] = *points {
        let (x, y) = towards(end, before, if head { HEAD - 2 } else { 0 });
        let _ = write!(path, "L{x} {y}");
    }
    path
}

fn head(points: &[Point]) -> String {
    let [.., before, end] = *points else {
        return String::new();
    };
    let (x, y) = towards(end, before, HEAD);
    let (aside_x, aside_y) = if before.1 == end.1 {
        (0, HEAD_HALF)
    } else {
        (HEAD_HALF, 0)
    };
    format!(
        "M{} {}L{} {}L{} {}z",
        end.0,
        end.1,
        x + aside_x,
        y + aside_y,
        x - aside_x,
        y - aside_y
    )
}

fn group_svg(group: &Group) -> String {
    let attribute = match &group.attribute {
        Some((name, value)) => format!(" {name}=\"{}\"", escaped(value)),
        None => String::new(),
    };
    let mut svg = format!("<g{attribute}>");
    if let Some(hint) = &group.hint {
        let _ = write!(svg, "<title>{}</title>", escaped(hint));
    }
    for frame in &group.frames {
        svg.push_str(&frame_svg(frame));
        svg.push_str(&words_svg(frame));
    }
    svg.push_str("</g>\n");
    svg
}

fn frame_svg(frame: &Frame) -> String {
    let Frame {
        x,
        y,
        width,
        height,
        ..
    } = frame;
    let rounded_in = |ink: &str, radius: i32, look: &str| {
        format!("<rect x=\"{x}\" y=\"{y}\" width=\"{width}\" height=\"{height}\" rx=\"{radius}\" stroke=\"{ink}\" {look}/>")
    };
    let rounded = |radius: i32, look: &str| rounded_in(INK, radius, look);
    let circle = |look: &str| {
        let (cx, cy, r) = (frame.middle(), frame.level(), width / 2);
        format!("<circle cx=\"{cx}\" cy=\"{cy}\" r=\"{r}\" {look}/>")
    };
    let line = format!("fill=\"#fff\" stroke=\"{INK}\" stroke-width=\"1.5\"");
    match frame.outline {
        Outline::None | Outline::Note => String::new(),
        Outline::Block => rounded(0, "stroke-width=\"2\" fill=\"#fff\""),
        Outline::Circle => circle(&line),
        Outline::Tag => rounded(3, "stroke-width=\"1\" fill=\"#f2f2f2\""),
        Outline::KillTag => rounded_in(RED, 3, "stroke-width=\"2.5\" fill=\"#fff\""),
        Outline::Kill => octagon_svg(frame),
        Outline::Pill => rounded(height / 2, "stroke-width=\"1\" fill=\"#f2f2f2\""),
        Outline::Flag => flag_svg(frame),
        Outline::Copy => rounded(
            height / 2,
            "stroke-width=\"1\" stroke-dasharray=\"3 2\" fill=\"#fff\"",
        ),
        Outline::Terminal => rounded(height / 2, "stroke-width=\"2.5\" fill=\"#fff\""),
        Outline::Bar => rounded(0, "stroke-width=\"1\" fill=\"#111\""),
        Outline::Dot => circle(&format!("fill=\"{INK}\"")),
        Outline::Place { mark } => circle(&line) + &mark_svg(frame, mark),
    }
}

/// A box whose right side is a point, at its level.
fn flag_svg(frame: &Frame) -> String {
    let (left, top, bottom, level) = (frame.x, frame.y, frame.bottom(), frame.level());
    let (right, point) = (frame.right() - FLAG_POINT, frame.right());
    format!(
        "<path d=\"M{left} {top}L{right} {top}L{point} {level}L{right} {bottom}L{left} {bottom}z\" stroke=\"{INK}\" stroke-width=\"1\" fill=\"#f2f2f2\"/>"
    )
}

/// The sign that says stop on every road.
fn octagon_svg(frame: &Frame) -> String {
    let (left, top, right, bottom) = (frame.x, frame.y, frame.right(), frame.bottom());
    // A side of a regular one is about 0.41 of its width.
    let cut = frame.width * 29 / 100;
    let (west, east, north, south) = (left + cut, right - cut, top + cut, bottom - cut);
    format!(
        "<path d=\"M{west} {top}L{east} {top}L{right} {north}L{right} {south}L{east} {bottom}L{west} {bottom}L{left} {south}L{left} {north}z\" stroke=\"{RED}\" stroke-width=\"2.5\" fill=\"#fff\"/>"
    )
}

/// A few tokens as dots, more as a number.
fn mark_svg(frame: &Frame, mark: u16) -> String {
    let (x, y) = (frame.middle(), frame.level());
    let spots: &[Point] = match mark {
        0 => &[],
        1 => &[(0, 0)],
        2 => &[(-5, 0), (5, 0)],
        3 => &[(-5, 4), (5, 4), (0, -5)],
        4 => &[(-5, -5), (5, -5), (-5, 5), (5, 5)],
        _ => {
            let number = Words::plain(mark.to_string(), 9);
            return text_svg(&number, (x, y + 3), "middle");
        }
    };
    let dots = spots.iter().map(|(right, down)| {
        let (x, y) = (x + right, y + down);
        format!("<circle cx=\"{x}\" cy=\"{y}\" r=\"3\" fill=\"{INK}\"/>")
    });
    dots.collect()
}

/// The lines of text of a box, in its middle.
fn words_svg(frame: &Frame) -> String {
    let mut svg = String::new();
    let mut top = frame.level() - text::height(&frame.words) / 2;
    for words in &frame.words {
        let base = top + words.height() * 4 / 5;
        svg.push_str(&match frame.outline {
            Outline::Note => text_svg(words, (frame.x, base), "start"),
            _ => text_svg(words, (frame.middle(), base), "middle"),
        });
        top += words.height();
    }
    svg
}

fn text_svg(words: &Words, (x, y): Point, anchor: &str) -> String {
    let size = words.size;
    let weight = if words.bold {
        " font-weight=\"bold\""
    } else {
        ""
    };
    let text = escaped(words.text.trim_end());
    format!("<text x=\"{x}\" y=\"{y}\" font-size=\"{size}\"{weight} text-anchor=\"{anchor}\" fill=\"{INK}\">{text}</text>")
}
