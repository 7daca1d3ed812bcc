//! A page: the title, the drawing, the legend.

use super::sheet::{Frame, Group, Outline, Sheet};
use super::text::Words;

/// How wide a page is, unless something on it is wider.
pub const WIDTH: i32 = 1400;
pub const MARGIN: i32 = 24;

/// A page in parts.
pub struct Page {
    pub title: Option<String>,
    pub drawing: Sheet,
    /// Over the legend.
    pub heading: Option<String>,
    /// Each with its upper left corner at 0, 0.
    pub legend: Vec<Group>,
    pub notes: Vec<String>,
}

/// A line of text on its own.
fn note(words: Words) -> Group {
    Group::loose(vec![Frame::around(Outline::Note, vec![words], 0, 0)])
}

/// Puts groups one under the other or side by side.
struct Stack {
    sheet: Sheet,
    bottom: i32,
}

impl Stack {
    /// Under what there is.
    fn add(&mut self, group: &Group, apart: i32) {
        self.add_row(std::slice::from_ref(group), apart);
    }

    fn add_drawing(&mut self, drawing: &Sheet) {
        let corner = (MARGIN, self.bottom + MARGIN);
        let groups = drawing.groups.iter().map(|group| group.moved(corner));
        self.sheet.groups.extend(groups);
        let lines = drawing.lines.iter().map(|line| line.moved(corner));
        self.sheet.lines.extend(lines);
        let borders = drawing.borders.iter().map(|border| border.moved(corner));
        self.sheet.borders.extend(borders);
        self.bottom = corner.1 + drawing.height + MARGIN / 2;
        let right = drawing.width + 2 * MARGIN;
        self.sheet.width = self.sheet.width.max(right);
    }

    /// Side by side, under what there is.
    fn add_row(&mut self, groups: &[Group], apart: i32) {
        let top = self.bottom + apart;
        let mut left = MARGIN;
        for group in groups {
            let (width, height) = group.size();
            self.sheet.groups.push(group.moved((left, top)));
            left += width + MARGIN;
            self.bottom = self.bottom.max(top + height);
            self.sheet.width = self.sheet.width.max(left);
        }
    }
}

/// The groups that come on each line of a legend this wide.
fn rows(groups: &[Group], room: i32) -> Vec<&[Group]> {
    let mut rows = Vec::new();
    let (mut first, mut right) = (0, 0);
    for (number, group) in groups.iter().enumerate() {
        let (width, _) = group.size();
        if number > first && right + width > room {
            rows.push(&groups[first..number]);
            (first, right) = (number, 0);
        }
        right += width + MARGIN;
    }
    rows.push(&groups[first..]);
    rows
}

impl Page {
    pub fn sheet(self) -> Sheet {
        let mut stack = Stack {
            sheet: Sheet::default(),
            bottom: 0,
        };
        if let Some(title) = self.title {
            stack.add(&note(Words::bold(title, 20)), MARGIN);
        }
        stack.add_drawing(&self.drawing);
        if let Some(heading) = self.heading {
            stack.add(&note(Words::bold(heading, 13)), MARGIN / 2);
        }
        let room = stack.sheet.width.max(WIDTH / 2) - 2 * MARGIN;
        for row in rows(&self.legend, room) {
            stack.add_row(row, 8);
        }
        stack.bottom += 4;
        for words in self.notes {
            stack.add(&note(Words::plain(words, 11)), 4);
        }
        stack.sheet.height = stack.bottom + MARGIN;
        stack.sheet
    }
}
