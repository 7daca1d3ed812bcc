//! Rows of plants with boxes, deep ones, scenarios that may fall through, and
//! what may be done to boxes.

use super::diagrams::{put_record, rows_of, Place, RowsBuilder};
use super::loops::LOOP_ROWS;
use super::Random;
use crate::diagram::{function_record, is_branch, MOST_ROWS};
use crate::records::{
    record, word, AND_CLOSE, AND_OPEN, BOX_CLOSE, BOX_OPEN, BRANCH, EXIT, FUNCTION, IT_CLOSE,
    IT_OPEN, KILLING_BRANCH, LOOP_EXIT, LP_CLOSE, LP_OPEN, OR_CLOSE, OR_OPEN,
};

/// Rows of an EXIT: its own and its outlet's BRANCH.
pub(super) const EXIT_ROWS: usize = 2;
/// Rows of an AND or OR both of whose branches end in EXIT.
const TWO_EXITS_ROWS: usize = 4 + 2 * EXIT_ROWS;
/// Rows of a box whatever else is in it, and constructs open together in it: of
/// two EXITs one at least stands in a construct.
pub(super) const BOX_ROWS: usize = 2 + TWO_EXITS_ROWS;
pub(super) const BOX_OPEN_TOGETHER: usize = 2;
/// Rows of a box whose scenario is an AND of another box and two FUNCTIONs with an
/// EXIT behind each.
const BOXES_ROWS: usize = 2 + 5 + 2 * (1 + EXIT_ROWS) + BOX_ROWS;

impl RowsBuilder<'_> {
    /// A box alone, in an LP, an IT, a branch of an OR, a killing branch or one
    /// that may be killed, and what follows it. It has room for 18 rows with END.
    pub(super) fn box_plant(&mut self) {
        let outside = Place::OUTERMOST;
        match self.random.below(9) {
            0 | 1 => {
                self.left -= LOOP_ROWS;
                self.plain(LP_OPEN);
                self.function(1);
                if self.left >= BOXES_ROWS && self.random.chance(40) {
                    self.boxes_in_box(outside.in_loop());
                } else {
                    self.boxed(outside.in_loop());
                }
                self.run(outside.in_loop());
                self.plain(LP_CLOSE);
            }
            2 => {
                self.left -= 2;
                let count = self.random.between(2, 4);
                self.it_open(count);
                self.boxed(outside.deeper());
                self.plain(IT_CLOSE);
            }
            3 => {
                self.left -= 4;
                self.plain(OR_OPEN);
                self.plain(BRANCH);
                self.boxed(outside.deeper());
                self.plain(BRANCH);
                self.plain(OR_CLOSE);
            }
            4 | 5 => self.box_beside_trip(outside),
            6 if self.left >= BOXES_ROWS => self.boxes_in_box(outside),
            _ => self.boxed(outside),
        }
        self.run(outside);
    }

    /// An AND of a box and a FUNCTION, one of which kills the other.
    fn box_beside_trip(&mut self, place: Place) {
        self.left -= 5;
        let box_kills = self.random.chance(60);
        let kinds = [BRANCH, KILLING_BRANCH];
        self.plain(AND_OPEN);
        self.plain(kinds[usize::from(box_kills)]);
        self.boxed(place.deeper());
        self.plain(kinds[usize::from(!box_kills)]);
        self.function(0);
        self.plain(AND_CLOSE);
    }

    /// A box that is left while another box in it is under way: an AND of that one
    /// and two FUNCTIONs with an EXIT behind each.
    fn boxes_in_box(&mut self, place: Place) {
        self.left -= BOXES_ROWS;
        let open = self.rows.len();
        let with_box = self.random.below(3);
        self.plain(BOX_OPEN);
        self.plain(AND_OPEN);
        for branch in 0..3 {
            self.plain(BRANCH);
            if branch == with_box {
                self.left += BOX_ROWS;
                self.bare_box(place.in_scenario().deeper());
            } else {
                self.function(0);
                self.left += EXIT_ROWS;
                self.exit();
            }
        }
        self.plain(AND_CLOSE);
        self.outlets(place, open);
        self.plain(BOX_CLOSE);
    }

    /// A box with nothing but two EXITs in its scenario, and its outlets.
    fn bare_box(&mut self, place: Place) {
        self.left -= BOX_ROWS - TWO_EXITS_ROWS;
        let open = self.rows.len();
        self.plain(BOX_OPEN);
        self.bare_exits(2);
        self.outlets(place, open);
        self.plain(BOX_CLOSE);
    }

    /// A box: some rows, then a construct that does not fall through and has the
    /// EXITs that two outlets need; an outlet for each EXIT.
    pub(super) fn boxed(&mut self, place: Place) {
        self.left -= BOX_ROWS;
        // Some of the rows are kept for the outlets.
        let kept = self.left * self.random.pick(&[0, 1, 2], 1) / 3;
        self.left -= kept;
        let open = self.rows.len();
        self.plain(BOX_OPEN);
        self.run(place.in_scenario());
        self.left += TWO_EXITS_ROWS;
        let exits = self.exits_since(open).len();
        let missing = 2_usize.saturating_sub(exits);
        if self.leaky {
            self.leaky_end(place.in_scenario(), missing);
        } else {
            self.end(place.in_scenario(), missing);
        }
        self.left += kept;
        self.outlets(place, open);
        self.plain(BOX_CLOSE);
    }

    /// The EXITs of the box that this row opens, which is not closed yet.
    fn exits_since(&self, open: usize) -> Vec<usize> {
        let boxes = boxes_in(&self.rows[open..]);
        let exits = boxes.first().map(|found| found.exits.as_slice());
        let exits = exits.unwrap_or_default().iter();
        exits.map(|exit| open + exit).collect()
    }

    /// The outlets of the box that this row opens, one for each EXIT, in any
    /// order. Where another scenario is around, some end in its EXIT.
    fn outlets(&mut self, place: Place, open: usize) {
        let mut left: Vec<usize> = self.exits_since(open);
        for outlet in 0..left.len() as u16 {
            let exit = left.swap_remove(self.random.below(left.len()));
            self.rows[exit] = record(EXIT, &[outlet]);
            self.plain(BRANCH);
            self.outlet(place.deeper());
            if place.in_scenario && self.left >= EXIT_ROWS && self.random.chance(40) {
                self.exit();
            }
        }
    }

    /// The rows of an outlet: none, any, or one of the constructs that it may end
    /// in.
    fn outlet(&mut self, place: Place) {
        let room = if place.may_open(1) { self.left } else { 0 };
        match self.random.below(10) {
            0 | 1 => {}
            2 | 3 if self.left > 0 => self.last_function(),
            4 if room >= 4 => self.branched(OR_OPEN, OR_CLOSE, place),
            5 if room >= 4 => self.branched(AND_OPEN, AND_CLOSE, place),
            6 if self.has_room_to_leave(place) => self.exited_loop(place),
            7 | 9 if self.may_box(place) && place.in_scenario => self.bare_box(place),
            7 if self.may_box(place) => self.boxed(place),
            8 if room >= TWO_EXITS_ROWS && place.in_scenario => {
                let exits = 1 + self.random.below(2);
                self.bare_exits(exits);
            }
            _ => self.run(place),
        }
    }

    /// A construct that does not fall through, of those that "a run falls through
    /// unless its last construct is", with so many EXITs at least, 2 at most. It
    /// has room for an EXIT, or for an AND or OR of two.
    fn end(&mut self, place: Place, exits: usize) {
        let room = if place.may_open(1) { self.left } else { 0 };
        let loop_rows = LOOP_ROWS + TWO_EXITS_ROWS;
        match self.random.below(7) {
            0 | 1 if room >= TWO_EXITS_ROWS => self.or_that_ends(place, exits),
            2 | 3 if room >= TWO_EXITS_ROWS => self.and_that_ends(place, exits),
            4 if room >= loop_rows && place.may_open(2) => self.endless_loop(place, exits),
            _ if exits < 2 => self.exit(),
            _ => self.or_that_ends(place, exits),
        }
    }

    /// The same at the end of a branch, where an LE may stand too.
    fn end_branch(&mut self, place: Place, exits: usize) {
        // The branch keeps its EXIT's rows.
        self.left -= EXIT_ROWS;
        match self.random.below(3) {
            0 => {}
            1 if self.left > 0 => self.last_function(),
            _ => self.run(place),
        }
        self.left += EXIT_ROWS;
        if exits == 0 && place.in_loop && self.random.chance(50) {
            self.loop_exit();
        } else {
            self.end(place, exits);
        }
    }

    /// "An OR none of whose branches fall through."
    fn or_that_ends(&mut self, place: Place, exits: usize) {
        self.left -= TWO_EXITS_ROWS;
        self.plain(OR_OPEN);
        let first = exits.min(1);
        for missing in [first, exits - first] {
            self.plain(BRANCH);
            self.left += EXIT_ROWS;
            self.end_branch(place.deeper(), missing);
        }
        while self.left > EXIT_ROWS && self.random.chance(25) {
            self.left -= 1;
            self.plain(BRANCH);
            self.end_branch(place.deeper(), 0);
        }
        self.plain(OR_CLOSE);
    }

    /// "An AND with one that doesn't and no killing branch that does."
    fn and_that_ends(&mut self, place: Place, exits: usize) {
        self.left -= TWO_EXITS_ROWS;
        self.plain(AND_OPEN);
        let first = exits.min(1);
        for missing in [first, exits - first] {
            let kills = self.random.chance(25);
            self.plain(if kills { KILLING_BRANCH } else { BRANCH });
            self.left += EXIT_ROWS;
            let falls = missing == 0 && first > 0 && !kills;
            if falls && self.random.chance(70) {
                self.cleared(place.deeper());
            } else {
                self.end_branch(place.deeper(), missing);
            }
        }
        while self.left > 0 && self.random.chance(40) {
            self.left -= 1;
            self.plain(BRANCH);
            self.cleared(place.deeper());
        }
        self.plain(AND_CLOSE);
    }

    /// A branch that an EXIT may clear: often a box, or something that takes its
    /// time.
    fn cleared(&mut self, place: Place) {
        match self.random.below(3) {
            0 if self.may_box(place) => self.boxed(place),
            _ if self.left > 0 => self.victim(place),
            _ => {}
        }
    }

    /// "LP (one that no LE leaves)", with EXITs in an OR or AND in it.
    fn endless_loop(&mut self, place: Place, exits: usize) {
        self.left -= LOOP_ROWS;
        let inside = Place {
            in_loop: false,
            ..place.deeper()
        };
        self.plain(LP_OPEN);
        self.function(1);
        match self.random.below(2) {
            _ if exits == 0 => self.run(inside),
            0 => self.or_that_ends(inside, exits),
            _ => self.and_that_ends(inside, exits),
        }
        self.plain(LP_CLOSE);
    }

    /// The end of a scenario that may fall through, with so many EXITs at least:
    /// these first, where something may follow.
    fn leaky_end(&mut self, place: Place, exits: usize) {
        if exits > 0 {
            self.bare_exits(exits);
        }
        if exits == 0 || self.random.chance(90) {
            self.leaky_construct(place);
        }
    }

    /// An AND or OR of two branches, of which one or both are nothing but EXIT.
    fn bare_exits(&mut self, exits: usize) {
        let (open_kind, close_kind) = match self.random.below(2) {
            0 => (OR_OPEN, OR_CLOSE),
            _ => (AND_OPEN, AND_CLOSE),
        };
        self.left -= 4;
        self.plain(open_kind);
        for missing in [1, exits - 1] {
            self.plain(BRANCH);
            if missing > 0 {
                self.exit();
            }
        }
        self.plain(close_kind);
    }

    /// An IT whose body does not fall through.
    fn rounds_that_end(&mut self) {
        self.left -= 2;
        let count = self.random.between(2, 4);
        self.it_open(count);
        self.bare_exits(2);
        self.plain(IT_CLOSE);
    }

    /// A last construct of any kind, whose branches end in such ones.
    fn leaky_construct(&mut self, place: Place) {
        let room = if place.may_open(1) { self.left } else { 0 };
        match self.random.below(10) {
            0 => {}
            1 if self.left > 0 => self.last_function(),
            2 if room >= 2 + TWO_EXITS_ROWS && place.may_open(2) => self.rounds_that_end(),
            2 if room >= 3 => self.rounds(place),
            3 if self.may_box(place) => self.boxed(place),
            4 | 5 if room >= TWO_EXITS_ROWS => self.leaky_branches(OR_OPEN, OR_CLOSE, place),
            6 | 7 if room >= TWO_EXITS_ROWS => self.leaky_branches(AND_OPEN, AND_CLOSE, place),
            8 if room >= LOOP_ROWS + 5 && place.may_open(2) => self.leaky_loop(place),
            9 if self.left >= EXIT_ROWS => self.exit(),
            _ => {}
        }
    }

    fn leaky_branches(&mut self, open_kind: u16, close_kind: u16, place: Place) {
        self.left -= 2;
        self.plain(open_kind);
        let branches = 2 + self.random.below(2);
        // A branch keeps a row besides its BRANCH, so that it may kill.
        self.left -= 2 * branches;
        for _ in 0..branches {
            self.left += 1;
            if open_kind == AND_OPEN && self.random.chance(35) {
                self.plain(KILLING_BRANCH);
                if self.left >= EXIT_ROWS && self.random.chance(50) {
                    self.exit();
                    continue;
                }
                self.last_function();
            } else {
                self.plain(BRANCH);
            }
            if place.in_loop && self.left > 0 && self.random.chance(30) {
                self.loop_exit();
            } else {
                self.leaky_construct(place.deeper());
            }
        }
        self.plain(close_kind);
    }

    /// An LP that an LE leaves, its own or that of an LP in it, or none.
    fn leaky_loop(&mut self, place: Place) {
        if self.random.chance(30) {
            return self.looped(place);
        }
        self.left -= LOOP_ROWS + 5;
        let has_outer = self.left >= 2 && place.may_open(3) && self.random.chance(40);
        if has_outer {
            self.left -= 2;
            self.plain(LP_OPEN);
        }
        self.plain(LP_OPEN);
        self.function(1);
        self.plain(OR_OPEN);
        self.plain(BRANCH);
        match self.random.below(2) {
            0 => self.plain(LOOP_EXIT),
            _ => self.left += 1,
        }
        self.plain(BRANCH);
        self.plain(OR_CLOSE);
        self.plain(LP_CLOSE);
        if has_outer {
            self.plain(LP_CLOSE);
        }
    }
}

/// The rows of a box by their numbers, whatever is off in it.
pub(super) struct BoxRows {
    pub(super) open: usize,
    pub(super) exits: Vec<usize>,
    pub(super) outlets: Vec<usize>,
    pub(super) close: Option<usize>,
}

/// The boxes among these rows, by their opens.
pub(super) fn boxes_in(rows: &[Vec<u8>]) -> Vec<BoxRows> {
    let mut boxes: Vec<BoxRows> = Vec::new();
    // Of each construct that is open, which box it is.
    let mut open: Vec<Option<usize>> = Vec::new();
    for (number, row) in rows.iter().enumerate() {
        match word(row, 1) {
            AND_OPEN | OR_OPEN | IT_OPEN | LP_OPEN => open.push(None),
            BOX_OPEN => {
                open.push(Some(boxes.len()));
                boxes.push(BoxRows {
                    open: number,
                    exits: Vec::new(),
                    outlets: Vec::new(),
                    close: None,
                });
            }
            kind if is_branch(kind) => {
                if let Some(Some(index)) = open.last() {
                    boxes[*index].outlets.push(number);
                }
            }
            EXIT => {
                let mut around = open.iter().rev().flatten();
                let own = around.find(|index| boxes[**index].outlets.is_empty());
                if let Some(index) = own {
                    boxes[*index].exits.push(number);
                }
            }
            AND_CLOSE | OR_CLOSE | IT_CLOSE | LP_CLOSE | BOX_CLOSE => {
                if let Some(Some(index)) = open.pop() {
                    boxes[index].close = Some(number);
                }
            }
            _ => {}
        }
    }
    boxes
}

/// So many constructs one in the other, most of them boxes as far as the rows
/// reach, the innermost an OR. Of a box's two EXITs one is the last row of its
/// scenario; the other stands in an outlet of the next box in, or in the OR.
pub(super) fn deep_box_rows(random: &mut Random, depth: usize) -> Vec<Vec<u8>> {
    let mut kinds = Vec::new();
    let or_rows = 5;
    let mut left = MOST_ROWS - 1 - or_rows;
    while kinds.len() + 1 < depth {
        // The others keep the two rows of an IT.
        let spare = left - 2 * (depth - 2 - kinds.len());
        kinds.push(match random.below(8) {
            0 => LP_OPEN,
            1 => IT_OPEN,
            2 if spare >= 4 => random.pick(&[AND_OPEN, OR_OPEN], AND_OPEN),
            _ if spare >= 6 => BOX_OPEN,
            _ => IT_OPEN,
        });
        left -= match kinds.last() {
            Some(&BOX_OPEN) => 6,
            Some(&(AND_OPEN | OR_OPEN)) => 4,
            _ => 2,
        };
    }
    for index in 1..kinds.len() {
        kinds.swap(index, random.below(index + 1));
    }
    deep_rows_of(random, &kinds)
}

/// Constructs of these kinds one in the other, and an OR in the innermost.
fn deep_rows_of(random: &mut Random, kinds: &[u16]) -> Vec<Vec<u8>> {
    let plain = |kind| record(kind, &[]);
    // Which outlet the inner EXIT of each box names.
    let inner: Vec<u16> = kinds.iter().map(|_| random.between(0, 1)).collect();
    let mut rows = Vec::new();
    for kind in kinds {
        match *kind {
            IT_OPEN => rows.push(record(IT_OPEN, &[2])),
            AND_OPEN | OR_OPEN => rows.extend([plain(*kind), plain(BRANCH)]),
            kind => rows.push(plain(kind)),
        }
    }
    // The EXIT of the innermost box around so many constructs.
    let exit_around = |count: usize| {
        let around = kinds[..count].iter().rposition(|kind| *kind == BOX_OPEN);
        around.map(|index| record(EXIT, &[inner[index]]))
    };
    rows.extend([plain(OR_OPEN), plain(BRANCH)]);
    rows.extend(exit_around(kinds.len()));
    rows.extend([plain(BRANCH), function_record(1, 9, &[]), plain(OR_CLOSE)]);
    for (index, kind) in kinds.iter().enumerate().rev() {
        match *kind {
            AND_OPEN => rows.extend([plain(BRANCH), plain(AND_CLOSE)]),
            OR_OPEN => rows.extend([plain(BRANCH), plain(OR_CLOSE)]),
            IT_OPEN => rows.push(plain(IT_CLOSE)),
            LP_OPEN => rows.push(plain(LP_CLOSE)),
            _ => {
                rows.push(record(EXIT, &[1 - inner[index]]));
                rows.push(plain(BRANCH));
                let outer = exit_around(index);
                if random.chance(50) {
                    rows.extend(outer);
                    rows.push(plain(BRANCH));
                } else {
                    rows.push(plain(BRANCH));
                    rows.extend(outer);
                }
                rows.push(plain(BOX_CLOSE));
            }
        }
    }
    rows
}

/// Something done to a box: to the fields, places and number of its EXITs and
/// outlets, its own rows, or a loop around it that an LE of its scenario would
/// leave. Nothing where there is none.
pub(super) fn damage_boxes(random: &mut Random, rows: &mut Vec<Vec<u8>>) {
    let mut boxes = boxes_in(rows);
    if boxes.is_empty() {
        return;
    }
    let found = boxes.swap_remove(random.below(boxes.len()));
    let exit = random.pick(&found.exits, found.open);
    let outlet = random.pick(&found.outlets, found.open);
    let close = found.close.unwrap_or(found.open);
    match random.below(18) {
        0..=2 => rename_outlet(random, rows, &found, exit),
        // An outlet more.
        3 => put_record(random, rows, close, record(BRANCH, &[])),
        4 => put_record(random, rows, outlet, record(BRANCH, &[])),
        5 => drop(rows.remove(outlet)),
        6 => rows[outlet] = record(KILLING_BRANCH, &[]),
        // An EXIT less, one at any place, one more where it may stand.
        7 => rows[exit] = function_record(1, 9, &[]),
        8 => drop(rows.remove(exit)),
        9 | 15 => {
            let at = random.below(rows.len());
            let exit = any_exit(random);
            put_record(random, rows, at, exit);
        }
        10 | 16 => {
            let is_end = random.pick(&[ends_branch, ends_rounds], ends_branch);
            let ends = rows_of(rows, is_end);
            let at = random.pick(&ends, 0);
            let exit = any_exit(random);
            put_record(random, rows, at, exit);
        }
        11 => few_outlets(random, rows, &found),
        12 | 13 => loop_over_border(random, rows, &found),
        14 => exit_elsewhere(random, rows, exit),
        // Its open or close goes, or stands for another's.
        _ => {
            let at = random.pick(&[found.open, close], close);
            match random.below(3) {
                0 => drop(rows.remove(at)),
                1 => rows[at] = record(random.pick(&[LP_OPEN, OR_OPEN, OR_CLOSE], LP_OPEN), &[]),
                _ => put_record(random, rows, at, record(BOX_CLOSE, &[])),
            }
        }
    }
}

/// A row of this kind ends a branch, an outlet or a scenario.
fn ends_branch(kind: u16) -> bool {
    is_branch(kind) || [AND_CLOSE, OR_CLOSE, BOX_CLOSE].contains(&kind)
}

/// A row of this kind ends an IT or LP, where no EXIT may stand.
fn ends_rounds(kind: u16) -> bool {
    kind == IT_CLOSE || kind == LP_CLOSE
}

fn any_exit(random: &mut Random) -> Vec<u8> {
    record(EXIT, &[random.between(0, 3)])
}

/// An EXIT names another outlet: one that there is, one behind the last, any; or
/// its high byte is set.
fn rename_outlet(random: &mut Random, rows: &mut [Vec<u8>], found: &BoxRows, exit: usize) {
    let outlets = found.outlets.len() as u16;
    let named = word(&rows[exit], 2);
    let other = match random.below(6) {
        0 | 1 => random.between(0, outlets),
        2 => outlets,
        3 => named | 0x100,
        4 => u16::MAX,
        _ => random.word(),
    };
    rows[exit] = record(EXIT, &[other]);
}

/// One outlet, or none, is left of a box, and of its EXITs those that name it.
fn few_outlets(random: &mut Random, rows: &mut Vec<Vec<u8>>, found: &BoxRows) {
    let keep = random.below(2);
    let mut gone: Vec<usize> = found.outlets.iter().skip(keep).copied().collect();
    if random.chance(70) {
        let named_later = |exit: &&usize| usize::from(word(&rows[**exit], 2)) >= keep;
        gone.extend(found.exits.iter().filter(named_later));
    }
    gone.sort_unstable();
    for row in gone.into_iter().rev() {
        rows.remove(row);
    }
}

/// An LP around a box, half of them with its time in the box's outlets, and an LE
/// in the place of one of its EXITs or before a BRANCH of its scenario. Some have
/// the LE in an outlet, where the LP is its loop.
fn loop_over_border(random: &mut Random, rows: &mut Vec<Vec<u8>>, found: &BoxRows) {
    let Some(close) = found.close else {
        return;
    };
    let in_box = |row: &usize| (found.open..close).contains(row);
    let branches = rows_of(rows, is_branch).into_iter().filter(in_box);
    let branches: Vec<usize> = branches.collect();
    if rows.len() == MOST_ROWS || random.chance(35) {
        let exit = random.pick(&found.exits, found.open);
        rows[exit] = record(LOOP_EXIT, &[]);
    } else {
        let at = random.pick(&branches, close);
        rows.insert(at, record(LOOP_EXIT, &[]));
    }
    let close = boxes_in(rows)
        .into_iter()
        .find(|other| other.open == found.open)
        .and_then(|other| other.close);
    let Some(close) = close.filter(|_| rows.len() + LOOP_ROWS <= MOST_ROWS) else {
        return;
    };
    rows.insert(close + 1, record(LP_CLOSE, &[]));
    let time = random.pick(&[found.open, close + 1], found.open);
    rows.insert(time, function_record(1, 9, &[]));
    rows.insert(found.open, record(LP_OPEN, &[]));
}

/// An EXIT goes to another place: the end of any branch, behind or before any
/// row.
fn exit_elsewhere(random: &mut Random, rows: &mut Vec<Vec<u8>>, exit: usize) {
    let moved = rows.remove(exit);
    let ends = rows_of(rows, |kind| is_branch(kind) || kind == FUNCTION);
    let at = match random.below(2) {
        0 => random.pick(&ends, 0),
        _ => random.below(rows.len()),
    };
    rows.insert(at, moved);
}
