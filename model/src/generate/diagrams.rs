//! Diagram files, accepted and damaged.

use super::boxes::{damage_boxes, deep_box_rows, BOX_OPEN_TOGETHER, BOX_ROWS, EXIT_ROWS};
use super::damage::{damage_bytes, damage_field, damage_records, random_record, split_records};
use super::loops::{empty_a_loop, lose_time, put_timeless_loop, LOOP_ROWS};
use super::Random;
use crate::diagram::{
    file_of, function_record, is_branch, MOST_ITEMS, MOST_OPEN, MOST_ROWS, ROW_KINDS,
};
use crate::examples::receiver_rows;
use crate::records::{
    record, word, AND_CLOSE, AND_OPEN, BRANCH, END, EXIT, HEAD, ITEM, IT_CLOSE, IT_OPEN,
    KILLING_BRANCH, LOOP_EXIT, LP_CLOSE, LP_OPEN, OR_CLOSE, OR_OPEN, TRIGGER,
};
use std::ops::RangeInclusive;

/// The parts of a diagram file.
struct Draft {
    item_kinds: Vec<u16>,
    /// Initial count of each item.
    counts: Vec<u16>,
    rows: Vec<Vec<u8>>,
}

impl Draft {
    fn file(&self) -> Vec<u8> {
        let items = self.item_kinds.iter().zip(&self.counts);
        let items: Vec<Vec<u8>> = items
            .map(|(kind, count)| record(*kind, &[*count]))
            .collect();
        file_of(&items, &self.rows)
    }
}

/// An accepted diagram.
pub fn diagram(random: &mut Random) -> Vec<u8> {
    draft(random).file()
}

/// An accepted diagram of at most this many rows.
pub fn diagram_up_to(random: &mut Random, most_rows: usize) -> Vec<u8> {
    let percents = Percents::some(random);
    draft_up_to(random, most_rows, percents).file()
}

/// The same without triggers, killing branches and boxes.
pub fn plain_diagram_up_to(random: &mut Random, most_rows: usize) -> Vec<u8> {
    draft_up_to(random, most_rows, Percents::PLAIN).file()
}

/// How many in a hundred.
#[derive(Clone, Copy)]
struct Percents {
    /// Items that are triggers.
    triggers: usize,
    /// Branches of ANDs that kill.
    kills: usize,
    /// LPs, of the constructs that open and are no boxes.
    loops: usize,
    /// Boxes, of the constructs that open.
    boxes: usize,
}

impl Percents {
    /// Most diagrams have no triggers, no kills or no boxes.
    const PLAIN: Percents = Percents {
        triggers: 0,
        kills: 0,
        loops: 25,
        boxes: 0,
    };

    fn some(random: &mut Random) -> Self {
        Percents {
            triggers: seldom(random, 30, &[25, 50, 100]),
            kills: seldom(random, 35, &[20, 50, 100]),
            boxes: seldom(random, 35, &[20, 50, 90]),
            ..Percents::PLAIN
        }
    }
}

/// One of these percents, mostly 0.
fn seldom(random: &mut Random, percent: usize, percents: &[usize]) -> usize {
    if random.chance(percent) {
        random.pick(percents, 0)
    } else {
        0
    }
}

/// An accepted diagram with many triggers that most FUNCTIONs use: most of their
/// nets are longer than 65,536 bytes, some as long as may be.
pub fn crowded_diagram(random: &mut Random) -> Vec<u8> {
    crowded_draft(random).file()
}

fn crowded_draft(random: &mut Random) -> Draft {
    let item_count = 10 + random.below(MOST_ITEMS - 9);
    let row_count = 48 + random.below(MOST_ROWS - 47);
    match random.below(20) {
        0 => return everyone_draft(MOST_ITEMS, MOST_ROWS - 1),
        1..=3 => return everyone_draft(item_count, row_count - 1),
        _ => {}
    }
    let counts: Vec<u16> = (0..item_count).map(|_| item_count_word(random)).collect();
    let percent = random.pick(&[70, 100], 100);
    let item_kinds = random_kinds(random, item_count, percent);
    let mut builder = RowsBuilder {
        kill_percent: seldom(random, 30, &[30, 100]),
        loop_percent: Percents::PLAIN.loops,
        box_percent: seldom(random, 20, &[30, 60]),
        go_on_percent: 90,
        function_percent: 85 + random.below(16),
        lasting: None,
        leaky: false,
        crowded: true,
        random,
        item_kinds: &item_kinds,
        rows: Vec::new(),
        left: row_count - 1,
    };
    while builder.left > 0 {
        builder.construct(Place::OUTERMOST);
    }
    builder.plain(END);
    let rows = builder.rows;
    Draft {
        item_kinds,
        counts,
        rows,
    }
}

/// Every FUNCTION takes and gives every trigger.
fn everyone_draft(triggers: usize, receivers: usize) -> Draft {
    let mut rows = receiver_rows(triggers, receivers);
    rows.push(record(END, &[]));
    Draft {
        item_kinds: vec![TRIGGER; triggers],
        counts: vec![1; triggers],
        rows,
    }
}

/// An accepted diagram of just this many rows, 4 or more, that goes on for ever:
/// an LP around all of it that no LE leaves. FUNCTIONs give back what they take;
/// only an LE may lose it.
pub fn lasting_diagram(random: &mut Random, row_count: usize) -> Vec<u8> {
    lasting_with(random, row_count, Percents::PLAIN)
}

/// The same with triggers, whose copies may become more and more.
pub fn lasting_trigger_diagram(random: &mut Random, row_count: usize) -> Vec<u8> {
    let triggers = random.pick(&[50, 100], 50);
    let percents = Percents {
        triggers,
        ..Percents::PLAIN
    };
    lasting_with(random, row_count, percents)
}

/// The same with branches that kill; what a killed FUNCTION took is lost, so most
/// have triggers or no items.
pub fn lasting_killing_diagram(random: &mut Random, row_count: usize) -> Vec<u8> {
    let percents = Percents {
        triggers: random.pick(&[0, 100], 0),
        kills: random.pick(&[30, 60, 100], 60),
        ..Percents::PLAIN
    };
    lasting_with(random, row_count, percents)
}

/// The same with boxes, 16 rows or more; what an EXIT's FUNCTIONs took is lost.
pub fn lasting_box_diagram(random: &mut Random, row_count: usize) -> Vec<u8> {
    let percents = Percents {
        triggers: random.pick(&[0, 100], 0),
        kills: random.pick(&[0, 0, 60], 0),
        boxes: random.pick(&[40, 80, 100], 80),
        ..Percents::PLAIN
    };
    lasting_with(random, row_count, percents)
}

fn lasting_with(random: &mut Random, row_count: usize, percents: Percents) -> Vec<u8> {
    let loses_takes = percents.kills > 0 || percents.boxes > 0;
    let item_count = match percents.triggers {
        0 if loses_takes && random.chance(80) => 0,
        _ => random.below(4),
    };
    let counts = (0..item_count).map(|_| random.between(1, 3)).collect();
    let item_kinds = random_kinds(random, item_count, percents.triggers);
    let mut builder = RowsBuilder {
        kill_percent: percents.kills,
        loop_percent: percents.loops,
        box_percent: percents.boxes,
        go_on_percent: 30 + random.below(60),
        function_percent: 20 + random.below(60),
        lasting: Some(random.pick(&[9, 600, 4_000, 12_000, 36_001, u16::MAX], 9)),
        leaky: false,
        crowded: false,
        random,
        item_kinds: &item_kinds,
        rows: Vec::new(),
        left: row_count.clamp(4, MOST_ROWS) - 4,
    };
    builder.plain(LP_OPEN);
    builder.spend_time(1);
    while builder.left > 0 {
        builder.construct(Place::OUTERMOST.deeper());
    }
    builder.plain(LP_CLOSE);
    builder.plain(END);
    let rows = builder.rows;
    Draft {
        item_kinds,
        counts,
        rows,
    }
    .file()
}

/// Kinds of items, so many in a hundred triggers.
fn random_kinds(random: &mut Random, item_count: usize, trigger_percent: usize) -> Vec<u16> {
    let mut kinds = vec![ITEM; item_count];
    if trigger_percent > 0 {
        for kind in &mut kinds {
            *kind = if random.chance(trigger_percent) {
                TRIGGER
            } else {
                ITEM
            };
        }
    }
    kinds
}

fn draft(random: &mut Random) -> Draft {
    let most_rows = match random.below(10) {
        0..=4 => random.below(12) + 1,
        5..=7 => random.below(MOST_ROWS) + 1,
        _ => MOST_ROWS,
    };
    let percents = Percents::some(random);
    draft_up_to(random, most_rows, percents)
}

/// An accepted diagram of short FUNCTIONs around an AND some of whose branches
/// kill: its walks come to kills of every kind.
pub fn killing_diagram(random: &mut Random) -> Vec<u8> {
    killing_draft(random).file()
}

fn killing_draft(random: &mut Random) -> Draft {
    let item_count = random.below(3);
    let counts = (0..item_count).map(|_| random.between(1, 9)).collect();
    let percent = random.pick(&[0, 50, 100], 0);
    let item_kinds = random_kinds(random, item_count, percent);
    let most_rows = random.pick(&[12, 20, 30, 45, MOST_ROWS], MOST_ROWS);
    let mut builder = RowsBuilder {
        kill_percent: random.pick(&[0, 30, 60], 30),
        loop_percent: Percents::PLAIN.loops,
        box_percent: seldom(random, 30, &[30, 70]),
        go_on_percent: 10 + random.below(60),
        function_percent: 30 + random.below(50),
        lasting: Some(9),
        leaky: false,
        crowded: false,
        random,
        item_kinds: &item_kinds,
        rows: Vec::new(),
        left: most_rows - 1,
    };
    builder.killing_plant();
    builder.plain(END);
    let rows = builder.rows;
    Draft {
        item_kinds,
        counts,
        rows,
    }
}

/// An accepted diagram with many loops, in one another and beside one another.
pub fn looping_diagram(random: &mut Random) -> Vec<u8> {
    looping_draft(random).file()
}

fn looping_draft(random: &mut Random) -> Draft {
    let most_rows = random.pick(&[6, 12, 20, 40, MOST_ROWS], MOST_ROWS);
    let percents = Percents {
        loops: random.pick(&[50, 80], 80),
        ..Percents::some(random)
    };
    draft_up_to(random, most_rows, percents)
}

/// The same after some FUNCTIONs have lost their α or a loop its rows: about half
/// have a loop that spends no time, and nothing else is off.
pub fn timeless_diagram(random: &mut Random) -> Vec<u8> {
    let mut draft = looping_draft(random);
    if random.chance(20) {
        empty_a_loop(random, &mut draft.rows);
    } else {
        lose_time(random, &mut draft.rows);
    }
    draft.file()
}

/// An accepted diagram of short FUNCTIONs with boxes: its walks come to EXITs of
/// every kind.
pub fn boxed_diagram(random: &mut Random) -> Vec<u8> {
    boxed_draft(random, false).file()
}

/// The same with scenarios that may fall through: about half have one that does,
/// and nothing else is off.
pub fn leaky_diagram(random: &mut Random) -> Vec<u8> {
    boxed_draft(random, true).file()
}

/// The same after something was done to its boxes, once, twice or not at all, and
/// sometimes to its loops or another row: each of 48 to 50 beside the others.
pub fn odd_box_diagram(random: &mut Random) -> Vec<u8> {
    let leaky = random.chance(60);
    let mut draft = boxed_draft(random, leaky);
    let times = random.pick(&[0, 1, 1, 2], 1);
    for _ in 0..times {
        damage_boxes(random, &mut draft.rows);
    }
    match random.below(8) {
        0 | 1 => lose_time(random, &mut draft.rows),
        2 => put_timeless_loop(random, &mut draft.rows),
        3 => another_fault(random, &mut draft.rows),
        4 if random.chance(50) => {
            let depth = MOST_OPEN + 1 + random.below(2);
            draft.rows = deep_box_rows(random, depth);
            draft.rows.push(record(END, &[]));
        }
        _ => {}
    }
    draft.file()
}

fn boxed_draft(random: &mut Random, leaky: bool) -> Draft {
    let item_count = random.below(3);
    let counts = (0..item_count).map(|_| random.between(1, 9)).collect();
    let percent = random.pick(&[0, 50, 100], 0);
    let item_kinds = random_kinds(random, item_count, percent);
    // Leaky ends need room, so that less comes before them.
    let (least_rows, go_on_percent) = if leaky { (32, 10) } else { (18, 60) };
    let most_rows = random.pick(&[18, 24, 32, 45, MOST_ROWS, MOST_ROWS], MOST_ROWS);
    let most_rows = most_rows.max(least_rows);
    let mut builder = RowsBuilder {
        kill_percent: random.pick(&[0, 30, 60], 30),
        loop_percent: Percents::PLAIN.loops,
        box_percent: random.pick(&[10, 40, 80], 40),
        go_on_percent: 10 + random.below(go_on_percent),
        function_percent: 20 + random.below(50),
        lasting: Some(9),
        leaky,
        crowded: false,
        random,
        item_kinds: &item_kinds,
        rows: Vec::new(),
        left: most_rows - 1,
    };
    if builder.random.below(12) == 0 {
        builder.rows = deep_box_rows(builder.random, MOST_OPEN);
    } else {
        builder.box_plant();
    }
    builder.plain(END);
    let rows = builder.rows;
    Draft {
        item_kinds,
        counts,
        rows,
    }
}

fn draft_up_to(random: &mut Random, most_rows: usize, percents: Percents) -> Draft {
    let item_count = match random.below(4) {
        0 => 0,
        1 => random.below(MOST_ITEMS + 1),
        _ => random.below(4),
    };
    let counts = (0..item_count).map(|_| item_count_word(random)).collect();
    let item_kinds = random_kinds(random, item_count, percents.triggers);
    let mut builder = RowsBuilder {
        kill_percent: percents.kills,
        loop_percent: percents.loops,
        box_percent: percents.boxes,
        go_on_percent: 50 + random.below(48),
        function_percent: 20 + random.below(60),
        lasting: None,
        leaky: false,
        crowded: false,
        random,
        item_kinds: &item_kinds,
        rows: Vec::new(),
        left: most_rows.clamp(1, MOST_ROWS) - 1,
    };
    if builder.left >= LOOP_ROWS && builder.random.chance(30) {
        builder.looped(Place::OUTERMOST);
    }
    builder.run(Place::OUTERMOST);
    let mut rows = builder.rows;
    rows.push(record(END, &[]));
    Draft {
        item_kinds,
        counts,
        rows,
    }
}

/// Initial count of an item: mostly few, sometimes near the limit.
pub(super) fn item_count_word(random: &mut Random) -> u16 {
    match random.below(10) {
        0 => random.between(65_530, 65_535),
        1 => random.draw() as u16,
        _ => random.between(0, 5),
    }
}

/// Where rows are put.
#[derive(Clone, Copy)]
pub(super) struct Place {
    /// Constructs open here.
    pub(super) open: usize,
    /// Some LP is open in the scenario here, so that a branch may end in LE.
    pub(super) in_loop: bool,
    /// A scenario is open here, so that a branch may end in EXIT.
    pub(super) in_scenario: bool,
}

impl Place {
    pub(super) const OUTERMOST: Place = Place {
        open: 0,
        in_loop: false,
        in_scenario: false,
    };

    /// In a construct here: an AND, OR, IT, an LP that no LE leaves, an outlet.
    pub(super) fn deeper(self) -> Self {
        Place {
            open: self.open + 1,
            ..self
        }
    }

    /// In an LP here that LEs may leave.
    pub(super) fn in_loop(self) -> Self {
        Place {
            in_loop: true,
            ..self.deeper()
        }
    }

    /// In the scenario of a box here; a loop around it is out of reach.
    pub(super) fn in_scenario(self) -> Self {
        Place {
            in_loop: false,
            in_scenario: true,
            ..self.deeper()
        }
    }

    /// So many constructs more may be open together.
    pub(super) fn may_open(self, constructs: usize) -> bool {
        self.open + constructs <= MOST_OPEN
    }
}

/// Builds rows by runs and constructs, each of them a whole.
pub(super) struct RowsBuilder<'r> {
    pub(super) random: &'r mut Random,
    /// Chance that a branch of an AND kills.
    kill_percent: usize,
    /// Chance that a construct that opens is an LP, where it is no box.
    loop_percent: usize,
    /// Chance that a construct that opens is a box.
    box_percent: usize,
    /// Scenarios may fall through.
    pub(super) leaky: bool,
    /// Chance that a run goes on.
    go_on_percent: usize,
    /// Chance that a construct is a FUNCTION.
    function_percent: usize,
    item_kinds: &'r [u16],
    /// FUNCTIONs use nearly every item.
    crowded: bool,
    /// LPs begin with the time that they spend, and FUNCTIONs give back what they
    /// take and last for so many ticks at most.
    lasting: Option<u16>,
    pub(super) rows: Vec<Vec<u8>>,
    /// Rows that may still be added, END left out.
    pub(super) left: usize,
}

impl RowsBuilder<'_> {
    pub(super) fn plain(&mut self, kind: u16) {
        self.rows.push(record(kind, &[]));
    }

    /// A run of constructs; the outermost one tends to be long.
    pub(super) fn run(&mut self, place: Place) {
        let go_on_percent = match place.open {
            0 => 92,
            _ => self.go_on_percent,
        };
        while self.left > 0 && self.random.chance(go_on_percent) {
            self.construct(place);
        }
    }

    /// A construct that fits into the rows left; a FUNCTION always does.
    pub(super) fn construct(&mut self, place: Place) {
        let may_open = place.may_open(1) && !self.random.chance(self.function_percent);
        if may_open && self.may_box(place) && self.random.chance(self.box_percent) {
            return self.boxed(place);
        }
        if may_open && self.left >= LOOP_ROWS && self.random.chance(self.loop_percent) {
            return self.looped(place);
        }
        match self.random.below(3) {
            0 if may_open && self.left >= 4 => self.branched(AND_OPEN, AND_CLOSE, place),
            1 if may_open && self.left >= 4 => self.branched(OR_OPEN, OR_CLOSE, place),
            2 if may_open && self.left >= 2 => {
                let count = match self.random.below(8) {
                    0 => self.random.between(2, 255),
                    _ => self.random.between(2, 4),
                };
                self.left -= 2;
                self.it_open(count);
                self.run(place.deeper());
                self.plain(IT_CLOSE);
            }
            _ => {
                self.left -= 1;
                self.function(0);
            }
        }
    }

    /// Boxes are asked for, and one has room.
    pub(super) fn may_box(&self, place: Place) -> bool {
        let has_room = self.left >= BOX_ROWS && place.may_open(BOX_OPEN_TOGETHER);
        has_room && self.box_percent > 0
    }

    pub(super) fn it_open(&mut self, count: u16) {
        self.rows.push(record(IT_OPEN, &[count]));
    }

    /// A FUNCTION of so many ticks or more.
    pub(super) fn function(&mut self, least: u16) {
        self.function_at(self.rows.len(), least);
    }

    /// The same, put in as this row.
    pub(super) fn function_at(&mut self, at: usize, least: u16) {
        let function = match self.lasting {
            Some(most) => lasting_function(self.random, self.item_kinds, least..=most),
            None if self.crowded => function_of_uses(self.random, self.item_kinds, 95, least),
            None => random_function(self.random, self.item_kinds, least),
        };
        self.rows.insert(at, function);
    }

    /// A FUNCTION of a tick or more, sometimes in an OR that also passes it by:
    /// then rows start again at the same tick.
    fn spend_time(&mut self, open: usize) {
        if open < MOST_OPEN && self.left >= 4 && self.random.chance(30) {
            self.left -= 4;
            self.plain(OR_OPEN);
            self.plain(BRANCH);
            self.plain(BRANCH);
            self.function(1);
            self.plain(OR_CLOSE);
        } else {
            self.function(1);
        }
    }

    /// An LP, mostly with an AND or OR in it that may end in LE. A lasting one
    /// begins with the time that it spends.
    pub(super) fn looped(&mut self, place: Place) {
        self.left -= LOOP_ROWS;
        self.plain(LP_OPEN);
        let inside = self.rows.len();
        if self.lasting.is_some() {
            self.spend_time(place.open + 1);
        }
        if self.left >= 5 && place.may_open(3) && self.random.chance(70) {
            self.exit_inside(place.in_loop());
        }
        self.run(place.in_loop());
        if self.lasting.is_none() {
            self.ensure_time(inside);
        }
        self.plain(LP_CLOSE);
    }

    /// An OR, seldom an AND, in a loop; half of them in an IT.
    fn exit_inside(&mut self, place: Place) {
        let in_it = self.left >= 7 && self.random.chance(50);
        let inside = if in_it { place.deeper() } else { place };
        if in_it {
            self.left -= 2;
            let count = self.random.between(2, 4);
            self.it_open(count);
        }
        if self.random.chance(75) {
            self.branched(OR_OPEN, OR_CLOSE, inside);
        } else {
            self.branched(AND_OPEN, AND_CLOSE, inside);
        }
        if in_it {
            self.plain(IT_CLOSE);
        }
    }

    /// An AND or OR with two branches or more; in a loop some end in LE, in a
    /// scenario some in EXIT.
    pub(super) fn branched(&mut self, open_kind: u16, close_kind: u16, place: Place) {
        self.left -= 4;
        self.plain(open_kind);
        let mut branches = 0;
        while branches < 2 || (self.left > 0 && self.random.chance(25)) {
            if branches >= 2 {
                self.left -= 1;
            }
            branches += 1;
            let may_kill = open_kind == AND_OPEN && self.left > 0 && self.kill_percent > 0;
            if may_kill && self.random.chance(self.kill_percent) {
                self.plain(KILLING_BRANCH);
                self.killing_run(place.deeper());
            } else {
                self.plain(BRANCH);
                self.run(place.deeper());
            }
            if place.in_loop && self.left > 0 && self.random.chance(40) {
                self.loop_exit();
            } else if place.in_scenario && self.left >= EXIT_ROWS && self.random.chance(35) {
                self.exit();
            }
        }
        self.plain(close_kind);
    }

    /// The run of a killing branch has a construct at least.
    fn killing_run(&mut self, place: Place) {
        self.construct(place);
        self.run(place);
    }

    pub(super) fn loop_exit(&mut self) {
        self.left -= 1;
        self.plain(LOOP_EXIT);
    }

    /// An EXIT, and a row kept for its outlet's BRANCH; which outlet its field
    /// names is drawn when the box has all its EXITs.
    pub(super) fn exit(&mut self) {
        self.left -= EXIT_ROWS;
        self.rows.push(record(EXIT, &[0]));
    }
}

/// A FUNCTION record whose fields hold, of so many ticks or more.
pub(super) fn random_function(random: &mut Random, item_kinds: &[u16], least: u16) -> Vec<u8> {
    let use_percent = random.pick(&[10, 25, 50, 95], 50);
    function_of_uses(random, item_kinds, use_percent, least)
}

/// The same with each item used so many times in a hundred.
fn function_of_uses(
    random: &mut Random,
    item_kinds: &[u16],
    use_percent: usize,
    least: u16,
) -> Vec<u8> {
    let (alpha, beta) = match random.below(8) {
        0 => (0, 0),
        1 => (random.between(0, 9), u16::MAX),
        2 => (u16::MAX, u16::MAX),
        3 => {
            let beta = random.word();
            (random.between(0, beta), beta)
        }
        _ => {
            let beta = random.between(0, 9);
            (random.between(0, beta), beta)
        }
    };
    let mut uses = Vec::new();
    for (item, kind) in (0..).zip(item_kinds) {
        if random.chance(use_percent) {
            uses.push(random_use(random, item, *kind));
        }
    }
    function_record(alpha.max(least), beta.max(least), &uses)
}

/// A FUNCTION that gives back what it takes, its ticks in this range: just a part
/// of an hour, as few as may be, few, or any. Some give a trigger that they do
/// not take.
fn lasting_function(
    random: &mut Random,
    item_kinds: &[u16],
    ticks: RangeInclusive<u16>,
) -> Vec<u8> {
    let (least, most) = (*ticks.start(), *ticks.end());
    let (alpha, beta) = match random.below(6) {
        0 | 1 => {
            let part = part_of_hour(random).min(most);
            (part, part)
        }
        2 => (least, least),
        3 => (least, random.between(least, most)),
        4 => {
            let alpha = random.between(least, 9);
            (alpha, random.between(alpha, most))
        }
        _ => {
            let beta = random.between(least, most);
            (random.between(least, beta), beta)
        }
    };
    let mut uses = Vec::new();
    for (item, kind) in (0..).zip(item_kinds) {
        if random.chance(25) {
            let only_gives = *kind == TRIGGER && random.chance(40);
            uses.push([item, u16::from(!only_gives), 1]);
        }
    }
    function_record(alpha, beta, &uses)
}

/// Ticks of which some rounds make an hour, or nearly.
pub(super) fn part_of_hour(random: &mut Random) -> u16 {
    let parts = [
        1, 3_600, 7_200, 9_000, 12_000, 17_999, 18_000, 18_001, 35_999, 36_000, 36_001,
    ];
    random.pick(&parts, 1)
}

fn random_use(random: &mut Random, item: u16, kind: u16) -> [u16; 3] {
    if kind == TRIGGER {
        let (take, give) = random.pick(&[(1, 0), (0, 1), (1, 1)], (1, 1));
        return [item, take, give];
    }
    let (take, give) = if random.chance(5) {
        (random.word(), random.word())
    } else {
        (random.between(0, 2), random.between(0, 2))
    };
    [item, take, give.max(u16::from(take == 0))]
}

/// A diagram file that something was done to; a few are still accepted.
pub fn damaged_diagram(random: &mut Random) -> Vec<u8> {
    let mut damaged = match random.below(100) {
        0 => crowded_draft(random),
        1..=12 => killing_draft(random),
        13..=24 => looping_draft(random),
        25..=40 => {
            let leaky = random.chance(40);
            boxed_draft(random, leaky)
        }
        _ => draft(random),
    };
    match random.below(16) {
        0 => random_rows(random, &mut damaged),
        1 => too_deep(random, &mut damaged),
        2 => loop_exit_somewhere(random, &mut damaged),
        3 | 4 => {
            let item_kinds = &damaged.item_kinds;
            damage_records(random, &mut damaged.rows, ROW_KINDS, item_kinds);
        }
        5 => trigger_off_somewhere(random, &mut damaged),
        6 => other_item_kind(random, &mut damaged),
        7 => other_branch_kind(random, &mut damaged),
        8 => empty_killing_branch(random, &mut damaged.rows),
        9 => lose_time(random, &mut damaged.rows),
        10 => timeless_loop_somewhere(random, &mut damaged.rows),
        11 | 12 => damage_boxes(random, &mut damaged.rows),
        _ => {}
    }
    let mut bytes = damaged.file();
    match random.below(8) {
        0..=2 => damage_bytes(random, &mut bytes),
        3 => damage_field(random, &mut bytes),
        4 => {
            let mut records = split_records(&bytes);
            // Kinds behind the last of a row too.
            damage_records(random, &mut records, HEAD..=EXIT + 3, &[]);
            bytes = records.concat();
        }
        _ => {}
    }
    bytes
}

/// Rows of any kinds, END last.
fn random_rows(random: &mut Random, draft: &mut Draft) {
    let count = random.below(12);
    let any_row = |_| random_record(random, ROW_KINDS, &draft.item_kinds);
    draft.rows = (0..count).map(any_row).collect();
    draft.rows.push(record(END, &[]));
}

/// Constructs one in the other and nothing else.
fn too_deep(random: &mut Random, draft: &mut Draft) {
    draft.rows = deep_rows(random);
    draft.rows.push(record(END, &[]));
}

/// 11 to 14 constructs one in the other, some of them boxes in a third, mostly
/// with time spent in the innermost.
fn deep_rows(random: &mut Random) -> Vec<Vec<u8>> {
    let (mut rows, mut closes) = (Vec::new(), Vec::new());
    let depth = usize::from(random.between(11, 14));
    if random.chance(35) {
        return deep_box_rows(random, depth);
    }
    for _ in 0..depth {
        match random.below(4) {
            0 => {
                rows.push(record(AND_OPEN, &[]));
                rows.push(record(BRANCH, &[]));
                closes.push(record(AND_CLOSE, &[]));
                closes.push(record(BRANCH, &[]));
            }
            1 => {
                rows.push(record(OR_OPEN, &[]));
                rows.push(record(BRANCH, &[]));
                closes.push(record(OR_CLOSE, &[]));
                closes.push(record(BRANCH, &[]));
            }
            2 => {
                rows.push(record(IT_OPEN, &[2]));
                closes.push(record(IT_CLOSE, &[]));
            }
            _ => {
                rows.push(record(LP_OPEN, &[]));
                closes.push(record(LP_CLOSE, &[]));
            }
        }
    }
    if random.chance(80) {
        rows.push(random_function(random, &[], 1));
    }
    rows.extend(closes.into_iter().rev());
    rows
}

/// A plain item becomes a trigger, so that a take or give of 2 is too much, or a
/// trigger becomes plain.
fn other_item_kind(random: &mut Random, draft: &mut Draft) {
    let at = random.below(draft.item_kinds.len());
    if let Some(kind) = draft.item_kinds.get_mut(at) {
        *kind = if *kind == ITEM { TRIGGER } else { ITEM };
    }
}

/// A FUNCTION that uses every item, one trigger's take or give above 1; in half
/// of them another field is off too, before it or behind it.
fn trigger_off_somewhere(random: &mut Random, draft: &mut Draft) {
    if draft.item_kinds.is_empty() {
        draft.item_kinds = vec![ITEM; random.below(3) + 1];
        draft.counts = vec![1; draft.item_kinds.len()];
    }
    let trigger = random.below(draft.item_kinds.len());
    draft.item_kinds[trigger] = TRIGGER;
    let mut uses = Vec::new();
    for (item, kind) in (0..).zip(&draft.item_kinds) {
        uses.push(random_use(random, item, *kind));
    }
    let above_one = random.pick(&[2, 2, 2, 3, 256, u16::MAX], 2);
    uses[trigger][1 + random.below(2)] = above_one;
    let mut alpha = 1;
    if random.chance(50) {
        let at = random.below(uses.len());
        match random.below(5) {
            0 => alpha = 3,
            1 => uses[at][0] = uses.len() as u16,
            2 => uses[at][0] = random.word(),
            3 => uses.swap(at, trigger),
            _ => uses[at][1..].fill(0),
        }
    }
    let function = function_record(alpha, 2, &uses);
    let at = random.below(draft.rows.len());
    if draft.rows.len() < MOST_ROWS {
        draft.rows.insert(at, function);
    } else {
        draft.rows[at] = function;
    }
}

/// An LE at any place.
fn loop_exit_somewhere(random: &mut Random, draft: &mut Draft) {
    let at = random.below(draft.rows.len() + 1);
    draft.rows.insert(at, record(LOOP_EXIT, &[]));
}

/// Puts a row in; where there is no room another one goes.
fn put_row(random: &mut Random, rows: &mut Vec<Vec<u8>>, at: usize, kind: u16) {
    put_record(random, rows, at, record(kind, &[]));
}

pub(super) fn put_record(random: &mut Random, rows: &mut Vec<Vec<u8>>, at: usize, row: Vec<u8>) {
    if rows.len() >= MOST_ROWS {
        rows.remove(random.below(rows.len()));
    }
    let at = at.min(rows.len());
    rows.insert(at, row);
}

/// Numbers of the rows whose kind is one of these.
pub(super) fn rows_of(rows: &[Vec<u8>], is_one: impl Fn(u16) -> bool) -> Vec<usize> {
    let rows = rows.iter().enumerate();
    let found = rows.filter(|(_, row)| is_one(word(row, 1)));
    found.map(|(number, _)| number).collect()
}

/// Some BRANCH rows, of an AND or OR, become killing ones or the other way
/// round; seldom the last row becomes one.
fn other_branch_kind(random: &mut Random, draft: &mut Draft) {
    for at in rows_of(&draft.rows, is_branch) {
        if random.chance(30) {
            let kind = BRANCH + KILLING_BRANCH - word(&draft.rows[at], 1);
            draft.rows[at] = record(kind, &[]);
        }
    }
    if random.chance(10) {
        draft.rows.pop();
        draft.rows.push(record(KILLING_BRANCH, &[]));
    }
}

/// A killing branch with nothing in it; in half of them something else is off
/// too, before it or behind it.
fn empty_killing_branch(random: &mut Random, rows: &mut Vec<Vec<u8>>) {
    let at = put_empty_killing_branch(random, rows);
    match random.below(8) {
        0..=3 => another_fault(random, rows),
        // Around it an AND of no other branch.
        4 => {
            put_row(random, rows, at + 1, AND_CLOSE);
            put_row(random, rows, at, AND_OPEN);
        }
        _ => {}
    }
}

/// Puts a killing branch with nothing in it before a BRANCH or close; its row.
fn put_empty_killing_branch(random: &mut Random, rows: &mut Vec<Vec<u8>>) -> usize {
    let ends = rows_of(rows, |kind| is_branch(kind) || kind == AND_CLOSE);
    let at = random.pick(&ends, 0);
    put_row(random, rows, at, KILLING_BRANCH);
    at
}

/// An LE or a killing branch put in at any place, or a row left out.
fn another_fault(random: &mut Random, rows: &mut Vec<Vec<u8>>) {
    let at = random.below(rows.len());
    match random.below(4) {
        0 | 1 => put_row(random, rows, at, LOOP_EXIT),
        2 => drop(rows.remove(at)),
        _ => put_row(random, rows, at, KILLING_BRANCH),
    }
}

/// A loop that spends no time; in two of three something else is off too, before
/// it or behind it.
fn timeless_loop_somewhere(random: &mut Random, rows: &mut Vec<Vec<u8>>) {
    put_timeless_loop(random, rows);
    match random.below(6) {
        0 | 1 => another_fault(random, rows),
        2 => {
            put_empty_killing_branch(random, rows);
        }
        3 => {
            let deep = deep_rows(random);
            if rows.len() + deep.len() <= MOST_ROWS {
                let at = random.below(rows.len());
                rows.splice(at..at, deep);
            }
        }
        _ => {}
    }
}
