//! Diagram files: "Diagram records" (refusals 1 to 6) and "Nesting" (7 to 9);
//! document 02's requests 2, "Triggers reach everyone" (43), 3, "Branches that
//! kill" (44), 4, "Loops that spend no time" (45), and 7, "Boxes that open" (48
//! to 50).

use crate::records::{
    record, word, Reader, Record, AND_CLOSE, AND_OPEN, BOX_CLOSE, BOX_OPEN, BRANCH, END, EXIT,
    FUNCTION, HEAD, ITEM, IT_CLOSE, IT_OPEN, KILLING_BRANCH, LOOP_EXIT, LP_CLOSE, LP_OPEN,
    OR_CLOSE, OR_OPEN, TRIGGER, USE_LENGTH,
};
use crate::refusal::{
    refusal, Answer, Refusal, BOX_EXIT_MISPLACED, FIELD_OFF, HEAD_VALUE_OFF, KILLING_BRANCH_EMPTY,
    LOOP_EXIT_MISPLACED, LOOP_SPENDS_NO_TIME, NESTING_BROKEN, OUTLETS_UNMATCHED,
    SCENARIO_FALLS_THROUGH, TOO_MANY_OPEN, TRIGGER_OFF,
};
use std::ops::{Range, RangeInclusive};

pub const EDITION: u16 = 1;
pub const MOST_ROWS: usize = 64;
pub const MOST_ITEMS: usize = 16;
/// Kinds of rows.
pub const ROW_KINDS: RangeInclusive<u16> = FUNCTION..=EXIT;
/// "At most 12 open together."
pub const MOST_OPEN: usize = 12;

/// An accepted diagram.
pub struct Diagram<'a> {
    pub items: Vec<Item>,
    pub rows: Vec<Row<'a>>,
    /// Every AND, OR, IT, LP and box, in the order of their opens.
    pub constructs: Vec<Construct>,
}

/// An item, with its initial count.
#[derive(Clone, PartialEq, Eq, Debug)]
pub enum Item {
    /// "One count, whoever takes from it."
    Plain(u16),
    /// "A count for each FUNCTION row taking it, each starting at the initial
    /// count."
    Trigger { count: u16, receivers: Receivers },
}

/// The rows that take a trigger, rising, and the word of the first one's copy
/// in the state; the others' follow.
#[derive(Clone, Default, PartialEq, Eq, Debug)]
pub struct Receivers {
    pub rows: Vec<usize>,
    first_word: usize,
}

/// A row, with the index of the construct that it opens, parts or closes.
#[derive(Clone, Copy, Debug)]
pub enum Row<'a> {
    Function(Function<'a>),
    AndOpen(usize),
    /// "Row 28 is a BRANCH of an AND that kills."
    AndBranch {
        construct: usize,
        kills: bool,
    },
    AndClose(usize),
    OrOpen(usize),
    OrBranch(usize),
    OrClose(usize),
    ItOpen {
        construct: usize,
        count: u16,
    },
    ItClose(usize),
    LpOpen(usize),
    LpClose(usize),
    /// LE, with its loop: "the innermost open LP".
    LoopExit(usize),
    /// "Row 29 opens" a box.
    BoxOpen(usize),
    /// A BRANCH of a box, one of "its outlets".
    Outlet(usize),
    /// "Row 30 closes it."
    BoxClose(usize),
    /// EXIT, with its box, "the innermost whose scenario it is in", and the
    /// outlet that its field names.
    Exit {
        construct: usize,
        outlet: usize,
    },
    End,
}

/// A FUNCTION's fields.
#[derive(Clone, Copy, Debug)]
pub struct Function<'a> {
    pub alpha: u16,
    pub beta: u16,
    /// The uses, the very bytes of the file.
    pub uses: &'a [u8],
}

/// One use of a FUNCTION.
#[derive(Clone, Copy, Debug)]
pub struct Use {
    pub item: usize,
    pub take: u16,
    pub give: u16,
}

impl Function<'_> {
    /// The uses, by rising item.
    pub fn each_use(&self) -> impl Iterator<Item = Use> + '_ {
        self.uses.chunks_exact(USE_LENGTH).map(|bytes| Use {
            item: usize::from(word(bytes, 0)),
            take: word(bytes, 1),
            give: word(bytes, 2),
        })
    }
}

/// An AND, OR, IT, LP or box, by its rows.
#[derive(Clone, Debug)]
pub struct Construct {
    /// Kind of its open.
    pub kind: u16,
    pub open: usize,
    pub close: usize,
    /// BRANCH rows of an AND or OR; of a box "its outlets, numbered upward, the
    /// first 0".
    pub branches: Vec<usize>,
}

impl Construct {
    /// Rows strictly inside it, the BRANCH rows included.
    pub fn inside(&self) -> Range<usize> {
        self.open + 1..self.close
    }

    /// Rows of an accepted box "from 29 to before the first outlet's BRANCH".
    pub fn box_and_scenario(&self) -> Range<usize> {
        self.open..self.branches[0]
    }

    /// The run of an accepted box's scenario.
    fn scenario(&self) -> Range<usize> {
        self.open + 1..self.branches[0]
    }

    /// The run of each branch with its BRANCH row.
    fn runs(&self) -> impl Iterator<Item = (usize, Range<usize>)> + '_ {
        let ends = self.branches.iter().skip(1).chain([&self.close]);
        let runs = self.branches.iter().zip(ends);
        runs.map(|(branch, end)| (*branch, branch + 1..*end))
    }

    fn is_and_or_or(&self) -> bool {
        self.kind == AND_OPEN || self.kind == OR_OPEN
    }

    fn is_box(&self) -> bool {
        self.kind == BOX_OPEN
    }

    /// While it is open: a box none of whose outlets has come yet, so that a row
    /// here is its scenario's.
    fn is_in_scenario(&self) -> bool {
        self.is_box() && self.branches.is_empty()
    }

    fn close_kind(&self) -> u16 {
        match self.kind {
            AND_OPEN => AND_CLOSE,
            OR_OPEN => OR_CLOSE,
            IT_OPEN => IT_CLOSE,
            BOX_OPEN => BOX_CLOSE,
            _ => LP_CLOSE,
        }
    }
}

impl Diagram<'_> {
    /// Words of its state: activity, turns and clock per row, the items' counts,
    /// then "the copies follow the items, by item and then row".
    pub fn state_length(&self) -> usize {
        let copies: usize = self.receivers().map(|receivers| receivers.rows.len()).sum();
        self.item_word(self.items.len()) + copies
    }

    /// Word of an item's count in the state, of a trigger the shared one that
    /// remains 0; also its place in the net.
    pub fn item_word(&self, item: usize) -> usize {
        3 * self.rows.len() + item
    }

    /// Word of the count that a row's take of an item is from, a receiver's own
    /// copy of a trigger; also its place in the net.
    pub fn taken_word(&self, item: usize, row: usize) -> usize {
        match &self.items[item] {
            Item::Plain(_) => self.item_word(item),
            Item::Trigger { receivers, .. } => {
                let before = receivers.rows.partition_point(|receiver| *receiver < row);
                receivers.first_word + before
            }
        }
    }

    /// Words of the counts that a give of an item adds to, of a trigger all the
    /// copies; also their places in the net.
    pub fn given_words(&self, item: usize) -> Range<usize> {
        match &self.items[item] {
            Item::Plain(_) => self.item_word(item)..self.item_word(item) + 1,
            Item::Trigger { receivers, .. } => {
                receivers.first_word..receivers.first_word + receivers.rows.len()
            }
        }
    }

    /// Initial counts of the items and copies, as they stand in the state.
    pub fn initial_counts(&self) -> Vec<u16> {
        let mut counts = Vec::with_capacity(self.state_length() - 3 * self.rows.len());
        for item in &self.items {
            counts.push(match item {
                Item::Plain(count) => *count,
                Item::Trigger { .. } => 0,
            });
        }
        for item in &self.items {
            if let Item::Trigger { count, receivers } = item {
                counts.resize(counts.len() + receivers.rows.len(), *count);
            }
        }
        counts
    }

    fn receivers(&self) -> impl Iterator<Item = &Receivers> {
        self.items.iter().filter_map(|item| match item {
            Item::Plain(_) => None,
            Item::Trigger { receivers, .. } => Some(receivers),
        })
    }

    /// Finds the rows that take each trigger and the words of their copies.
    fn add_receivers(&mut self) {
        for (number, row) in self.rows.iter().enumerate() {
            let Row::Function(function) = row else {
                continue;
            };
            for used in function.each_use().filter(|used| used.take > 0) {
                if let Item::Trigger { receivers, .. } = &mut self.items[used.item] {
                    receivers.rows.push(number);
                }
            }
        }
        let mut next_word = self.item_word(self.items.len());
        for item in &mut self.items {
            if let Item::Trigger { receivers, .. } = item {
                receivers.first_word = next_word;
                next_word += receivers.rows.len();
            }
        }
    }

    /// What entering row s changes: the BRANCH row of the branch just ended for a
    /// BRANCH or close of an AND, or all of the AND if that branch kills; the OR
    /// close for a BRANCH or close of an OR, and row 30 likewise for "a box's
    /// BRANCH or row 30"; otherwise s. (The first BRANCH of an AND is never
    /// entered.)
    pub fn entered(&self, row: usize) -> Entered<'_> {
        match self.rows[row] {
            Row::AndBranch { construct, .. } | Row::AndClose(construct) => {
                let and = &self.constructs[construct];
                let ended = and.branches.iter().rev().find(|branch| **branch < row);
                let ended = ended.copied().unwrap_or(row);
                match self.rows[ended] {
                    Row::AndBranch { kills: true, .. } => Entered::Kill(and),
                    _ => Entered::Row(ended),
                }
            }
            Row::OrBranch(construct)
            | Row::OrClose(construct)
            | Row::Outlet(construct)
            | Row::BoxClose(construct) => Entered::Row(self.constructs[construct].close),
            _ => Entered::Row(row),
        }
    }
}

/// What entering a row changes.
pub enum Entered<'a> {
    /// One row, which becomes done if it is a BRANCH of an AND, otherwise ready.
    Row(usize),
    /// The rows strictly inside this AND, a killing branch of which has ended.
    Kill(&'a Construct),
}

/// Reads a diagram file; accepted: words of its state.
pub fn read(file: &[u8]) -> Answer {
    let diagram = parse(file)?;
    Ok(diagram.state_length() as u32)
}

/// "The uses of one FUNCTION row are handed back as the very bytes of the
/// caller's file; for a refused file or another row, an empty part at the
/// file's start."
pub fn uses(file: &[u8], row: u16) -> &[u8] {
    let nothing = &file[..0];
    match parse(file) {
        Ok(diagram) => match diagram.rows.get(usize::from(row)) {
            Some(Row::Function(function)) => function.uses,
            _ => nothing,
        },
        Err(_) => nothing,
    }
}

/// Start and size of the uses of one row, in bytes of the file.
pub fn uses_place(file: &[u8], row: u16) -> (usize, usize) {
    let part = uses(file, row);
    (part.as_ptr().addr() - file.as_ptr().addr(), part.len())
}

/// Head, items, rows, nothing behind them; then the nesting of the rows; then
/// boxes and the loops' time.
pub fn parse(file: &[u8]) -> Result<Diagram<'_>, Refusal> {
    let mut reader = Reader::new(file);
    let head = reader.due(|kind| kind == HEAD, 0)?;
    let (row_count, item_count) = (usize::from(head.field(1)), usize::from(head.field(2)));
    head.require(
        head.field(0) == EDITION
            && (1..=MOST_ROWS).contains(&row_count)
            && item_count <= MOST_ITEMS,
        HEAD_VALUE_OFF,
    )?;
    let mut items = Vec::with_capacity(item_count);
    for _ in 0..item_count {
        items.push(item(&mut reader)?);
    }
    let mut records = Vec::with_capacity(row_count);
    for _ in 0..row_count {
        records.push(row_record(&mut reader, &items)?);
    }
    if !reader.at_end() {
        return Err(reader.refuse_more());
    }
    let (rows, constructs) = nest(&records)?;
    let mut diagram = Diagram {
        items,
        rows,
        constructs,
    };
    diagram.judge_boxes()?;
    diagram.judge_loops()?;
    diagram.add_receivers();
    Ok(diagram)
}

/// An item; who takes a trigger only the rows tell.
fn item(reader: &mut Reader) -> Result<Item, Refusal> {
    let record = reader.due(|kind| kind == ITEM || kind == TRIGGER, 0)?;
    let count = record.field(0);
    Ok(match record.kind {
        TRIGGER => Item::Trigger {
            count,
            receivers: Receivers::default(),
        },
        _ => Item::Plain(count),
    })
}

/// A row's record with its fields checked: 5, then 43.
fn row_record<'a>(reader: &mut Reader<'a>, items: &[Item]) -> Result<Record<'a>, Refusal> {
    let record = reader.due(|kind| ROW_KINDS.contains(&kind), items.len())?;
    match record.kind {
        FUNCTION => {
            let function = function_fields(&record);
            record.require(function_holds(&function, items.len()), FIELD_OFF)?;
            record.require(triggers_hold(&function, items), TRIGGER_OFF)?;
        }
        IT_OPEN => record.require((2..=255).contains(&record.field(0)), FIELD_OFF)?,
        _ => {}
    }
    Ok(record)
}

fn function_fields<'a>(record: &Record<'a>) -> Function<'a> {
    Function {
        alpha: record.field(0),
        beta: record.field(1),
        uses: record.fields.get(4..).unwrap_or_default(),
    }
}

/// "α ≤ β, item numbers below M and rising, take and give not both 0."
fn function_holds(function: &Function, item_count: usize) -> bool {
    let mut lowest_item = 0;
    for used in function.each_use() {
        if used.item < lowest_item || used.item >= item_count || (used.take, used.give) == (0, 0) {
            return false;
        }
        lowest_item = used.item + 1;
    }
    function.alpha <= function.beta
}

/// No "trigger's take or give above 1", in uses whose items there are.
fn triggers_hold(function: &Function, items: &[Item]) -> bool {
    function.each_use().all(|used| match items[used.item] {
        Item::Plain(_) => true,
        Item::Trigger { .. } => used.take <= 1 && used.give <= 1,
    })
}

/// Rows and constructs; "rows upward, at a row 7, 8, 9", 44 "between 7 and 8", 48
/// "after 8".
fn nest<'a>(records: &[Record<'a>]) -> Result<(Vec<Row<'a>>, Vec<Construct>), Refusal> {
    let mut nesting = Nesting {
        open: [0; MOST_OPEN],
        depth: 0,
        constructs: Vec::new(),
    };
    let mut rows = Vec::with_capacity(records.len());
    for (number, record) in records.iter().enumerate() {
        let next_kind = records.get(number + 1).map(|next| next.kind);
        rows.push(nesting.row(number, record, next_kind)?);
    }
    Ok((rows, nesting.constructs))
}

/// The constructs met so far; the first `depth` of `open` are the indices of
/// those still open, the innermost last.
struct Nesting {
    open: [usize; MOST_OPEN],
    depth: usize,
    constructs: Vec<Construct>,
}

impl Nesting {
    /// The next row, if it may follow the rows before it.
    fn row<'a>(
        &mut self,
        number: usize,
        record: &Record<'a>,
        next_kind: Option<u16>,
    ) -> Result<Row<'a>, Refusal> {
        let broken = refusal(NESTING_BROKEN, number);
        // "END is the last row only"; "a last row other than END".
        if (record.kind == END) != next_kind.is_none() {
            return Err(broken);
        }
        // "AND open and OR open are followed by BRANCH at once."
        if self.awaits_branch() && !is_branch(record.kind) {
            return Err(broken);
        }
        Ok(match record.kind {
            FUNCTION => Row::Function(function_fields(record)),
            AND_OPEN => Row::AndOpen(self.open(number, AND_OPEN)?),
            OR_OPEN => Row::OrOpen(self.open(number, OR_OPEN)?),
            IT_OPEN => Row::ItOpen {
                construct: self.open(number, IT_OPEN)?,
                count: record.field(0),
            },
            LP_OPEN => Row::LpOpen(self.open(number, LP_OPEN)?),
            BOX_OPEN => Row::BoxOpen(self.open(number, BOX_OPEN)?),
            BRANCH => self.branch(number, false).ok_or(broken)?,
            KILLING_BRANCH => {
                let branch = self.branch(number, true).ok_or(broken)?;
                if self.ends_branch(next_kind) {
                    return Err(refusal(KILLING_BRANCH_EMPTY, number));
                }
                branch
            }
            AND_CLOSE => Row::AndClose(self.close(number, AND_CLOSE).ok_or(broken)?),
            OR_CLOSE => Row::OrClose(self.close(number, OR_CLOSE).ok_or(broken)?),
            IT_CLOSE => Row::ItClose(self.close(number, IT_CLOSE).ok_or(broken)?),
            LP_CLOSE => Row::LpClose(self.close(number, LP_CLOSE).ok_or(broken)?),
            BOX_CLOSE => Row::BoxClose(self.close(number, BOX_CLOSE).ok_or(broken)?),
            LOOP_EXIT => {
                let misplaced = refusal(LOOP_EXIT_MISPLACED, number);
                Row::LoopExit(self.loop_exit(next_kind).ok_or(misplaced)?)
            }
            EXIT => {
                let misplaced = refusal(BOX_EXIT_MISPLACED, number);
                Row::Exit {
                    construct: self.exit(next_kind).ok_or(misplaced)?,
                    outlet: usize::from(record.field(0)),
                }
            }
            // END, the one kind left: "with nothing open".
            _ if self.depth == 0 => Row::End,
            _ => return Err(broken),
        })
    }

    fn still_open(&self) -> &[usize] {
        &self.open[..self.depth]
    }

    fn innermost(&self) -> Option<&Construct> {
        self.still_open()
            .last()
            .map(|index| &self.constructs[*index])
    }

    /// Those still open with their indices, the innermost first.
    fn outward(&self) -> impl Iterator<Item = (usize, &Construct)> {
        let indices = self.still_open().iter().rev();
        indices.map(|index| (*index, &self.constructs[*index]))
    }

    fn awaits_branch(&self) -> bool {
        self.innermost()
            .is_some_and(|inner| inner.is_and_or_or() && inner.branches.is_empty())
    }

    /// Opens a construct, unless 12 are open.
    fn open(&mut self, row: usize, kind: u16) -> Result<usize, Refusal> {
        if self.depth == MOST_OPEN {
            return Err(refusal(TOO_MANY_OPEN, row));
        }
        let index = self.constructs.len();
        self.open[self.depth] = index;
        self.depth += 1;
        self.constructs.push(Construct {
            kind,
            open: row,
            close: row,
            branches: Vec::new(),
        });
        Ok(index)
    }

    /// "A BRANCH needs an innermost open AND or OR", or box; one that kills an
    /// AND, "in an OR it is 7", as an outlet too.
    fn branch<'a>(&mut self, row: usize, kills: bool) -> Option<Row<'a>> {
        let index = *self.still_open().last()?;
        let construct = &mut self.constructs[index];
        let branch = match construct.kind {
            AND_OPEN => Row::AndBranch {
                construct: index,
                kills,
            },
            OR_OPEN if !kills => Row::OrBranch(index),
            BOX_OPEN if !kills => Row::Outlet(index),
            _ => return None,
        };
        construct.branches.push(row);
        Some(branch)
    }

    /// The next row is a BRANCH or the innermost construct's close.
    fn ends_branch(&self, next_kind: Option<u16>) -> bool {
        let close_kind = self.innermost().map(Construct::close_kind);
        next_kind.is_some_and(is_branch) || next_kind == close_kind
    }

    /// "A close needs its own kind innermost"; an AND or OR "has two BRANCH
    /// rows or more", and a box has "two or more".
    fn close(&mut self, row: usize, kind: u16) -> Option<usize> {
        let index = *self.still_open().last()?;
        let construct = &mut self.constructs[index];
        if construct.close_kind() != kind {
            return None;
        }
        let has_branches = construct.is_and_or_or() || construct.is_box();
        if has_branches && construct.branches.len() < 2 {
            return None;
        }
        construct.close = row;
        self.depth -= 1;
        Some(index)
    }

    /// "An LE needs an innermost open AND or OR, some open LP, and a BRANCH or
    /// that construct's close as next row." Its loop, if it has all this, which
    /// "must lie in the LE's own scenario": no other scenario's border between.
    fn loop_exit(&self, next_kind: Option<u16>) -> Option<usize> {
        if !self.innermost()?.is_and_or_or() || !self.ends_branch(next_kind) {
            return None;
        }
        let mut in_own_scenario = self
            .outward()
            .take_while(|(_, each)| !each.is_in_scenario());
        let found = in_own_scenario.find(|(_, each)| each.kind == LP_OPEN);
        found.map(|(index, _)| index)
    }

    /// "EXIT belongs to the innermost box whose scenario it is in." None where
    /// there is no such box, "or innermost open construct IT or LP, or next row not
    /// BRANCH or that construct's close".
    fn exit(&self, next_kind: Option<u16>) -> Option<usize> {
        let innermost = self.innermost()?.kind;
        if innermost == IT_OPEN || innermost == LP_OPEN || !self.ends_branch(next_kind) {
            return None;
        }
        let found = self.outward().find(|(_, each)| each.is_in_scenario());
        found.map(|(index, _)| index)
    }
}

impl Diagram<'_> {
    /// 49, then 50, "each at its lowest box, after the walk and before 45".
    fn judge_boxes(&self) -> Result<(), Refusal> {
        let constructs = self.constructs.iter().enumerate();
        let boxes = constructs.filter(|(_, each)| each.is_box());
        for (index, each) in boxes.clone() {
            if !self.is_one_to_one(index) {
                return Err(refusal(OUTLETS_UNMATCHED, each.open));
            }
        }
        for (_, each) in boxes {
            if self.falls_through(each.scenario()) {
                return Err(refusal(SCENARIO_FALLS_THROUGH, each.open));
            }
        }
        Ok(())
    }

    /// A box's "outlets and EXIT rows" are one to one: each outlet is named once,
    /// and none that there is not.
    fn is_one_to_one(&self, index: usize) -> bool {
        let found = &self.constructs[index];
        let mut is_named = vec![false; found.branches.len()];
        for row in &self.rows[found.scenario()] {
            match row {
                Row::Exit { construct, outlet } if *construct == index => {
                    match is_named.get_mut(*outlet) {
                        Some(named) if !*named => *named = true,
                        _ => return false,
                    }
                }
                _ => {}
            }
        }
        !is_named.contains(&false)
    }

    /// "A run falls through unless its last construct is EXIT, LE, LP (one that no
    /// LE leaves), an OR none of whose branches fall through, or an AND with one
    /// that doesn't and no killing branch that does." An empty one has no last
    /// construct. The last construct's last row tells which it is.
    fn falls_through(&self, run: Range<usize>) -> bool {
        match self.rows[run].last() {
            Some(Row::Exit { .. } | Row::LoopExit(_)) => false,
            Some(Row::LpClose(index)) => self.is_left(*index),
            Some(Row::OrClose(index)) => {
                let mut runs = self.constructs[*index].runs();
                runs.any(|(_, run)| self.falls_through(run))
            }
            Some(Row::AndClose(index)) => self.and_falls_through(&self.constructs[*index]),
            _ => true,
        }
    }

    /// All branches fall through, or a killing one does.
    fn and_falls_through(&self, and: &Construct) -> bool {
        let mut all_fall = true;
        for (branch, run) in and.runs() {
            let falls = self.falls_through(run);
            if falls && matches!(self.rows[branch], Row::AndBranch { kills: true, .. }) {
                return true;
            }
            all_fall &= falls;
        }
        all_fall
    }

    /// Some LE leaves this LP.
    fn is_left(&self, index: usize) -> bool {
        let mut inside = self.rows[self.constructs[index].inside()].iter();
        inside.any(|row| matches!(row, Row::LoopExit(left) if *left == index))
    }

    /// 45 at the lowest "LP with no FUNCTION of α at least 1 between open and
    /// close", at any depth.
    fn judge_loops(&self) -> Result<(), Refusal> {
        let mut loops = self.constructs.iter().filter(|each| each.kind == LP_OPEN);
        match loops.find(|lp| !self.rows[lp.inside()].iter().any(spends_time)) {
            Some(timeless) => Err(refusal(LOOP_SPENDS_NO_TIME, timeless.open)),
            None => Ok(()),
        }
    }
}

fn spends_time(row: &Row) -> bool {
    matches!(row, Row::Function(function) if function.alpha >= 1)
}

/// A row that kills counts "as a next row as any BRANCH".
pub fn is_branch(kind: u16) -> bool {
    kind == BRANCH || kind == KILLING_BRANCH
}

/// A diagram file of plain items with these initial counts, and row records.
pub fn file(counts: &[u16], rows: &[Vec<u8>]) -> Vec<u8> {
    let items: Vec<Vec<u8>> = counts.iter().map(|count| record(ITEM, &[*count])).collect();
    file_of(&items, rows)
}

/// A diagram file of these item and row records.
pub fn file_of(items: &[Vec<u8>], rows: &[Vec<u8>]) -> Vec<u8> {
    let head_fields = [EDITION, rows.len() as u16, items.len() as u16];
    let mut bytes = record(HEAD, &head_fields);
    bytes.extend(items.iter().flatten());
    bytes.extend(rows.iter().flatten());
    bytes
}

/// A FUNCTION record; each use is item, take, give.
pub fn function_record(alpha: u16, beta: u16, uses: &[[u16; 3]]) -> Vec<u8> {
    let mut fields = vec![alpha, beta];
    fields.extend(uses.iter().flatten());
    record(FUNCTION, &fields)
}
