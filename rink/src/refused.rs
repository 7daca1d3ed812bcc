//! The proved reader's refusals in words: which record or row is meant, and why.
//!
//! The verdict is the reader's. What is said here explains it to a mechanic, and is never asked whether a file is right.

use crate::boxes::{self, Boxed};
use crate::plant::{records, Function, Part, Plant, Record, Use, TRIGGER};
use crate::structure::{self, open_before, Frame};
use effbd::{refusal, Refusal};

/// What a refusal of a file names.
#[derive(Clone, Copy, PartialEq, Eq, Debug)]
pub enum Subject {
    Head,
    Item(usize),
    Row(usize),
    /// Bytes behind the last record.
    Behind,
}

/// A refusal of a file: what it names, where that stands, and why it was refused.
#[derive(Clone, PartialEq, Eq, Debug)]
pub struct Found {
    pub refusal: Refusal,
    pub subject: Subject,
    pub offset: usize,
    why: String,
}

impl Found {
    /// Why, with the number of the refusal.
    pub fn words(&self) -> String {
        with_number(&self.why, self.refusal)
    }

    /// Where: the row or record and its offset.
    pub fn place(&self) -> String {
        format!("{}, offset {}", numbered(self.subject), self.offset)
    }
}

/// Why something was refused, with the refusal's number and what that means.
pub fn with_number(why: &str, refusal: Refusal) -> String {
    format!("{why} (refusal {}, {})", refusal.number, refusal.words())
}

/// How a reader of a file calls its items and rows: by their numbers.
pub fn numbered(subject: Subject) -> String {
    match subject {
        Subject::Head => "the head".to_string(),
        Subject::Item(item) => format!("item {item}"),
        Subject::Row(row) => format!("row {row}"),
        Subject::Behind => "behind the last record".to_string(),
    }
}

/// What a refusal of this file says; `named` is how its reader calls an item or a row, such as `row 3`.
pub fn find(file: &[u8], refusal: Refusal, named: impl Fn(Subject) -> String) -> Found {
    let records = records(file);
    let items = records
        .first()
        .map_or(0, |head| usize::from(field(head, 2)));
    let (index, offset) = if nesting(refusal) {
        let index = 1 + items + refusal.value as usize;
        (
            index,
            records.get(index).map_or(file.len(), |row| row.offset),
        )
    } else {
        let offset = refusal.value as usize;
        let index = records.iter().take_while(|record| record.offset < offset);
        (index.count(), offset)
    };
    let subject = match index {
        _ if refusal.number == refusal::BYTES_AFTER_LAST => Subject::Behind,
        0 => Subject::Head,
        _ if index <= items => Subject::Item(index - 1),
        _ => Subject::Row(index - 1 - items),
    };
    let rest = &file[offset.min(file.len())..];
    let why = match (refusal.number, records.get(index)) {
        (refusal::CUT_SHORT, _) => cut_short(rest),
        (refusal::BYTES_AFTER_LAST, _) => {
            format!("{} bytes stand behind the last record", rest.len())
        }
        (refusal::KIND_NOT_DUE | refusal::LENGTH_WRONG, _) => shape_words(rest, subject, refusal),
        (refusal::HEAD_VALUE_OFF, Some(head)) => head_words(head),
        (refusal::FIELD_OFF, Some(record)) => field_words(record, items, named),
        (refusal::TRIGGER_OFF, Some(record)) => trigger_words(record, &records[1..], named),
        _ if nesting(refusal) => nesting_words(&Plant::of_records(&records), refusal, named),
        _ => String::new(),
    };
    Found {
        refusal,
        subject,
        offset,
        why: if why.is_empty() {
            refusal.words().to_string()
        } else {
            why
        },
    }
}

/// Whether the refusal's value is a row.
fn nesting(refusal: Refusal) -> bool {
    matches!(
        refusal.number,
        refusal::NESTING_BROKEN
            | refusal::KILLING_BRANCH_EMPTY
            | refusal::LOOP_EXIT_MISPLACED
            | refusal::TOO_MANY_OPEN
            | refusal::LOOP_SPENDS_NO_TIME
            | refusal::BOX_EXIT_MISPLACED
            | refusal::OUTLETS_UNMATCHED
            | refusal::SCENARIO_FALLS_THROUGH
    )
}

fn field(record: &Record, index: usize) -> u16 {
    record.fields.get(index).copied().unwrap_or(0)
}

fn cut_short(rest: &[u8]) -> String {
    let left = rest.len();
    match rest {
        [] => "the file ends where a record is due".to_string(),
        [low, high, _, _, ..] => {
            let length = u16::from_le_bytes([*low, *high]);
            format!("the record has {length} bytes, and only {left} are left")
        }
        _ => format!("a record is due, and only {left} bytes are left"),
    }
}

/// Why a record was refused for its kind or length.
fn shape_words(bytes: &[u8], subject: Subject, refusal: Refusal) -> String {
    let [length_low, length_high, kind_low, kind_high, ..] = *bytes else {
        return String::new();
    };
    let kind = u16::from_le_bytes([kind_low, kind_high]);
    let length = u16::from_le_bytes([length_low, length_high]);
    if refusal.number == refusal::LENGTH_WRONG {
        return format!("{length} bytes are no length of a record of kind {kind}");
    }
    let due = match subject {
        Subject::Head => "the head, kind 1,",
        Subject::Item(_) => "an item, kind 2, or a trigger, kind 3,",
        _ => "a row",
    };
    format!("a record of kind {kind} stands where {due} is due")
}

/// Why a row was refused for its fields.
fn field_words(record: &Record, items: usize, named: impl Fn(Subject) -> String) -> String {
    match Part::of(record) {
        Some(Part::Function(function)) => function_words(&function, items, named),
        Some(Part::Repeat { count }) => {
            format!("it repeats {count} times: 2 to 255 are allowed")
        }
        _ => String::new(),
    }
}

/// Which use of a trigger takes or gives too much: the lowest; `items` are the records behind the head.
fn trigger_words(record: &Record, items: &[Record], named: impl Fn(Subject) -> String) -> String {
    let Some(Part::Function(Function { uses, .. })) = Part::of(record) else {
        return String::new();
    };
    let trigger = |item: u16| items.get(usize::from(item)).map(|item| item.kind) == Some(TRIGGER);
    let above = |used: &&Use| trigger(used.item) && used.take.max(used.give) > 1;
    let Some(used) = uses.iter().find(above) else {
        return String::new();
    };
    let item = named(Subject::Item(usize::from(used.item)));
    let (way, amount) = match used.take {
        2.. => ("takes", used.take),
        _ => ("gives", used.give),
    };
    format!("it {way} {amount} of {item}: of a trigger 1 is the most")
}

fn head_words(head: &Record) -> String {
    let (edition, rows, items) = (field(head, 0), field(head, 1), field(head, 2));
    let (most_rows, most_items) = (effbd::MOST_ROWS, effbd::MOST_ITEMS);
    if edition != 1 {
        format!("edition {edition}: only edition 1 is known")
    } else if usize::from(items) > most_items {
        format!("{items} items: at most {most_items} are allowed")
    } else if rows == 0 {
        format!("no row: a plant has 1 to {most_rows} rows, the last of them `end`")
    } else {
        format!("{rows} rows: at most {most_rows} are allowed")
    }
}

fn function_words(function: &Function, items: usize, named: impl Fn(Subject) -> String) -> String {
    let Function {
        shortest,
        longest,
        uses,
    } = function;
    if shortest > longest {
        return format!("the shortest time, {shortest} ticks, is above the longest, {longest}");
    }
    let mut before = None;
    for used in uses {
        let item = used.item;
        if usize::from(item) >= items {
            return format!("it uses item {item}, and there is no such item");
        }
        if before >= Some(item) {
            return format!(
                "it uses item {item} behind item {}: items rise",
                before.unwrap_or(0)
            );
        }
        if (used.take, used.give) == (0, 0) {
            let item = named(Subject::Item(usize::from(item)));
            return format!("it takes 0 and gives 0 of {item}: one of them is 1 or more");
        }
        before = Some(item);
    }
    String::new()
}

/// Why a row may not stand where it does; the rows before it nest well, and where a loop or box is refused all of them do.
fn nesting_words(plant: &Plant, refusal: Refusal, named: impl Fn(Subject) -> String) -> String {
    let row = refusal.value as usize;
    let Some(found) = plant.rows.get(row) else {
        return String::new();
    };
    let keyword = found.part.keyword();
    let open = open_before(plant, row);
    let innermost = open.last().map(|frame| frame.open);
    let around = around_words(plant, innermost, &named);
    match refusal.number {
        refusal::TOO_MANY_OPEN => "a 13th construct would be open here: at most 12 are".to_string(),
        refusal::LOOP_EXIT_MISPLACED => loop_exit_words(plant, row, &open, &around, named),
        refusal::BOX_EXIT_MISPLACED => box_exit_words(plant, row, &open, &around),
        refusal::KILLING_BRANCH_EMPTY => {
            format!("nothing stands in this `{keyword}`, so nothing could end and kill: put the function that trips behind it, or write `branch`")
        }
        refusal::LOOP_SPENDS_NO_TIME => {
            let (_, close) = structure::run_from(plant, row + 1);
            let end = named(Subject::Row(close));
            format!("no function between this `{keyword}` and the `end loop` of {end} has a shortest time of 0.1 s or more, so a way round it would spend no time: put one in, or raise a shortest time")
        }
        refusal::OUTLETS_UNMATCHED => {
            let boxed = boxes::all(plant).into_iter();
            let boxed = boxed.filter(|boxed| boxed.open == row);
            let words = boxed.map(|boxed| unmatched_words(plant, &boxed, &named));
            words.collect()
        }
        refusal::SCENARIO_FALLS_THROUGH => falling_words(plant, row, named),
        _ => misplaced_words(plant, row, open.last(), &around),
    }
}

/// Why a row may not follow the rows before it.
fn misplaced_words(plant: &Plant, row: usize, innermost: Option<&Frame>, around: &str) -> String {
    let part = &plant.rows[row].part;
    let keyword = part.keyword();
    let open = innermost.map(|frame| &plant.rows[frame.open].part);
    let branches = innermost.map_or(0, |frame| frame.branches);
    match part {
        _ if row > 0 && needs_branch(&plant.rows[row - 1].part) && !part.is_branch() => {
            format!(
                "`{keyword}` right behind `{}`: a `branch` is due",
                plant.rows[row - 1].part.keyword()
            )
        }
        Part::End if open.is_none() => "`end` stands before the last row".to_string(),
        Part::End => format!("`end` stands where a construct is still open: {around}"),
        branch if branch.is_branch() && !open.is_some_and(|open| open.may_branch(branch)) => {
            branch_words(branch, open, around)
        }
        close if close.closes() && open.is_none_or(|open| closed_by(open) != *close) => {
            format!("`{keyword}` closes nothing: {around}")
        }
        Part::EndAnd | Part::EndOr if branches == 1 => {
            format!("`{keyword}` after one branch: two or more are due")
        }
        Part::EndBox if branches == 1 => {
            format!("`{keyword}` after one outlet: two or more are due")
        }
        Part::EndBox if branches == 0 => {
            format!("`{keyword}` without an outlet: two or more are due")
        }
        _ if row + 1 == plant.rows.len() => {
            format!("the last row is `{keyword}`: it has to be `end`")
        }
        _ => format!("`{keyword}` may not follow the rows before it"),
    }
}

/// What is open around a row.
pub fn around_words(
    plant: &Plant,
    innermost: Option<usize>,
    named: impl Fn(Subject) -> String,
) -> String {
    innermost.map_or("nothing is open here".to_string(), |open| {
        format!(
            "the innermost open construct is the `{}` of {}",
            plant.rows[open].part.keyword(),
            named(Subject::Row(open))
        )
    })
}

/// Why a branch may not stand in the innermost open construct, or in none.
pub fn branch_words(branch: &Part, innermost: Option<&Part>, around: &str) -> String {
    let keyword = branch.keyword();
    let belongs = match branch {
        Part::Outlet => format!("an `{keyword}` belongs to a `box`"),
        Part::Branch { kills: true } => format!("a `{keyword}` belongs to an `and`"),
        _ => format!("a `{keyword}` belongs to an `and` or `or`"),
    };
    let instead = match (branch, innermost) {
        (Part::Branch { kills: true }, Some(Part::Or)) => {
            ": one branch of it runs alone and has no others to kill, write `branch`"
        }
        (Part::Branch { .. }, Some(Part::Box)) => {
            ": behind its scenario stand outlets, write `outlet` and a name"
        }
        (Part::Outlet, Some(Part::And | Part::Or)) => ": close it before, or write `branch`",
        _ => "",
    };
    format!("{belongs}, and {around}{instead}")
}

fn needs_branch(part: &Part) -> bool {
    matches!(part, Part::And | Part::Or)
}

/// The close of a construct.
fn closed_by(open: &Part) -> Part {
    match open {
        Part::And => Part::EndAnd,
        Part::Or => Part::EndOr,
        Part::Loop => Part::EndLoop,
        Part::Box => Part::EndBox,
        _ => Part::EndRepeat,
    }
}

/// Why an LE may not stand here.
fn loop_exit_words(
    plant: &Plant,
    row: usize,
    open: &[Frame],
    around: &str,
    named: impl Fn(Subject) -> String,
) -> String {
    let part = |frame: &Frame| &plant.rows[frame.open].part;
    let is_loop = |frame: &&Frame| *part(frame) == Part::Loop;
    let Some(left) = open.iter().rev().find(is_loop) else {
        return "`exit loop` stands in no loop".to_string();
    };
    if let Some(boxed) = boxes::scenario(plant, open).filter(|boxed| boxed.open > left.open) {
        let [left, boxed] = [left, boxed].map(|frame| named(Subject::Row(frame.open)));
        return format!("the `loop` of {left} is outside the `box` of {boxed}, whose scenario this `exit loop` stands in: leave the box with `exit to` first");
    }
    if !open.last().is_some_and(|frame| needs_branch(part(frame))) {
        return format!("`exit loop` stands at the end of a branch, and {around}");
    }
    follows_words(plant, row, "its branch")
}

/// Why an EXIT may not stand here.
fn box_exit_words(plant: &Plant, row: usize, open: &[Frame], around: &str) -> String {
    let part = |frame: &Frame| &plant.rows[frame.open].part;
    if boxes::scenario(plant, open).is_none() {
        return match open.iter().any(|frame| *part(frame) == Part::Box) {
            true => {
                "`exit to` leaves a box out of its scenario, and this one stands behind an `outlet`"
                    .to_string()
            }
            false => "`exit to` stands in no box".to_string(),
        };
    }
    match open.last().map(part) {
        Some(Part::Repeat { .. } | Part::Loop) => {
            format!("`exit to` stands at the end of a branch or of its scenario, and {around}")
        }
        _ => follows_words(plant, row, "its branch or scenario"),
    }
}

/// That a row which leaves something is not the last one there.
fn follows_words(plant: &Plant, row: usize, last_of: &str) -> String {
    let keyword = plant.rows[row].part.keyword();
    let next = plant.rows.get(row + 1);
    let next = next.map_or("nothing", |next| next.part.keyword());
    format!("`{keyword}` is the last row of {last_of}, and `{next}` follows")
}

/// Which EXIT has no outlet, or which outlet two EXITs or none: the first of these that is found.
fn unmatched_words(plant: &Plant, boxed: &Boxed, named: impl Fn(Subject) -> String) -> String {
    let line = |row: usize| named(Subject::Row(row));
    let count = boxed.outlets.len();
    let unknown = boxed.exits.iter().find_map(|&exit| {
        let Part::ExitTo { outlet } = plant.rows[exit].part else {
            return None;
        };
        let words = format!(
            "the `exit to` of {} leads to outlet {outlet}, and this `box` has {count} of them, numbered from 0",
            line(exit)
        );
        (usize::from(outlet) >= count).then_some(words)
    });
    let exits = |number: usize| boxed.exits_to(plant, number);
    let shared = (0..count).find_map(|number| match exits(number)[..] {
        [first, second, ..] => Some(format!(
            "the `exit to` of {} and that of {} lead to the same outlet, that of {}: each outlet has one",
            line(first),
            line(second),
            line(boxed.outlets[number])
        )),
        _ => None,
    });
    let missed = (0..count).find(|number| exits(*number).is_empty());
    let missed = missed.map(|number| {
        let outlet = line(boxed.outlets[number]);
        format!("no `exit to` in the scenario of this `box` leads to its outlet of {outlet}: each outlet has one")
    });
    unknown.or(shared).or(missed).unwrap_or_default()
}

/// Where a scenario falls through.
fn falling_words(plant: &Plant, open: usize, named: impl Fn(Subject) -> String) -> String {
    let (scenario, _) = structure::run_from(plant, open + 1);
    let Some(row) = boxes::falls_behind(plant, open, &scenario) else {
        return String::new();
    };
    let (keyword, line) = (plant.rows[row].part.keyword(), named(Subject::Row(row)));
    format!("the scenario of this `box` comes to its end behind the `{keyword}` of {line}, and nothing leads from there to an outlet: put an `exit to` there")
}
