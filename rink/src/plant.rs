//! A plant: the items and rows of a diagram file with their names.
//!
//! Its bytes are judged by the proved reader alone. Here they are only written ([`Plant::file`]) and, once accepted, taken apart
//! ([`Plant::read`]).

use crate::boxes;
use effbd::Refusal;

/// What a row of a diagram is, with its fields.
#[derive(Clone, PartialEq, Eq, Debug)]
pub enum Part {
    Function(Function),
    And,
    /// One that kills stands in an AND: when it ends, the other branches end too.
    Branch {
        kills: bool,
    },
    EndAnd,
    Or,
    EndOr,
    Repeat {
        count: u16,
    },
    EndRepeat,
    Loop,
    EndLoop,
    ExitLoop,
    Box,
    /// A BRANCH of a box.
    Outlet,
    EndBox,
    /// EXIT, by the outlet of this number.
    ExitTo {
        outlet: u16,
    },
    End,
}

/// A FUNCTION: its shortest and longest time in ticks (α and β), and its uses by rising items.
#[derive(Clone, PartialEq, Eq, Debug)]
pub struct Function {
    pub shortest: u16,
    pub longest: u16,
    pub uses: Vec<Use>,
}

/// What a FUNCTION takes from an item as it starts and gives to it as it ends.
#[derive(Clone, Copy, PartialEq, Eq, Debug)]
pub struct Use {
    pub item: u16,
    pub take: u16,
    pub give: u16,
}

/// An item, with its initial count. A trigger has that count for each FUNCTION that takes it.
#[derive(Clone, PartialEq, Eq, Debug)]
pub struct Item {
    pub name: String,
    pub count: u16,
    pub trigger: bool,
}

/// A count of a plant as it runs.
#[derive(Clone, Copy, PartialEq, Eq, Debug)]
pub enum Count {
    /// An item's, whoever takes of it; a trigger's stays 0.
    Item(usize),
    /// A trigger's copy for one FUNCTION that takes it.
    Copy { item: usize, row: usize },
}

/// A row. A FUNCTION and an outlet always have a name; AND, OR, their branches, IT, LP and boxes may have one; other rows never do.
#[derive(Clone, PartialEq, Eq, Debug)]
pub struct Row {
    pub part: Part,
    pub name: Option<String>,
}

/// A diagram with names. `title` is the plant's own.
#[derive(Clone, PartialEq, Eq, Debug, Default)]
pub struct Plant {
    pub title: Option<String>,
    pub items: Vec<Item>,
    pub rows: Vec<Row>,
}

const EDITION: u16 = 1;
const HEAD: u16 = 1;
const ITEM: u16 = 2;
pub const TRIGGER: u16 = 3;
const FUNCTION: u16 = 16;
const REPEAT: u16 = 22;
const EXIT: u16 = 31;

/// The rows whose records have no fields, with their kinds. BRANCH has two parts: where it stands says which.
const PLAIN: [(u16, Part); 14] = [
    (17, Part::And),
    (18, Part::Branch { kills: false }),
    (18, Part::Outlet),
    (19, Part::EndAnd),
    (20, Part::Or),
    (21, Part::EndOr),
    (23, Part::EndRepeat),
    (24, Part::Loop),
    (25, Part::EndLoop),
    (26, Part::ExitLoop),
    (27, Part::End),
    (28, Part::Branch { kills: true }),
    (29, Part::Box),
    (30, Part::EndBox),
];

/// A record of a file: where it stands, its kind and its fields.
#[derive(Clone, PartialEq, Eq, Debug)]
pub struct Record {
    pub offset: usize,
    pub kind: u16,
    pub fields: Vec<u16>,
}

/// The records of a file, as their lengths say, up to the first that is not whole.
pub fn records(file: &[u8]) -> Vec<Record> {
    let words = |bytes: &[u8]| -> Vec<u16> {
        bytes
            .chunks_exact(2)
            .map(|pair| u16::from_le_bytes([pair[0], pair[1]]))
            .collect()
    };
    let mut found = Vec::new();
    let mut offset = 0;
    while let Some(head) = file.get(offset..offset + 4) {
        let head = words(head);
        let length = usize::from(head[0]);
        let Some(fields) = file.get(offset + 4..offset + length) else {
            break;
        };
        found.push(Record {
            offset,
            kind: head[1],
            fields: words(fields),
        });
        offset += length;
    }
    found
}

/// The bytes of a record; `None` where its length passes 16 bits.
fn record(kind: u16, fields: &[u16]) -> Option<Vec<u8>> {
    let length = u16::try_from(4 + 2 * fields.len()).ok()?;
    let words = [&[length, kind], fields].concat();
    Some(words.iter().flat_map(|word| word.to_le_bytes()).collect())
}

impl Count {
    pub fn is_copy(self) -> bool {
        matches!(self, Count::Copy { .. })
    }
}

impl Item {
    fn kind(&self) -> u16 {
        if self.trigger {
            TRIGGER
        } else {
            ITEM
        }
    }

    /// What it is; so the text writes it.
    pub fn keyword(&self) -> &'static str {
        if self.trigger {
            "trigger"
        } else {
            "item"
        }
    }

    /// The item that a record of a right file says, still without a name; `None` for a record that is none.
    fn of(record: &Record) -> Option<Item> {
        let item = Item {
            name: String::new(),
            count: record.fields.first().copied().unwrap_or(0),
            trigger: record.kind == TRIGGER,
        };
        matches!(record.kind, ITEM | TRIGGER).then_some(item)
    }
}

impl Part {
    fn kind(&self) -> u16 {
        match self {
            Part::Function(_) => FUNCTION,
            Part::Repeat { .. } => REPEAT,
            Part::ExitTo { .. } => EXIT,
            plain => {
                let found = PLAIN.iter().find(|(_, part)| part == plain);
                found
                    .expect("every part of a record without fields is listed")
                    .0
            }
        }
    }

    fn fields(&self) -> Vec<u16> {
        match self {
            Part::Function(function) => {
                let uses = function.uses.iter();
                let uses = uses.flat_map(|used| [used.item, used.take, used.give]);
                [function.shortest, function.longest]
                    .into_iter()
                    .chain(uses)
                    .collect()
            }
            Part::Repeat { count } => vec![*count],
            Part::ExitTo { outlet } => vec![*outlet],
            _ => Vec::new(),
        }
    }

    /// The part that a record of a right file says, of a BRANCH one that is no outlet; `None` for a record that is no row.
    pub fn of(record: &Record) -> Option<Part> {
        match (record.kind, record.fields.as_slice()) {
            (FUNCTION, [shortest, longest, uses @ ..]) => {
                let uses = uses.chunks_exact(3).map(|used| Use {
                    item: used[0],
                    take: used[1],
                    give: used[2],
                });
                Some(Part::Function(Function {
                    shortest: *shortest,
                    longest: *longest,
                    uses: uses.collect(),
                }))
            }
            (REPEAT, [count]) => Some(Part::Repeat { count: *count }),
            (EXIT, [outlet]) => Some(Part::ExitTo { outlet: *outlet }),
            (kind, _) => {
                let found = PLAIN.iter().find(|(plain, _)| *plain == kind);
                found.map(|(_, part)| part.clone())
            }
        }
    }

    /// Whether it opens a construct.
    pub fn opens(&self) -> bool {
        matches!(
            self,
            Part::And | Part::Or | Part::Repeat { .. } | Part::Loop | Part::Box
        )
    }

    /// Whether it closes one.
    pub fn closes(&self) -> bool {
        matches!(
            self,
            Part::EndAnd | Part::EndOr | Part::EndRepeat | Part::EndLoop | Part::EndBox
        )
    }

    /// Whether it begins a branch; an outlet is one.
    pub fn is_branch(&self) -> bool {
        matches!(self, Part::Branch { .. } | Part::Outlet)
    }

    /// Whether a branch of it may begin so: an OR's never kills, a box's are outlets.
    pub fn may_branch(&self, branch: &Part) -> bool {
        match self {
            Part::And => matches!(branch, Part::Branch { .. }),
            Part::Or => *branch == Part::Branch { kills: false },
            Part::Box => *branch == Part::Outlet,
            _ => false,
        }
    }

    /// Whether the text has a name for it always, and one is made up where there is no text.
    pub fn is_named(&self) -> bool {
        matches!(self, Part::Function(_) | Part::Outlet)
    }

    /// Whether it may have a name.
    pub fn may_be_named(&self) -> bool {
        self.is_named() || self.opens() || self.is_branch()
    }

    /// Whether nothing is entered behind it: it leaves its loop or its box.
    pub fn leaves(&self) -> bool {
        matches!(self, Part::ExitLoop | Part::ExitTo { .. })
    }

    /// How the text writes it, without name and fields; of an EXIT without its outlet.
    pub fn keyword(&self) -> &'static str {
        match self {
            Part::Function(_) => "function",
            Part::And => "and",
            Part::Branch { kills: false } => "branch",
            Part::Branch { kills: true } => "killing branch",
            Part::EndAnd => "end and",
            Part::Or => "or",
            Part::EndOr => "end or",
            Part::Repeat { .. } => "repeat",
            Part::EndRepeat => "end repeat",
            Part::Loop => "loop",
            Part::EndLoop => "end loop",
            Part::ExitLoop => "exit loop",
            Part::Box => "box",
            Part::Outlet => "outlet",
            Part::EndBox => "end box",
            Part::ExitTo { .. } => "exit to",
            Part::End => "end",
        }
    }
}

impl Plant {
    /// The plant of a file that the proved reader accepts, with made-up names.
    pub fn read(file: &[u8]) -> Result<Plant, Refusal> {
        effbd::read_diagram(file)?;
        Ok(Plant::of_records(&records(file)))
    }

    /// The plant of these records, with made-up names: of those that are items, and those that are rows.
    pub fn of_records(records: &[Record]) -> Plant {
        let items = records.iter().filter_map(Item::of);
        let items = items.enumerate().map(|(number, item)| Item {
            name: format!("{}-{number}", item.keyword()),
            ..item
        });
        let rows = records.iter().filter_map(Part::of);
        let rows = rows.enumerate().map(|(number, part)| {
            let function = matches!(part, Part::Function(_));
            let name = function.then(|| format!("function-{number}"));
            Row { part, name }
        });
        let mut plant = Plant {
            title: None,
            items: items.collect(),
            rows: rows.collect(),
        };
        plant.tell_outlets();
        plant
    }

    /// Makes the BRANCH rows of boxes outlets, each with its number in its box as name.
    fn tell_outlets(&mut self) {
        for boxed in boxes::all(self) {
            for (number, outlet) in boxed.outlets.into_iter().enumerate() {
                self.rows[outlet] = Row {
                    part: Part::Outlet,
                    name: Some(format!("outlet-{number}")),
                };
            }
        }
    }

    /// Its file, as its parts say, right or not; `None` where a number of rows, items or bytes passes 16 bits.
    pub fn file(&self) -> Option<Vec<u8>> {
        let rows = u16::try_from(self.rows.len()).ok()?;
        let items = u16::try_from(self.items.len()).ok()?;
        let mut file = record(HEAD, &[EDITION, rows, items])?;
        for item in &self.items {
            file.extend(record(item.kind(), &[item.count])?);
        }
        for row in &self.rows {
            file.extend(record(row.part.kind(), &row.part.fields())?);
        }
        Some(file)
    }

    /// What a row is called: its name, or its keyword with its number.
    pub fn row_name(&self, row: usize) -> String {
        match &self.rows[row].name {
            Some(name) => name.clone(),
            None => format!("{} (row {row})", self.keyword(row)),
        }
    }

    /// A row's keyword, of an EXIT with its outlet.
    pub fn keyword(&self, row: usize) -> String {
        let part = &self.rows[row].part;
        let keyword = part.keyword();
        match part {
            Part::ExitTo { outlet } => {
                let name = boxes::outlet(self, row).map(|outlet| self.row_name(outlet));
                format!("{keyword} {}", name.unwrap_or(outlet.to_string()))
            }
            _ => keyword.to_string(),
        }
    }

    /// What a row takes of an item as it starts and gives to it as it ends.
    pub fn take_and_give(&self, row: usize, item: usize) -> (u16, u16) {
        let uses: &[Use] = match self.rows.get(row).map(|row| &row.part) {
            Some(Part::Function(function)) => &function.uses,
            _ => &[],
        };
        let used = uses.iter().find(|used| usize::from(used.item) == item);
        used.map_or((0, 0), |used| (used.take, used.give))
    }

    /// The rows that take of an item; of a trigger its receivers.
    pub fn takers(&self, item: usize) -> impl Iterator<Item = usize> + '_ {
        (0..self.rows.len()).filter(move |&row| self.take_and_give(row, item).0 > 0)
    }

    /// The numbers of the triggers among its items.
    pub fn triggers(&self) -> impl Iterator<Item = usize> + '_ {
        (0..self.items.len()).filter(move |&item| self.items[item].trigger)
    }

    /// The copies of a trigger, one for each receiver.
    pub fn copies(&self, item: usize) -> impl Iterator<Item = Count> + '_ {
        self.takers(item).map(move |row| Count::Copy { item, row })
    }

    /// All counts in the order of state and net: the items', then the copies, by item and then row.
    pub fn counts(&self) -> impl Iterator<Item = Count> + '_ {
        let items = (0..self.items.len()).map(Count::Item);
        items.chain(self.triggers().flat_map(|item| self.copies(item)))
    }

    /// What a count is called: `oil`; a copy `door@fan`, or `door@4` where another receiver has that name.
    pub fn count_name(&self, count: Count) -> String {
        let (item, row) = match count {
            Count::Item(item) => return self.items[item].name.clone(),
            Count::Copy { item, row } => (item, row),
        };
        let named = |other: &usize| self.rows[*other].name == self.rows[row].name;
        let row = match self.takers(item).filter(named).count() {
            1 => self.row_name(row),
            _ => row.to_string(),
        };
        format!("{}@{row}", self.items[item].name)
    }
}
