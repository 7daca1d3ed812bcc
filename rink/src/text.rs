//! A plant as a text table: one item, trigger or row a line, with names, indented as it nests.
//!
//! `parse` takes any text apart into parts and lays no rule of the diagram on them: `make` has the proved reader judge their bytes, and
//! shows a refusal at the line whose record or row it names.

use crate::boxes::{self, Boxed};
use crate::plant::{Function, Item, Part, Plant, Row, Use};
use crate::refused::{self, Subject};
use crate::structure;
use crate::times::{self, NoTime};
use std::collections::BTreeMap;
use std::fmt::Write;

/// A place in a text; lines and columns count from 1, columns in letters.
#[derive(Clone, Copy, PartialEq, Eq, Debug)]
pub struct Place {
    pub line: usize,
    pub column: usize,
}

/// What is wrong with a text, in words, and where.
#[derive(Clone, PartialEq, Eq, Debug)]
pub struct Fault {
    pub place: Place,
    pub words: String,
}

impl Fault {
    pub fn at(place: Place, words: impl Into<String>) -> Fault {
        Fault {
            place,
            words: words.into(),
        }
    }

    /// The fault with its line of the text, for a reader's eyes.
    pub fn shown(&self, name: &str, text: &str) -> String {
        let Place { line, column } = self.place;
        let shown = text.lines().nth(line - 1).unwrap_or("");
        // Control characters would reach the terminal.
        let shown = shown.replace(|letter: char| letter.is_control() && letter != '\t', "?");
        let before: String = shown
            .chars()
            .take(column - 1)
            .map(|letter| if letter == '\t' { '\t' } else { ' ' })
            .collect();
        format!(
            "{name}:{line}:{column}: {}\n    {shown}\n    {before}^\n",
            self.words
        )
    }
}

/// A text taken apart: the plant, and the place of each item and row.
#[derive(Clone, PartialEq, Eq, Debug)]
pub struct Parsed {
    pub plant: Plant,
    pub items: Vec<Place>,
    pub rows: Vec<Place>,
    /// Of each EXIT row the outlet that it names.
    exits: BTreeMap<usize, Named>,
    /// Behind the last line.
    pub end: Place,
}

/// A name, and where it stands.
#[derive(Clone, PartialEq, Eq, Debug)]
struct Named {
    place: Place,
    name: String,
}

/// Letters of a name, at most: longer ones would not fit a drawing.
pub const MOST_LETTERS: usize = 40;

/// The words that a line begins with.
const FIRST_WORDS: &str =
    "plant, item, trigger, function, and, or, branch, killing branch, repeat, loop, exit loop, box, outlet, exit to, end and, end or, end repeat, end loop, end box, end";

/// The bytes of a text's plant, accepted by the proved reader, and the plant.
pub fn make(text: &str) -> Result<(Vec<u8>, Plant), Fault> {
    let parsed = parse(text)?;
    let Some(file) = parsed.plant.file() else {
        let words = "more items, rows or uses than a file can count";
        return Err(Fault::at(parsed.end, words));
    };
    match effbd::read_diagram(&file) {
        Ok(_) => Ok((file, parsed.plant)),
        Err(refusal) => {
            let found = refused::find(&file, refusal, |subject| parsed.named(subject));
            let place = parsed.place_of(found.subject);
            Err(Fault::at(place, found.words()))
        }
    }
}

impl Parsed {
    /// The line of what a refusal names. The head has none: too many items or rows are shown at the first too many.
    fn place_of(&self, subject: Subject) -> Place {
        let place = match subject {
            Subject::Head if self.items.len() > effbd::MOST_ITEMS => {
                self.items.get(effbd::MOST_ITEMS)
            }
            Subject::Head => self.rows.get(effbd::MOST_ROWS),
            Subject::Item(item) => self.items.get(item),
            Subject::Row(row) => self.rows.get(row),
            Subject::Behind => None,
        };
        place.copied().unwrap_or(self.end)
    }

    /// How the text's writer calls it: an item by its name, all else by its line.
    fn named(&self, subject: Subject) -> String {
        match subject {
            Subject::Item(item) if item < self.plant.items.len() => {
                let item = &self.plant.items[item];
                format!("{} `{}`", item.keyword(), item.name)
            }
            other => format!("line {}", self.place_of(other).line),
        }
    }
}

/// A text from bytes: UTF-8, without a byte order mark.
pub fn decoded(bytes: &[u8]) -> Result<&str, Fault> {
    match std::str::from_utf8(bytes) {
        Ok(text) => Ok(text.strip_prefix('\u{feff}').unwrap_or(text)),
        Err(fault) => {
            let right = std::str::from_utf8(&bytes[..fault.valid_up_to()]).unwrap_or("");
            let column = right.rsplit('\n').next().unwrap_or("").chars().count() + 1;
            let line = right.matches('\n').count() + 1;
            let words = "this byte is no letter of a text in UTF-8";
            Err(Fault::at(Place { line, column }, words))
        }
    }
}

/// The items and rows that a text lists.
pub fn parse(text: &str) -> Result<Parsed, Fault> {
    let lines = text.lines().count();
    let mut parsed = Parsed {
        plant: Plant::default(),
        items: Vec::new(),
        rows: Vec::new(),
        exits: BTreeMap::new(),
        end: Place {
            line: lines.max(1),
            column: text.lines().last().unwrap_or("").chars().count() + 1,
        },
    };
    for (number, line) in text.lines().enumerate() {
        let mut words = Words::of(line, number + 1)?;
        if words.peek().is_some() {
            parsed.line(&mut words)?;
            words.done()?;
        }
    }
    // Too many rows are told first, by the reader.
    if parsed.rows.len() <= effbd::MOST_ROWS {
        parsed.branches_are_called_right()?;
        parsed.number_exits()?;
    }
    Ok(parsed)
}

impl Parsed {
    /// Adds what a line says.
    fn line(&mut self, words: &mut Words) -> Result<(), Fault> {
        let first = words.next("")?;
        let part = match first.text {
            "plant" => return self.title(first.place, words),
            "item" | "trigger" => return self.item(first, words),
            "function" => return self.function(first.place, words),
            "and" => Part::And,
            "or" => Part::Or,
            "branch" => Part::Branch { kills: false },
            // Behind `branch` any word is its name: what kills is said before it.
            "killing" => two_words(Part::Branch { kills: true }, "what kills", words)?,
            "repeat" => Part::Repeat {
                count: words.number("how often it repeats, such as `repeat 3`")?,
            },
            "loop" => Part::Loop,
            "exit" => return self.exit(first.place, words),
            "box" => Part::Box,
            "outlet" => return self.outlet(first.place, words),
            "end" => ended(words)?,
            other => {
                let words = format!(
                    "`{other}` is no beginning of a line; a line begins with {FIRST_WORDS}"
                );
                return Err(Fault::at(first.place, words));
            }
        };
        let name = match part.may_be_named() {
            true => words.optional_name()?,
            false => None,
        };
        self.row(first.place, part, name);
        Ok(())
    }

    fn row(&mut self, place: Place, part: Part, name: Option<String>) {
        self.plant.rows.push(Row { part, name });
        self.rows.push(place);
    }

    fn outlet(&mut self, place: Place, words: &mut Words) -> Result<(), Fault> {
        let name = words.next("the outlet's name, such as `outlet trip`")?;
        self.row(place, Part::Outlet, Some(name.name()?));
        Ok(())
    }

    /// An LE, or an EXIT, whose outlet stands further down: its number is found when all lines are read.
    fn exit(&mut self, place: Place, words: &mut Words) -> Result<(), Fault> {
        const KNOWN: &str = "`exit loop`, or `exit to` with an outlet's name";
        let left = words.next(&format!("what is left: {KNOWN}"))?;
        let part = match left.text {
            "loop" => Part::ExitLoop,
            "to" => {
                let outlet = words.next("the outlet's name, such as `exit to trip`")?;
                let named = Named {
                    place: outlet.place,
                    name: outlet.name()?,
                };
                self.exits.insert(self.rows.len(), named);
                Part::ExitTo { outlet: 0 }
            }
            other => {
                let words = format!("`exit {other}`: known are {KNOWN}");
                return Err(Fault::at(left.place, words));
            }
        };
        self.row(place, part, None);
        Ok(())
    }

    /// That outlets stand in boxes, and other branches do not: their bytes are the same, so that the reader cannot tell.
    fn branches_are_called_right(&self) -> Result<(), Fault> {
        let mut wrong = None;
        structure::walk(&self.plant, |row, open| {
            let innermost = open.last().map(|frame| frame.open);
            let in_box = innermost.is_some_and(|open| self.plant.rows[open].part == Part::Box);
            let part = &self.plant.rows[row].part;
            let is_wrong = match part {
                Part::Branch { kills: false } => in_box,
                Part::Outlet => !in_box,
                _ => false,
            };
            if is_wrong && wrong.is_none() {
                let around = refused::around_words(&self.plant, innermost, |at| self.named(at));
                let open = innermost.map(|open| &self.plant.rows[open].part);
                let words = refused::branch_words(part, open, &around);
                wrong = Some(Fault::at(self.rows[row], words));
            }
        });
        wrong.map_or(Ok(()), Err)
    }

    /// Gives each EXIT the number of the outlet that it names. One that is in no scenario is left to the reader.
    fn number_exits(&mut self) -> Result<(), Fault> {
        for boxed in boxes::all(&self.plant) {
            self.outlets_differ(&boxed)?;
            for exit in &boxed.exits {
                let outlet = self.outlet_of(*exit, &boxed)?;
                self.plant.rows[*exit].part = Part::ExitTo { outlet };
            }
        }
        Ok(())
    }

    fn outlets_differ(&self, boxed: &Boxed) -> Result<(), Fault> {
        let name = |outlet: &usize| &self.plant.rows[*outlet].name;
        let twice = boxed.outlets.iter().enumerate().find(|(number, outlet)| {
            let mut before = boxed.outlets[..*number].iter();
            before.any(|other| name(other) == name(outlet))
        });
        twice.map_or(Ok(()), |(_, outlet)| {
            let name = self.plant.row_name(*outlet);
            let open = self.named(Subject::Row(boxed.open));
            let words = format!("the `box` of {open} has an outlet `{name}` already");
            Err(Fault::at(self.rows[*outlet], words))
        })
    }

    /// The number of the outlet that an EXIT of this box names.
    fn outlet_of(&self, exit: usize, boxed: &Boxed) -> Result<u16, Fault> {
        let Named { place, name } = &self.exits[&exit];
        let names = boxed.outlets.iter();
        let names: Vec<String> = names.map(|outlet| self.plant.row_name(*outlet)).collect();
        let number = names.iter().position(|outlet| outlet == name);
        number.map(|number| number as u16).ok_or_else(|| {
            let open = self.named(Subject::Row(boxed.open));
            let listed = match names.as_slice() {
                [] => "has none".to_string(),
                names => format!("has {}", names.join(", ")),
            };
            let words = format!("no outlet `{name}`: the `box` of {open} {listed}");
            Fault::at(*place, words)
        })
    }

    fn title(&mut self, place: Place, words: &mut Words) -> Result<(), Fault> {
        if self.plant.title.is_some() {
            return Err(Fault::at(place, "the plant has its name already"));
        }
        self.plant.title = Some(words.rest("the plant's name, such as `plant North rink`")?);
        Ok(())
    }

    /// A plain item or a trigger: its keyword says which.
    fn item(&mut self, keyword: Word, words: &mut Words) -> Result<(), Fault> {
        let what = keyword.text;
        let trigger = what == "trigger";
        let such = match trigger {
            true => "such as `trigger door 0`",
            false => "such as `item oil 3`",
        };
        let named = words.next(&format!("the {what}'s name and count, {such}"))?;
        let name = named.name()?;
        if !self.plant.rows.is_empty() {
            let words = format!("{what}s stand before the first row");
            return Err(Fault::at(keyword.place, words));
        }
        if let Some(other) = self.item_number(&name) {
            let other = match self.plant.items[other].trigger {
                true => "a trigger",
                false => "an item",
            };
            let words = format!("there is {other} `{name}` already");
            return Err(Fault::at(named.place, words));
        }
        let count = words.number(&format!("the {what}'s count, {such}"))?;
        self.plant.items.push(Item {
            name,
            count,
            trigger,
        });
        self.items.push(keyword.place);
        Ok(())
    }

    fn item_number(&self, name: &str) -> Option<usize> {
        self.plant.items.iter().position(|item| item.name == name)
    }

    fn function(&mut self, place: Place, words: &mut Words) -> Result<(), Fault> {
        const SUCH: &str = "the function's name and times, such as `function pump-down 20..50`";
        let name = words.next(SUCH)?.name()?;
        let (shortest, longest) = words.next(SUCH)?.times()?;
        let uses = self.uses(words)?;
        let function = Function {
            shortest,
            longest,
            uses,
        };
        self.row(place, Part::Function(function), Some(name));
        Ok(())
    }

    /// What a function takes and gives, by rising items.
    fn uses(&self, words: &mut Words) -> Result<Vec<Use>, Fault> {
        // Of each item named: its number, and the take and give that were named.
        let mut named: Vec<(usize, [Option<u16>; 2])> = Vec::new();
        while let Some(way) = words.peek() {
            let which = match way.text {
                "take" => 0,
                "give" => 1,
                other => {
                    let words = format!("`{other}` where `take` or `give` is due");
                    return Err(Fault::at(way.place, words));
                }
            };
            words.next("")?;
            let item = self.item_of(words.next("an item and how many, such as `take oil 1`")?)?;
            let amount = words.number("how many, such as `take oil 1`")?;
            let known = named.iter().position(|(other, _)| *other == item);
            let known = known.unwrap_or_else(|| {
                named.push((item, [None; 2]));
                named.len() - 1
            });
            if named[known].1[which].replace(amount).is_some() {
                let words = format!("{} {} stands twice", way.text, self.plant.items[item].name);
                return Err(Fault::at(way.place, words));
            }
        }
        named.sort();
        let uses = named.iter().map(|(item, [take, give])| Use {
            item: *item as u16,
            take: take.unwrap_or(0),
            give: give.unwrap_or(0),
        });
        Ok(uses.collect())
    }

    fn item_of(&self, word: Word) -> Result<usize, Fault> {
        self.item_number(word.text).ok_or_else(|| {
            let items: Vec<&str> = self
                .plant
                .items
                .iter()
                .map(|item| item.name.as_str())
                .collect();
            let listed = if items.is_empty() {
                "no item is listed".to_string()
            } else {
                format!("the items are {}", items.join(", "))
            };
            Fault::at(word.place, format!("no item `{}`: {listed}", word.text))
        })
    }
}

/// The part, if the second word of its keyword follows.
fn two_words(part: Part, what: &str, words: &mut Words) -> Result<Part, Fault> {
    let keyword = part.keyword();
    let (first, second) = keyword.split_once(' ').unwrap_or((keyword, ""));
    let found = words.next(&format!("{what}: `{keyword}`"))?;
    if found.text == second {
        return Ok(part);
    }
    let words = format!("`{first} {}`: only `{keyword}` is known", found.text);
    Err(Fault::at(found.place, words))
}

fn ended(words: &mut Words) -> Result<Part, Fault> {
    let Some(what) = words.peek() else {
        return Ok(Part::End);
    };
    let part = match what.text {
        "and" => Part::EndAnd,
        "or" => Part::EndOr,
        "repeat" => Part::EndRepeat,
        "loop" => Part::EndLoop,
        "box" => Part::EndBox,
        other => {
            let words = format!("`end {other}`: known are end and, end or, end repeat, end loop, end box, and `end` alone for the last row");
            return Err(Fault::at(what.place, words));
        }
    };
    words.next("")?;
    Ok(part)
}

/// A word of a line.
#[derive(Clone, Copy, Debug)]
struct Word<'a> {
    place: Place,
    text: &'a str,
}

impl Word<'_> {
    /// Its text as a name.
    fn name(&self) -> Result<String, Fault> {
        let refused = |words: String| Err(Fault::at(self.place, words));
        if !self.text.starts_with(char::is_alphabetic) {
            return refused(format!(
                "`{}` is no name: a name begins with a letter",
                self.text
            ));
        }
        let fine = |letter: char| letter.is_alphanumeric() || "-_./+&'".contains(letter);
        if let Some(odd) = self.text.chars().find(|letter| !fine(*letter)) {
            return refused(format!(
                "`{odd}` in a name: a name has letters, digits and - _ . / + & '"
            ));
        }
        if self.text.chars().count() > MOST_LETTERS {
            return refused(format!("a name has at most {MOST_LETTERS} letters"));
        }
        Ok(self.text.to_string())
    }

    fn number(&self) -> Result<u16, Fault> {
        let words = match times::ticks(self.text) {
            Ok(number) => return Ok(number),
            Err(NoTime::Long) => format!("{} is too large: 65535 is the most", self.text),
            Err(_) => format!("`{}` is no number", self.text),
        };
        Err(Fault::at(self.place, words))
    }

    /// A time in ticks, or in seconds with an `s` behind.
    fn ticks(&self) -> Result<u16, Fault> {
        let Some(seconds) = self.text.strip_suffix('s') else {
            return self.number();
        };
        let words = match times::ticks_of_seconds(seconds) {
            Ok(ticks) => return Ok(ticks),
            Err(NoTime::Odd) => format!("`{}` is no time", self.text),
            Err(NoTime::Fine) => {
                format!("`{}` is finer than a tick, which is 0.1 s", self.text)
            }
            Err(NoTime::Long) => {
                format!("{} is too long: 6553.5s is the longest time", self.text)
            }
        };
        Err(Fault::at(self.place, words))
    }

    /// Shortest and longest time: `20..50`, `2.0s..5.0s`, or one time for both.
    fn times(&self) -> Result<(u16, u16), Fault> {
        let Some((shortest, longest)) = self.text.split_once("..") else {
            let both = self.ticks()?;
            return Ok((both, both));
        };
        let behind = Place {
            column: self.place.column + shortest.chars().count() + 2,
            ..self.place
        };
        let part = |place, text| Word { place, text }.ticks();
        Ok((part(self.place, shortest)?, part(behind, longest)?))
    }
}

/// The words of a line, from left to right.
struct Words<'a> {
    line: usize,
    text: &'a str,
    /// Columns before `text`.
    passed: usize,
}

impl<'a> Words<'a> {
    /// The words before a comment, which `#` begins.
    fn of(line: &'a str, number: usize) -> Result<Words<'a>, Fault> {
        let control = |letter: char| letter.is_control() && letter != '\t';
        if let Some(column) = line.chars().position(control) {
            let place = Place {
                line: number,
                column: column + 1,
            };
            return Err(Fault::at(
                place,
                "a control character, which a text has not",
            ));
        }
        Ok(Words {
            line: number,
            text: line.split('#').next().unwrap_or(""),
            passed: 0,
        })
    }

    /// The next word, which stays.
    fn peek(&self) -> Option<Word<'a>> {
        let start = self.text.find(|letter: char| !letter.is_whitespace())?;
        let rest = &self.text[start..];
        let length = rest.find(char::is_whitespace).unwrap_or(rest.len());
        let place = Place {
            line: self.line,
            column: self.passed + self.text[..start].chars().count() + 1,
        };
        Some(Word {
            place,
            text: &rest[..length],
        })
    }

    fn pass(&mut self, word: Word<'a>) {
        let column = word.place.column - 1 + word.text.chars().count();
        let passed = column - self.passed;
        let bytes = self.text.chars().take(passed).map(char::len_utf8).sum();
        self.text = &self.text[bytes..];
        self.passed = column;
    }

    /// The place behind the last word.
    fn end(&self) -> Place {
        Place {
            line: self.line,
            column: self.passed + self.text.trim_end().chars().count() + 1,
        }
    }

    /// The next word; where the line ends, a fault that says what is missing.
    fn next(&mut self, missing: &str) -> Result<Word<'a>, Fault> {
        let word = self
            .peek()
            .ok_or_else(|| Fault::at(self.end(), format!("missing: {missing}")))?;
        self.pass(word);
        Ok(word)
    }

    fn number(&mut self, missing: &str) -> Result<u16, Fault> {
        self.next(missing)?.number()
    }

    fn optional_name(&mut self) -> Result<Option<String>, Fault> {
        match self.peek() {
            None => Ok(None),
            Some(_) => Ok(Some(self.next("")?.name()?)),
        }
    }

    /// All words that are left, as they stand.
    fn rest(&mut self, missing: &str) -> Result<String, Fault> {
        let rest = self.text.trim();
        if rest.is_empty() {
            return Err(Fault::at(self.end(), format!("missing: {missing}")));
        }
        self.text = "";
        Ok(rest.to_string())
    }

    fn done(&self) -> Result<(), Fault> {
        match self.peek() {
            None => Ok(()),
            Some(word) => Err(Fault::at(
                word.place,
                format!("`{}` is too much on this line", word.text),
            )),
        }
    }
}

/// How `show` writes times, and whether it tells the rows' numbers.
#[derive(Clone, Copy, Default)]
pub struct Style {
    pub seconds: bool,
    pub numbers: bool,
}

/// The text of a plant; `make` of it gives the plant's bytes.
pub fn show(plant: &Plant, style: Style) -> String {
    let mut text = String::new();
    if let Some(title) = &plant.title {
        let _ = writeln!(text, "plant {title}");
    }
    for line in item_lines(plant) {
        let _ = writeln!(text, "{line}");
    }
    if !text.is_empty() {
        text += "\n";
    }
    for (number, line) in row_lines(plant, style.seconds).iter().enumerate() {
        if style.numbers {
            let _ = writeln!(text, "{line:<60} # row {number}");
        } else {
            let _ = writeln!(text, "{line}");
        }
    }
    text
}

/// The lines of the items, triggers among them.
pub fn item_lines(plant: &Plant) -> Vec<String> {
    let line = |item: &Item| format!("{} {} {}", item.keyword(), item.name, item.count);
    plant.items.iter().map(line).collect()
}

/// The lines of the rows, indented as they nest.
pub fn row_lines(plant: &Plant, seconds: bool) -> Vec<String> {
    let mut indent = 0;
    let mut lines = Vec::new();
    for (number, row) in plant.rows.iter().enumerate() {
        let depth = before(&row.part, indent);
        let line = row_line(plant, number, seconds);
        lines.push(format!("{}{line}", "  ".repeat(depth)));
        indent = behind(&row.part, depth);
    }
    lines
}

/// Where a row stands, if a run at its place stands at `indent`: a branch stands between its construct and its rows, an outlet as its box.
fn before(part: &Part, indent: usize) -> usize {
    match part {
        Part::Branch { .. } => indent.saturating_sub(1),
        Part::EndAnd | Part::EndOr => indent.saturating_sub(2),
        Part::EndRepeat | Part::EndLoop | Part::Outlet | Part::EndBox => indent.saturating_sub(1),
        _ => indent,
    }
}

/// Where a run behind the row stands.
fn behind(part: &Part, depth: usize) -> usize {
    match part {
        Part::And | Part::Or => depth + 2,
        Part::Branch { .. } | Part::Repeat { .. } | Part::Loop | Part::Box | Part::Outlet => {
            depth + 1
        }
        _ => depth,
    }
}

fn row_line(plant: &Plant, number: usize, seconds: bool) -> String {
    let row = &plant.rows[number];
    let mut line = plant.keyword(number);
    if let Part::Repeat { count } = row.part {
        let _ = write!(line, " {count}");
    }
    if let Some(name) = &row.name {
        let _ = write!(line, " {name}");
    }
    if let Part::Function(function) = &row.part {
        let time = |ticks| time_text(ticks, seconds);
        let _ = write!(
            line,
            " {}..{}",
            time(function.shortest),
            time(function.longest)
        );
        line += &uses_text(plant, function);
    }
    line
}

/// A time as the text writes it: in ticks, or in seconds.
pub fn time_text(ticks: u16, seconds: bool) -> String {
    if seconds {
        format!("{}s", times::seconds(u64::from(ticks)))
    } else {
        ticks.to_string()
    }
}

fn uses_text(plant: &Plant, function: &Function) -> String {
    let one = |way: &str, used: &Use, amount: u16| {
        let name = &plant.items[usize::from(used.item)].name;
        (amount > 0).then(|| format!(" {way} {name} {amount}"))
    };
    let takes = function
        .uses
        .iter()
        .filter_map(|used| one("take", used, used.take));
    let gives = function
        .uses
        .iter()
        .filter_map(|used| one("give", used, used.give));
    takes.chain(gives).collect()
}
