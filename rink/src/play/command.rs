//! The commands of the game, as they are typed or stand in a script.

use super::states::Activity;
use super::words::{list_words, row_words};
use crate::plant::{Count, Plant};
use crate::times::{self, digits, NoTime};
use effbd::Move;

/// A command.
#[derive(Clone, PartialEq, Eq, Debug)]
pub enum Command {
    Move(Move),
    /// A move of the list of those accepted now, from 1 on.
    Pick(usize),
    Deliver(Which),
    /// Of this number, or the one that comes next.
    Lose(Option<u32>),
    Delay(Option<u32>),
    /// Of this number, or the last one sent.
    Repeat(Option<u32>),
    Foreign(Option<u32>),
    Resend,
    Noise,
    Auto(bool),
    Show,
    All,
    Moves,
    Log,
    Restart,
    Help,
    Quit,
    Say(String),
    Expect(Expectation),
}

/// Which telegrams are delivered.
#[derive(Clone, Copy, PartialEq, Eq, Debug)]
pub enum Which {
    Next,
    Number(u32),
    All,
}

/// What a lesson expects of the command before, or of both ends.
#[derive(Clone, PartialEq, Eq, Debug)]
pub enum Expectation {
    Accepted,
    /// A telegram, or that of this number.
    Taken(Option<u32>),
    /// Any refusal, or that of this number.
    Refused(Option<u32>),
    /// This transition, by the panel's step or in the controller.
    Fires(usize),
    Agree,
    Behind(u32),
    Row(usize, Activity),
    Count(Count, u16),
}

/// What is wrong with a line, and where, by characters from 1 on.
#[derive(Clone, PartialEq, Eq, Debug)]
pub struct Fault {
    pub column: usize,
    pub words: String,
}

/// What `help` prints.
pub const HELP: &str = "\
moves of the panel
  step NAME        step a row by its name, or by its number: step 4
  wait 20          let 20 ticks pass, a tick is 0.1 s; also: wait 2.0s
  3                make move 3 of the list
telegrams on the bus
  deliver          hand the next telegram to the controller; deliver 3, deliver all
  lose 3           telegram 3 never comes
  delay 3          telegram 3 goes behind the others under way
  repeat 3         telegram 3 goes onto the bus once more
  resend           every telegram that the controller has not taken goes onto the bus once more
  auto on          every telegram is delivered at once; auto off
  noise            bytes that are no telegram reach the controller
  foreign 3        telegram 3, but of another station, reaches the controller
                   without a number: the next one; of repeat and foreign the last one sent
looking
  show, all        both ends and the bus; with every row and place
  moves, log       the moves accepted now; the moves so far
  help             this list
lessons
  say TEXT         prints the text; a line that begins with # prints nothing
  expect WHAT      accepted, taken, taken 3, refused, refused 33, fires 3, agree, behind 2,
                   idle NAME, ready NAME, running NAME, done NAME, count ITEM 4,
                   count TRIGGER@NAME 1: what the trigger has for the row of that name
the game
  restart          both ends fresh, nothing on the bus
  quit             ends the game";

/// A word of a line: where it begins, in bytes and as a column.
#[derive(Clone, Copy)]
struct Word<'a> {
    text: &'a str,
    start: usize,
    column: usize,
}

/// The words of a line that are not read yet.
struct Reader<'a> {
    line: &'a str,
    words: Vec<Word<'a>>,
    next: usize,
}

impl<'a> Reader<'a> {
    fn new(line: &'a str) -> Reader<'a> {
        let mut words = Vec::new();
        let mut start = 0;
        for part in line.split_inclusive(char::is_whitespace) {
            let text = part.trim_end();
            if !text.is_empty() {
                let column = line[..start].chars().count() + 1;
                words.push(Word {
                    text,
                    start,
                    column,
                });
            }
            start += part.len();
        }
        Reader {
            line,
            words,
            next: 0,
        }
    }

    fn peek(&self) -> Option<Word<'a>> {
        self.words.get(self.next).copied()
    }

    fn word(&mut self) -> Option<Word<'a>> {
        let word = self.peek();
        self.next += 1;
        word
    }

    /// Where a word is missing: behind the last one.
    fn end_column(&self) -> usize {
        self.line.trim_end().chars().count() + 1
    }

    /// The next word; a fault that says what should stand there.
    fn needed(&mut self, what: &str) -> Result<Word<'a>, Fault> {
        let column = self.end_column();
        self.word().ok_or_else(|| fault(column, what))
    }

    /// All that is left of the line, as one word.
    fn rest(&mut self, what: &str) -> Result<Word<'a>, Fault> {
        let first = self.needed(what)?;
        self.next = self.words.len();
        Ok(Word {
            text: self.line[first.start..].trim_end(),
            ..first
        })
    }

    /// That nothing is left of the line.
    fn done<T>(&self, read: T) -> Result<T, Fault> {
        match self.peek() {
            None => Ok(read),
            Some(word) => {
                let words = format!("`{}` is too much here", word.text);
                Err(fault(word.column, &words))
            }
        }
    }
}

fn fault(column: usize, words: &str) -> Fault {
    Fault {
        column,
        words: words.to_string(),
    }
}

/// The command of a line; none of an empty line or one that begins with `#`.
pub fn parse(plant: &Plant, line: &str) -> Result<Option<Command>, Fault> {
    let mut reader = Reader::new(line);
    let Some(first) = reader.word() else {
        return Ok(None);
    };
    if first.text.starts_with('#') {
        return Ok(None);
    }
    let command = command(plant, first, &mut reader)?;
    reader.done(Some(command))
}

fn command(plant: &Plant, first: Word, reader: &mut Reader) -> Result<Command, Fault> {
    Ok(match first.text.to_lowercase().as_str() {
        "step" => Command::Move(Move::Step(step_row(plant, reader)?)),
        "wait" => Command::Move(Move::Wait(wait_ticks(reader)?)),
        "deliver" => Command::Deliver(which(reader)?),
        "lose" => Command::Lose(telegram(reader)?),
        "delay" => Command::Delay(telegram(reader)?),
        "repeat" => Command::Repeat(telegram(reader)?),
        "foreign" => Command::Foreign(telegram(reader)?),
        "resend" => Command::Resend,
        "noise" => Command::Noise,
        "auto" => Command::Auto(on_or_off(reader)?),
        "show" => Command::Show,
        "all" => Command::All,
        "moves" => Command::Moves,
        "log" => Command::Log,
        "restart" => Command::Restart,
        "help" | "?" => Command::Help,
        "quit" => Command::Quit,
        "say" => Command::Say(
            reader
                .rest("say what?")
                .map_or("", |word| word.text)
                .to_string(),
        ),
        "expect" => Command::Expect(expectation(plant, reader)?),
        number if digits(number) => Command::Pick(number.parse().unwrap_or(usize::MAX)),
        _ => {
            let words = format!("`{}` is no command; help lists them", first.text);
            return Err(fault(first.column, &words));
        }
    })
}

/// The row of a step: any number, for the panel to judge, or a name.
fn step_row(plant: &Plant, reader: &mut Reader) -> Result<u16, Fault> {
    let word = reader.rest("step which row? its name or its number")?;
    if digits(word.text) {
        return word.text.parse().map_err(|_| {
            let words = format!("`{}` is too large for a row", word.text);
            fault(word.column, &words)
        });
    }
    let row = row_named(plant, word)?;
    u16::try_from(row).map_err(|_| fault(word.column, "the row's number is too large"))
}

/// A name as it is typed, which may stand in quotes.
fn unquoted(text: &str) -> &str {
    let inner = text
        .strip_prefix('"')
        .and_then(|rest| rest.strip_suffix('"'));
    inner.unwrap_or(text)
}

/// Where a name stands among these: just so, or else but for capitals.
fn positions(names: &[impl AsRef<str>], name: &str) -> Vec<usize> {
    let found = |same: &dyn Fn(&str) -> bool| {
        let names = names.iter().enumerate();
        let names = names.filter(|(_, other)| same(other.as_ref()));
        names.map(|(at, _)| at).collect::<Vec<usize>>()
    };
    let exact = found(&|other| other == name);
    let folded = name.to_lowercase();
    if exact.is_empty() {
        found(&|other| other.to_lowercase() == folded)
    } else {
        exact
    }
}

/// The row with this name, or, where rows have none, this keyword.
fn row_named(plant: &Plant, word: Word) -> Result<usize, Fault> {
    row_among(plant, (0..plant.rows.len()).collect(), "row", word)
}

/// The same among these rows; `what` says which they are.
fn row_among(plant: &Plant, rows: Vec<usize>, what: &str, word: Word) -> Result<usize, Fault> {
    let names = rows.iter().map(|&row| {
        let name = plant.rows[row].name.clone();
        name.unwrap_or_else(|| plant.keyword(row))
    });
    let found = positions(&names.collect::<Vec<String>>(), unquoted(word.text));
    match found.as_slice() {
        [at] => Ok(rows[*at]),
        [] => {
            let words = format!("no {what} is called `{}`", word.text);
            Err(fault(word.column, &words))
        }
        several => {
            let rows = several.iter().map(|at| rows[*at].to_string()).collect();
            let rows = list_words(rows);
            let words = format!("rows {rows} are called `{}`: say the number", word.text);
            Err(fault(word.column, &words))
        }
    }
}

/// A row by number or name, which must be there.
fn row(plant: &Plant, reader: &mut Reader) -> Result<usize, Fault> {
    let word = reader.rest("which row? its name or its number")?;
    if !digits(word.text) {
        return row_named(plant, word);
    }
    let row = word.text.parse().ok();
    row.filter(|&row: &usize| row < plant.rows.len())
        .ok_or_else(|| {
            let last = row_words(plant, plant.rows.len() - 1);
            let words = format!("there is no row {}: the last is {last}", word.text);
            fault(word.column, &words)
        })
}

const WAIT_HOW: &str = "wait how long? ticks (wait 20) or seconds (wait 2.0s)";

/// `20`, `20 ticks`, `2.0s`, `2.0 s`.
fn wait_ticks(reader: &mut Reader) -> Result<u16, Fault> {
    let word = reader.needed(WAIT_HOW)?;
    let (number, unit) = match word.text.strip_suffix('s') {
        Some(number) => (number, "s"),
        None => (word.text, ""),
    };
    let unit = match reader.peek() {
        Some(next) if unit.is_empty() && matches!(next.text, "s" | "tick" | "ticks") => {
            reader.next += 1;
            next.text
        }
        _ => unit,
    };
    let ticks = match unit {
        "s" => times::ticks_of_seconds(number),
        _ => times::ticks(number),
    };
    ticks.map_err(|why| {
        let words = match why {
            NoTime::Long => format!("one wait has at most {} ticks (6553.5 s)", u16::MAX),
            _ => format!("`{}` is no time: {WAIT_HOW}; a tick is 0.1 s", word.text),
        };
        fault(word.column, &words)
    })
}

fn which(reader: &mut Reader) -> Result<Which, Fault> {
    if reader.peek().is_some_and(|word| word.text == "all") {
        reader.next += 1;
        return Ok(Which::All);
    }
    Ok(telegram(reader)?.map_or(Which::Next, Which::Number))
}

/// A telegram's number, if there is one.
fn telegram(reader: &mut Reader) -> Result<Option<u32>, Fault> {
    match reader.word() {
        None => Ok(None),
        Some(word) => number(word, "telegram's number").map(Some),
    }
}

fn number<T: std::str::FromStr>(word: Word, what: &str) -> Result<T, Fault> {
    let number = Some(word.text).filter(|text| digits(text));
    let number = number.and_then(|text| text.parse().ok());
    number.ok_or_else(|| {
        let words = format!("`{}` is no {what}", word.text);
        fault(word.column, &words)
    })
}

fn on_or_off(reader: &mut Reader) -> Result<bool, Fault> {
    let word = reader.needed("auto on, or auto off?")?;
    match word.text {
        "on" => Ok(true),
        "off" => Ok(false),
        _ => Err(fault(word.column, "auto on, or auto off?")),
    }
}

fn expectation(plant: &Plant, reader: &mut Reader) -> Result<Expectation, Fault> {
    let what = "expect what? accepted, taken, refused, fires, agree, behind, \
                idle, ready, running, done or count";
    let word = reader.needed(what)?;
    Ok(match word.text {
        "accepted" => Expectation::Accepted,
        "taken" => Expectation::Taken(telegram(reader)?),
        "refused" => Expectation::Refused(match reader.word() {
            None => None,
            Some(word) => Some(number(word, "refusal's number")?),
        }),
        "fires" => {
            let word = reader.needed("which transition fires?")?;
            Expectation::Fires(number(word, "transition's number")?)
        }
        "agree" => Expectation::Agree,
        "behind" => {
            let word = reader.needed("behind by how many telegrams?")?;
            Expectation::Behind(number(word, "number of telegrams")?)
        }
        "idle" => Expectation::Row(row(plant, reader)?, Activity::Idle),
        "ready" => Expectation::Row(row(plant, reader)?, Activity::Ready),
        "running" => Expectation::Row(row(plant, reader)?, Activity::Running),
        "done" => Expectation::Row(row(plant, reader)?, Activity::Done),
        "count" => counted(plant, reader)?,
        _ => return Err(fault(word.column, what)),
    })
}

/// A count's name and its value; the name may have spaces.
fn counted(plant: &Plant, reader: &mut Reader) -> Result<Expectation, Fault> {
    let both = reader.rest("count of which item? its name, then the count")?;
    let Some((name, _)) = both.text.rsplit_once(char::is_whitespace) else {
        return Err(fault(reader.end_column(), "which count?"));
    };
    let last = reader.words[reader.words.len() - 1];
    let name = Word {
        text: unquoted(name.trim_end()),
        ..both
    };
    let count = count_named(plant, name)?;
    Ok(Expectation::Count(count, number(last, "count")?))
}

/// An item's count by its name; a trigger's copy by `TRIGGER@ROW`.
fn count_named(plant: &Plant, name: Word) -> Result<Count, Fault> {
    let refused = |words: &str| Err(fault(name.column, words));
    let (item_name, row) = match name.text.split_once('@') {
        Some((item, row)) => (item, Some(row)),
        None => (name.text, None),
    };
    let names = plant.items.iter().map(|item| item.name.as_str());
    let items = positions(&names.collect::<Vec<&str>>(), item_name);
    let [item] = items[..] else {
        let words = format!("no item, or more than one, is called `{item_name}`");
        return refused(&words);
    };
    let copy = plant.copies(item).next();
    match (plant.items[item].trigger, row, copy) {
        (false, None, _) => Ok(Count::Item(item)),
        (false, Some(_), _) => refused(&format!("`{item_name}` is no trigger: it has one count")),
        (true, Some(row), _) => copy_named(plant, item, Word { text: row, ..name }),
        (true, None, None) => refused(&format!(
            "no row takes trigger `{item_name}`: it has no count"
        )),
        (true, None, Some(copy)) => refused(&format!(
            "trigger `{item_name}` has a count for each row that takes it: say which, such as {}",
            plant.count_name(copy)
        )),
    }
}

/// The copy of a trigger for a row that takes it, by the row's name or number.
fn copy_named(plant: &Plant, item: usize, row: Word) -> Result<Count, Fault> {
    let takers: Vec<usize> = plant.takers(item).collect();
    let number = Some(row.text).filter(|text| digits(text));
    let number = number.and_then(|text| text.parse().ok());
    let row = match number.filter(|number| takers.contains(number)) {
        Some(number) => number,
        None => {
            let what = format!("row that takes {}", plant.items[item].name);
            row_among(plant, takers, &what, row)?
        }
    };
    Ok(Count::Copy { item, row })
}
