//! The commands: their arguments, what they read and write, and their exit status.

use crate::editions::{self, Added, Edition};
use crate::net::Net;
use crate::plant::Plant;
use crate::play::{self, Game};
use crate::text::{self, Fault, Place, Style};
use crate::{annex, draw, formats, limits, refused};
use std::fmt::Display;
use std::fs::File;
use std::io::{self, ErrorKind, IsTerminal, Read, Write};
use std::path::Path;
use std::str::FromStr;

/// How a command ended when not well.
pub enum Failure {
    /// A refused file, a wrong text or lesson, said in words: exit status 1.
    Refused(String),
    /// Wrong arguments, or a file that cannot be read or written: exit status 2.
    Trouble(String),
    /// Whoever read the output has gone: exit status 2, with nobody to tell.
    Unread,
}

type Ended = Result<(), Failure>;

const HELP: &str = "\
rink: make, look at, print and play a plant; convert telegrams of old panels

  rink make  TEXT      the diagram file of a text
  rink show  FILE      the text of a diagram file
  rink draw  FILE      a drawing (SVG) of the diagram, or of its net
  rink annex FILE      the annex to a contract (HTML), to be printed
  rink play  FILE      panel and controller, with a bus between them
  rink check FILE      accepted or refused, and the limits used
  rink up    RUN       telegrams of an old panel in the new edition
  rink down  RUN       telegrams of the new edition for an old panel

`rink COMMAND --help` tells more. `-` as a file is standard input. What a command
makes goes to standard output, or with `-o NAME` to a file.
Exit status: 0 done; 1 refused; 2 wrong arguments, or a file that can't be read
or written.
";

const MAKE_HELP: &str = "\
rink make TEXT [-o FILE]      the diagram file (.dia) of a text (.plant)

One item, trigger or row a line; `#` begins a comment; indentation is free.

  plant NAME                  the plant's name, for drawing and annex
  item NAME COUNT             items stand before the rows
  trigger NAME COUNT          an item that reaches everyone: each function that
                              takes it has a count of its own, a give adds to all
  function NAME 20..50 take ITEM 1 give ITEM 2
                              shortest and longest time, in ticks of 0.1 s or in
                              seconds (2.0s..5.0s); any number of takes and gives
  and [NAME]                  branches that all run: `branch`, its rows,
  or [NAME]                   one of the branches:   `branch`, its rows ..
  branch [NAME]               (two or more), then `end and`, `end or`
  killing branch [NAME]       of an `and`, not empty: when its last row ends, the
                              other branches end too, wherever they are
  end and, end or
  repeat COUNT [NAME]         its rows again and again, COUNT times
  end repeat
  loop [NAME]                 its rows again and again, until an exit leaves it;
  end loop                    a function in it takes 0.1 s or more
  exit loop                   the last row of a branch inside the loop
  box [NAME]                  a function with several ways out: its scenario's rows,
  outlet NAME                 then its outlets (two or more), each with the rows
  end box                     that follow there
  exit to NAME                the last row of a branch in the scenario, or of the
                              scenario: all of it ends, the outlet follows; each
                              outlet has one
  end                         the last row

A wrong line is named with its column; so is a row that the proved reader refuses.
";

const SHOW_HELP: &str = "\
rink show FILE [--seconds] [--rows] [--names TEXT] [-o NAME]

The text of a diagram file; `rink make` of it gives the same bytes.

  --seconds       times in seconds
  --rows          the number of each row behind it
";

const DRAW_HELP: &str = "\
rink draw FILE [--net | --dot | --tina] [--names TEXT] [-o NAME]

The diagram as a drawing (SVG).

  --net           its time Petri net as a drawing (SVG)
  --dot           its net for Graphviz
  --tina          its net for TINA (.net); clears, which that format has not, are
                  named in comments
";

const ANNEX_HELP: &str = "\
rink annex FILE [--net] [--names TEXT] [-o NAME]

The annex to a contract as one page of HTML, to be printed: the drawing, the annex
program's text, a table of what each place and transition is, the file's bytes.

  --net           with a drawing of the net too
";

const PLAY_HELP: &str = "\
rink play FILE [--script SCRIPT] [--station NUMBER] [--names TEXT] [-o NAME]

Panel and controller side by side, with a bus between them that can lose, repeat
and delay telegrams. `help` in the game lists its commands.

  --script        a lesson: its commands from a file, its output as plain text
  --station       the station's number, 0 to 65535 (7)
";

const CHECK_HELP: &str = "\
rink check FILE [--names TEXT] [-o NAME]

`accepted`, with the limits used: rows, items, depth, the net's and the state's
size; the receivers of each trigger; what each killing branch kills; the exits of
each box; whether the annex program prints the net; a warning of each loop with a
way round that may spend no time. Or the refusal in words, with row and offset.
";

const UP_HELP: &str = "\
rink up RUN --station NUMBER --first NUMBER [-o NAME]

A run of telegrams of an old panel (length 8, kind 47, setpoint) in the new edition
(length 14, kind 48, number, station, setpoint), one telegram for each.

  --station       the station of all of them, 0 to 65535
  --first         the number of the first, 0 to 4294967295; each other's is one above
                  the last. A fresh controller takes number 1 first

A telegram that is off is named by its index in the run, from 0, and its offset.
`rink down` gives the run of the old panel back.
";

const DOWN_HELP: &str = "\
rink down RUN [-o NAME]

A run of telegrams of the new edition for an old panel, without their numbers and
station: all have one station, and each number is one above the last. Standard
error tells the station and the first number, with which `rink up` gives the run
back.

A telegram that is off is named by its index in the run, from 0, and its offset.
";

const NAMES_HELP: &str = "
Names are those of the text: --names TEXT, or NAME.plant or NAME.txt beside
NAME.dia. A text counts only if it makes the very bytes of the file; without one,
names are made up.
";

/// The arguments of a command.
struct Arguments {
    command: &'static str,
    file: String,
    /// Options without a value that were given.
    flags: Vec<String>,
    /// Options with their values.
    values: Vec<(String, String)>,
}

impl Arguments {
    /// Takes a command's arguments apart: one file, and options of these lists.
    fn of(
        command: &'static str,
        given: &[String],
        flags: &[&str],
        values: &[&str],
    ) -> Result<Self, Failure> {
        let mut found = Arguments {
            command,
            file: String::new(),
            flags: Vec::new(),
            values: Vec::new(),
        };
        let mut files = Vec::new();
        let mut rest = given.iter();
        while let Some(argument) = rest.next() {
            if flags.contains(&argument.as_str()) {
                found.flags.push(argument.clone());
            } else if values.contains(&argument.as_str()) {
                let Some(value) = rest.next() else {
                    return Err(found.wrong(&format!("{argument} without a value")));
                };
                if found.value(argument).is_some() {
                    return Err(found.wrong(&format!("{argument} stands twice")));
                }
                found.values.push((argument.clone(), value.clone()));
            } else if argument.starts_with('-') && argument != "-" {
                return Err(found.wrong(&format!("no option {argument}")));
            } else {
                files.push(argument.clone());
            }
        }
        match files.as_slice() {
            [file] => found.file = file.clone(),
            [] => return Err(found.wrong("no file named")),
            _ => {
                let files = files.join(" and ");
                return Err(found.wrong(&format!("one file at a time, not {files}")));
            }
        }
        Ok(found)
    }

    fn flag(&self, name: &str) -> bool {
        self.flags.iter().any(|flag| flag == name)
    }

    fn value(&self, name: &str) -> Option<&str> {
        let found = self.values.iter().find(|(option, _)| option == name);
        found.map(|(_, value)| value.as_str())
    }

    /// The number of an option, where it is given: 0 up to the most of its type.
    fn number<T: FromStr + Display>(&self, name: &str, most: T) -> Result<Option<T>, Failure> {
        let number = self.value(name).map(str::parse).transpose();
        number.map_err(|_| self.wrong(&format!("{name} has a number from 0 to {most}")))
    }

    /// The number of an option that the command needs.
    fn needed<T: FromStr + Display>(&self, name: &str, most: T) -> Result<T, Failure> {
        let number = self.number(name, most)?;
        number.ok_or_else(|| self.wrong(&format!("no {name} given")))
    }

    /// What is wrong with the arguments.
    fn wrong(&self, words: &str) -> Failure {
        let command = self.command;
        Failure::Trouble(format!("{words}; `rink {command} --help` tells more\n"))
    }
}

/// Runs the program with these arguments, its own name left out; the result is its exit status.
pub fn run(arguments: &[String]) -> u8 {
    let (status, words) = match command(arguments) {
        Ok(()) => (0, String::new()),
        Err(Failure::Refused(words)) => (1, words),
        Err(Failure::Trouble(words)) => (2, words),
        Err(Failure::Unread) => (2, String::new()),
    };
    // Where standard error cannot be written there is no other place to say so.
    let _ = io::stderr().write_all(words.as_bytes());
    status
}

/// A command, and what its `--help` tells.
struct Known {
    run: fn(&[String]) -> Ended,
    help: [&'static str; 2],
}

fn known(command: &str) -> Option<Known> {
    let (run, help): (fn(&[String]) -> Ended, _) = match command {
        "make" => (make, [MAKE_HELP, ""]),
        "show" => (show, [SHOW_HELP, NAMES_HELP]),
        "draw" => (drawn, [DRAW_HELP, NAMES_HELP]),
        "annex" => (annexed, [ANNEX_HELP, NAMES_HELP]),
        "play" => (played, [PLAY_HELP, NAMES_HELP]),
        "check" => (checked, [CHECK_HELP, NAMES_HELP]),
        "up" => (up, [UP_HELP, ""]),
        "down" => (down, [DOWN_HELP, ""]),
        _ => return None,
    };
    Some(Known { run, help })
}

fn command(arguments: &[String]) -> Ended {
    let Some((command, rest)) = arguments.split_first() else {
        return Err(Failure::Trouble(HELP.to_string()));
    };
    let asks = |list: &[String]| list.iter().any(|word| word == "--help" || word == "-h");
    match known(command) {
        Some(known) if asks(rest) => write_out(None, known.help.concat().as_bytes()),
        Some(known) => (known.run)(rest),
        None if asks(arguments) || command == "help" => write_out(None, HELP.as_bytes()),
        None => {
            let words = format!("no command {command}; `rink --help` lists them\n");
            Err(Failure::Trouble(words))
        }
    }
}

/// What went wrong with a file, in words.
fn trouble(name: &str, fault: &io::Error) -> Failure {
    let words = match fault.kind() {
        ErrorKind::BrokenPipe => return Failure::Unread,
        ErrorKind::NotFound => "no such file or folder".to_string(),
        ErrorKind::PermissionDenied => "no permission".to_string(),
        ErrorKind::IsADirectory => "it is a folder".to_string(),
        ErrorKind::NotADirectory => "a folder of its path is a file".to_string(),
        ErrorKind::StorageFull => "no room is left on the disk".to_string(),
        ErrorKind::ReadOnlyFilesystem => "the disk is read-only".to_string(),
        _ => fault.to_string(),
    };
    Failure::Trouble(format!("{name}: {words}\n"))
}

/// What a file is called in messages.
fn named(file: &str) -> &str {
    if file == "-" {
        "standard input"
    } else {
        file
    }
}

fn read_in(file: &str) -> Result<Vec<u8>, Failure> {
    let mut bytes = Vec::new();
    let read = if file == "-" {
        io::stdin().lock().read_to_end(&mut bytes)
    } else {
        File::open(file).and_then(|mut file| file.read_to_end(&mut bytes))
    };
    read.map_err(|fault| trouble(named(file), &fault))?;
    Ok(bytes)
}

/// Writes all at once, so that nothing is half written by a command that fails.
fn write_out(file: Option<&str>, bytes: &[u8]) -> Ended {
    let Some(file) = file.filter(|file| *file != "-") else {
        let mut output = io::stdout().lock();
        let written = output.write_all(bytes).and_then(|()| output.flush());
        return written.map_err(|fault| trouble("standard output", &fault));
    };
    let written = File::create(file).and_then(|mut output| output.write_all(bytes));
    written.map_err(|fault| trouble(file, &fault))
}

/// Writes bytes that are no text: never to a terminal. `what` they are and their file's usual ending are said there.
fn write_bytes(file: Option<&str>, bytes: &[u8], what: &str, ending: &str) -> Ended {
    let file = file.filter(|file| *file != "-");
    if file.is_none() && io::stdout().is_terminal() {
        let words = format!("{what} is no text for a terminal: name a file, by `> NAME.{ending}` or `-o NAME.{ending}`\n");
        return Err(Failure::Trouble(words));
    }
    write_out(file, bytes)
}

/// A file of text.
fn read_text(file: &str) -> Result<String, Failure> {
    let bytes = read_in(file)?;
    match text::decoded(&bytes) {
        Ok(text) => Ok(text.to_string()),
        Err(fault) => Err(wrong_text(file, &String::from_utf8_lossy(&bytes), fault)),
    }
}

/// What is wrong with a text, for its writer's eyes.
fn wrong_text(file: &str, text: &str, fault: Fault) -> Failure {
    Failure::Refused(fault.shown(named(file), text))
}

/// The plant and the bytes that a text makes.
fn made(file: &str) -> Result<(Vec<u8>, Plant), Failure> {
    let text = read_text(file)?;
    text::make(&text).map_err(|fault| wrong_text(file, &text, fault))
}

/// A diagram file that the proved reader accepts, with its plant.
fn accepted(arguments: &Arguments) -> Result<(Vec<u8>, Plant), Failure> {
    let file = read_in(&arguments.file)?;
    let plant = Plant::read(&file).map_err(|refusal| {
        let words = refused_words(&file, refusal);
        Failure::Refused(format!("{}: {words}", named(&arguments.file)))
    })?;
    let plant = with_names(arguments, &file, plant)?;
    Ok((file, plant))
}

/// A refusal of a file in words, and a hint where the file seems to be a text.
fn refused_words(file: &[u8], refusal: effbd::Refusal) -> String {
    let found = refused::find(file, refusal, refused::numbered);
    let hint = match text::decoded(file) {
        Ok(text) if !text.contains('\0') && !text.is_empty() => {
            "This looks like a text: `rink make` makes a diagram file of it.\n"
        }
        _ => "",
    };
    format!("refused at {}: {}\n{hint}", found.place(), found.words())
}

/// The plant with the names of the text that is named, or stands beside the file, if that makes these bytes.
fn with_names(arguments: &Arguments, file: &[u8], plant: Plant) -> Result<Plant, Failure> {
    if let Some(names) = arguments.value("--names") {
        let (bytes, named) = made(names)?;
        if bytes == file {
            return Ok(named);
        }
        let words = format!(
            "{names}: the text makes another diagram than {}\n",
            arguments.file
        );
        return Err(Failure::Refused(words));
    }
    let beside = |ending| {
        let text = Path::new(&arguments.file).with_extension(ending);
        (arguments.file != "-" && text.is_file()).then_some(text)
    };
    let found = ["plant", "txt"]
        .into_iter()
        .find_map(|ending| names_of(&beside(ending)?, file));
    if let (None, Some(text)) = (&found, beside("plant")) {
        let words = format!(
            "rink: {} makes another diagram: names are made up\n",
            text.display()
        );
        let _ = io::stderr().write_all(words.as_bytes());
    }
    Ok(found.unwrap_or(plant))
}

/// The plant of a text that makes these bytes.
fn names_of(text: &Path, file: &[u8]) -> Option<Plant> {
    let bytes = std::fs::read(text).ok()?;
    let (made, named) = text::make(text::decoded(&bytes).ok()?).ok()?;
    (made == file).then_some(named)
}

fn make(given: &[String]) -> Ended {
    let arguments = Arguments::of("make", given, &[], &["-o"])?;
    let (file, _) = made(&arguments.file)?;
    write_bytes(arguments.value("-o"), &file, "a diagram file", "dia")
}

fn show(given: &[String]) -> Ended {
    let arguments = Arguments::of("show", given, &["--seconds", "--rows"], &["--names", "-o"])?;
    let (_, plant) = accepted(&arguments)?;
    let style = Style {
        seconds: arguments.flag("--seconds"),
        numbers: arguments.flag("--rows"),
    };
    write_out(arguments.value("-o"), text::show(&plant, style).as_bytes())
}

/// Its answer is a verdict: a refusal goes to the output too.
fn checked(given: &[String]) -> Ended {
    let arguments = Arguments::of("check", given, &[], &["--names", "-o"])?;
    let file = read_in(&arguments.file)?;
    let output = arguments.value("-o");
    let plant = match Plant::read(&file) {
        Ok(plant) => with_names(&arguments, &file, plant)?,
        Err(refusal) => {
            write_out(output, refused_words(&file, refusal).as_bytes())?;
            return Err(Failure::Refused(String::new()));
        }
    };
    let used = limits::used(&plant, &file);
    let text = used.map_err(|refusal| untranslated(&arguments, refusal))?;
    write_out(output, text.as_bytes())
}

fn drawn(given: &[String]) -> Ended {
    let arguments = Arguments::of(
        "draw",
        given,
        &["--net", "--dot", "--tina"],
        &["--names", "-o"],
    )?;
    if arguments.flag("--dot") && arguments.flag("--tina") {
        return Err(arguments.wrong("--dot or --tina, not both"));
    }
    let (file, plant) = accepted(&arguments)?;
    let net = || Net::of_diagram(&file).map_err(|refusal| untranslated(&arguments, refusal));
    let text = if arguments.flag("--dot") {
        formats::dot(&plant, &net()?)
    } else if arguments.flag("--tina") {
        formats::tina(&plant, &net()?)
    } else if arguments.flag("--net") {
        draw::net(&plant, &net()?)
    } else {
        draw::diagram(&plant)
    };
    write_out(arguments.value("-o"), text.as_bytes())
}

fn annexed(given: &[String]) -> Ended {
    let arguments = Arguments::of("annex", given, &["--net"], &["--names", "-o"])?;
    let (file, plant) = accepted(&arguments)?;
    let page = annex::page(&plant, &file, arguments.flag("--net"))
        .map_err(|refusal| untranslated(&arguments, refusal))?;
    write_out(arguments.value("-o"), page.as_bytes())
}

/// A file that is accepted and has no net: an area too short.
fn untranslated(arguments: &Arguments, refusal: effbd::Refusal) -> Failure {
    Failure::Refused(format!("{}: {refusal}\n", named(&arguments.file)))
}

/// The station of a game that names none.
const STATION: u16 = 7;

fn played(given: &[String]) -> Ended {
    let options = ["--script", "--station", "--names", "-o"];
    let arguments = Arguments::of("play", given, &[], &options)?;
    let wrong = |words| Err(arguments.wrong(words));
    let station = arguments.number("--station", u16::MAX)?;
    let station = station.unwrap_or(STATION);
    match arguments.value("--script") {
        None if arguments.file == "-" => {
            return wrong("moves are typed on standard input: a diagram from there needs --script")
        }
        None if arguments.value("-o").is_some() => {
            return wrong("-o is for a lesson: it needs --script")
        }
        Some("-") if arguments.file == "-" => {
            return wrong("diagram and lesson can't both be standard input")
        }
        _ => {}
    }
    let (file, plant) = accepted(&arguments)?;
    let game = Game::new(plant, file, station);
    let game = game.map_err(|refusal| untranslated(&arguments, refusal))?;
    match arguments.value("--script") {
        Some(script) => lesson(game, script, arguments.value("-o")),
        None => play::terminal(game, io::stdin().lock(), io::stdout().lock())
            .map_err(|fault| trouble("the terminal", &fault)),
    }
}

/// A lesson that does not come out tells what it printed up to there, then its line.
fn lesson(game: Game, script: &str, output: Option<&str>) -> Ended {
    let text = read_text(script)?;
    match play::scripted(game, &text) {
        Ok(played) => write_out(output, played.as_bytes()),
        Err(fault) => {
            write_out(output, fault.output.as_bytes())?;
            let place = Place {
                line: fault.line,
                column: fault.column,
            };
            Err(wrong_text(script, &text, Fault::at(place, fault.words)))
        }
    }
}

fn up(given: &[String]) -> Ended {
    let arguments = Arguments::of("up", given, &[], &["--station", "--first", "-o"])?;
    let added = Added {
        station: arguments.needed("--station", u16::MAX)?,
        first: arguments.needed("--first", u32::MAX)?,
    };
    let run = read_in(&arguments.file)?;
    let new = editions::up(&run, added);
    let new = new.map_err(|refusal| refused_run(&arguments, &run, Edition::Old, refusal))?;
    write_run(&arguments, &new)
}

fn down(given: &[String]) -> Ended {
    let arguments = Arguments::of("down", given, &[], &["-o"])?;
    let run = read_in(&arguments.file)?;
    let old = editions::down(&run);
    let (old, Added { station, first }) =
        old.map_err(|refusal| refused_run(&arguments, &run, Edition::New, refusal))?;
    write_run(&arguments, &old)?;
    let words = format!(
        "station {station}, first number {first}: `rink up --station {station} --first {first}` gives the run back\n"
    );
    let _ = io::stderr().write_all(words.as_bytes());
    Ok(())
}

fn write_run(arguments: &Arguments, run: &[u8]) -> Ended {
    write_bytes(arguments.value("-o"), run, "a run of telegrams", "run")
}

/// A refusal of a run of this edition in words.
fn refused_run(
    arguments: &Arguments,
    run: &[u8],
    edition: Edition,
    refusal: effbd::Refusal,
) -> Failure {
    let words = editions::refused_words(run, edition, refusal);
    Failure::Refused(format!("{}: {words}", named(&arguments.file)))
}
