//! Lessons: a script, one command a line, and the plain text that it makes. Empty lines and lines that begin with `#` do nothing.

use super::act::Then;
use super::command::{parse, Command};
use super::lines::wrapped;
use super::short::{bus_short, greeting, short_lines};
use super::Game;
use std::fmt;

/// A line that is not understood, or an expectation that is not met: where it stands, both from 1 on, and what is wrong.
#[derive(Clone, PartialEq, Eq, Debug)]
pub struct ScriptFault {
    pub line: usize,
    pub column: usize,
    pub words: String,
    /// What the lesson printed before: nothing where a line is not understood, since then no command is made.
    pub output: String,
}

impl fmt::Display for ScriptFault {
    fn fmt(&self, to: &mut fmt::Formatter<'_>) -> fmt::Result {
        let ScriptFault {
            line,
            column,
            words,
            ..
        } = self;
        write!(to, "line {line}, column {column}: {words}")
    }
}

impl std::error::Error for ScriptFault {}

/// A command of a script with its line and column.
struct Scripted<'a> {
    command: Command,
    text: &'a str,
    line: usize,
    column: usize,
}

/// Plays a script and returns what it prints: each command, what it did, both ends after it.
pub fn scripted(mut game: Game, script: &str) -> Result<String, ScriptFault> {
    let commands = read(&game, script)?;
    let mut output = String::new();
    let mut print = |line: &str| {
        output.push_str(line);
        output.push('\n');
    };
    print_all(&mut print, &[greeting(&game)]);
    print_all(&mut print, &short_lines(&game));
    for scripted in &commands {
        let done = play(&mut game, scripted, &mut print);
        match done {
            Ok(Then::Quit) => break,
            Ok(_) => {}
            Err(words) => {
                return Err(ScriptFault {
                    line: scripted.line,
                    column: scripted.column,
                    words,
                    output,
                })
            }
        }
    }
    Ok(output)
}

fn print_all(print: &mut dyn FnMut(&str), lines: &[String]) {
    for line in lines.iter().flat_map(|line| wrapped(line)) {
        print(&line);
    }
}

/// Makes one command of a script; an error where an expectation is not met.
fn play(game: &mut Game, scripted: &Scripted, print: &mut dyn FnMut(&str)) -> Result<Then, String> {
    let echo = format!("> {}", scripted.text);
    let report = game.act(&scripted.command)?;
    match scripted.command {
        Command::Expect(_) => print_all(print, &[format!("{echo}: {}", report.lines.join(""))]),
        Command::Say(_) => {
            print("");
            print_all(print, &report.lines);
        }
        _ => {
            print("");
            print_all(print, &[echo]);
            print_all(print, &report.lines);
        }
    }
    match report.then {
        Then::EndsChanged => print_all(print, &short_lines(game)),
        Then::BusChanged | Then::Unchanged => {
            let line = format!("  as before: {}", bus_short(game));
            print_all(print, &[line]);
        }
        Then::Next | Then::Quit => {}
    }
    Ok(report.then)
}

/// The commands of a script.
fn read<'a>(game: &Game, script: &'a str) -> Result<Vec<Scripted<'a>>, ScriptFault> {
    let mut commands = Vec::new();
    let script = script.strip_prefix('\u{feff}').unwrap_or(script);
    for (line, text) in (1..).zip(script.lines()) {
        let parsed = parse(&game.plant, text).map_err(|fault| ScriptFault {
            line,
            column: fault.column,
            words: fault.words,
            output: String::new(),
        })?;
        if let Some(command) = parsed {
            let before = text.len() - text.trim_start().len();
            commands.push(Scripted {
                command,
                text: text.trim(),
                line,
                column: text[..before].chars().count() + 1,
            });
        }
    }
    Ok(commands)
}
