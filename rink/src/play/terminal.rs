//! The game in a terminal: a prompt for one command a line, in any terminal and on piped input.

use super::act::Then;
use super::command::parse;
use super::lines::wrapped;
use super::screen::screen;
use super::short::greeting;
use super::Game;
use std::io::{self, BufRead, Write};

/// Plays until `quit` or the end of the input.
pub fn terminal(mut game: Game, mut input: impl BufRead, mut output: impl Write) -> io::Result<()> {
    let greeting = [
        greeting(&game),
        "Type a move's number or a command; help lists the commands, quit ends the game."
            .to_string(),
        String::new(),
    ];
    print_all(&mut output, &greeting)?;
    print_all(&mut output, &screen(&game, false))?;
    loop {
        write!(output, "> ")?;
        output.flush()?;
        let Some(line) = read_line(&mut input)? else {
            writeln!(output)?;
            return Ok(());
        };
        let (lines, quit) = answer(&mut game, &line);
        print_all(&mut output, &lines)?;
        if quit {
            return output.flush();
        }
    }
}

/// The next line, whatever its bytes; none at the end of the input.
fn read_line(input: &mut impl BufRead) -> io::Result<Option<String>> {
    let mut bytes = Vec::new();
    let length = input.read_until(b'\n', &mut bytes)?;
    Ok((length > 0).then(|| String::from_utf8_lossy(&bytes).into_owned()))
}

/// What a typed line is answered, and whether it ends the game. An empty line shows both ends again.
fn answer(game: &mut Game, line: &str) -> (Vec<String>, bool) {
    let command = match parse(&game.plant, line) {
        Ok(Some(command)) => command,
        Ok(None) => return (screen(game, false), false),
        Err(fault) => return (vec![fault.words], false),
    };
    match game.act(&command) {
        Err(words) => (vec![format!("not as expected: {words}")], false),
        Ok(report) => {
            let mut lines = report.lines;
            if matches!(report.then, Then::BusChanged | Then::EndsChanged) {
                lines.push(String::new());
                lines.extend(screen(game, false));
            }
            (lines, report.then == Then::Quit)
        }
    }
}

fn print_all(output: &mut impl Write, lines: &[String]) -> io::Result<()> {
    for line in lines.iter().flat_map(|line| wrapped(line)) {
        writeln!(output, "{line}")?;
    }
    Ok(())
}
