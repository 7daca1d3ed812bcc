//! What each command does, and the moves of the panel, by the proved leader's call.

use super::command::{Command, HELP};
use super::screen::{moves_lines, screen};
use super::words::{effect_words, move_words, refusal_words, Call};
use super::{Fate, Game, Outcome, Sent};
use effbd::{Move, TELEGRAM_LENGTH};

/// What a command did, in lines of words, and what is due after it.
pub struct Report {
    pub lines: Vec<String>,
    pub then: Then,
}

/// What is due after a command.
#[derive(Clone, Copy, PartialEq, Eq, Debug)]
pub enum Then {
    /// The next command: this one only told something.
    Next,
    /// The same, after a command that could have changed an end or the bus and did not.
    Unchanged,
    /// Only what is under way, or how it is delivered, changed.
    BusChanged,
    EndsChanged,
    Quit,
}

impl Game {
    /// Does what a command says. An expectation that is not met is an error.
    pub fn act(&mut self, command: &Command) -> Result<Report, String> {
        let told = |lines| Report {
            lines,
            then: Then::Next,
        };
        Ok(match command {
            Command::Show => told(screen(self, false)),
            Command::All => told(screen(self, true)),
            Command::Moves => told(moves_lines(self, usize::MAX)),
            Command::Log => told(self.log_lines()),
            Command::Help => told(HELP.lines().map(str::to_string).collect()),
            Command::Say(text) => told(vec![text.clone()]),
            Command::Expect(expectation) => {
                self.check(expectation)?;
                told(vec!["as expected".to_string()])
            }
            Command::Quit => Report {
                lines: vec!["the game ends".to_string()],
                then: Then::Quit,
            },
            changing => self.changed(changing),
        })
    }

    /// Makes a command that may change an end or the bus, and looks what changed. No end changes but with its count.
    fn changed(&mut self, command: &Command) -> Report {
        self.outcomes.clear();
        let counts = (self.panel.count, self.controller.count);
        let bus = (self.bus.clone(), self.auto);
        let done = self.change(command);
        let then = if (self.panel.count, self.controller.count) != counts {
            Then::EndsChanged
        } else if (self.bus.clone(), self.auto) != bus {
            Then::BusChanged
        } else {
            Then::Unchanged
        };
        // What cannot be done is told like what was done.
        let lines = done.unwrap_or_else(|words| vec![words]);
        Report { lines, then }
    }

    fn change(&mut self, command: &Command) -> Result<Vec<String>, String> {
        match *command {
            Command::Move(made) => Ok(self.make(made)),
            Command::Pick(number) => self.pick(number),
            Command::Deliver(which) => self.deliver(which),
            Command::Lose(number) => self.lose(number),
            Command::Delay(number) => self.delay(number),
            Command::Repeat(number) => self.repeat(number),
            Command::Resend => self.resend(),
            Command::Foreign(number) => self.foreign(number),
            Command::Noise => Ok(self.noise()),
            Command::Auto(on) => Ok(self.set_auto(on)),
            Command::Restart => self.restart(),
            _ => Ok(Vec::new()),
        }
    }

    /// Offers a move to the panel; its telegram goes onto the bus.
    fn make(&mut self, made: Move) -> Vec<String> {
        let before = self.panel.state.clone();
        let time = self.panel_time();
        let mut bytes = [0; TELEGRAM_LENGTH];
        let (count, station) = (self.panel.count, self.station);
        let state = &mut self.panel.state;
        let count = match effbd::offer_move(&self.file, state, count, station, made, &mut bytes) {
            Ok(count) => count,
            Err(refused) => {
                self.outcomes.push(Outcome::Refused(refused.number));
                let words = refusal_words(self, Call::Offer(made), refused);
                return vec![format!("the panel refuses: {words}")];
            }
        };
        self.panel.count = count;
        self.outcomes.push(Outcome::Accepted(count));
        let fires = self.fires(made, &before);
        self.outcomes.extend(fires.map(Outcome::Fires));
        let fate = Fate::UnderWay;
        let sent = Sent {
            made,
            bytes,
            time,
            fate,
        };
        self.sent.push(sent.clone());
        let mut words = vec![move_words(&self.plant, made)];
        words.extend(effect_words(self, made, &before, &self.panel.state));
        let accepted = format!("the panel accepts: {}", words.join(": "));
        let telegram = self.going_out(count, &sent, false);
        vec![accepted, self.put(telegram)]
    }

    /// Makes a move of the list of those accepted now.
    fn pick(&mut self, number: usize) -> Result<Vec<String>, String> {
        let choices = self.choices();
        match number.checked_sub(1).and_then(|at| choices.get(at)) {
            Some(choice) => Ok(self.make(choice.made)),
            None if choices.is_empty() => Err("no move is accepted now".to_string()),
            None => {
                let last = choices.len();
                let words = format!("the list has no move {number}: they are 1 to {last}");
                Err(words)
            }
        }
    }
}
