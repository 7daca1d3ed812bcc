//! The bus: telegrams put onto it, delivered by the proved follower's call, lost, delayed and repeated.

use super::command::Which;
use super::words::{move_words, number_of, refusal_words, seconds, ticks_words, Call};
use super::{Fate, Game, Outcome, Sent, UnderWay};
use crate::net::transition_words;
use effbd::{Answer, Move, Refusal, TELEGRAM_LENGTH};

/// Bytes that a disturbed bus might bring.
const NOISE: [u8; 5] = [0xff, 0x00, 0x55, 0xaa, 0xff];

/// What was done, in words, or why it cannot be done.
type Done = Result<Vec<String>, String>;

impl Game {
    /// A telegram as it goes onto the bus: the first time, or again.
    pub(super) fn going_out(&self, number: u32, sent: &Sent, again: bool) -> UnderWay {
        UnderWay {
            number,
            made: sent.made,
            bytes: sent.bytes,
            again,
            since: self.panel_time(),
        }
    }

    /// A copy of a telegram that was sent: of this number, or the last one.
    fn copy(&self, number: Option<u32>) -> Result<UnderWay, String> {
        let number = match number {
            None if self.sent.is_empty() => return Err("no telegram has been sent yet".to_string()),
            None => self.panel.count,
            Some(number) => number,
        };
        let sent = at(number).and_then(|at| self.sent.get(at));
        let sent = sent.ok_or_else(|| format!("telegram {number} has not been sent"))?;
        Ok(self.going_out(number, sent, true))
    }

    /// Puts a telegram onto the bus, and delivers it where that is done at once.
    pub(super) fn put(&mut self, telegram: UnderWay) -> String {
        if self.auto {
            return self.hand(telegram);
        }
        self.bus.push(telegram);
        let again = if telegram.again { " again" } else { "" };
        format!("the bus: telegram {} is under way{again}", telegram.number)
    }

    /// Takes a telegram off the bus: the first of this number, or the one that comes next.
    fn off_bus(&mut self, number: Option<u32>) -> Result<UnderWay, String> {
        let wanted = |telegram: &UnderWay| number.is_none_or(|number| telegram.number == number);
        match (self.bus.iter().position(wanted), number) {
            (Some(at), _) => Ok(self.bus.remove(at)),
            (None, None) => Err("no telegram is under way".to_string()),
            (None, Some(number)) => {
                self.copy(Some(number))?;
                let how = format!("repeat {number} sends it again");
                Err(format!("telegram {number} is not under way; {how}"))
            }
        }
    }

    /// Hands a telegram to the controller.
    fn hand(&mut self, telegram: UnderWay) -> String {
        let before = self.controller.state.clone();
        match self.take(&telegram.bytes) {
            Ok(count) => {
                let fired = self.fired(telegram.made, &before);
                self.outcomes.extend(fired.map(Outcome::Fires));
                let did = self.taken_words(telegram.made, fired);
                format!("the controller takes telegram {count}: {did}")
            }
            Err(refused) => {
                let UnderWay { number, again, .. } = telegram;
                self.set_fate(number, Fate::Refused(refused.number));
                let words = refusal_words(self, Call::Hand { number, again }, refused);
                format!("the controller refuses: {words}")
            }
        }
    }

    fn set_fate(&mut self, number: u32, fate: Fate) {
        if let Some(sent) = at(number).and_then(|at| self.sent.get_mut(at)) {
            sent.fate = fate;
        }
    }

    /// The controller's proved call.
    fn take(&mut self, bytes: &[u8]) -> Answer {
        let (count, station) = (self.controller.count, self.station);
        let state = &mut self.controller.state;
        let answer = effbd::take(&self.net_file, state, count, station, bytes);
        self.outcomes.push(match answer {
            Ok(count) => Outcome::Taken(count),
            Err(refused) => Outcome::Refused(refused.number),
        });
        self.controller.count = answer.unwrap_or(count);
        answer
    }

    /// What a move did to the net, in which this transition fired.
    fn taken_words(&self, made: Move, fired: Option<usize>) -> String {
        match (made, fired) {
            (Move::Wait(ticks), _) => format!("waits {}", ticks_words(u64::from(ticks))),
            (_, None) => move_words(&self.plant, made),
            (_, Some(fired)) => {
                let words = transition_words(&self.plant, &self.net, fired);
                format!("transition {fired} fires, {words}")
            }
        }
    }

    pub(super) fn deliver(&mut self, which: Which) -> Done {
        let telegrams = match which {
            Which::Number(number) => vec![self.off_bus(Some(number))?],
            Which::All if !self.bus.is_empty() => std::mem::take(&mut self.bus),
            Which::Next | Which::All => vec![self.off_bus(None)?],
        };
        let handed = telegrams.into_iter().map(|telegram| self.hand(telegram));
        Ok(handed.collect())
    }

    pub(super) fn lose(&mut self, number: Option<u32>) -> Done {
        let UnderWay { number, .. } = self.off_bus(number)?;
        self.set_fate(number, Fate::Lost);
        Ok(vec![format!("the bus: telegram {number} is lost")])
    }

    pub(super) fn delay(&mut self, number: Option<u32>) -> Done {
        let telegram = self.off_bus(number)?;
        let words = if self.bus.is_empty() {
            "is the only one under way"
        } else {
            "goes behind the others"
        };
        self.bus.push(telegram);
        Ok(vec![format!(
            "the bus: telegram {} {words}",
            telegram.number
        )])
    }

    pub(super) fn repeat(&mut self, number: Option<u32>) -> Done {
        let copy = self.copy(number)?;
        Ok(vec![self.put(copy)])
    }

    /// Repeats every telegram that the controller has not taken, in order.
    pub(super) fn resend(&mut self) -> Done {
        let missing = self.controller.count..self.panel.count;
        let numbers = match missing.len() {
            0 => return Err("the controller has taken every telegram".to_string()),
            1 => format!("telegram {}", missing.end),
            _ => format!("telegrams {} to {}", missing.start + 1, missing.end),
        };
        let mut lines = vec![format!("the panel sends {numbers} again")];
        for taken in missing {
            let copy = self.copy(Some(taken + 1))?;
            lines.push(self.put(copy));
        }
        // Where they are only put onto the bus, one line says it.
        lines.truncate(if self.auto { lines.len() } else { 1 });
        Ok(lines)
    }

    /// Hands over the telegram that another station's panel would have sent.
    pub(super) fn foreign(&mut self, number: Option<u32>) -> Done {
        let number = self.copy(number)?.number;
        let made = self.of_station(number, self.station.wrapping_add(1));
        let bytes = made.map_err(|refused| refused.to_string())?;
        Ok(vec![self.hand_other(&bytes, Call::Foreign { number })])
    }

    /// Telegram `number` of a panel that made the same moves at another station.
    fn of_station(&self, number: u32, station: u16) -> Result<[u8; TELEGRAM_LENGTH], Refusal> {
        let mut state = vec![0; self.panel.state.len()];
        effbd::fresh_diagram(&self.file, &mut state)?;
        let mut bytes = [0; TELEGRAM_LENGTH];
        for (count, sent) in (0..number).zip(&self.sent) {
            let (file, made) = (&self.file, sent.made);
            effbd::offer_move(file, &mut state, count, station, made, &mut bytes)?;
        }
        Ok(bytes)
    }

    pub(super) fn noise(&mut self) -> Vec<String> {
        let length = NOISE.len();
        vec![self.hand_other(&NOISE, Call::Noise { length })]
    }

    /// Hands over bytes that are no telegram of this station.
    fn hand_other(&mut self, bytes: &[u8], call: Call) -> String {
        match self.take(bytes) {
            Ok(count) => format!("the controller takes telegram {count}"),
            Err(refused) => {
                let words = refusal_words(self, call, refused);
                format!("the controller refuses: {words}")
            }
        }
    }

    pub(super) fn set_auto(&mut self, on: bool) -> Vec<String> {
        self.auto = on;
        let how = if on {
            "is delivered at once"
        } else {
            "stays under way until it is delivered"
        };
        let mut lines = vec![format!("from now on every telegram {how}")];
        if on && !self.bus.is_empty() {
            let already = number_of(self.bus.len() as u64, "telegram");
            lines.push(format!("under way already, for deliver: {already}"));
        }
        lines
    }

    /// The moves so far, each with what became of its telegram.
    pub(super) fn log_lines(&self) -> Vec<String> {
        if self.sent.is_empty() {
            return vec!["no move has been made yet".to_string()];
        }
        let lines = (1..).zip(&self.sent).map(|(number, sent)| {
            let made = move_words(&self.plant, sent.made);
            let (time, fate) = (seconds(sent.time), self.fate_words(number, sent.fate));
            format!("{number:>4}  at {time:>8}  {made}: {fate}")
        });
        lines.collect()
    }

    /// What became of a telegram.
    fn fate_words(&self, number: u32, fate: Fate) -> String {
        let under_way = self.bus.iter().any(|telegram| telegram.number == number);
        match fate {
            _ if number <= self.controller.count => "taken".to_string(),
            _ if under_way => "under way".to_string(),
            Fate::UnderWay => "not taken".to_string(),
            Fate::Lost => "lost".to_string(),
            Fate::Refused(refusal) => format!("refused ({refusal})"),
        }
    }
}

/// Where telegram `number` stands among those sent.
fn at(number: u32) -> Option<usize> {
    (number as usize).checked_sub(1)
}
