//! The moves that are accepted now, found by trying the proved call.

use super::states::Activity;
use super::words::{effect_words, move_words};
use super::{step, Game};
use crate::plant::Part;
use effbd::{refusal, Move};
use std::collections::BTreeMap;

/// A move that is accepted now, and what it would do.
#[derive(Clone, PartialEq, Eq, Debug)]
pub struct Choice {
    pub made: Move,
    pub words: String,
}

impl Game {
    /// The moves accepted now: every step; of the waits those after which a function may end, and the longest.
    pub fn choices(&self) -> Vec<Choice> {
        let mut choices = self.steps();
        choices.extend(self.waits());
        choices
    }

    fn steps(&self) -> Vec<Choice> {
        let tried = (0..self.plant.rows.len()).filter_map(|row| {
            let made = step(row);
            let after = self.tried(made).ok()?;
            let effect = effect_words(self, made, &self.panel.state, &after)?;
            let words = format!("{}: {effect}", move_words(&self.plant, made));
            Some(Choice { made, words })
        });
        tried.collect()
    }

    fn waits(&self) -> Vec<Choice> {
        let longest = self.longest_wait();
        let mut waits = self.waits_for_ends();
        waits.retain(|ticks, _| *ticks <= longest);
        // Where nothing that runs must end, one second is as good as any wait.
        let (ticks, words) = match longest {
            u16::MAX => (10, format!("any wait up to {longest} ticks is accepted")),
            _ => (longest, "the longest accepted now".to_string()),
        };
        if longest > 0 {
            waits.entry(ticks).or_default().push(words);
        }
        let choices = waits.into_iter().map(|(ticks, words)| {
            let made = Move::Wait(ticks);
            let words = format!("{}: {}", move_words(&self.plant, made), words.join(", "));
            Choice { made, words }
        });
        choices.collect()
    }

    /// The waits after which functions may end: those whose step is refused for so many ticks lacking.
    fn waits_for_ends(&self) -> BTreeMap<u16, Vec<String>> {
        let mut waits: BTreeMap<u16, Vec<String>> = BTreeMap::new();
        for row in 0..self.plant.rows.len() {
            let refused = self.tried(step(row)).err();
            let lacking = refused.filter(|refused| refused.number == refusal::TICKS_LACKING);
            if let Some(Ok(ticks)) = lacking.map(|refused| refused.value.try_into()) {
                let words = format!("then {} may end", self.plant.row_name(row));
                waits.entry(ticks).or_default().push(words);
            }
        }
        waits
    }

    /// The longest wait accepted now, 0 if none is. Where a wait is accepted, every shorter one is.
    pub fn longest_wait(&self) -> u16 {
        let (mut accepted, mut refused) = (0, u32::from(u16::MAX) + 1);
        while accepted + 1 < refused {
            let ticks = (accepted + refused) / 2;
            match self.tried(Move::Wait(ticks as u16)) {
                Ok(_) => accepted = ticks,
                Err(_) => refused = ticks,
            }
        }
        accepted as u16
    }

    /// The rows that let no tick pass: those that can step now. A running function can wait up to its longest time.
    pub(super) fn ready_to_step(&self) -> Vec<usize> {
        let state = self.diagram_state();
        let rows = (0..self.plant.rows.len()).filter(|&row| {
            let running = state.activity(row) == Activity::Running;
            !running && self.tried(step(row)).is_ok()
        });
        rows.collect()
    }

    /// The running functions that must end within so many ticks.
    pub(super) fn due_within(&self, ticks: u16) -> Vec<usize> {
        let rows = 0..self.plant.rows.len();
        rows.filter(|&row| self.ticks_left(row) == Some(ticks))
            .collect()
    }

    /// Of a running function: the ticks up to its longest time.
    fn ticks_left(&self, row: usize) -> Option<u16> {
        let state = self.diagram_state();
        match &self.plant.rows[row].part {
            Part::Function(function) if state.activity(row) == Activity::Running => {
                Some(function.longest.saturating_sub(state.clock(row)))
            }
            _ => None,
        }
    }
}
