//! Single transitions of the controller's net. Whether one is enabled and what it does is asked of the proved step too, on a net that has
//! this transition alone. Which one a step of the panel fires is asked of the proved call that knows it from the diagram's state.

use super::Game;
use effbd::{refusal, Move, Refusal};

impl Game {
    /// The marks after a transition fired at this state of the net.
    fn fired_alone(&self, transition: usize, state: &[u16]) -> Result<Vec<u16>, Refusal> {
        let places = self.net.marks.len();
        let mut alone = state[..places].to_vec();
        alone.push(state[places + transition]);
        let label = self.net.transitions[transition].label;
        effbd::move_net(&self.alone[transition], &mut alone, Move::Step(label))?;
        alone.truncate(places);
        Ok(alone)
    }

    /// Whether a transition is enabled: too early or too many marks is said of enabled ones only.
    pub fn enabled(&self, transition: usize) -> bool {
        let fired = self.fired_alone(transition, &self.controller.state);
        !fired.is_err_and(|refused| refused.number == refusal::NOT_STANDING)
    }

    /// The enabled transition that takes from a place and may be waited for.
    pub fn timed(&self, place: usize) -> Option<usize> {
        let mut numbers = 0..self.net.transitions.len();
        numbers.find(|&number| {
            let transition = &self.net.transitions[number];
            let mut takes = transition.takes.iter();
            let taken = takes.any(|arc| usize::from(arc.place) == place);
            taken && transition.to > 0 && self.enabled(number)
        })
    }

    /// The transition that a FUNCTION's step at this state of the panel fires; none of other moves, which the proved call leaves out.
    pub fn fires(&self, made: Move, state: &[u16]) -> Option<usize> {
        let Move::Step(row) = made else {
            return None;
        };
        let named = effbd::transition(&self.file, state, row).ok();
        named.map(|number| number as usize)
    }

    /// The transition of a step's label whose firing leads from a state of the net to the marks that it has now.
    pub fn fired(&self, made: Move, before: &[u16]) -> Option<usize> {
        let Move::Step(label) = made else {
            return None;
        };
        let now = &self.controller.state[..self.net.marks.len()];
        let mut numbers = 0..self.net.transitions.len();
        numbers.find(|&number| {
            let fires = |marks: Vec<u16>| marks == now;
            self.net.transitions[number].label == label
                && self.fired_alone(number, before).is_ok_and(fires)
        })
    }
}
