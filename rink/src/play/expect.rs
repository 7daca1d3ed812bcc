//! What a lesson expects, and whether the ends agree.

use super::command::Expectation;
use super::words::{list_words, number_of, row_words};
use super::{Game, Outcome};

impl Game {
    /// Whether it is as a lesson expects; else what is not.
    pub(super) fn check(&self, expectation: &Expectation) -> Result<(), String> {
        let (met, words) = match *expectation {
            Expectation::Accepted => self.came("an accepted move", |outcome| {
                matches!(outcome, Outcome::Accepted(_))
            }),
            Expectation::Taken(number) => {
                let wanted = numbered("a taken telegram", number);
                self.came(&wanted, |outcome| match outcome {
                    Outcome::Taken(taken) => number.is_none_or(|number| number == taken),
                    _ => false,
                })
            }
            Expectation::Refused(number) => {
                let wanted = numbered("a refusal", number);
                self.came(&wanted, |outcome| match outcome {
                    Outcome::Refused(refusal) => number.is_none_or(|number| number == refusal),
                    _ => false,
                })
            }
            Expectation::Fires(number) => {
                let wanted = firing(number);
                self.came(&wanted, |outcome| outcome == Outcome::Fires(number))
            }
            Expectation::Agree => (self.behind() == 0 && self.agree(), self.agreement_words()),
            Expectation::Behind(number) => {
                let behind = number_of(u64::from(self.behind()), "telegram");
                let words = format!("the controller is {behind} behind, not {number}");
                (self.behind() == number, words)
            }
            Expectation::Row(row, wanted) => {
                let activity = self.diagram_state().activity(row);
                let row = row_words(&self.plant, row);
                let words = format!("{row} is {}, not {}", activity.word(), wanted.word());
                (activity == wanted, words)
            }
            Expectation::Count(count, wanted) => {
                let value = self.diagram_state().count(count);
                let name = self.plant.count_name(count);
                (value == wanted, format!("{name} has {value}, not {wanted}"))
            }
        };
        met.then_some(()).ok_or(words)
    }

    /// Whether such an outcome came of the last command's calls; what to say if not.
    fn came(&self, wanted: &str, such: impl Fn(Outcome) -> bool) -> (bool, String) {
        let came = self.outcomes.iter().map(|outcome| match outcome {
            Outcome::Accepted(_) => "an accepted move".to_string(),
            Outcome::Taken(number) => format!("a taken telegram {number}"),
            Outcome::Refused(number) => format!("a refusal {number}"),
            Outcome::Fires(number) => firing(*number),
        });
        let came = list_words(came.collect());
        let words = format!("expected {wanted}, but there was {came}");
        (self.outcomes.iter().copied().any(such), words)
    }

    /// Telegrams that the controller has not taken.
    pub fn behind(&self) -> u32 {
        self.panel.count - self.controller.count
    }

    /// Whether the ends agree, in words.
    pub fn agreement_words(&self) -> String {
        match u64::from(self.behind()) {
            0 if self.agree() => "both ends agree".to_string(),
            0 => "the ends do NOT agree".to_string(),
            behind => format!("the controller is {} behind", number_of(behind, "telegram")),
        }
    }
}

fn firing(transition: usize) -> String {
    format!("a firing of transition {transition}")
}

fn numbered(what: &str, number: Option<u32>) -> String {
    number.map_or(what.to_string(), |number| format!("{what} {number}"))
}
