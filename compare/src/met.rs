//! Which answers a run has met, held against the list of refusals, and which calls have met what they should: kills, boxes that are left, files
//! that are refused for their loops or boxes, each answer that runs of telegrams and a row's transition can have, each kind of row that a
//! transition is asked of.

use effbd::Answer;
use std::collections::BTreeMap;

/// Number and name of each refusal of refusals.txt.
pub fn listed() -> impl Iterator<Item = (u32, &'static str)> {
    let lines = include_str!("../../refusals.txt").lines();
    lines.filter(|line| !line.starts_with('#')).map(|line| {
        let mut fields = line.split('\t');
        let number = fields.next().and_then(|field| field.parse().ok());
        number
            .zip(fields.next())
            .expect("a line of refusals.txt has a number and a name")
    })
}

/// What each call should meet in a run of some length, whatever else it meets.
#[derive(Clone, Copy, PartialEq, Eq, PartialOrd, Ord, Debug)]
pub enum Sight {
    /// A plant with branches that kill, or a move that kills.
    Kills,
    /// A plant with boxes, or a move that leaves one.
    Exits,
    /// A file that is refused with this number: every call that reads files should meet it.
    Refused(u32),
    /// A row of this kind and activity, or none, asked at a state that passes.
    Row(&'static str),
    /// An answer of this number, 0 accepted: `times` cannot tell whether this call had it, since others have such answers too.
    Answer(u32),
}

/// The number of an answer; 0 is accepted.
fn number_of(answer: Answer) -> u32 {
    answer.map_or_else(|refusal| refusal.number, |_| 0)
}

/// How often each number was answered; 0 is accepted. How often each call met each sight.
#[derive(Default)]
pub struct Met {
    times: BTreeMap<u32, u64>,
    sights: BTreeMap<(Sight, &'static str), u64>,
}

impl Met {
    pub fn note(&mut self, answer: Answer) {
        *self.times.entry(number_of(answer)).or_default() += 1;
    }

    /// Notes an answer of a call that should have each of these numbers now and then.
    pub fn note_among(&mut self, call: &'static str, numbers: &[u32], answer: Answer) {
        self.note(answer);
        for number in numbers {
            let times = usize::from(number_of(answer) == *number);
            self.note_sight(Sight::Answer(*number), call, times);
        }
    }

    fn times(&self, number: u32) -> u64 {
        self.times.get(&number).copied().unwrap_or_default()
    }

    /// Calls that gave an answer.
    pub fn calls(&self) -> u64 {
        self.times.values().sum()
    }

    /// The refusals that no call was answered with.
    pub fn missing(&self) -> Vec<(u32, &'static str)> {
        listed()
            .filter(|(number, _)| self.times(*number) == 0)
            .collect()
    }

    /// Notes how often a call met a sight, be it never.
    pub fn note_sight(&mut self, sight: Sight, call: &'static str, times: usize) {
        *self.sights.entry((sight, call)).or_default() += times as u64;
    }

    /// How often each call met each sight.
    pub fn sights(&self) -> &BTreeMap<(Sight, &'static str), u64> {
        &self.sights
    }

    /// The sights that a call never met.
    pub fn unseen(&self) -> Vec<(Sight, &'static str)> {
        let never = self.sights.iter().filter(|(_, times)| **times == 0);
        never.map(|(sight, _)| *sight).collect()
    }

    /// The refusal that came least often: times, number, name.
    pub fn rarest(&self) -> Option<(u64, u32, &'static str)> {
        listed()
            .map(|(number, name)| (self.times(number), number, name))
            .min()
    }
}
