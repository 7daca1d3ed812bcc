//! The proved functions against the plain model, through the static library.
//!
//! A case makes calls of both on the same input and asks that the answers and the lent memory afterwards are the same. The proved one is lent
//! its memory between guard elements, which have to stay as they are. A difference comes with the whole input of its call.

pub mod calls;
pub mod cases;
pub mod guard;
pub mod met;

use cases::KINDS;
use met::Met;
use model::generate::Random;

/// Nothing, or how the two differ and on what input.
pub type Verdict = Result<(), String>;

/// A refusal of the model as one of the bindings, so that answers compare.
pub fn told(answer: model::Answer) -> effbd::Answer {
    answer.map_err(|refusal| effbd::Refusal {
        number: refusal.number,
        value: refusal.value,
    })
}

/// One case of the kind with this number. Each has random numbers of its own, so that seed, kind and round repeat it alone.
pub fn run_case(seed: u64, kind: usize, round: u64, met: &mut Met) -> Verdict {
    let name = KINDS[kind].name;
    let case_number = round * KINDS.len() as u64 + kind as u64;
    // Mixed, since seeds that follow each other must not have cases in common.
    let mut random = Random::new(Random::new(seed).draw() ^ case_number);
    (KINDS[kind].case)(&mut random, met)
        .map_err(|difference| format!("seed {seed}, kind {kind} ({name}), round {round}: {difference}\nagain: compare {seed} {kind} {round}"))
}
