//! `compare SEED SECONDS`: random cases of every kind until the time is up. Status 1 at the first difference, or where a run of some seconds
//! did not meet every refusal of refusals.txt, or a call no kill, no box that is left, not every refusal of a file's loops and boxes, or not
//! every answer to a run of telegrams or to a row's transition.
//! `compare SEED KIND ROUND`: that one case again.

use compare::cases::KINDS;
use compare::met::{listed, Met};
use compare::run_case;
use std::env;
use std::process::ExitCode;
use std::time::{Duration, Instant};

/// Seconds from which on a run meets every refusal, on a slow machine too.
const ENOUGH: u64 = 3;

fn main() -> ExitCode {
    let arguments: Result<Vec<u64>, _> = env::args().skip(1).map(|word| word.parse()).collect();
    let result = match arguments.as_deref() {
        Ok([seed, seconds]) => run(*seed, *seconds),
        Ok([seed, kind, round]) if *kind < KINDS.len() as u64 => repeat(*seed, *kind, *round),
        _ => Err("compare SEED SECONDS, or compare SEED KIND ROUND".to_owned()),
    };
    match result {
        Ok(()) => ExitCode::SUCCESS,
        Err(text) => {
            eprintln!("{text}");
            ExitCode::FAILURE
        }
    }
}

fn repeat(seed: u64, kind: u64, round: u64) -> Result<(), String> {
    run_case(seed, kind as usize, round, &mut Met::default())?;
    println!("seed {seed}, kind {kind}, round {round}: no difference");
    Ok(())
}

fn run(seed: u64, seconds: u64) -> Result<(), String> {
    println!("comparing with the model: seed {seed}, {seconds} seconds");
    let until = Instant::now() + Duration::from_secs(seconds);
    let mut met = Met::default();
    let mut rounds = 0;
    while Instant::now() < until {
        for kind in 0..KINDS.len() {
            run_case(seed, kind, rounds, &mut met)?;
        }
        rounds += 1;
    }
    let (kinds, calls) = (KINDS.len(), met.calls());
    println!("{rounds} cases of each of {kinds} kinds, {calls} answers, no difference");
    let missing = met.missing();
    if let (true, Some((times, number, name))) = (missing.is_empty(), met.rarest()) {
        let all = listed().count();
        println!("all {all} refusals met, {number} {name} least often: {times} times");
    }
    println!("met, by call: {:?}", met.sights());
    if seconds >= ENOUGH && !missing.is_empty() {
        return Err(format!("seed {seed}: refusals not met: {missing:?}"));
    }
    let unseen = met.unseen();
    if seconds >= ENOUGH && !unseen.is_empty() {
        return Err(format!("seed {seed}: calls that never met: {unseen:?}"));
    }
    Ok(())
}
