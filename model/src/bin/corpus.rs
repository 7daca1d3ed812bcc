//! Writes generated diagram files and the annex text that is expected of them:
//! `corpus SEED COUNT DIRECTORY`.

use model::annex::annex;
use model::generate::{
    boxed_diagram, crowded_diagram, damaged_diagram, diagram, killing_diagram, leaky_diagram,
    odd_box_diagram, timeless_diagram, Random,
};
use std::path::Path;
use std::process::ExitCode;
use std::{env, fs, io};

fn main() -> ExitCode {
    let arguments: Vec<String> = env::args().skip(1).collect();
    let [seed, count, directory] = arguments.as_slice() else {
        return usage();
    };
    let (Ok(seed), Ok(count)) = (seed.parse(), count.parse()) else {
        return usage();
    };
    match write_corpus(seed, count, Path::new(directory)) {
        Ok(()) => ExitCode::SUCCESS,
        Err(error) => {
            eprintln!("{error}");
            ExitCode::FAILURE
        }
    }
}

fn usage() -> ExitCode {
    eprintln!("corpus SEED COUNT DIRECTORY");
    ExitCode::FAILURE
}

/// One half accepted, mostly, and one half damaged; of a hundred one with a long
/// net, nine made for kills, five for loops that may spend no time, eighteen for
/// boxes, what is off in half of them.
fn write_corpus(seed: u64, count: u32, directory: &Path) -> io::Result<()> {
    fs::create_dir_all(directory)?;
    let mut random = Random::new(seed);
    for number in 0..count {
        let file = match random.below(100) {
            0 => crowded_diagram(&mut random),
            1..10 => killing_diagram(&mut random),
            10..15 => timeless_diagram(&mut random),
            15..24 => boxed_diagram(&mut random),
            24..28 => leaky_diagram(&mut random),
            28..33 => odd_box_diagram(&mut random),
            33..55 => diagram(&mut random),
            _ => damaged_diagram(&mut random),
        };
        fs::write(directory.join(format!("{number:05}.dia")), &file)?;
        fs::write(directory.join(format!("{number:05}.txt")), annex(&file))?;
    }
    Ok(())
}
