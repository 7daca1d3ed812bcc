//! The program as a test calls it, and its answers.

use std::fs;
use std::io::Write;
use std::path::{Path, PathBuf};
use std::process::{Command, Output, Stdio};

pub const DONE: i32 = 0;
pub const REFUSED: i32 = 1;
pub const TROUBLE: i32 = 2;

/// An answer of the program.
pub struct Answer {
    pub status: i32,
    pub output: Vec<u8>,
    pub said: String,
}

impl Answer {
    pub fn of(output: Output) -> Answer {
        Answer {
            status: output.status.code().expect("it ends by itself"),
            output: output.stdout,
            said: String::from_utf8(output.stderr).expect("it says letters"),
        }
    }

    pub fn text(&self) -> &str {
        std::str::from_utf8(&self.output).expect("a text")
    }
}

pub fn program(arguments: &[&str]) -> Command {
    let mut program = Command::new(env!("CARGO_BIN_EXE_rink"));
    program.args(arguments).stdin(Stdio::null());
    program
}

pub fn rink(arguments: &[&str]) -> Answer {
    Answer::of(program(arguments).output().expect("it runs"))
}

/// With these bytes on standard input.
pub fn fed(arguments: &[&str], input: &[u8]) -> Answer {
    let mut child = program(arguments)
        .stdin(Stdio::piped())
        .stdout(Stdio::piped())
        .stderr(Stdio::piped())
        .spawn()
        .expect("it runs");
    let mut pipe = child.stdin.take().expect("a pipe");
    // It may end without having read all.
    let _ = pipe.write_all(input);
    drop(pipe);
    Answer::of(child.wait_with_output().expect("it ends"))
}

/// It ends with this status and says this.
pub fn says(answer: &Answer, status: i32, words: &str) {
    let Answer { said, .. } = answer;
    assert_eq!(answer.status, status, "{said}");
    assert!(said.contains(words), "{words:?} is not in {said:?}");
}

pub fn example(name: &str) -> String {
    let examples = Path::new(env!("CARGO_MANIFEST_DIR")).join("../examples");
    examples.join(name).to_str().expect("letters").to_string()
}

/// A folder of this test's own, empty.
pub fn folder(name: &str) -> PathBuf {
    let folder = Path::new(env!("CARGO_TARGET_TMPDIR")).join(name);
    let _ = fs::remove_dir_all(&folder);
    fs::create_dir_all(&folder).expect("a folder");
    folder
}
