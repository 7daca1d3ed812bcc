//! The annex page's text is the annex program's own, as the proved program prints it.

use model::examples::{longest_net, triggers};
use model::generate::{crowded_diagram, diagram, Random};
use rink::plant::Plant;
use rink::{annex, net};
use std::fs;
use std::io::Write;
use std::path::{Path, PathBuf};
use std::process::{Command, Stdio};

const RANDOM_FILES: u64 = 200;

fn root() -> PathBuf {
    Path::new(env!("CARGO_MANIFEST_DIR")).join("..")
}

/// What the proved annex program prints of a file.
fn printed(file: &[u8]) -> String {
    let program = root().join("crates/annex/out/annex");
    let mut child = Command::new(&program)
        .stdin(Stdio::piped())
        .stdout(Stdio::piped())
        .spawn()
        .unwrap_or_else(|fault| {
            panic!(
                "{}: {fault}: run rt ci, or rt run in crates/annex",
                program.display()
            )
        });
    let mut pipe = child.stdin.take().expect("a pipe");
    pipe.write_all(file).expect("it reads all");
    drop(pipe);
    let output = child.wait_with_output().expect("it ends");
    String::from_utf8(output.stdout).expect("letters")
}

/// The text of a page's annex.
fn text_of(page: &str) -> String {
    let (_, behind) = page.split_once("<pre class=\"annex\">").expect("an annex");
    let (text, _) = behind.split_once("</pre>").expect("its end");
    let plain = text.replace("&lt;", "<").replace("&gt;", ">");
    plain.replace("&quot;", "\"").replace("&amp;", "&")
}

fn compare(file: &[u8], whose: &str) {
    let plant = Plant::read(file).expect("accepted");
    let page = annex::page(&plant, file, false).expect("a net");
    assert_eq!(text_of(&page), printed(file), "{whose}\n{file:?}");
}

#[test]
fn shipped_annexes() {
    let folder = fs::read_dir(root().join("examples")).expect("shipped");
    let paths = folder.map(|entry| entry.expect("shipped").path());
    let diagrams = paths.filter(|path| path.extension().is_some_and(|ending| ending == "dia"));
    let mut compared = 0;
    for path in diagrams {
        let file = fs::read(&path).expect("shipped");
        if effbd::read_diagram(&file).is_ok() {
            compare(&file, &path.display().to_string());
            compared += 1;
        }
    }
    assert!(compared >= 12, "{compared} compared");
}

/// A net that the annex program has no room for: its own line stands there, and the page says why.
#[test]
fn nets_not_printed() {
    let mut refused = 0;
    let crowded = (0..20).map(|seed| crowded_diagram(&mut Random::new(seed)));
    for file in crowded.chain([longest_net(), triggers(16, 22), triggers(16, 21)]) {
        compare(&file, "crowded");
        let plant = Plant::read(&file).expect("accepted");
        let page = annex::page(&plant, &file, false).expect("a net");
        let length = net::translated(&file).expect("a net").len();
        let line = format!("refused 10 {length}\n");
        let large = length > effbd::ANNEX_NET_ROOM;
        assert_eq!(text_of(&page) == line, large);
        let words = format!("the net has {length} bytes and is not printed");
        assert_eq!(page.contains(&words), large);
        refused += usize::from(large);
    }
    assert!(refused >= 8, "{refused} refused");
}

#[test]
fn random_annexes() {
    let mut compared = 0;
    for seed in 0..RANDOM_FILES {
        let file = diagram(&mut Random::new(seed));
        if effbd::read_diagram(&file).is_ok() {
            compare(&file, &format!("seed {seed}"));
            compared += 1;
        }
    }
    assert!(compared > RANDOM_FILES / 2, "{compared} compared");
}
