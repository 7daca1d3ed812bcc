//! The program as it is called: what it answers, its exit status, and what it says of wrong input of every kind.

mod program;

use program::{example, fed, folder, program, rink, says, Answer, DONE, REFUSED, TROUBLE};
use std::fs;
use std::io::Write;
use std::process::Stdio;

/// The commands that read a plant: its text or its diagram file.
const OF_PLANTS: [&str; 6] = ["make", "show", "draw", "annex", "play", "check"];
/// The commands that read a run of telegrams.
const OF_RUNS: [&str; 2] = ["up", "down"];

fn commands() -> impl Iterator<Item = &'static str> {
    OF_PLANTS.into_iter().chain(OF_RUNS)
}

#[test]
fn help_of_each_command() {
    for command in commands() {
        let answer = rink(&[command, "--help"]);
        assert_eq!(answer.status, DONE);
        assert!(answer.text().contains(&format!("rink {command}")));
        assert!(rink(&["--help"])
            .text()
            .contains(&format!("rink {command}")));
        assert_eq!(rink(&[command, "-h"]).output, answer.output);
    }
    assert_eq!(rink(&["help"]).output, rink(&["--help"]).output);
    says(&rink(&[]), TROUBLE, "rink make");
}

#[test]
fn wrong_arguments() {
    says(&rink(&["frob"]), TROUBLE, "no command frob");
    for command in commands() {
        says(&rink(&[command]), TROUBLE, "no file named");
        says(
            &rink(&[command, "--frob", "x"]),
            TROUBLE,
            "no option --frob",
        );
        says(
            &rink(&[command, "x", "y"]),
            TROUBLE,
            "one file at a time, not x and y",
        );
        says(&rink(&[command, "x", "-o"]), TROUBLE, "-o without a value");
        says(
            &rink(&[command, "x", "-o", "y", "-o", "z"]),
            TROUBLE,
            "-o stands twice",
        );
    }
    let plant = example("a.dia");
    says(
        &rink(&["draw", "--dot", "--tina", &plant]),
        TROUBLE,
        "not both",
    );
    says(
        &rink(&["play", "--station", "x", &plant]),
        TROUBLE,
        "--station",
    );
    says(
        &rink(&["play", "--station", "65536", &plant]),
        TROUBLE,
        "--station",
    );
    says(&rink(&["play", "-"]), TROUBLE, "--script");
}

#[test]
fn wrong_paths() {
    let folder = folder("wrong-paths");
    let inside = folder.join("none/x").to_str().expect("letters").to_string();
    let folder = folder.to_str().expect("letters");
    for command in OF_PLANTS {
        says(
            &rink(&[command, &inside]),
            TROUBLE,
            "no such file or folder",
        );
        says(&rink(&[command, folder]), TROUBLE, "it is a folder");
    }
    let plant = example("a.plant");
    says(
        &rink(&["make", &plant, "-o", &inside]),
        TROUBLE,
        "no such file or folder",
    );
    says(
        &rink(&["make", &plant, "-o", folder]),
        TROUBLE,
        "it is a folder",
    );
    let under_file = format!("{plant}/x");
    says(
        &rink(&["make", &under_file]),
        TROUBLE,
        "a folder of its path is a file",
    );
    let diagram = example("a.dia");
    says(
        &rink(&["show", &diagram, "--names", &inside]),
        TROUBLE,
        "no such file or folder",
    );
    says(
        &rink(&["play", &diagram, "--script", &inside]),
        TROUBLE,
        "no such file or folder",
    );
}

#[test]
fn full_disk() {
    let full = || {
        fs::File::options()
            .write(true)
            .open("/dev/full")
            .expect("a full disk")
    };
    let plant = example("a.dia");
    for command in ["show", "draw", "annex", "check"] {
        let output = program(&[command, &plant]).stdout(full()).output();
        let answer = Answer::of(output.expect("it runs"));
        says(
            &answer,
            TROUBLE,
            "standard output: no room is left on the disk",
        );
        let answer = rink(&[command, &plant, "-o", "/dev/full"]);
        says(&answer, TROUBLE, "/dev/full: no room is left on the disk");
    }
}

/// Whoever reads the output may go: no message, and no panic. The diagram comes after the reader has gone.
#[test]
fn output_unread() {
    let mut child = program(&["annex", "-"])
        .stdin(Stdio::piped())
        .stdout(Stdio::piped())
        .stderr(Stdio::piped())
        .spawn()
        .expect("it runs");
    drop(child.stdout.take());
    let diagram = fs::read(example("ice-making.dia")).expect("shipped");
    let mut pipe = child.stdin.take().expect("a pipe");
    pipe.write_all(&diagram).expect("it reads all");
    drop(pipe);
    let answer = Answer::of(child.wait_with_output().expect("it ends"));
    assert_eq!((answer.status, answer.said.as_str()), (TROUBLE, ""));
}

/// Every shipped diagram is what its text makes, by a file's name and on standard input, into a file and to standard output.
#[test]
fn shipped_examples() {
    let folder = folder("shipped");
    let names = [
        "a",
        "f",
        "g",
        "h",
        "pump-down",
        "defrost",
        "ice-making",
        "pump-down-and-defrost",
        "door-open",
        "pressure-trip",
        "night-watch",
    ];
    for name in names {
        let text = example(&format!("{name}.plant"));
        let diagram = fs::read(example(&format!("{name}.dia"))).expect("shipped");
        assert_eq!(rink(&["make", &text]).output, diagram, "{name}");
        let bytes = fs::read(&text).expect("shipped");
        assert_eq!(fed(&["make", "-"], &bytes).output, diagram, "{name}");
        let made = folder.join(name);
        let answer = rink(&["make", &text, "-o", made.to_str().expect("letters")]);
        assert_eq!((answer.status, answer.output.len()), (DONE, 0));
        assert_eq!(fs::read(made).expect("made"), diagram, "{name}");
    }
}

#[test]
fn refused_files() {
    let refused = example("refused.dia");
    let words =
        "row 1, offset 30: a record is due, and only 3 bytes are left (refusal 1, cut short)";
    for command in ["show", "draw", "annex", "play"] {
        let answer = rink(&[command, &refused]);
        says(&answer, REFUSED, words);
        assert!(answer.output.is_empty());
    }
    let answer = rink(&["check", &refused]);
    assert_eq!(answer.status, REFUSED);
    assert!(answer.text().contains(words));
    for command in OF_PLANTS {
        let answer = fed(&[command, "-"], b"");
        assert_ne!(answer.status, DONE, "{command}");
    }
    says(
        &fed(&["show", "-"], b""),
        REFUSED,
        "the file ends where a record is due",
    );
    let text = example("a.plant");
    says(&rink(&["draw", &text]), REFUSED, "This looks like a text");
    says(
        &rink(&["make", &example("a.dia")]),
        REFUSED,
        "control character",
    );
    says(
        &fed(&["make", "-"], b"item \xff"),
        REFUSED,
        "standard input:1:6:",
    );
    says(
        &fed(&["make", "-"], b"loop\nend\n"),
        REFUSED,
        "standard input:2:1:",
    );
}

/// Names are those of the text beside the file or named, if it makes the file; else they are made up.
#[test]
fn names_beside() {
    let folder = folder("names");
    let path = |name: &str| folder.join(name).to_str().expect("letters").to_string();
    let text = "item oil 3\nfunction pump-down 2..5 take oil 1\nend\n";
    let diagram = fed(&["make", "-"], text.as_bytes()).output;
    fs::write(path("x.dia"), &diagram).expect("written");
    let made_up = rink(&["show", &path("x.dia")]);
    assert!(made_up
        .text()
        .contains("function function-0 2..5 take item-0 1"));
    for ending in ["txt", "plant"] {
        fs::write(path(&format!("x.{ending}")), text).expect("written");
        let named = rink(&["show", &path("x.dia")]);
        assert!(named.text().contains("function pump-down 2..5 take oil 1"));
        assert_eq!(named.said, "");
        assert_eq!(fed(&["make", "-"], &named.output).output, diagram);
        fs::write(path(&format!("x.{ending}")), "end\n").expect("written");
    }
    let other = rink(&["show", &path("x.dia")]);
    assert_eq!(other.output, made_up.output);
    says(&other, DONE, "makes another diagram: names are made up");
    fs::write(path("far"), text).expect("written");
    let named = rink(&["show", "--names", &path("far"), &path("x.dia")]);
    assert!(named.text().contains("pump-down"));
    let wrong = rink(&["show", "--names", &path("x.plant"), &path("x.dia")]);
    says(&wrong, REFUSED, "makes another diagram than");
}

#[test]
fn limits_told() {
    let answer = rink(&["check", &example("ice-making.dia")]);
    for line in [
        "accepted",
        "rows             31 of 64",
        "items             4 of 16",
        "depth             3 of 12",
    ] {
        assert!(answer.text().lines().any(|other| other == line), "{line}");
    }
    assert!(answer.text().contains("net bytes"));
    assert!(!answer.text().contains("trigger") && !answer.text().contains("annex"));
}

/// A text of so many functions that take and give each of so many triggers, each of them heard by all.
fn everyone(functions: usize, triggers: usize) -> String {
    let names: Vec<String> = (0..triggers).map(|number| format!("t{number}")).collect();
    let items: String = names
        .iter()
        .map(|name| format!("trigger {name} 1\n"))
        .collect();
    let uses: String = names
        .iter()
        .map(|name| format!(" take {name} 1 give {name} 1"))
        .collect();
    let rows: String = (0..functions)
        .map(|row| format!("function f{row} 1..9{uses}\n"))
        .collect();
    items + &rows + "end\n"
}

/// Receivers of each trigger, by the names of the text beside; a trigger without any is pointed out.
#[test]
fn receivers_told() {
    let has = |answer: &Answer, lines: &[&str]| {
        for line in lines {
            let text = answer.text();
            assert!(text.lines().any(|other| other == *line), "{line} in {text}");
        }
    };
    let door = rink(&["check", &example("door-open.dia")]);
    has(
        &door,
        &[
            "items             3 of 16",
            "places           68 of 1216",
            "state words      68 of 1216",
            "trigger door: 2 receivers, stop-fan (row 6) and slow-pump (row 9)",
        ],
    );
    let made = |text: &str| fed(&["make", "-"], text.as_bytes()).output;
    let checked = |text: &str| fed(&["check", "-"], &made(text));
    let text = "item oil 1\ntrigger bell 1\nfunction f 1..2 take oil 1 give bell 1\nend\n";
    has(
        &checked(text),
        &[
            "places            8 of 1216",
            "trigger trigger-1: no receiver, what is given to it changes nothing",
        ],
    );
    has(&checked(&everyone(6, 1)), &[
        "trigger trigger-0: 6 receivers, function-0 (row 0), function-1 (row 1), function-2 (row 2), function-3 (row 3) and 2 more",
    ]);
    let longest = checked(&everyone(63, 16));
    has(&longest, &[
        "places         1216 of 1216",
        "net bytes    526676 of 584072",
        "state words    1216 of 1216",
        "annex: the net has 526676 bytes and is not printed: the annex program has room for 65536, and says \"refused 10 526676\"",
    ]);
    assert!(!checked(&everyone(20, 16)).text().contains("annex:"));
    let names = fed(
        &["check", "-", "--names", &example("door-open.plant")],
        &made(&everyone(1, 1)),
    );
    says(&names, REFUSED, "makes another diagram than -");
}

/// What each killing branch kills, and one that never does.
#[test]
fn kills_told() {
    let trip = rink(&["check", &example("pressure-trip.dia")]);
    let line = "killing branch trip (row 15): kills branch compressor (row 3), branch brine (row 8) and branch defrost (row 10)";
    assert!(
        trip.text().lines().any(|other| other == line),
        "{}",
        trip.text()
    );
    let text = "loop\nand\nkilling branch\nexit loop\nkilling branch\nfunction f 1..2\nend and\nend loop\nend\n";
    let file = fed(&["make", "-"], text.as_bytes()).output;
    let checked = fed(&["check", "-"], &file);
    let never = "killing branch (row 2): never kills, it ends with `exit loop`\nkilling branch (row 4): kills killing branch (row 2)\n";
    assert!(checked.text().contains(never), "{}", checked.text());
}

/// The EXITs of each box in the order of its outlets, and a killing branch that never kills for one.
#[test]
fn boxes_told() {
    let has = |answer: &Answer, line: &str| {
        let text = answer.text();
        assert!(text.lines().any(|other| other == line), "{line} in {text}");
    };
    let store = rink(&["check", &example("pull-down.dia")]);
    has(&store, "box pull-down (row 2): left by exit to setpoint-reached (row 16), exit to pressure-trip (row 27) and exit to time-out (row 30)");
    has(
        &store,
        "killing branch oil-pump (row 6): kills branch crankcase (row 4)",
    );
    let text = "box\nand\nkilling branch\nexit to b\nbranch\nexit to a\nend and\noutlet a\noutlet b\nend box\nend\n";
    let file = fed(&["make", "-"], text.as_bytes()).output;
    let checked = fed(&["check", "-"], &file);
    has(
        &checked,
        "killing branch (row 2): never kills, it ends with `exit to outlet-1`",
    );
    has(
        &checked,
        "box (row 0): left by exit to outlet-0 (row 5) and exit to outlet-1 (row 3)",
    );
}

/// That a file is refused in these words: `check` prints them, other commands say them.
fn refuses(file: &[u8], words: &str) {
    let answer = fed(&["check", "-"], file);
    assert_eq!(answer.status, REFUSED);
    assert!(answer.text().contains(words), "{}", answer.text());
    says(&fed(&["draw", "-"], file), REFUSED, words);
}

/// An empty killing branch in a file: its row and offset.
#[test]
fn refused_killer() {
    let text = "and\nbranch\nbranch\nend and\nend\n";
    let mut file = fed(&["make", "-"], text.as_bytes()).output;
    file[16] = 28;
    refuses(
        &file,
        "row 1, offset 14: nothing stands in this `killing branch`",
    );
    file[12] = 20;
    let words = "row 1, offset 14: a `killing branch` belongs to an `and`, and the innermost open construct is the `or` of row 0: ";
    refuses(&file, words);
}

/// What is off with a box in a file: its rows and the numbers of its outlets.
#[test]
fn refused_box() {
    let text = "function f 1..2\nbox\nor\nbranch\nexit to a\nbranch\nexit to b\nend or\noutlet a\noutlet b\nend box\nend\n";
    let made = fed(&["make", "-"], text.as_bytes()).output;
    assert_eq!(made[30..36], [6, 0, 31, 0, 0, 0]);
    let with = |at: usize, byte: u8| {
        let mut file = made.clone();
        file[at] = byte;
        file
    };
    refuses(
        &with(34, 7),
        "row 1, offset 18: the `exit to` of row 4 leads to outlet 7, and this `box` has 2 of them, numbered from 0 (refusal 49, ",
    );
    refuses(
        &with(34, 1),
        "row 1, offset 18: the `exit to` of row 4 and that of row 6 lead to the same outlet, that of row 9: each outlet has one (refusal 49, ",
    );
    refuses(
        &with(52, 28),
        "row 8, offset 50: a `killing branch` belongs to an `and`, and the innermost open construct is the `box` of row 1: behind its scenario stand outlets, write `outlet` and a name (refusal 7, ",
    );
    let short = [&made[..30], &[4, 0, 31, 0], &made[36..]].concat();
    refuses(
        &short,
        "row 4, offset 30: 4 bytes are no length of a record of kind 31 (refusal 3, ",
    );
    let file = fed(
        &["make", "-"],
        text.replace("exit to b\n", "exit to b\nbranch\n")
            .as_bytes(),
    );
    says(
        &file,
        REFUSED,
        "standard input:2:1: the scenario of this `box` comes to its end behind the `branch` of line 8",
    );
}

/// A loop that spends no time in a file: its row and offset, and where it ends.
#[test]
fn refused_loop() {
    let text = "item oil 1\nrepeat 2\nloop\nfunction f 1..2\nend loop\nend repeat\nend\n";
    let mut file = fed(&["make", "-"], text.as_bytes()).output;
    file[30] = 0;
    let words = "row 1, offset 22: no function between this `loop` and the `end loop` of row 3 has a shortest time of 0.1 s or more, so a way round it would spend no time: put one in, or raise a shortest time (refusal 45, loop spends no time)";
    refuses(&file, words);
}

/// A way round a loop that may spend no time is a warning; loops without one have none.
#[test]
fn rounds_told() {
    let watch = rink(&["check", &example("night-watch.dia")]);
    assert_eq!((watch.status, watch.said.as_str()), (DONE, ""));
    let warning = "warning: loop watch (row 0): a way round it may spend no time: or ice (row 1), branch cold (row 4), end or (row 7) and end loop (row 8)";
    let warnings = |answer: &Answer| -> Vec<String> {
        let lines = answer.text().lines();
        let lines = lines.filter(|line| line.starts_with("warning"));
        lines.map(str::to_string).collect()
    };
    assert_eq!(warnings(&watch), [warning]);
    for name in ["h", "pump-down", "ice-making", "pressure-trip", "pull-down"] {
        let checked = rink(&["check", &example(&format!("{name}.dia"))]);
        assert_eq!(checked.status, DONE, "{name}");
        assert_eq!(warnings(&checked), [""; 0], "{name}");
    }
}

/// A trigger's take above 1 in a file: its row and offset.
#[test]
fn refused_trigger() {
    let mut file = fed(&["make", "-"], everyone(1, 1).as_bytes()).output;
    file[26] = 2;
    let words = "row 0, offset 16: it takes 2 of item 0: of a trigger 1 is the most (refusal 43, ";
    refuses(&file, words);
    file[12] = 4;
    refuses(
        &file,
        "a record of kind 4 stands where an item, kind 2, or a trigger, kind 3, is due (refusal 2, ",
    );
}

/// A lesson prints what is stored of it; one that does not come out names its line, behind what it printed up to there.
#[test]
fn lessons() {
    let folder = folder("lessons");
    let path = |name: &str| folder.join(name).to_str().expect("letters").to_string();
    let plant = example("pump-down.dia");
    let stored = fs::read(example("pump-down.lesson.txt")).expect("shipped");
    let lesson = example("pump-down.lesson");
    assert_eq!(rink(&["play", &plant, "--script", &lesson]).output, stored);
    rink(&["play", &plant, "--script", &lesson, "-o", &path("played")]);
    assert_eq!(fs::read(path("played")).expect("written"), stored);
    let bytes = fs::read(&plant).expect("shipped");
    let text = example("pump-down.plant");
    let fed_plant = fed(
        &["play", "-", "--script", &lesson, "--names", &text],
        &bytes,
    );
    assert_eq!(fed_plant.output, stored);
    let fed_lesson = |lesson: &str| fed(&["play", &plant, "--script", "-"], lesson.as_bytes());
    let unmet = fed_lesson("step 0\n  expect refused\n");
    says(&unmet, REFUSED, "standard input:2:");
    assert!(unmet.text().contains("> step 0"));
    let unknown = fed_lesson("step 0\nfrob\n");
    says(&unknown, REFUSED, "standard input:2:1:");
    assert!(unknown.output.is_empty());
    says(
        &rink(&["play", &plant, "-o", "x"]),
        TROUBLE,
        "it needs --script",
    );
    says(
        &fed(&["play", "-", "--script", "-"], b""),
        TROUBLE,
        "can't both",
    );
}

/// The game ends with its input.
#[test]
fn typed_game() {
    let answer = fed(&["play", &example("a.dia")], b"1\ndeliver\nfrob\n");
    assert_eq!((answer.status, answer.said.as_str()), (DONE, ""));
    assert!(answer.text().contains("the controller takes telegram 1"));
    assert!(answer.text().contains("frob"));
}

/// The formats of other programs name every arc, and TINA's the clears in comments.
#[test]
fn other_formats() {
    let plant = example("h.dia");
    let dot = rink(&["draw", "--dot", &plant]);
    let tina = rink(&["draw", "--tina", &plant]);
    assert_eq!(rink(&["draw", "--net", "--dot", &plant]).output, dot.output);
    for arc in [
        "p0 -> t0;",
        "t0 -> p3;",
        "p9 -> t2;",
        "t2 -> p24;",
        "clears 0 to 23",
    ] {
        assert!(dot.text().contains(arc), "{arc}");
    }
    for line in [
        "# t2 clears 0 to 23",
        "tr t4 : {stir ends} [1,9] p16 -> p12",
        "pl p0 : {loop (row 0) ready} (1)",
    ] {
        assert!(tina.text().lines().any(|other| other == line), "{line}");
    }
    let repeat = rink(&["draw", "--tina", &example("f.dia")]);
    assert!(repeat.text().contains("p0 p1*2 -> p2*2 p6"));
    let door = rink(&["draw", "--tina", &example("door-open.dia")]);
    for line in [
        "tr t4 : {watch-door ends} [10,6000] p10 -> p12 p66 p67",
        "pl p66 : {count of door@stop-fan} (0)",
    ] {
        assert!(door.text().lines().any(|other| other == line), "{line}");
    }
    assert!(!door.text().contains("pl p63"), "a trigger's own place");
    let trip = rink(&["draw", "--tina", &example("pressure-trip.dia")]);
    for line in [
        "# t22 clears 9 to 53",
        "tr t22 : {open-contactor ends, killing the other branches of making} [1,2] p52 -> p9 p24 p30 p35*3 p45",
    ] {
        assert!(trip.text().lines().any(|other| other == line), "{line}");
    }
    let store = rink(&["draw", "--tina", &example("pull-down.dia")]);
    for line in [
        "# t16 clears 6 to 95",
        "tr t3 : {pull-down: scenario begins} [0,0] p6 -> p9",
        "tr t16 : {exit to setpoint-reached (row 16): box left} [0,0] p48 -> p62*3 p99",
        "tr t33 : {exit to time-out (row 30): box left} [0,0] p90 -> p62*3 p114",
        "tr t41 : {end box (row 38) passed} [0,0] p114 -> p117",
    ] {
        assert!(store.text().lines().any(|other| other == line), "{line}");
    }
}

/// The page has the file's bytes and length, and needs nothing from elsewhere.
#[test]
fn annex_page() {
    let page = rink(&["annex", &example("a.dia")]);
    let text = page.text();
    assert!(text.contains("34 bytes"));
    assert!(text.contains("0000  0a 00 01 00 01 00 02 00 01 00 06 00 02 00 03 00\n"));
    assert!(text.contains("<td>item 0</td><td>count of oil</td>"));
    assert!(text.contains("<td>pump-down starts</td>"));
    // A drawing's own parts are named by `url(#..)`.
    let text_apart = text.replace("url(#", "");
    for fetched in ["src=", "href=", "url(", "@import", "<script"] {
        assert!(!text_apart.contains(fetched), "{fetched}");
    }
    let annex = fs::read_to_string(example("a.txt")).expect("shipped");
    assert!(text.contains(&format!("<pre class=\"annex\">{annex}</pre>")));
    let door = rink(&["annex", &example("door-open.dia")]);
    assert!(door
        .text()
        .contains("21 rows, 3 items, 1 trigger among them; the net has 68 places"));
    assert!(door
        .text()
        .contains("<td>item 0, row 6</td><td>count of door@stop-fan</td>"));
    assert!(door.text().contains("<pre>trigger door 0</pre>"));
    let trip = rink(&["annex", &example("pressure-trip.dia")]);
    for words in [
        "30 rows, 1 killing branch among them, 3 items; the net has 93 places",
        "<td>open-contactor ends, killing the other branches of making</td>",
        "<pre>    killing branch trip</pre>",
        "<td>trip done</td>",
    ] {
        assert!(trip.text().contains(words), "{words}");
    }
    let store = rink(&["annex", &example("pull-down.dia")]);
    for words in [
        "48 rows, 1 killing branch and 1 box among them, 2 items; the net has 146 places",
        "<pre>  outlet pressure-trip</pre>",
        "<pre>        exit to pressure-trip</pre>",
        "<td>exit to pressure-trip (row 27): box left</td>",
        "<rect data-box=\"2\" ",
    ] {
        assert!(store.text().contains(words), "{words}");
    }
}
