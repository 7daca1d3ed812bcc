//! Runs of telegrams through the program: both ways and back, and what it says of each that is refused.

mod program;

use effbd::{Move, SETPOINT_LENGTH};
use model::generate::Random;
use program::{example, fed, folder, program, rink, says, Answer, DONE, REFUSED, TROUBLE};
use std::fs;
use std::path::Path;

/// Bytes of a telegram of either edition.
const OLD: usize = effbd::OLD_TELEGRAM_LENGTH;
const NEW: usize = effbd::TELEGRAM_LENGTH;
const NO_TELEGRAM: &str = "refusal 30, no telegram";

fn shipped(name: &str) -> Vec<u8> {
    fs::read(example(name)).expect("shipped")
}

fn letters(path: &Path) -> &str {
    path.to_str().expect("letters")
}

/// What `down` says of a run of this station that begins with this number.
fn told(station: u16, first: u32) -> String {
    format!("station {station}, first number {first}: `rink up --station {station} --first {first}` gives the run back\n")
}

/// It is done and says nothing but this.
fn done(answer: &Answer, said: &str) {
    assert_eq!((answer.status, answer.said.as_str()), (DONE, said));
}

/// It is refused, says just this, and writes nothing.
fn refused(answer: &Answer, said: &str) {
    assert_eq!((answer.status, answer.said.as_str()), (REFUSED, said));
    assert!(answer.output.is_empty(), "{said}");
}

/// What is said of a run on standard input, of telegrams of this length, where the telegram of this index is off.
fn off(index: usize, length: usize, why: &str, number: &str) -> String {
    let offset = index * length;
    format!("standard input: refused at the telegram of index {index}, offset {offset}: {why} ({number})\n")
}

/// `up` of a run on standard input.
fn up(run: &[u8], station: u16, first: u32) -> Answer {
    let (station, first) = (station.to_string(), first.to_string());
    let arguments = ["up", "-", "--station", &station, "--first", &first];
    fed(&arguments, run)
}

/// `down` of a run on standard input.
fn down(run: &[u8]) -> Answer {
    fed(&["down", "-"], run)
}

/// A telegram of the old edition, byte for byte.
fn old_telegram(setpoint: &[u8]) -> Vec<u8> {
    [&[8, 0, 47, 0], setpoint].concat()
}

/// A telegram of the new edition, byte for byte.
fn telegram(number: u32, station: u16, setpoint: &[u8]) -> Vec<u8> {
    let (number, station) = (number.to_le_bytes(), station.to_le_bytes());
    [&[14, 0, 48, 0], &number, &station[..], setpoint].concat()
}

/// Five telegrams of the old edition.
fn old_run() -> Vec<u8> {
    old_telegram(&Move::Step(3).setpoint()).repeat(5)
}

/// Telegrams of station 9 with these numbers.
fn numbered(numbers: &[u32]) -> Vec<u8> {
    let telegram = |&number: &u32| telegram(number, 9, &Move::Step(3).setpoint());
    numbers.iter().flat_map(telegram).collect()
}

/// Five telegrams of station 9, the first numbered 7.
fn new_run() -> Vec<u8> {
    numbered(&[7, 8, 9, 10, 11])
}

#[test]
fn shipped_runs() {
    let folder = folder("shipped-runs");
    let (old, new) = (example("old-panel.run"), example("new-bus.run"));
    let options = ["--station", "7", "--first", "1"];
    let (converted, back) = (folder.join("new-bus.run"), folder.join("old-panel.run"));

    let upward = rink(&[&["up", &old][..], &options].concat());
    done(&upward, "");
    assert_eq!(upward.output, shipped("new-bus.run"));
    let into = ["-o", letters(&converted)];
    let upward = rink(&[&["up", &old][..], &options, &into].concat());
    done(&upward, "");
    assert!(upward.output.is_empty());
    assert_eq!(fs::read(&converted).expect("made"), shipped("new-bus.run"));

    let downward = rink(&["down", &new]);
    done(&downward, &told(7, 1));
    assert_eq!(downward.output, shipped("old-panel.run"));
    let downward = rink(&["down", letters(&converted), "-o", letters(&back)]);
    done(&downward, &told(7, 1));
    assert!(downward.output.is_empty());
    assert_eq!(fs::read(&back).expect("made"), shipped("old-panel.run"));
}

/// The run for the new bus is what a panel of the new edition sends, and a fresh controller takes all of it.
#[test]
fn as_a_new_panel_sends() {
    let (file, new) = (shipped("pump-down.dia"), shipped("new-bus.run"));
    let mut net = vec![0; effbd::NET_ROOM];
    let length = effbd::translate(&file, &mut net).expect("accepted");
    net.truncate(length as usize);
    let words = |read: effbd::Answer| vec![0; read.expect("accepted") as usize];
    let mut panel = words(effbd::read_diagram(&file));
    let mut controller = words(effbd::read_net(&net));
    effbd::fresh_diagram(&file, &mut panel).expect("accepted");
    effbd::fresh_net(&net, &mut controller).expect("accepted");
    for (count, telegram) in (0..).zip(new.chunks(NEW)) {
        let [.., code, 0, low, high] = *telegram else {
            panic!("telegram {count} has no code below 256");
        };
        let argument = u16::from_le_bytes([low, high]);
        let mut sent = [0; NEW];
        let offered = effbd::offer(
            &file,
            &mut panel,
            count,
            7,
            code.into(),
            argument,
            &mut sent,
        );
        assert_eq!((offered, &sent[..]), (Ok(count + 1), telegram));
        let taken = effbd::take(&net, &mut controller, count, 7, telegram);
        assert_eq!(taken, Ok(count + 1));
    }
    // It gets to the end: row 20 is ready.
    assert_eq!(panel[3 * 20], 1);
}

/// Up gives the new bytes, whatever the setpoints, and down of these the old ones, with what `up` was given.
#[test]
fn round_trips() {
    let random = &mut Random::new(5);
    for size in [1, 2, 3, 255, 100_000] {
        let setpoints = random.bytes(size * SETPOINT_LENGTH);
        let setpoints = setpoints.chunks(SETPOINT_LENGTH);
        let old: Vec<u8> = setpoints.clone().flat_map(old_telegram).collect();
        let highest = u32::MAX - (size as u32 - 1);
        for (station, first) in [(0, 0), (9, 7), (258, 0x0102_0304), (u16::MAX, highest)] {
            let numbered = (first..=u32::MAX).zip(setpoints.clone());
            let new: Vec<u8> = numbered
                .flat_map(|(number, setpoint)| telegram(number, station, setpoint))
                .collect();
            let upward = up(&old, station, first);
            done(&upward, "");
            assert!(upward.output == new, "{size}, {station}, {first}");
            let downward = down(&new);
            done(&downward, &told(station, first));
            assert!(downward.output == old, "{size}, {station}, {first}");
        }
    }
}

#[test]
fn empty_run() {
    for answer in [up(b"", 9, 7), up(b"", 0, u32::MAX)] {
        done(&answer, "");
        assert!(answer.output.is_empty());
    }
    let answer = down(b"");
    done(&answer, &told(0, 0));
    assert!(answer.output.is_empty());
}

/// Each telegram of a run with another length or kind: which it is, where it stands, and what is wrong with it.
#[test]
fn no_telegram() {
    let changed = |mut run: Vec<u8>, byte: usize, value| {
        run[byte] = value;
        run
    };
    for index in 0..5 {
        for (byte, value, why) in [
            (
                0,
                9,
                "it has length 9, and a telegram of the old edition length 8",
            ),
            (
                3,
                1,
                "it has kind 303, and a telegram of the old edition kind 47",
            ),
        ] {
            let run = changed(old_run(), OLD * index + byte, value);
            refused(&up(&run, 9, 7), &off(index, OLD, why, NO_TELEGRAM));
        }
        for (byte, value, why) in [
            (
                1,
                1,
                "it has length 270, and a telegram of the new edition length 14",
            ),
            (
                2,
                49,
                "it has kind 49, and a telegram of the new edition kind 48",
            ),
        ] {
            let run = changed(new_run(), NEW * index + byte, value);
            refused(&down(&run), &off(index, NEW, why, NO_TELEGRAM));
        }
    }
}

/// Bytes behind the last whole telegram are one more telegram, and no whole one.
#[test]
fn bytes_left_over() {
    let why = |left: usize, has: &str| match left {
        1 => format!("only 1 byte is left, and a telegram of the {has}"),
        _ => format!("only {left} bytes are left, and a telegram of the {has}"),
    };
    for left in 1..OLD {
        let why = why(left, "old edition has 8");
        let answer = up(&old_run()[..4 * OLD + left], 9, 7);
        refused(&answer, &off(4, OLD, &why, NO_TELEGRAM));
    }
    for left in 1..NEW {
        let why = why(left, "new edition has 14");
        let answer = down(&new_run()[..NEW + left]);
        refused(&answer, &off(1, NEW, &why, NO_TELEGRAM));
    }
}

/// A run of the other edition: the command for it is named. In the midst of a run it is only a telegram that is off.
#[test]
fn other_edition() {
    let found_new =
        "it has length 14 and kind 48, and a telegram of the old edition length 8 and kind 47";
    let found_old =
        "it has length 8 and kind 47, and a telegram of the new edition length 14 and kind 48";
    let (old, new) = (old_run(), new_run());
    let hint = "This looks like a run of the new edition: `rink down` converts it.\n";
    refused(
        &up(&new, 9, 7),
        &(off(0, OLD, found_new, NO_TELEGRAM) + hint),
    );
    let hint = "This looks like a run of the old edition: `rink up` converts it.\n";
    refused(&down(&old), &(off(0, NEW, found_old, NO_TELEGRAM) + hint));
    let alone = "only 8 bytes are left, and a telegram of the new edition has 14";
    refused(
        &down(&old[..OLD]),
        &(off(0, NEW, alone, NO_TELEGRAM) + hint),
    );

    let mixed = up(&[&old[..], &new].concat(), 9, 7);
    refused(&mixed, &off(5, OLD, found_new, NO_TELEGRAM));
    let mixed = down(&[&new[..], &old].concat());
    refused(&mixed, &off(5, NEW, found_old, NO_TELEGRAM));
}

#[test]
fn number_not_next() {
    let not_next = "refusal 46, number not one above the last, or past 4,294,967,295";
    for (numbers, index, why) in [
        (
            &[7, 9, 10][..],
            1,
            "its number is 9, and 8 is due, one above the last",
        ),
        (
            &[7, 8, 8, 9],
            2,
            "its number is 8, and 9 is due, one above the last",
        ),
        (
            &[65_535, 65_536, 65_535],
            2,
            "its number is 65535, and 65537 is due, one above the last",
        ),
        (
            &[u32::MAX, 0],
            1,
            "its number is 0, and none is due: the last is 4294967295, the highest",
        ),
    ] {
        refused(&down(&numbered(numbers)), &off(index, NEW, why, not_next));
    }
    let why = "its number would be 4294967296, and the highest is 4294967295";
    refused(
        &up(&old_run(), 9, u32::MAX - 2),
        &off(3, OLD, why, not_next),
    );
}

#[test]
fn station_differs() {
    let differs = "refusal 47, station differs from the first";
    for index in 1..5 {
        let mut run = new_run();
        run[NEW * index + 9] = 1;
        let why = "its station is 265, and the first one's 9";
        refused(&down(&run), &off(index, NEW, why, differs));
    }
}

/// The first telegram off decides; of what is off with one telegram its shape, then its number, then its station.
#[test]
fn first_off() {
    let changed = |bytes: &[usize]| {
        let mut run = new_run();
        bytes.iter().for_each(|&byte| run[byte] = 99);
        down(&run)
    };
    let (shape, number, station) = (2, 4, 8);
    let (second, third) = (NEW, 2 * NEW);
    says(
        &changed(&[third + shape, second + station]),
        REFUSED,
        "index 1, offset 14: its station is 99",
    );
    says(
        &changed(&[third + station, second + number]),
        REFUSED,
        "index 1, offset 14: its number is 99",
    );
    says(
        &changed(&[second + station, second + number]),
        REFUSED,
        "its number is 99",
    );
    says(
        &changed(&[second + number, second + shape]),
        REFUSED,
        "it has kind 99",
    );
}

#[test]
fn wrong_arguments() {
    let old = example("old-panel.run");
    let station = ["--station", "7"];
    let first = ["--first", "1"];
    for ([option, _], other, most, past) in [
        (station, first, "65535", "65536"),
        (first, station, "4294967295", "4294967296"),
    ] {
        let up = |more: &[&str]| rink(&[&["up", &old], &other[..], more].concat());
        let missing = format!("no {option} given; `rink up --help` tells more");
        says(&up(&[]), TROUBLE, &missing);
        assert!(rink(&["up", "--help"]).text().contains(option));
        for value in [past, "-1", "x", "", "7.0"] {
            let wrong =
                format!("{option} has a number from 0 to {most}; `rink up --help` tells more");
            says(&up(&[option, value]), TROUBLE, &wrong);
        }
        let unknown = format!("no option {option}; `rink down --help` tells more");
        says(&rink(&["down", &old, option, "1"]), TROUBLE, &unknown);
    }
}

/// What cannot be read or written, and what is refused, leaves nothing written and tells no station.
#[test]
fn nothing_written() {
    let folder = folder("nothing-written");
    let inside = folder.join("none/x");
    let options = ["--station", "7", "--first", "1"];
    let up = |arguments: &[&str]| rink(&[&["up"], &options[..], arguments].concat());
    let down = |arguments: &[&str]| rink(&[&["down"], arguments].concat());
    let (old, new) = (example("old-panel.run"), example("new-bus.run"));
    for answer in [
        up(&[letters(&inside)]),
        down(&[letters(&inside)]),
        up(&[&old, "-o", letters(&inside)]),
        down(&[&new, "-o", letters(&inside)]),
    ] {
        let missing = format!("{}: no such file or folder\n", inside.display());
        assert_eq!((answer.status, answer.said), (TROUBLE, missing));
    }
    let full = down(&[&new, "-o", "/dev/full"]);
    let words = "/dev/full: no room is left on the disk\n";
    assert_eq!((full.status, full.said.as_str()), (TROUBLE, words));
    let full = fs::File::options().write(true).open("/dev/full");
    let mut unwritten = program(&["down", &new]);
    unwritten.stdout(full.expect("a full disk"));
    let full = Answer::of(unwritten.output().expect("it runs"));
    let words = "standard output: no room is left on the disk\n";
    assert_eq!((full.status, full.said.as_str()), (TROUBLE, words));

    let output = folder.join("output");
    for answer in [
        up(&[&new, "-o", letters(&output)]),
        down(&[&old, "-o", letters(&output)]),
    ] {
        says(
            &answer,
            REFUSED,
            "refused at the telegram of index 0, offset 0",
        );
        assert!(!output.exists());
    }
}
