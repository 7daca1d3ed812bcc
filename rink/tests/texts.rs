//! Texts and diagram files: what `show` writes `make` gives back, and every wrong text is told where and why.

use model::generate::{
    crowded_diagram, damaged_diagram, diagram, diagram_up_to, killing_diagram, lasting_diagram,
    lasting_trigger_diagram, Random,
};
use rink::boxes;
use rink::plant::{Part, Plant, Row};
use rink::structure::killers;
use rink::text::{self, Fault, Place, Style};

const ROUND_TRIPS: usize = 10_000;

/// A random diagram file that the proved reader accepts.
fn accepted_file(random: &mut Random) -> Vec<u8> {
    loop {
        let file = match random.below(50) {
            0 => crowded_diagram(random),
            1..=9 => lasting_diagram(random, 64),
            10..=19 => lasting_trigger_diagram(random, 64),
            20..=29 => diagram_up_to(random, 64),
            30..=34 => damaged_diagram(random),
            35..=39 => killing_diagram(random),
            _ => diagram(random),
        };
        if effbd::read_diagram(&file).is_ok() {
            return file;
        }
    }
}

/// A name of odd letters, or none.
fn random_name(random: &mut Random) -> Option<String> {
    let letters: Vec<char> = "aZé&'+/._-09Ж".chars().collect();
    let length = random.below(text::MOST_LETTERS);
    let rest: String = (0..length).map(|_| random.pick(&letters, 'x')).collect();
    random.chance(70).then(|| format!("n{rest}"))
}

/// The plant with other names wherever a name may stand.
fn renamed(mut plant: Plant, random: &mut Random) -> Plant {
    plant.title = random_name(random);
    for (number, item) in plant.items.iter_mut().enumerate() {
        item.name = format!("i{number}-{}", random.below(1000));
    }
    for (number, Row { part, name }) in plant.rows.iter_mut().enumerate() {
        if *part == Part::Outlet {
            *name = Some(format!("o{number}-{}", random.below(1000)));
        } else if part.is_named() {
            *name = Some(random_name(random).unwrap_or("take".to_string()));
        } else if part.may_be_named() {
            *name = random_name(random);
        }
    }
    plant
}

/// `make` after `show` gives the same bytes, with made-up names and with any others, and the same names.
#[test]
fn shown_and_made_again() {
    let (mut with_triggers, mut with_killers, mut with_boxes) = (0, 0, 0);
    for seed in 0..ROUND_TRIPS as u64 {
        let random = &mut Random::new(seed);
        let file = accepted_file(random);
        let plant = Plant::read(&file).expect("accepted");
        with_triggers += plant.triggers().count().min(1);
        with_killers += killers(&plant).len().min(1);
        with_boxes += boxes::all(&plant).len().min(1);
        let named = renamed(plant.clone(), random);
        for plant in [plant, named] {
            let style = Style {
                seconds: random.chance(50),
                numbers: random.chance(50),
            };
            let shown = text::show(&plant, style);
            let made = text::make(&shown);
            assert_eq!(
                made,
                Ok((file.clone(), plant)),
                "seed {seed}\n{shown}{file:?}"
            );
        }
    }
    assert!(
        with_triggers > ROUND_TRIPS / 5,
        "{with_triggers} with triggers"
    );
    assert!(
        with_killers > ROUND_TRIPS / 10,
        "{with_killers} with branches that kill"
    );
    assert!(with_boxes > ROUND_TRIPS / 10, "{with_boxes} with boxes");
}

/// What a row takes a trigger from has a name of its own, made up or not.
#[test]
fn counts_have_different_names() {
    for seed in 0..1_000 {
        let random = &mut Random::new(seed);
        let plant = Plant::read(&accepted_file(random)).expect("accepted");
        let named = renamed(plant.clone(), random);
        for plant in [plant, named] {
            let names = plant.counts().map(|count| plant.count_name(count));
            let mut names: Vec<String> = names.collect();
            names.sort();
            assert!(names.windows(2).all(|two| two[0] != two[1]), "seed {seed}");
        }
    }
}

/// A file that is refused has no text: the refusal is the proved reader's.
#[test]
fn refused_files_are_not_shown() {
    let mut refused = 0;
    for seed in 0..5_000 {
        let file = damaged_diagram(&mut Random::new(seed));
        let answer = effbd::read_diagram(&file);
        let read = Plant::read(&file);
        assert_eq!(read.as_ref().err(), answer.as_ref().err(), "seed {seed}");
        let Err(refusal) = answer else { continue };
        let found = rink::refused::find(&file, refusal, rink::refused::numbered);
        assert!(found.offset <= file.len(), "seed {seed}, {found:?}");
        let number = format!("refusal {}", refusal.number);
        assert!(found.words().contains(&number), "seed {seed}, {found:?}");
        // Why is said in words of this file's.
        let told = !found.words().starts_with(refusal.words());
        assert!(told, "seed {seed}, {found:?}");
        refused += 1;
    }
    assert!(refused > 1_000, "{refused} refused");
}

/// Any bytes are made or told where they are wrong, inside the text or right behind it.
#[test]
fn any_text_is_answered() {
    const WORDS: [&str; 30] = [
        "plant",
        "item",
        "trigger",
        "function",
        "and",
        "or",
        "branch",
        "killing",
        "repeat",
        "loop",
        "exit",
        "box",
        "outlet",
        "to",
        "end",
        "take",
        "give",
        "oil",
        "door",
        "3",
        "20..50",
        "2.0s..5.0s",
        "70000",
        "..",
        "é",
        "#",
        "\n",
        "\n",
        "\t",
        "\u{1}",
    ];
    for seed in 0..20_000 {
        let random = &mut Random::new(seed);
        let count = random.below(40);
        let words: Vec<&str> = (0..count).map(|_| random.pick(&WORDS, "")).collect();
        let text = words.join(" ");
        if let Err(Fault { place, words }) = text::make(&text) {
            let line = text.lines().nth(place.line - 1).unwrap_or("");
            assert!(
                place.column <= line.chars().count() + 1,
                "seed {seed}, {place:?}\n{text}"
            );
            assert!(!words.is_empty(), "seed {seed}\n{text}");
        }
        let bytes = random.bytes(count);
        let _ = text::decoded(&bytes).map(text::make);
    }
}

/// A wrong text, the place that is told, and words that are said of it.
fn wrong(text: &str, line: usize, column: usize, said: &str) {
    let Err(fault) = text::make(text) else {
        panic!("made: {text}");
    };
    assert_eq!(fault.place, Place { line, column }, "{text}{}", fault.words);
    assert!(fault.words.contains(said), "{text}{}", fault.words);
}

#[test]
fn wrong_words() {
    wrong("itm oil 3\nend\n", 1, 1, "`itm` is no beginning of a line");
    wrong("Function f 1..2\nend\n", 1, 1, "`Function`");
    wrong("item\nend\n", 1, 5, "missing: the item's name");
    wrong("item oil\nend\n", 1, 9, "missing: the item's count");
    wrong("item oil three\nend\n", 1, 10, "`three` is no number");
    wrong("item oil -3\nend\n", 1, 10, "`-3` is no number");
    wrong("item oil 65536\nend\n", 1, 10, "65535 is the most");
    wrong("item 3 oil\nend\n", 1, 6, "begins with a letter");
    wrong("item o(l 3\nend\n", 1, 6, "`(` in a name");
    wrong(
        &format!("item {} 3\nend\n", "o".repeat(41)),
        1,
        6,
        "at most 40 letters",
    );
    wrong("item oil 3\nitem oil 4\nend\n", 2, 6, "`oil` already");
    wrong("item oil 3 4\nend\n", 1, 12, "`4` is too much");
    wrong("end\nitem oil 3\n", 2, 1, "before the first row");
    wrong("trigger\nend\n", 1, 8, "missing: the trigger's name");
    wrong(
        "trigger door\nend\n",
        1,
        13,
        "the trigger's count, such as `trigger door 0`",
    );
    wrong("trigger door -1\nend\n", 1, 14, "`-1` is no number");
    wrong("trigger 1 door\nend\n", 1, 9, "begins with a letter");
    wrong("trigger d@r 1\nend\n", 1, 9, "`@` in a name");
    wrong(
        "trigger door 0 1\nend\n",
        1,
        16,
        "`1` is too much on this line",
    );
    wrong(
        "trigger oil 0\nitem oil 4\nend\n",
        2,
        6,
        "there is a trigger `oil` already",
    );
    wrong(
        "item oil 4\ntrigger oil 0\nend\n",
        2,
        9,
        "there is an item `oil` already",
    );
    wrong(
        "end\n trigger door 0\n",
        2,
        2,
        "triggers stand before the first row",
    );
    wrong(
        "trigger door 0\nitem oil 1\nfunction f 1..2 take dor 1\nend\n",
        3,
        22,
        "the items are door, oil",
    );
    wrong("plant\nend\n", 1, 6, "missing: the plant's name");
    wrong("plant a\nplant b\nend\n", 2, 1, "already");
    wrong(
        "function f\nend\n",
        1,
        11,
        "missing: the function's name and times",
    );
    wrong("function 20..50\nend\n", 1, 10, "begins with a letter");
    wrong("function f x..50\nend\n", 1, 12, "`x` is no number");
    wrong("function f 20..x\nend\n", 1, 16, "`x` is no number");
    wrong("function f 20..\nend\n", 1, 16, "`` is no number");
    wrong("function f 2.05s..3s\nend\n", 1, 12, "finer than a tick");
    wrong(
        "function f 1s..9999.9s\nend\n",
        1,
        16,
        "6553.5s is the longest",
    );
    wrong("function f 1s..x.9s\nend\n", 1, 16, "`x.9s` is no time");
    wrong(
        "function f 1..2 use oil 1\nend\n",
        1,
        17,
        "`take` or `give` is due",
    );
    wrong(
        "function f 1..2 take oil 1\nend\n",
        1,
        22,
        "no item is listed",
    );
    wrong(
        "item oil 1\nfunction f 1..2 take ice 1\nend\n",
        2,
        22,
        "the items are oil",
    );
    wrong(
        "item oil 1\nfunction f 1..2 take\nend\n",
        2,
        21,
        "missing: an item",
    );
    wrong(
        "item oil 1\nfunction f 1..2 take oil\nend\n",
        2,
        25,
        "missing: how many",
    );
    wrong(
        "item oil 1\nfunction f 1..2 take oil 1 take oil 2\nend\n",
        2,
        28,
        "take oil stands twice",
    );
    wrong("repeat\nend repeat\nend\n", 1, 7, "missing: how often");
    wrong(
        "exit\nend\n",
        1,
        5,
        "missing: what is left: `exit loop`, or ",
    );
    wrong(
        "exit and\nend\n",
        1,
        6,
        "`exit and`: known are `exit loop`, or `exit to` with an outlet's name",
    );
    wrong(
        "exit to\nend\n",
        1,
        8,
        "missing: the outlet's name, such as `exit to trip`",
    );
    wrong("exit to 0\nend\n", 1, 9, "`0` is no name");
    wrong("exit to a b\nend\n", 1, 11, "`b` is too much");
    wrong(
        "outlet\nend\n",
        1,
        7,
        "missing: the outlet's name, such as `outlet trip`",
    );
    wrong("outlet 1\nend\n", 1, 8, "`1` is no name");
    wrong(
        "killing\nend\n",
        1,
        8,
        "missing: what kills: `killing branch`",
    );
    wrong(
        "killing or\nend\n",
        1,
        9,
        "`killing or`: only `killing branch`",
    );
    wrong("killing branch a b\nend\n", 1, 18, "`b` is too much");
    wrong("end if\n", 1, 5, "`end if`");
    wrong("end loop now\n", 1, 10, "`now` is too much");
    wrong("fun\u{1}ction\n", 1, 4, "control character");
}

/// Refusals of the proved reader, at the line of the record or row that they name.
#[test]
fn refused_texts() {
    wrong("", 1, 1, "refusal 4");
    wrong("# nothing\n", 1, 10, "no row");
    let functions = |count: usize| "function f 1..2\n".repeat(count);
    wrong(
        &format!("{}end\n", functions(64)),
        65,
        1,
        "65 rows: at most 64",
    );
    let items: String = (0..17)
        .map(|number| format!("item i{number} 0\n"))
        .collect();
    wrong(&format!("{items}end\n"), 17, 1, "17 items: at most 16");
    wrong(
        &functions(70_000),
        70_000,
        16,
        "more items, rows or uses than a file can count",
    );
    wrong(
        "\n  function f 50..20\nend\n",
        2,
        3,
        "shortest time, 50 ticks, is above the longest, 20 (refusal 5",
    );
    wrong(
        "item i 0\nitem oil 1\nfunction f 1..2 take oil 0\nend\n",
        3,
        1,
        "takes 0 and gives 0 of item `oil`: one of them is 1 or more (refusal 5",
    );
    wrong("repeat 1\nend repeat\nend\n", 1, 1, "2 to 255 are allowed");
    wrong(
        "repeat 256\nend repeat\nend\n",
        1,
        1,
        "2 to 255 are allowed",
    );
    wrong("function f 1..2\n", 1, 1, "it has to be `end`");
    wrong(
        "loop\nfunction f 1..2\nend loop\n",
        3,
        1,
        "the last row is `end loop`: it has to be `end`",
    );
    wrong(
        "or\nbranch\nbranch\nend or\n",
        4,
        1,
        "the last row is `end or`: it has to be `end`",
    );
    wrong("end\nend\n", 1, 1, "before the last row");
    wrong("loop\nend\n", 2, 1, "the `loop` of line 1");
    wrong(
        "# x\nloop\nand\nbranch\nend and\nend loop\nend\n",
        5,
        1,
        "after one branch",
    );
    wrong("and\nfunction f 1..2\n", 2, 1, "a `branch` is due");
    wrong("branch\nend\n", 1, 1, "nothing is open");
    wrong("loop\nend and\nend\n", 2, 1, "`end and` closes nothing");
    wrong("exit loop\nend\n", 1, 1, "stands in no loop (refusal 8");
    wrong("loop\nexit loop\nend loop\nend\n", 2, 1, "end of a branch");
    wrong(
        "loop\nor\nbranch\nexit loop\nfunction f 1..2\nbranch\nend or\nend loop\nend\n",
        4,
        1,
        "`function` follows",
    );
    let loops = format!("{}{}end\n", "loop\n".repeat(13), "end loop\n".repeat(13));
    wrong(&loops, 13, 1, "13th construct");
}

/// A branch that kills has something in it, and belongs to an AND.
#[test]
fn refused_killers() {
    let empty = "nothing stands in this `killing branch`, so nothing could end and kill: put the function that trips behind it, or write `branch` (refusal 44, ";
    for (text, line) in [
        ("and\nkilling branch\nbranch\nend and\nend\n", 2),
        ("and\nbranch\nkilling branch\nend and\nend\n", 3),
        (
            "and\nkilling branch\nkilling branch trip\nend and\nend\n",
            2,
        ),
        // Whatever comes later, and before an LE that is misplaced.
        ("and\nkilling branch\nbranch\nend or\n", 2),
        ("and\nkilling branch\nend and\nend\n", 2),
        ("and\nkilling branch\nbranch\nexit loop\nend and\nend\n", 2),
    ] {
        wrong(text, line, 1, empty);
    }
    let in_or = "a `killing branch` belongs to an `and`, and the innermost open construct is the `or` of line 1: one branch of it runs alone and has no others to kill, write `branch` (refusal 7, ";
    wrong("or\nkilling branch\nbranch\nend or\nend\n", 2, 1, in_or);
    wrong("or\nbranch\nkilling branch\nend or\nend\n", 3, 1, in_or);
    wrong(
        "loop\nkilling branch\nend loop\nend\n",
        2,
        1,
        "a `killing branch` belongs to an `and`, and the innermost open construct is the `loop` of line 1 (refusal 7, ",
    );
    wrong(
        "killing branch\nend\n",
        1,
        1,
        "belongs to an `and`, and nothing is open here (refusal 7, ",
    );
    let last = "and\nbranch\nkilling branch\n";
    wrong(
        last,
        3,
        1,
        "the last row is `killing branch`: it has to be `end`",
    );
    wrong(
        "and\nbranch\n",
        2,
        1,
        "the last row is `branch`: it has to be `end`",
    );
    wrong(
        "and\nkilling branch\nfunction f 1..2\nend and\nend\n",
        4,
        1,
        "after one branch",
    );
}

/// A loop has a FUNCTION that takes a tick, at any depth; the lowest that has none is told, behind whatever is wrong with a row.
#[test]
fn refused_loops() {
    let spends_none = |text: &str, line: usize, end: usize| {
        let words = format!("no function between this `loop` and the `end loop` of line {end} has a shortest time of 0.1 s or more, so a way round it would spend no time: put one in, or raise a shortest time (refusal 45, loop spends no time)");
        wrong(text, line, 1, &words);
    };
    spends_none("loop\nend loop\nend\n", 1, 2);
    spends_none("# x\nloop\nfunction f 0..9\nend loop\nend\n", 2, 4);
    spends_none(
        "function f 1..2\nloop\nend loop\nfunction f 1..2\nend\n",
        2,
        3,
    );
    let left = "loop\nor\nbranch\nexit loop\nbranch\nexit loop\nend or\nend loop\nend\n";
    spends_none(left, 1, 8);
    // An inner loop's FUNCTION counts for the outer one, not the other way round.
    let inner = "loop\nloop\nrepeat 2\nfunction f 1..2\nend repeat\nend loop\nend loop\nend\n";
    assert!(text::make(inner).is_ok());
    let outer = "loop\nloop\nend loop\nfunction f 1..2\nend loop\nend\n";
    spends_none(outer, 2, 3);
    spends_none("loop\nloop\nend loop\nend loop\nend\n", 1, 4);
    // Of two the lowest, and behind all of 7, 44, 8 and 9.
    spends_none("loop\nend loop\nloop\nend loop\nend\n", 1, 2);
    wrong("loop\nend loop\nend or\n", 3, 1, "(refusal 7, ");
    let killer = "loop\nend loop\nand\nbranch\nkilling branch\nend and\nend\n";
    wrong(killer, 5, 1, "(refusal 44, ");
    let exit = "loop\nend loop\nor\nbranch\nexit loop\nbranch\nend or\nend\n";
    wrong(exit, 5, 1, "(refusal 8, ");
    let deep = format!(
        "loop\nend loop\n{}{}end\n",
        "loop\n".repeat(13),
        "end loop\n".repeat(13)
    );
    wrong(&deep, 15, 1, "(refusal 9, ");
}

/// Which word a branch has is the text's own affair: the bytes of an outlet and of a branch are the same.
#[test]
fn outlets_and_branches() {
    wrong(
        "box\nexit to a\nbranch a\nbranch b\nend box\nend\n",
        3,
        1,
        "a `branch` belongs to an `and` or `or`, and the innermost open construct is the `box` of line 1: behind its scenario stand outlets, write `outlet` and a name",
    );
    wrong(
        "or\nbranch\noutlet a\nend or\nend\n",
        3,
        1,
        "an `outlet` belongs to a `box`, and the innermost open construct is the `or` of line 1: close it before, or write `branch`",
    );
    wrong(
        "box\nand\nbranch\n  outlet a\noutlet b\nend box\nend\n",
        4,
        3,
        "the innermost open construct is the `and` of line 2: close it before",
    );
    wrong(
        "loop\noutlet a\nend loop\nend\n",
        2,
        1,
        "an `outlet` belongs to a `box`, and the innermost open construct is the `loop` of line 1",
    );
    wrong(
        "outlet a\nend\n",
        1,
        1,
        "an `outlet` belongs to a `box`, and nothing is open here",
    );
    // No refusal: the reader was not asked.
    let fault = text::make("outlet a\nend\n").expect_err("no box");
    assert!(!fault.words.contains("refusal"), "{}", fault.words);
    let many = format!("outlet a\n{}end\n", "function f 1..2\n".repeat(64));
    wrong(&many, 65, 1, "66 rows: at most 64");
}

/// Outlets are called by their names, which differ in a box.
#[test]
fn names_of_outlets() {
    let scenario =
        "box\n  or\n    branch\n      exit to a\n    branch\n      exit to b\n  end or\n";
    let text = |outlets: &str| format!("{scenario}{outlets}end box\nend\n");
    wrong(
        &text("outlet a\noutlet c\n"),
        6,
        15,
        "no outlet `b`: the `box` of line 1 has a, c",
    );
    wrong(
        &text(""),
        4,
        15,
        "no outlet `a`: the `box` of line 1 has none",
    );
    wrong(
        &text("outlet a\noutlet b\n outlet a\n"),
        10,
        2,
        "the `box` of line 1 has an outlet `a` already",
    );
    // Other boxes' outlets count neither here nor there.
    let inner = "box\n  box\n    exit to a\n  outlet b\n    exit to a\n  outlet c\n  end box\n  exit to d\noutlet a\noutlet d\nend box\nend\n";
    wrong(inner, 3, 13, "no outlet `a`: the `box` of line 2 has b, c");
}

/// A box with everything in it: the rows' bytes, the numbers of the outlets, the lines as they nest.
#[test]
fn shown_boxes() {
    let text = "loop\n  box pull-down\n    box\n      or\n        branch\n          exit to far\n        branch\n          exit to near\n      end or\n    outlet near\n      function f 1..2\n      exit to cold\n    outlet far\n    end box\n    exit to trip\n  outlet trip\n    or\n      branch\n        exit loop\n      branch\n    end or\n  outlet cold\n  end box\nend loop\nend\n";
    let parsed = text::parse(text).expect("a right text").plant;
    assert_eq!(text::show(&parsed, Style::default()), text);
    let exit = |row: usize| parsed.rows[row].part.clone();
    assert_eq!(exit(5), Part::ExitTo { outlet: 1 });
    assert_eq!(exit(7), Part::ExitTo { outlet: 0 });
    assert_eq!(exit(11), Part::ExitTo { outlet: 1 });
    assert_eq!(exit(14), Part::ExitTo { outlet: 0 });
    let file = parsed.file().expect("a file");
    assert_eq!(file[14..22], [4, 0, 29, 0, 4, 0, 29, 0]);
    assert_eq!(file[30..36], [6, 0, 31, 0, 1, 0]);
    let outlet = [4, 0, 21, 0, 4, 0, 18, 0, 8, 0, 16, 0];
    assert!(file.windows(12).any(|bytes| bytes == outlet));
    assert!(file.windows(4).any(|bytes| bytes == [4, 0, 30, 0]));
    assert_eq!(text::make(text), Ok((file.clone(), parsed)));
    let made_up = Plant::read(&file).expect("accepted");
    let shown = text::show(&made_up, Style::default());
    assert!(shown
        .contains("    outlet outlet-1\n    end box\n    exit to outlet-0\n  outlet outlet-0\n"));
    assert_eq!(text::make(&shown).map(|(file, _)| file), Ok(file));
}

/// Where an EXIT may stand, at its line.
#[test]
fn refused_exits() {
    let misplaced = "(refusal 48, EXIT misplaced)";
    let two = "outlet a\noutlet b\nend box\nend\n";
    let said = |text: &str, line: usize, words: &str| {
        wrong(text, line, 1, &format!("{words} {misplaced}"));
    };
    said("exit to a\nend\n", 1, "`exit to` stands in no box");
    said(
        "or\nbranch\nexit to a\nbranch\nend or\nend\n",
        3,
        "`exit to` stands in no box",
    );
    said(
        "box\nexit to a\noutlet a\nexit to a\noutlet b\nend box\nend\n",
        4,
        "`exit to` leaves a box out of its scenario, and this one stands behind an `outlet`",
    );
    said(
        &format!("box\nloop\nfunction f 1..2\nexit to a\nend loop\n{two}"),
        4,
        "`exit to` stands at the end of a branch or of its scenario, and the innermost open construct is the `loop` of line 2",
    );
    said(
        &format!("box\nrepeat 2\nexit to a\nend repeat\nexit to b\n{two}"),
        3,
        "`exit to` stands at the end of a branch or of its scenario, and the innermost open construct is the `repeat` of line 2",
    );
    said(
        &format!("box\nexit to a\nfunction f 1..2\n{two}"),
        2,
        "`exit to` is the last row of its branch or scenario, and `function` follows",
    );
    said(
        &format!("box\nor\nbranch\nexit to a\nexit to b\nbranch\nend or\n{two}"),
        4,
        "`exit to` is the last row of its branch or scenario, and `exit to` follows",
    );
}

/// Boxes that do not nest as they should.
#[test]
fn refused_boxes() {
    wrong(
        "box\nend\n",
        2,
        1,
        "the innermost open construct is the `box` of line 1 (refusal 7, ",
    );
    wrong(
        "box\nfunction f 1..2\nend box\nend\n",
        3,
        1,
        "`end box` without an outlet: two or more are due (refusal 7, ",
    );
    wrong(
        "box\nexit to a\noutlet a\nend box\nend\n",
        4,
        1,
        "`end box` after one outlet: two or more are due (refusal 7, ",
    );
    wrong("loop\nend box\nend\n", 2, 1, "`end box` closes nothing");
    wrong(
        "box\nexit to a\noutlet a\nkilling branch\nend box\nend\n",
        4,
        1,
        "a `killing branch` belongs to an `and`, and the innermost open construct is the `box` of line 1: behind its scenario stand outlets, write `outlet` and a name (refusal 7, ",
    );
    let two = "outlet a\noutlet b\nend box\nend loop\nend\n";
    wrong(
        &format!("loop\nfunction f 1..2\nbox\nor\nbranch\nexit loop\nbranch\nexit to a\nend or\n{two}"),
        6,
        1,
        "the `loop` of line 1 is outside the `box` of line 3, whose scenario this `exit loop` stands in: leave the box with `exit to` first (refusal 8, ",
    );
    wrong(
        "loop\nfunction f 1..2\nbox\nexit to a\noutlet a\nexit loop\noutlet b\nend box\nend loop\nend\n",
        6,
        1,
        "`exit loop` stands at the end of a branch, and the innermost open construct is the `box` of line 3 (refusal 8, ",
    );
}

/// Each outlet has one EXIT; told at the box's line, with the lines of what does not match.
#[test]
fn refused_outlets() {
    let unmatched = "(refusal 49, outlets and EXIT rows not one to one)";
    let said = |text: &str, line: usize, words: &str| {
        wrong(text, line, 1, &format!("{words} {unmatched}"));
    };
    let two = "outlet a\noutlet b\nend box\nend\n";
    said(
        &format!("box\nexit to a\n{two}"),
        1,
        "no `exit to` in the scenario of this `box` leads to its outlet of line 4: each outlet has one",
    );
    let twice = "or\nbranch\nexit to a\nbranch\nexit to b\nbranch\nexit to a\nend or\n";
    said(
        &format!("function f 1..2\nbox\n{twice}{two}"),
        2,
        "the `exit to` of line 5 and that of line 9 lead to the same outlet, that of line 11: each outlet has one",
    );
    // An inner box's EXITs are its own; before a scenario that falls through, and before a loop that spends no time.
    let inner = format!(
        "box\nbox\nexit to a\n{}exit to a\n{two}",
        "outlet a\noutlet b\nend box\n"
    );
    said(
        &inner,
        1,
        "no `exit to` in the scenario of this `box` leads to its outlet of line 9: each outlet has one",
    );
    said(
        &format!("loop\nend loop\nbox\n{two}"),
        3,
        "no `exit to` in the scenario of this `box` leads to its outlet of line 4: each outlet has one",
    );
}

/// A scenario's end is always an EXIT; told at the box's line, with the line behind which it falls through.
#[test]
fn refused_scenarios() {
    let falls = |rows: &str, keyword: &str, line: usize| {
        let text = format!(
            "box\n{}\noutlet a\noutlet b\nend box\nend\n",
            rows.replace(", ", "\n")
        );
        let text = text.replace("\ntimed", "\nfunction timed 1..9");
        let words = format!("the scenario of this `box` comes to its end behind the `{keyword}` of line {line}, and nothing leads from there to an outlet: put an `exit to` there (refusal 50, a scenario falls through)");
        wrong(&text, 1, 1, &words);
    };
    let leaving = "or, branch, exit to a, branch, exit to b, end or";
    // Behind its last row; the last construct decides alone.
    falls(&format!("{leaving}, timed"), "function", 8);
    falls(&format!("repeat 2, {leaving}, end repeat"), "end repeat", 9);
    // A loop that an LE leaves.
    let left = format!("loop, timed, or, branch, exit loop, branch, end or, {leaving}, end loop");
    falls(&left, "end loop", 15);
    // By one branch of an OR, empty or not.
    let one_more = "or, branch, exit to a, branch, exit to b, branch";
    falls(&format!("{one_more}, end or"), "branch", 7);
    falls(&format!("{one_more}, timed, end or"), "function", 8);
    // By all branches of an AND, or by one that kills.
    let all = format!("{leaving}, and, branch, timed, branch, end and");
    falls(&all, "end and", 12);
    let killing = format!("and, branch, {leaving}, killing branch, timed, end and");
    falls(&killing, "function", 11);
}

/// Scenarios that never come to their end.
#[test]
fn right_scenarios() {
    let made = |rows: &str| {
        let rows = rows
            .replace(", ", "\n")
            .replace("timed", "function timed 1..9");
        let text = format!("box\n{rows}\noutlet a\noutlet b\nend box\nend\n");
        let made = text::make(&text);
        assert!(made.is_ok(), "{text}{made:?}");
    };
    let either = "or, branch, exit to a, branch, exit to b, end or";
    made(either);
    made("and, branch, exit to a, branch, exit to b, end and");
    // An AND with a branch that never ends, none that kills, or only such as never do.
    made(&format!("and, branch, timed, branch, {either}, end and"));
    made("and, branch, timed, exit to b, killing branch, timed, exit to a, end and");
    // A loop that no LE leaves, or an inner one only.
    made(&format!("loop, timed, {either}, end loop"));
    let inner = "loop, timed, or, branch, exit loop, branch, end or, end loop";
    made(&format!("loop, {inner}, {either}, end loop"));
    made(&format!(
        "or, branch, {either}, branch, end or, loop, timed, end loop"
    ));
}

/// A branch that kills and one that is called so.
#[test]
fn shown_killers() {
    let text = "and\n  branch killing\n  killing branch\n    function f 1..2\n  killing branch branch\n    function g 1..2\nend and\nend\n";
    let (file, plant) = text::make(text).expect("made");
    assert_eq!(text::show(&plant, Style::default()), text);
    assert_eq!(file[14..22], [4, 0, 18, 0, 4, 0, 28, 0]);
    let kills = |row: usize| plant.rows[row].part == Part::Branch { kills: true };
    assert_eq!([1, 2, 4].map(kills), [false, true, true]);
    assert_eq!(plant.rows[1].name.as_deref(), Some("killing"));
    assert_eq!(plant.rows[4].name.as_deref(), Some("branch"));
}

/// A trigger's take and give are 1 at most; the line and the use are told, behind whatever else is wrong with the record.
#[test]
fn refused_triggers() {
    let uses = |uses: &str| format!("item oil 9\ntrigger door 0\nfunction f 1..2 {uses}\nend\n");
    for (used, said) in [
        ("take door 2", "it takes 2 of trigger `door`"),
        ("give door 65535", "it gives 65535 of trigger `door`"),
        ("give door 2 take door 1", "it gives 2 of trigger `door`"),
        ("take door 3 give door 2", "it takes 3 of trigger `door`"),
        ("give door 2 take oil 7", "it gives 2 of trigger `door`"),
    ] {
        let words = format!("{said}: of a trigger 1 is the most (refusal 43, ");
        wrong(&uses(used), 3, 1, &words);
    }
    wrong(
        &uses("take oil 0 give door 2"),
        3,
        1,
        "of item `oil`: one of them is 1 or more (refusal 5",
    );
    let made = text::make(&uses("take oil 9 take door 1 give door 1"));
    assert!(made.is_ok());
}

/// Items and triggers in any order, told apart.
#[test]
fn shown_triggers() {
    let text = "trigger door 2\nitem oil 3\ntrigger bell 65535\n\nfunction f 1..2 take door 1 give bell 1\nend\n";
    let (file, plant) = text::make(text).expect("made");
    assert_eq!(text::show(&plant, Style::default()), text);
    assert_eq!(file[10..16], [6, 0, 3, 0, 2, 0]);
    let made_up = Plant::read(&file).expect("accepted");
    let shown = text::show(&made_up, Style::default());
    assert!(shown.starts_with("trigger trigger-0 2\nitem item-1 3\ntrigger trigger-2 65535\n"));
}

/// Ticks and seconds, one time for both, free indentation, comments and other line ends say the same.
#[test]
fn ways_to_write() {
    let first = text::make("item oil 3\nfunction pump 20..50 take oil 1 give oil 2\nend\n");
    let second = text::make(
        "\u{9}item  oil 3 # three\r\n\r\nfunction pump 2s..5.0s give oil 2 take oil 1\r\n   end",
    );
    assert_eq!(first, second);
    assert!(first.is_ok());
    let one = text::make("function f 0.7s\nend\n").expect("made").0;
    assert_eq!(one, text::make("function f 7..7\nend\n").expect("made").0);
    let marked = text::decoded(b"\xef\xbb\xbfend\n").map(text::make);
    assert!(matches!(marked, Ok(Ok(_))));
    let fault = text::decoded(b"item oil 3\nfunction \xff").expect_err("no UTF-8");
    assert_eq!(
        fault.place,
        Place {
            line: 2,
            column: 10
        }
    );
}
