//! Boxes: whose an EXIT is and what it clears; where scenarios fall through, and what is said of outlets, beside the proved reader.

use effbd::{refusal, Refusal};
use model::generate::{diagram_up_to, killing_diagram, Random};
use rink::boxes::{all, falls_behind, outlet, Boxed};
use rink::plant::{Function, Part, Plant, Row};
use rink::refused::{find, numbered};
use rink::structure::run_from;
use rink::text;

/// The plant of a text whose rows stand on one line, right or not.
fn plant(rows: &str) -> Plant {
    let text = format!("{}\nend\n", rows.replace(", ", "\n"));
    let parsed = text::parse(&text).unwrap_or_else(|fault| panic!("{text}{}", fault.words));
    parsed.plant
}

#[test]
fn whose_an_exit_is() {
    // In an inner box's outlet it is the outer one's, in its scenario the inner one's.
    let nested = plant("box, box, or, branch, exit to b, branch, exit to a, end or, outlet a, exit to d, outlet b, end box, exit to c, outlet c, outlet d, end box");
    let outer = Boxed {
        open: 0,
        outlets: vec![13, 14],
        exits: vec![9, 12],
    };
    let inner = Boxed {
        open: 1,
        outlets: vec![8, 10],
        exits: vec![4, 6],
    };
    assert_eq!((outer.cleared(), inner.cleared()), (0..13, 1..8));
    assert_eq!(inner.exits_to(&nested, 0), [6]);
    assert_eq!(all(&nested), [outer, inner]);
    let outlets = [4, 6, 9, 12].map(|exit| outlet(&nested, exit));
    assert_eq!(outlets, [Some(10), Some(8), Some(14), Some(13)]);
    assert_eq!(outlet(&nested, 1), None);
    // In no scenario it is none's.
    let behind = plant("exit to a, box, exit to a, outlet a, exit to a, outlet b, end box");
    assert_eq!(all(&behind)[0].exits, [2]);
    assert_eq!(outlet(&behind, 4), None);
}

/// The row behind which the scenario of the box at this row falls through.
fn falls(plant: &Plant, open: usize) -> Option<usize> {
    let (scenario, _) = run_from(plant, open + 1);
    falls_behind(plant, open, &scenario)
}

/// An empty scenario, and a box as the last construct.
#[test]
fn falls_by_the_letter() {
    assert_eq!(
        falls(&plant("box, outlet a, outlet b, end box"), 0),
        Some(0)
    );
    let inner = "box, exit to a, outlet a, outlet b, end box";
    let inside = plant(&format!("box, {inner}, outlet c, outlet d, end box"));
    assert_eq!(falls(&inside, 0), Some(5));
    assert_eq!(falls(&inside, 1), None);
    // Though no outlet of the inner one comes to its close.
    let left = "box, exit to a, outlet a, exit to c, outlet b, exit to d, end box";
    let left = plant(&format!("box, {left}, outlet c, outlet d, end box"));
    assert_eq!(falls(&left, 0), Some(7));
}

/// A random plant with boxes.
fn boxed(random: &mut Random) -> Option<Plant> {
    let file = match random.below(2) {
        0 => diagram_up_to(random, 48),
        _ => killing_diagram(random),
    };
    let plant = Plant::read(&file).expect("a generated file is accepted");
    (!all(&plant).is_empty()).then_some(plant)
}

/// What the proved reader refuses of a plant.
fn refused(plant: &Plant) -> Option<Refusal> {
    effbd::read_diagram(&plant.file().expect("a file")).err()
}

fn row(part: Part) -> Row {
    Row { part, name: None }
}

/// One more row before a branch or close: a FUNCTION, or an empty branch.
fn with_row_more(mut plant: Plant, random: &mut Random) -> Plant {
    let ends = |row: &Row| row.part.is_branch() || row.part.closes();
    let rows = plant.rows.iter().enumerate();
    let rows: Vec<usize> = rows
        .filter(|(_, row)| ends(row))
        .map(|(at, _)| at)
        .collect();
    let more = match random.below(2) {
        0 => Part::Branch { kills: false },
        _ => Part::Function(Function {
            shortest: 1,
            longest: 1,
            uses: Vec::new(),
        }),
    };
    plant.rows.insert(random.pick(&rows, 0), row(more));
    plant
}

/// A scenario falls through just where the reader says so: the lowest, with the row behind which it does.
#[test]
fn falls_as_the_reader_says() {
    let (mut with, mut without) = (0, 0);
    for seed in 0..20_000 {
        let random = &mut Random::new(seed);
        let Some(plant) = boxed(random) else { continue };
        let plant = with_row_more(plant, random);
        let file = plant.file().expect("a file");
        let refusal = refused(&plant);
        let nested = [None, Some(refusal::SCENARIO_FALLS_THROUGH)];
        if !nested.contains(&refusal.map(|refusal| refusal.number)) {
            continue;
        }
        let found = all(&plant).into_iter();
        let mut found = found.filter_map(|boxed| Some((boxed.open, falls(&plant, boxed.open)?)));
        let lowest = found.next();
        let said = refusal.map(|refusal| refusal.value as usize);
        assert_eq!(lowest.map(|(open, _)| open), said, "seed {seed}, {file:?}");
        if let (Some((_, behind)), Some(refusal)) = (lowest, refusal) {
            let words = find(&file, refusal, numbered).words();
            let named = format!(" of row {behind}, and nothing leads from there to an outlet");
            assert!(words.contains(&named), "seed {seed}, {words}");
        }
        with += usize::from(said.is_some());
        without += usize::from(said.is_none());
    }
    assert!(with > 100 && without > 100, "{with} fall, {without} do not");
}

/// An EXIT by another outlet, or by none: each sort is told, with the rows that do not match.
#[test]
fn unmatched_outlets_are_told() {
    let (mut same, mut unknown) = (0, 0);
    for seed in 0..2_000 {
        let random = &mut Random::new(seed);
        let Some(mut plant) = boxed(random) else {
            continue;
        };
        let boxes = all(&plant);
        let boxed = &boxes[random.below(boxes.len())];
        let exit = random.pick(&boxed.exits, 0);
        let last = boxed.outlets.len() as u16;
        let number = random.below(boxed.outlets.len() + 1) as u16;
        let meant = outlet(&plant, exit).expect("an accepted plant");
        plant.rows[exit].part = Part::ExitTo { outlet: number };
        let other = outlet(&plant, exit);
        let Some(refusal) = refused(&plant) else {
            assert_eq!(other, Some(meant), "seed {seed}");
            continue;
        };
        let value = boxed.open as u32;
        let number = refusal::OUTLETS_UNMATCHED;
        assert_eq!(refusal, Refusal { number, value }, "seed {seed}");
        let file = plant.file().expect("a file");
        let words = find(&file, refusal, numbered).words();
        let told = match other {
            Some(other) => format!("lead to the same outlet, that of row {other}: each outlet"),
            None => format!("of row {exit} leads to outlet {last}, and this `box` has {last} of"),
        };
        assert!(words.contains(&told), "seed {seed}, {words}");
        same += usize::from(other.is_some());
        unknown += usize::from(other.is_none());
    }
    assert!(
        same > 20 && unknown > 20,
        "{same} the same, {unknown} unknown"
    );
}
