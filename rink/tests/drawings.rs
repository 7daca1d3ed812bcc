//! The drawings of random and of extreme plants: nothing overlaps, every row, place, transition and arc is there once.

use model::generate::{
    crowded_diagram, diagram, killing_diagram, lasting_diagram, lasting_killing_diagram,
    lasting_trigger_diagram, Random,
};
use rink::boxes;
use rink::draw::{self, Border, Group, Line, Node, Outline, Placed, Point, Sheet};
use rink::formats;
use rink::net::Net;
use rink::plant::{Function, Item, Part, Plant, Row, Use};
use rink::structure;
use std::collections::{BTreeMap, BTreeSet};

/// A plant to draw, and where it comes from.
struct Case {
    said: String,
    plant: Plant,
}

impl Case {
    /// What a failure prints.
    fn said(&self) -> String {
        let file = self.plant.file().unwrap_or_default();
        let bytes: String = file.iter().map(|byte| format!("{byte:02x}")).collect();
        format!("{}, file {bytes}", self.said)
    }

    fn net(&self) -> Net {
        let file = self.plant.file().expect("a plant of a file");
        Net::of_diagram(&file).expect("an accepted plant")
    }
}

const RANDOM_CASES: u64 = 1000;
const BRANCH: Part = Part::Branch { kills: false };
const KILLER: Part = Part::Branch { kills: true };

fn cases() -> Vec<Case> {
    let mut cases: Vec<Case> = (0..RANDOM_CASES).map(random_case).collect();
    cases.extend(extremes());
    for case in &cases {
        let file = case.plant.file().expect("a plant of a file");
        assert!(effbd::read_diagram(&file).is_ok(), "{}", case.said());
    }
    cases
}

fn random_case(seed: u64) -> Case {
    let mut random = Random::new(seed);
    let file = match (seed % 200, seed % 8) {
        (0, _) => crowded_diagram(&mut random),
        (_, 0) => lasting_diagram(&mut random, 64),
        (_, 2) => lasting_killing_diagram(&mut random, 64),
        (_, 3) => killing_diagram(&mut random),
        (_, 4) => lasting_trigger_diagram(&mut random, 64),
        _ => diagram(&mut random),
    };
    let mut plant = Plant::read(&file).expect("a generated file is accepted");
    name_all(&mut plant, &mut random);
    Case {
        said: format!("seed {seed}"),
        plant,
    }
}

/// New names for all rows and items that may have one.
fn name_all(plant: &mut Plant, random: &mut Random) {
    plant.title = random.chance(50).then(|| name(random));
    for item in &mut plant.items {
        item.name = name(random);
    }
    for row in &mut plant.rows {
        if row.part.is_named() || (row.part.may_be_named() && random.chance(30)) {
            row.name = Some(name(random));
        }
    }
}

/// A name of 1 to 40 letters: mostly short, some wide, some with what XML escapes.
fn name(random: &mut Random) -> String {
    let letters: &[char] = match random.below(8) {
        0 => &['W', 'M', 'Ж', '漢'],
        1 => &['&', '<', '>', '"', '\'', '\u{1}', 'x'],
        2 => &['ä', 'é', 'ß', 'Ø', 'n'],
        _ => &['a', 'e', 'm', 'n', 'r', 't', '-', '7'],
    };
    let length = match random.below(4) {
        0 => 40,
        _ => random.below(14) + 1,
    };
    (0..length).map(|_| random.pick(letters, 'x')).collect()
}

fn row(part: Part) -> Row {
    Row {
        name: part.is_named().then(|| "open-brine-valve".to_string()),
        part,
    }
}

fn function(uses: Vec<Use>) -> Part {
    Part::Function(Function {
        shortest: 20,
        longest: 65_535,
        uses,
    })
}

fn plain() -> Part {
    function(Vec::new())
}

/// Around `inside`, this many times, `opening` before and `closing` behind it.
fn nested(times: usize, opening: &[Part], inside: &[Part], closing: &[Part]) -> Vec<Part> {
    let mut parts = vec![opening; times].concat();
    parts.extend_from_slice(inside);
    parts.extend(vec![closing; times].concat());
    parts
}

fn extreme(said: &str, parts: Vec<Part>) -> Case {
    let rows = parts.into_iter().chain([Part::End]).map(row);
    let items = (0..16).map(|number| Item {
        name: format!("item-{number}"),
        count: number * 4_000,
        trigger: false,
    });
    Case {
        said: said.to_string(),
        plant: Plant {
            title: None,
            items: items.collect(),
            rows: rows.collect(),
        },
    }
}

/// The same, its items triggers.
fn triggered(case: Case) -> Case {
    let mut plant = case.plant;
    plant.items.iter_mut().for_each(|item| item.trigger = true);
    Case {
        said: format!("{}, of triggers", case.said),
        plant,
    }
}

/// A FUNCTION that takes and gives these items.
fn using(takes: &[u16], gives: &[u16]) -> Part {
    let uses = (0..16).map(|item| Use {
        item,
        take: u16::from(takes.contains(&item)),
        give: u16::from(gives.contains(&item)),
    });
    function(uses.filter(|used| used.take + used.give > 0).collect())
}

/// Plants of triggers: the longest net of all, and copies of all numbers.
fn trigger_extremes() -> Vec<Case> {
    use Part::{And, EndAnd};
    let all: Vec<u16> = (0..16).collect();
    let hall = vec![
        And,
        BRANCH,
        using(&[], &[0, 1, 2]),
        BRANCH,
        using(&[0, 1], &[1]),
        BRANCH,
        using(&[0], &[]),
        EndAnd,
    ];
    let plants = [
        extreme("everyone takes and gives all", vec![using(&all, &all); 63]),
        extreme("two, one and no receiver", hall),
        extreme("given to none", vec![using(&[], &all)]),
        extreme("taken, never given", vec![using(&all, &[]); 3]),
    ];
    plants.into_iter().map(triggered).collect()
}

/// Plants with branches that kill: side by side, one in the other, by every kind of last row, and some that never do.
fn kill_extremes() -> Vec<Case> {
    use Part::{And, EndAnd, EndLoop, EndOr, EndRepeat, ExitLoop, Loop, Or};
    let it = Part::Repeat { count: 3 };
    let mut killers = vec![And];
    (0..30).for_each(|_| killers.extend([KILLER, plain()]));
    killers.push(EndAnd);
    let nest = [And, BRANCH, it.clone(), EndRepeat, KILLER];
    let left = [
        Loop,
        And,
        KILLER,
        plain(),
        ExitLoop,
        BRANCH,
        EndAnd,
        EndLoop,
    ];
    let killing_exit = [
        vec![And, BRANCH, it.clone(), plain(), EndRepeat, KILLER],
        left.to_vec(),
        vec![EndAnd],
    ];
    let last_rows = [
        vec![And, KILLER, it.clone(), EndRepeat, KILLER],
        vec![Loop, plain(), EndLoop],
        vec![KILLER, Or, BRANCH, BRANCH, EndOr, KILLER, plain()],
        vec![BRANCH, EndAnd],
    ];
    let never = [
        vec![Loop, And, KILLER, ExitLoop, KILLER, plain(), ExitLoop],
        vec![BRANCH, plain(), EndAnd, EndLoop],
    ];
    vec![
        extreme("30 that kill", killers),
        extreme(
            "10 ANDs that kill",
            nested(10, &nest, &[plain()], &[EndAnd]),
        ),
        extreme("an LE that kills", killing_exit.concat()),
        extreme("last rows of killing branches", last_rows.concat()),
        extreme("that never kill", never.concat()),
    ]
}

/// EXIT, by the outlet of this number.
fn exit(outlet: u16) -> Part {
    Part::ExitTo { outlet }
}

/// Plants of boxes: one in the other's scenario and outlets, of many outlets, with EXITs and LEs wherever they may stand.
fn box_extremes() -> Vec<Case> {
    use Part::{And, Box, EndAnd, EndBox, EndLoop, EndOr, EndRepeat, ExitLoop, Loop, Or, Outlet};
    let it = Part::Repeat { count: 3 };
    let mut outlets = vec![Box, And];
    (0..19).for_each(|outlet| outlets.extend([BRANCH, exit(outlet)]));
    outlets.push(EndAnd);
    outlets.extend(vec![Outlet; 19]);
    outlets.push(EndBox);
    let either = [Or, BRANCH, exit(0), BRANCH, plain(), exit(1), EndOr];
    let opening = [Box, And, BRANCH, exit(1), BRANCH];
    let closing = [exit(0), EndAnd, Outlet, Outlet, EndBox];
    let boxed = [&[Box], &either[..], &[Outlet]].concat();
    let in_outlets = [&boxed[..], &[Outlet]].concat();
    // An EXIT in an outlet leaves the box around.
    let through = [
        vec![Box, plain()],
        boxed.clone(),
        vec![plain(), exit(1), Outlet, exit(2), EndBox, exit(0)],
        vec![Outlet, plain(), Outlet, Outlet, plain(), EndBox, plain()],
    ];
    let loops = [
        vec![Loop, plain(), Box, Loop, plain(), Or, BRANCH, ExitLoop],
        vec![BRANCH, plain(), exit(0), EndOr, EndLoop, exit(1), Outlet],
        vec![plain(), Or, BRANCH, plain(), ExitLoop, BRANCH, EndOr],
        vec![Outlet, Or, BRANCH, ExitLoop, BRANCH, ExitLoop, EndOr],
        vec![EndBox, EndLoop, plain()],
    ];
    let turns = [
        vec![it.clone(), Box, it.clone(), And, BRANCH, exit(0), BRANCH],
        vec![plain(), exit(1), EndAnd, EndRepeat, exit(2), Outlet],
        vec![it.clone(), EndRepeat, Outlet, plain(), Outlet, EndBox],
        vec![EndRepeat],
    ];
    let killers = [
        vec![And, BRANCH, plain(), KILLER, Box, And, KILLER, plain()],
        vec![exit(0), BRANCH, it, plain(), EndRepeat, exit(1), EndAnd],
        vec![Outlet, plain(), Outlet, EndBox, KILLER, plain(), EndAnd],
    ];
    vec![
        extreme("19 outlets", outlets),
        extreme(
            "6 boxes in scenarios",
            nested(6, &opening, &[plain()], &closing),
        ),
        extreme(
            "5 boxes in outlets",
            nested(5, &in_outlets, &[plain()], &[EndBox]),
        ),
        extreme("EXITs in outlets", through.concat()),
        extreme("LEs around and in boxes", loops.concat()),
        extreme("boxes around and in ITs", turns.concat()),
        extreme("boxes and branches that kill", killers.concat()),
    ]
}

fn extremes() -> Vec<Case> {
    use Part::{And, EndAnd, EndLoop, EndOr, EndRepeat, ExitLoop, Loop, Or};
    let it = Part::Repeat { count: 255 };
    let uses = (0..16).map(|item| Use {
        item,
        take: item * 9,
        give: 65_535 - item,
    });
    let mut branches = vec![And];
    (0..30).for_each(|_| branches.extend([BRANCH, plain()]));
    branches.push(EndAnd);
    let exits = [
        vec![
            Loop,
            it.clone(),
            And,
            BRANCH,
            plain(),
            it.clone(),
            Or,
            BRANCH,
            ExitLoop,
            BRANCH,
            plain(),
            EndOr,
        ],
        vec![
            EndRepeat,
            plain(),
            BRANCH,
            And,
            BRANCH,
            ExitLoop,
            BRANCH,
            ExitLoop,
            EndAnd,
            EndAnd,
            plain(),
        ],
        vec![
            EndRepeat,
            Or,
            BRANCH,
            plain(),
            ExitLoop,
            BRANCH,
            EndOr,
            plain(),
            EndLoop,
            plain(),
        ],
    ];
    let empty = [
        vec![Loop, Or, BRANCH, BRANCH, plain(), EndOr, EndLoop],
        vec![it.clone(), EndRepeat, And, BRANCH, BRANCH, EndAnd],
        vec![Or, BRANCH, BRANCH, BRANCH, EndOr, Loop, plain(), Or],
        vec![BRANCH, ExitLoop, BRANCH, ExitLoop, EndOr, EndLoop],
    ];
    let in_or = [Or, BRANCH, BRANCH];
    let exit_deep = [And, BRANCH, ExitLoop, BRANCH, EndAnd];
    let mut in_its = vec![Loop];
    in_its.extend(nested(
        10,
        std::slice::from_ref(&it),
        &exit_deep,
        &[EndRepeat, plain()],
    ));
    in_its.push(EndLoop);
    let mut all = vec![
        extreme("END alone", Vec::new()),
        extreme("a run of 64", vec![plain(); 63]),
        extreme("12 LPs", nested(12, &[Loop], &[plain()], &[EndLoop])),
        extreme(
            "12 ITs, each with more behind",
            nested(12, &[plain(), it.clone()], &[], &[EndRepeat, plain()]),
        ),
        extreme(
            "12 ANDs",
            nested(12, &[And, BRANCH, BRANCH], &[plain()], &[EndAnd]),
        ),
        extreme("12 ORs", nested(12, &in_or, &[plain()], &[EndOr])),
        extreme("an AND of 30", branches),
        extreme("LEs in ANDs in ITs", exits.concat()),
        extreme("an LE in 10 ITs", in_its),
        extreme("empty bodies and branches", empty.concat()),
        extreme("16 uses", vec![function(uses.collect()), plain()]),
    ];
    all.extend(trigger_extremes());
    all.extend(kill_extremes());
    all.extend(box_extremes());
    all.extend(all.iter().map(widely_named).collect::<Vec<Case>>());
    all
}

/// The same with names of 40 wide letters wherever there may be one.
fn widely_named(case: &Case) -> Case {
    let mut plant = case.plant.clone();
    plant.title = Some("Ж".repeat(40));
    for row in &mut plant.rows {
        if row.part.may_be_named() {
            row.name = Some("W".repeat(39) + "-");
        }
    }
    for item in &mut plant.items {
        item.name = "漢".repeat(40);
    }
    Case {
        said: format!("{}, wide names", case.said),
        plant,
    }
}

/// Of two stretches of numbers: how long they lie on one another.
fn shared(first: (i32, i32), second: (i32, i32)) -> i32 {
    first.1.min(second.1) - first.0.max(second.0)
}

fn across(placed: &Placed) -> (i32, i32) {
    (placed.x, placed.x + placed.width)
}

fn upright(placed: &Placed) -> (i32, i32) {
    (placed.y, placed.y + placed.height)
}

fn span(first: i32, second: i32) -> (i32, i32) {
    (first.min(second), first.max(second))
}

/// Whether the inside of the box has a point of the level or upright stretch.
fn runs_through(placed: &Placed, from: Point, to: Point) -> bool {
    let (left, right) = across(placed);
    let (top, bottom) = upright(placed);
    let (first, last) = span(from.0, to.0);
    let (high, low) = span(from.1, to.1);
    first < right && last > left && high < bottom && low > top
}

fn check_boxes(sheet: &Sheet, said: &str) {
    let boxes = sheet.boxes();
    for (number, placed) in boxes.iter().enumerate() {
        assert!(placed.width > 0 && placed.height > 0, "{placed:?}; {said}");
        let inside = placed.x >= 0
            && placed.y >= 0
            && placed.x + placed.width <= sheet.width
            && placed.y + placed.height <= sheet.height;
        assert!(inside, "outside {placed:?}; {said}");
        for other in &boxes[..number] {
            let over = shared(across(placed), across(other)) > 0
                && shared(upright(placed), upright(other)) > 0;
            assert!(!over, "{placed:?} over {other:?}; {said}");
        }
    }
}

fn check_lines(sheet: &Sheet, said: &str) {
    let boxes = sheet.boxes();
    for line in &sheet.lines {
        assert!(line.points.len() > 1, "{line:?}; {said}");
        for stretch in line.points.windows(2) {
            let [from, to] = [stretch[0], stretch[1]];
            assert!(
                from != to && (from.0 == to.0 || from.1 == to.1),
                "{line:?}; {said}"
            );
            let inside = [from, to]
                .iter()
                .all(|(x, y)| (0..=sheet.width).contains(x) && (0..=sheet.height).contains(y));
            assert!(inside, "outside {line:?}; {said}");
            let hit = boxes.iter().find(|placed| runs_through(placed, from, to));
            assert!(hit.is_none(), "{line:?} through {hit:?}; {said}");
        }
        for end in [line.points[0], line.points[line.points.len() - 1]] {
            let at_box = boxes.iter().any(|placed| touched(placed, end));
            let mut others = sheet.lines.iter().filter(|other| *other != line);
            let at_line = others.any(|other| passes(other, end));
            assert!(at_box || at_line, "ends nowhere {line:?}; {said}");
        }
    }
}

/// Whether the line goes through the point.
fn passes(line: &Line, (x, y): Point) -> bool {
    line.points.windows(2).any(|ends| {
        let (left, right) = span(ends[0].0, ends[1].0);
        let (top, bottom) = span(ends[0].1, ends[1].1);
        (left..=right).contains(&x) && (top..=bottom).contains(&y)
    })
}

/// Whether the point is on the side of the box.
fn touched(placed: &Placed, (x, y): Point) -> bool {
    let ((left, right), (top, bottom)) = (across(placed), upright(placed));
    (left..=right).contains(&x) && (top..=bottom).contains(&y)
}

/// Two lines lie on one another only where they begin or end at the same.
fn check_lines_apart(sheet: &Sheet, said: &str) {
    for (number, line) in sheet.lines.iter().enumerate() {
        for other in &sheet.lines[..number] {
            let kin = line.from == other.from || line.to == other.to;
            assert!(
                kin || !lie_together(line, other),
                "{line:?} on {other:?}; {said}"
            );
        }
    }
}

fn lie_together(line: &Line, other: &Line) -> bool {
    let pairs = line.points.windows(2);
    pairs.into_iter().any(|one| {
        other.points.windows(2).any(|two| {
            let level = [one[1], two[0], two[1]].iter().all(|at| at.1 == one[0].1);
            let upright = [one[1], two[0], two[1]].iter().all(|at| at.0 == one[0].0);
            let along = |of: fn(Point) -> i32| {
                shared(span(of(one[0]), of(one[1])), span(of(two[0]), of(two[1])))
            };
            (level && along(|at| at.0) > 0) || (upright && along(|at| at.1) > 0)
        })
    })
}

fn check_sheet(sheet: &Sheet, said: &str) {
    check_boxes(sheet, said);
    check_lines(sheet, said);
    check_lines_apart(sheet, said);
}

/// The attributes of an element, by their names.
type Attributes = BTreeMap<String, String>;

/// The elements of well-formed XML; otherwise what is wrong with it.
fn elements(svg: &str) -> Result<Vec<Attributes>, String> {
    let mut open: Vec<&str> = Vec::new();
    let mut found = Vec::new();
    let mut rest = svg;
    while let Some(start) = rest.find('<') {
        text_right(&rest[..start])?;
        let (tag, behind) = rest[start + 1..]
            .split_once('>')
            .ok_or("a tag without end")?;
        rest = behind;
        if let Some(name) = tag.strip_prefix('/') {
            if open.pop() != Some(name) {
                return Err(format!("</{name}> closes nothing"));
            }
            continue;
        }
        let inside = tag.strip_suffix('/').unwrap_or(tag);
        let (name, attributes) = inside.split_once(' ').unwrap_or((inside, ""));
        if name.is_empty() || !name.chars().all(|letter| letter.is_ascii_alphanumeric()) {
            return Err(format!("an element named {name:?}"));
        }
        found.push(attributes_of(attributes)?);
        if inside == tag {
            open.push(name);
        }
    }
    if open.is_empty() && rest.trim().is_empty() {
        Ok(found)
    } else {
        Err(format!("open at the end: {open:?}"))
    }
}

fn attributes_of(text: &str) -> Result<Attributes, String> {
    let mut attributes = Attributes::new();
    let mut rest = text.trim_start();
    while !rest.is_empty() {
        let (name, behind) = rest
            .split_once("=\"")
            .ok_or(format!("no value: {rest:?}"))?;
        let (value, behind) = behind.split_once('"').ok_or(format!("no end: {rest:?}"))?;
        if name.is_empty() || name.contains(|letter: char| letter.is_whitespace() || letter == '"')
        {
            return Err(format!("an attribute named {name:?}"));
        }
        text_right(value)?;
        if attributes
            .insert(name.to_string(), value.to_string())
            .is_some()
        {
            return Err(format!("{name} twice"));
        }
        if !behind.is_empty() && !behind.starts_with(' ') {
            return Err(format!("no space behind {name}"));
        }
        rest = behind.trim_start();
    }
    Ok(attributes)
}

/// Text may hold known entities, and nothing that XML forbids.
fn text_right(text: &str) -> Result<(), String> {
    let entities = ["amp;", "lt;", "gt;", "quot;"];
    let mut parts = text.split('&');
    let first = parts.next().unwrap_or_default();
    if first.contains('>') {
        return Err(format!("a bare > in {first:?}"));
    }
    if text.contains(|letter: char| letter.is_control() && letter != '\n') {
        return Err(format!("a control letter in {text:?}"));
    }
    match parts.find(|part| !entities.iter().any(|entity| part.starts_with(entity))) {
        Some(part) => Err(format!("an unknown entity: &{part}")),
        None => Ok(()),
    }
}

/// How often each value of an attribute stands there.
fn counted(found: &[Attributes], attribute: &str) -> BTreeMap<String, usize> {
    let mut counts = BTreeMap::new();
    for value in found.iter().filter_map(|element| element.get(attribute)) {
        *counts.entry(value.clone()).or_insert(0) += 1;
    }
    counts
}

fn once(values: impl Iterator<Item = String>) -> BTreeMap<String, usize> {
    values.map(|value| (value, 1)).collect()
}

#[test]
fn diagrams_have_room() {
    for case in cases() {
        check_sheet(&draw::diagram_sheet(&case.plant), &case.said());
    }
}

#[test]
fn nets_have_room() {
    for case in cases() {
        check_sheet(&draw::net_sheet(&case.plant, &case.net()), &case.said());
    }
}

#[test]
fn every_row_is_drawn_once() {
    for case in cases() {
        let svg = draw::diagram(&case.plant);
        let found = elements(&svg).unwrap_or_else(|fault| panic!("{fault}: {}", case.said()));
        let rows = once((0..case.plant.rows.len()).map(|row| row.to_string()));
        assert_eq!(counted(&found, "data-row"), rows, "{}", case.said());
    }
}

/// Of each row that opens a construct: the row that closes it. Of every other row: itself.
fn closes(plant: &Plant) -> Vec<usize> {
    let mut closes: Vec<usize> = (0..plant.rows.len()).collect();
    let mut open = Vec::new();
    for (row, found) in plant.rows.iter().enumerate() {
        if found.part.opens() {
            open.push(row);
        } else if found.part.closes() {
            closes[open.pop().expect("an open row")] = row;
        }
    }
    closes
}

/// The lines that the rows ask for: from row to row, from LEs, and to and from items.
fn flow(plant: &Plant) -> Vec<(Node, Node)> {
    let (owners, closes) = (structure::owners(plant), closes(plant));
    let part = |row: usize| &plant.rows[row].part;
    let killers = structure::killers(plant);
    let killer = |row: usize| killers.iter().find(|killer| killer.branch == row);
    // Of a row, where the flow of the branch comes to that ends there: to the close, or before it to the sign that it kills.
    let ended = |row: usize, open: usize| {
        let branch = structure::branches(plant, open).into_iter();
        let branch = branch.filter(|branch| *branch < row).max();
        let kills = branch.filter(|branch| killer(*branch).is_some());
        kills.map_or(Node::Row(closes[open]), Node::Kill)
    };
    let target = |row: usize| match (part(row), owners[row]) {
        // No line goes out of a scenario: its EXITs name the outlets.
        (Part::Outlet, Some(open)) if structure::branches(plant, open)[0] == row => None,
        (Part::Branch { .. } | Part::Outlet, Some(open)) => Some(ended(row, open)),
        (Part::EndAnd, _) => {
            let open = closes.iter().position(|close| *close == row);
            Some(ended(row, open.expect("a close has its open")))
        }
        _ => Some(Node::Row(row)),
    };
    let onward = |row: usize| target(row + 1).map(|to| (Node::Row(row), to));
    let branches = |open: usize, from: Node| {
        let branches = structure::branches(plant, open).into_iter();
        branches.map(move |branch| (from, Node::Row(branch)))
    };
    let mut flow = vec![(Node::Start, Node::Row(0))];
    for row in 0..plant.rows.len() {
        let from = Node::Row(row);
        match part(row) {
            Part::End | Part::ExitTo { .. } => {}
            Part::ExitLoop => {
                let mut around = owners[row].expect("an LE stands in a construct");
                while *part(around) != Part::Loop {
                    around = owners[around].expect("an LE stands in a loop");
                }
                flow.push((from, Node::Behind(closes[around])));
            }
            Part::And | Part::Or => flow.extend(branches(row, from)),
            Part::Box => {
                flow.extend(onward(row));
                flow.extend(branches(row, Node::Gate(row)));
            }
            Part::Function(function) => {
                flow.extend(onward(row));
                flow.extend(function.uses.iter().flat_map(|used| used_lines(row, used)));
            }
            _ => flow.extend(onward(row)),
        }
        if let Some(killer) = killer(row).filter(|killer| killer.can_kill(plant)) {
            flow.push((Node::Kill(row), Node::Row(closes[killer.and])));
        }
        if matches!(part(row), Part::Loop | Part::Repeat { .. }) {
            flow.push((Node::Row(closes[row]), from));
        }
    }
    flow.sort();
    flow
}

fn used_lines(row: usize, used: &Use) -> Vec<(Node, Node)> {
    let item = usize::from(used.item);
    let (block, item) = (Node::Row(row), Node::Item { row, item });
    let take = (used.take > 0).then_some((item, block));
    let give = (used.give > 0).then_some((block, item));
    take.into_iter().chain(give).collect()
}

#[test]
fn diagrams_flow_as_the_rows_say() {
    for case in cases() {
        let lines = draw::lines(&case.plant);
        let mut drawn: Vec<(Node, Node)> = lines.iter().map(|line| (line.from, line.to)).collect();
        drawn.sort();
        assert_eq!(drawn, flow(&case.plant), "{}", case.said());
    }
}

/// Items are round and triggers pointed, each at every block that uses it and once in the list.
#[test]
fn triggers_are_told_apart() {
    for case in cases() {
        let sheet = draw::diagram_sheet(&case.plant);
        let frames = sheet.groups.iter().flat_map(|group| &group.frames);
        let outlines: Vec<Outline> = frames.map(|frame| frame.outline).collect();
        let drawn = |outline| outlines.iter().filter(|other| **other == outline).count();
        let uses = case.plant.rows.iter().flat_map(|row| match &row.part {
            Part::Function(function) => function.uses.as_slice(),
            _ => &[],
        });
        let uses = uses.map(|used| &case.plant.items[usize::from(used.item)]);
        let signs: Vec<&Item> = uses.chain(&case.plant.items).collect();
        let triggers = signs.iter().filter(|item| item.trigger).count();
        assert_eq!(drawn(Outline::Flag), triggers, "{}", case.said());
        assert_eq!(
            drawn(Outline::Pill),
            signs.len() - triggers,
            "{}",
            case.said()
        );
    }
}

/// A branch that kills has a tag of its own, and a sign at its end, if that can come.
#[test]
fn killing_branches_are_told_apart() {
    let (mut with, mut without) = (0, 0);
    for case in cases() {
        let (plant, said) = (&case.plant, case.said());
        let killers = structure::killers(plant);
        let ends = killers.iter().filter(|killer| killer.can_kill(plant));
        let ends: Vec<usize> = ends.map(|killer| killer.branch).collect();
        let sheet = draw::diagram_sheet(plant);
        let frames = sheet.groups.iter().flat_map(|group| &group.frames);
        let outlines: Vec<Outline> = frames.map(|frame| frame.outline).collect();
        let drawn = |outline| outlines.iter().filter(|other| **other == outline).count();
        assert_eq!(drawn(Outline::KillTag), killers.len(), "{said}");
        assert_eq!(drawn(Outline::Kill), ends.len(), "{said}");
        let svg = draw::diagram(plant);
        let found = elements(&svg).unwrap_or_else(|fault| panic!("{fault}: {said}"));
        let rows = once(ends.iter().map(usize::to_string));
        assert_eq!(counted(&found, "data-kill"), rows, "{said}");
        assert_eq!(svg.contains("KILL, and the red tag"), !killers.is_empty());
        with += ends.len();
        without += killers.len() - ends.len();
    }
    assert!(with > 100 && without > 10, "{with} kill, {without} never");
}

/// The number behind this attribute of a group, if it has one.
fn told(group: &Group, attribute: &str, before: &str) -> Option<usize> {
    let (name, value) = group.attribute.as_ref()?;
    let number = value.strip_prefix(before).filter(|_| *name == attribute)?;
    number.parse().ok()
}

/// Whether a point is inside a border.
fn within(border: &Border, (x, y): Point) -> bool {
    let (right, bottom) = (border.x + border.width, border.y + border.height);
    (border.x..=right).contains(&x) && (border.y..=bottom).contains(&y)
}

/// Inside a border stands what belongs to these rows, and nothing else; a line crosses it only to `entry`.
fn check_border(
    border: &Border,
    sheet: &Sheet,
    rows: &[usize],
    row_of: impl Fn(&Group) -> Option<usize>,
    entry: Node,
    said: &str,
) {
    let own_gate = |group: &&Group| told(group, "data-gate", "") == Some(border.row);
    for group in sheet.groups.iter().filter(|group| !own_gate(group)) {
        for frame in &group.frames {
            let corners = [(frame.x, frame.y), (frame.right(), frame.bottom())];
            let [first, last] = corners.map(|corner| within(border, corner));
            // Of weights and other words no row is said.
            let belongs = row_of(group).map_or(first, |row| rows.contains(&row));
            let right = [first, last] == [belongs; 2];
            assert!(right, "{border:?}, {frame:?}, {said}");
        }
    }
    for line in sheet.lines.iter().filter(|line| line.to != entry) {
        let mut points = line.points.iter();
        let inside = points.clone().filter(|at| within(border, **at)).count();
        let at_gate = line.from == Node::Gate(border.row);
        let whole = inside == 0 || points.all(|at| within(border, *at));
        assert!(at_gate || whole, "{border:?}, {line:?}, {said}");
    }
}

/// Every box has a border around its open and its scenario, in diagram and net; in the diagram also a sign where its outlets begin, and each
/// of its EXITs names its outlet.
#[test]
fn boxes_have_borders() {
    let mut bordered = 0;
    for case in cases() {
        let (plant, net, said) = (&case.plant, case.net(), case.said());
        let boxes = boxes::all(plant);
        let (diagram, drawn) = (draw::diagram_sheet(plant), draw::net_sheet(plant, &net));
        let opens: Vec<usize> = boxes.iter().map(|boxed| boxed.open).collect();
        for sheet in [&diagram, &drawn] {
            let mut rows: Vec<usize> = sheet.borders.iter().map(|border| border.row).collect();
            rows.sort_unstable();
            assert_eq!(rows, opens, "{said}");
        }
        let gates = diagram.groups.iter();
        let mut gates: Vec<usize> = gates
            .filter_map(|group| told(group, "data-gate", ""))
            .collect();
        gates.sort_unstable();
        assert_eq!(gates, opens, "{said}");
        for boxed in &boxes {
            let rows: Vec<usize> = boxed.cleared().collect();
            let border = |sheet: &Sheet| {
                let mut borders = sheet.borders.iter();
                *borders
                    .find(|border| border.row == boxed.open)
                    .expect("one")
            };
            let of_row = |group: &Group| {
                let mut signs = ["data-row", "data-kill", "data-gate"].into_iter();
                signs.find_map(|sign| told(group, sign, ""))
            };
            let of_node = |group: &Group| {
                let place = told(group, "data-node", "p").map(|place| place / 3);
                let label = |number: usize| usize::from(net.transitions[number].label);
                place.or(told(group, "data-node", "t").map(label))
            };
            let entry = Node::Row(boxed.open);
            check_border(&border(&diagram), &diagram, &rows, of_row, entry, &said);
            let entry = Node::Place(3 * boxed.open);
            check_border(&border(&drawn), &drawn, &rows, of_node, entry, &said);
        }
        bordered += boxes.len();
    }
    assert!(bordered > 40, "{bordered} boxes");
}

/// An EXIT's sign names its outlet, and its transition in the net clears what stands inside the border.
#[test]
fn exits_are_told() {
    let mut exits = 0;
    for case in cases() {
        let (plant, net, said) = (&case.plant, case.net(), case.said());
        let svg = draw::diagram(plant);
        assert_eq!(
            svg.contains(">BOX: what is inside"),
            !boxes::all(plant).is_empty()
        );
        let sheet = draw::diagram_sheet(plant);
        for boxed in boxes::all(plant) {
            let cleared = boxed.cleared();
            let range = (3 * cleared.start as u16, 3 * cleared.end as u16 - 1);
            for exit in boxed.exits {
                let outlet = boxes::outlet(plant, exit).expect("an accepted plant");
                let group = sheet
                    .groups
                    .iter()
                    .find(|group| told(group, "data-row", "") == Some(exit));
                let frames = group.expect("a sign").frames.iter();
                let words = frames.flat_map(|frame| &frame.words);
                let words: Vec<&str> = words.map(|words| words.text.as_str()).collect();
                let named = format!("to {}", plant.row_name(outlet));
                assert!(words.concat().ends_with(&named), "{words:?}, {said}");
                let mut fired = net.transitions.iter().enumerate();
                let fired = fired.find(|(_, transition)| usize::from(transition.label) == exit);
                let (number, transition) = fired.expect("a transition");
                assert_eq!(transition.clears, [range], "t{number}, {said}");
                let told = rink::net::transition_words(plant, &net, number);
                assert!(
                    told.starts_with(&format!("exit {named} (row {exit}): box left")),
                    "{told}"
                );
                exits += 1;
            }
        }
    }
    assert!(exits > 80, "{exits} exits");
}

/// The transitions that kill are those that clear more than a loop, or are no LE; each says so, marks all branches and has a red tag.
#[test]
fn killing_transitions_are_told() {
    let mut told = 0;
    let killing = |case: &Case| !structure::killers(&case.plant).is_empty();
    for case in cases().into_iter().filter(killing) {
        let (plant, net, said) = (&case.plant, case.net(), case.said());
        let (closes, mut kills) = (closes(plant), 0);
        for (number, transition) in net.transitions.iter().enumerate() {
            let words = rink::net::transition_words(plant, &net, number);
            let Some(and) = rink::net::killed(plant, &net, number) else {
                let row = usize::from(transition.label);
                let leaves = plant.rows[row].part.leaves();
                assert_eq!(!transition.clears.is_empty(), leaves, "t{number}, {said}");
                assert!(!words.contains("killing the other branches"), "{said}");
                continue;
            };
            let inside = (3 * (and as u16 + 1), 3 * closes[and] as u16 - 1);
            assert_eq!(transition.clears, [inside], "t{number}, {said}");
            let branches = structure::branches(plant, and).into_iter();
            let marked = |row: usize| {
                let mut gives = transition.gives.iter();
                gives.any(|arc| usize::from(arc.place) == 3 * row)
            };
            assert!(branches.into_iter().all(marked), "t{number}, {said}");
            let and = plant.row_name(and);
            let killing = format!(", killing the other branches of {and}");
            assert!(words.ends_with(&killing), "{words}, {said}");
            kills += 1;
        }
        let sheet = draw::net_sheet(plant, &net);
        let frames = sheet.groups.iter().flat_map(|group| &group.frames);
        let red = frames.filter(|frame| frame.outline == Outline::KillTag);
        assert_eq!(red.count(), kills, "{said}");
        told += kills;
    }
    assert!(told > 100, "{told} told");
}

/// Other programs know places and transitions by their names: each is said once.
#[test]
fn other_formats_name_all_once() {
    for case in cases() {
        let net = case.net();
        let (dot, tina) = (
            formats::dot(&case.plant, &net),
            formats::tina(&case.plant, &net),
        );
        let used = (0..net.marks.len()).filter(|place| net.used(*place));
        let nodes = used.map(|place| format!("p{place}"));
        let transitions = (0..net.transitions.len()).map(|number| format!("t{number}"));
        let mut nodes: Vec<String> = nodes.chain(transitions).collect();
        nodes.sort();
        let first = |line: &str, before: &str| {
            let rest = line.trim_start().strip_prefix(before)?;
            Some(rest.split(' ').next()?.to_string())
        };
        let shaped = dot.lines().filter(|line| line.contains("[shape="));
        let mut said: Vec<String> = shaped.filter_map(|line| first(line, "")).collect();
        said.sort();
        assert_eq!(said, nodes, "{}", case.said());
        let told = tina.lines();
        let told = told.filter_map(|line| first(line, "pl ").or(first(line, "tr ")));
        let mut told: Vec<String> = told.collect();
        told.sort();
        assert_eq!(told, nodes, "{}", case.said());
    }
}

/// An arc as the drawing and the net have it: whether it gives, transition, place, weight.
type DrawnArc = (bool, u16, u16, u16);

/// The arcs of the lines; one to all copies of a trigger stands for an arc to each.
fn drawn_arcs(found: &[Attributes]) -> Vec<DrawnArc> {
    let number = |text: &str| -> u16 { text.parse().expect("a number") };
    let mut arcs = Vec::new();
    for element in found {
        let Some(kind) = element.get("data-arc") else {
            continue;
        };
        let places = element["data-place"].as_str();
        let (first, last) = places.split_once("..").unwrap_or((places, places));
        let transition = number(&element["data-transition"]);
        let weight = number(&element["data-weight"]);
        let places = number(first)..=number(last);
        arcs.extend(places.map(|place| (kind == "give", transition, place, weight)));
    }
    arcs.sort();
    arcs
}

fn net_arcs(net: &Net) -> Vec<DrawnArc> {
    let mut arcs = Vec::new();
    for (number, transition) in (0..).zip(&net.transitions) {
        for (gives, of_kind) in [(false, &transition.takes), (true, &transition.gives)] {
            let of_kind = of_kind.iter();
            arcs.extend(of_kind.map(|arc| (gives, number, arc.place, arc.weight)));
        }
    }
    arcs.sort();
    arcs
}

#[test]
fn nets_are_drawn_whole() {
    for case in cases() {
        let net = case.net();
        let svg = draw::net(&case.plant, &net);
        let found = elements(&svg).unwrap_or_else(|fault| panic!("{fault}: {}", case.said()));
        let transitions = (0..net.transitions.len()).map(|number| format!("t{number}"));
        let places = (0..net.marks.len()).filter(|place| net.used(*place));
        let nodes = once(transitions.chain(places.map(|place| format!("p{place}"))));
        assert_eq!(counted(&found, "data-node"), nodes, "{}", case.said());
        let same = drawn_arcs(&found) == net_arcs(&net);
        assert!(same, "other arcs: {}", case.said());
        let clears = net
            .transitions
            .iter()
            .flat_map(|transition| &transition.clears);
        let clears = clears.map(|(first, last)| format!(">clears {first}..{last}<"));
        let told: BTreeSet<String> = clears.filter(|said| !svg.contains(said)).collect();
        assert!(told.is_empty(), "{told:?} not told: {}", case.said());
    }
}

#[test]
fn the_checker_of_xml_can_refuse() {
    let wrong = [
        "<g>",
        "</g>",
        "<g></p>",
        "<g a=\"1\" a=\"2\"/>",
        "<g a=1/>",
        "<g>&nbsp;</g>",
        "<g>a > b</g>",
        "<g a=\"1\"b=\"2\"/>",
    ];
    for svg in wrong {
        assert!(elements(svg).is_err(), "{svg}");
    }
    assert!(elements("<g a=\"&lt;\"><p/>x &amp; y</g>\n").is_ok());
}
