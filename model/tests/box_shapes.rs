//! Random plants with boxes: diagram and net agree along every walk, a second
//! reading by whole constructs says the same of 49, 50 and 45, and the generators
//! come to each shape that request 7 can go wrong at.

mod common;

use common::{net_of, records, refused, Shapes};
use model::diagram::{parse, read, Construct, Diagram, Row};
use model::diagram_step::{activity, clock, fresh_state, moved, turns, DONE, READY, RUNNING};
use model::examples::{exit_to, nested};
use model::exits::{exit_by, has_boxes, Exit};
use model::generate::{self, Random};
use model::history::{agreement, claim, moves_to_try};
use model::logs::Log;
use model::records::{
    word, AND_CLOSE, AND_OPEN, BOX_CLOSE, BOX_OPEN, BRANCH, END, EXIT, FUNCTION, HEAD, IT_CLOSE,
    IT_OPEN, KILLING_BRANCH, LOOP_EXIT, LP_CLOSE, LP_OPEN, OR_CLOSE, OR_OPEN, TRIGGER,
};
use model::{Answer, Refusal};
use std::collections::BTreeMap;

/// A construct, whole.
enum Node {
    Function {
        alpha: u16,
    },
    Exit {
        outlet: u16,
    },
    LoopExit,
    /// An AND or OR.
    Branched {
        is_and: bool,
        branches: Vec<Branch>,
    },
    It {
        body: Vec<Node>,
    },
    Lp {
        open: usize,
        body: Vec<Node>,
    },
    Boxed {
        open: usize,
        scenario: Vec<Node>,
        outlets: Vec<Vec<Node>>,
    },
}

struct Branch {
    kills: bool,
    run: Vec<Node>,
}

/// The rows of a file, whatever is off in it.
fn rows(bytes: &[u8]) -> Vec<&[u8]> {
    let records = records(bytes).into_iter().map(|(_, record)| record);
    let rows = records.skip_while(|row| (HEAD..=TRIGGER).contains(&word(row, 1)));
    rows.collect()
}

fn kinds(bytes: &[u8]) -> Vec<u16> {
    rows(bytes).iter().map(|row| word(row, 1)).collect()
}

/// Reads whole constructs, of rows whose nesting is right.
struct Second<'a> {
    rows: Vec<&'a [u8]>,
    at: usize,
}

impl Second<'_> {
    fn kind(&self) -> u16 {
        word(self.rows[self.at], 1)
    }

    /// Constructs as far as a BRANCH, a close or END.
    fn run(&mut self) -> Vec<Node> {
        let mut run = Vec::new();
        loop {
            let (open, row) = (self.at, self.rows[self.at]);
            let opens = match self.kind() {
                FUNCTION => Some(Node::Function {
                    alpha: word(row, 2),
                }),
                EXIT => Some(Node::Exit {
                    outlet: word(row, 2),
                }),
                LOOP_EXIT => Some(Node::LoopExit),
                AND_OPEN | OR_OPEN | IT_OPEN | LP_OPEN | BOX_OPEN => None,
                _ => return run,
            };
            self.at += 1;
            run.push(opens.unwrap_or_else(|| self.construct(open, word(row, 1))));
        }
    }

    /// What this row opens.
    fn construct(&mut self, open: usize, kind: u16) -> Node {
        let body = self.run();
        let mut branches = Vec::new();
        while [BRANCH, KILLING_BRANCH].contains(&self.kind()) {
            let kills = self.kind() == KILLING_BRANCH;
            self.at += 1;
            let run = self.run();
            branches.push(Branch { kills, run });
        }
        self.at += 1;
        match kind {
            IT_OPEN => Node::It { body },
            LP_OPEN => Node::Lp { open, body },
            BOX_OPEN => Node::Boxed {
                open,
                scenario: body,
                outlets: branches.into_iter().map(|branch| branch.run).collect(),
            },
            _ => Node::Branched {
                is_and: kind == AND_OPEN,
                branches,
            },
        }
    }
}

/// What is off in a file whose nesting is right: boxes and loops by their opens.
#[derive(Default)]
struct Faults {
    /// Outlets of each box that is unmatched, and the EXITs' fields.
    unmatched: BTreeMap<usize, (usize, Vec<u16>)>,
    falling: Vec<usize>,
    timeless: Vec<usize>,
}

impl Faults {
    fn of(bytes: &[u8]) -> Self {
        let mut second = Second {
            rows: rows(bytes),
            at: 0,
        };
        let run = second.run();
        let mut faults = Faults::default();
        faults.look(&run);
        faults
    }

    fn look(&mut self, run: &[Node]) {
        for node in run {
            match node {
                Node::Function { .. } | Node::Exit { .. } | Node::LoopExit => {}
                Node::Branched { branches, .. } => {
                    branches.iter().for_each(|branch| self.look(&branch.run));
                }
                Node::It { body } => self.look(body),
                Node::Lp { open, body } => {
                    if !body.iter().any(spends_time) {
                        self.timeless.push(*open);
                    }
                    self.look(body);
                }
                Node::Boxed {
                    open,
                    scenario,
                    outlets,
                } => {
                    let mut named = own_exits(scenario);
                    named.sort_unstable();
                    let numbers = (0..).take(outlets.len());
                    if !numbers.eq(named.iter().copied()) {
                        self.unmatched.insert(*open, (outlets.len(), named));
                    }
                    if falls_through(scenario) {
                        self.falling.push(*open);
                    }
                    self.look(scenario);
                    outlets.iter().for_each(|outlet| self.look(outlet));
                }
            }
        }
    }

    fn verdict(&self, words: u32) -> Answer {
        let first = |rows: &[usize]| rows.iter().min().map(|row| *row as u32);
        let unmatched: Vec<usize> = self.unmatched.keys().copied().collect();
        if let Some(row) = first(&unmatched) {
            return refused(49, row);
        }
        if let Some(row) = first(&self.falling) {
            return refused(50, row);
        }
        first(&self.timeless).map_or(Ok(words), |row| refused(45, row))
    }
}

fn spends_time(node: &Node) -> bool {
    match node {
        Node::Function { alpha } => *alpha > 0,
        Node::Exit { .. } | Node::LoopExit => false,
        Node::Branched { branches, .. } => branches
            .iter()
            .any(|branch| branch.run.iter().any(spends_time)),
        Node::It { body } | Node::Lp { body, .. } => body.iter().any(spends_time),
        Node::Boxed {
            scenario, outlets, ..
        } => {
            let mut outlets = outlets.iter().flatten();
            scenario.iter().any(spends_time) || outlets.any(spends_time)
        }
    }
}

/// The fields of the EXITs that belong to the box of this scenario's run: of a box
/// in it those of the outlets.
fn own_exits(run: &[Node]) -> Vec<u16> {
    let mut found = Vec::new();
    for node in run {
        match node {
            Node::Exit { outlet } => found.push(*outlet),
            Node::Function { .. } | Node::LoopExit => {}
            Node::Branched { branches, .. } => {
                found.extend(branches.iter().flat_map(|branch| own_exits(&branch.run)));
            }
            Node::It { body } | Node::Lp { body, .. } => found.extend(own_exits(body)),
            Node::Boxed { outlets, .. } => {
                found.extend(outlets.iter().flat_map(|outlet| own_exits(outlet)));
            }
        }
    }
    found
}

/// LEs whose loop is around this run: those of an inner LP are its own, and a
/// scenario's never reach out of it.
fn leaves(run: &[Node]) -> bool {
    run.iter().any(|node| match node {
        Node::LoopExit => true,
        Node::Function { .. } | Node::Exit { .. } | Node::Lp { .. } => false,
        Node::Branched { branches, .. } => branches.iter().any(|branch| leaves(&branch.run)),
        Node::It { body } => leaves(body),
        Node::Boxed { outlets, .. } => outlets.iter().any(|outlet| leaves(outlet)),
    })
}

fn falls_through(run: &[Node]) -> bool {
    match run.last() {
        None => true,
        Some(Node::Exit { .. } | Node::LoopExit) => false,
        Some(Node::Function { .. } | Node::It { .. } | Node::Boxed { .. }) => true,
        Some(Node::Lp { body, .. }) => leaves(body),
        Some(Node::Branched {
            is_and: false,
            branches,
        }) => !branches.iter().all(|branch| !falls_through(&branch.run)),
        Some(Node::Branched { branches, .. }) => {
            let falls = |branch: &&Branch| falls_through(&branch.run);
            let one_does_not = branches.iter().filter(falls).count() < branches.len();
            let killing = branches.iter().filter(falls).any(|branch| branch.kills);
            !one_does_not || killing
        }
    }
}

/// The last construct of a scenario, and of the ANDs and ORs that it ends in.
fn note_last(shapes: &mut Shapes, run: &[Node], what: &str) {
    let falls = falls_through(run);
    let mut note = |name: &str, is_last: bool, may_fall: bool, may_end: bool| {
        if may_fall {
            shapes.note(&format!("{what}, {name}, falls"), is_last && falls);
        }
        if may_end {
            shapes.note(&format!("{what}, {name}, ends"), is_last && !falls);
        }
    };
    let last = run.last();
    note("EXIT", matches!(last, Some(Node::Exit { .. })), false, true);
    note(
        "FUNCTION",
        matches!(last, Some(Node::Function { .. })),
        true,
        false,
    );
    note("IT", matches!(last, Some(Node::It { .. })), true, false);
    note(
        "a box",
        matches!(last, Some(Node::Boxed { .. })),
        true,
        false,
    );
    note("LP", matches!(last, Some(Node::Lp { .. })), true, true);
    let is_or = matches!(last, Some(Node::Branched { is_and: false, .. }));
    note("OR", is_or, true, true);
    let is_and = matches!(last, Some(Node::Branched { is_and: true, .. }));
    note("AND", is_and, true, true);
    match last {
        Some(Node::It { body }) => {
            shapes.note("an IT whose body ends", !falls_through(body));
        }
        Some(Node::Boxed { outlets, .. }) => {
            let all_end = outlets.iter().all(|outlet| !falls_through(outlet));
            shapes.note("a box whose outlets end", all_end);
        }
        Some(Node::Lp { body, .. }) => note_last_loop(shapes, body, falls),
        Some(Node::Branched { is_and, branches }) => {
            if *is_and {
                note_last_and(shapes, branches);
            } else {
                let falling: Vec<bool> = branches
                    .iter()
                    .map(|branch| falls_through(&branch.run))
                    .collect();
                let only =
                    |at: usize| falling.iter().filter(|falls| **falls).count() == 1 && falling[at];
                shapes.note("an OR, the first alone falls", only(0));
                shapes.note("an OR, the last alone falls", only(falling.len() - 1));
            }
            for branch in branches {
                note_last(shapes, &branch.run, "a branch");
            }
        }
        _ => {}
    }
}

fn note_last_loop(shapes: &mut Shapes, body: &[Node], left: bool) {
    shapes.note(
        "an LP with EXIT that no LE leaves",
        !left && !own_exits(body).is_empty(),
    );
    let inner = body
        .iter()
        .any(|node| matches!(node, Node::Lp { body, .. } if leaves(body)));
    shapes.note("an LP whose inner LP alone is left", !left && inner);
}

fn note_last_and(shapes: &mut Shapes, branches: &[Branch]) {
    let falls = |branch: &Branch| falls_through(&branch.run);
    let all = branches.iter().all(falls);
    let none = !branches.iter().any(falls);
    let killing_falls = branches.iter().any(|branch| branch.kills && falls(branch));
    let killing_ends = branches.iter().any(|branch| branch.kills && !falls(branch));
    let kills = killing_falls || killing_ends;
    shapes.note("an AND, all fall, none kills", all && !kills);
    shapes.note("an AND, all fall, one kills", all && kills);
    shapes.note("an AND, none falls", none);
    let some = !all && !none;
    shapes.note("an AND, some fall, none kills", some && !kills);
    shapes.note(
        "an AND, some fall, a killing one does",
        some && killing_falls,
    );
    shapes.note(
        "an AND, some fall, killing ones alone do not",
        some && !killing_falls && branches.iter().all(|branch| branch.kills != falls(branch)),
    );
    shapes.note("an AND, the first alone ends", some && !falls(&branches[0]));
}

/// Every scenario of a run.
fn each_scenario<'a>(run: &'a [Node], show: &mut impl FnMut(&'a [Node])) {
    for node in run {
        match node {
            Node::Branched { branches, .. } => branches
                .iter()
                .for_each(|branch| each_scenario(&branch.run, show)),
            Node::It { body } | Node::Lp { body, .. } => each_scenario(body, show),
            Node::Boxed {
                scenario, outlets, ..
            } => {
                show(scenario);
                each_scenario(scenario, show);
                outlets
                    .iter()
                    .for_each(|outlet| each_scenario(outlet, show));
            }
            _ => {}
        }
    }
}

/// Nothing but scenarios that fall through is off in these.
#[test]
fn scenarios_that_may_fall_through() {
    let mut random = Random::new(81);
    let mut shapes = Shapes::default();
    for _ in 0..12_000 {
        let bytes = generate::leaky_diagram(&mut random);
        let faults = Faults::of(&bytes);
        let answer = read(&bytes);
        assert_eq!(answer, faults.verdict(answer.unwrap_or_default()));
        assert!(faults.unmatched.is_empty() && faults.timeless.is_empty());
        let falling = &faults.falling;
        shapes.note("accepted", falling.is_empty());
        shapes.note("50", !falling.is_empty());
        shapes.note("50 at several boxes", falling.len() > 1);
        let kinds = kinds(&bytes);
        let first = kinds.iter().position(|kind| *kind == BOX_OPEN);
        let later = falling
            .first()
            .is_some_and(|_| falling.iter().min() > first.as_ref());
        shapes.note("50 at a later box", later);
        let mut second = Second {
            rows: rows(&bytes),
            at: 0,
        };
        let run = second.run();
        each_scenario(&run, &mut |scenario| {
            note_last(&mut shapes, scenario, "a scenario")
        });
    }
    // No LE may be the last of a run that is asked: its loop would have to be there.
    shapes.assert_met(25);
}

/// The accepted ones are accepted, of every generator.
#[test]
fn generated_boxes_are_accepted() {
    let mut random = Random::new(82);
    let mut with_boxes = 0;
    let mut most_open = 0;
    for number in 0..6_000 {
        let file = match number % 6 {
            0 => generate::diagram(&mut random),
            1 => generate::lasting_box_diagram(&mut random, 16 + number % 49),
            2 => generate::killing_diagram(&mut random),
            _ => generate::boxed_diagram(&mut random),
        };
        let answer = read(&file);
        assert!(answer.is_ok(), "{answer:?}");
        assert_eq!(
            answer,
            Faults::of(&file).verdict(answer.unwrap_or_default())
        );
        let diagram = parse(&file).expect("accepted diagram");
        with_boxes += usize::from(has_boxes(&diagram));
        most_open = most_open.max(open_together(&diagram));
    }
    assert!(with_boxes > 3_600, "{with_boxes}");
    assert_eq!(most_open, 12);
}

/// Constructs open together where one of them is a box.
fn open_together(diagram: &Diagram) -> usize {
    let boxes = diagram
        .constructs
        .iter()
        .filter(|each| each.kind == BOX_OPEN);
    boxes
        .flat_map(|found| found.inside().map(|row| around(diagram, row).count()))
        .max()
        .unwrap_or_default()
}

/// The constructs around a row, the outermost first.
fn around<'a>(diagram: &'a Diagram, row: usize) -> impl Iterator<Item = &'a Construct> + 'a {
    let constructs = diagram.constructs.iter();
    constructs.filter(move |construct| construct.inside().contains(&row))
}

/// What stands around a row of a file, whatever is off in it: of each construct
/// open there its kind and its BRANCH rows so far, the outermost first.
fn open_at(kinds: &[u16], row: usize) -> Vec<(u16, usize)> {
    let mut open: Vec<(u16, usize)> = Vec::new();
    for kind in &kinds[..row] {
        match *kind {
            AND_OPEN | OR_OPEN | IT_OPEN | LP_OPEN | BOX_OPEN => open.push((*kind, 0)),
            BRANCH | KILLING_BRANCH => {
                if let Some(innermost) = open.last_mut() {
                    innermost.1 += 1;
                }
            }
            AND_CLOSE | OR_CLOSE | IT_CLOSE | LP_CLOSE | BOX_CLOSE => drop(open.pop()),
            _ => {}
        }
    }
    open
}

/// Which way a row is refused.
fn note_refused(shapes: &mut Shapes, kinds: &[u16], found: Refusal) {
    let row = found.value as usize;
    let open = open_at(kinds, row);
    let innermost = open.last().copied().unwrap_or_default();
    let next = kinds.get(row + 1).copied().unwrap_or_default();
    let is_scenario = |(kind, branches): &(u16, usize)| *kind == BOX_OPEN && *branches == 0;
    let in_scenario = open.iter().any(is_scenario);
    let straight_in_outlet = innermost.0 == BOX_OPEN && innermost.1 > 0;
    let has_loop = open.iter().any(|(kind, _)| *kind == LP_OPEN);
    let is_close = [AND_CLOSE, OR_CLOSE, IT_CLOSE, LP_CLOSE, BOX_CLOSE].contains(&next);
    match found.number {
        48 => {
            let in_box = open.iter().any(|(kind, _)| *kind == BOX_OPEN);
            shapes.note("48 outside any box", !in_box);
            shapes.note("48 in an outlet alone", in_box && !in_scenario);
            shapes.note(
                "48 straight in an outlet alone",
                !in_scenario && straight_in_outlet,
            );
            shapes.note(
                "48 straight in an IT",
                in_scenario && innermost.0 == IT_OPEN,
            );
            shapes.note(
                "48 straight in an LP",
                in_scenario && innermost.0 == LP_OPEN,
            );
            let may_end = in_scenario && ![IT_OPEN, LP_OPEN].contains(&innermost.0);
            shapes.note("48 before another's close", may_end && is_close);
            shapes.note("48 before another row", may_end && !is_close);
            shapes.note("48 before another EXIT", may_end && next == EXIT);
        }
        8 => {
            let own = open.iter().rev().position(|each| each.0 == LP_OPEN);
            let border = open.iter().rev().position(is_scenario);
            let is_branch = [AND_OPEN, OR_OPEN].contains(&innermost.0);
            let over = is_branch && has_loop && border.is_some() && border < own;
            let ends = [BRANCH, KILLING_BRANCH].contains(&next) || is_close;
            shapes.note("8 over a scenario's border", over && ends);
            let straight = has_loop && ends;
            shapes.note("8 straight in an outlet", straight && straight_in_outlet);
            shapes.note(
                "8 straight in a scenario",
                straight && is_scenario(&innermost),
            );
        }
        7 => {
            let kind = kinds[row];
            let in_box = innermost.0 == BOX_OPEN;
            shapes.note(
                "7 of 28 as the first outlet",
                kind == KILLING_BRANCH && is_scenario(&innermost),
            );
            shapes.note(
                "7 of 28 as a later outlet",
                kind == KILLING_BRANCH && straight_in_outlet,
            );
            let closes = kind == BOX_CLOSE && in_box;
            shapes.note("7 of 30 after no outlet", closes && innermost.1 == 0);
            shapes.note("7 of 30 after one outlet", closes && innermost.1 == 1);
            let behind_exit = row > 0 && kinds[row - 1] == EXIT;
            shapes.note("7 of 30 right behind EXIT", closes && behind_exit);
            shapes.note("7 of 30 in another construct", kind == BOX_CLOSE && !in_box);
            shapes.note(
                "7 of another's close in a box",
                in_box && [AND_CLOSE, OR_CLOSE, IT_CLOSE, LP_CLOSE].contains(&kind),
            );
            shapes.note(
                "7 of EXIT where BRANCH is due",
                kind == EXIT && row + 1 < kinds.len(),
            );
        }
        9 => {
            shapes.note("9 of a box", kinds[row] == BOX_OPEN);
            shapes.note(
                "9 of another in a box",
                kinds[row] != BOX_OPEN && open.iter().any(|each| each.0 == BOX_OPEN),
            );
        }
        _ => {}
    }
}

/// What is off beside one another, where the nesting is right.
fn note_faults(shapes: &mut Shapes, faults: &Faults, answer: Answer) {
    let number = answer.err().map(|refused| refused.number);
    let row = answer.err().map_or(0, |refused| refused.value as usize);
    let timeless = !faults.timeless.is_empty();
    match number {
        Some(49) => {
            let (outlets, named) = &faults.unmatched[&row];
            let outlets = *outlets as u16;
            let twice = named.windows(2).any(|pair| pair[0] == pair[1]);
            shapes.note("49, two EXITs for one outlet", twice);
            let missing = (0..outlets).any(|outlet| !named.contains(&outlet));
            let beyond: Vec<u16> = named
                .iter()
                .copied()
                .filter(|outlet| *outlet >= outlets)
                .collect();
            shapes.note(
                "49, an outlet without EXIT alone",
                missing && !twice && beyond.is_empty(),
            );
            shapes.note(
                "49, an EXIT to no outlet alone",
                !missing && !twice && !beyond.is_empty(),
            );
            shapes.note("49, the outlet behind the last", beyond.contains(&outlets));
            shapes.note("49, outlet 65,535", beyond.contains(&u16::MAX));
            shapes.note(
                "49, the high byte alone",
                beyond.iter().any(|outlet| outlet & 0xFF < outlets),
            );
            shapes.note("49, no EXIT", named.is_empty());
            let falls =
                |test: &dyn Fn(usize) -> bool| faults.falling.iter().any(|falling| test(*falling));
            shapes.note(
                "49 before a 50 of a lower box",
                falls(&|falling| falling < row),
            );
            shapes.note("49 and 50 of one box", falls(&|falling| falling == row));
            shapes.note(
                "49 before a 50 of a higher box",
                falls(&|falling| falling > row),
            );
            shapes.note("49 at several boxes", faults.unmatched.len() > 1);
            shapes.note("49 before a 45", timeless);
            shapes.note(
                "49 before a lower 45",
                faults.timeless.iter().any(|lp| *lp < row),
            );
        }
        Some(50) => {
            shapes.note("50 before a 45", timeless);
            shapes.note(
                "50 before a lower 45",
                faults.timeless.iter().any(|lp| *lp < row),
            );
            shapes.note("50 at several boxes", faults.falling.len() > 1);
        }
        Some(45) => shapes.note("45 beside boxes", true),
        _ => shapes.note("accepted", true),
    }
}

/// Something done to boxes: every way of 7, 8, 9, 48, 49 and 50, in their order.
#[test]
fn odd_boxes() {
    let mut random = Random::new(83);
    let mut shapes = Shapes::default();
    for _ in 0..40_000 {
        let bytes = generate::odd_box_diagram(&mut random);
        match read(&bytes) {
            Err(found) if [7, 8, 9, 44, 48].contains(&found.number) => {
                note_refused(&mut shapes, &kinds(&bytes), found);
            }
            answer => {
                let faults = Faults::of(&bytes);
                assert_eq!(answer, faults.verdict(answer.unwrap_or_default()));
                note_faults(&mut shapes, &faults, answer);
            }
        }
    }
    shapes.assert_met(25);
}

/// Rows of a scenario.
const SMALL: usize = 8;

/// Every scenario of up to 8 rows that has two EXITs, with two empty outlets: the
/// reader says what the second reading does, and where it accepts the net agrees.
#[test]
fn every_small_scenario() {
    let all = [
        FUNCTION,
        AND_OPEN,
        BRANCH,
        AND_CLOSE,
        OR_OPEN,
        OR_CLOSE,
        IT_OPEN,
        IT_CLOSE,
        LP_OPEN,
        LP_CLOSE,
        LOOP_EXIT,
        KILLING_BRANCH,
        exit_to(0),
        exit_to(1),
    ];
    let mut times = BTreeMap::new();
    let mut unfinished: Vec<Vec<u16>> = vec![Vec::new()];
    while let Some(scenario) = unfinished.pop() {
        for kind in all {
            let mut longer = scenario.clone();
            longer.push(kind);
            let least = least_rows(&longer);
            if least > SMALL || !goes_on(&longer) {
                continue;
            }
            if least == longer.len() {
                *times.entry(small_scenario(&longer)).or_insert(0) += 1;
            }
            unfinished.push(longer);
        }
    }
    println!("{times:?}");
    let numbers: Vec<u32> = times.keys().copied().collect();
    assert_eq!(numbers, [0, 45, 49, 50]);
    assert!(times.values().all(|times| *times > 50), "{times:?}");
}

/// Rows of the shortest scenario that begins so, as far as BRANCH rows, closes and
/// two EXITs go.
fn least_rows(scenario: &[u16]) -> usize {
    let open = open_at(scenario, scenario.len());
    let to_close = open.iter().map(|(kind, branches)| match *kind {
        AND_OPEN | OR_OPEN => 1 + 2_usize.saturating_sub(*branches),
        _ => 1,
    });
    let exits = [exit_to(0), exit_to(1)];
    let exits = scenario.iter().filter(|kind| exits.contains(kind)).count();
    scenario.len() + to_close.sum::<usize>() + 2_usize.saturating_sub(exits)
}

/// Rows of a scenario are refused, if at all, no earlier than behind them.
fn goes_on(scenario: &[u16]) -> bool {
    let rows = scenario.len() + 1;
    [FUNCTION, BRANCH, AND_CLOSE, OR_CLOSE].iter().any(|next| {
        let kinds = [&[BOX_OPEN], scenario, &[*next, END]].concat();
        read(&nested(&kinds)).map_or_else(|refused| refused.value as usize >= rows, |_| true)
    })
}

/// The number that a box of this scenario is refused with; 0 is accepted.
fn small_scenario(scenario: &[u16]) -> u32 {
    let kinds = [&[BOX_OPEN], scenario, &[BRANCH, BRANCH, BOX_CLOSE, END]].concat();
    let file = nested(&kinds);
    let answer = read(&file);
    let verdict = Faults::of(&file).verdict(3 * kinds.len() as u32);
    assert_eq!(answer, verdict, "{scenario:?}");
    if answer.is_ok() {
        let net = net_of(&file);
        for state in generate::walk(&mut Random::new(7), &file, 12) {
            for (code, argument) in moves_to_try(&file, &state) {
                assert_eq!(agreement(&file, &net, &state, code, argument), Ok(()));
            }
        }
    }
    answer.map_or_else(|refused| refused.number, |_| 0)
}

/// Where the EXIT stands, and where it goes.
fn note_exit(shapes: &mut Shapes, diagram: &Diagram, before: &[u16], exit: &Exit) {
    let around: Vec<&Construct> = around(diagram, exit.row).collect();
    let kinds: Vec<u16> = around.iter().map(|each| each.kind).collect();
    let innermost = around[around.len() - 1];
    let straight = innermost.open == exit.left.open;
    shapes.note("straight in the scenario", straight);
    let in_branch = |kind, kills| {
        let branch = innermost.branches.iter().rev().find(|row| **row < exit.row);
        let own = branch.map(|branch| &diagram.rows[*branch]);
        innermost.kind == kind && matches!(own, Some(Row::AndBranch { kills: true, .. })) == kills
    };
    shapes.note("in a branch of an OR", in_branch(OR_OPEN, false));
    shapes.note("in a branch of an AND", in_branch(AND_OPEN, false));
    shapes.note("in a killing branch", in_branch(AND_OPEN, true));
    let inside: Vec<&&Construct> = around
        .iter()
        .filter(|each| each.open > exit.left.open)
        .collect();
    let inner_boxes = inside.iter().filter(|each| each.kind == BOX_OPEN).count();
    shapes.note(
        "straight in an inner box's outlet",
        !straight && innermost.kind == BOX_OPEN,
    );
    shapes.note(
        "in a branch in an inner box's outlet",
        inner_boxes > 0 && innermost.kind != BOX_OPEN,
    );
    shapes.note("in outlets of two boxes", inner_boxes > 1);
    let in_kind = |kind| inside.iter().any(|each| each.kind == kind);
    shapes.note("in an IT of the scenario", in_kind(IT_OPEN));
    shapes.note("in an LP of the scenario", in_kind(LP_OPEN));
    let outside = |kind| kinds[..kinds.len() - inside.len() - 1].contains(&kind);
    shapes.note("of a box in an IT", outside(IT_OPEN));
    shapes.note("of a box in an LP", outside(LP_OPEN));
    shapes.note("of a box in an AND", outside(AND_OPEN));
    shapes.note("of a box in a box", outside(BOX_OPEN));
    shapes.note("six deep or more", around.len() >= 6);
    note_target(shapes, diagram, exit);
    note_cleared(shapes, diagram, before, exit);
}

fn note_target(shapes: &mut Shapes, diagram: &Diagram, exit: &Exit) {
    let outlets = &exit.left.branches;
    let last = outlets.len() - 1;
    shapes.note("to the first outlet", exit.outlet == 0);
    shapes.note("to a middle outlet", exit.outlet > 0 && exit.outlet < last);
    shapes.note("to the last outlet", exit.outlet == last);
    shapes.note("one of four or more", outlets.len() >= 4);
    let target = &diagram.rows[outlets[exit.outlet] + 1];
    shapes.note(
        "to an empty outlet before another",
        matches!(target, Row::Outlet(_)),
    );
    shapes.note(
        "to an empty outlet before row 30",
        matches!(target, Row::BoxClose(_)),
    );
    shapes.note("to a FUNCTION", matches!(target, Row::Function(_)));
    let opens = matches!(
        target,
        Row::AndOpen(_) | Row::OrOpen(_) | Row::ItOpen { .. } | Row::LpOpen(_)
    );
    shapes.note("to an open", opens);
    shapes.note("to a box", matches!(target, Row::BoxOpen(_)));
    shapes.note("to an EXIT", matches!(target, Row::Exit { .. }));
}

/// What is under way in the scenario that is left.
fn note_cleared(shapes: &mut Shapes, diagram: &Diagram, before: &[u16], exit: &Exit) {
    let mut met = BTreeMap::new();
    let mut meet = |shape, holds| *met.entry(shape).or_default() |= holds;
    for row in exit.left.box_and_scenario() {
        let active = before[activity(row)];
        meet(
            "clears another ready row",
            row != exit.row && active == READY,
        );
        meet(
            "clears a running FUNCTION",
            active == RUNNING && before[clock(row)] > 0,
        );
        match &diagram.rows[row] {
            Row::ItOpen { count, .. } => {
                meet(
                    "clears an IT part-way",
                    (1..*count).contains(&before[turns(row)]),
                );
                meet(
                    "clears an IT in its last turn",
                    before[turns(row)] == *count,
                );
            }
            Row::Function(function) if active == RUNNING => {
                let takes = function.each_use().any(|used| used.take > 0);
                meet("loses what a FUNCTION took", takes);
            }
            Row::AndBranch { .. } => meet("clears a branch done", active == DONE),
            Row::Exit { .. } => meet("clears another EXIT", row != exit.row && active == READY),
            Row::BoxClose(_) => meet("clears an inner row 30", active == READY),
            Row::BoxOpen(_) => meet("clears an inner row 29", active == READY),
            _ => {}
        }
        let inner = around(diagram, row).filter(|each| each.open > exit.left.open);
        let inner: Vec<&Construct> = inner.filter(|each| each.kind == BOX_OPEN).collect();
        let own_boxes = |each: &&&Construct| !each.inside().contains(&exit.row);
        let beside = inner.iter().find(own_boxes);
        let busy = active != 0 && active != DONE;
        let in_outlet = beside.is_some_and(|each| each.branches[0] < row);
        meet(
            "clears an inner scenario",
            busy && beside.is_some() && !in_outlet,
        );
        meet("clears an inner outlet", busy && in_outlet);
    }
    for (shape, holds) in met {
        shapes.note(shape, holds);
    }
}

/// By which step a box's outlet ends: row 30 becomes ready.
fn note_end(shapes: &mut Shapes, diagram: &Diagram, before: &[u16], after: &[u16], row: usize) {
    for found in diagram
        .constructs
        .iter()
        .filter(|each| each.kind == BOX_OPEN)
    {
        let close = activity(found.close);
        if before[close] == READY || after[close] != READY {
            continue;
        }
        let stepped = &diagram.rows[row];
        shapes.note("ended by a FUNCTION", matches!(stepped, Row::Function(_)));
        shapes.note("ended by an EXIT", matches!(stepped, Row::Exit { .. }));
        shapes.note("ended by an OR close", matches!(stepped, Row::OrClose(_)));
        shapes.note("ended by an AND close", matches!(stepped, Row::AndClose(_)));
        shapes.note(
            "ended by an IT's second",
            matches!(stepped, Row::ItOpen { .. }),
        );
        shapes.note("ended by an LE", matches!(stepped, Row::LoopExit(_)));
        shapes.note(
            "ended by an inner row 30",
            matches!(stepped, Row::BoxClose(_)),
        );
        let last = found.branches[found.branches.len() - 1];
        shapes.note("ended before a later outlet", row < last);
    }
}

/// Follows a random log; each move agrees, and before an EXIT all that are worth
/// trying.
fn follow(random: &mut Random, shapes: &mut Shapes, file: &[u8]) {
    let net = net_of(file);
    let diagram = parse(file).expect("accepted diagram");
    let log = generate::accepted_log(random, file, 80);
    let mut state = fresh_state(&diagram);
    let mut left = BTreeMap::new();
    for made in Log::read(&log).expect("whole moves").moves() {
        let (code, argument) = (made.code, made.argument);
        assert_eq!(agreement(file, &net, &state, code, argument), Ok(()));
        let next = moved(&diagram, &state, code, argument).expect("accepted move");
        if let Some(exit) = exit_by(&diagram, (code, argument)) {
            for (code, argument) in moves_to_try(file, &state) {
                assert_eq!(agreement(file, &net, &state, code, argument), Ok(()));
            }
            note_exit(shapes, &diagram, &state, &exit);
            left.entry(exit.left.open)
                .or_insert(Vec::new())
                .push(exit.outlet);
        }
        if code == 1 {
            note_end(shapes, &diagram, &state, &next, usize::from(argument));
        }
        state = next;
    }
    shapes.note(
        "the same box again",
        left.values().any(|outlets| outlets.len() > 1),
    );
    let another = left
        .values()
        .any(|outlets| outlets.iter().any(|outlet| *outlet != outlets[0]));
    shapes.note("the same box by another outlet", another);
    shapes.note("several boxes", left.len() > 1);
    shapes.note("no box left", left.is_empty());
}

#[test]
fn every_exit_agrees() {
    let mut random = Random::new(84);
    let mut shapes = Shapes::default();
    for _ in 0..2_800 {
        let file = generate::boxed_diagram(&mut random);
        follow(&mut random, &mut shapes, &file);
    }
    // It takes most of the rows that there may be.
    let rare = shapes.times.remove("in outlets of two boxes");
    assert!(rare >= Some(5), "{rare:?}");
    shapes.assert_met(25);
}

/// The other generators come to EXITs too, if more seldom.
#[test]
fn exits_of_other_plants() {
    let mut random = Random::new(85);
    let (mut any, mut lasting) = (Shapes::default(), Shapes::default());
    for _ in 0..1_000 {
        let file = generate::diagram(&mut random);
        follow(&mut random, &mut any, &file);
    }
    for _ in 0..400 {
        let row_count = 16 + random.below(49);
        let file = generate::lasting_box_diagram(&mut random, row_count);
        follow(&mut random, &mut lasting, &file);
    }
    for shape in ["in a branch of an OR", "to the last outlet"] {
        assert!(any.times[shape] >= 15, "{shape} of {:?}", any.times);
    }
    for shape in [
        "the same box by another outlet",
        "clears a running FUNCTION",
    ] {
        assert!(lasting.times[shape] >= 15, "{shape} of {:?}", lasting.times);
    }
}

/// "The agreement takes these rows in."
#[test]
fn lists_with_exits() {
    let mut random = Random::new(86);
    let mut exits = 0;
    for _ in 0..150 {
        let file = generate::boxed_diagram(&mut random);
        let calls = generate::bus_list(&mut random, &file, 7, 60);
        assert_eq!(claim(&file, 7, &calls), Ok(()));
        let diagram = parse(&file).expect("accepted diagram");
        let history = model::history::history(&file, 7, &calls).expect("accepted diagram");
        let made = history.telegrams.iter();
        let by_exit = made.filter(|made| exit_by(&diagram, (made.code, made.argument)).is_some());
        exits += by_exit.count();
    }
    assert!(exits > 100, "{exits}");
}

/// Most generated diagrams have no box.
#[test]
fn most_plants_have_no_box() {
    let mut random = Random::new(87);
    let mut with_boxes = 0;
    for _ in 0..2_000 {
        let file = generate::diagram(&mut random);
        let diagram = parse(&file).expect("accepted diagram");
        with_boxes += usize::from(has_boxes(&diagram));
    }
    assert!((150..500).contains(&with_boxes), "{with_boxes}");
}
