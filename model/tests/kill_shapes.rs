//! Random plants in which branches kill: diagram and net agree along every walk,
//! and the generators come to each shape that request 3 can go wrong at.

mod common;

use common::{net_of, records, Shapes};
use model::diagram::{function_record, parse, read, Construct, Diagram, Row};
use model::diagram_step::{activity, clock, fresh_state, moved, turns, DONE, READY, RUNNING};
use model::generate::{self, Random};
use model::history::{agreement, claim, moves_to_try};
use model::kills::{has_kills, kill_by, kills, Kill};
use model::logs::Log;
use model::records::{
    record, word, AND_CLOSE, AND_OPEN, BRANCH, EXIT, HEAD, KILLING_BRANCH, OR_OPEN, TRIGGER,
};
use model::{Answer, Refusal};
use std::collections::BTreeMap;
use std::ops::Range;

fn and_kills(diagram: &Diagram, and: &Construct) -> bool {
    and.branches.iter().any(|branch| kills(diagram, *branch))
}

/// Rows of the branch with this BRANCH row.
fn branch_rows(construct: &Construct, branch: usize) -> Range<usize> {
    let next = construct.branches.iter().find(|other| **other > branch);
    branch + 1..*next.unwrap_or(&construct.close)
}

/// The constructs around a row with the branch that the row is in, if they have
/// branches.
fn around<'a>(
    diagram: &'a Diagram,
    row: usize,
) -> impl Iterator<Item = (&'a Construct, Option<usize>)> + 'a {
    let around = diagram.constructs.iter();
    around
        .filter(move |construct| construct.inside().contains(&row))
        .map(move |construct| {
            let branch = construct
                .branches
                .iter()
                .rev()
                .find(|branch| **branch < row);
            (construct, branch.copied())
        })
}

fn note_kill(shapes: &mut Shapes, diagram: &Diagram, before: &[u16], kill: &Kill) {
    note_end(shapes, diagram, kill);
    note_place(shapes, diagram, kill);
    note_killed(shapes, diagram, before, kill);
    note_around(shapes, diagram, before, kill);
}

/// What the killing branch ends in.
fn note_end(shapes: &mut Shapes, diagram: &Diagram, kill: &Kill) {
    let row = &diagram.rows[kill.row];
    shapes.note("by a FUNCTION", matches!(row, Row::Function(_)));
    shapes.note("by an AND close", matches!(row, Row::AndClose(_)));
    shapes.note("by an OR close", matches!(row, Row::OrClose(_)));
    shapes.note("by a box's close", matches!(row, Row::BoxClose(_)));
    shapes.note("by an IT's second", matches!(row, Row::ItOpen { .. }));
    let by_exit = matches!(row, Row::LoopExit(_));
    shapes.note("by an LE", by_exit);
    let innermost = around(diagram, kill.row).last();
    let in_and = innermost.is_some_and(|(inner, _)| inner.kind == AND_OPEN);
    shapes.note("by an LE of an AND in its loop", by_exit && in_and);
    let of_kills = match row {
        Row::AndClose(inner) => and_kills(diagram, &diagram.constructs[*inner]),
        _ => false,
    };
    shapes.note("by the close of an AND with kills", of_kills);
    let longer = kill.branch + 1 < kill.row;
    shapes.note("by the branch's only row", !longer);
    shapes.note("by the last of several rows", longer);
}

/// Which of its AND's branches kill.
fn note_place(shapes: &mut Shapes, diagram: &Diagram, kill: &Kill) {
    let branches = &kill.and.branches;
    let first = branches.first() == Some(&kill.branch);
    let last = branches.last() == Some(&kill.branch);
    shapes.note("of the first branch", first);
    shapes.note("of a middle branch", !first && !last);
    shapes.note("of the last branch", last);
    let killing = branches.iter().filter(|row| kills(diagram, **row)).count();
    shapes.note("one branch kills", killing == 1);
    let several = killing > 1 && killing < branches.len();
    shapes.note("several branches kill", several);
    shapes.note("all branches kill", killing == branches.len());
    shapes.note("ten branches or more", branches.len() >= 10);
}

/// What is under way in the branches that are killed, and in the one that ends.
fn note_killed(shapes: &mut Shapes, diagram: &Diagram, before: &[u16], kill: &Kill) {
    let own = branch_rows(kill.and, kill.branch);
    let mut met = BTreeMap::new();
    let mut meet = |shape, holds| *met.entry(shape).or_default() |= holds;
    for row in kill.and.inside() {
        let (active, clocked) = (before[activity(row)], before[clock(row)] > 0);
        let killed = !own.contains(&row);
        meet("kills a ready row", killed && active == READY);
        meet("all other branches were done", false);
        match &diagram.rows[row] {
            Row::ItOpen { count, .. } => {
                let part_way = (1..*count).contains(&before[turns(row)]);
                meet("kills an IT part-way", killed && part_way);
                meet("has an IT part-way in its own branch", !killed && part_way);
                let last_turn = before[turns(row)] == *count;
                meet("kills an IT in its last turn", killed && last_turn);
            }
            Row::Function(function) => {
                let running = killed && active == RUNNING;
                meet("kills a running FUNCTION", running && clocked);
                for used in function.each_use().filter(|used| used.take > 0) {
                    let trigger =
                        diagram.taken_word(used.item, row) != diagram.item_word(used.item);
                    meet("loses what a FUNCTION took", running && !trigger);
                    meet("loses a trigger's copy", running && trigger);
                }
            }
            Row::AndBranch { construct, .. } => {
                let done = active == DONE;
                let own_and = diagram.constructs[*construct].open == kill.and.open;
                meet("with a branch done before", done && own_and);
                meet(
                    "kills an AND with a branch done",
                    done && !own_and && killed,
                );
            }
            _ => {}
        }
        let in_inner_kill = around(diagram, row).any(|(inner, branch)| {
            inner.open > kill.and.open && branch.is_some_and(|branch| kills(diagram, branch))
        });
        let busy = killed && active != 0 && active != DONE;
        meet("kills an inner killing branch", busy && in_inner_kill);
    }
    let others = kill.and.branches.iter().filter(|row| **row != kill.branch);
    let all_done = others.into_iter().all(|row| before[activity(*row)] == DONE);
    meet("all other branches were done", all_done);
    for (shape, holds) in met {
        shapes.note(shape, holds);
    }
}

/// What the AND lies in.
fn note_around(shapes: &mut Shapes, diagram: &Diagram, before: &[u16], kill: &Kill) {
    let outer: Vec<_> = around(diagram, kill.and.open).collect();
    let in_branch = |of_kills| {
        outer.iter().any(|(construct, branch)| {
            construct.kind == AND_OPEN
                && and_kills(diagram, construct)
                && branch.is_some_and(|branch| kills(diagram, branch)) == of_kills
        })
    };
    shapes.note("inside a killing branch", in_branch(true));
    shapes.note("inside a branch that may be killed", in_branch(false));
    let in_it = outer.iter().any(|(it, _)| before[turns(it.open)] > 0);
    shapes.note("inside an IT", in_it);
    let in_or = outer.iter().any(|(or, _)| or.kind == OR_OPEN);
    shapes.note("inside an OR", in_or);
    shapes.note("four deep or more", outer.len() >= 3);
}

/// Follows a random log; each move agrees, and before a kill all that are worth
/// trying.
fn follow(random: &mut Random, shapes: &mut Shapes, file: &[u8]) {
    let net = net_of(file);
    let diagram = parse(file).expect("accepted diagram");
    let log = generate::accepted_log(random, file, 80);
    let mut state = fresh_state(&diagram);
    let mut killed = BTreeMap::new();
    for made in Log::read(&log).expect("whole moves").moves() {
        let (code, argument) = (made.code, made.argument);
        assert_eq!(agreement(file, &net, &state, code, argument), Ok(()));
        if let Some(kill) = kill_by(&diagram, &state, (code, argument)) {
            for (code, argument) in moves_to_try(file, &state) {
                assert_eq!(agreement(file, &net, &state, code, argument), Ok(()));
            }
            note_kill(shapes, &diagram, &state, &kill);
            *killed.entry(kill.and.open).or_insert(0) += 1;
        }
        state = moved(&diagram, &state, code, argument).expect("accepted move");
    }
    let again = killed.values().any(|times| *times > 1);
    shapes.note("the same AND again", again);
    shapes.note("several ANDs", killed.len() > 1);
    shapes.note("no kill", killed.is_empty());
}

#[test]
fn every_kill_agrees() {
    let mut random = Random::new(61);
    let mut shapes = Shapes::default();
    for _ in 0..2_000 {
        let file = generate::killing_diagram(&mut random);
        follow(&mut random, &mut shapes, &file);
    }
    shapes.assert_met(25);
}

/// The other generators come to kills too, if more seldom.
#[test]
fn kills_of_other_plants() {
    let mut random = Random::new(62);
    let (mut any, mut lasting) = (Shapes::default(), Shapes::default());
    for _ in 0..1_500 {
        let file = generate::diagram(&mut random);
        follow(&mut random, &mut any, &file);
    }
    for _ in 0..700 {
        let row_count = 4 + random.below(61);
        let file = generate::lasting_killing_diagram(&mut random, row_count);
        follow(&mut random, &mut lasting, &file);
    }
    for shape in ["by a FUNCTION", "by an AND close", "by an OR close"] {
        assert!(any.times[shape] >= 5, "{shape} of {:?}", any.times);
    }
    for shape in [
        "by a FUNCTION",
        "kills an IT part-way",
        "the same AND again",
    ] {
        assert!(lasting.times[shape] >= 15, "{shape} of {:?}", lasting.times);
    }
}

/// "A list of moves with kills is to agree as any other."
#[test]
fn lists_with_kills() {
    let mut random = Random::new(63);
    for _ in 0..60 {
        let file = generate::killing_diagram(&mut random);
        let calls = generate::bus_list(&mut random, &file, 7, 60);
        assert_eq!(claim(&file, 7, &calls), Ok(()));
    }
}

/// The file with a row's kind another one.
fn with_kind(bytes: &[u8], offset: usize, kind: u16) -> Vec<u8> {
    let mut other = bytes.to_vec();
    other[offset + 2..offset + 4].copy_from_slice(&kind.to_le_bytes());
    other
}

/// What would be refused if this row were a plain BRANCH.
fn as_plain(bytes: &[u8], offset: usize) -> Answer {
    read(&with_kind(bytes, offset, BRANCH))
}

/// Where a killing branch stands that is refused, and what else is off.
fn note_refused(shapes: &mut Shapes, bytes: &[u8], refused: Refusal) {
    let rows: Vec<_> = records(bytes)
        .into_iter()
        .map(|(offset, record)| (offset, word(record, 1)))
        .skip_while(|(_, kind)| (HEAD..=TRIGGER).contains(kind))
        .collect();
    let at = refused.value as usize;
    let (offset, kind) = rows[at];
    let before = at.checked_sub(1).map(|row| rows[row].1);
    let behind = rows.get(at + 1).map(|(_, kind)| *kind);
    match refused.number {
        44 => {
            let first = before == Some(AND_OPEN);
            let last = behind == Some(AND_CLOSE);
            shapes.note("44 of the first branch", first);
            shapes.note("44 of a middle branch", !first && !last);
            shapes.note("44 of the last branch", last);
            shapes.note("44 of an only branch", first && last);
            shapes.note("44 before 28", behind == Some(KILLING_BRANCH));
            let otherwise = as_plain(bytes, offset);
            let later = otherwise.err().filter(|later| later.value as usize > at);
            let later = later.map(|later| later.number);
            shapes.note("44 and nothing else", otherwise.is_ok());
            for number in [7, 8, 44] {
                shapes.note(
                    &format!("44 before a later {number}"),
                    later == Some(number),
                );
            }
        }
        7 if kind == KILLING_BRANCH => {
            let last = at + 1 == rows.len();
            shapes.note("7 of a last row 28", last);
            let otherwise = as_plain(bytes, offset);
            let in_or = otherwise
                .err()
                .is_none_or(|later| later.value as usize > at);
            shapes.note("7 of 28 in an OR", !last && in_or);
            shapes.note("7 of 28 where no BRANCH may stand", !last && !in_or);
        }
        8 => {
            let function = function_record(0, 0, &[]);
            let without = [&bytes[..offset], &function, &bytes[offset + 4..]].concat();
            let later = read(&without).err().filter(|later| later.number == 44);
            let is_later = later.is_some_and(|later| later.value as usize > at);
            shapes.note("8 before a later 44", is_later);
        }
        _ => {}
    }
}

/// 44 against 7 and 8 at their edges.
#[test]
fn damaged_kills() {
    let mut random = Random::new(64);
    let mut shapes = Shapes::default();
    for _ in 0..60_000 {
        let bytes = generate::damaged_diagram(&mut random);
        match read(&bytes) {
            Err(refused) if [7, 8, 44].contains(&refused.number) => {
                note_refused(&mut shapes, &bytes, refused);
            }
            _ => {}
        }
    }
    shapes.assert_met(25);
    // Kinds behind 31 are no rows, whatever their length.
    for kind in EXIT + 1..=EXIT + 3 {
        for fields in [&[][..], &[1]] {
            let rows = [function_record(0, 0, &[]), record(kind, fields)];
            let bytes = model::diagram::file(&[], &rows);
            assert_eq!(read(&bytes), common::refused(2, 18));
        }
    }
}

/// Most generated diagrams have no killing branch.
#[test]
fn most_plants_have_no_kill() {
    let mut random = Random::new(65);
    let mut with_kills = 0;
    for _ in 0..2_000 {
        let file = generate::diagram(&mut random);
        let diagram = parse(&file).expect("accepted diagram");
        with_kills += usize::from(has_kills(&diagram));
    }
    assert!((200..700).contains(&with_kills), "{with_kills}");
}
