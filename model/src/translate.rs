//! The patterns of section "Net": from a diagram to its net; document 02's
//! requests 3, "Branches that kill", and 7, "Boxes that open".

use crate::diagram::{parse, Construct, Diagram, Entered, Function, Row};
use crate::net::{Arc, Net};
use crate::refusal::{refusal, Answer, Refusal, AREA_SHORT};
use std::ops::Range;

/// The net file of a diagram file.
pub fn net_of(file: &[u8]) -> Result<Vec<u8>, Refusal> {
    Ok(table(&parse(file)?).encode())
}

/// Writes the net of a diagram file; accepted: the net's length. "Area bytes
/// beyond it keep their values."
pub fn translate(file: &[u8], area: &mut [u8]) -> Answer {
    let net = net_of(file)?;
    let written = area
        .get_mut(..net.len())
        .ok_or(refusal(AREA_SHORT, net.len()))?;
    written.copy_from_slice(&net);
    Ok(net.len() as u32)
}

/// Places of a row: "3r, 3r + 1, 3r + 2, called P, Q, R".
pub fn place_p(row: usize) -> usize {
    3 * row
}
pub fn place_q(row: usize) -> usize {
    3 * row + 1
}
pub fn place_r(row: usize) -> usize {
    3 * row + 2
}

/// The net's table.
pub fn table(diagram: &Diagram) -> Net {
    let rows = diagram.rows.len();
    let mut net = Net::with_room(fresh_marks(diagram), 2 * rows, 4 * rows);
    for (number, row) in diagram.rows.iter().enumerate() {
        add_row(&mut net, diagram, number, row);
    }
    net
}

/// "Fresh marks: 1 at the place that entering row 0 marks, R = count at each IT
/// open, initial counts, else 0"; those of copies too.
fn fresh_marks(diagram: &Diagram) -> Vec<u16> {
    let mut marks = Vec::with_capacity(diagram.state_length());
    marks.resize(3 * diagram.rows.len(), 0);
    marks.extend(diagram.initial_counts());
    let restored = restored(diagram, 0..diagram.rows.len());
    for (place, mark) in restored.chain(entry(diagram, 0)) {
        marks[place] = mark;
    }
    marks
}

/// A place and a weight.
type Weighted = (usize, u16);

/// "R = count at each IT open" of these rows.
fn restored<'a>(
    diagram: &'a Diagram,
    rows: Range<usize>,
) -> impl Iterator<Item = Weighted> + use<'a> {
    rows.filter_map(|row| match diagram.rows[row] {
        Row::ItOpen { count, .. } => Some((place_r(row), count)),
        _ => None,
    })
}

/// "The entry place of s is P of the row that entering s changes"; none where a
/// killing branch ends.
fn entry(diagram: &Diagram, row: usize) -> Option<Weighted> {
    match diagram.entered(row) {
        Entered::Row(changed) => Some((place_p(changed), 1)),
        Entered::Kill(_) => None,
    }
}

/// What the last transition gives to enter a row. Where a killing branch ends, it
/// clears the rows inside the AND, restores R there and gives P of each BRANCH.
fn add_entry(net: &mut Net, diagram: &Diagram, row: usize) -> Vec<Weighted> {
    match diagram.entered(row) {
        Entered::Row(changed) => vec![(place_p(changed), 1)],
        Entered::Kill(and) => {
            add_clear(net, and.inside());
            let branches = and.branches.iter().map(|branch| (place_p(*branch), 1));
            restored(diagram, and.inside()).chain(branches).collect()
        }
    }
}

/// The transitions of one row, labelled with it.
fn add_row(net: &mut Net, diagram: &Diagram, number: usize, row: &Row) {
    let label = number as u16;
    let construct = |index: &usize| &diagram.constructs[*index];
    let own_p = (place_p(number), 1);
    match row {
        Row::Function(function) => add_function(net, diagram, number, function),
        // "AND open: takes P, gives every branch's entry." None of them kills,
        // since a killing branch is not empty.
        Row::AndOpen(index) => {
            let branches = &construct(index).branches;
            let entries = branches.iter().filter_map(|row| entry(diagram, row + 1));
            add_at_once(net, label, vec![own_p], entries.collect());
        }
        // "AND close: takes P of every BRANCH row, gives entry of r + 1."
        Row::AndClose(index) => {
            let branches = &construct(index).branches;
            let done = branches.iter().map(|branch| (place_p(*branch), 1));
            add_entering(net, diagram, label, done.collect(), number + 1);
        }
        // "BRANCH of an OR: takes P of the open, gives entry of r + 1."
        Row::OrBranch(index) => {
            let open_p = (place_p(construct(index).open), 1);
            add_entering(net, diagram, label, vec![open_p], number + 1);
        }
        // "OR close, LP open: P to entry of r + 1"; "29 and 30 in the net as OR
        // close".
        Row::OrClose(_) | Row::LpOpen(_) | Row::BoxOpen(_) | Row::BoxClose(_) => {
            add_entering(net, diagram, label, vec![own_p], number + 1);
        }
        // "IT close, LP close: P to P of the open."
        Row::ItClose(index) | Row::LpClose(index) => {
            let open_p = (place_p(construct(index).open), 1);
            add_at_once(net, label, vec![own_p], vec![open_p]);
        }
        // "IT open: first takes P and one R, gives one Q and entry of r + 1;
        // second takes P and count Q, gives count R and the entry after its
        // close."
        Row::ItOpen {
            construct: index,
            count,
        } => {
            net.add_transition(label, 0, 0);
            add_takes(net, vec![own_p, (place_r(number), 1)]);
            let mut gives = add_entry(net, diagram, number + 1);
            gives.push((place_q(number), 1));
            add_gives(net, gives);
            net.add_transition(label, 0, 0);
            add_takes(net, vec![own_p, (place_q(number), *count)]);
            let mut gives = add_entry(net, diagram, construct(index).close + 1);
            // "Each R given once, an ending IT's own included."
            let own_r = (place_r(number), *count);
            if !gives.contains(&own_r) {
                gives.push(own_r);
            }
            add_gives(net, gives);
        }
        Row::LoopExit(index) => add_loop_exit(net, diagram, number, construct(index)),
        Row::Exit {
            construct: index,
            outlet,
        } => add_exit(net, diagram, number, construct(index), *outlet),
        Row::AndBranch { .. } | Row::OrOpen(_) | Row::Outlet(_) | Row::End => {}
    }
}

/// "FUNCTION: first takes P and its takes, gives Q; second, [α, β], takes Q,
/// gives entry of r + 1 and its gives", "zero weights left out". Of a trigger it
/// takes its own copy and gives all of them.
fn add_function(net: &mut Net, diagram: &Diagram, number: usize, function: &Function) {
    let label = number as u16;
    let running = (place_q(number), 1);
    let mut takes = vec![(place_p(number), 1)];
    for used in function.each_use().filter(|used| used.take > 0) {
        takes.push((diagram.taken_word(used.item, number), used.take));
    }
    add_at_once(net, label, takes, vec![running]);
    net.add_transition(label, function.alpha, function.beta);
    add_takes(net, vec![running]);
    let mut gives = add_entry(net, diagram, number + 1);
    for used in function.each_use().filter(|used| used.give > 0) {
        let given = diagram.given_words(used.item);
        gives.extend(given.map(|place| (place, used.give)));
    }
    add_gives(net, gives);
}

/// "LE: takes P, clears all places of its loop's rows, gives R = count at each
/// IT open in them and the entry after the loop." Where that kills, the loop lies
/// inside the AND: its range merges with the AND's, and so does what it restores.
fn add_loop_exit(net: &mut Net, diagram: &Diagram, number: usize, exited: &Construct) {
    net.add_transition(number as u16, 0, 0);
    add_takes(net, vec![(place_p(number), 1)]);
    let gives = match entry(diagram, exited.close + 1) {
        Some(after_loop) => {
            let rows = exited.open..exited.close + 1;
            add_clear(net, rows.clone());
            restored(diagram, rows).chain([after_loop]).collect()
        }
        None => add_entry(net, diagram, exited.close + 1),
    };
    add_gives(net, gives);
}

/// "EXIT clears the rows from 29 to before the first outlet's BRANCH, restores R
/// in the net and enters the row after its outlet's BRANCH." That row is the box's
/// own, so that no killing branch ends there.
fn add_exit(net: &mut Net, diagram: &Diagram, number: usize, left: &Construct, outlet: usize) {
    net.add_transition(number as u16, 0, 0);
    add_takes(net, vec![(place_p(number), 1)]);
    add_clear(net, left.box_and_scenario());
    let entered = entry(diagram, left.branches[outlet] + 1);
    let gives = restored(diagram, left.box_and_scenario()).chain(entered);
    add_gives(net, gives.collect());
}

/// A transition with the interval [0, 0] that takes and enters a row.
fn add_entering(net: &mut Net, diagram: &Diagram, label: u16, takes: Vec<Weighted>, row: usize) {
    net.add_transition(label, 0, 0);
    add_takes(net, takes);
    let gives = add_entry(net, diagram, row);
    add_gives(net, gives);
}

/// A transition with the interval [0, 0].
fn add_at_once(net: &mut Net, label: u16, takes: Vec<Weighted>, gives: Vec<Weighted>) {
    net.add_transition(label, 0, 0);
    add_takes(net, takes);
    add_gives(net, gives);
}

/// The last transition clears all places of these rows.
fn add_clear(net: &mut Net, rows: Range<usize>) {
    net.add_arc(Arc::Clear {
        first: place_p(rows.start) as u16,
        last: place_r(rows.end - 1) as u16,
    });
}

/// Takes of the last transition.
fn add_takes(net: &mut Net, takes: Vec<Weighted>) {
    for (place, weight) in rising(takes) {
        net.add_arc(Arc::Take { place, weight });
    }
}

/// Gives of the last transition.
fn add_gives(net: &mut Net, gives: Vec<Weighted>) {
    for (place, weight) in rising(gives) {
        net.add_arc(Arc::Give { place, weight });
    }
}

/// "Places rising."
fn rising(mut arcs: Vec<Weighted>) -> impl Iterator<Item = (u16, u16)> {
    arcs.sort_unstable();
    arcs.into_iter()
        .map(|(place, weight)| (place as u16, weight))
}
