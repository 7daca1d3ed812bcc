//! Diagram and net agree at every reached state: the diagram accepts a move
//! exactly if the net accepts it at the image, and the new net state is the
//! image of the new diagram state.

mod common;

use common::{fresh, net_of};
use model::diagram::{parse, read, Row};
use model::diagram_step::{self, activity, check, turns};
use model::examples::{self, nested, TIMELESS};
use model::generate::{self, Random};
use model::history::{agreement, moves_to_try};
use model::records::{
    AND_CLOSE, AND_OPEN, BOX_CLOSE, BOX_OPEN, BRANCH, END, EXIT, FUNCTION, IT_CLOSE, IT_OPEN,
    LOOP_EXIT, LP_CLOSE, LP_OPEN, OR_CLOSE, OR_OPEN,
};
use std::collections::BTreeSet;

/// The fresh net state is the image of the fresh diagram state.
fn assert_fresh_agrees(file: &[u8], net: &[u8]) {
    let image = model::image::image(file, &fresh(file));
    assert_eq!(image, Some(common::fresh_net(net)));
}

/// All moves at one state.
fn assert_agrees(file: &[u8], net: &[u8], state: &[u16]) {
    let diagram = parse(file).expect("accepted diagram");
    assert_eq!(check(&diagram, state), Ok(()));
    for (code, argument) in moves_to_try(file, state) {
        if let Err(text) = agreement(file, net, state, code, argument) {
            panic!("{text}\n{}", model::annex::annex(file));
        }
    }
}

#[test]
fn along_random_walks() {
    let mut random = Random::new(10);
    for _ in 0..400 {
        let file = generate::diagram(&mut random);
        let net = net_of(&file);
        assert_fresh_agrees(&file, &net);
        for state in generate::walk(&mut random, &file, 40) {
            assert_agrees(&file, &net, &state);
        }
    }
}

/// States reached from the fresh one by steps and by waits of 1 and 2, up to a
/// number of them.
fn reached(file: &[u8], most: usize) -> BTreeSet<Vec<u16>> {
    let diagram = parse(file).expect("accepted diagram");
    let mut moves: Vec<(u16, u16)> = vec![(2, 1), (2, 2)];
    moves.extend((0..diagram.rows.len() as u16).map(|row| (1, row)));
    let mut found = BTreeSet::from([fresh(file)]);
    let mut unseen = vec![fresh(file)];
    while let Some(state) = unseen.pop() {
        for (code, argument) in &moves {
            let next = diagram_step::after(&diagram, &state, *code, *argument);
            if let Ok(next) = next {
                if found.len() < most && found.insert(next.clone()) {
                    unseen.push(next);
                }
            }
        }
    }
    found
}

#[test]
fn at_every_state_of_small_diagrams() {
    let mut random = Random::new(11);
    let examples = [
        examples::a(),
        examples::b(),
        examples::e(),
        examples::f(),
        examples::g(),
        examples::h(),
        examples::many_open(12),
        examples::item_given_one(65_533),
        examples::door_open(),
        examples::trigger_before_plain(65_534, 65_534),
        examples::unheard_trigger(65_535),
        examples::triggers(2, 4),
        examples::pressure_trip(),
        examples::trip_by_loop_exit(),
        examples::trip_after_rounds(),
        examples::trip_in_trip(),
        examples::decomposed(),
        examples::door_box(),
        examples::box_in_box(),
    ];
    let small = (0..300).map(|_| generate::diagram_up_to(&mut random, 12));
    for file in examples.into_iter().chain(small) {
        let net = net_of(&file);
        for state in reached(&file, 100) {
            assert_agrees(&file, &net, &state);
        }
    }
}

/// Every accepted nesting of up to 7 rows, FUNCTIONs with [1, 2] and [0, 1], IT
/// with count 2. A box has 10 rows or more (tests/boxes.rs has every small one).
#[test]
fn every_small_nesting() {
    let mut accepted = 0;
    let mut unfinished: Vec<Vec<u16>> = vec![Vec::new()];
    while let Some(kinds) = unfinished.pop() {
        for kind in (FUNCTION..BOX_OPEN).chain([TIMELESS]) {
            let mut longer = kinds.clone();
            longer.push(kind);
            let file = nested(&longer);
            match read(&file) {
                Ok(_) => {
                    accepted += 1;
                    let net = net_of(&file);
                    for state in reached(&file, 12) {
                        assert_agrees(&file, &net, &state);
                    }
                }
                // Refused at its last row only because that is no END, or at an
                // LE because of its next row: some longer one may be accepted.
                Err(_) if longer.len() < 7 && kind != END && may_go_on(&longer) => {
                    unfinished.push(longer);
                }
                Err(_) => {}
            }
        }
    }
    assert_eq!(accepted, count_nestings(7));
}

/// Rows refused no earlier than at a next row put behind them.
fn may_go_on(kinds: &[u16]) -> bool {
    let row_count = kinds.len();
    [FUNCTION, BRANCH, AND_CLOSE, OR_CLOSE].iter().any(|next| {
        let mut longer = kinds.to_vec();
        longer.extend([*next, END]);
        read(&nested(&longer)).map_or_else(|refused| refused.value as usize >= row_count, |_| true)
    })
}

/// Number of accepted nestings of 1 to `most` rows, counted by a grammar that
/// knows nothing of the reader.
fn count_nestings(most: usize) -> usize {
    let outermost = Runs {
        in_loop: false,
        timeless: false,
    };
    (1..=most).map(|rows| outermost.count(rows - 1)).sum()
}

/// Runs of constructs.
#[derive(Clone, Copy)]
struct Runs {
    in_loop: bool,
    /// Those without a FUNCTION of α at least 1.
    timeless: bool,
}

impl Runs {
    /// Those of exactly this many rows.
    fn count(self, rows: usize) -> usize {
        if rows == 0 {
            return 1;
        }
        (1..=rows)
            .map(|first| self.count_constructs(first) * self.count(rows - first))
            .sum()
    }

    fn count_constructs(self, rows: usize) -> usize {
        if rows == 1 {
            return if self.timeless { 1 } else { 2 };
        }
        let branched = |may_kill| -> usize {
            (2..rows - 1)
                .map(|branches| self.count_branches(rows - 2, branches, may_kill))
                .sum()
        };
        let it = self.count(rows - 2);
        it + self.count_loops(rows) + branched(true) + branched(false)
    }

    /// LPs around any rows but those that spend no time.
    fn count_loops(self, rows: usize) -> usize {
        let inside = |timeless| Runs {
            in_loop: true,
            timeless,
        };
        if self.timeless {
            return 0;
        }
        inside(false).count(rows - 2) - inside(true).count(rows - 2)
    }

    /// This many branches in this many rows, each a BRANCH, a run and perhaps LE;
    /// of an AND those that are not empty may kill.
    fn count_branches(self, rows: usize, branches: usize, may_kill: bool) -> usize {
        if branches == 0 {
            return usize::from(rows == 0);
        }
        (1..=rows)
            .map(|first| {
                let without_exit = self.count(first - 1);
                let with_exit = if self.in_loop && first >= 2 {
                    self.count(first - 2)
                } else {
                    0
                };
                let kinds = 1 + usize::from(may_kill && first >= 2);
                let others = self.count_branches(rows - first, branches - 1, may_kill);
                kinds * (without_exit + with_exit) * others
            })
            .sum()
    }
}

/// The generated diagrams have all shapes, and walks get through them.
#[test]
fn walks_see_everything() {
    let mut random = Random::new(12);
    let mut kinds_stepped = BTreeSet::new();
    let mut loop_exits_in_it = 0;
    let mut ends = 0;
    for _ in 0..800 {
        let file = generate::diagram(&mut random);
        let diagram = parse(&file).expect("accepted diagram");
        let states = generate::walk(&mut random, &file, 60);
        for pair in states.windows(2) {
            for (number, row) in diagram.rows.iter().enumerate() {
                if pair[0][activity(number)] != pair[1][activity(number)] {
                    kinds_stepped.insert(kind_of(row));
                }
            }
            // Only an LE, an EXIT or a kill takes the turns of an IT open that is
            // idle.
            let lost_turns = (0..diagram.rows.len()).any(|row| {
                pair[0][activity(row)] == 0 && pair[0][turns(row)] > 0 && pair[1][turns(row)] == 0
            });
            loop_exits_in_it += usize::from(lost_turns);
        }
        let last = states.last().expect("a state");
        ends += usize::from(last[activity(diagram.rows.len() - 1)] == 1);
    }
    let all = [
        FUNCTION, AND_OPEN, BRANCH, OR_OPEN, OR_CLOSE, IT_OPEN, IT_CLOSE, LP_OPEN, LP_CLOSE,
        LOOP_EXIT, BOX_OPEN, BOX_CLOSE, EXIT, END,
    ];
    assert_eq!(kinds_stepped, BTreeSet::from(all));
    assert!(loop_exits_in_it > 20, "{loop_exits_in_it}");
    assert!(ends > 130 && ends < 790, "{ends}");
}

/// The kind of a row. An AND close is never anything but idle.
fn kind_of(row: &Row) -> u16 {
    match row {
        Row::Function(_) => FUNCTION,
        Row::AndOpen(_) => AND_OPEN,
        Row::AndBranch { .. } | Row::OrBranch(_) | Row::Outlet(_) => BRANCH,
        Row::AndClose(_) => AND_CLOSE,
        Row::OrOpen(_) => OR_OPEN,
        Row::OrClose(_) => OR_CLOSE,
        Row::ItOpen { .. } => IT_OPEN,
        Row::ItClose(_) => IT_CLOSE,
        Row::LpOpen(_) => LP_OPEN,
        Row::LpClose(_) => LP_CLOSE,
        Row::LoopExit(_) => LOOP_EXIT,
        Row::BoxOpen(_) => BOX_OPEN,
        Row::BoxClose(_) => BOX_CLOSE,
        Row::Exit { .. } => EXIT,
        Row::End => END,
    }
}
