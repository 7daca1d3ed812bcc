//! The longest nets: neither kills nor boxes make one longer. A bound on the bytes
//! of any net, by how many rows of each kind its diagram has, and the diagrams that
//! come nearest.

mod common;

use common::net_of;
use model::diagram::{file_of, function_record, MOST_ITEMS, MOST_ROWS};
use model::examples::{self, exit_to, rows_with};
use model::net;
use model::records::{
    record, AND_CLOSE, AND_OPEN, BOX_CLOSE, BOX_OPEN, BRANCH, END, FUNCTION, ITEM, KILLING_BRANCH,
    OR_CLOSE, OR_OPEN, TRIGGER,
};

/// How many there are of each in a diagram of 64 rows.
#[derive(Clone, Copy, Debug, PartialEq)]
struct Counts {
    functions: usize,
    ands: usize,
    ors: usize,
    its: usize,
    loops: usize,
    /// BRANCH rows of either kind, of ANDs and ORs.
    branches: usize,
    /// LEs.
    exits: usize,
    boxes: usize,
    /// Outlets, each with its EXIT.
    outlets: usize,
}

impl Counts {
    /// Transitions that may kill. An LE ends a branch that nothing else ends; a
    /// killing branch else ends in a FUNCTION, a close or an IT, each of which
    /// ends one. An EXIT never kills.
    fn kills(&self) -> usize {
        if self.ands == 0 {
            return 0;
        }
        let ends = self.functions + self.ands + self.ors + self.its + self.boxes;
        self.exits + ends.min(self.branches - self.exits)
    }

    /// Bytes that no net of such a diagram passes, each FUNCTION using all 16
    /// items. Where it kills, a transition clears once and gives P of branches
    /// and R of ITs in place of its one entry.
    fn most_bytes(&self, triggers: bool) -> usize {
        let receivers = if triggers { self.functions } else { 1 };
        let copies = if triggers { MOST_ITEMS * receivers } else { 0 };
        let places = 3 * MOST_ROWS + MOST_ITEMS + copies;
        // A BRANCH of an AND has no transition.
        let or_branches = if self.ors > 0 { self.branches } else { 0 };
        let transitions = 2 * self.functions
            + 2 * self.ands
            + self.ors
            + or_branches
            + 3 * self.its
            + 2 * self.loops
            + self.exits
            + 2 * self.boxes
            + self.outlets;
        let arcs = self.functions * (4 + MOST_ITEMS + MOST_ITEMS * receivers)
            + 2 * (self.ands + self.ors + self.branches)
            + 10 * self.its
            + 4 * self.loops
            + (self.exits + self.outlets) * (3 + self.its)
            + 4 * self.boxes
            + self.kills() * (self.branches + self.its);
        8 + 6 * places + 10 * transitions + 8 * arcs
    }

    /// Every way to fill 63 rows and END. A box has six rows at least: its own two
    /// and two outlets with their EXITs.
    fn each(mut show: impl FnMut(Counts)) {
        let rows = MOST_ROWS - 1;
        for boxes in 0..=rows / 6 {
            for outlets in 2 * boxes..=(rows - 2 * boxes) / 2 {
                if boxes > 0 || outlets == 0 {
                    let left = rows - 2 * boxes - 2 * outlets;
                    Counts::each_with(left, boxes, outlets, &mut show);
                }
            }
        }
    }

    /// Every way to fill so many rows beside these boxes and outlets.
    fn each_with(rows: usize, boxes: usize, outlets: usize, show: &mut impl FnMut(Counts)) {
        for constructs in 0..=rows / 4 {
            for ands in 0..=constructs {
                for branches in 2 * constructs..=rows - 2 * constructs {
                    let left = rows - 2 * constructs - branches;
                    if constructs == 0 && branches > 0 {
                        continue;
                    }
                    for exits in 0..=branches.min(left) {
                        for its in 0..=(left - exits) / 2 {
                            for loops in 0..=(left - exits) / 2 - its {
                                show(Counts {
                                    functions: left - exits - 2 * its - 2 * loops,
                                    ands,
                                    ors: constructs - ands,
                                    its,
                                    loops,
                                    branches,
                                    exits,
                                    boxes,
                                    outlets,
                                });
                            }
                        }
                    }
                }
            }
        }
    }

    /// The largest bound of all that fit, and what has it.
    fn longest(triggers: bool, fits: impl Fn(&Counts) -> bool) -> (usize, Option<Counts>) {
        let mut longest = (0, None);
        Counts::each(|counts| {
            let bytes = counts.most_bytes(triggers);
            if fits(&counts) && bytes > longest.0 {
                longest = (bytes, Some(counts));
            }
        });
        longest
    }
}

/// Nothing but FUNCTIONs is the longest of all, as before kills and boxes were.
#[test]
fn the_longest_nets_have_neither_kill_nor_box() {
    let only_functions = Counts {
        functions: MOST_ROWS - 1,
        ands: 0,
        ors: 0,
        its: 0,
        loops: 0,
        branches: 0,
        exits: 0,
        boxes: 0,
        outlets: 0,
    };
    for (triggers, bytes, file) in [
        (false, 20_660, examples::longest_plain_net()),
        (true, 526_676, examples::longest_net()),
    ] {
        assert_eq!(net_of(&file).len(), bytes);
        let longest = Counts::longest(triggers, |_| true);
        assert_eq!(longest, (bytes, Some(only_functions)));
    }
}

/// A plant of these rows and END, all items of one kind.
fn plant(item_kind: u16, kinds: &[u16]) -> Vec<u8> {
    let uses: Vec<[u16; 3]> = (0..MOST_ITEMS as u16).map(|item| [item, 1, 1]).collect();
    let mut rows = rows_with(kinds, &function_record(1, 9, &uses), 2);
    rows.push(record(END, &[]));
    assert_eq!(rows.len(), MOST_ROWS);
    file_of(&vec![record(item_kind, &[1]); MOST_ITEMS], &rows)
}

/// The longest net with a kill has one AND of two branches, both of which kill.
#[test]
fn the_longest_nets_with_a_kill() {
    let mut kinds = vec![AND_OPEN, KILLING_BRANCH, FUNCTION, KILLING_BRANCH];
    kinds.extend([FUNCTION; 58]);
    kinds.push(AND_CLOSE);
    for (item_kind, bytes) in [(ITEM, 19_528), (TRIGGER, 463_208)] {
        assert_eq!(net_of(&plant(item_kind, &kinds)).len(), bytes);
        let (bound, _) = Counts::longest(item_kind == TRIGGER, |counts| counts.kills() > 0);
        assert_eq!(bound, bytes);
    }
}

/// The longest net with a box has one of two outlets, its EXITs in an OR.
#[test]
fn the_longest_nets_with_a_box() {
    let mut kinds = vec![BOX_OPEN, OR_OPEN, BRANCH, exit_to(0), BRANCH, exit_to(1)];
    kinds.extend([OR_CLOSE, BRANCH, BRANCH, BOX_CLOSE]);
    kinds.extend([FUNCTION; 53]);
    for (item_kind, bytes) in [(ITEM, 17_778), (TRIGGER, 375_634)] {
        assert_eq!(net_of(&plant(item_kind, &kinds)).len(), bytes);
        let has_box = |counts: &Counts| counts.boxes > 0 && counts.ands + counts.ors > 0;
        let (bound, _) = Counts::longest(item_kind == TRIGGER, has_box);
        assert!((bytes..bytes + 200).contains(&bound), "{bound}");
    }
}

/// Arcs of the longest transition of a net.
fn most_arcs(file: &[u8]) -> usize {
    let net = net::parse(&net_of(file)).expect("accepted net");
    let arcs = net.transitions.iter().map(|each| net.arcs(each).len());
    arcs.max().expect("a transition")
}

/// The longest record of a killing transition: a FUNCTION beside 59 other
/// branches takes Q, clears once and gives 60 times P and 16 items.
#[test]
fn the_longest_killing_transition() {
    let mut kinds = vec![AND_OPEN, KILLING_BRANCH, FUNCTION];
    kinds.extend([BRANCH; 59]);
    kinds.push(AND_CLOSE);
    assert_eq!(most_arcs(&plant(ITEM, &kinds)), 1 + 1 + 60 + 16);
    // With triggers every FUNCTION more is worth 16 branches.
    let mut kinds = vec![AND_OPEN, BRANCH, KILLING_BRANCH];
    kinds.extend([FUNCTION; 59]);
    kinds.push(AND_CLOSE);
    assert_eq!(most_arcs(&plant(TRIGGER, &kinds)), 1 + 1 + 2 + 16 * 59);
    assert_eq!(most_arcs(&examples::longest_net()), 1 + 1 + 16 * 63);
}
