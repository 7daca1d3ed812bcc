//! Rows of plants in which branches kill, whatever there is to kill.

use super::boxes::EXIT_ROWS;
use super::diagrams::{Place, RowsBuilder};
use crate::records::{
    AND_CLOSE, AND_OPEN, BRANCH, IT_CLOSE, KILLING_BRANCH, LOOP_EXIT, LP_CLOSE, LP_OPEN, OR_CLOSE,
    OR_OPEN,
};

/// Rows of an AND with two branches that are not empty.
const AND_ROWS: usize = 6;
/// Rows of a loop that an LE leaves, and constructs open at that LE.
const EXITED_ROWS: usize = 10;
const EXITED_OPEN: usize = 3;

impl RowsBuilder<'_> {
    /// An AND with kills alone, in an LP, an IT or an OR, and what follows it. It
    /// has room for 12 rows with END.
    pub(super) fn killing_plant(&mut self) {
        match self.random.below(5) {
            0 => {
                self.left -= 3;
                self.plain(LP_OPEN);
                self.function(1);
                self.killing_and(Place::OUTERMOST.in_loop());
                self.plain(LP_CLOSE);
            }
            1 => {
                self.left -= 2;
                let count = self.random.between(2, 4);
                self.it_open(count);
                self.killing_and(Place::OUTERMOST.deeper());
                self.plain(IT_CLOSE);
            }
            2 => {
                self.left -= 4;
                self.plain(OR_OPEN);
                self.plain(BRANCH);
                self.killing_and(Place::OUTERMOST.deeper());
                self.plain(BRANCH);
                self.plain(OR_CLOSE);
            }
            _ => self.killing_and(Place::OUTERMOST),
        }
        self.run(Place::OUTERMOST);
    }

    /// An AND some of whose branches kill.
    fn killing_and(&mut self, place: Place) {
        let most = if self.random.chance(10) { 20 } else { 4 };
        let most = most.min(self.left / 2 - 1);
        let branches = 2 + self.random.below(most - 1);
        // Each branch keeps a row besides its BRANCH.
        self.left -= 2 + 2 * branches;
        self.plain(AND_OPEN);
        for kills in self.which_kill(branches) {
            self.left += 1;
            if kills {
                self.plain(KILLING_BRANCH);
                self.trip(place.deeper());
            } else {
                self.plain(BRANCH);
                self.victim(place.deeper());
            }
        }
        self.plain(AND_CLOSE);
    }

    /// Which branches kill: the first, the last, one between, all, or some.
    fn which_kill(&mut self, branches: usize) -> Vec<bool> {
        let one = match self.random.below(6) {
            0 => 0,
            1 => branches - 1,
            2 => return vec![true; branches],
            _ => self.random.below(branches),
        };
        let percent = self.random.pick(&[0, 0, 40], 0);
        let mut kills: Vec<bool> = (0..branches).map(|_| self.random.chance(percent)).collect();
        kills[one] = true;
        kills
    }

    /// A killing branch: something first, sometimes, and one of the constructs
    /// that it may end in.
    fn trip(&mut self, place: Place) {
        self.left -= 1;
        if self.left > 0 && self.random.chance(40) {
            self.construct(place);
        }
        self.left += 1;
        let room = if place.may_open(1) { self.left } else { 0 };
        match self.random.below(8) {
            0 if room >= AND_ROWS => self.killing_and(place),
            1 if room >= 4 => self.branched(AND_OPEN, AND_CLOSE, place),
            2 if room >= 4 => self.branched(OR_OPEN, OR_CLOSE, place),
            3 if room >= 3 => self.rounds(place),
            4 if self.has_room_to_leave(place) => self.exited_loop(place),
            5 if place.in_loop => self.loop_exit(),
            5 | 6 if place.in_scenario && self.left >= EXIT_ROWS => self.exit(),
            7 if self.may_box(place) => self.boxed(place),
            _ => self.last_function(),
        }
    }

    /// A branch that does not kill: mostly something that takes its time.
    pub(super) fn victim(&mut self, place: Place) {
        let room = if place.may_open(1) { self.left } else { 0 };
        match self.random.below(8) {
            0 => {}
            1 | 2 if room >= 3 => self.rounds(place),
            3 if room >= AND_ROWS => self.killing_and(place),
            4 => self.run(place),
            _ => self.last_function(),
        }
    }

    pub(super) fn last_function(&mut self) {
        self.left -= 1;
        self.function(0);
    }

    /// An IT around a FUNCTION.
    pub(super) fn rounds(&mut self, place: Place) {
        self.left -= 3;
        let count = self.random.between(2, 4);
        self.it_open(count);
        self.function(0);
        self.run(place.deeper());
        self.plain(IT_CLOSE);
    }

    pub(super) fn has_room_to_leave(&self, place: Place) -> bool {
        self.left >= EXITED_ROWS && place.may_open(EXITED_OPEN)
    }

    /// A loop that an LE leaves, from an OR or AND in it, half of them in an IT.
    pub(super) fn exited_loop(&mut self, place: Place) {
        self.left -= EXITED_ROWS;
        let in_it = self.random.chance(50);
        let is_or = self.random.chance(60);
        self.plain(LP_OPEN);
        if in_it {
            let count = self.random.between(2, 4);
            self.it_open(count);
        }
        self.plain(if is_or { OR_OPEN } else { AND_OPEN });
        self.plain(BRANCH);
        let in_or_and = place.in_loop().deeper();
        self.run(if in_it { in_or_and.deeper() } else { in_or_and });
        self.plain(LOOP_EXIT);
        self.plain(BRANCH);
        self.function(1);
        self.plain(if is_or { OR_CLOSE } else { AND_CLOSE });
        if in_it {
            self.plain(IT_CLOSE);
        }
        self.plain(LP_CLOSE);
    }
}
