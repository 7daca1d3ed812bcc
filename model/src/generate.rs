//! Random diagrams, nets, states, lists, logs and runs for comparisons. The same
//! seed always gives the same ones.

mod boxes;
mod damage;
mod diagrams;
mod kills;
mod lists;
mod logs;
mod loops;
mod nets;
mod runs;
mod states;

pub use diagrams::{
    boxed_diagram, crowded_diagram, damaged_diagram, diagram, diagram_up_to, killing_diagram,
    lasting_box_diagram, lasting_diagram, lasting_killing_diagram, lasting_trigger_diagram,
    leaky_diagram, looping_diagram, odd_box_diagram, plain_diagram_up_to, timeless_diagram,
};
pub use lists::bus_list;
pub use logs::{accepted_log, damaged_log, round_log};
pub use nets::{damaged_net, foreign_net};
pub use runs::{first_number, old_run, run};
pub use states::{net_state, odd_state, passing_state, walk};

/// The generator splitmix64.
pub struct Random {
    state: u64,
}

impl Random {
    pub fn new(seed: u64) -> Self {
        Random { state: seed }
    }

    /// The next 64 bits.
    pub fn draw(&mut self) -> u64 {
        self.state = self.state.wrapping_add(0x9E37_79B9_7F4A_7C15);
        let mut mixed = self.state;
        mixed = (mixed ^ (mixed >> 30)).wrapping_mul(0xBF58_476D_1CE4_E5B9);
        mixed = (mixed ^ (mixed >> 27)).wrapping_mul(0x94D0_49BB_1331_11EB);
        mixed ^ (mixed >> 31)
    }

    /// A number below the bound; 0 if the bound is 0.
    pub fn below(&mut self, bound: usize) -> usize {
        (self.draw() % bound.max(1) as u64) as usize
    }

    /// A word from `low` to `high`, both included.
    pub fn between(&mut self, low: u16, high: u16) -> u16 {
        low + self.below(usize::from(high.saturating_sub(low)) + 1) as u16
    }

    /// True this many times in a hundred.
    pub fn chance(&mut self, percent: usize) -> bool {
        self.below(100) < percent
    }

    /// One of these; `otherwise` if there are none.
    pub fn pick<T: Copy>(&mut self, from: &[T], otherwise: T) -> T {
        from.get(self.below(from.len()))
            .copied()
            .unwrap_or(otherwise)
    }

    /// A word, often a small one or one at a limit.
    pub fn word(&mut self) -> u16 {
        match self.below(4) {
            0 => self.between(0, 5),
            1 => self.pick(&[0, 1, 2, 15, 16, 17, 63, 64, 65, 255, 256], 0),
            2 => self.pick(
                &[128, 129, 207, 208, 209, 1_215, 1_216, 1_217, 65_534, 65_535],
                0,
            ),
            _ => self.draw() as u16,
        }
    }

    pub fn bytes(&mut self, length: usize) -> Vec<u8> {
        (0..length).map(|_| self.draw() as u8).collect()
    }
}
