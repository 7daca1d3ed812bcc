//! Net files that no diagram has, accepted and damaged.

use super::damage::{damage_bytes, damage_field, damage_records, split_records};
use super::diagrams::{crowded_diagram, item_count_word};
use super::Random;
use crate::net::{Arc, Net, MOST_PLACES, MOST_TRANSITIONS};
use crate::records::{GIVE, NET_HEAD};
use crate::translate::net_of;

/// An accepted net file, foreign.
pub fn foreign_net(random: &mut Random) -> Vec<u8> {
    let most_places = MOST_PLACES as u16;
    let place_count = match random.below(20) {
        0 => random.pick(&[208, 209], 208),
        1 => random.pick(&[most_places - 1, most_places], most_places),
        _ => random.between(1, 12),
    };
    net_of_places(random, place_count)
}

/// The same of so many places, be they too many.
fn net_of_places(random: &mut Random, place_count: u16) -> Vec<u8> {
    let transition_count = match random.below(10) {
        0 => MOST_TRANSITIONS,
        _ => random.below(12),
    };
    let marks = (0..place_count).map(|_| item_count_word(random));
    let mut net = Net::new(marks.collect());
    let mut labels: Vec<u16> = Vec::new();
    let highest_label = random.between(0, 63);
    for _ in 0..transition_count {
        labels.push(random.between(0, highest_label));
    }
    labels.sort_unstable();
    for label in labels {
        let b = if random.chance(70) {
            random.between(0, 9)
        } else {
            random.word()
        };
        let a = if random.chance(50) {
            0
        } else {
            random.between(0, b)
        };
        net.add_transition(label, a, b);
        add_foreign_arcs(random, &mut net, place_count);
    }
    net.encode()
}

fn add_foreign_arcs(random: &mut Random, net: &mut Net, place_count: u16) {
    // Of many places few have an arc, mostly.
    let most_percent = match random.below(20) {
        0 => 60,
        _ => (600 / usize::from(place_count)).max(1),
    };
    let percent = random.pick(&[5, 15, 30, 60], 15).min(most_percent);
    for place in 0..place_count {
        if random.chance(percent) {
            let weight = foreign_weight(random);
            net.add_arc(Arc::Take { place, weight });
        }
    }
    let mut first = 0;
    while first < place_count && random.chance(40) {
        first = random.between(first, place_count - 1);
        let last = random.between(first, place_count - 1);
        net.add_arc(Arc::Clear { first, last });
        first = last + 1;
    }
    for place in 0..place_count {
        if random.chance(percent) {
            let weight = foreign_weight(random);
            net.add_arc(Arc::Give { place, weight });
        }
    }
}

fn foreign_weight(random: &mut Random) -> u16 {
    match random.below(20) {
        0 => random.word().max(1),
        _ => random.between(1, 3),
    }
}

/// A net file that something was done to; a few are still accepted.
pub fn damaged_net(random: &mut Random) -> Vec<u8> {
    let mut bytes = match random.below(100) {
        // A long one of a diagram.
        0 => net_of(&crowded_diagram(random)).unwrap_or_default(),
        1..=4 => return net_of_places(random, MOST_PLACES as u16 + 1),
        _ => foreign_net(random),
    };
    match random.below(3) {
        0 => damage_bytes(random, &mut bytes),
        1 => damage_field(random, &mut bytes),
        _ => {
            let mut records = split_records(&bytes);
            damage_records(random, &mut records, NET_HEAD..=GIVE, &[]);
            bytes = records.concat();
        }
    }
    bytes
}
