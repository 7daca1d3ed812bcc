//! Translation into areas on both sides of 65,535 bytes, where the translator goes another way, and near the net's own length; annex texts
//! into areas near the text's length.

use compare::calls::{annex, translate};
use compare::met::Met;
use model::annex::annex_in;
use model::examples;
use model::generate::{crowded_diagram, diagram, Random};
use model::translate::net_of;

fn compare_areas(file: &[u8]) {
    let needed = net_of(file).expect("an accepted diagram").len();
    let lengths = [
        0,
        needed - 1,
        needed,
        needed + 1,
        65_534,
        65_535,
        65_536,
        65_537,
        effbd::NET_ROOM,
        1_000_000,
    ];
    for length in lengths {
        if let Err(difference) = translate(&mut Met::default(), file, &area_of(length)) {
            panic!("{difference}");
        }
    }
}

fn area_of(length: usize) -> Vec<u8> {
    (0..length).map(|at| (at % 251) as u8).collect()
}

/// The text of each area for the net, a refusal's where the net does not fit.
fn compare_texts(file: &[u8]) {
    let needed = net_of(file).expect("an accepted diagram").len();
    for net_length in [0, needed - 1, needed, effbd::ANNEX_NET_ROOM] {
        let net = area_of(net_length);
        let whole = annex_in(file, &mut net.clone()).len();
        for length in [0, 1, whole - 1, whole, whole + 1, effbd::ANNEX_ROOM] {
            if let Err(difference) = annex(file, &net, &area_of(length)) {
                panic!("{difference}");
            }
        }
    }
}

fn plants() -> Vec<Vec<u8>> {
    let examples = [
        examples::a(),
        examples::b(),
        examples::f(),
        examples::g(),
        examples::h(),
        examples::many_open(12),
        examples::many_rows(64),
        examples::longest_plain_net(),
        examples::door_open(),
        examples::unheard_trigger(1),
        examples::pressure_trip(),
        examples::trip_by_loop_exit(),
        examples::longest_net(),
    ];
    let mut random = Random::new(65_535);
    let random_plants = (0..44).map(|number| match number {
        0..40 => diagram(&mut random),
        _ => crowded_diagram(&mut random),
    });
    examples.into_iter().chain(random_plants).collect()
}

#[test]
fn every_length_of_area_has_the_same_net() {
    for file in plants() {
        compare_areas(&file);
    }
}

#[test]
fn every_length_of_area_has_the_same_text() {
    for file in plants() {
        compare_texts(&file);
    }
}
