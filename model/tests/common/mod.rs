//! Helpers that several tests share. Each test file uses some of them.
#![allow(dead_code)]

use model::diagram_step::{activity, STEP, WAIT};
use model::records::word;
use model::{
    bus, diagram, diagram_step, logs, net, net_step, transitions, translate, Answer, Refusal,
};
use std::collections::BTreeMap;

/// The fresh state of an accepted diagram.
pub fn fresh(file: &[u8]) -> Vec<u16> {
    let length = diagram::read(file).expect("accepted diagram");
    let mut state = vec![7; length as usize];
    assert_eq!(diagram_step::fresh(file, &mut state), Ok(0));
    state
}

/// The net of an accepted diagram.
pub fn net_of(file: &[u8]) -> Vec<u8> {
    translate::net_of(file).expect("accepted diagram")
}

/// The fresh state of an accepted net.
pub fn fresh_net(net: &[u8]) -> Vec<u16> {
    let length = net::read(net).expect("accepted net");
    let mut state = vec![7; length as usize];
    assert_eq!(net_step::fresh(net, &mut state), Ok(0));
    state
}

pub fn refused(number: u32, value: u32) -> Answer {
    Err(Refusal { number, value })
}

/// Every call that takes a diagram file refuses it alike and alters nothing.
pub fn assert_file_refused(bytes: &[u8], number: u32, value: u32) {
    let expected = refused(number, value);
    assert_eq!(diagram::read(bytes), expected);
    assert!(diagram::uses(bytes, 0).is_empty());
    let mut state = [5; 7];
    let mut area = [6; 70_000];
    assert_eq!(diagram_step::fresh(bytes, &mut state), expected);
    assert_eq!(diagram_step::step(bytes, &mut state, 0, 0), expected);
    assert_eq!(transitions::transition(bytes, &state, 65_535), expected);
    assert_eq!(translate::translate(bytes, &mut area), expected);
    assert_eq!(translate::translate(bytes, &mut area[..3]), expected);
    let offered = bus::offer(bytes, &mut state, u32::MAX, 1, 0, 0, &mut area[..3]);
    assert_eq!(offered, expected);
    let mut at = 8;
    assert_eq!(logs::log_starts(bytes, &[0; 3], 9, &mut at), expected);
    assert_eq!(at, 8);
    assert_eq!(state, [5; 7]);
    assert!(area.iter().all(|byte| *byte == 6));
    assert_eq!(model::image::image(bytes, &state), None);
    let text = model::annex::annex(bytes);
    assert_eq!(text, format!("refused {number} {value}\n"));
}

/// A diagram and its net side by side, each with its state.
pub struct Pair {
    pub file: Vec<u8>,
    pub net: Vec<u8>,
    pub state: Vec<u16>,
    pub net_state: Vec<u16>,
}

impl Pair {
    pub fn new(file: Vec<u8>) -> Self {
        let net = net_of(&file);
        Pair {
            state: fresh(&file),
            net_state: fresh_net(&net),
            file,
            net,
        }
    }

    /// Makes a move on both; the diagram's answer, then the net's. A refusal
    /// alters nothing.
    pub fn moved(&mut self, code: u16, argument: u16) -> (Answer, Answer) {
        let (state, net_state) = (self.state.clone(), self.net_state.clone());
        let by_diagram = diagram_step::step(&self.file, &mut self.state, code, argument);
        let by_net = net_step::step(&self.net, &mut self.net_state, code, argument);
        assert!(by_diagram.is_ok() || self.state == state);
        assert!(by_net.is_ok() || self.net_state == net_state);
        let image = model::image::image(&self.file, &self.state);
        assert_eq!(image.as_ref(), Some(&self.net_state));
        (by_diagram, by_net)
    }

    pub fn step(&mut self, row: u16) -> (Answer, Answer) {
        self.moved(STEP, row)
    }

    pub fn wait(&mut self, ticks: u16) -> (Answer, Answer) {
        self.moved(WAIT, ticks)
    }
}

/// The same answer of both.
pub fn both(answer: Answer) -> (Answer, Answer) {
    (answer, answer)
}

/// A state of this many rows that is all 0 but for these activities.
pub fn only(rows: usize, activities: &[(usize, u16)]) -> Vec<u16> {
    let mut state = vec![0; 3 * rows];
    for (row, value) in activities {
        state[activity(*row)] = *value;
    }
    state
}

/// Makes accepted steps.
pub fn make(plant: &mut Pair, rows: &[u16]) {
    for row in rows {
        assert_eq!(plant.step(*row), both(Ok(0)), "row {row}");
    }
}

/// The arcs of the transitions with this label, as the annex prints them.
pub fn arcs(file: &[u8], label: usize) -> String {
    let text = model::annex::annex(file);
    let mut of_label = String::new();
    let mut inside = false;
    for line in text.lines() {
        if line.starts_with("t ") {
            inside = line.contains(&format!(" label {label} "));
        } else if inside {
            of_label += &format!("{line}, ");
        }
    }
    of_label
}

/// The records of a file by their lengths, with the offset of each.
pub fn records(bytes: &[u8]) -> Vec<(usize, &[u8])> {
    let mut found = Vec::new();
    let mut offset = 0;
    while offset + 4 <= bytes.len() {
        let length = usize::from(word(bytes, offset / 2)).max(4);
        let end = (offset + length).min(bytes.len());
        found.push((offset, &bytes[offset..end]));
        offset += length;
    }
    found
}

/// How often each shape was met.
#[derive(Default)]
pub struct Shapes {
    pub times: BTreeMap<String, usize>,
}

impl Shapes {
    pub fn note(&mut self, shape: &str, met: bool) {
        *self.times.entry(shape.to_owned()).or_default() += usize::from(met);
    }

    /// Fails where a shape was met fewer times.
    pub fn assert_met(&self, least: usize) {
        println!("{:#?}", self.times);
        let few = self.times.iter().filter(|(_, times)| **times < least);
        let few: Vec<_> = few.collect();
        assert!(few.is_empty(), "{few:?} of {:?}", self.times);
    }
}
