//! Document 01's examples, through the proved functions: every length, answer, mark and clock that it gives of A to I; and the others, compared
//! with the model.

use compare::told;
use effbd::{
    fresh_diagram, fresh_net, read_diagram, read_net, step_diagram, step_net, take, translate,
    Answer, Refusal, STEP, WAIT,
};
use model::bus::Telegram;
use model::examples;

fn refused(number: u32, value: u32) -> Answer {
    Err(Refusal { number, value })
}

/// Both ends of an example, fresh.
struct Plant {
    file: Vec<u8>,
    net: Vec<u8>,
    diagram: Vec<u16>,
    marks: Vec<u16>,
}

impl Plant {
    fn fresh(file: Vec<u8>, file_length: usize, net_length: usize) -> Self {
        assert_eq!(file.len(), file_length);
        let mut net = vec![0; 65_536];
        assert_eq!(translate(&file, &mut net), Ok(net_length as u32));
        net.truncate(net_length);
        let mut diagram = vec![0; read_diagram(&file).expect("accepted") as usize];
        let mut marks = vec![0; read_net(&net).expect("accepted") as usize];
        assert_eq!(fresh_diagram(&file, &mut diagram), Ok(0));
        assert_eq!(fresh_net(&net, &mut marks), Ok(0));
        Plant {
            file,
            net,
            diagram,
            marks,
        }
    }

    /// Offers a move to both steppers.
    fn offer(&mut self, code: u16, argument: u16, diagram: Answer, net: Answer) {
        assert_eq!(
            step_diagram(&self.file, &mut self.diagram, code, argument),
            diagram
        );
        assert_eq!(step_net(&self.net, &mut self.marks, code, argument), net);
    }

    fn accepted(&mut self, code: u16, argument: u16) {
        self.offer(code, argument, Ok(0), Ok(0));
    }

    fn refused(&mut self, code: u16, argument: u16, number: u32, value: u32) {
        self.offer(
            code,
            argument,
            refused(number, value),
            refused(number, value),
        );
    }
}

#[test]
fn a_is_fresh() {
    let plant = Plant::fresh(examples::a(), 34, 110);
    assert_eq!(plant.marks, [1, 0, 0, 0, 0, 0, 3, 0, 0]);
}

#[test]
fn b_waits_and_never_steps() {
    let mut plant = Plant::fresh(examples::b(), 14, 26);
    plant.accepted(WAIT, 65_535);
    plant.refused(STEP, 0, 22, 0);
}

#[test]
fn c_runs_to_its_end() {
    let mut plant = Plant::fresh(examples::a(), 34, 110);
    plant.accepted(STEP, 0);
    plant.refused(STEP, 0, 24, 2);
    plant.accepted(WAIT, 2);
    plant.accepted(STEP, 0);
    assert_eq!(plant.diagram, [0, 0, 0, 1, 0, 0, 2]);
    assert_eq!(plant.marks, [0, 0, 0, 1, 0, 0, 2, 0, 0]);
}

#[test]
fn d_waits_to_its_limit() {
    let mut plant = Plant::fresh(examples::a(), 34, 110);
    plant.accepted(STEP, 0);
    plant.refused(WAIT, 6, 26, 0);
    plant.accepted(WAIT, 5);
}

#[test]
fn e_is_short_of_its_item() {
    let mut plant = Plant::fresh(examples::e(), 34, 110);
    plant.offer(STEP, 0, refused(23, 0), refused(22, 0));
    plant.accepted(WAIT, 1);
}

#[test]
fn f_turns_twice() {
    let mut plant = Plant::fresh(examples::f(), 24, 172);
    for row in [0, 1, 0, 1, 0] {
        plant.accepted(STEP, row);
    }
    plant.refused(STEP, 0, 22, 0);
}

#[test]
fn g_holds_time_at_its_close() {
    let mut plant = Plant::fresh(examples::g(), 30, 166);
    plant.accepted(STEP, 0);
    plant.refused(WAIT, 1, 26, 0);
    plant.accepted(STEP, 3);
}

#[test]
fn h_leaves_its_loop() {
    let mut plant = Plant::fresh(examples::h(), 50, 376);
    for row in [0, 1, 5, 3] {
        plant.accepted(STEP, row);
    }
    let marked: Vec<usize> = (0..27).filter(|place| plant.marks[*place] != 0).collect();
    assert_eq!(marked, [24]);
    assert!(plant.marks[27..].iter().all(|clock| *clock == 0));
}

#[test]
fn i_takes_only_the_next_number() {
    let plant = Plant::fresh(examples::b(), 14, 26);
    for (number, answer) in [(4, refused(32, 4)), (5, Ok(5)), (6, refused(33, 4))] {
        let mut marks = plant.marks.clone();
        let telegram = Telegram {
            number,
            station: 7,
            code: WAIT,
            argument: 1,
        }
        .encode();
        assert_eq!(take(&plant.net, &mut marks, 4, 7, &telegram), answer);
        assert_eq!(marks, plant.marks);
    }
}

/// The same answer of a file and the same net, both with the model's.
fn compare_file(file: &[u8], answer: Answer) {
    assert_eq!(read_diagram(file), answer);
    assert_eq!(told(model::diagram::read(file)), answer);
    let mut nets = (vec![7; 65_536], vec![7; 65_536]);
    assert_eq!(
        translate(file, &mut nets.0),
        told(model::translate::translate(file, &mut nets.1))
    );
    assert!(nets.0 == nets.1);
}

#[test]
fn sixty_four_rows_and_no_more() {
    compare_file(&examples::many_rows(64), Ok(192));
    compare_file(&examples::many_rows(65), refused(4, 0));
}

#[test]
fn twelve_open_and_no_more() {
    compare_file(&examples::many_open(12), Ok(78));
    compare_file(&examples::many_open(13), refused(9, 12));
}

/// A step of row 0 at both ends, the proved ones and the model's.
fn compare_step(plant: &mut Plant, diagram: Answer, net: Answer) {
    let (mut state, mut marks) = (plant.diagram.clone(), plant.marks.clone());
    plant.offer(STEP, 0, diagram, net);
    let told_of_diagram = model::diagram_step::step(&plant.file, &mut state, STEP, 0);
    let told_of_net = model::net_step::step(&plant.net, &mut marks, STEP, 0);
    assert_eq!((told(told_of_diagram), told(told_of_net)), (diagram, net));
    assert_eq!((&state, &marks), (&plant.diagram, &plant.marks));
}

#[test]
fn an_item_given_one_fills_up_to_65_535() {
    let mut below = Plant::fresh(examples::item_given_one(65_534), 34, 110);
    compare_step(&mut below, Ok(0), Ok(0));
    compare_step(&mut below, Ok(0), Ok(0));
    assert_eq!((below.diagram[6], below.marks[6]), (65_535, 65_535));
    let mut full = Plant::fresh(examples::item_given_one(65_535), 34, 110);
    compare_step(&mut full, Ok(0), Ok(0));
    compare_step(&mut full, refused(25, 0), refused(25, 6));
    assert_eq!((full.diagram[6], full.marks[6]), (65_535, 65_535));
}
