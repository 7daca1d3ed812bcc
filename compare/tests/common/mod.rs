//! Helpers that several tests share. Each test file uses some of them.
#![allow(dead_code)]

use compare::calls;
use compare::met::Met;
use compare::Verdict;
use effbd::{read_diagram, read_net, step_diagram, step_net, Answer, Refusal};
use model::translate::net_of;

pub fn refused(number: u32, value: u32) -> Answer {
    Err(Refusal { number, value })
}

pub fn same(verdict: Verdict) {
    if let Err(difference) = verdict {
        panic!("{difference}");
    }
}

/// Both ends of a plant, fresh.
pub struct Plant {
    pub file: Vec<u8>,
    pub net: Vec<u8>,
    pub state: Vec<u16>,
    pub marks: Vec<u16>,
}

impl Plant {
    pub fn fresh(file: Vec<u8>) -> Self {
        let net = net_of(&file).expect("accepted");
        same(calls::translate(
            &mut Met::default(),
            &file,
            &vec![7; effbd::NET_ROOM],
        ));
        let mut state = vec![7; read_diagram(&file).expect("accepted") as usize];
        let mut marks = vec![7; read_net(&net).expect("accepted") as usize];
        assert_eq!(effbd::fresh_diagram(&file, &mut state), Ok(0));
        assert_eq!(effbd::fresh_net(&net, &mut marks), Ok(0));
        assert_eq!(model::image::image(&file, &state).as_ref(), Some(&marks));
        Plant {
            file,
            net,
            state,
            marks,
        }
    }

    /// A move at both ends, compared with the model, then made.
    pub fn moved(&mut self, code: u16, argument: u16) -> (Answer, Answer) {
        let met = &mut Met::default();
        let (file, net) = (&self.file, &self.net);
        same(calls::step_diagram(met, file, &self.state, code, argument));
        same(calls::step_net(met, net, &self.marks, code, argument));
        same(calls::transition(met, file, &self.state, argument));
        (
            step_diagram(file, &mut self.state, code, argument),
            step_net(net, &mut self.marks, code, argument),
        )
    }

    pub fn accepted(&mut self, code: u16, argument: u16) {
        assert_eq!(self.moved(code, argument), (Ok(0), Ok(0)));
    }
}
