//! The annex program's text, "Plant-room examples", A.

use crate::net::{self, Arc, Net};
use crate::refusal::Refusal;
use crate::translate::translate;

/// "Lends 65,536 bytes for the net."
pub const AREA_LENGTH: usize = 65_536;

/// The net of a diagram as text, or its refusal; every line ends in a newline.
pub fn annex(file: &[u8]) -> String {
    annex_in(file, &mut vec![0; AREA_LENGTH])
}

/// The same with another area lent for the net.
pub fn annex_in(file: &[u8], area: &mut [u8]) -> String {
    match translated(file, area) {
        Ok(net) => net_text(&net),
        Err(refusal) => format!("refused {} {}\n", refusal.number, refusal.value),
    }
}

/// The same with the text in lent memory too, as far as that reaches; its whole length.
pub fn annex_into(file: &[u8], area: &mut [u8], text: &mut [u8]) -> usize {
    let whole = annex_in(file, area);
    for (to, byte) in text.iter_mut().zip(whole.bytes()) {
        *to = byte;
    }
    whole.len()
}

/// The net as it stands in the lent area.
fn translated(file: &[u8], area: &mut [u8]) -> Result<Net, Refusal> {
    let length = translate(file, area)?;
    net::parse(&area[..length as usize])
}

/// "`net` has places and transitions, `marks` each place's mark, `t` number,
/// label, a, b; `take` and `give` place and weight; `clear` first and last."
fn net_text(net: &Net) -> String {
    let mut text = format!("net {} {}\nmarks", net.marks.len(), net.transitions.len());
    for mark in &net.marks {
        text += &format!(" {mark}");
    }
    text += "\n";
    for (number, transition) in net.transitions.iter().enumerate() {
        let (label, a, b) = (transition.label, transition.a, transition.b);
        text += &format!("t {number} label {label} from {a} to {b}\n");
        for arc in net.arcs(transition) {
            text += &match arc {
                Arc::Take { place, weight } => format!("take {place} {weight}\n"),
                Arc::Clear { first, last } => format!("clear {first} {last}\n"),
                Arc::Give { place, weight } => format!("give {place} {weight}\n"),
            };
        }
    }
    text
}
