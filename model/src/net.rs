//! Nets: the table of places and transitions, and "Net records" written and
//! read (refusals 1 to 6).

use crate::records::{push_record, Reader, Record, CLEAR, GIVE, NET_HEAD, PLACE, TAKE, TRANSITION};
use crate::refusal::{Answer, Refusal, FIELD_OFF, HEAD_VALUE_OFF};
use std::ops::Range;

pub const MOST_PLACES: usize = 1_216;
pub const MOST_TRANSITIONS: usize = 128;
/// Bytes of each kind of record.
const HEAD_LENGTH: usize = 8;
const PLACE_LENGTH: usize = 6;
const TRANSITION_LENGTH: usize = 10;
const ARC_LENGTH: usize = 8;
/// "Label below 64."
pub const LABELS: u16 = 64;

/// A net: fresh marks of its places, its transitions, and their arcs one
/// transition after the other.
#[derive(Clone, PartialEq, Eq, Debug)]
pub struct Net {
    pub marks: Vec<u16>,
    pub transitions: Vec<Transition>,
    arcs: Vec<Arc>,
}

#[derive(Clone, PartialEq, Eq, Debug)]
pub struct Transition {
    pub label: u16,
    /// The interval [a, b].
    pub a: u16,
    pub b: u16,
    /// Its arcs in the net.
    arcs: Range<usize>,
}

#[derive(Clone, Copy, PartialEq, Eq, Debug)]
pub enum Arc {
    Take { place: u16, weight: u16 },
    Clear { first: u16, last: u16 },
    Give { place: u16, weight: u16 },
}

impl Arc {
    /// Kind and fields of its record.
    pub fn record(&self) -> (u16, [u16; 2]) {
        match *self {
            Arc::Take { place, weight } => (TAKE, [place, weight]),
            Arc::Clear { first, last } => (CLEAR, [first, last]),
            Arc::Give { place, weight } => (GIVE, [place, weight]),
        }
    }
}

impl Net {
    /// A net of these fresh marks, without transitions.
    pub fn new(marks: Vec<u16>) -> Self {
        Net::with_room(marks, 0, 0)
    }

    /// The same, with room for so many transitions and arcs.
    pub fn with_room(marks: Vec<u16>, transitions: usize, arcs: usize) -> Self {
        Net {
            marks,
            transitions: Vec::with_capacity(transitions),
            arcs: Vec::with_capacity(arcs),
        }
    }

    /// Words of its state: marks, then clocks.
    pub fn state_length(&self) -> usize {
        self.marks.len() + self.transitions.len()
    }

    /// The arcs of one of its transitions: takes, clears, gives.
    pub fn arcs(&self, transition: &Transition) -> &[Arc] {
        self.arcs.get(transition.arcs.clone()).unwrap_or_default()
    }

    /// Adds a transition behind the others.
    pub fn add_transition(&mut self, label: u16, a: u16, b: u16) {
        let end = self.arcs.len();
        self.transitions.push(Transition {
            label,
            a,
            b,
            arcs: end..end,
        });
    }

    /// Adds an arc to the last transition.
    pub fn add_arc(&mut self, arc: Arc) {
        if let Some(transition) = self.transitions.last_mut() {
            self.arcs.push(arc);
            transition.arcs.end = self.arcs.len();
        }
    }

    /// Bytes of its file.
    fn file_length(&self) -> usize {
        HEAD_LENGTH
            + PLACE_LENGTH * self.marks.len()
            + TRANSITION_LENGTH * self.transitions.len()
            + ARC_LENGTH * self.arcs.len()
    }

    /// The net file.
    pub fn encode(&self) -> Vec<u8> {
        let mut bytes = Vec::with_capacity(self.file_length());
        let head_fields = [self.marks.len() as u16, self.transitions.len() as u16];
        push_record(&mut bytes, NET_HEAD, &head_fields);
        for mark in &self.marks {
            push_record(&mut bytes, PLACE, &[*mark]);
        }
        for transition in &self.transitions {
            let fields = [transition.label, transition.a, transition.b];
            push_record(&mut bytes, TRANSITION, &fields);
            for arc in self.arcs(transition) {
                let (kind, fields) = arc.record();
                push_record(&mut bytes, kind, &fields);
            }
        }
        bytes
    }
}

/// Reads a net file; accepted: words of its state.
pub fn read(net: &[u8]) -> Answer {
    let net = parse(net)?;
    Ok(net.state_length() as u32)
}

/// Head, places, transitions with their arcs, nothing behind them.
pub fn parse(file: &[u8]) -> Result<Net, Refusal> {
    let mut reader = Reader::new(file);
    let head = reader.due(|kind| kind == NET_HEAD, 0)?;
    let place_count = usize::from(head.field(0));
    let transition_count = usize::from(head.field(1));
    head.require(
        (1..=MOST_PLACES).contains(&place_count) && transition_count <= MOST_TRANSITIONS,
        HEAD_VALUE_OFF,
    )?;
    let mut marks = Vec::with_capacity(place_count);
    for _ in 0..place_count {
        marks.push(reader.due(|kind| kind == PLACE, 0)?.field(0));
    }
    let mut net = Net::with_room(marks, transition_count, reader.left() / ARC_LENGTH);
    let mut arc_due = ArcDue::none(place_count);
    while net.transitions.len() < transition_count {
        let record = reader.due(|kind| kind == TRANSITION || arc_due.has(kind), 0)?;
        if record.kind == TRANSITION {
            read_transition(&mut net, &record)?;
            arc_due = ArcDue::any(place_count);
        } else {
            net.add_arc(arc_due.read(&record)?);
        }
    }
    // "After the last transition fewer than 4 bytes left over, or a kind that
    // is no arc due there, is 6; a due arc is checked as any record."
    while !reader.at_end() {
        if !reader.kind_here().is_some_and(|kind| arc_due.has(kind)) {
            return Err(reader.refuse_more());
        }
        let record = reader.due(|kind| arc_due.has(kind), 0)?;
        net.add_arc(arc_due.read(&record)?);
    }
    Ok(net)
}

/// "Label below 64 and never falling, a ≤ b."
fn read_transition(net: &mut Net, record: &Record) -> Result<(), Refusal> {
    let (label, a, b) = (record.field(0), record.field(1), record.field(2));
    let lowest_label = net.transitions.last().map_or(0, |last| last.label);
    let holds = label >= lowest_label && label < LABELS && a <= b;
    record.require(holds, FIELD_OFF)?;
    net.add_transition(label, a, b);
    Ok(())
}

/// Which arc may come next: takes, clears, gives "in that order, places
/// rising, clear ranges rising and disjoint, all places below the head's
/// number, weights 1 or more".
struct ArcDue {
    /// Kinds that may still come.
    kinds: Range<u16>,
    /// Places that an arc of the kind last read may still have.
    places: Range<u16>,
    place_count: u16,
}

impl ArcDue {
    /// No arc is due before the first transition.
    fn none(place_count: usize) -> Self {
        let place_count = place_count as u16;
        ArcDue {
            kinds: GIVE + 1..GIVE + 1,
            places: 0..place_count,
            place_count,
        }
    }

    /// Any arc is due right behind a transition.
    fn any(place_count: usize) -> Self {
        ArcDue {
            kinds: TAKE..GIVE + 1,
            ..ArcDue::none(place_count)
        }
    }

    fn has(&self, kind: u16) -> bool {
        self.kinds.contains(&kind)
    }

    /// Reads a due arc and narrows what may follow it.
    fn read(&mut self, record: &Record) -> Result<Arc, Refusal> {
        if record.kind != self.kinds.start {
            self.kinds.start = record.kind;
            self.places = 0..self.place_count;
        }
        let (place, second) = (record.field(0), record.field(1));
        let (arc, last, holds) = match record.kind {
            TAKE => {
                let weight = second;
                (Arc::Take { place, weight }, place, weight >= 1)
            }
            GIVE => {
                let weight = second;
                (Arc::Give { place, weight }, place, weight >= 1)
            }
            // CLEAR, the one arc left.
            _ => {
                let (first, last) = (place, second);
                (Arc::Clear { first, last }, last, first <= last)
            }
        };
        let places_hold = place >= self.places.start && last < self.places.end;
        record.require(holds && places_hold, FIELD_OFF)?;
        self.places.start = last + 1;
        Ok(arc)
    }
}
