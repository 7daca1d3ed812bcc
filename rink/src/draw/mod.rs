//! Drawings of a plant, as SVG: its diagram and its net.
//!
//! A drawing is first a [`Sheet`], boxes and lines with their coordinates; its SVG is made from that alone.

mod cell;
mod diagram;
mod layout;
mod net;
mod page;
mod route;
mod sheet;
mod svg;
mod text;
mod tree;

pub(crate) use text::escaped;

pub use sheet::{Border, Frame, Group, Line, Node, Outline, Placed, Point, Sheet, Style};
pub use text::Words;

use crate::net::Net;
use crate::plant::Plant;

/// The diagram of an accepted plant, as boxes and lines.
pub fn diagram_sheet(plant: &Plant) -> Sheet {
    diagram::sheet(plant)
}

/// The diagram of an accepted plant.
pub fn diagram(plant: &Plant) -> String {
    diagram_sheet(plant).svg()
}

/// The reserved rectangles of the diagram.
pub fn boxes(plant: &Plant) -> Vec<Placed> {
    diagram_sheet(plant).boxes()
}

/// The lines of the diagram.
pub fn lines(plant: &Plant) -> Vec<Line> {
    diagram_sheet(plant).lines
}

/// The net of an accepted plant, as boxes and lines.
pub fn net_sheet(plant: &Plant, net: &Net) -> Sheet {
    net::sheet(plant, net)
}

/// The net of an accepted plant.
pub fn net(plant: &Plant, net: &Net) -> String {
    net_sheet(plant, net).svg()
}
