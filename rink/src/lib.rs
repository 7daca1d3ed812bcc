//! What the program `rink` is made of: a plant's text, its drawings, its annex, the game of both bus ends and runs of telegrams.
//!
//! Whatever the proved functions do is left to them: reading, translating, stepping, both bus ends, the annex's text and the telegrams' editions.

#![forbid(unsafe_code)]

pub mod annex;
pub mod boxes;
pub mod cli;
pub mod draw;
pub mod editions;
pub mod formats;
pub mod limits;
pub mod net;
pub mod plant;
pub mod play;
pub mod refused;
pub mod rounds;
pub mod structure;
pub mod text;
pub mod times;
