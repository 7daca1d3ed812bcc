//! Plain model of document 01, "Flow diagrams and their nets", and of the
//! requests of document 02.
//!
//! One file per section, to be read beside the documents:
//!
//! | File | Section of document 01, request of document 02 |
//! |---|---|
//! | `records` | Diagram records, net records: lengths, kinds, fields |
//! | `diagram` | Diagram records, Nesting |
//! | `diagram_step` | Diagram state and moves |
//! | `net`, `net_step`, `translate`, `image` | Net |
//! | `bus`, `history` | Bus ends |
//! | `logs` | 1, Starts in any hour |
//! | `diagram`, `diagram_step`, `translate` | 2, Triggers reach everyone; 3, Branches that kill |
//! | `diagram` | 4, Loops that spend no time |
//! | `editions` | 5, Old panels on the new bus |
//! | `transitions` | 6, Which transition, by arithmetic |
//! | `diagram`, `diagram_step`, `translate` | 7, Boxes that open |
//! | `examples`, `annex` | Plant-room examples |
//! | `generate` | random diagrams, nets, states, lists, logs and runs for comparisons |
//! | `kills`, `exits` | which moves kill, which leave a box, for comparisons |
//!
//! Every public call takes the caller's bytes and words as they are and checks
//! them anew. A refusal alters nothing that was lent.

#![forbid(unsafe_code)]

pub mod annex;
pub mod bus;
pub mod diagram;
pub mod diagram_step;
pub mod editions;
pub mod examples;
pub mod exits;
pub mod generate;
pub mod history;
pub mod image;
pub mod kills;
pub mod logs;
pub mod net;
pub mod net_step;
pub mod records;
pub mod refusal;
pub mod transitions;
pub mod translate;

pub use refusal::{Answer, Refusal};
