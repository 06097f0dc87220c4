//! What `sink.rs` and `inst.rs` lean on in their own crate, and no more: numbers of things, the program and its
//! functions, the order of the liveness sweep, the names of the IEEE natives. Nothing of the pass is written here.

pub mod ids;
pub mod ieee;
pub mod order;
pub mod program;

pub use ids::*;
pub use program::*;
