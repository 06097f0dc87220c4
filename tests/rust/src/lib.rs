//! The Rust of the pass as an oracle for the port: pictures of document 01 go in, what `sink_all` makes of them comes out.

pub mod accept;
#[cfg(feature = "port")]
pub mod bench;
pub mod boundary;
pub mod bytes;
#[cfg(feature = "port")]
pub mod callgrind;
pub mod convert;
pub mod copies;
pub mod crossed;
pub mod damage;
pub mod driver;
pub mod fact;
pub mod facts;
#[cfg(feature = "port")]
pub mod flow;
pub mod generate;
pub mod kinds;
pub mod large;
pub mod listing;
#[cfg(feature = "port")]
pub mod live;
pub mod missing;
pub mod opt;
pub mod oracle;
pub mod picture;
pub mod plain;
pub mod plaincheck;
#[cfg(feature = "port")]
pub mod port;
pub mod program;
pub mod random;
#[cfg(feature = "port")]
pub mod refusals;
pub mod roles;
pub mod rooms;
pub mod rules;
pub mod selfcheck;
pub mod shim;
pub mod sink;
#[cfg(feature = "port")]
pub mod stack;
pub mod tally;
pub mod time;
pub mod vectors;
pub mod walks;

include!(concat!(env!("OUT_DIR"), "/inst_mod.rs"));

pub use inst::*;
pub use shim::*;
