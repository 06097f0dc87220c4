//! The rows of crate `crossed`: small pictures and what the Rust makes of them, or the plain check where a block leads to block 0,
//! as antt that the definitions are computed against. Those of the generator are picked by what they show, so that every sort of
//! round, target, shortage and refusal is among them; those at the bounds are taken as far as they are small.

mod pages;
mod pick;
pub mod shows;
mod text;

pub use pages::files;

use crate::oracle::Outcome;
use crate::picture::{Picture, Work};

/// Rows of generated pictures that move or stay; the refused ones and those at the bounds come behind them.
pub const ROWS: usize = 72;
/// Seeds that are looked at.
const SEEDS: u64 = 4000;

/// A picture with what is lent to work in, and what it gives.
pub struct Row {
    pub name: String,
    pub notes: String,
    pub what: Picture,
    pub work: Work,
    pub gives: Outcome,
}
