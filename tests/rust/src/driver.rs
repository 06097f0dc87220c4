//! What `calls.rs` tells of the pass, in plain types. `calls.rs` is a child of `sink.rs` and so sees its private items; its
//! functions hang on [`Pass`] so that the rest of this crate can call them.

use std::cell::Cell;
use std::panic::{self, AssertUnwindSafe};
use std::sync::Once;

use crate::{Inst, Reg, RegTy, StmtId};

/// The pass of `sink.rs`; see `calls.rs` for what it can be asked.
pub struct Pass;

/// How long the vectors of facts on registers are. `AsRun` is as `run` makes them: one for each register before round 1.
/// `Lengthened` adds 'no fact' for each register that a round makes (document 01, "Departures").
#[derive(Clone, Copy, PartialEq, Eq, Debug)]
pub enum Facts {
    AsRun,
    Lengthened,
}

/// Who leads to block 0: blocks alone, as `find_preds` has it (document 01), or the start of the function too, which is no block
/// (request 2026-02).
#[derive(Clone, Copy, PartialEq, Eq, Debug)]
pub enum Entry {
    Blocks,
    Start,
}

/// The code of a function as the pass holds it.
#[derive(Clone, Debug)]
pub struct State {
    pub code: Vec<Vec<Inst>>,
    pub loc: Vec<Vec<StmtId>>,
    pub via: Vec<Vec<u32>>,
    pub operands: Vec<Reg>,
    pub reg_ty: Vec<RegTy>,
}

/// One round: from block, into block, members moved, the chain's blocks, and what the round leaves.
#[derive(Clone, Debug)]
pub struct Round {
    pub from: usize,
    pub into: usize,
    pub moved: usize,
    pub chain: Vec<usize>,
    pub after: State,
}

/// All rounds, and whether the Rust stopped by itself (an index past the facts) instead of ending.
#[derive(Clone, Debug)]
pub struct Trace {
    pub rounds: Vec<Round>,
    pub stopped: bool,
}

/// What `analyse` says of one position of a chain. An origin is a number: 0 Unknown, 1 Ro, 2 Heap, 3 Frame,
/// 4 + 2k Temp(k), 5 + 2k Img(k).
#[derive(Clone, Debug, PartialEq, Eq)]
pub struct Position {
    pub uses: Vec<(u32, Option<usize>)>,
    pub defs: Vec<u32>,
    pub users: Vec<usize>,
    pub movable: bool,
    pub reads: Vec<u32>,
    pub creates: bool,
    pub wrote: Option<u32>,
    pub barrier: bool,
    pub suspends: bool,
}

/// A block looked at as the start of a chain: the chain, its facts, and what `plan` picks for which target.
#[derive(Clone, Debug)]
pub struct Look {
    pub blocks: Vec<usize>,
    pub t: usize,
    pub f: usize,
    pub positions: Vec<Position>,
    pub target: Option<usize>,
    pub set: Vec<bool>,
}

/// What `analyse` says of one position, with what it keeps to itself, asked of it by instructions put behind the position.
#[derive(Clone, Debug, PartialEq, Eq)]
pub struct Told {
    /// block, and place in it
    pub place: (usize, usize),
    /// 0 No, 1 Movable, 2 Free
    pub class: u32,
    pub position: Position,
    /// the origin of its value, whether that is a length, and whether it is a layout; `None` where it writes no register
    pub value: Option<(u32, bool, bool)>,
    /// of a member, its last use; `usize::MAX` for one that the target reads
    pub last_use: Option<usize>,
}

/// What is known of a register after a chain was looked at: read-only, frame, a constant that is a length, a constant above 0,
/// and its last writer in the chain.
#[derive(Clone, Debug, PartialEq, Eq)]
pub struct Register {
    pub flags: u32,
    pub writer: Option<usize>,
}

/// The search from one block, where the Rust gets to `analyse`.
#[derive(Clone, Debug)]
pub struct Search {
    pub inside: usize,
    pub told: Vec<Told>,
    pub registers: Vec<Register>,
    pub target: Option<usize>,
    pub set: Vec<bool>,
}

/// The graph of the function before round 1: each block's predecessors and live-in row.
#[derive(Clone, Debug)]
pub struct Flow {
    pub preds: Vec<Vec<u32>>,
    pub live_in: Vec<Vec<u64>>,
}

/// The whole function looked at before round 1.
#[derive(Clone, Debug)]
pub struct Overview {
    pub preds: Vec<Vec<u32>>,
    pub live_in: Vec<Vec<u64>>,
    pub looks: Vec<Option<Look>>,
}

thread_local! {
    static QUIET: Cell<bool> = const { Cell::new(false) };
}

/// Runs `f`; `None` where it panicked, of which nothing is printed.
pub fn caught<T>(f: impl FnOnce() -> T) -> Option<T> {
    static HOOK: Once = Once::new();
    HOOK.call_once(|| {
        let usual = panic::take_hook();
        panic::set_hook(Box::new(move |info| {
            if !QUIET.with(Cell::get) {
                usual(info);
            }
        }));
    });
    let before = QUIET.with(|q| q.replace(true));
    let result = panic::catch_unwind(AssertUnwindSafe(f));
    QUIET.with(|q| q.set(before));
    result.ok()
}
