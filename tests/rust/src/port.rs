//! The port, layer by layer: the functions of crate `probe`, as `probe_c` exports them, each wrapped. They ask nothing of their caller,
//! so the wrappers test nothing. A slice goes over as a pointer and a length; nothing checks these declarations against crates/probe_c/src.

use crate::fact::Fact;
use crate::picture::{Picture, Work};

/// Declares functions that take a picture between a slice of their own and how much is lent to work in, and wraps them.
macro_rules! port {
    ($($(#[$doc:meta])* $name:ident $symbol:ident ($($first:ident: $slice:ty),*) ($($last:ident),*);)*) => {
        #[link(name = "probe", kind = "static")]
        unsafe extern "C" {
            $(fn $symbol(
                $($first: *mut $slice, len: usize,)*
                bounds: *const u32,
                bounds_len: usize,
                recs: *const u32,
                recs_len: usize,
                locs: *const u32,
                locs_len: usize,
                vias: *const u32,
                vias_len: usize,
                types: *const u32,
                types_len: usize,
                ops: *const u32,
                ops_len: usize,
                pairs: *const u32,
                pairs_len: usize,
                targets: *const u32,
                targets_len: usize,
                registers: u32,
                operands: u32,
                $($last: usize,)*
            ) -> u32;)*
        }

        $($(#[$doc])*
        pub fn $name($($first: &mut [$slice],)* p: &Picture, work: Work) -> u32 {
            // Each pointer comes with the length of its own slice; those of the picture are only read.
            unsafe {
                $symbol(
                    $($first.as_mut_ptr(), $first.len(),)*
                    p.bounds.as_ptr(),
                    p.bounds.len(),
                    p.recs.as_ptr(),
                    p.recs.len(),
                    p.locs.as_ptr(),
                    p.locs.len(),
                    p.vias.as_ptr(),
                    p.vias.len(),
                    p.types.as_ptr(),
                    p.types.len(),
                    p.ops.as_ptr(),
                    p.ops.len(),
                    p.pairs.as_ptr(),
                    p.pairs.len(),
                    p.targets.as_ptr(),
                    p.targets.len(),
                    p.regs,
                    p.opers,
                    $(work.$last,)*
                )
            }
        })*
    };
}

port! {
    /// The port's `accept::refusal`.
    refusal virdzeba_refusal () (w64, w32, records);
    /// Where the answer is 0: of each block how many predecessors it has, up to two, and the first.
    preds virdzeba_preds (words: u32) (w64, records);
    /// Where the answer is 0: of each block its live-in row, a word for each 64 registers lent.
    live virdzeba_live (bits: u64) (w32, records);
    /// What `live` begins with: where the answer is 0, of each of n blocks the rows of what it writes and of what it reads first, block
    /// b's at rows n + b and 2n + 1 + b.
    rows virdzeba_rows (bits: u64) (w32, records);
}

#[link(name = "probe", kind = "static")]
unsafe extern "C" {
    fn virdzeba_sink_all(
        bounds: *mut u32,
        bounds_len: usize,
        recs: *mut u32,
        recs_len: usize,
        locs: *mut u32,
        locs_len: usize,
        vias: *mut u32,
        vias_len: usize,
        types: *mut u32,
        types_len: usize,
        regs: u32,
        ops: *mut u32,
        ops_len: usize,
        opers: u32,
        pairs: *const u32,
        pairs_len: usize,
        targets: *const u32,
        targets_len: usize,
        replay: *const u32,
        replay_len: usize,
        work64: *mut u64,
        work64_len: usize,
        work32: *mut u32,
        work32_len: usize,
        facts: *mut Fact,
        facts_len: usize,
        out: *mut u32,
        out_len: usize,
    ) -> u32;
}

/// The whole pass over lent slices and a lent list of facts. The answer is numbered as the host's; `out` gets the registers and operands
/// in use, and the picture's own counts stay as they are.
pub fn sink_all(p: &mut Picture, work64: &mut [u64], work32: &mut [u32], facts: &mut [Fact], out: &mut [u32]) -> u32 {
    // Each pointer comes with the length of its own slice, and no two slices are the same.
    unsafe {
        virdzeba_sink_all(
            p.bounds.as_mut_ptr(),
            p.bounds.len(),
            p.recs.as_mut_ptr(),
            p.recs.len(),
            p.locs.as_mut_ptr(),
            p.locs.len(),
            p.vias.as_mut_ptr(),
            p.vias.len(),
            p.types.as_mut_ptr(),
            p.types.len(),
            p.regs,
            p.ops.as_mut_ptr(),
            p.ops.len(),
            p.opers,
            p.pairs.as_ptr(),
            p.pairs.len(),
            p.targets.as_ptr(),
            p.targets.len(),
            p.replay.as_ptr(),
            p.replay.len(),
            work64.as_mut_ptr(),
            work64.len(),
            work32.as_mut_ptr(),
            work32.len(),
            facts.as_mut_ptr(),
            facts.len(),
            out.as_mut_ptr(),
            out.len(),
        )
    }
}

#[link(name = "probe", kind = "static")]
unsafe extern "C" {
    fn virdzeba_try(
        bounds: *const u32,
        bounds_len: usize,
        recs: *const u32,
        recs_len: usize,
        locs: *const u32,
        locs_len: usize,
        vias: *const u32,
        vias_len: usize,
        types: *const u32,
        types_len: usize,
        regs: u32,
        ops: *const u32,
        ops_len: usize,
        opers: u32,
        pairs: *const u32,
        pairs_len: usize,
        targets: *const u32,
        targets_len: usize,
        replay: *const u32,
        replay_len: usize,
        work64: *mut u64,
        work64_len: usize,
        work32: *mut u32,
        work32_len: usize,
        facts: *mut Fact,
        facts_len: usize,
        x: u32,
        out: *mut usize,
        out_len: usize,
    ) -> u32;
}

/// The search from block `x` of the picture as lent: 1 for a move, 0 for none, 200 and the number of a refusal, 300 where `x` is no
/// block. `out` gets the target, the positions in `x` but for its last, those of the chain, and the members; `facts` the chain's facts.
pub fn try_block(p: &Picture, work64: &mut [u64], work32: &mut [u32], facts: &mut [Fact], x: u32, out: &mut [usize]) -> u32 {
    // Each pointer comes with the length of its own slice; those of the picture are only read.
    unsafe {
        virdzeba_try(
            p.bounds.as_ptr(),
            p.bounds.len(),
            p.recs.as_ptr(),
            p.recs.len(),
            p.locs.as_ptr(),
            p.locs.len(),
            p.vias.as_ptr(),
            p.vias.len(),
            p.types.as_ptr(),
            p.types.len(),
            p.regs,
            p.ops.as_ptr(),
            p.ops.len(),
            p.opers,
            p.pairs.as_ptr(),
            p.pairs.len(),
            p.targets.as_ptr(),
            p.targets.len(),
            p.replay.as_ptr(),
            p.replay.len(),
            work64.as_mut_ptr(),
            work64.len(),
            work32.as_mut_ptr(),
            work32.len(),
            facts.as_mut_ptr(),
            facts.len(),
            x,
            out.as_mut_ptr(),
            out.len(),
        )
    }
}
