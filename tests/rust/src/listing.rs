//! Document 01, "One listing whole": the listing.

use crate::kinds::*;
use crate::picture::{Picture, Record};

fn op(kind: u32, slots: &[u32]) -> Record {
    Record::new(kind, 0, slots, (0, 0), &[])
}

/// With the rooms of `sinkrounds`.
pub fn listing() -> Picture {
    let mut first = vec![Record::new(CONST, 0, &[1], (0, 0), &[8]), op(ALLOC, &[2, 1]), op(CMP, &[3, 1, 1])];
    for r in 4..=8 {
        first.push(op(CMP, &[r, 1, r - 1]));
    }
    first.push(op(CAT, &[2, 1, 1]));
    first.push(Record::new(COND_BR, 0, &[0], (0, 0), &[1, 2]));
    let mut p = Picture::of_blocks(&[first, vec![op(OUTPUT, &[2, 1]), op(RET, &[])], vec![op(RET, &[])]]);
    p.types = vec![0; 512];
    p.types[2] = 1;
    p.regs = 9;
    p.ops = vec![0; 2048];
    p
}
