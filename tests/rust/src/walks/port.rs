//! The port's own pass on the pictures that the claim is tried on: what it leaves must be the picture after the last round that its
//! room allows.

use crate::fact::Fact;
use crate::large::{Slices, differs};
use crate::oracle::Outcome;
use crate::picture::Picture;

/// Why the port's answer or picture is another than this; `None` where both are the same.
pub fn left_otherwise(p: &Picture, wanted: &Outcome, mut pass: impl Slices) -> Option<String> {
    let (work, mut q, mut out) = (p.work(), p.clone(), [77; 2]);
    let (mut work64, mut work32, mut facts) = (vec![0; work.w64], vec![0; work.w32], vec![Fact::junk(0); work.records]);
    let (number, found) = (wanted.answer.number(), pass(&mut q, &mut work64, &mut work32, &mut facts, &mut out));
    if found != number {
        return Some(format!("the port answers {found}, not {number}"));
    }
    // The counts come apart from the slices.
    [q.regs, q.opers] = out;
    (q != wanted.picture).then(|| format!("the port's picture differs in {}", differs(&q, &wanted.picture)))
}
