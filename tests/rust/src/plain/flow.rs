//! Predecessors and live-in (document 01, "A round"), and who else leads to block 0 (document 02, 2026-02).

use super::Requests;
use super::roles::{reads, writes};
use crate::picture::Picture;

/// Who goes on to a block.
#[derive(Clone, Copy, PartialEq, Eq, Debug)]
pub enum Caller {
    Block(usize),
    /// the start of the function
    Start,
}

pub struct Flow {
    /// each block's predecessors, each once
    pub callers: Vec<Vec<Caller>>,
    /// each block's registers live into it
    pub live_in: Vec<Vec<bool>>,
}

impl Flow {
    pub fn of(p: &Picture, with: Requests) -> Flow {
        let leading = leading(p);
        let live_in = live_in(p, &leading);
        let mut callers: Vec<Vec<Caller>> = leading.into_iter().map(|from| from.into_iter().map(Caller::Block).collect()).collect();
        if with.entry_has_caller && let Some(first) = callers.first_mut() {
            first.push(Caller::Start);
        }
        Flow { callers, live_in }
    }

    /// Live out of a block, and not written in it.
    pub fn live_behind(&self, p: &Picture, b: usize) -> Vec<bool> {
        let mut live = vec![false; p.regs as usize];
        for s in p.successors(b) {
            for (all, one) in live.iter_mut().zip(&self.live_in[s]) {
                *all |= *one;
            }
        }
        for r in p.places(b).map(|k| p.record(k)) {
            for w in writes(&r) {
                live[w as usize] = false;
            }
        }
        live
    }
}

/// The blocks that lead to each block, each of them once.
fn leading(p: &Picture) -> Vec<Vec<usize>> {
    let mut from = vec![Vec::new(); p.nblocks()];
    for b in 0..p.nblocks() {
        for s in p.successors(b) {
            if !from[s].contains(&b) {
                from[s].push(b);
            }
        }
    }
    from
}

/// The least solution: a register is live into a block that reads it before writing it; and into a block that does not write it, if
/// it is live into a successor. So each that is read first is followed back, from block to block, until it is written.
fn live_in(p: &Picture, leading: &[Vec<usize>]) -> Vec<Vec<bool>> {
    let mut live = vec![vec![false; p.regs as usize]; p.nblocks()];
    let mut written = live.clone();
    let mut open: Vec<(usize, usize)> = Vec::new();
    for b in 0..p.nblocks() {
        for r in p.places(b).map(|k| p.record(k)) {
            for reg in reads(p, &r) {
                if !written[b][reg as usize] && !live[b][reg as usize] {
                    live[b][reg as usize] = true;
                    open.push((b, reg as usize));
                }
            }
            for reg in writes(&r) {
                written[b][reg as usize] = true;
            }
        }
    }
    while let Some((b, reg)) = open.pop() {
        for &a in &leading[b] {
            if !written[a][reg] && !live[a][reg] {
                live[a][reg] = true;
                open.push((a, reg));
            }
        }
    }
    live
}
