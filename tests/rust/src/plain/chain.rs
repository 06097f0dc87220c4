//! The chain from a block, and where it may send what it need not do (document 01, "A round").

use super::flow::{Caller, Flow};
use crate::kinds::{BR, CAT, COND_BR};
use crate::picture::Picture;

/// Blocks that may be gathered.
const BLOCKS: usize = 6;

pub struct Chain {
    /// x first
    pub blocks: Vec<usize>,
    /// the positions of their instructions in the picture, inner Brs dropped
    pub places: Vec<usize>,
    /// how many of these x has, its terminator not counted
    pub inside: usize,
    pub t: usize,
    pub f: usize,
}

impl Chain {
    /// Br is followed until CondBr; `None` where there is no chain.
    pub fn from(p: &Picture, flow: &Flow, x: usize) -> Option<Chain> {
        let mut blocks = vec![x];
        let end = loop {
            let end = p.record(p.places(*blocks.last()?).next_back()?);
            if end.kind() == COND_BR {
                break end;
            }
            if end.kind() != BR {
                return None;
            }
            let next = end.0[9] as usize;
            if blocks.len() == BLOCKS || flow.callers[next].len() != 1 || blocks.contains(&next) {
                return None;
            }
            blocks.push(next);
        };
        let mut places: Vec<usize> = blocks.iter().flat_map(|&b| p.places(b).take(p.places(b).len() - 1)).collect();
        places.extend(p.places(*blocks.last()?).next_back());
        Some(Chain { places, inside: p.places(x).len() - 1, t: end.0[9] as usize, f: end.0[10] as usize, blocks })
    }

    /// Is there a Cat of form 0 in x?
    pub fn makes_a_string(&self, p: &Picture) -> bool {
        self.places[..self.inside].iter().map(|&k| p.record(k)).any(|r| r.kind() == CAT && r.form() == 0)
    }

    /// A target is not in the chain, and its sole predecessor is the chain's end.
    pub fn may_go_to(&self, target: usize, flow: &Flow) -> bool {
        let end = self.blocks[self.blocks.len() - 1];
        !self.blocks.contains(&target) && flow.callers[target] == [Caller::Block(end)]
    }
}
