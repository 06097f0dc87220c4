//! The plain machine of document 01, "The walk": for each register the last write and nothing else, each block of the walk run whole.

use std::ops::Range;

use crate::picture::{Picture, Record};
use crate::plain::roles::{reads, writing};

/// A write: which run of the walk, and which slot of it.
#[derive(Clone, Copy, PartialEq, Eq, Debug)]
pub struct Write {
    pub run: usize,
    pub slot: usize,
}

/// What the machine needs of a picture: by the roles, the registers that each position reads (slots in order, then list places) and
/// those it writes, each with its slot.
pub struct Code {
    pub blocks: Vec<Range<usize>>,
    pub reads: Vec<Vec<u32>>,
    writes: Vec<Vec<(usize, u32)>>,
    registers: usize,
}

/// What the machine did with a walk.
pub struct Played {
    /// each run: its place of the walk, and its position in the picture
    pub runs: Vec<(usize, usize)>,
    /// the number of the first run of each place of the walk
    pub first: Vec<usize>,
    /// the write that each read takes, run after run
    pub takes: Vec<Option<Write>>,
    /// where the reads of a run begin in `takes`
    pub begin: Vec<usize>,
}

/// The registers that a record writes, each with its slot.
fn writes(r: &Record) -> Vec<(usize, u32)> {
    writing(r).into_iter().map(|slot| (slot, r.slots()[slot])).collect()
}

impl Code {
    pub fn of(p: &Picture) -> Code {
        Code {
            blocks: (0..p.nblocks()).map(|b| p.places(b)).collect(),
            reads: p.records().map(|r| reads(p, &r)).collect(),
            writes: p.records().map(|r| writes(&r)).collect(),
            registers: p.regs as usize,
        }
    }

    /// Feeds the machine this walk.
    pub fn play(&self, walk: &[usize]) -> Played {
        let mut last: Vec<Option<Write>> = vec![None; self.registers];
        let mut played = Played { runs: Vec::new(), first: Vec::new(), takes: Vec::new(), begin: Vec::new() };
        for (n, &b) in walk.iter().enumerate() {
            played.first.push(played.runs.len());
            for p in self.blocks[b].clone() {
                let run = played.runs.len();
                played.runs.push((n, p));
                played.begin.push(played.takes.len());
                played.takes.extend(self.reads[p].iter().map(|&r| last[r as usize]));
                for &(slot, r) in &self.writes[p] {
                    last[r as usize] = Some(Write { run, slot });
                }
            }
        }
        played.begin.push(played.takes.len());
        played
    }
}

impl Played {
    /// What run `run` takes, read by read.
    pub fn takes_of(&self, run: usize) -> &[Option<Write>] {
        &self.takes[self.begin[run]..self.begin[run + 1]]
    }
}
