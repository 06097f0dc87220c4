//! The picture of document 01, "The call": flat lists of 32-bit words, the counts in use and the room lent.

use crate::kinds::{BR, CASE, COND_BR};

/// "Absent": a slot that is not visited.
pub const ABSENT: u32 = u32::MAX;
/// Words of one record.
pub const RECORD: usize = 16;

#[derive(Clone, Debug, PartialEq, Eq, Default)]
pub struct Picture {
    /// start, end of each block
    pub bounds: Vec<u32>,
    pub recs: Vec<u32>,
    pub locs: Vec<u32>,
    pub vias: Vec<u32>,
    /// as many as are lent
    pub types: Vec<u32>,
    /// registers in use
    pub regs: u32,
    /// as many as are lent
    pub ops: Vec<u32>,
    /// operands in use
    pub opers: u32,
    pub pairs: Vec<u32>,
    pub targets: Vec<u32>,
    pub replay: Vec<u32>,
}

/// What a record says, by its fields.
#[derive(Clone, Copy, Debug, PartialEq, Eq)]
pub struct Record(pub [u32; RECORD]);

impl Record {
    pub fn new(kind: u32, form: u32, slots: &[u32], list: (u32, u32), payload: &[u32]) -> Record {
        let mut w = [0; RECORD];
        (w[0], w[1]) = (kind, form);
        w[2..7].fill(ABSENT);
        w[2..2 + slots.len()].copy_from_slice(slots);
        (w[7], w[8]) = list;
        w[9..9 + payload.len()].copy_from_slice(payload);
        Record(w)
    }

    pub fn kind(&self) -> u32 {
        self.0[0]
    }

    pub fn form(&self) -> u32 {
        self.0[1]
    }

    pub fn slots(&self) -> &[u32] {
        &self.0[2..7]
    }

    pub fn list(&self) -> (u32, u32) {
        (self.0[7], self.0[8])
    }

    pub fn payload(&self) -> &[u32] {
        &self.0[9..]
    }
}

/// What the pass works in: so many words of 64 and of 32 bits, and records of facts.
#[derive(Clone, Copy, Debug, PartialEq, Eq)]
pub struct Work {
    pub w64: usize,
    pub w32: usize,
    pub records: usize,
}

impl Picture {
    /// A picture of these blocks, with nothing lent past what is in use.
    pub fn of_blocks(blocks: &[Vec<Record>]) -> Picture {
        let mut p = Picture::default();
        for b in blocks {
            p.bounds.push(p.locs.len() as u32);
            for r in b {
                p.recs.extend_from_slice(&r.0);
                p.locs.push(0);
            }
            p.bounds.push(p.locs.len() as u32);
        }
        p
    }

    pub fn nblocks(&self) -> usize {
        self.bounds.len() / 2
    }

    pub fn record(&self, p: usize) -> Record {
        Record(self.recs[RECORD * p..RECORD * (p + 1)].try_into().expect("a whole record"))
    }

    pub fn records(&self) -> impl Iterator<Item = Record> + '_ {
        self.recs.chunks_exact(RECORD).map(|w| Record(w.try_into().expect("a whole record")))
    }

    pub fn set_record(&mut self, p: usize, r: Record) {
        self.recs[RECORD * p..RECORD * (p + 1)].copy_from_slice(&r.0);
    }

    /// The positions of block `b`.
    pub fn places(&self, b: usize) -> std::ops::Range<usize> {
        self.bounds[2 * b] as usize..self.bounds[2 * b + 1] as usize
    }

    pub fn blocks(&self) -> Vec<Vec<Record>> {
        (0..self.nblocks()).map(|b| self.places(b).map(|p| self.record(p)).collect()).collect()
    }

    pub fn list_of(&self, r: &Record) -> &[u32] {
        let (start, len) = r.list();
        &self.ops[start as usize..(start + len) as usize]
    }

    /// Where block `b` goes to: what its last instruction says (document 01, "The walk").
    pub fn successors(&self, b: usize) -> Vec<usize> {
        let Some(r) = self.places(b).next_back().map(|p| self.record(p)) else { return Vec::new() };
        let words = match r.kind() {
            BR => vec![r.0[9]],
            COND_BR => vec![r.0[9], r.0[10]],
            CASE => self.pairs.chunks(2).nth(r.0[9] as usize).map_or(Vec::new(), |t| self.targets[t[0] as usize..][..t[1] as usize].to_vec()),
            _ => Vec::new(),
        };
        words.into_iter().map(|w| w as usize).collect()
    }

    /// Does a block lead to block 0: itself, by a Case, or one that nothing reaches (request 2026-02)?
    pub fn leads_to_entry(&self) -> bool {
        (0..self.nblocks()).any(|b| self.successors(b).contains(&0))
    }

    /// What the pass needs to work in, and no more (document 01, "Port order and sizes" and "What changes shape").
    pub fn work(&self) -> Work {
        let (b, k) = (self.nblocks(), self.types.len());
        Work { w64: 4 * b * k.div_ceil(64) + 2 * k, w32: 8 * k + 16 * b + 8000, records: 800 }
    }
}

#[cfg(test)]
mod tests {
    use super::*;
    use crate::kinds::{RET, STMT};

    /// The last instruction decides, of any block: its own, one that nothing reaches, a Case by its table.
    #[test]
    fn who_leads_to_block_0() {
        let to = |kind: u32, words: &[u32]| Record::new(kind, 0, &[], (0, 0), words);
        let led = |blocks: &[Vec<Record>]| {
            let mut p = Picture::of_blocks(blocks);
            (p.pairs, p.targets) = (vec![1, 2, 3, 1], vec![0, 1, 0, 1, 0]);
            p.leads_to_entry()
        };
        let ret = || vec![to(RET, &[])];
        assert!(led(&[vec![to(BR, &[0])]]), "itself");
        assert!(led(&[ret(), vec![to(BR, &[0])]]), "a block that nothing reaches");
        assert!(led(&[ret(), vec![to(COND_BR, &[0, 1])]]) && led(&[ret(), vec![to(COND_BR, &[1, 0])]]), "either branch");
        assert!(led(&[ret(), vec![to(CASE, &[0])]]), "a table's second target");
        assert!(!led(&[ret(), vec![to(CASE, &[1])]]) && !led(&[ret(), vec![to(CASE, &[2])]]), "another table, or none");
        assert!(!led(&[ret(), vec![to(BR, &[0]), to(STMT, &[])]]), "a branch in the middle");
        assert!(!led(&[ret(), Vec::new()]) && !led(&[]), "an empty block, and no block");
    }
}
