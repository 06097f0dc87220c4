//! Which block of a draft becomes block 0 where that one is to be led to (request 2026-02), and the edges that lead there or past
//! it.

use super::draft::{Draft, Size};
use crate::kinds::*;

impl Draft {
    /// Picks the block that is to be block 0: one where a chain begins, a later part of one, or a target. Some ends go round, to it
    /// or to where a chain begins.
    pub fn first(&mut self) -> usize {
        let n = self.blocks.len();
        let begins: Vec<usize> = (0..n).filter(|&b| self.blocks[b].len() > 8 && self.ends_in(b, &[BR, COND_BR])).collect();
        let (later, targets) = (self.entered_by(BR), self.entered_by(COND_BR));
        let sort = self.rnd.below(10);
        let from = match sort {
            0..5 => &begins,
            5 | 6 => &later,
            _ => &targets,
        };
        let from = if from.is_empty() { &begins } else { from };
        let first = if from.is_empty() { 0 } else { self.rnd.pick(from) };
        if self.rnd.chance(85) {
            let back = if begins.is_empty() || begins.contains(&first) { first } else { self.rnd.pick(&begins) };
            self.go_round(back);
        }
        if self.rnd.chance(10) {
            self.go_round(first);
        }
        if self.rnd.chance(5) {
            // a word that no pair covers leads nowhere
            self.targets.push(first as u32);
        }
        first
    }

    fn ends_in(&self, b: usize, kinds: &[u32]) -> bool {
        self.blocks[b].last().is_some_and(|r| kinds.contains(&r.kind()))
    }

    /// Where block `b` goes to, as far as that is known now.
    fn leads(&self, b: usize) -> Vec<usize> {
        let Some(r) = self.blocks[b].last() else { return Vec::new() };
        let words = match r.kind() {
            BR => r.0[9..10].to_vec(),
            COND_BR => r.0[9..11].to_vec(),
            CASE => self.pairs.chunks(2).nth(r.0[9] as usize).map_or(Vec::new(), |t| self.targets[t[0] as usize..][..t[1] as usize].to_vec()),
            _ => Vec::new(),
        };
        words.into_iter().map(|w| w as usize).filter(|&w| w < self.blocks.len()).collect()
    }

    /// The blocks that one edge alone leads to, from an end of this kind.
    fn entered_by(&self, kind: u32) -> Vec<usize> {
        let mut edges = vec![0; self.blocks.len()];
        let mut found = Vec::new();
        for b in 0..self.blocks.len() {
            for to in self.leads(b) {
                edges[to] += 1;
                if self.ends_in(b, &[kind]) && to != b {
                    found.push(to);
                }
            }
        }
        found.retain(|&to| edges[to] == 1);
        found
    }

    /// One or two ends go to block `to` instead.
    fn go_round(&mut self, to: usize) {
        for _ in 0..self.rnd.from_to(1, 2) {
            let ends: Vec<usize> = (0..self.blocks.len()).filter(|&b| self.leads(b).is_empty() && !self.ends_in(b, &[BR, COND_BR, CASE])).collect();
            if ends.is_empty() {
                return;
            }
            let b = self.rnd.pick(&ends);
            if self.ends_in(b, &[RET, UNREACHABLE]) {
                self.blocks[b].pop();
            }
            let other = self.rnd.pick(&ends);
            match self.rnd.below(4) {
                0 if self.size != Size::Small => {
                    let table = self.table(&[other, to]);
                    let v = self.harmless();
                    let r = self.op(CASE, 0, &[v], (0, 0), &[table]);
                    self.put(b, r);
                }
                1 => self.fork(b, to, other),
                _ => self.br(b, to),
            }
        }
    }
}
