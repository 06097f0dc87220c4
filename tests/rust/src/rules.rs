//! Document 01, "The legal set", once more and plainly: the six rules over what `analyse` says of a chain, and the greatest
//! legal set with one rule left out, to see which rules decide anything in a picture. `selfcheck` holds it against `plan`.

use crate::driver::{Look, Overview, Position};
use crate::kinds::{self, Slot};
use crate::picture::{ABSENT, Picture};

/// The rules, the fifth in its three parts.
#[derive(Clone, Copy, PartialEq, Eq, Debug)]
pub enum Rule {
    Readers,
    Results,
    Operands,
    Suspensions,
    Barriers,
    Writes,
    Origins,
    Memory,
}

pub const RULES: [(Rule, &str); 8] = [
    (Rule::Readers, "rule 1"),
    (Rule::Results, "rule 2"),
    (Rule::Operands, "rule 3"),
    (Rule::Suspensions, "rule 4"),
    (Rule::Barriers, "rule 5 on barriers"),
    (Rule::Writes, "rule 5 on writes"),
    (Rule::Origins, "rule 5 on origins"),
    (Rule::Memory, "rule 6"),
];

const UNKNOWN: u32 = 0;
const RO: u32 = 1;
const HEAP: u32 = 2;
const FRAME: u32 = 3;

fn alias(w: u32, r: u32) -> bool {
    w == UNKNOWN || r == UNKNOWN || (w >= FRAME && w == r)
}

/// A chain and one of its targets: the facts, how many positions lie in x, and the registers that the other branch needs or
/// that are needed behind the target.
pub struct Chain<'a> {
    pub facts: &'a [Position],
    pub xlen: usize,
    pub needed: Vec<bool>,
}

impl<'a> Chain<'a> {
    pub fn new(p: &Picture, all: &Overview, x: usize, look: &'a Look, target: usize, other: usize) -> Chain<'a> {
        let live = |b: usize, r: usize| all.live_in[b].get(r / 64).is_some_and(|w| w >> (r % 64) & 1 == 1);
        let successors: Vec<usize> = (0..all.preds.len()).filter(|&s| all.preds[s].contains(&(target as u32))).collect();
        let mut written = vec![false; p.regs as usize];
        for r in p.places(target).map(|k| p.record(k)) {
            for (slot, &reg) in kinds::slots(r.kind(), r.form()).iter().zip(r.slots()) {
                if matches!(slot, Slot::Def | Slot::MaybeDef) && reg != ABSENT {
                    written[reg as usize] = true;
                }
            }
        }
        let needed = (0..p.regs as usize).map(|r| live(other, r) || (!written[r] && successors.iter().any(|&s| live(s, r))));
        Chain { facts: &look.positions, xlen: p.places(x).len() - 1, needed: needed.collect() }
    }

    fn keeps(&self, set: &[bool], p: usize, rule: Rule) -> bool {
        let f = &self.facts[p];
        let member = |q: usize| q < self.xlen && set[q];
        let mut kept = (p + 1..self.facts.len()).filter(|&q| !member(q)).map(|q| &self.facts[q]);
        match rule {
            Rule::Readers => f.users.iter().all(|&q| member(q)),
            Rule::Results => {
                let last = |d: &u32| self.facts[p + 1..].iter().all(|q| !q.defs.contains(d));
                f.defs.iter().all(|d| !(last(d) && self.needed[*d as usize]))
            }
            Rule::Operands => {
                let loose: Vec<u32> = f.uses.iter().filter(|u| !u.1.is_some_and(member)).map(|u| u.0).collect();
                kept.all(|q| !q.defs.iter().any(|d| loose.contains(d)))
            }
            Rule::Suspensions => kept.all(|q| !q.suspends),
            Rule::Barriers => {
                let minds = f.creates || f.wrote.is_some() || f.reads.iter().any(|&o| o != RO && o != HEAP);
                !minds || kept.all(|q| !q.barrier)
            }
            Rule::Writes => kept.all(|q| q.wrote.is_none_or(|w| !f.reads.iter().any(|&o| alias(w, o)))),
            Rule::Origins => f.reads.iter().all(|&o| o != UNKNOWN && o != HEAP),
            Rule::Memory => f.wrote.is_none_or(|w| w > FRAME && w % 2 == 0 && member((w as usize - 4) / 2)),
        }
    }

    /// The greatest set of movable positions in x that keeps every rule but one.
    pub fn greatest(&self, but: Option<Rule>) -> Vec<bool> {
        let mut set: Vec<bool> = (0..self.facts.len()).map(|p| p < self.xlen && self.facts[p].movable).collect();
        loop {
            let broken = |p: &usize| set[*p] && RULES.iter().any(|(r, _)| Some(*r) != but && !self.keeps(&set, *p, *r));
            let Some(p) = (0..self.xlen).rev().find(broken) else { return set };
            set[p] = false;
        }
    }
}
