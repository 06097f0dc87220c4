//! The plain check: document 01's pass once more, from the papers alone, as plainly as it can be said: vectors, and loops over
//! everything, on the records of a picture. What document 01 leaves to 000 (facts along a chain, registers given) is said here by
//! the letter of 000, but nothing of the Rust is called. Each request of document 02 that changes the answer has a switch, so that
//! where a request parts from the Rust there is still something to hold the port against.

mod chain;
mod facts;
mod flow;
mod known;
mod legal;
mod memory;
mod moves;
pub mod roles;

use crate::picture::Picture;
use chain::Chain;
use facts::Fact;
use flow::Flow;
use known::Known;
use legal::Question;

/// Which requests of document 02 hold. All off is document 01.
#[derive(Clone, Copy, PartialEq, Eq, Debug, Default)]
pub struct Requests {
    /// 2026-02: the start of the function is one more predecessor of block 0.
    pub entry_has_caller: bool,
}

impl Requests {
    pub const NONE: Requests = Requests { entry_has_caller: false };
    /// Those that the port keeps.
    pub const ALL: Requests = Requests { entry_has_caller: true };
}

/// One round.
#[derive(Clone, PartialEq, Eq, Debug)]
pub struct Round {
    pub from: usize,
    pub into: usize,
    /// blocks of the chain, x first
    pub chain: Vec<usize>,
    /// members' positions before the round
    pub members: Vec<usize>,
    /// the picture after it
    pub after: Picture,
    /// where each position after stood just before this round
    pub was: Vec<usize>,
}

/// Document 01's thresholds ("A round").
const ROUNDS: usize = 8;
const MORE_THAN: usize = 3;
const LEAST: usize = 8;
const LEAST_FOR_REPLAY: usize = 3;
const LONGEST: usize = 800;

/// The rounds of an accepted picture that no gate stops, as if there were always room.
pub fn rounds(p: &Picture, with: Requests) -> Vec<Round> {
    rounds_but(p, with, None)
}

/// The same with one of the six rules left out: not the pass, but what the comparison must tell from it.
pub fn rounds_but(p: &Picture, with: Requests, left_out: Option<usize>) -> Vec<Round> {
    let known = known::known(p);
    let mut all: Vec<Round> = Vec::new();
    while all.len() < ROUNDS {
        let now = all.last().map_or(p, |r| &r.after);
        let pass = Pass { now, known: &known, flow: Flow::of(now, with), left_out };
        let Some(round) = pass.round() else { break };
        all.push(round);
    }
    all
}

/// What stands before a round.
struct Pass<'a> {
    now: &'a Picture,
    known: &'a [Known],
    flow: Flow,
    left_out: Option<usize>,
}

impl Pass<'_> {
    /// The first block, in number order, of more than 3 instructions for which a move exists.
    fn round(&self) -> Option<Round> {
        let p = self.now;
        (0..p.nblocks()).filter(|&x| p.places(x).len() > MORE_THAN).find_map(|x| self.round_from(x))
    }

    fn round_from(&self, x: usize) -> Option<Round> {
        let p = self.now;
        let chain = Chain::from(p, &self.flow, x)?;
        let replay = [chain.t, chain.f].iter().any(|&b| p.replay.contains(&(b as u32)));
        let least = if replay { LEAST_FOR_REPLAY } else { LEAST };
        if chain.inside < least || chain.places.len() > LONGEST || !(replay || chain.makes_a_string(p)) {
            return None;
        }
        let facts = facts::along(p, &chain, self.known);
        for (target, other) in [(chain.t, chain.f), (chain.f, chain.t)] {
            if !chain.may_go_to(target, &self.flow) {
                continue;
            }
            let members = self.greatest(&chain, &facts, target, other);
            if members.len() >= least {
                return Some(moves::round(p, &self.flow, chain, &facts, target, &members));
            }
        }
        None
    }

    /// The greatest legal set for a target, as places in the chain.
    fn greatest(&self, chain: &Chain, facts: &[Fact], target: usize, other: usize) -> Vec<usize> {
        let after = self.flow.live_behind(self.now, target);
        let needed = after.iter().zip(&self.flow.live_in[other]).map(|(a, o)| *a || *o).collect();
        Question { facts, inside: chain.inside, needed }.greatest(self.left_out)
    }
}
