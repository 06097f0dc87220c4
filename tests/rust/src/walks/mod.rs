//! Demand 3 run: the claim of document 01, "The walk", as request 2026-02 leaves it, on walks through pictures before and after each
//! number of rounds. It is written from the papers alone, and knows nothing of how the claim is proved. Where a block leads to block
//! 0, the pass of document 01 alone must break it, exactly if it carries code past that block.

mod choose;
mod claim;
mod entry;
mod machine;
mod places;
mod port;
#[cfg(test)]
mod tests;

use std::collections::BTreeMap;

use crate::accept;
use crate::boundary::boundaries;
use crate::driver::{Entry, Facts, Trace};
use crate::generate::{entered, picture};
use crate::missing::Missing;
use crate::oracle::{Lent, Outcome};
use crate::picture::Picture;
use crate::random::Random;
use crate::selfcheck::size_of;

pub use choose::{Walks, walks_of};
pub use claim::broken;
use claim::{Pair, latest};
use entry::SORTS;
pub use port::left_otherwise;

#[derive(Default)]
pub struct Stats {
    pub pictures: usize,
    /// those at the bounds, and those with a round
    pub at_bounds: usize,
    pub moved: usize,
    pub rounds: usize,
    /// pictures, each with a number of rounds
    pub pairs: usize,
    pub walks: usize,
    pub runs: usize,
    pub reads: usize,
    pub unmatched: usize,
    pub longest: usize,
    /// pictures by the length up to which every walk was tried, and those of which every walk was
    pub whole: BTreeMap<usize, usize>,
    pub all: usize,
    /// pictures of `entered`, those of them with a round, and what block 0 was in them
    pub entered: usize,
    pub entered_moved: usize,
    pub sorts: [usize; SORTS.len()],
    /// pictures where a block leads to block 0; those where document 01 alone carries code past it, and its rounds that do, block 0
    /// being the target or a later part
    pub led: usize,
    pub past: usize,
    pub past_target: usize,
    pub past_later: usize,
    /// pictures where document 01 alone breaks the claim; where all code that passes block 0 had come round; where the claim holds
    /// for that reason
    pub breaks: usize,
    pub came_round: usize,
    pub spared: usize,
    pub faults: Vec<String>,
}

/// What else is asked of a picture and of what the rounds leave of it: why that is not so.
pub trait Also: FnMut(&Picture, &Outcome) -> Option<String> {}
impl<F: FnMut(&Picture, &Outcome) -> Option<String>> Also for F {}

pub fn walks(n: usize, seed: u64, mut also: impl Also) -> Stats {
    let mut stats = Stats::default();
    for b in boundaries() {
        if (1..=8).contains(&(b.number % 100)) && b.number < 200 {
            stats.hold(&b.picture, &b.name, &mut Random::new(seed), &mut also);
        }
    }
    stats.at_bounds = stats.pictures;
    for k in 0..n {
        let this = seed.wrapping_mul(1_000_003).wrapping_add(k as u64);
        let (size, mut rnd) = (size_of(k / 2), Random::new(this ^ 0x3A1C_0F03));
        if k % 2 == 0 {
            stats.hold(&picture(this, size), &format!("seed {this} {size:?}"), &mut rnd, &mut also);
        } else {
            let p = entered(this, size);
            stats.entered(&p);
            stats.hold(&p, &format!("seed {this} {size:?}, entered"), &mut rnd, &mut also);
        }
    }
    stats
}

impl Stats {
    /// What block 0 of such a picture is.
    fn entered(&mut self, p: &Picture) {
        let Some(lent) = Lent::new(p) else { return };
        self.entered += 1;
        self.entered_moved += usize::from(!lent.wanted().rounds.is_empty());
        for (many, is) in self.sorts.iter_mut().zip(entry::sorts(p, &lent)) {
            *many += usize::from(is);
        }
    }

    /// One picture, with every number of rounds, on all its walks.
    fn hold(&mut self, p: &Picture, name: &str, rnd: &mut Random, also: &mut impl Also) {
        if accept::refusal(p, p.work()) != 0 {
            self.faults.push(format!("{name}: is refused"));
            return;
        }
        // A picture of more types has no equal in the Rust, and one that is gated no rounds.
        let Some(lent) = Lent::new(p).filter(|_| !accept::gated(p)) else { return };
        let trace = lent.wanted();
        self.pictures += 1;
        self.moved += usize::from(!trace.rounds.is_empty());
        self.rounds += trace.rounds.len();
        let walks = walks_of(p, rnd);
        *self.whole.entry(walks.whole).or_default() += 1;
        self.all += usize::from(walks.all);
        self.longest = walks.walks.iter().map(Vec::len).max().unwrap_or(0).max(self.longest);
        let faults = self.claim(p, &lent, &trace, &walks.walks);
        for why in faults.into_iter().chain(also(p, &lent.outcome(&trace))) {
            self.faults.push(format!("{name}: {why}"));
        }
        if p.leads_to_entry() {
            let alone = lent.rounds(Facts::Lengthened, Entry::Blocks);
            self.led(p, name, &lent, &alone, walks.walks);
        }
    }

    /// Where the claim breaks, for each number of rounds the first walk.
    fn claim(&mut self, p: &Picture, lent: &Lent, trace: &Trace, walks: &[Vec<usize>]) -> Vec<String> {
        let mut faults = Vec::new();
        let mut stood = places::as_lent(p);
        for k in 0..=trace.rounds.len() {
            let mut after = p.clone();
            if let Some(round) = k.checked_sub(1).map(|last| &trace.rounds[last]) {
                let stands = places::after(round);
                if !places::carries(&stood, &stands, round) {
                    faults.push(format!("round {k} does not carry members to the target's head and nothing else"));
                }
                (stood, after) = (stands, lent.picture_of(&round.after));
            }
            self.pairs += 1;
            let held = Pair::of(p, &after, &stood.concat()).and_then(|pair| walks.iter().try_for_each(|w| self.walk(&pair, w)));
            if let Err(why) = held {
                faults.push(format!("after {k} rounds {why}"));
            }
        }
        faults
    }

    fn walk(&mut self, pair: &Pair, walk: &[usize]) -> Result<(), String> {
        let counts = pair.claim(walk, latest).map_err(|why| format!("on {walk:?} {why}"))?;
        self.walks += 1;
        self.runs += counts.runs;
        self.reads += counts.reads;
        self.unmatched += counts.unmatched;
        Ok(())
    }

    /// The rounds of document 01 alone break the claim exactly if they carry code past block 0, but for code that has come round.
    fn led(&mut self, p: &Picture, name: &str, lent: &Lent, alone: &Trace, mut walks: Vec<Vec<usize>>) {
        let (mut past, mut missed) = (false, false);
        for round in &alone.rounds {
            let Some(way) = entry::way_past(round) else { continue };
            past = true;
            missed |= !entry::came_round(p, &way, &places::after(round), round);
            self.past_target += usize::from(round.into == 0);
            self.past_later += usize::from(round.into != 0);
            walks.push(way);
        }
        // Counted apart: these are not the rounds that the claim is for.
        let why = Stats::default().claim(p, lent, alone, &walks);
        self.led += 1;
        self.past += usize::from(past);
        self.breaks += usize::from(!why.is_empty());
        self.came_round += usize::from(past && !missed);
        self.spared += usize::from(past && !missed && why.is_empty());
        if missed && why.is_empty() {
            self.faults.push(format!("{name}: code passes block 0, and the claim holds"));
        }
        if let (false, Some(why)) = (past, why.first()) {
            self.faults.push(format!("{name}: no code passes block 0, and {why}"));
        }
    }

    /// What is missing, if the pictures are to be worth their while.
    pub fn missing(&self) -> Vec<String> {
        let mut out = Missing::default();
        out.want(self.faults.is_empty(), "no fault");
        out.want(3 * self.moved >= self.pictures, "a third of the pictures with a round");
        out.want(self.at_bounds > 0, "pictures at the bounds");
        out.want(3 * self.entered_moved >= self.entered, "a third of those whose block 0 is led to with a round");
        out.want(self.rounds > 0 && self.pairs > self.pictures, "rounds");
        out.want(self.runs > 0 && self.reads > 0 && self.unmatched > 0, "runs, reads and unmatched runs");
        out.want(self.longest == 60, "walks of 60 blocks");
        out.want(self.all > 0 && self.all < self.pictures, "pictures with few walks and with many");
        out.want(self.past_target > 0 && self.past_later > 0 && self.breaks > 0, "block 0 passed as a target and as a later part");
        out.want(self.breaks < self.led, "pictures where block 0 is led to and not passed");
        for (what, many) in SORTS.iter().zip(self.sorts) {
            out.want(many > 0, &format!("block 0 {what}"));
        }
        out.0
    }

    pub fn print(&self) {
        println!("pictures {} at the bounds {} moved {} rounds {} pairs with a number of rounds {}", self.pictures, self.at_bounds, self.moved, self.rounds, self.pairs);
        println!("walks {} longest {} runs {} unmatched {} reads {}", self.walks, self.longest, self.runs, self.unmatched, self.reads);
        println!("every walk up to a length: {:?}, and none is longer: {}", self.whole, self.all);
        println!("block 0 led to on purpose {}, of these moved {}", self.entered, self.entered_moved);
        for (what, many) in SORTS.iter().zip(self.sorts) {
            println!("  block 0 is {what} {many}");
        }
        println!("block 0 led to {}, passed by document 01 alone {}: rounds into it {} through it {}", self.led, self.past, self.past_target, self.past_later);
        println!("  that breaks the claim {}; what passes had come round {}, and the claim holds {}", self.breaks, self.came_round, self.spared);
        for f in self.faults.iter().take(20) {
            println!("fault: {f}");
        }
    }
}
