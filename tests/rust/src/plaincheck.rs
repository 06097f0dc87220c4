//! The plain check (`src/plain/`) held against the Rust: without the requests of document 02 on every picture, and with request
//! 2026-02 where no block leads to block 0, and against the Rust told of one more predecessor everywhere.

use std::collections::BTreeMap;

use crate::accept;
use crate::boundary;
use crate::copies::{copies, spread};
use crate::damage::DAMAGES;
use crate::driver::{Entry, Facts, Trace};
use crate::facts::{REGS, VALUES, single};
use crate::generate::{Size, bare, bare_entered, entered, picture};
use crate::kinds::{KINDS, LOAD};
use crate::missing::Missing;
use crate::oracle::Lent;
use crate::picture::{Picture, Record};
use crate::plain::{Requests, Round};
use crate::random::Random;
use crate::selfcheck::size_of;

/// What is held against the Rust: `plain::rounds`, or something that must be told from it.
pub trait Plain: Fn(&Picture, Requests) -> Vec<Round> {}
impl<F: Fn(&Picture, Requests) -> Vec<Round>> Plain for F {}

#[derive(Clone, Copy, PartialEq, Eq, PartialOrd, Ord, Debug)]
pub enum Source {
    Generated,
    Entered,
    Damaged,
    Boundary,
    Single,
    Large,
}

#[derive(Default)]
pub struct Stats {
    pub pictures: BTreeMap<Source, usize>,
    /// rounds by document 01, and with the request
    pub rounds: [usize; 2],
    /// pictures where a block leads to block 0
    pub entered: usize,
    /// those of them where the request changes the rounds
    pub changed: usize,
    /// those where block 0 is a target by document 01, or a later part of a chain, and is not with the request
    pub target: usize,
    pub part: usize,
    /// those where a round begins at block 0 with the request
    pub begun: usize,
    /// with more types than the Rust has
    pub unlike: usize,
    /// instructions of the largest with a round
    pub most: usize,
    pub faults: Vec<String>,
}

pub fn plaincheck(n: usize, seed: u64, plain: impl Plain) -> Stats {
    let mut stats = Stats::default();
    let large = [(1, 800), (1, 801), (6, 800), (6, 801)].map(|(b, n)| (format!("a chain of {n} in {b} blocks"), boundary::chain(b, n)));
    let largest = boundary::largest().into_iter().map(|(name, p, _)| (name.into(), p));
    for (name, p) in boundary::boundaries().into_iter().map(|b| (b.name, b.picture)).chain(large).chain(largest) {
        if accept::refusal(&p, p.work()) == 0 {
            stats.check(Source::Boundary, &p, &name, &plain);
        }
    }
    // Each kind and form over registers of each origin.
    for (k, kind) in KINDS.iter().enumerate() {
        for form in kind.forms.0..=kind.forms.1 {
            for first in 0..VALUES {
                stats.check(Source::Single, &alone(k as u32, form, first), &format!("{} at form {form}, register {first}", kind.name), &plain);
            }
        }
    }
    for k in 0..n.div_ceil(200) {
        let mut rnd = Random::new(seed.wrapping_mul(1_000_003).wrapping_add(k as u64) ^ 0x91A1_A000);
        let one = if rnd.chance(50) { bare(rnd.word(), Size::Large) } else { bare_entered(rnd.word(), Size::Large) };
        for (what, p) in [("copies", copies(&one, rnd.from_to(1000, 8000), 4)), ("registers spread", spread(&one, rnd.from_to(60, 2000), &mut rnd))] {
            stats.check(Source::Large, &p, &format!("large {k}, {what}"), &plain);
        }
    }
    for k in 0..n {
        let this = seed.wrapping_mul(1_000_003).wrapping_add(k as u64);
        let name = format!("seed {this} {:?}", size_of(k));
        let p = picture(this, size_of(k));
        stats.check(Source::Generated, &p, &name, &plain);
        stats.check(Source::Entered, &entered(this, size_of(k)), &format!("{name}, entered"), &plain);
        let every = DAMAGES[k % DAMAGES.len()..=k % DAMAGES.len()].iter().chain(if k < 20 { DAMAGES } else { &[] });
        for d in every {
            let mut q = p.clone();
            if (d.deed)(&mut q, &mut Random::new(this)) && accept::refusal(&q, q.work()) == 0 {
                stats.check(Source::Damaged, &q, &format!("{name}, {}", d.what), &plain);
            }
        }
    }
    stats
}

impl Stats {
    fn check(&mut self, source: Source, p: &Picture, name: &str, plain: &impl Plain) {
        let Some(lent) = Lent::new(p) else {
            self.unlike += 1;
            return;
        };
        *self.pictures.entry(source).or_default() += 1;
        let (off, on) = (plain(p, Requests::NONE), plain(p, Requests { entry_has_caller: true }));
        self.count(p, &off, &on);
        for (rounds, entry) in [(&off, Entry::Blocks), (&on, Entry::Start)] {
            if let Some(what) = differs(&lent, rounds, &lent.rounds(Facts::Lengthened, entry)) {
                self.faults.push(format!("{name}, against {entry:?}: {what}"));
            }
        }
        if !p.leads_to_entry() && on != off {
            self.faults.push(format!("{name}: the request changes the rounds though no block leads to block 0"));
        }
    }

    fn count(&mut self, p: &Picture, off: &[Round], on: &[Round]) {
        self.rounds[0] += off.len();
        self.rounds[1] += on.len();
        if !off.is_empty() {
            self.most = self.most.max(p.locs.len());
        }
        if !p.leads_to_entry() {
            return;
        }
        let only_off = |shows: fn(&Round) -> bool| usize::from(off.iter().any(shows) && !on.iter().any(shows));
        self.entered += 1;
        self.changed += usize::from(on != off);
        self.target += only_off(|r| r.into == 0);
        self.part += only_off(|r| r.chain[1..].contains(&0));
        self.begun += usize::from(on.iter().any(|r| r.from == 0));
    }

    /// What is missing, if the comparison is to be worth its while.
    pub fn missing(&self) -> Vec<String> {
        let mut out = Missing::default();
        out.want(self.faults.is_empty(), "no fault");
        out.want(self.pictures.len() == 6, "generated, entered, damaged and large pictures, those at the bounds, and each kind alone");
        out.want(self.rounds[0] > 0 && self.rounds[1] > 0, "rounds");
        out.want(self.entered > 0, "pictures where a block leads to block 0");
        out.want(self.changed > 0, "pictures where the request changes the rounds");
        out.want(self.target > 0, "block 0 refused as a target");
        out.want(self.part > 0, "block 0 refused as a later part of a chain");
        out.want(self.begun > 0, "block 0 as a beginning though a block leads to it");
        out.0
    }

    pub fn print(&self) {
        println!("pictures {:?}, the largest that moves {}, with too many types {}", self.pictures, self.most, self.unlike);
        println!("rounds by document 01 {} with the request {}", self.rounds[0], self.rounds[1]);
        println!("a block leads to block 0 {}: the request changes the rounds {}", self.entered, self.changed);
        println!("block 0 refused as a target {} as a part {} taken as a beginning {}", self.target, self.part, self.begun);
        println!("faults {}", self.faults.len());
        for f in self.faults.iter().take(20) {
            println!("fault: {f}");
        }
    }
}

/// An instruction of a kind and form, behind members that it may stop: an image, a new block and a read of it, a Cat.
fn alone(kind: u32, form: u32, first: u32) -> Picture {
    let p = single(kind, form, first, (first + 3) % VALUES);
    let mut blocks = p.blocks();
    blocks[0].insert(8, Record::new(LOAD, 3, &[REGS - 2, 5], (0, 0), &[]));
    let of = Picture::of_blocks(&blocks);
    Picture { bounds: of.bounds, recs: of.recs, locs: of.locs, replay: vec![1], ..p }
}

/// The first thing in which these rounds are not the Rust's.
fn differs(lent: &Lent, rounds: &[Round], trace: &Trace) -> Option<String> {
    let mut places: Vec<u32> = (0..lent.picture.locs.len() as u32).collect();
    for (k, (a, b)) in rounds.iter().zip(&trace.rounds).enumerate() {
        let (found, wanted) = ((a.from, a.into, a.members.len(), a.chain.clone()), (b.from, b.into, b.moved, b.chain.clone()));
        if found != wanted {
            return Some(format!("round {}: from, into, moved and chain {found:?} in place of {wanted:?}", k + 1));
        }
        if a.after != lent.picture_of(&b.after) {
            return Some(format!("round {} leaves another picture", k + 1));
        }
        places = a.was.iter().map(|&was| places[was]).collect();
        if !places.iter().eq(b.after.loc.iter().flatten().map(|id| &id.place)) {
            return Some(format!("round {} takes the instructions from elsewhere", k + 1));
        }
    }
    (rounds.len() != trace.rounds.len() || trace.stopped).then(|| format!("{} rounds in place of {}", rounds.len(), trace.rounds.len()))
}

#[cfg(test)]
mod tests {
    use super::*;
    use crate::plain::{rounds, rounds_but};

    #[test]
    fn the_rust_and_the_plain_check_agree() {
        assert_eq!(plaincheck(60, 2, rounds).missing(), Vec::<String>::new());
    }

    #[test]
    fn a_request_forgotten_is_found() {
        let off = plaincheck(20, 1, |p: &Picture, _| rounds(p, Requests::NONE));
        assert!(off.faults.iter().all(|f| f.contains("against Start")) && off.faults.len() > 3);
        let on = plaincheck(20, 1, |p: &Picture, _| rounds(p, Requests::ALL));
        assert!(on.faults.iter().all(|f| f.contains("against Blocks")) && on.faults.len() > 3);
    }

    #[test]
    fn each_rule_left_out_is_found() {
        for rule in 1..=6 {
            let stats = plaincheck(20, 1, |p: &Picture, with| rounds_but(p, with, Some(rule)));
            assert!(!stats.faults.is_empty(), "rule {rule} decides nothing");
        }
    }

    /// In the Rust's types, and by the places of the picture lent, the rounds of the plain check are what they were.
    #[test]
    fn the_port_is_held_to_the_plain_check() {
        for seed in 1..100 {
            let p = entered(seed, size_of(seed as usize));
            let lent = Lent::new(&p).expect("no more types than the Rust has");
            let with = if p.leads_to_entry() { Requests::ALL } else { Requests::NONE };
            assert_eq!(differs(&lent, &rounds(&p, with), &lent.wanted()), None, "seed {seed}");
            assert_eq!(differs(&lent, &rounds(&p, Requests::ALL), &lent.traced(rounds(&p, Requests::ALL))), None, "seed {seed}");
        }
    }

    /// Each part of a round, wrong in the last one.
    #[test]
    fn a_slip_in_a_round_is_found() {
        let slips: [fn(&mut Round); 12] = [
            |r| r.from += 1,
            |r| r.into += 1,
            |r| r.chain.push(0),
            |r| r.members.push(0),
            |r| r.was.swap(0, 1),
            |r| r.after.recs[2] ^= 1,
            |r| r.after.bounds[1] += 1,
            |r| r.after.locs[0] ^= 1,
            |r| r.after.vias.clear(),
            |r| r.after.types.push(7),
            |r| r.after.regs -= 1,
            |r| r.after.opers += 1,
        ];
        for (k, slip) in slips.iter().enumerate() {
            let slipped = |p: &Picture, with| {
                let mut all = rounds(p, with);
                all.last_mut().map(slip);
                all
            };
            assert!(!plaincheck(12, 1, slipped).faults.is_empty(), "slip {k} is not found");
        }
        let fewer = |p: &Picture, with| rounds(p, with).into_iter().take(7).collect();
        assert!(!plaincheck(12, 1, fewer).faults.is_empty(), "a round too few is not found");
    }
}
