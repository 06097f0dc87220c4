//! The oracle held against itself over generated pictures: round by round against `sink_all` and `run`, as they are and with
//! lengthened facts; and what the pictures were like, so that a poor generator does not go unseen.

use std::collections::BTreeMap;

use crate::accept;
use crate::bytes;
use crate::damage::DAMAGES;
use crate::driver::{Entry, Facts, Pass, Trace};
use crate::generate::{Size, picture};
use crate::missing::Missing;
use crate::oracle::{Answer, Lent, oracle, oracle_with_work};
use crate::picture::{Picture, Work};
use crate::random::Random;
use crate::rules::Chain;
use crate::tally::Tally;

#[derive(Default)]
pub struct Stats {
    pub tally: Tally,
    /// damaged pictures that are still accepted and stop at a gate
    pub past_gates: usize,
    /// pictures on which the Rust as it is stops by itself
    pub stopped: usize,
    pub run_compared: usize,
    pub damages: BTreeMap<u32, usize>,
    pub faults: Vec<String>,
}

/// The size of picture number `k`: mostly small and medium ones.
pub fn size_of(k: usize) -> Size {
    match k % 20 {
        0..8 => Size::Small,
        8..19 => Size::Medium,
        _ => Size::Large,
    }
}

pub fn selfcheck(n: usize, seed: u64) -> Stats {
    let mut stats = Stats::default();
    for k in 0..n {
        let this = seed.wrapping_mul(1_000_003).wrapping_add(k as u64);
        let p = picture(this, size_of(k));
        check(&mut stats, &p, &format!("seed {this} {:?}", size_of(k)));
        let every = DAMAGES[k % DAMAGES.len()..=k % DAMAGES.len()].iter().chain(if k < 20 { DAMAGES } else { &[] });
        for d in every {
            let mut q = p.clone();
            if !(d.deed)(&mut q, &mut Random::new(this)) {
                continue;
            }
            let found = accept::refusal(&q, q.work());
            if found == d.cause {
                *stats.damages.entry(d.cause).or_default() += 1;
            } else {
                stats.faults.push(format!("seed {this}: {}: refusal {found}, not {}", d.what, d.cause));
            }
            // What is still accepted goes through the pass as well.
            if found == 0 {
                let mut apart = Stats::default();
                check(&mut apart, &q, &format!("seed {this}: {}", d.what));
                stats.faults.append(&mut apart.faults);
                stats.past_gates += apart.tally.gated;
            }
        }
        // Work slices one word too short are cause 10, and 799 records.
        let work = p.work();
        for less in [Work { w64: work.w64.saturating_sub(1), ..work }, Work { w32: work.w32 - 1, ..work }, Work { records: 799, ..work }] {
            let answer = oracle(&p, less).map(|o| o.answer);
            if less != work && answer != Some(Answer::Refused(10)) {
                stats.faults.push(format!("seed {this}: {less:?} gives {answer:?}"));
            }
        }
    }
    stats
}

fn same_rounds(a: &Trace, b: &Trace, lent: &Lent) -> bool {
    a.rounds.iter().zip(&b.rounds).all(|(p, q)| {
        (p.from, p.into, p.moved) == (q.from, q.into, q.moved) && lent.picture_of(&p.after) == lent.picture_of(&q.after)
    })
}

/// The rounds with facts lengthened and as they are, one by one and by `sink_all`; `None` where the former stop.
fn rounds_agree(p: &Picture, lent: &Lent, entry: Entry, fault: &mut impl FnMut(&str)) -> Option<[Trace; 2]> {
    let long = lent.rounds(Facts::Lengthened, entry);
    let short = lent.rounds(Facts::AsRun, entry);
    if long.stopped {
        fault("the Rust stops though the facts are lengthened");
        return None;
    }
    if !same_rounds(&long, &short, lent) || (!short.stopped && long.rounds.len() != short.rounds.len()) {
        fault("lengthened facts change the rounds");
    }
    for (trace, facts) in [(&long, Facts::Lengthened), (&short, Facts::AsRun)] {
        let end = trace.rounds.last().map_or(p.clone(), |r| lent.picture_of(&r.after));
        match lent.sink_all(facts, entry) {
            None if !trace.stopped => fault("sink_all stops by itself"),
            Some(_) if trace.stopped => fault("sink_all does not stop"),
            Some((changed, state)) if changed == trace.rounds.is_empty() || lent.picture_of(&state) != end => {
                fault("sink_all ends otherwise")
            }
            _ => {}
        }
    }
    Some([long, short])
}

fn check(stats: &mut Stats, p: &Picture, name: &str) {
    let mut fault = |what: &str| stats.faults.push(format!("{name}: {what}"));
    let work = p.work();
    if accept::refusal(p, work) != 0 {
        fault("is refused");
        return;
    }
    let lent = Lent::new(p).expect("no more types than the Rust has");
    // Document 01's rounds, and where a block leads to block 0 those of request 2026-02 too.
    let Some([long, short]) = rounds_agree(p, &lent, Entry::Blocks, &mut fault) else { return };
    let wanted = if lent.entry == Entry::Blocks { None } else { rounds_agree(p, &lent, lent.entry, &mut fault) };
    if p.replay.is_empty() && !short.stopped {
        stats.run_compared += 1;
        match Pass::run(&lent.program, &lent.function) {
            None => fault("run stops by itself"),
            Some((changed, f)) => {
                let gated = accept::gated(p);
                let state = crate::driver::State {
                    code: f.blocks.values().map(|b| f.code[b.start as usize..b.end as usize].to_vec()).collect(),
                    loc: f.blocks.values().map(|b| f.loc[b.start as usize..b.end as usize].to_vec()).collect(),
                    via: f
                        .blocks
                        .values()
                        .map(|b| f.via.get(b.start as usize..b.end as usize).unwrap_or(&[]).to_vec())
                        .collect(),
                    operands: f.operands.clone(),
                    reg_ty: f.reg_ty.clone(),
                };
                let end = match short.rounds.last() {
                    Some(r) if !gated => lent.picture_of(&r.after),
                    _ => p.clone(),
                };
                if changed != (!gated && !short.rounds.is_empty()) || lent.picture_of(&state) != end {
                    fault("run ends otherwise");
                }
            }
        }
    }
    // What the overview tells is what the first round does, and the six rules give the set that `plan` found.
    if let Some(first) = long.rounds.first() {
        let overview = lent.overview(Entry::Blocks);
        if let Some(look) = &overview.looks[first.from] {
            let other = if first.into == look.t { look.f } else { look.t };
            if Chain::new(p, &overview, first.from, look, first.into, other).greatest(None) != look.set {
                fault("the six rules give another set");
            }
        }
        let told = overview.looks[first.from].as_ref().map(|l| (l.target, l.set.iter().filter(|m| **m).count(), l.blocks.len()));
        if told != Some((Some(first.into), first.moved, first.chain.len())) {
            fault("the overview tells of another first round");
        }
    }
    let outcome = oracle_with_work(p).expect("no more types than the Rust has");
    let counts = [p.nblocks(), p.locs.len(), p.types.len(), p.ops.len(), p.pairs.len(), p.targets.len(), p.replay.len(), p.vias.len()];
    if counts.iter().zip(bytes::SIZES).all(|(&n, most)| n <= most) {
        let mut q = bytes::from_bytes(&bytes::to_bytes(p), p.types.len(), p.ops.len());
        if let Some(q) = &mut q {
            q.types[p.regs as usize..].copy_from_slice(&p.types[p.regs as usize..]);
            q.ops[p.opers as usize..].copy_from_slice(&p.ops[p.opers as usize..]);
        }
        if q.as_ref() != Some(p) {
            fault("the bytes are another picture");
        }
    }
    if accept::refusal(&outcome.picture, work) != 0 {
        fault("what is left is refused");
    }
    stats.stopped += usize::from(short.stopped);
    stats.tally.add(p, &wanted.map_or(long, |[w, _]| w), outcome.answer);
}

impl Stats {
    /// What is missing, if the pictures are to be worth their while.
    pub fn missing(&self) -> Vec<String> {
        let mut out = Missing(self.tally.missing());
        out.want(self.faults.is_empty(), "no fault");
        out.want(self.past_gates > 0, "gates");
        out.want(self.run_compared > 0, "pictures without replay");
        out.want((0..=9).all(|c| self.damages.contains_key(&c)), "damages for causes 1 to 9 and at their bounds");
        out.0
    }

    pub fn print(&self) {
        self.tally.print();
        println!("of the damaged ones gated {}", self.past_gates);
        println!("the Rust stops on a new register's fact {}", self.stopped);
        println!("compared with run {}", self.run_compared);
        println!("damages by cause {:?}", self.damages);
        for f in self.faults.iter().take(20) {
            println!("fault: {f}");
        }
    }
}
