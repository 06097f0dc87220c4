//! The port's acceptance held against `accept.rs`: generated pictures, damaged ones, work slices one word short, a record too
//! few, and random words. Every picture lent is compared with a copy afterwards. Then the time of one scan of the largest picture.

use std::collections::BTreeMap;

use crate::accept;
use crate::damage::{DAMAGES, alter, any_words, damage_again};
use crate::generate::{Size, picture};
use crate::kinds::STMT;
use crate::picture::{Picture, Record, Work};
use crate::port;
use crate::random::Random;
use crate::selfcheck::size_of;
use crate::time::best;

/// Where a picture comes from.
#[derive(Clone, Copy, PartialEq, Eq, PartialOrd, Ord, Debug)]
pub enum Source {
    Generated,
    Damaged,
    DamagedTwice,
    ShortWork,
    FewRecords,
    Altered,
    Random,
}

#[derive(Default)]
pub struct Stats {
    /// runs by cause and source
    pub runs: BTreeMap<(u32, Source), usize>,
    /// runs that the port refuses with 11, which request 2026-11 took away
    pub elevens: usize,
    pub faults: Vec<String>,
}

pub fn refusals(n: usize, seed: u64) -> Stats {
    let mut stats = Stats::default();
    for k in 0..n {
        let this = seed.wrapping_mul(1_000_003).wrapping_add(k as u64);
        let mut rnd = Random::new(this ^ 0x4EF0_5A15);
        let p = picture(this, size_of(k));
        let name = format!("seed {this}");
        let work = p.work();
        stats.compare(Source::Generated, &p, work, &name);
        for short in short_work(work) {
            stats.compare(Source::ShortWork, &p, short, &name);
        }
        stats.compare(Source::FewRecords, &p, few_records(work), &name);
        for d in DAMAGES {
            let mut q = p.clone();
            if !(d.deed)(&mut q, &mut rnd) {
                continue;
            }
            let work = q.work();
            stats.compare(Source::Damaged, &q, work, &format!("{name}: {}", d.what));
            // A second cause, and perhaps too little to work in: the lowest number is the answer.
            if let Some(what) = damage_again(&mut q, d, &mut rnd) {
                let work = some_work(&q, &mut rnd);
                stats.compare(Source::DamagedTwice, &q, work, &format!("{name}: {}, {what}", d.what));
            }
        }
        for _ in 0..40 {
            let mut q = p.clone();
            for _ in 0..rnd.from_to(1, 3) {
                alter(&mut q, &mut rnd);
            }
            let work = some_work(&q, &mut rnd);
            stats.compare(Source::Altered, &q, work, &name);
            let q = any_words(&mut rnd);
            let work = some_work(&q, &mut rnd);
            stats.compare(Source::Random, &q, work, &name);
        }
    }
    stats
}

/// One word short in the one and in the other.
fn short_work(work: Work) -> Vec<Work> {
    let mut out = vec![Work { w32: work.w32 - 1, ..work }];
    if work.w64 > 0 {
        out.push(Work { w64: work.w64 - 1, ..work });
    }
    out
}

/// One record too few: 799.
fn few_records(work: Work) -> Work {
    Work { records: work.records - 1, ..work }
}

/// Mostly just enough, else one word short or one record too few.
fn some_work(p: &Picture, rnd: &mut Random) -> Work {
    let enough = p.work();
    let mut less = short_work(enough);
    less.push(few_records(enough));
    if rnd.chance(75) { enough } else { rnd.pick(&less) }
}

impl Stats {
    fn compare(&mut self, source: Source, p: &Picture, work: Work, name: &str) {
        let copy = p.clone();
        let (port, wanted) = (port::refusal(p, work), accept::refusal(&copy, work));
        if port != wanted {
            self.faults.push(format!("{name} ({source:?}): the port refuses with {port}, not {wanted}"));
        }
        if *p != copy {
            self.faults.push(format!("{name} ({source:?}): the port changed what it was lent"));
        }
        *self.runs.entry((wanted, source)).or_default() += 1;
        self.elevens += usize::from(port == 11);
    }

    fn of(&self, cause: u32, source: Source) -> usize {
        self.runs.get(&(cause, source)).copied().unwrap_or(0)
    }

    /// What is missing, if the comparison is to be worth its while.
    pub fn missing(&self) -> Vec<String> {
        let mut out = Vec::new();
        if !self.faults.is_empty() {
            out.push("no fault".to_string());
        }
        if self.elevens > 0 {
            out.push(format!("11 never, and not {} times", self.elevens));
        }
        let wanted = (0..=9).map(|cause| (cause, Source::Damaged)).chain([(0, Source::Generated), (10, Source::ShortWork), (10, Source::FewRecords)]);
        for (cause, source) in wanted {
            if self.of(cause, source) == 0 {
                out.push(format!("cause {cause} among those {source:?}"));
            }
        }
        out
    }

    pub fn print(&self) {
        let sources =
            [Source::Generated, Source::Damaged, Source::DamagedTwice, Source::ShortWork, Source::FewRecords, Source::Altered, Source::Random];
        println!("refusals: the port against accept.rs, {} runs, {} differences", self.runs.values().sum::<usize>(), self.faults.len());
        println!("cause {}", sources.map(|s| format!("{s:?}")).map(|s| format!("{s:>13}")).join(""));
        for cause in 0..=10 {
            println!("{cause:5} {}", sources.map(|s| format!("{:13}", self.of(cause, s))).join(""));
        }
        println!("   11: {}", if self.elevens == 0 { "never".to_string() } else { format!("{} runs", self.elevens) });
        for f in self.faults.iter().take(20) {
            println!("fault: {f}");
        }
    }
}

/// Of some large generated pictures the one with the longest blocks.
pub fn long_blocks(seed: u64) -> Picture {
    let some = (0..40).map(|k| picture(seed.wrapping_add(k), Size::Large));
    some.max_by_key(|p| 1000 * p.locs.len() / p.nblocks()).expect("forty pictures")
}

/// A picture as large as any that is accepted: the code of a generated one again and again.
pub fn largest(seed: u64) -> Picture {
    let p = long_blocks(seed);
    let of = p.blocks();
    let mut blocks: Vec<Vec<Record>> = Vec::new();
    let mut left = 32768;
    while blocks.len() < 4095 {
        let block = &of[blocks.len() % of.len()];
        if block.len() > left {
            break;
        }
        left -= block.len();
        blocks.push(block.clone());
    }
    blocks.push(vec![Record::new(STMT, 0, &[], (0, 0), &[]); left]);
    let mut q = Picture::of_blocks(&blocks);
    let end = q.locs.len() as u32;
    q.bounds.resize(2 * 4096, end);
    q.vias = vec![0; q.locs.len()];
    (q.types, q.ops, q.pairs, q.targets) = (p.types, p.ops, p.pairs, p.targets);
    q.types.truncate(p.regs as usize);
    q.types.resize(65536, 0);
    q.ops.truncate(p.opers as usize);
    q.ops.resize(131072, 0);
    while q.pairs.len() < 65536 {
        q.pairs.extend([0, 1]);
    }
    q.targets.resize(65536, 0);
    (q.regs, q.opers) = (65536, 131072);
    q
}

/// The time of one scan of the largest picture, which lies there already, warm.
pub fn print_time(seed: u64) {
    let p = largest(seed);
    let work = p.work();
    assert_eq!((accept::refusal(&p, work), port::refusal(&p, work)), (0, 0), "the largest picture is accepted");
    let port = best(50, || &p, |p| port::refusal(p, work));
    let own = best(10, || &p, |p| accept::refusal(p, work));
    println!(
        "a scan of {} instructions in {} blocks: the port {port:.3} ms, accept.rs {own:.3} ms, at best",
        p.locs.len(),
        p.nblocks()
    );
}
