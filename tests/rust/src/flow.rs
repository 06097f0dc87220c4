//! The port's predecessors and live-in held against the Rust's `find_preds`, with the start of the function as one of block 0
//! (request 2026-02), and `liveness`, bit for bit: generated pictures, and damaged ones, of which the port leaves the slice that it
//! is to write as it was. Then the times of both.

use std::collections::BTreeMap;

use crate::accept;
use crate::copies::copies;
use crate::damage::DAMAGES;
use crate::driver::{Entry, Flow, Pass};
use crate::generate::{Size, picture};
use crate::kinds::{BR, RET, STMT};
use crate::missing::Missing;
use crate::oracle::Lent;
use crate::picture::{Picture, Record};
use crate::port;
use crate::random::Random;
use crate::refusals::long_blocks;
use crate::selfcheck::size_of;
use crate::time::best;

#[derive(Default)]
pub struct Stats {
    pub pictures: usize,
    pub refused: usize,
    pub blocks: usize,
    /// blocks by the number of their predecessors, up to two
    pub preds: BTreeMap<usize, usize>,
    /// bits compared, and those set
    pub bits: usize,
    pub live: usize,
    /// blocks that a later one goes to
    pub back: usize,
    pub faults: Vec<String>,
}

pub fn flow(n: usize, seed: u64) -> Stats {
    let mut stats = Stats::default();
    for k in 0..n {
        let this = seed.wrapping_mul(1_000_003).wrapping_add(k as u64);
        let mut rnd = Random::new(this ^ 0xF10_0F10);
        let p = picture(this, size_of(k));
        stats.compare(&p, &format!("seed {this}"), &mut rnd);
        let d = &DAMAGES[k % DAMAGES.len()];
        let mut q = p.clone();
        if (d.deed)(&mut q, &mut rnd) {
            stats.compare(&q, &format!("seed {this}: {}", d.what), &mut rnd);
        }
    }
    stats
}

impl Stats {
    fn compare(&mut self, p: &Picture, name: &str, rnd: &mut Random) {
        let work = p.work();
        let wanted = accept::refusal(p, work);
        let copy = p.clone();
        // What lies in the lent slices must not matter.
        let junk = rnd.word();
        let (mut words, mut bits) = (vec![junk as u32; work.w32], vec![junk; work.w64]);
        let mut rows = bits.clone();
        let found = [("preds", port::preds(&mut words, p, work)), ("live", port::live(&mut bits, p, work)), ("rows", port::rows(&mut rows, p, work))];
        for (what, found) in found {
            if found != wanted {
                self.faults.push(format!("{name}: {what} is refused with {found}, not {wanted}"));
                return;
            }
        }
        if *p != copy {
            self.faults.push(format!("{name}: the port changed the picture"));
        }
        if wanted != 0 {
            self.refused += 1;
            if words.iter().any(|&w| w != junk as u32) || bits.iter().chain(&rows).any(|&w| w != junk) {
                self.faults.push(format!("{name}: the port wrote though it refuses"));
            }
            return;
        }
        let Some(lent) = Lent::new(&copy) else { return };
        let rust = Pass::flow(&lent.program, &lent.function, Entry::Start);
        self.pictures += 1;
        self.same_preds(p, &rust, &words, name);
        self.same_rows(p, &rust, &bits, name);
        // Live-in is not made yet, and when it is, all behind it stays.
        let live = p.nblocks() * (p.regs as usize).div_ceil(64);
        if rows[..live].iter().any(|&w| w != junk) || rows[live..] != bits[live..] {
            self.faults.push(format!("{name}: the rows that live-in begins with"));
        }
    }

    fn same_preds(&mut self, p: &Picture, rust: &Flow, words: &[u32], name: &str) {
        for b in 0..p.nblocks() {
            let preds = &rust.preds[b];
            let many = preds.len().min(2);
            if words[2 * b..2 * b + 2] != [many as u32, preds.first().copied().unwrap_or(0)] {
                self.faults.push(format!("{name}: predecessors of block {b}"));
            }
            self.blocks += 1;
            *self.preds.entry(many).or_default() += 1;
            self.back += usize::from(preds.iter().any(|&c| (b..p.nblocks()).contains(&(c as usize))));
        }
    }

    fn same_rows(&mut self, p: &Picture, rust: &Flow, bits: &[u64], name: &str) {
        let w = (p.regs as usize).div_ceil(64);
        for b in 0..p.nblocks() {
            for (k, &word) in bits[b * w..(b + 1) * w].iter().enumerate() {
                // The Rust's rows have a bit for each register in use; past those nothing is live.
                if word != rust.live_in[b].get(k).copied().unwrap_or(0) {
                    self.faults.push(format!("{name}: live-in of block {b}, word {k}"));
                }
                self.live += word.count_ones() as usize;
            }
            self.bits += 64 * w;
        }
    }

    /// What is missing, if the comparison is to be worth its while.
    pub fn missing(&self) -> Vec<String> {
        let mut out = Missing::default();
        out.want(self.faults.is_empty(), "no fault");
        out.want(self.pictures > 0 && self.refused > 0, "accepted and refused pictures");
        out.want((0..=2).all(|n| self.preds.contains_key(&n)), "blocks of none, one and more predecessors");
        out.want(self.live > 0 && self.back > 0, "registers that are live, and edges that go back");
        out.0
    }

    pub fn print(&self) {
        println!("flow: the port against find_preds and liveness, {} pictures, {} differences", self.pictures, self.faults.len());
        println!("refused, nothing written {}", self.refused);
        println!("blocks {} by predecessors up to two {:?} with an edge from behind {}", self.blocks, self.preds, self.back);
        println!("bits of live-in {} set {}", self.bits, self.live);
        for f in self.faults.iter().take(20) {
            println!("fault: {f}");
        }
    }
}

/// Blocks that go from one to the next, up or down, the last of which reads all registers: what is live goes through all.
pub fn chain(blocks: usize, regs: u32, down: bool) -> Picture {
    let mut of: Vec<Vec<Record>> = Vec::new();
    for b in 0..blocks {
        let next = if down { b.checked_sub(1) } else { Some(b + 1).filter(|n| *n < blocks) };
        of.push(match next {
            Some(n) => vec![Record::new(STMT, 0, &[], (0, 0), &[]), Record::new(BR, 0, &[], (0, 0), &[n as u32])],
            None => (0..regs).map(|r| Record::new(RET, 0, &[r], (0, 0), &[])).collect(),
        });
    }
    let mut p = Picture::of_blocks(&of);
    p.types = vec![0; regs as usize];
    p.regs = regs;
    p
}

/// The times of both on one picture, in a line.
fn print_time(what: &str, p: &Picture) {
    let work = p.work();
    assert_eq!(accept::refusal(p, work), 0, "a picture to be timed is accepted");
    let lent = Lent::new(p).expect("few types");
    let rust = Pass::live_time(&lent.program, &lent.function, RUNS);
    let port = best(RUNS, || vec![!0; work.w64], |mut bits| (port::live(&mut bits, p, work), bits));
    let scan = best(RUNS, || p, |p| port::refusal(p, work));
    let (insts, blocks, alone) = (p.locs.len(), p.nblocks(), port - scan);
    println!("{what:<12}{insts:>7}{blocks:>7}{:>7} |{rust:>9.3}{port:>9.3}{scan:>9.3} |{:>8.2}{:>8.2}", p.regs, port / rust, alone / rust);
}

const RUNS: usize = 15;

/// Both sides in one run, release builds. The port's slice is made before its time begins and holds other words; the Rust
/// makes its vectors as it goes. The port's function begins with acceptance, which is timed by itself too.
pub fn print_times(seed: u64) {
    println!("live-in in milliseconds, best of {RUNS}; ratios of the port to the Rust with acceptance and without");
    println!("{:<12}{:>7}{:>7}{:>7} |{:>9}{:>9}{:>9} |{:>8}{:>8}", "", "insts", "blocks", "regs", "rust", "port", "accept", "with", "without");
    let short = picture(seed, Size::Large);
    for (instructions, groups) in [(500, 1), (2000, 4), (8000, 8), (32768, 8)] {
        print_time("short blocks", &copies(&short, instructions, groups));
    }
    let long = long_blocks(seed);
    for (instructions, groups) in [(8000, 1), (32768, 8)] {
        print_time("long blocks", &copies(&long, instructions, groups));
    }
    // The Rust's rows are as wide as the registers in use, the port's as those lent.
    let mut lent = copies(&short, 2000, 4);
    lent.types.resize(65536, 0);
    print_time("65,536 lent", &lent);
    for down in [false, true] {
        for blocks in [256, 1024, 4096] {
            print_time(if down { "chain down" } else { "chain up" }, &chain(blocks, 512, down));
        }
    }
}
