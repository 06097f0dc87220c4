//! The pass over lent slices held against the Rust, beyond the program's sizes: large generated pictures, copies of one up to
//! 32,768 instructions, chains of 800 and 801, the gate and the case tables at their sizes, and damaged ones. Compared are the number, the registers and operands in use,
//! every word of the picture and of the room past it, and for a refusal the work slices and the list of facts too.

use std::collections::BTreeMap;

use crate::accept;
use crate::boundary;
use crate::copies::{copies, spread};
use crate::damage::DAMAGES;
use crate::driver::Trace;
use crate::fact::Fact;
use crate::generate::{Size, bare, bare_entered};
use crate::missing::Missing;
use crate::oracle::{Answer, Lent, Outcome, oracle, oracle_with_work};
use crate::picture::{Picture, Work};
use crate::random::Random;
use crate::rooms::rooms;
use crate::tally::Tally;

/// The pass over slices, or something that stands for it: the picture, both work slices, the list of facts, and the registers and
/// operands in use after it.
pub trait Slices: FnMut(&mut Picture, &mut [u64], &mut [u32], &mut [Fact], &mut [u32]) -> u32 {}
impl<F: FnMut(&mut Picture, &mut [u64], &mut [u32], &mut [Fact], &mut [u32]) -> u32> Slices for F {}

#[derive(Default)]
pub struct Stats {
    pub pictures: usize,
    pub tally: Tally,
    /// those where a block leads to block 0, and where that changes the rounds
    pub entered: usize,
    pub parted: usize,
    /// runs by number
    pub runs: BTreeMap<u32, usize>,
    /// runs with a word of 64 or of 32 bits too few, or a record, and runs of accepted pictures with just as many records and with more
    pub short_work: [usize; 3],
    pub records: [usize; 2],
    /// the most instructions, blocks and registers in use that a picture with a round had
    pub most: [usize; 3],
    pub faults: Vec<String>,
}

pub fn large(n: usize, seed: u64, mut pass: impl Slices) -> Stats {
    let mut stats = Stats { pictures: n, ..Stats::default() };
    stats.long_chains(&mut pass);
    stats.long_lists(&mut pass);
    stats.largest(&mut pass);
    for k in 0..n {
        let this = seed.wrapping_mul(1_000_003).wrapping_add(k as u64);
        let mut rnd = Random::new(this ^ 0x1A46_E000);
        let mut one = if k % 8 == 2 { bare_entered(this, Size::Large) } else { bare(this, Size::Large) };
        if rnd.chance(25) {
            one = spread(&one, rnd.from_to(60, 2000), &mut rnd);
        }
        let p = match k % 8 {
            0..5 => one,
            5 | 6 => copies(&one, rnd.from_to(1000, 8000), rnd.from_to(1, 6)),
            _ => copies(&one, 32768, 8),
        };
        stats.accepted(&p, &format!("seed {this}, {} instructions", p.locs.len()), &mut rnd, &mut pass);
        let d = &DAMAGES[k % DAMAGES.len()];
        let mut q = p.clone();
        if (d.deed)(&mut q, &mut rnd) {
            stats.judge(&q, q.work(), &format!("seed {this}: {}", d.what), &mut pass);
        }
        let work = p.work();
        let less = [Work { w64: work.w64 - 1, ..work }, Work { w32: work.w32 - 1, ..work }, Work { records: work.records - 1, ..work }];
        stats.short_work[k % 3] += 1;
        stats.judge(&p, less[k % 3], &format!("seed {this}: short work"), &mut pass);
    }
    stats
}

/// A picture with this room; past what is in use lies what nobody may touch.
fn with_room(p: &Picture, (registers, operands): (usize, usize)) -> Picture {
    let mut q = p.clone();
    q.types.resize(registers, 77);
    q.ops.resize(operands, u32::MAX);
    q
}

impl Stats {
    /// One call, held against what it must give.
    fn run(&mut self, p: &Picture, work: Work, wanted: &Outcome, name: &str, pass: &mut impl Slices) {
        let number = wanted.answer.number();
        *self.runs.entry(number).or_default() += 1;
        // What lies in the work slices and in the list must not matter.
        let mut q = p.clone();
        let junk = Fact::junk(0x5A5A_A5A5_1234_5678);
        let (mut work64, mut work32, mut facts, mut out) = (vec![!0x5A5A; work.w64], vec![0xA5A5_A5A5; work.w32], vec![junk; work.records], [77; 2]);
        let found = pass(&mut q, &mut work64, &mut work32, &mut facts, &mut out);
        let mut fault = |what: String| {
            self.faults.push(format!("{name}, {} registers and {} operands lent: {what}", p.types.len(), p.ops.len()));
        };
        if found != number {
            fault(format!("the port answers {found}, not {number}"));
            return;
        }
        let refused = matches!(wanted.answer, Answer::Refused(_));
        if !refused {
            // The counts come apart from the slices.
            [q.regs, q.opers] = out;
        }
        if q != wanted.picture {
            fault(format!("the port's picture differs in {}", differs(&q, &wanted.picture)));
        }
        if refused && (work64.iter().any(|&w| w != !0x5A5A) || work32.iter().any(|&w| w != 0xA5A5_A5A5)) {
            fault("the port wrote in the work slices though it refuses".into());
        }
        if refused && facts.iter().any(|f| *f != junk) {
            fault("the port wrote in the list of facts though it refuses".into());
        }
        if refused && out != [77; 2] {
            fault("the port gives counts though it refuses".into());
        }
    }

    /// An accepted picture, with every room that says something.
    fn accepted(&mut self, p: &Picture, name: &str, rnd: &mut Random, pass: &mut impl Slices) -> Trace {
        let lent = Lent::new(p).expect("no more types than the Rust has");
        let trace = lent.wanted();
        self.entered += usize::from(p.leads_to_entry());
        self.parted += usize::from(lent.parts_from_document_01(&trace));
        let longest = trace.rounds.last().map_or(0, |r| r.after.operands.len());
        let most = (p.types.len() + 500, (p.ops.len() + 3000).max(longest + 1));
        for room in rooms(p, &trace, most, rnd) {
            let q = with_room(p, room);
            if q.types.len() < p.regs as usize || q.ops.len() < p.opers as usize || q.types.len() > 65536 || q.ops.len() > 131072 {
                continue;
            }
            let outcome = if accept::gated(&q) {
                Outcome { answer: Answer::Done(0), lines: Vec::new(), picture: q.clone() }
            } else {
                Lent::new(&q).expect("the same types").outcome(&trace)
            };
            self.tally.add(&q, &trace, outcome.answer);
            if !outcome.lines.is_empty() {
                let sizes = [p.locs.len(), p.nblocks(), p.regs as usize];
                self.most = [0, 1, 2].map(|k| self.most[k].max(sizes[k]));
            }
            // As long as they have to be, or longer.
            let (work, more) = (q.work(), rnd.below(3));
            let work = Work { w64: work.w64 + more, w32: work.w32 + more, records: work.records + more };
            self.records[more.min(1)] += 1;
            self.run(&q, work, &outcome, name, pass);
        }
        trace
    }

    /// Any picture as it is, with so much to work in.
    fn judge(&mut self, p: &Picture, work: Work, name: &str, pass: &mut impl Slices) {
        let outcome = oracle(p, work).expect("no more types than the Rust has");
        self.run(p, work, &outcome, name, pass);
    }

    /// Chains at the bound of 800 instructions, in one block and in six; a seventh block.
    fn long_chains(&mut self, pass: &mut impl Slices) {
        for (blocks, instructions, moved) in [(1, 799, 797), (1, 800, 798), (1, 801, 0), (6, 800, 793), (6, 801, 0), (7, 800, 0)] {
            let mut p = boundary::chain(blocks, instructions);
            p.types.truncate(p.regs as usize);
            p.ops.truncate(p.opers as usize);
            let name = format!("a chain of {instructions} in {blocks} blocks");
            let trace = self.accepted(&p, &name, &mut Random::new(1), pass);
            let found: usize = trace.rounds.iter().map(|r| r.moved).sum();
            if found != moved {
                self.faults.push(format!("{name}: the Rust moves {found}, not {moved}"));
            }
        }
    }

    /// A list that two members and a call in the target share, up to nearly the most operands that can be lent.
    fn long_lists(&mut self, pass: &mut impl Slices) {
        for n in [513, 3000, 26214] {
            let mut p = boundary::shared_list(n);
            p.types.truncate(p.regs as usize);
            p.ops.truncate(p.opers as usize);
            let name = format!("a list of {n} shared by two members and a call");
            let trace = self.accepted(&p, &name, &mut Random::new(1), pass);
            if trace.rounds.len() != 1 {
                self.faults.push(format!("{name}: the Rust has {} rounds, not one", trace.rounds.len()));
            }
        }
    }

    /// The gate and the case tables at their sizes, with more registers lent than in use too.
    fn largest(&mut self, pass: &mut impl Slices) {
        for (name, p, rounds) in boundary::largest() {
            self.accepted(&p, name, &mut Random::new(1), pass);
            let lent = with_room(&p, (p.types.len() + 88, p.ops.len()));
            let found = oracle_with_work(&lent).expect("few types").lines.len();
            if found != rounds {
                self.faults.push(format!("{name}: the Rust has {found} rounds, not {rounds}"));
            }
        }
    }

    /// What is missing, if the comparison is to be worth its while.
    pub fn missing(&self) -> Vec<String> {
        let mut out = Missing::default();
        out.want(self.faults.is_empty(), "no fault");
        out.want(self.tally.chains.keys().any(|&n| n > 1) && self.tally.moved > 0, "rounds, and chains of several blocks");
        out.want(self.entered > 0 && self.parted > 0, "pictures where a block leads to block 0, and where that changes the rounds");
        out.want(self.tally.after_one.iter().all(|n| *n > 0), "of pictures after one round: targets before x, empty ones, Sig, long shared lists");
        out.want(self.tally.short_registers > 0 && self.tally.short_operands > 0, "Short by one register and by one operand");
        out.want(self.short_work.iter().all(|n| *n > 0), "work slices a word short, and 799 records");
        out.want(self.records.iter().all(|n| *n > 0), "800 records, and more");
        out.want([0, 1, 8, 210].iter().all(|n| self.runs.contains_key(n)), "Done with 0, 1 and 8 rounds, refusal 10");
        out.want(self.most[0] > 30000, "a picture of more than 30,000 instructions that moves");
        out.0
    }

    pub fn print(&self) {
        println!("large: the pass over slices against the Rust, {} pictures, {} runs, {} differences", self.pictures, self.runs.values().sum::<usize>(), self.faults.len());
        println!("runs by number {:?}", self.runs);
        println!("short of a 64-bit word, a 32-bit word, a record {:?}; accepted with 800 records, with more {:?}", self.short_work, self.records);
        println!("pictures where a block leads to block 0 {}, of other rounds than document 01's {}", self.entered, self.parted);
        let [instructions, blocks, registers] = self.most;
        println!("at most, with a round: {instructions} instructions, {blocks} blocks, {registers} registers");
        println!("of those accepted, once for each room lent:");
        self.tally.print();
        for f in self.faults.iter().take(20) {
            println!("fault: {f}");
        }
    }
}

/// Which parts of two pictures are not the same.
pub fn differs(a: &Picture, b: &Picture) -> String {
    let parts = [
        ("bounds", a.bounds != b.bounds),
        ("records", a.recs != b.recs),
        ("locs", a.locs != b.locs),
        ("vias", a.vias != b.vias),
        ("types", a.types != b.types),
        ("registers in use", a.regs != b.regs),
        ("operands", a.ops != b.ops),
        ("operands in use", a.opers != b.opers),
    ];
    parts.iter().filter(|p| p.1).map(|p| p.0).collect::<Vec<_>>().join(", ")
}

#[cfg(test)]
mod tests {
    use super::*;

    /// The Rust itself in the place of the port, and with one word wrong.
    #[test]
    fn the_rust_agrees_with_itself_and_a_slip_is_found() {
        let rust = |p: &mut Picture, w64: &mut [u64], w32: &mut [u32], facts: &mut [Fact], out: &mut [u32]| {
            let outcome = oracle(p, Work { w64: w64.len(), w32: w32.len(), records: facts.len() }).expect("few types");
            *p = outcome.picture;
            if !matches!(outcome.answer, Answer::Refused(_)) {
                out.copy_from_slice(&[p.regs, p.opers]);
            }
            outcome.answer.number()
        };
        let stats = large(24, 1, rust);
        stats.print();
        assert_eq!(stats.missing(), Vec::<String>::new());
        let slip = |p: &mut Picture, w64: &mut [u64], w32: &mut [u32], facts: &mut [Fact], out: &mut [u32]| {
            let number = rust(p, w64, w32, facts, out);
            if let Some(last) = p.ops.last_mut() {
                *last ^= 1;
            }
            number
        };
        assert!(large(2, 1, slip).faults.len() > 2);
        // A mark in the list though the picture is refused; 799 records taken.
        let slip = |p: &mut Picture, w64: &mut [u64], w32: &mut [u32], facts: &mut [Fact], out: &mut [u32]| {
            let number = rust(p, w64, w32, facts, out);
            if number > 200 {
                facts[0].member ^= true;
            }
            number
        };
        assert!(!large(3, 1, slip).faults.is_empty());
        let slip = |p: &mut Picture, w64: &mut [u64], w32: &mut [u32], facts: &mut [Fact], out: &mut [u32]| {
            let mut more = vec![facts[0]; facts.len() + 1];
            rust(p, w64, w32, &mut more, out)
        };
        assert!(!large(3, 1, slip).faults.is_empty());
    }
}
