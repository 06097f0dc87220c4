//! What the port's search from a block leaves held against the Rust's `analyse` and `plan` before round 1: of each position, in the lent
//! list, its class, the origin of its value, length, layout, creates, memory written and read, barrier, suspends, and the registers read
//! and written; of each register its facts and last writer; of a move the target, the set, in the list and in the chain's words, and each
//! member's last use. Of a refused picture, with 799 records, and where the block is none, nothing may be written. Pictures: generated
//! ones, damaged ones, and each kind and form once over registers of each origin.

use std::collections::BTreeMap;

use crate::accept;
use crate::damage::DAMAGES;
use crate::driver::{Entry, Search, Told};
use crate::fact::Fact;
use crate::generate::{entered, picture};
use crate::kinds::{self, KINDS, Slot};
use crate::missing::Missing;
use crate::oracle::Lent;
use crate::picture::{ABSENT, Picture, Record, Work};
use crate::random::Random;
use crate::selfcheck::size_of;

/// The search from a block, or something that stands for it: the picture, both work slices, the list of facts, the block and four words
/// for the move.
pub trait Tries: FnMut(&Picture, &mut [u64], &mut [u32], &mut [Fact], u32, &mut [usize]) -> u32 {}
impl<F: FnMut(&Picture, &mut [u64], &mut [u32], &mut [Fact], u32, &mut [usize]) -> u32> Tries for F {}

/// Words of a position for the move, and where the copy of the words of registers begins.
const POSITION: usize = 10;
const REGISTERS: usize = 8000;
/// The memory that a Cat reads is looked up again.
const PIECES: u32 = u32::MAX;

pub const SORTS: [&str; 6] = ["Unknown", "Ro", "Heap", "Frame", "Temp", "Img"];
const FLAGS: [&str; 5] = ["length", "layout", "creates", "barrier", "suspends"];

/// The sort of an origin that is a number.
fn sort(o: u32) -> usize {
    if o < 4 { o as usize } else { 4 + (o % 2) as usize }
}

#[derive(Default)]
pub struct Stats {
    pub pictures: usize,
    /// those of one instruction over registers of each origin
    pub singles: usize,
    pub refused: usize,
    /// searches that found a move, that found none, and that did not get to the facts
    pub moves: usize,
    pub none: usize,
    pub passed_over: usize,
    pub no_block: usize,
    /// accepted but for the records, 799 of them
    pub few_records: usize,
    pub second_target: usize,
    /// searches with another target than document 01's, since block 0 was it or a later part of the chain
    pub parted: usize,
    pub positions: usize,
    pub values: usize,
    /// positions by kind and form
    pub arms: BTreeMap<(u32, u32), usize>,
    pub classes: [usize; 3],
    /// positions by the sort of origin of their value, of the memory written, of the memory read
    pub origins: [usize; 6],
    pub written: [usize; 6],
    pub read: [usize; 6],
    pub flags: [usize; 5],
    /// registers with each flag, and with a last writer
    pub registers: [usize; 5],
    /// positions that read two registers and no more, and that read or write more than the fact names
    pub two_reads: usize,
    pub more: usize,
    pub members: usize,
    pub to_the_end: usize,
    pub faults: Vec<String>,
}

/// Registers of each origin, by what is written before the instruction that is looked at: unknown, a length, frame, read-only,
/// heap, a new block, an image, a layout.
pub const VALUES: u32 = 8;
/// Two that it may write, and one more.
const WRITTEN: u32 = VALUES;
pub const REGS: u32 = VALUES + 3;

fn op(kind: u32, slots: &[u32]) -> Record {
    Record::new(kind, 0, slots, (0, 0), &[])
}

/// An instruction of this kind and form whose first read is register `first` and whose others are `rest`, in a block that is looked
/// at, behind registers of each origin.
pub fn single(kind: u32, form: u32, first: u32, rest: u32) -> Picture {
    let mut block = vec![
        Record::new(kinds::CONST, 0, &[1], (0, 0), &[8]),
        op(kinds::ADDR_OF, &[2]),
        Record::new(kinds::ADDR_OF, 4, &[3], (0, 0), &[]),
        op(kinds::DEREF, &[4, 0]),
        op(kinds::ALLOC, &[5, 1]),
        Record::new(kinds::CALL_NATIVE, 1, &[6], (0, 1), &[]),
        op(kinds::LAYOUT_OF, &[7, 0]),
        op(kinds::CAT, &[5, 1, 1]),
    ];
    let (mut reads, mut writes) = (0, WRITTEN);
    let mut slots = [ABSENT; 5];
    for (slot, sort) in slots.iter_mut().zip(kinds::slots(kind, form)) {
        *slot = match sort {
            Slot::Off => ABSENT,
            Slot::Def | Slot::MaybeDef => {
                writes += 1;
                (writes - 1).min(REGS - 1)
            }
            Slot::Use | Slot::MaybeUse => {
                reads += 1;
                if reads == 1 { first } else { rest }
            }
        };
    }
    let listed = KINDS[kind as usize].list;
    let list = if !listed { (0, 0) } else if kind == kinds::CALL_NATIVE { (1, 1) } else { (1, 2) };
    let payload: &[u32] = if matches!(kind, kinds::BR | kinds::COND_BR) { &[1, 2] } else { &[] };
    block.push(Record::new(kind, form, &slots, list, payload));
    block.push(op(kinds::MOVE, &[REGS - 1, WRITTEN]));
    block.push(Record::new(kinds::COND_BR, 0, &[0], (0, 0), &[1, 2]));
    let mut p = Picture::of_blocks(&[block, vec![op(kinds::OUTPUT, &[5, 1]), op(kinds::RET, &[])], vec![op(kinds::RET, &[])]]);
    p.types = vec![0; REGS as usize];
    p.regs = REGS;
    p.ops = vec![1, first, rest];
    p.opers = 3;
    p
}

pub fn facts(n: usize, seed: u64, mut tries: impl Tries) -> Stats {
    let mut stats = Stats::default();
    let mut rnd = Random::new(seed ^ 0xFAC7_5001);
    // Each arm of `analyse`, over each origin.
    for (k, kind) in KINDS.iter().enumerate() {
        for form in kind.forms.0..=kind.forms.1 {
            for first in 0..VALUES {
                let p = single(k as u32, form, first, rnd.below(VALUES as usize) as u32);
                stats.compare(&p, &format!("{} at form {form}, register {first}", kind.name), &mut rnd, &mut tries);
            }
        }
    }
    stats.singles = stats.pictures;
    for k in 0..n {
        let this = seed.wrapping_mul(1_000_003).wrapping_add(k as u64);
        let mut rnd = Random::new(this ^ 0xFAC7_5000);
        let p = picture(this, size_of(k));
        stats.compare(&p, &format!("seed {this}"), &mut rnd, &mut tries);
        if k % 4 == 0 {
            let p = entered(this, size_of(k / 4));
            stats.compare(&p, &format!("seed {this}, entered"), &mut rnd, &mut tries);
        }
        let d = &DAMAGES[k % DAMAGES.len()];
        let mut q = p.clone();
        if (d.deed)(&mut q, &mut rnd) && q != p {
            stats.compare(&q, &format!("seed {this}: {}", d.what), &mut rnd, &mut tries);
        }
    }
    stats
}

impl Stats {
    fn compare(&mut self, p: &Picture, name: &str, rnd: &mut Random, tries: &mut impl Tries) {
        let work = p.work();
        let refused = accept::refusal(p, work);
        let mut searches = Vec::new();
        if refused == 0 {
            // A damaged picture may use more types than the Rust has.
            let Some(lent) = Lent::new(p) else { return };
            searches = lent.searches(lent.entry);
            if lent.entry == Entry::Start {
                let target = |s: &Option<Search>| s.as_ref().and_then(|s| s.target);
                self.parted += lent.searches(Entry::Blocks).iter().zip(&searches).filter(|(a, b)| target(a) != target(b)).count();
            }
        }
        self.pictures += usize::from(refused == 0);
        self.refused += usize::from(refused != 0);
        let copy = p.clone();
        let blocks = if refused == 0 { p.nblocks() } else { 0 };
        // What lies in the lent slices must not matter; the block behind the last is none.
        for x in 0..=blocks {
            // Of a large picture only some of the blocks that are not looked at.
            if x >= 64 && x < blocks && searches[x].is_none() && !rnd.chance(5) {
                continue;
            }
            let mut lent = Slices::new(work, rnd.word());
            let found = lent.search(p, x, tries);
            if *p != copy {
                self.faults.push(format!("{name}: the port changed the picture"));
                return;
            }
            if x == blocks {
                let wanted = if refused == 0 { 300 } else { 200 + refused };
                self.no_block += usize::from(refused == 0);
                if found != wanted || !lent.untouched() {
                    self.faults.push(format!("{name}: {found} in place of {wanted}, or something was written"));
                }
            } else {
                self.searched(&Left { p, x, lent: &lent }, searches[x].as_ref(), found, name);
            }
        }
        if refused == 0 && rnd.chance(10) {
            self.few_records += 1;
            let mut lent = Slices::new(Work { records: work.records - 1, ..work }, rnd.word());
            let found = lent.search(p, 0, tries);
            if found != 210 || !lent.untouched() {
                self.faults.push(format!("{name}: {found} in place of 210 for 799 records, or something was written"));
            }
        }
    }

    fn searched(&mut self, left: &Left, search: Option<&Search>, found: u32, name: &str) {
        let target = search.and_then(|s| s.target);
        let mut wanted = [left.lent.junk as usize; 5];
        if let (Some(s), Some(into)) = (search, target) {
            wanted[..4].copy_from_slice(&[into, s.inside, s.told.len(), s.set.iter().filter(|m| **m).count()]);
        }
        if found != u32::from(target.is_some()) || left.lent.out != wanted {
            self.faults.push(format!("{name}, block {}: {found} and {:?} in place of {wanted:?}", left.x, left.lent.out));
            return;
        }
        let Some(s) = search else {
            self.passed_over += 1;
            return;
        };
        self.moves += usize::from(target.is_some());
        self.none += usize::from(target.is_none());
        self.second_target += usize::from(left.went_to_f(target));
        for (k, told) in s.told.iter().enumerate() {
            let wrong = left.position(k, told, s, self);
            self.faults.extend(wrong.map(|what| format!("{name}, block {}, position {k}: {what}", left.x)));
        }
        for (r, told) in s.registers.iter().enumerate() {
            let word = told.flags + 16 * told.writer.map_or(0, |p| p as u32 + 1);
            let (held, copy) = left.register(r);
            if (held % 16384, copy) != (u64::from(word), word) || !is_left(held / 16384, told.writer, s) {
                self.faults.push(format!("{name}, block {}: register {r} is {:?} in place of {word}", left.x, left.register(r)));
            }
            for bit in 0..4 {
                self.registers[bit] += usize::from(told.flags >> bit & 1 == 1);
            }
            self.registers[4] += usize::from(told.writer.is_some());
        }
    }

    /// What is missing, if the comparison is to be worth its while.
    pub fn missing(&self) -> Vec<String> {
        let mut out = Missing::default();
        out.want(self.faults.is_empty(), "no fault");
        for (many, what) in [
            (self.moves, "moves"),
            (self.none, "searches without a move"),
            (self.passed_over, "blocks that are not looked at"),
            (self.second_target, "moves into f"),
            (self.parted, "searches with another target than document 01's"),
            (self.no_block, "a block that is none"),
            (self.few_records, "799 records"),
            (self.two_reads, "positions that read two registers"),
            (self.more, "positions that read or write more"),
            (self.refused, "refused pictures"),
            (self.to_the_end, "members that the target reads"),
        ] {
            out.want(many > 0, what);
        }
        for (k, name) in SORTS.iter().enumerate() {
            out.want(self.origins[k] > 0, &format!("a value of origin {name}"));
            out.want(self.written[k] > 0, &format!("memory written of origin {name}"));
            out.want(self.read[k] > 0, &format!("memory read of origin {name}"));
        }
        out.want(self.classes.iter().all(|n| *n > 0), "all three classes");
        out.want(self.registers.iter().all(|n| *n > 0), "registers of all facts");
        for (k, name) in FLAGS.iter().enumerate() {
            out.want(self.flags[k] > 0, &format!("a position with {name}"));
        }
        for (k, kind) in KINDS.iter().enumerate() {
            for form in kind.forms.0..=kind.forms.1 {
                out.want(self.arms.contains_key(&(k as u32, form)), &format!("a position of {} at form {form}", kind.name));
            }
        }
        out.0
    }

    pub fn print(&self) {
        println!("facts: the port's search from each block against analyse and plan, {} pictures, {} of one instruction, {} differences", self.pictures, self.singles, self.faults.len());
        println!("refused, nothing written {}, and so where the block is none {}, with 799 records {}", self.refused, self.no_block, self.few_records);
        println!("moves {}, into f {}, members {}, read by the target {}", self.moves, self.second_target, self.members, self.to_the_end);
        println!("searches with another target than document 01's {}", self.parted);
        println!("searches without a move {}, blocks not looked at {}", self.none, self.passed_over);
        println!("positions {} of {} kinds and forms, classes No, Movable, Free {:?}", self.positions, self.arms.len(), self.classes);
        println!("by {SORTS:?}: values {:?} of {}, memory written {:?}, read {:?}", self.origins, self.values, self.written, self.read);
        println!("by {FLAGS:?}: {:?}; two registers read {}, more read or written {}", self.flags, self.two_reads, self.more);
        println!("registers read-only, frame, length, above 0, written {:?}", self.registers);
        for f in self.faults.iter().take(20) {
            println!("fault: {f}");
        }
    }
}

/// Is this what a register's last writer left there: where its value points, whether that is a length, and whether it points to a layout?
fn is_left(held: u64, writer: Option<usize>, s: &Search) -> bool {
    let Some(p) = writer else { return held == 0 };
    let Some((origin, length, _)) = s.told[p].value else { return true };
    let bit = |k: u32| held >> k & 1 == 1;
    let maker = if origin >= 4 && origin % 2 == 0 { s.told[(origin as usize - 4) / 2].value } else { None };
    held % 2048 == u64::from(origin) && bit(11) == length && maker.is_none_or(|(_, _, layout)| bit(12) == layout)
}

/// What is lent to a search, each filled with one word at first.
struct Slices {
    work64: Vec<u64>,
    work32: Vec<u32>,
    facts: Vec<Fact>,
    out: [usize; 5],
    junk: u64,
}

impl Slices {
    fn new(work: Work, junk: u64) -> Slices {
        Slices { work64: vec![junk; work.w64], work32: vec![junk as u32; work.w32], facts: vec![Fact::junk(junk); work.records], out: [junk as usize; 5], junk }
    }

    fn search(&mut self, p: &Picture, x: usize, tries: &mut impl Tries) -> u32 {
        tries(p, &mut self.work64, &mut self.work32, &mut self.facts, x as u32, &mut self.out)
    }

    fn untouched(&self) -> bool {
        let (junk, fact) = (self.junk, Fact::junk(self.junk));
        self.work64.iter().all(|&w| w == junk)
            && self.work32.iter().all(|&w| w == junk as u32)
            && self.facts.iter().all(|&f| f == fact)
            && self.out == [junk as usize; 5]
    }
}

/// What a search from block `x` left.
struct Left<'a> {
    p: &'a Picture,
    x: usize,
    lent: &'a Slices,
}

impl Left<'_> {
    /// The word of a register, and its copy.
    fn register(&self, r: usize) -> (u64, u32) {
        let at = 4 * self.p.nblocks() * self.p.types.len().div_ceil(64);
        (self.lent.work64[at + r], self.lent.work32[REGISTERS + r])
    }

    fn went_to_f(&self, target: Option<usize>) -> bool {
        let last = |b: usize| self.p.record(self.p.places(b).end - 1);
        let mut b = self.x;
        while last(b).kind() == kinds::BR {
            b = last(b).0[9] as usize;
        }
        target == Some(last(b).0[10] as usize)
    }

    /// What of position `k` is not as told.
    fn position(&self, k: usize, told: &Told, s: &Search, stats: &mut Stats) -> Option<String> {
        let f = &self.lent.facts[k];
        let at = &told.position;
        let place = self.p.bounds[2 * told.place.0] as usize + told.place.1;
        let r = self.p.record(place);
        stats.positions += 1;
        *stats.arms.entry((r.kind(), r.form())).or_default() += 1;
        stats.classes[told.class as usize] += 1;
        let mut flags = [false, false, at.creates, at.barrier, at.suspends];
        // Length and layout where the value was looked at.
        if let Some((origin, length, layout)) = told.value {
            if (f.org, f.len, f.layout) != (origin, length, layout) {
                return Some(format!("origin, length, layout {:?} in place of {:?}", (f.org, f.len, f.layout), (origin, length, layout)));
            }
            stats.values += 1;
            stats.origins[sort(origin)] += 1;
            (flags[0], flags[1]) = (length, layout);
        }
        for (many, on) in stats.flags.iter_mut().zip(flags) {
            *many += usize::from(on);
        }
        let memory = |o: Option<u32>| o.map_or(0, |o| o + 1);
        if let Some(o) = at.wrote {
            stats.written[sort(o)] += 1;
        }
        for &o in &at.reads {
            stats.read[sort(o)] += 1;
        }
        let read = if r.kind() == kinds::CAT { PIECES } else { memory(at.reads.first().copied()) };
        let wanted = ([place as u32, told.class, memory(at.wrote), read], [at.creates, at.barrier, at.suspends]);
        let found = ([f.rec, f.class, f.wrote, f.from], [f.creates, f.barrier, f.suspends]);
        if found != wanted {
            return Some(format!("record, class, written, read; creates, barrier, suspends {found:?} in place of {wanted:?}"));
        }
        let register = at.defs.first().copied().unwrap_or(ABSENT);
        // A position that writes two registers never moves.
        if at.defs.len() < 2 && f.def != register {
            return Some(format!("register written {} in place of {register}", f.def));
        }
        if let Some(what) = self.reads(f, &told.position.uses.iter().map(|u| u.0).collect::<Vec<_>>(), at.defs.len(), stats) {
            return Some(what);
        }
        self.planned(k, told, s, register, place, stats)
    }

    /// The registers that a position reads, which are not as its fact says.
    fn reads(&self, f: &Fact, uses: &[u32], defs: usize, stats: &mut Stats) -> Option<String> {
        let named: Vec<u32> = [f.use0, f.use1].into_iter().filter(|&r| r != ABSENT).collect();
        stats.more += usize::from(f.more);
        stats.two_reads += usize::from(!f.more && named.len() == 2);
        let wrong = if f.more { uses.len() < 3 && defs < 2 || !uses.starts_with(&named) } else { defs > 1 || uses != named };
        wrong.then(|| format!("registers read {named:?}, more {} in place of {uses:?}", f.more))
    }

    /// Of a move: the mark in the list, and what stands in the chain's words.
    fn planned(&self, k: usize, told: &Told, s: &Search, register: u32, place: usize, stats: &mut Stats) -> Option<String> {
        s.target?;
        let w = &self.lent.work32[POSITION * k..POSITION * (k + 1)];
        let inside = k < s.inside;
        let member = inside && s.set[k];
        if self.lent.facts[k].member != member {
            return Some(format!("mark {} in place of {member}", self.lent.facts[k].member));
        }
        if w[0] != place as u32 {
            return Some(format!("word of the record {} in place of {place}", w[0]));
        }
        if inside && (w[6] != 0) != member {
            return Some(format!("word of the mark {} in place of {member}", w[6]));
        }
        if inside && told.position.defs.len() < 2 && w[8] != register {
            return Some(format!("word of the register written {} in place of {register}", w[8]));
        }
        if let Some(last) = told.last_use {
            stats.members += 1;
            stats.to_the_end += usize::from(last == usize::MAX);
            // Past the end of the chain for one that the target reads.
            if w[7] as usize != last.min(s.told.len()) {
                return Some(format!("last use {} in place of {last}", w[7]));
            }
        }
        None
    }
}

#[cfg(test)]
mod tests {
    use super::*;

    /// Every picture of one instruction is accepted, but for a branch's own reasons, and looked at.
    #[test]
    fn singles_are_looked_at() {
        for (k, kind) in KINDS.iter().enumerate() {
            for form in kind.forms.0..=kind.forms.1 {
                let p = single(k as u32, form, 5, 1);
                assert_eq!(accept::refusal(&p, p.work()), 0, "{} at form {form}", kind.name);
                let lent = Lent::new(&p).expect("one type");
                let searches = lent.searches(lent.entry);
                assert!(searches[0].is_some(), "{} at form {form}", kind.name);
            }
        }
    }

    /// A search that does nothing is found.
    #[test]
    fn nothing_is_found() {
        let stats = facts(1, 1, |_: &Picture, _: &mut [u64], _: &mut [u32], _: &mut [Fact], _: u32, _: &mut [usize]| 0);
        assert!(!stats.faults.is_empty());
    }

    /// A slip in any part of a fact, and in any word, that is compared is found.
    #[cfg(feature = "port")]
    #[test]
    fn a_slip_is_found() {
        use crate::port;
        assert!(facts(40, 1, port::try_block).faults.is_empty());
        let slips: [fn(&mut [u32], &mut Fact); 17] = [
            |_, f| f.rec ^= 1,
            |_, f| f.class ^= 1,
            |_, f| f.org ^= 1,
            |_, f| f.wrote ^= 1,
            |_, f| f.from ^= 1,
            |_, f| f.def ^= 1,
            |_, f| f.use0 ^= 1,
            |_, f| f.use1 ^= 1,
            |_, f| f.more ^= true,
            |_, f| f.len ^= true,
            |_, f| f.layout ^= true,
            |_, f| f.creates ^= true,
            |_, f| f.member ^= true,
            |w, _| w[POSITION] ^= 1,
            |w, _| w[POSITION + 6] ^= 1,
            |w, _| w[POSITION + 7] ^= 1,
            |w, _| w[POSITION + 8] ^= 1,
        ];
        for (k, slip) in slips.iter().enumerate() {
            let slip = |p: &Picture, a: &mut [u64], b: &mut [u32], f: &mut [Fact], x: u32, out: &mut [usize]| {
                let r = port::try_block(p, a, b, f, x, out);
                if r == 1 {
                    slip(b, &mut f[1]);
                }
                r
            };
            assert!(!facts(40, 1, slip).faults.is_empty(), "slip {k}");
        }
        let slip = |p: &Picture, a: &mut [u64], b: &mut [u32], f: &mut [Fact], x: u32, out: &mut [usize]| {
            let r = port::try_block(p, a, b, f, x, out);
            if r < 200 {
                b[REGISTERS] ^= 16;
            }
            r
        };
        assert!(!facts(40, 1, slip).faults.is_empty());
        // A mark in the list of a picture that is refused.
        let slip = |p: &Picture, a: &mut [u64], b: &mut [u32], f: &mut [Fact], x: u32, out: &mut [usize]| {
            let r = port::try_block(p, a, b, f, x, out);
            if r > 200 {
                f[0].member ^= true;
            }
            r
        };
        assert!(!facts(40, 1, slip).faults.is_empty());
    }
}
