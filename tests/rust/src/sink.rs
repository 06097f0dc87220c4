//! The host's entry held against the Rust: generated pictures with one room and another, those at the bounds, damaged ones, and
//! bytes that are no picture. Compared are the number, the whole new picture, and every byte that is to stay as it was.

use std::collections::BTreeMap;

use crate::accept;
use crate::boundary::boundaries;
use crate::bytes::{self, Hosted, OPERANDS, REGISTERS, RESULT, fits, loose_bytes};
use crate::copies::spread;
use crate::damage::{DAMAGES, alter, any_words, damage_again};
use crate::generate::{bare, bare_entered};
use crate::oracle::{Answer, Lent, Outcome, oracle_with_work};
use crate::picture::Picture;
use crate::random::Random;
use crate::rooms::rooms;
use crate::selfcheck::size_of;
use crate::tally::Tally;

/// Where bytes come from.
#[derive(Clone, Copy, PartialEq, Eq, PartialOrd, Ord, Debug)]
pub enum Source {
    Generated,
    Boundary,
    Damaged,
    Altered,
    Words,
    Bytes,
}

const SOURCES: [Source; 6] = [Source::Generated, Source::Boundary, Source::Damaged, Source::Altered, Source::Words, Source::Bytes];

/// What the entry is given.
#[derive(Clone, Debug)]
pub struct Lending {
    pub bytes: Vec<u8>,
    pub registers: u32,
    pub operands: u32,
    /// bytes lent for the result
    pub result: usize,
}

/// A difference, and what it came up with.
pub struct Fault {
    pub what: String,
    pub lending: Lending,
}

#[derive(Default)]
pub struct Stats {
    pub pictures: usize,
    /// of the pictures at the bounds, and of the generated ones, once for each room
    pub tally: Tally,
    /// those of the generated ones where a block leads to block 0, and where that changes the rounds
    pub entered: usize,
    pub parted: usize,
    /// runs by number and source
    pub runs: BTreeMap<(u32, Source), usize>,
    /// accepted pictures of more types than the Rust has
    pub without_equal: usize,
    pub faults: Vec<Fault>,
}

/// The entry, or something that stands for it: picture, result, registers, operands.
pub trait Entry: FnMut(&[u8], &mut [u8], u32, u32) -> u32 {}
impl<F: FnMut(&[u8], &mut [u8], u32, u32) -> u32> Entry for F {}

pub fn sink(n: usize, seed: u64, mut entry: impl Entry) -> Stats {
    let mut stats = Stats { pictures: n, ..Stats::default() };
    stats.boundaries(&mut entry);
    for k in 0..n {
        let this = seed.wrapping_mul(1_000_003).wrapping_add(k as u64);
        let mut rnd = Random::new(this ^ 0x0511_4BED);
        let mut p = bare(this, size_of(k));
        if rnd.chance(25) {
            p = spread(&p, rnd.from_to(60, 500), &mut rnd);
        }
        stats.generated(&p, &format!("seed {this} {:?}", size_of(k)), &mut rnd, &mut entry);
        stats.damaged(&p, k, &format!("seed {this}"), &mut rnd, &mut entry);
        if k % 4 == 0 {
            let p = bare_entered(this, size_of(k / 4));
            stats.generated(&p, &format!("seed {this} {:?}, entered", size_of(k / 4)), &mut rnd, &mut entry);
        }
    }
    stats
}

impl Stats {
    /// One call, held against what it must give.
    fn run(&mut self, source: Source, name: &str, lending: Lending, wanted: Hosted, entry: &mut impl Entry) {
        let Lending { bytes, registers, operands, result } = &lending;
        *self.runs.entry((wanted.0, source)).or_default() += 1;
        // What lies in the result must not matter, and shows what was written.
        let junk = 0xA5 ^ bytes.len() as u8;
        let mut made = vec![junk; *result];
        let copy = bytes.clone();
        let number = entry(bytes, &mut made, *registers, *operands);
        let written = wanted.1.as_deref().unwrap_or(&[]);
        let mut fault = |what: String| {
            let what = format!("{name} ({source:?}), {registers} registers and {operands} operands lent: {what}");
            self.faults.push(Fault { what, lending: lending.clone() });
        };
        if number != wanted.0 {
            fault(format!("the port answers {number}, not {}", wanted.0));
        } else if made.get(..written.len()) != Some(written) {
            let at = made.iter().zip(written).position(|(a, b)| a != b).unwrap_or(0);
            fault(format!("the port's picture differs at byte {at} of {}", written.len()));
        } else if let Some(at) = made[written.len()..].iter().position(|&b| b != junk) {
            fault(format!("the port wrote at byte {at} past the picture"));
        }
        if *bytes != copy {
            fault("the port changed what it was lent to read".into());
        }
    }

    /// One call, held against the oracle.
    fn judge(&mut self, source: Source, name: &str, lending: Lending, entry: &mut impl Entry) {
        match bytes::host(&lending.bytes, lending.registers as usize, lending.operands as usize, lending.result) {
            Some(wanted) => self.run(source, name, lending, wanted, entry),
            None => self.without_equal += 1,
        }
    }

    fn boundaries(&mut self, entry: &mut impl Entry) {
        for b in boundaries() {
            let p = &b.picture;
            let lending = Lending { bytes: loose_bytes(p), registers: REGISTERS as u32, operands: OPERANDS as u32, result: RESULT };
            // The Rust has to say what document 01 says.
            let rust = bytes::host(&lending.bytes, REGISTERS, OPERANDS, RESULT).map(|h| h.0);
            let moved = if fits(p) { self.count(p) } else { 0 };
            if rust != Some(b.number) || moved != b.moved {
                let what = format!("{}: the Rust answers {rust:?} and moves {moved}, not {} and {}", b.name, b.number, b.moved);
                self.faults.push(Fault { what, lending: lending.clone() });
            }
            self.judge(Source::Boundary, &b.name, lending.clone(), entry);
            if !fits(p) {
                continue;
            }
            // Room past what there can be, and a result that is too short, one that is longer than needed.
            for (registers, operands, result) in [(513, 2048, RESULT), (512, 2049, RESULT), (512, 2048, RESULT - 1), (512, 2048, 0), (512, 2048, RESULT + 999)] {
                let other = Lending { registers, operands, result, ..lending.clone() };
                self.judge(Source::Boundary, &b.name, other, entry);
            }
        }
    }

    /// Counts a picture at a bound; the members of all its rounds.
    fn count(&mut self, p: &Picture) -> u32 {
        let outcome = oracle_with_work(p).expect("no more types than the Rust has");
        if !matches!(outcome.answer, Answer::Refused(_)) {
            let trace = Lent::new(p).expect("no more types than the Rust has").wanted();
            self.tally.add(p, &trace, outcome.answer);
        }
        outcome.lines.iter().map(|l| l[3]).sum()
    }

    /// A generated picture, with every room that says something.
    fn generated(&mut self, p: &Picture, name: &str, rnd: &mut Random, entry: &mut impl Entry) {
        let bytes = bytes::to_bytes(p);
        if !fits(p) {
            let lending = Lending { bytes, registers: REGISTERS as u32, operands: OPERANDS as u32, result: RESULT };
            return self.run(Source::Generated, name, lending, (300, None), entry);
        }
        let lent = Lent::new(p).expect("no more types than the Rust has");
        let trace = lent.wanted();
        self.entered += usize::from(p.leads_to_entry());
        self.parted += usize::from(lent.parts_from_document_01(&trace));
        for (registers, operands) in rooms(p, &trace, (REGISTERS, OPERANDS), rnd) {
            let q = bytes::from_bytes(&bytes, registers, operands).expect("a picture within the program's sizes");
            let outcome = match accept::refusal(&q, q.work()) {
                0 if accept::gated(&q) => Outcome { answer: Answer::Done(0), lines: Vec::new(), picture: q.clone() },
                0 => Lent::new(&q).expect("the same types").outcome(&trace),
                n => Outcome { answer: Answer::Refused(n), lines: Vec::new(), picture: q.clone() },
            };
            if !matches!(outcome.answer, Answer::Refused(_)) {
                self.tally.add(&q, &trace, outcome.answer);
            }
            let result = RESULT + if rnd.chance(20) { rnd.below(100) } else { 0 };
            let lending = Lending { bytes: bytes.clone(), registers: registers as u32, operands: operands as u32, result };
            self.run(Source::Generated, name, lending, bytes::hosted(&outcome), entry);
        }
    }

    /// The picture damaged in one way, in all of them for the first few, and then in a second; with words altered; and bytes that
    /// are none.
    fn damaged(&mut self, p: &Picture, k: usize, name: &str, rnd: &mut Random, entry: &mut impl Entry) {
        let one = k % DAMAGES.len();
        for d in DAMAGES[one..=one].iter().chain(if k < 20 { DAMAGES } else { &[] }) {
            let mut q = p.clone();
            if (d.deed)(&mut q, rnd) {
                self.judge(Source::Damaged, &format!("{name}: {}", d.what), lent(&q, rnd), entry);
                if let Some(what) = damage_again(&mut q, d, rnd) {
                    self.judge(Source::Damaged, &format!("{name}: {}, {what}", d.what), lent(&q, rnd), entry);
                }
            }
        }
        let mut q = p.clone();
        for _ in 0..rnd.from_to(1, 3) {
            alter(&mut q, rnd);
        }
        self.judge(Source::Altered, name, lent(&q, rnd), entry);
        self.judge(Source::Words, name, lent(&any_words(rnd), rnd), entry);
        let lending = Lending { bytes: any_bytes(p, rnd), ..lent(p, rnd) };
        self.judge(Source::Bytes, name, lending, entry);
    }
}

/// A picture that is perhaps none, with the room that it asks for or that there is.
fn lent(p: &Picture, rnd: &mut Random) -> Lending {
    let (registers, operands) = if rnd.chance(50) { (p.types.len() as u32, p.ops.len() as u32) } else { (REGISTERS as u32, OPERANDS as u32) };
    Lending { bytes: loose_bytes(p), registers, operands, result: RESULT }
}

/// Bytes that are mostly no picture: a picture cut short or lengthened, one with a count altered, or any bytes at all.
fn any_bytes(p: &Picture, rnd: &mut Random) -> Vec<u8> {
    let mut bytes = loose_bytes(p);
    match rnd.below(4) {
        0 => {
            let less = if rnd.chance(50) { rnd.from_to(1, 5) } else { rnd.from_to(1, bytes.len()) };
            bytes.truncate(bytes.len() - less);
        }
        1 => bytes.extend((0..rnd.from_to(1, 5)).map(|_| 0)),
        2 => {
            let count = 4 * rnd.below(8) + rnd.below(4);
            bytes[count] = bytes[count].wrapping_add(rnd.pick(&[1, 255, 128]));
        }
        _ => bytes = (0..rnd.below(300)).map(|_| rnd.word() as u8).collect(),
    }
    bytes
}

impl Stats {
    fn of(&self, number: u32, source: Source) -> usize {
        self.runs.get(&(number, source)).copied().unwrap_or(0)
    }

    /// The fault with the least bytes.
    pub fn smallest(&self) -> Option<&Fault> {
        self.faults.iter().min_by_key(|f| f.lending.bytes.len())
    }

    /// What is missing, if the comparison is to be worth its while.
    pub fn missing(&self) -> Vec<String> {
        let mut out = self.tally.missing();
        if !self.faults.is_empty() {
            out.push("no fault".to_string());
        }
        if self.entered == 0 || self.parted == 0 {
            out.push("generated pictures where a block leads to block 0, and where that changes the rounds".to_string());
        }
        if self.tally.after_one.contains(&0) {
            out.push("of pictures after one round: targets before x, empty ones, Sig, long shared lists".to_string());
        }
        let generated = (0..=4).chain([8]).chain(100..=103).chain([201, 300]).map(|n| (n, Source::Generated));
        let boundary = [0, 1, 2, 7, 8, 100, 204, 208, 300].map(|n| (n, Source::Boundary));
        let damaged = (202..=209).map(|n| (n, Source::Damaged));
        for (number, source) in generated.chain(boundary).chain(damaged).chain([(300, Source::Bytes)]) {
            if self.of(number, source) == 0 {
                out.push(format!("the answer {number} among those {source:?}"));
            }
        }
        out
    }

    pub fn print(&self) {
        println!("sink: the host's entry against the Rust, {} pictures, {} runs, {} differences", self.pictures, self.runs.values().sum::<usize>(), self.faults.len());
        println!("answer {}", SOURCES.map(|s| format!("{:>11}", format!("{s:?}"))).join(""));
        let numbers: Vec<u32> = (0..=8).chain(100..=108).chain(200..=211).chain([300]).collect();
        for n in numbers.into_iter().filter(|&n| SOURCES.iter().any(|&s| self.of(n, s) > 0)) {
            let name = match n {
                0..100 => format!("done {n}"),
                100..200 => format!("short {}", n - 100),
                200..300 => format!("refused {}", n - 200),
                _ => "unread".into(),
            };
            println!("{name:<10}{}", SOURCES.map(|s| format!("{:>11}", self.of(n, s))).join("").split_off(3));
        }
        println!("accepted, with more types than the Rust has {}", self.without_equal);
        println!("generated pictures where a block leads to block 0 {}, of other rounds than document 01's {}", self.entered, self.parted);
        println!("of those generated, once for each room lent, and at the bounds:");
        self.tally.print();
        for f in self.faults.iter().take(20) {
            println!("fault: {}", f.what);
        }
    }
}

#[cfg(test)]
mod tests {
    use super::*;

    /// The Rust itself as the entry.
    fn rust(picture: &[u8], result: &mut [u8], registers: u32, operands: u32) -> u32 {
        let (number, written) = bytes::host(picture, registers as usize, operands as usize, result.len()).expect("few types");
        if let Some(bytes) = written {
            result[..bytes.len()].copy_from_slice(&bytes);
        }
        number
    }

    #[test]
    fn the_rust_agrees_with_itself_and_all_comes_up() {
        let stats = sink(2000, 1, rust);
        assert_eq!(stats.missing(), Vec::<String>::new());
    }

    #[test]
    fn a_slip_is_found() {
        // A byte past the picture, a result written though refused, one word of the picture, Short for Done.
        let slips: [fn(u32, &mut [u8]) -> u32; 4] = [
            |n, r| { *r.last_mut().expect("lent") ^= 1; n },
            |n, r| { if (200..300).contains(&n) { r[0] ^= 1 }; n },
            |n, r| { if n == 1 { r[40] ^= 1 }; n },
            |n, _| if n == 3 { 103 } else { n },
        ];
        for slip in slips {
            let stats = sink(100, 1, |p: &[u8], r: &mut [u8], k: u32, o: u32| {
                let n = rust(p, r, k, o);
                if r.is_empty() { n } else { slip(n, r) }
            });
            assert!(stats.faults.len() > 3);
        }
    }
}
