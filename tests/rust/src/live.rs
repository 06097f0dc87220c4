//! How long liveness alone takes on 32,768 instructions, the port and the Rust, in one process and in turn: the rows of what each block
//! reads first and writes, and the sweeps over them, apart. Printed as one table, for docs/SPEED.md.

use std::fmt;
use std::ops::{Div, Sub};

use crate::accept;
use crate::callgrind::counted;
use crate::copies::{copies, filled};
use crate::driver::{Entry, Pass};
use crate::generate::{Size, bare};
use crate::kinds::{BIN, BR, CALL, CALL_NATIVE, CASE, CAT, COND_BR, CONST, RET, UNREACHABLE};
use crate::oracle::Lent;
use crate::picture::{Picture, Record, Work};
use crate::port;
use crate::random::Random;
use crate::refusals::long_blocks;
use crate::time::{in_turn, once};

const INSTRUCTIONS: usize = 32768;
/// Runs of each, in turn.
const RUNS: usize = 10;

const HEAD: &str = "The times are in milliseconds, of the processor and not of the clock, port and Rust in one process and in turn, ten runs each, on fresh buffers: the least and the median of the ten.

- The Rust is `liveness` of `sink.rs`, without `find_preds`. Its sets and its sweeps are one function: the sets are taken from a run where no branch leads anywhere, so with one sweep in which nothing changes. It makes its vectors as it goes.
- The port accepts a picture first: its rows are what `virdzeba_rows` takes more than `virdzeba_refusal`, its sweeps what `virdzeba_live` takes more than `virdzeba_rows`. Its slice is made before its time begins, and holds other words.
- What is a difference is that of the leasts and that of the medians; some hundredths of a millisecond tell nothing. Instructions are those that callgrind counts in one run of the same functions, in thousands.
- `short-N` is copies of a generated picture with short blocks, `long-N` of one with long blocks, both filled up with empty statements; `lists-N` has blocks where three instructions in four have lists of 16 to 33 operands, all within the 131,072 that can be lent.

| picture | blocks | registers | instructions | Rust, ms | of it sets, ms | port, ms | of it rows, ms | of it sweeps, ms | times as fast | Rust, 1000 instructions | of it sets | port, 1000 instructions | of it rows | of it sweeps |
|---|---:|---:|---:|---:|---:|---:|---:|---:|---:|---:|---:|---:|---:|---:|";

/// A picture of the table; `compare live once` takes its name.
#[derive(Clone, Copy)]
enum Row {
    Short(u64),
    Long(u64),
    Lists(u64),
}

impl Row {
    fn named(name: &str) -> Option<Row> {
        let (kind, seed) = name.split_once('-')?;
        let seed = seed.parse().ok()?;
        Row::all(seed).into_iter().find(|row| row.kind() == kind)
    }

    fn all(seed: u64) -> [Row; 3] {
        [Row::Short(seed), Row::Long(seed), Row::Lists(seed)]
    }

    fn kind(&self) -> &'static str {
        match self {
            Row::Short(_) => "short",
            Row::Long(_) => "long",
            Row::Lists(_) => "lists",
        }
    }

    fn name(&self) -> String {
        let (Row::Short(seed) | Row::Long(seed) | Row::Lists(seed)) = self;
        format!("{}-{seed}", self.kind())
    }

    fn picture(&self) -> Picture {
        match *self {
            Row::Short(seed) => filled(short_blocks(seed), INSTRUCTIONS),
            Row::Long(seed) => filled(copies(&long_blocks(seed), INSTRUCTIONS, 8), INSTRUCTIONS),
            Row::Lists(seed) => long_lists(seed),
        }
    }
}

/// Copies of one of some large generated pictures: that with the most blocks where they are nearly enough instructions.
fn short_blocks(seed: u64) -> Picture {
    let some = (0..40).map(|k| copies(&bare(seed.wrapping_add(k), Size::Large), INSTRUCTIONS, 8));
    let full = some.filter(|p| p.locs.len() > 31_000 && p.nblocks() < 4096 && !accept::gated(p));
    full.max_by_key(Picture::nblocks).expect("forty pictures")
}

/// Blocks of 32 instructions, most of them with lists, that share all operands that can be lent. What stands near in the operands is
/// near among the registers, so that a block reads some of them only.
fn long_lists(seed: u64) -> Picture {
    const REGISTERS: usize = 512;
    const OPERANDS: usize = 131_072;
    let mut rnd = Random::new(seed);
    let blocks: Vec<Vec<Record>> = (0..INSTRUCTIONS / 32)
        .map(|b| {
            let near = rnd.below(OPERANDS - 2048);
            let mut code: Vec<Record> = (0..31).map(|_| one_of_lists(&mut rnd, REGISTERS, near)).collect();
            code.push(end_of(&mut rnd, REGISTERS, b, INSTRUCTIONS / 32));
            code
        })
        .collect();
    let mut p = Picture::of_blocks(&blocks);
    p.ops = (0..OPERANDS).map(|k| ((k / 256 + rnd.below(64)) % REGISTERS) as u32).collect();
    (p.types, p.regs, p.opers) = (vec![0; REGISTERS], REGISTERS as u32, OPERANDS as u32);
    p
}

/// Three times in four an instruction with a list of 16 to 33 operands, which lies within so many words of `near`.
fn one_of_lists(rnd: &mut Random, registers: usize, near: usize) -> Record {
    let mut reg = || rnd.below(registers) as u32;
    let (a, b, c) = (reg(), reg(), reg());
    let list = ((near + rnd.below(2000)) as u32, rnd.from_to(16, 33) as u32);
    match rnd.below(8) {
        0..3 => Record::new(CAT, 0, &[a, b, c], list, &[]),
        3 | 4 => Record::new(CALL, 0, &[a], list, &[]),
        5 => Record::new(CALL_NATIVE, 0, &[a], list, &[]),
        6 => Record::new(BIN, 1, &[a, b, c], (0, 0), &[]),
        _ => Record::new(CONST, 0, &[a], (0, 0), &[8, 0]),
    }
}

/// The end of block `b` of `n`: on to the next one, and mostly to one near it, before it too.
fn end_of(rnd: &mut Random, registers: usize, b: usize, n: usize) -> Record {
    let (next, near) = (b as u32 + 1, rnd.from_to(b.saturating_sub(4), (b + 16).min(n - 1)) as u32);
    match rnd.below(4) {
        _ if b + 1 == n => Record::new(RET, 0, &[], (0, 0), &[]),
        0 => Record::new(BR, 0, &[], (0, 0), &[next]),
        _ => Record::new(COND_BR, 0, &[rnd.below(registers) as u32], (0, 0), &[next, near]),
    }
}

/// The picture with no branch that leads anywhere. Each instruction reads and writes what it did.
fn cut(p: &Picture) -> Picture {
    let mut q = p.clone();
    let past = (p.pairs.len() / 2) as u32;
    for (k, r) in p.records().enumerate() {
        match r.kind() {
            BR => q.set_record(k, Record::new(UNREACHABLE, 0, &[], (0, 0), &[])),
            COND_BR | CASE => q.set_record(k, Record::new(CASE, 0, &r.slots()[..1], (0, 0), &[past])),
            _ => {}
        }
    }
    q
}

/// What is run.
#[derive(Clone, Copy)]
enum Side {
    /// The Rust's `liveness`, and that where no branch leads anywhere.
    Rust,
    Sets,
    /// The port's acceptance; that and the rows; that, the rows and the sweeps.
    Accept,
    Rows,
    Live,
}

const SIDES: [Side; 5] = [Side::Rust, Side::Sets, Side::Accept, Side::Rows, Side::Live];

impl Side {
    fn name(self) -> &'static str {
        match self {
            Side::Rust => "rust",
            Side::Sets => "sets",
            Side::Accept => "accept",
            Side::Rows => "rows",
            Side::Live => "live",
        }
    }

    /// The function that callgrind counts in.
    fn within(self) -> &'static str {
        match self {
            Side::Rust | Side::Sets => "*calls::the_liveness*",
            Side::Accept => "virdzeba_refusal",
            Side::Rows => "virdzeba_rows",
            Side::Live => "virdzeba_live",
        }
    }
}

/// A picture, and the same for the Rust, whole and without branches.
struct Given<'a> {
    picture: &'a Picture,
    whole: Lent<'a>,
    cut: Lent<'a>,
}

impl<'a> Given<'a> {
    fn new(picture: &'a Picture, cut: &'a Picture) -> Given<'a> {
        let lent = |p| Lent::new(p).expect("no more types than the Rust has");
        Given { picture, whole: lent(picture), cut: lent(cut) }
    }

    /// One run of one side, in milliseconds.
    fn run(&self, side: Side) -> f64 {
        let rust = |lent: &Lent| Pass::live_time(&lent.program, &lent.function, 1);
        match side {
            Side::Rust => rust(&self.whole),
            Side::Sets => rust(&self.cut),
            Side::Accept => self.port(|_, p, work| port::refusal(p, work)),
            Side::Rows => self.port(port::rows),
            Side::Live => self.port(port::live),
        }
    }

    /// One run of one of the port's functions, over a fresh picture and fresh words.
    fn port(&self, call: impl FnOnce(&mut [u64], &Picture, Work) -> u32) -> f64 {
        let work = self.picture.work();
        once((self.picture.clone(), vec![!0; work.w64]), |(p, mut bits)| (call(&mut bits, &p, work), bits, p))
    }

    /// The picture is one that the pass makes rows for, and both sides make the same.
    fn check(&self) {
        let (p, work) = (self.picture, self.picture.work());
        assert!(p.locs.len() == INSTRUCTIONS && accept::refusal(p, work) == 0 && !accept::gated(p), "an accepted picture below the gates");
        let (n, w) = (p.nblocks(), (p.regs as usize).div_ceil(64));
        let (mut live, mut rows) = (vec![!0; work.w64], vec![!0; work.w64]);
        assert_eq!([port::live(&mut live, p, work), port::rows(&mut rows, p, work)], [0; 2], "the port accepts it too");
        let wanted = |lent: &Lent| Pass::flow(&lent.program, &lent.function, Entry::Blocks).live_in.concat();
        assert!(live[..n * w] == wanted(&self.whole), "the port's live-in is the Rust's");
        // Where no block goes to another, live-in is what a block reads first.
        assert!(rows[(2 * n + 1) * w..][..n * w] == wanted(&self.cut), "what a block reads first is the same");
    }
}

/// One run of one side on the picture of a row, for a profiler. Tells whether there is such a row and side.
pub fn run_once(side: &str, name: &str) -> bool {
    let (Some(row), Some(side)) = (Row::named(name), SIDES.into_iter().find(|s| s.name() == side)) else { return false };
    let p = row.picture();
    Given::new(&p, &cut(&p)).run(side);
    true
}

/// The least of some times and their median.
#[derive(Clone, Copy)]
struct Time([f64; 2]);

impl Time {
    /// Of times in order.
    fn of(times: &[f64]) -> Time {
        let n = times.len();
        Time([times[0], (times[(n - 1) / 2] + times[n / 2]) / 2.0])
    }

    fn with(self, other: Time, op: fn(f64, f64) -> f64) -> Time {
        Time([op(self.0[0], other.0[0]), op(self.0[1], other.0[1])])
    }
}

impl fmt::Display for Time {
    fn fmt(&self, f: &mut fmt::Formatter<'_>) -> fmt::Result {
        let [least, median] = self.0;
        let places = f.precision().unwrap_or(3);
        write!(f, "{least:.places$} / {median:.places$}")
    }
}

/// The thousands of instructions of a whole and its parts; dashes where there is no valgrind.
fn thousands(counts: [Option<f64>; 5]) -> String {
    counts.map(|n| n.map_or("-".to_string(), |n| format!("{:.0}", n / 1000.0))).join(" | ")
}

fn print_row(row: Row) {
    let p = row.picture();
    let q = cut(&p);
    let given = Given::new(&p, &q);
    given.check();
    let mut runs = SIDES.map(|side| {
        let given = &given;
        move || given.run(side)
    });
    let times = in_turn(RUNS, runs.each_mut().map(|run| run as &mut dyn FnMut() -> f64));
    let [rust, sets, accept, rows, live] = times.map(|of| Time::of(&of));
    let less = |a: Time, b: Time| a.with(b, f64::sub);
    let port = less(live, accept);
    print!("| {} | {} | {} | {} |", row.name(), p.nblocks(), p.regs, p.locs.len());
    print!(" {rust} | {sets} | {port} | {} | {} | {:.1} |", less(rows, accept), less(live, rows), rust.with(port, f64::div));
    let [rust, sets, accept, rows, live] = SIDES.map(|side| counted(side.within(), &["live", "once", side.name(), &row.name()]));
    let less = |a: Option<f64>, b: Option<f64>| Some(a? - b?);
    println!(" {} |", thousands([rust, sets, less(live, accept), less(rows, accept), less(live, rows)]));
}

pub fn print_table(seed: u64) {
    println!("{HEAD}");
    Row::all(seed).into_iter().for_each(print_row);
}

#[cfg(test)]
mod tests {
    use super::*;

    #[test]
    fn both_sides_make_the_same_rows() {
        for row in Row::all(1) {
            let p = row.picture();
            Given::new(&p, &cut(&p)).check();
            assert_eq!(Row::named(&row.name()).map(|r| r.name()), Some(row.name()));
        }
    }

    #[test]
    fn most_of_the_long_lists_are_long() {
        let p = long_lists(1);
        let listed: Vec<u32> = p.records().map(|r| r.list().1).filter(|&n| n > 0).collect();
        assert!(listed.iter().all(|n| (16..=33).contains(n)) && listed.len() > INSTRUCTIONS * 7 / 10);
        assert!(p.ops.len() <= 131_072);
    }
}
