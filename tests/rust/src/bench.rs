//! How long the whole pass takes, the port over slices and the Rust, in one process and in turn. Printed as docs/BENCH.md.

use crate::accept;
use crate::boundary;
use crate::callgrind::counted;
use crate::copies::{copies, filled};
use crate::driver::Pass;
use crate::fact::Fact;
use crate::generate::{Size, bare};
use crate::kinds::{ALLOC, CAT, CMP, COND_BR, CONST, LOAD, RET, STMT, STORE};
use crate::oracle::{Lent, oracle_with_work};
use crate::picture::{Picture, Record};
use crate::port;
use crate::stack::stack;
use crate::time::{medians, once};

/// Seeds that are looked at.
const SEEDS: u64 = 1500;

const HEAD: &str = "# Times against the Rust

Written by `make bench`, which runs `compare bench` of tests/rust. Port and Rust run in one process, in turn, both as release builds. The times are medians, of the processor and not of the clock.

- The port is `virdzeba_sink_all` of crate `probe`: `sink::sink_all` over lent slices, with acceptance, the gates, predecessors and the facts on registers in its time. It allocates nothing.
- The Rust is `find_preds` and `sink_all` of `sink.rs` (docs/DIFFERENCES.md). Its facts on registers are found, and lengthened, before its time begins. Inside its time it allocates predecessors, live sets, the vectors and hash maps of each chain, and the code of the blocks that a move changes.
- Each run gets a fresh picture and, for the port, fresh work slices and a fresh list of 800 facts that hold something else. They are made before the time begins and dropped after its end. The room lent is what the rounds need, no more.
- Before it is timed, each picture's result is compared, word for word.
- Instructions are those that callgrind counts in one run of the same two functions (`valgrind --tool=callgrind --toggle-collect`), in thousands. They repeat where times do not. It counts each step of a repeated store (`rep stos`), so clearing memory weighs more there than in time.
";

/// A picture of the tables; `compare once` takes its name.
enum Row {
    /// A large generated picture.
    Seed(u64),
    /// One chain of so many instructions, nearly all of them members.
    Chain(usize),
    /// One whose members are dropped one by one, in so many steps.
    Dropped(u32),
    /// A large generated picture again and again, in 32,768 instructions.
    Again(u64),
    /// A chain of 60 that moves, and so many instructions in no chain.
    Beside(usize),
    /// The same, where nothing moves.
    Still(usize),
    /// So many instructions without a Cat, so that nothing is tried.
    Without(usize),
}

impl Row {
    fn named(name: &str) -> Option<Row> {
        let (kind, number) = name.split_once('-')?;
        let number: u64 = number.parse().ok()?;
        Some(match kind {
            "seed" => Row::Seed(number),
            "chain" => Row::Chain(number as usize),
            "dropped" => Row::Dropped(number as u32),
            "again" => Row::Again(number),
            "beside" => Row::Beside(number as usize),
            "still" => Row::Still(number as usize),
            "without" => Row::Without(number as usize),
            _ => return None,
        })
    }

    fn name(&self) -> String {
        match self {
            Row::Seed(n) => format!("seed-{n}"),
            Row::Chain(n) => format!("chain-{n}"),
            Row::Dropped(n) => format!("dropped-{n}"),
            Row::Again(n) => format!("again-{n}"),
            Row::Beside(n) => format!("beside-{n}"),
            Row::Still(n) => format!("still-{n}"),
            Row::Without(n) => format!("without-{n}"),
        }
    }

    fn picture(&self) -> Picture {
        match *self {
            Row::Seed(seed) => roomy(bare(seed, Size::Large)),
            Row::Chain(n) => roomy(bare_chain(n)),
            Row::Dropped(steps) => zigzag(steps),
            Row::Again(seed) => roomy(filled(copies(&bare(seed, Size::Large), 32000, 8), 32768)),
            Row::Beside(n) => roomy(beside(n, true)),
            Row::Still(n) => beside(n, false),
            Row::Without(n) => of_blocks(&unchained(n)),
        }
    }
}

/// A picture with the room that its rounds need.
fn roomy(mut p: Picture) -> Picture {
    let trace = Lent::new(&p).expect("no more types than the Rust has").wanted();
    if let Some(last) = trace.rounds.last() {
        p.types.resize(last.after.reg_ty.len(), 0);
        p.ops.resize(last.after.operands.len(), 0);
    }
    p
}

/// Blocks, instructions and the longest chain, in instructions.
fn sizes(p: &Picture) -> [usize; 3] {
    let lent = Lent::new(p).expect("no more types than the Rust has");
    let all = lent.overview(lent.entry);
    let chain = all.looks.iter().flatten().map(|l| l.positions.len()).max().unwrap_or(0);
    [p.nblocks(), p.locs.len(), chain]
}

/// A large generated picture: its seed, rounds and sizes.
struct Design {
    seed: u64,
    rounds: usize,
    sizes: [usize; 3],
}

/// The designs from a seed on; not those of which the Rust makes other rounds, since a block leads to block 0.
fn designs(seed: u64) -> Vec<Design> {
    let of = |seed: u64| {
        let p = bare(seed, Size::Large);
        let lent = Lent::new(&p).expect("few types");
        let wanted = lent.wanted();
        let rounds = if accept::gated(&p) { 0 } else { wanted.rounds.len() };
        (!lent.parts_from_document_01(&wanted)).then(|| Design { seed, rounds, sizes: sizes(&p) })
    };
    (seed..seed + SEEDS).filter_map(of).collect()
}

/// Of those with so many rounds at least, the one nearest to a size.
fn nearest(designs: &[Design], rounds: usize, size: [usize; 3]) -> u64 {
    let far = |d: &&Design| d.sizes.iter().zip(size).map(|(&a, b)| (a.max(1) as f64 / b as f64).ln().abs()).sum::<f64>();
    let some = designs.iter().filter(|d| d.rounds >= rounds);
    some.min_by(|a, b| far(a).total_cmp(&far(b))).expect("pictures that move").seed
}

/// So many instructions in blocks of a hundred that are in no chain.
fn unchained(instructions: usize) -> Vec<Vec<Record>> {
    let mut block = vec![Record::new(CMP, 0, &[0, 0, 0], (0, 0), &[]); 99];
    block.push(Record::new(RET, 0, &[], (0, 0), &[]));
    vec![block; instructions / 100]
}

/// The listing's first round, and so many instructions in no chain.
fn beside(instructions: usize, moves: bool) -> Picture {
    let mut blocks = boundary::chain(1, 60).blocks();
    if !moves {
        let end = blocks[0].len() - 1;
        blocks[0].insert(end, Record::new(STMT, 0, &[], (0, 0), &[]));
    }
    blocks.extend(unchained(instructions));
    of_blocks(&blocks)
}

/// These blocks over nine registers.
fn of_blocks(blocks: &[Vec<Record>]) -> Picture {
    let mut p = Picture::of_blocks(blocks);
    (p.types, p.regs) = (vec![0; 9], 9);
    p
}

/// One run of the port over fresh slices, in milliseconds.
fn port_once(p: &Picture) -> f64 {
    let work = p.work();
    let fresh = (p.clone(), vec![!0u64; work.w64], vec![!0u32; work.w32], vec![Fact::junk(!0); work.records]);
    once(fresh, |(mut p, mut work64, mut work32, mut facts)| {
        port::sink_all(&mut p, &mut work64, &mut work32, &mut facts, &mut [0; 2]);
        (p, work64, work32, facts)
    })
}

/// One run of the Rust, in milliseconds.
fn rust_once(lent: &Lent) -> f64 {
    Pass::sink_time(&lent.program, &lent.function, &lent.replay)
}

/// One run of one side on the picture of a row, for a profiler. Tells whether there is such a row and side.
pub fn run_once(side: &str, name: &str) -> bool {
    let Some(row) = Row::named(name) else { return false };
    let p = row.picture();
    match side {
        "port" => port_once(&p),
        "rust" => rust_once(&Lent::new(&p).expect("no more types than the Rust has")),
        _ => return false,
    };
    true
}

/// The thousands of instructions that one side takes on a row; a dash where there is no valgrind.
fn thousands(side: &str, row: &Row) -> String {
    let within = if side == "port" { "virdzeba_sink_all" } else { "*calls::the_pass*" };
    counted(within, &["once", side, &row.name()]).map_or("-".to_string(), |n| format!("{:.0}", n / 1000.0))
}

/// The medians of the Rust, the port, and the port's acceptance alone, once the results are the same.
fn times(p: &Picture) -> [f64; 3] {
    let work = p.work();
    let wanted = oracle_with_work(p).expect("no more types than the Rust has");
    let (mut q, mut out) = (p.clone(), [0; 2]);
    let mut facts = vec![Fact::junk(!0); work.records];
    let number = port::sink_all(&mut q, &mut vec![!0; work.w64], &mut vec![!0; work.w32], &mut facts, &mut out);
    [q.regs, q.opers] = out;
    assert!(number == wanted.answer.number() && q == wanted.picture, "the port's result is the Rust's");
    let lent = Lent::new(p).expect("no more types than the Rust has");
    let mut rust = || rust_once(&lent);
    let mut port = || port_once(p);
    let mut scan = || once(p, |p| port::refusal(p, work));
    medians([&mut rust, &mut port, &mut scan])
}

/// A row: the picture, its sizes and rounds, both times and their ratio, and both counts.
fn print_row(row: Row) {
    let p = row.picture();
    let outcome = oracle_with_work(&p).expect("no more types than the Rust has");
    let members: u32 = outcome.lines.iter().map(|l| l[3]).sum();
    let [blocks, instructions, chain] = sizes(&p);
    let [rust, port, scan] = times(&p);
    println!(
        "| {} | {blocks} | {instructions} | {} | {chain} | {} | {members} | {rust:.3} | {port:.3} | {:.1} | {scan:.3} | {} | {} |",
        row.name(),
        p.regs,
        outcome.lines.len(),
        rust / port,
        thousands("rust", &row),
        thousands("port", &row),
    );
}

/// The most stack that the port takes on one of these rows.
fn print_stack(rows: &[Row]) {
    let most = rows.iter().map(|row| {
        let mut p = row.picture();
        let work = p.work();
        let (mut work64, mut work32, mut facts) = (vec![!0u64; work.w64], vec![!0u32; work.w32], vec![Fact::junk(!0); work.records]);
        stack(&mut || {
            port::sink_all(&mut p, &mut work64, &mut work32, &mut facts, &mut [0; 2]);
        })
    });
    println!("\n## Stack\n\n{} bytes at most beside the lent slices, over {}; no heap.", most.max().unwrap_or(0), rows.iter().map(Row::name).collect::<Vec<_>>().join(", "));
}

fn print_head(what: &str, says: &str) {
    println!("\n## {what}\n\n{says}\n");
    println!("| picture | blocks | instructions | registers | longest chain | rounds | members | Rust, ms | port, ms | times as fast | acceptance alone, ms | Rust, 1000 instructions | port, 1000 instructions |");
    println!("|---|---:|---:|---:|---:|---:|---:|---:|---:|---:|---:|---:|---:|");
}

pub fn bench(seed: u64) {
    print!("{HEAD}");
    print_head("Designs, small to large", "`seed-N` is a generated picture, `chain-800` one chain of which nearly all is members, `dropped-199` one of 800 whose members are dropped one by one against its order, `again-N` copies of `seed-N`.");
    let all = designs(seed);
    for (rounds, size) in [(1, [7, 200, 50]), (3, [20, 400, 100]), (4, [40, 700, 250]), (5, [60, 1000, 400]), (8, [80, 1400, 550]), (6, [121, 2100, 730])] {
        print_row(Row::Seed(nearest(&all, rounds, size)));
    }
    print_row(Row::Chain(800));
    print_row(Row::Dropped(199));
    print_row(Row::Again(nearest(&all, 6, [121, 2100, 730])));
    print_head("Growth", "So many instructions in no chain beside a chain of 60 that moves, doubled from row to row.");
    for n in [1000, 2000, 4000, 8000, 16000, 32000] {
        print_row(Row::Beside(n));
    }
    print_head("Nothing to move", "To be held against acceptance alone. `without-N` has no Cat, so that nothing is tried; `still-N` has one, whose chain is tried in vain.");
    for n in [1000, 4000, 32000] {
        print_row(Row::Without(n));
    }
    for n in [1000, 4000, 32000] {
        print_row(Row::Still(n));
    }
    print_stack(&[Row::Seed(nearest(&all, 6, [121, 2100, 730])), Row::Chain(800), Row::Dropped(199), Row::Beside(32000)]);
}

/// A chain whose members are dropped one after the other, each for the last one's sake, against the order of the chain: load k + 1 reads
/// what store k writes, and store k writes what load k read, in a register that is written again at the end.
fn zigzag(steps: u32) -> Picture {
    let (block, loaded) = (|k: u32| 3 + k, |k: u32| 3 + steps + k);
    let mut x = vec![Record::new(CONST, 0, &[1], (0, 0), &[8, 0]), Record::new(ALLOC, 0, &[2, 1], (0, 0), &[])];
    x.extend((0..steps).map(|k| Record::new(ALLOC, 0, &[block(k), 1], (0, 0), &[])));
    x.extend((0..steps).map(|k| Record::new(LOAD, 3, &[loaded(k), if k == 0 { 0 } else { block(k - 1) }], (0, 0), &[])));
    x.extend((0..steps).map(|k| Record::new(STORE, 3, &[block(k), loaded(k)], (0, 0), &[])));
    x.extend((0..steps).map(|k| Record::new(CONST, 0, &[loaded(k)], (0, 0), &[8, 0])));
    x.push(Record::new(CAT, 0, &[2, 1, 1], (0, 0), &[]));
    x.push(Record::new(COND_BR, 0, &[0], (0, 0), &[1, 2]));
    let ret = vec![Record::new(RET, 0, &[], (0, 0), &[])];
    let mut p = Picture::of_blocks(&[x, ret.clone(), ret]);
    p.regs = 3 + 2 * steps;
    p.types = vec![0; p.regs as usize];
    p
}

fn bare_chain(instructions: usize) -> Picture {
    let mut p = boundary::chain(1, instructions);
    p.types.truncate(p.regs as usize);
    p.ops.truncate(p.opers as usize);
    p
}
