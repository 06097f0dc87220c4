//! Pictures at the bounds that document 01 names: the marked cases, the lengths of chains and lists, the rules, the causes of a
//! refusal, the program's sizes. Each says what its answer is, so that the Rust and the port are both held to the paper.

mod chains;
mod lengths;
mod memory;
mod registers;
mod sizes;

pub use sizes::largest;

use crate::bytes::{OPERANDS, REGISTERS};
use crate::kinds::*;
use crate::listing::listing;
use crate::picture::{ABSENT, Picture, Record};

/// A picture, the number that the host is given for it, and the members of all rounds.
pub struct Boundary {
    pub name: String,
    pub picture: Picture,
    pub number: u32,
    pub moved: u32,
}

type Blocks = Vec<Vec<Record>>;

pub fn op(kind: u32, slots: &[u32]) -> Record {
    Record::new(kind, 0, slots, (0, 0), &[])
}

pub fn br(to: u32) -> Record {
    Record::new(BR, 0, &[], (0, 0), &[to])
}

pub fn fork(t: u32, f: u32) -> Record {
    Record::new(COND_BR, 0, &[0], (0, 0), &[t, f])
}

fn constant(dst: u32, v: i64) -> Record {
    Record::new(CONST, 0, &[dst], (0, 0), &[v as u32, (v >> 32) as u32])
}

/// These blocks with the listing's types, or zeros past them, a loc for each instruction, and the program's room.
fn lay(blocks: &[Vec<Record>], regs: u32, ops: &[u32]) -> Picture {
    let mut p = Picture::of_blocks(blocks);
    for (k, loc) in p.locs.iter_mut().enumerate() {
        *loc = 1000 + k as u32;
    }
    (p.types, p.regs) = (vec![0; REGISTERS], regs);
    p.types[2] = 1;
    (p.ops, p.opers) = (ops.to_vec(), ops.len() as u32);
    p.ops.resize(OPERANDS.max(ops.len()), 0);
    p
}

/// The listing with its blocks changed.
fn listing_but(change: impl FnOnce(&mut Blocks)) -> Picture {
    let mut blocks = listing().blocks();
    change(&mut blocks);
    lay(&blocks, 9, &[])
}

/// The listing with a Cat's list of so many, of pairs of the block made here and a length.
fn cat_list(n: u32, scalars: u32) -> Picture {
    let ops: Vec<u32> = (0..n).map(|k| 2 - k % 2).collect();
    let mut blocks = listing().blocks();
    blocks[0][8] = Record::new(CAT, 0, &[2, 1, 1], (0, n), &[scalars]);
    lay(&blocks, 9, &ops)
}

/// The listing with so many blocks in its chain, and so many instructions in all of the chain, inner Brs not counted.
pub fn chain(blocks: usize, instructions: usize) -> Picture {
    let mut of = listing().blocks();
    let fork = of[0].pop().expect("a branch");
    let mut last = 0;
    for _ in 1..blocks {
        let next = of.len();
        of[last].push(br(next as u32));
        of.push(vec![op(COVER, &[])]);
        last = next;
    }
    of[last].push(fork);
    // What is missing goes before the Cat, as comparisons of the last ones in turn.
    let missing = instructions.saturating_sub(10 + blocks - 1);
    let more = (0..missing as u32).map(|k| op(CMP, &[3 + k % 6, 1, 3 + (k + 5) % 6]));
    of[0].splice(8..8, more);
    lay(&of, 9, &[])
}

/// Two MakeDopes into the block made here, and a call in the target, that share one list of so many.
pub fn shared_list(n: u32) -> Picture {
    let ops: Vec<u32> = (0..n).map(|k| 3 + k % 6).collect();
    let mut blocks = listing().blocks();
    let dope = Record::new(MAKE_DOPE, 0, &[2], (0, n), &[]);
    blocks[0].splice(8..8, [dope, dope]);
    blocks[1].insert(0, Record::new(CALL, 0, &[ABSENT], (0, n), &[]));
    lay(&blocks, 9, &ops)
}

/// So many blocks that each go on to the next by CondBr, and nobody reads what is made: all of it sinks block by block.
fn ladder(steps: u32) -> Picture {
    let mut first = listing().blocks()[0].clone();
    first.pop();
    lay(&rungs(steps, first, &[]), 9, &[])
}

/// The same with three Cmps, for replay; the Cat that the gate asks for stands at the end.
fn three_each(steps: u32) -> Picture {
    lay(&rungs(steps, (3..6).map(|r| op(CMP, &[r, 1, 1])).collect(), &[vec![op(CAT, &[1, 1, 1])]]), 6, &[])
}

fn rungs(steps: u32, mut first: Vec<Record>, more: &[Vec<Record>]) -> Blocks {
    first.push(fork(1, steps + 1));
    let mut blocks = vec![first];
    for step in 1..steps {
        blocks.push(vec![fork(step + 1, steps + 1 + step)]);
    }
    blocks.extend(vec![vec![op(RET, &[])]; steps as usize + 1]);
    blocks.extend_from_slice(more);
    blocks
}

/// The listing's blocks in this order; `order[new]` is the old block.
fn reordered(order: [u32; 3]) -> Picture {
    let old = listing().blocks();
    let place = |b: u32| order.iter().position(|&o| o == b).expect("all three") as u32;
    let mut blocks: Blocks = order.iter().map(|&b| old[b as usize].clone()).collect();
    let x = place(0) as usize;
    blocks[x][9] = fork(place(1), place(2));
    lay(&blocks, 9, &[])
}

/// These blocks, lent with the listing's types, behind one in which the function begins.
fn behind(entry: Vec<Record>, of: &Picture) -> Picture {
    let mut blocks = of.blocks();
    for r in blocks.iter_mut().flatten() {
        let words = match r.kind() {
            BR => 9..10,
            COND_BR => 9..11,
            _ => 0..0,
        };
        r.0[words].iter_mut().for_each(|to| *to += 1);
    }
    blocks.insert(0, entry);
    lay(&blocks, of.regs, &of.ops[..of.opers as usize])
}

/// The bounds within the program's sizes.
pub fn boundaries() -> Vec<Boundary> {
    let mut all = Vec::new();
    let mut add = |name: &str, number: u32, moved: u32, picture: Picture| {
        all.push(Boundary { name: name.into(), picture, number, moved });
    };
    chains::add_all(&mut add);
    lengths::add_all(&mut add);
    memory::add_all(&mut add);
    registers::add_all(&mut add);
    sizes::add_all(&mut add);
    all
}

/// Those that show much what another shows: they are run, and not kept as rows or stored.
pub fn alike(name: &str) -> bool {
    (3..6).any(|n| name == format!("a chain of {n} blocks"))
        || (name.starts_with("a length and ") && name != "a length and a word of the pool")
        || (name.ends_with("written before it") && !name.contains("frame"))
        || name.starts_with("a read of a package, ")
        || (name.ends_with("in the chain behind x") && !name.starts_with("Call"))
}

/// The listing's Const, Alloc and Cat with `read` as the third that moves, block 1 being in replay, and these around it; r9 and
/// r10 are free for them.
fn reading(before: &[Record], read: Record, after: &[Record]) -> Picture {
    let mut blocks = listing().blocks();
    blocks[0].splice(2..8, before.iter().copied().chain([read]).chain(after.iter().copied()));
    replay(lay(&blocks, 11, &[1]), &[1])
}

/// Block 0 of these with block 1 in replay, so that three members are enough; the Cat that the gate asks for is in block 2.
fn three(x: &[Record]) -> Picture {
    let first = [&[constant(1, 8)], x, &[fork(1, 2)]].concat();
    replay(lay(&[first, vec![op(OUTPUT, &[5, 5])], vec![op(CAT, &[1, 1, 1])]], 11, &[1]), &[1])
}

fn with_vias(mut p: Picture) -> Picture {
    p.vias = (0..p.locs.len() as u32).map(|k| k % 7).collect();
    p
}

fn replay(mut p: Picture, list: &[u32]) -> Picture {
    p.replay = list.to_vec();
    p
}
