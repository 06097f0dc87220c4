//! Larger pictures: one picture again and again, filled up, or with its registers spread over more of them.

use crate::kinds::{BR, CASE, COND_BR, KINDS, STMT};
use crate::picture::{ABSENT, Picture, Record};
use crate::random::Random;

/// The picture with its registers somewhere among so many, so that rows of bits are longer than one word.
pub fn spread(p: &Picture, registers: usize, rnd: &mut Random) -> Picture {
    let mut place: Vec<u32> = (0..registers.max(p.regs as usize) as u32).collect();
    rnd.shuffle(&mut place);
    let mut q = p.clone();
    // What is not used has a type that is.
    q.types = place.iter().map(|_| if p.regs == 0 { 0 } else { p.types[rnd.below(p.regs as usize)] }).collect();
    for r in 0..p.regs as usize {
        q.types[place[r] as usize] = p.types[r];
    }
    q.regs = q.types.len() as u32;
    for k in 0..p.locs.len() {
        let mut r = p.record(k);
        for slot in r.0[2..7].iter_mut().filter(|slot| **slot != ABSENT) {
            *slot = place[*slot as usize];
        }
        q.set_record(k, r);
    }
    for o in &mut q.ops[..p.opers as usize] {
        *o = place[*o as usize];
    }
    q
}

/// Copies of a picture one behind the other, as many as fit into so many instructions and 4,096 blocks. `groups` of them in
/// turn have registers and lists of their own.
pub fn copies(p: &Picture, instructions: usize, groups: usize) -> Picture {
    let (code, many) = (p.locs.len(), p.nblocks());
    let copies = (instructions / code).min(4096 / many).max(1);
    let groups = groups.min(copies);
    let mut blocks = Vec::new();
    let mut q = Picture::default();
    let mut locs = Vec::new();
    for c in 0..copies {
        let g = (c % groups) as u32;
        let (to, tables) = ((c * many) as u32, (c * p.pairs.len() / 2) as u32);
        for b in p.blocks() {
            blocks.push(b.iter().map(|r| moved(r, g * p.regs, g * p.opers, to, tables)).collect::<Vec<Record>>());
        }
        for pair in p.pairs.chunks(2) {
            q.pairs.extend([pair[0] + (c * p.targets.len()) as u32, pair[1]]);
        }
        q.targets.extend(p.targets.iter().map(|t| t + to));
        q.replay.extend(p.replay.iter().filter(|b| (**b as usize) < many).map(|b| b + to));
        locs.extend(p.locs.iter().map(|l| l.wrapping_add(c as u32)));
        q.vias.extend_from_slice(&p.vias);
    }
    for g in 0..groups as u32 {
        q.types.extend_from_slice(&p.types[..p.regs as usize]);
        q.ops.extend(p.ops[..p.opers as usize].iter().map(|r| r + g * p.regs));
    }
    let laid = Picture::of_blocks(&blocks);
    (q.bounds, q.recs, q.locs) = (laid.bounds, laid.recs, locs);
    (q.regs, q.opers) = (q.types.len() as u32, q.ops.len() as u32);
    q
}

/// The picture, with empty statements in a last block up to so many instructions.
pub fn filled(mut p: Picture, instructions: usize) -> Picture {
    let more = instructions - p.locs.len();
    p.bounds.extend([p.locs.len() as u32, instructions as u32]);
    p.recs.extend(Record::new(STMT, 0, &[], (0, 0), &[]).0.repeat(more));
    p.locs.resize(instructions, 0);
    if !p.vias.is_empty() {
        p.vias.resize(instructions, 0);
    }
    p
}

/// A record with its registers, list, branches and case table moved on by so much.
fn moved(r: &Record, regs: u32, opers: u32, to: u32, tables: u32) -> Record {
    let mut w = r.0;
    for slot in &mut w[2..7] {
        if *slot != ABSENT {
            *slot += regs;
        }
    }
    if KINDS[r.kind() as usize].list {
        w[7] += opers;
    }
    match r.kind() {
        BR => w[9] += to,
        COND_BR => (w[9], w[10]) = (w[9] + to, w[10] + to),
        CASE => w[9] += tables,
        _ => {}
    }
    Record(w)
}
