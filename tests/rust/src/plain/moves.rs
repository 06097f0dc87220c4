//! The move (document 01): members go to the target's head in order, with new registers as `apply` in 000 gives them.

use std::collections::BTreeMap;

use super::Round;
use super::chain::Chain;
use super::facts::Fact;
use super::flow::Flow;
use super::roles;
use crate::picture::{Picture, Record};

/// The types that say something; others are only compared.
const I64: u32 = 0;
const SIG: u32 = 4;

/// The round that moves these members, places in the chain, to a target.
pub fn round(p: &Picture, flow: &Flow, chain: Chain, facts: &[Fact], target: usize, members: &[usize]) -> Round {
    // What is last written by a member and live into the target is read there.
    let wanted = |m: usize, r: u32| flow.live_in[target][r as usize] && facts[m + 1..].iter().all(|q| !q.writes.contains(&r));
    let ends = |m: usize| match facts[m].writes.iter().any(|&r| wanted(m, r)) {
        true => usize::MAX,
        false => facts[m].readers.iter().copied().max().unwrap_or(m),
    };
    let mut after = p.clone();
    let new = registers(&mut after, facts, members, ends);
    let mut head = Vec::new();
    let mut into_target = BTreeMap::new();
    for &m in members {
        let place = chain.places[m];
        head.push((place, member(&mut after, p.record(place), &facts[m], new.get(&m), &new)));
        for &r in facts[m].writes.iter().filter(|&&r| wanted(m, r)) {
            into_target.insert(r, new[&m]);
        }
    }
    head.extend(renamed(p, &mut after, target, into_target));
    let members: Vec<usize> = members.iter().map(|&m| chain.places[m]).collect();
    let was = lay(p, &mut after, target, &head, &members);
    Round { from: chain.blocks[0], into: target, chain: chain.blocks, members, after, was }
}

/// Adds a word to a lent list, where so many are in use.
fn add(lent: &mut Vec<u32>, used: &mut u32, word: u32) {
    match lent.get_mut(*used as usize) {
        Some(room) => *room = word,
        None => lent.push(word),
    }
    *used += 1;
}

/// The new register of each member that writes one. A register is reused, last freed first, once its last reader is before the
/// present member; one of the same type, as all else is by type.
fn registers(after: &mut Picture, facts: &[Fact], members: &[usize], ends: impl Fn(usize) -> usize) -> BTreeMap<usize, u32> {
    let mut new = BTreeMap::new();
    let mut free: Vec<u32> = Vec::new();
    let mut held: Vec<(usize, u32)> = Vec::new();
    for &m in members {
        free.extend(held.iter().filter(|h| h.0 < m).map(|h| h.1));
        held.retain(|h| h.0 >= m);
        for &r in &facts[m].writes {
            let of = after.types[r as usize];
            let reg = match free.iter().rposition(|&f| after.types[f as usize] == of) {
                Some(k) => free.remove(k),
                None => made(after, of),
            };
            new.insert(m, reg);
            held.push((ends(m), reg));
        }
    }
    new
}

/// A register more; a Sig takes the next one as well.
fn made(after: &mut Picture, of: u32) -> u32 {
    let reg = after.regs;
    add(&mut after.types, &mut after.regs, of);
    if of == SIG {
        add(&mut after.types, &mut after.regs, I64);
    }
    reg
}

/// A record with this list. A changed one is appended to the operands.
fn with_list(after: &mut Picture, r: &mut Record, list: &[u32]) {
    if after.list_of(r) != list {
        r.0[7] = after.opers;
        for &reg in list {
            add(&mut after.ops, &mut after.opers, reg);
        }
    }
}

/// A member's record: it writes its new register, and reads those of the members that wrote what it reads.
fn member(after: &mut Picture, mut r: Record, fact: &Fact, own: Option<&u32>, new: &BTreeMap<usize, u32>) -> Record {
    let now: Vec<u32> = fact.reads.iter().map(|read| read.writer.and_then(|w| new.get(&w)).copied().unwrap_or(read.register)).collect();
    let slots = roles::reading(&r);
    for (&slot, &reg) in slots.iter().zip(&now) {
        r.0[2 + slot] = reg;
    }
    for slot in roles::writing(&r) {
        r.0[2 + slot] = *own.expect("a member that writes has a new register");
    }
    with_list(after, &mut r, &now[slots.len()..]);
    r
}

/// The target's own records: reads before the target's own write are renamed.
fn renamed(p: &Picture, after: &mut Picture, target: usize, mut names: BTreeMap<u32, u32>) -> Vec<(usize, Record)> {
    let mut out = Vec::new();
    for place in p.places(target) {
        let mut r = p.record(place);
        let written = roles::writes(&r);
        let name = |reg: u32| names.get(&reg).copied().unwrap_or(reg);
        for slot in roles::reading(&r) {
            r.0[2 + slot] = name(r.0[2 + slot]);
        }
        let list: Vec<u32> = p.list_of(&r).iter().map(|&reg| name(reg)).collect();
        with_list(after, &mut r, &list);
        for w in written {
            names.remove(&w);
        }
        out.push((place, r));
    }
    out
}

/// Lays all blocks anew: the target with these records, the others without the members. Returns where each position was.
fn lay(p: &Picture, after: &mut Picture, target: usize, head: &[(usize, Record)], members: &[usize]) -> Vec<usize> {
    let mut was = Vec::new();
    (after.bounds, after.recs) = (Vec::new(), Vec::new());
    for b in 0..p.nblocks() {
        let kept: Vec<(usize, Record)> = p.places(b).filter(|k| !members.contains(k)).map(|k| (k, p.record(k))).collect();
        after.bounds.push(was.len() as u32);
        for (place, r) in if b == target { head } else { &kept } {
            was.push(*place);
            after.recs.extend_from_slice(&r.0);
        }
        after.bounds.push(was.len() as u32);
    }
    after.locs = was.iter().map(|&k| p.locs[k]).collect();
    if !p.vias.is_empty() {
        after.vias = was.iter().map(|&k| p.vias[k]).collect();
    }
    was
}
