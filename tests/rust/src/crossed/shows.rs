//! What a picture shows: its answer, its rounds, and what decides about them.

use std::collections::BTreeSet;

use crate::accept;
use crate::driver::Trace;
use crate::kinds::{self, KINDS};
use crate::oracle::{Answer, Lent, Outcome, oracle_with_work};
use crate::picture::{Picture, Record};
use crate::rules::{Chain, RULES};

/// What a picture shows, in words.
pub fn features(p: &Picture, trace: &Trace, out: &Outcome) -> BTreeSet<String> {
    let mut f = BTreeSet::new();
    let (name, rounds) = match out.answer {
        Answer::Done(n) => ("done", n),
        Answer::Short(n) => ("short", n),
        Answer::Refused(n) => ("refused", n),
    };
    f.insert(format!("{name} {rounds}"));
    if name == "short" {
        let next = &trace.rounds[rounds as usize].after;
        if next.reg_ty.len() > p.types.len() {
            f.insert("short by a register".into());
        } else {
            f.insert("short by an operand".into());
        }
    }
    if accept::gated(p) {
        f.insert("gated".into());
    }
    let moves = rounds > 0;
    let mut before = p.clone();
    for (round, line) in trace.rounds.iter().zip(&out.lines) {
        f.insert(if round.into < round.from { "target before x" } else { "target after x" }.into());
        f.insert(format!("chain of {}", round.chain.len()));
        if before.places(round.into).is_empty() {
            f.insert("empty target".into());
        }
        for id in &round.after.loc[round.into][..round.moved] {
            f.insert(format!("moves {}", KINDS[p.record(id.place as usize).kind() as usize].name));
        }
        if line[5] > before.opers {
            f.insert("new list".into());
        }
        let new = &round.after.reg_ty[before.regs as usize..];
        if new.contains(&crate::RegTy::Sig) {
            f.insert("new Sig".into());
        }
        let writing = round.moved - round.after.code[round.into][..round.moved].iter().filter(|i| writes_none(i)).count();
        if new.iter().filter(|t| **t != crate::RegTy::Sig).count() < writing {
            f.insert("a register reused".into());
        }
        // which branch the target is, and whether its own code was renamed
        let branch = p.records().filter(|r| r.kind() == kinds::COND_BR).find(|r| r.0[9] == round.into as u32 || r.0[10] == round.into as u32);
        if let Some(b) = branch {
            f.insert(if b.0[9] == round.into as u32 { "target t" } else { "target f" }.into());
        }
        let own: Vec<u32> = round.after.loc[round.into][round.moved..].iter().map(|s| s.place).collect();
        let after = crate::convert::picture(p, &crate::convert::Types::of(&p.types[..p.regs as usize]).expect("few types"), &round.after);
        for (k, place) in own.iter().enumerate() {
            let new = after.record(after.places(round.into).start + round.moved + k);
            let old = before.records().zip(&before.locs).find(|(_, l)| **l == p.locs[*place as usize]).map(|(r, _)| r);
            if let Some(old) = old {
                if old.slots() != new.slots() {
                    f.insert("target renamed".into());
                }
                if old.list() != new.list() {
                    f.insert("target's list renamed".into());
                }
            }
        }
        before = after;
    }
    if moves {
        f.insert(if p.replay.is_empty() { "moves without replay" } else { "moves with replay" }.into());
        f.insert(if p.vias.is_empty() { "moves without vias" } else { "moves with vias" }.into());
    }
    f
}

/// What decides about the first round: a rule without which more would move, or a constant just past the bound of a length.
pub fn decided(p: &Picture, lent: &Lent) -> BTreeSet<String> {
    let mut f = BTreeSet::new();
    if accept::gated(p) {
        return f;
    }
    if lent.parts_from_document_01(&lent.wanted()) {
        f.insert("the start of the function decides".into());
    }
    let all = lent.overview(lent.entry);
    'blocks: for (x, look) in all.looks.iter().enumerate() {
        let Some(look) = look else { continue };
        let code: Vec<Record> = p.places(x).map(|k| p.record(k)).collect();
        let replay = [look.t, look.f].iter().any(|b| lent.replay.contains(b));
        let least = if replay { 3 } else { 8 };
        let cat = code[..code.len() - 1].iter().any(|r| r.kind() == kinds::CAT && r.form() == 0);
        if code.len() <= least || !(replay || cat) {
            continue;
        }
        let last = *look.blocks.last().expect("x at least") as u32;
        for (target, other) in [(look.t, look.f), (look.f, look.t)] {
            if look.blocks.contains(&target) || all.preds[target] != [last] {
                continue;
            }
            let chain = Chain::new(p, &all, x, look, target, other);
            let count = |s: &[bool]| s.iter().filter(|m| **m).count();
            let set = chain.greatest(None);
            if count(&set) + 1 == least {
                f.insert(format!("{} members are too few", least - 1));
            }
            for (rule, name) in RULES {
                let more = chain.greatest(Some(rule));
                if more != set && count(&more) >= least {
                    f.insert(format!("{name} decides"));
                }
            }
            if count(&set) >= least {
                break 'blocks;
            }
        }
    }
    for (what, other) in [("a constant just past a length", within_length(p)), ("a second writer", one_writer(p)), ("a seventh block", six_blocks(p))] {
        let lines = |p: &Picture| oracle_with_work(p).expect("few types").lines;
        if other.is_some_and(|q| lines(&q) != lines(p)) {
            f.insert(format!("{what} decides"));
        }
    }
    f
}

/// The picture with its constants of 2^40 + 1, or less than -2^40 by one, within the bound.
fn within_length(p: &Picture) -> Option<Picture> {
    let edge = 1u64 << 40;
    let mut q = p.clone();
    for k in 0..p.locs.len() {
        let mut r = p.record(k);
        let v = u64::from(r.0[10]) << 32 | u64::from(r.0[9]);
        if r.kind() == kinds::CONST && (v == edge + 1 || v == (edge + 1).wrapping_neg()) {
            let v = if v == edge + 1 { edge } else { edge.wrapping_neg() };
            (r.0[9], r.0[10]) = (v as u32, (v >> 32) as u32);
            q.set_record(k, r);
        }
    }
    (q != *p).then_some(q)
}

/// The picture without a Const that repeats the one before it.
fn one_writer(p: &Picture) -> Option<Picture> {
    let k = (1..p.locs.len()).find(|&k| p.record(k).kind() == kinds::CONST && p.record(k).0[..11] == p.record(k - 1).0[..11])?;
    let mut q = p.clone();
    q.set_record(k, Record::new(kinds::COVER, 0, &[], (0, 0), &[]));
    Some(q)
}

/// The picture with the first block that is nothing but a Br left out of the way.
fn six_blocks(p: &Picture) -> Option<Picture> {
    let lone = |b: usize| p.places(b).len() == 1 && p.record(p.places(b).start).kind() == kinds::BR;
    let b = (0..p.nblocks()).find(|&b| lone(b))?;
    let to = p.record(p.places(b).start).0[9];
    let from = (0..p.locs.len()).find(|&k| p.record(k).kind() == kinds::BR && p.record(k).0[9] == b as u32)?;
    let mut q = p.clone();
    let mut r = p.record(from);
    r.0[9] = to;
    q.set_record(from, r);
    q.set_record(p.places(b).start, Record::new(kinds::RET, 0, &[], (0, 0), &[]));
    Some(q)
}

fn writes_none(i: &crate::Inst) -> bool {
    let mut none = true;
    i.visit(&mut |_, role, _| none &= role != crate::Role::Def);
    none
}
