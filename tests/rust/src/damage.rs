//! Damaged pictures, one way to damage a picture for each clause of document 01's table of causes, just past its bound and,
//! where that says something, just within it. Then pictures with some words altered, and pictures of random words.

use crate::kinds::*;
use crate::picture::{ABSENT, Picture, RECORD, Record};
use crate::random::Random;

/// A way to damage a picture: the cause that is then present (0: still accepted), and the deed, which says whether it
/// could be done.
pub struct Damage {
    pub cause: u32,
    pub what: &'static str,
    pub deed: fn(&mut Picture, &mut Random) -> bool,
}

macro_rules! damages {
    ($($cause:literal $what:literal $deed:expr;)*) => {
        pub const DAMAGES: &[Damage] = &[$(Damage { cause: $cause, what: $what, deed: $deed }),*];
    };
}

damages! {
    1 "4,097 blocks" |p, _| grow_blocks(p, 4097);
    0 "4,096 blocks" |p, _| grow_blocks(p, 4096);
    1 "4,097 whole pairs and a word" |p, _| grow_blocks(p, 4097) && push(&mut p.bounds, 0);
    1 "32,769 instructions" |p, _| grow_code(p, 32769);
    0 "32,768 instructions" |p, _| grow_code(p, 32768);
    1 "65,537 registers lent" |p, _| resize(&mut p.types, 65537);
    0 "65,536 registers lent" |p, _| resize(&mut p.types, 65536);
    1 "131,073 operands lent" |p, _| resize(&mut p.ops, 131073);
    0 "131,072 operands lent" |p, _| resize(&mut p.ops, 131072);
    1 "65,537 pair words" |p, _| resize(&mut p.pairs, 65537);
    0 "65,536 pair words" |p, _| { p.targets.push(0); p.pairs = [p.targets.len() as u32 - 1, 1].repeat(32768); p.nblocks() > 0 };
    1 "65,537 target words" |p, _| resize(&mut p.targets, 65537);
    0 "65,536 target words" |p, _| p.nblocks() > 0 && resize(&mut p.targets, 65536);
    1 "more registers in use than lent" |p, _| { p.regs = p.types.len() as u32 + 1; true };
    1 "more operands in use than lent" |p, _| { p.opers = p.ops.len() as u32 + 1; true };
    2 "a record word too few" |p, _| p.recs.pop().is_some();
    2 "a record word too many" |p, _| push(&mut p.recs, 0);
    2 "a loc too many" |p, _| push(&mut p.locs, 0);
    2 "a via too few" |p, _| { p.vias = vec![3; p.locs.len()]; p.vias.pop(); !p.vias.is_empty() };
    2 "a via too many" |p, _| { p.vias = vec![3; p.locs.len() + 1]; true };
    2 "odd block words" |p, _| push(&mut p.bounds, 0);
    2 "odd pair words" |p, _| push(&mut p.pairs, 0);
    3 "a block starts late" |p, r| block(p, r, |p, b| { p.bounds[2 * b] += 1; true });
    3 "a block ends early" |p, r| block(p, r, |p, b| p.bounds[2 * b + 1] > 0 && { p.bounds[2 * b + 1] -= 1; true });
    3 "an end below its start" |p, r| block(p, r, |p, b| p.bounds[2 * b] > 0 && { p.bounds[2 * b + 1] = p.bounds[2 * b] - 1; true });
    3 "the last block ends past the code" |p, _| p.bounds.last_mut().map(|e| *e += 1).is_some();
    3 "code behind the last block" |p, _| { p.recs.extend(Record::new(STMT, 0, &[], (0, 0), &[]).0); p.locs.push(0); if !p.vias.is_empty() { p.vias.push(0) }; true };
    0 "an empty block at the end" |p, _| { let n = p.locs.len() as u32; p.bounds.extend([n, n]); true };
    4 "kind 101" |p, r| record(p, r, |_| true, |w, _| w[0] = 101);
    4 "kind 4294967295" |p, r| record(p, r, |_| true, |w, _| w[0] = ABSENT);
    4 "a form past the last" |p, r| record(p, r, |_| true, |w, _| w[1] = KINDS[w[0] as usize].forms.1 + 1);
    4 "Load or Store of form 0" |p, r| record(p, r, |k| k == LOAD || k == STORE, |w, _| w[1] = 0);
    4 "scalars 65,536" |p, r| record(p, r, |k| k == CAT, |w, _| w[9] = 65536);
    0 "scalars 65,535" |p, r| record(p, r, |k| k == CAT, |w, _| w[9] = 65535);
    5 "a register R" |p, r| slot(p, r, |there| there, |p| p.regs);
    0 "a register R - 1" |p, r| p.regs > 0 && slot(p, r, |there| there, |p| p.regs - 1);
    5 "a slot present that is not visited" |p, r| slot(p, r, |there| !there, |_| 0);
    5 "a slot absent that is visited" |p, r| slot(p, r, |there| there, |_| ABSENT);
    5 "4294967294 where a slot may be absent" |p, r| record(p, r, |k| k == RET, |w, _| w[2] = ABSENT - 1);
    5 "one of two part registers" |p, r| record(p, r, |k| k == SIG_GATHER, |w, r| { let k = 4 + r.below(2); w[k] = if w[k] == ABSENT { 0 } else { ABSENT } });
    6 "a list on a kind without one" |p, r| record(p, r, |k| !KINDS[k as usize].list, |w, _| w[8] = 1);
    6 "a list start on a kind without one" |p, r| record(p, r, |k| !KINDS[k as usize].list, |w, _| w[7] = 1);
    6 "a list past the operands" |p, r| { let n = p.opers; record(p, r, |k| KINDS[k as usize].list && k != CAT, |w, _| (w[7], w[8]) = (n, 1)) };
    6 "an empty list past the operands" |p, r| { let n = p.opers; record(p, r, |k| KINDS[k as usize].list, |w, _| (w[7], w[8]) = (n + 1, 0)) };
    0 "an empty list at the end of the operands" |p, r| { let n = p.opers; record(p, r, |k| KINDS[k as usize].list, |w, _| (w[7], w[8]) = (n, 0)) };
    6 "start and length that wrap round" |p, r| record(p, r, |k| KINDS[k as usize].list && k != CAT, |w, _| (w[7], w[8]) = (ABSENT, 2));
    6 "an operand R" |p, r| p.opers > 0 && { let k = r.below(p.opers as usize); p.ops[k] = p.regs; true };
    0 "an operand R - 1" |p, r| p.opers > 0 && p.regs > 0 && { let k = r.below(p.opers as usize); p.ops[k] = p.regs - 1; true };
    7 "a Br to no block" |p, r| { let n = p.nblocks() as u32; record(p, r, |k| k == BR, |w, _| w[9] = n) };
    7 "a CondBr's t to no block" |p, r| { let n = p.nblocks() as u32; record(p, r, |k| k == COND_BR, |w, _| w[9] = n) };
    7 "a CondBr's f to no block" |p, r| { let n = p.nblocks() as u32; record(p, r, |k| k == COND_BR, |w, _| w[10] = n) };
    7 "a case target that is no block, in no pair" |p, _| { let n = p.nblocks() as u32; push(&mut p.targets, n) };
    7 "an empty case pair" |p, _| { p.pairs.extend([0, 0]); true };
    7 "a case pair past its targets" |p, _| { let n = p.targets.len() as u32; p.pairs.extend([n, 1]); true };
    0 "a case pair up to the last target" |p, _| { let n = p.targets.len() as u32; p.targets.push(0); p.pairs.extend([n, 1]); p.nblocks() > 0 };
    8 "a Cat list of 34" |p, r| cat_list(p, r, 34);
    0 "a Cat list of 33" |p, r| cat_list(p, r, 33);
    9 "a type in use of 8" |p, r| p.regs > 0 && { let k = r.below(p.regs as usize); p.types[k] = 8; true };
    0 "512 registers and 4,096 blocks, within the gate" |p, _| grow_blocks(p, 4096) && grow_registers(p, 512);
    0 "513 registers and 4,096 blocks, past the gate" |p, _| grow_blocks(p, 4096) && grow_registers(p, 513);
    0 "512 registers in use, 600 lent, and 4,096 blocks, within the gate" |p, _| grow_blocks(p, 4096) && grow_registers(p, 512) && resize(&mut p.types, 600);
    0 "no Cat of form 0 left, past the gate" |p, _| { while record(p, &mut Random::new(0), |k| k == CAT, |w, _| *w = Record::new(STMT, 0, &[], (0, 0), &[]).0) {}; true };
    0 "a type of 8 past those in use" |p, _| { p.types.truncate(p.regs as usize); push(&mut p.types, 8) };
}

/// Adds a second cause to a picture that was damaged so, where that can be done; it says which.
pub fn damage_again(p: &mut Picture, first: &Damage, rnd: &mut Random) -> Option<&'static str> {
    let second = &DAMAGES[rnd.below(DAMAGES.len())];
    // Damages above 3 take records apart, so that lengths and kinds must still be in order.
    let whole = first.cause == 0 || first.cause > 4;
    (second.cause > 0 && (whole || second.cause <= 3) && (second.deed)(p, rnd)).then_some(second.what)
}

fn push(list: &mut Vec<u32>, w: u32) -> bool {
    list.push(w);
    true
}

fn resize(list: &mut Vec<u32>, n: usize) -> bool {
    list.resize(n, 0);
    true
}

fn grow_blocks(p: &mut Picture, n: usize) -> bool {
    let end = p.locs.len() as u32;
    p.bounds.resize(2 * n, end);
    true
}

fn grow_registers(p: &mut Picture, n: usize) -> bool {
    p.types.truncate(p.regs as usize);
    p.types.resize(n.max(p.types.len()), 0);
    p.regs = p.types.len() as u32;
    p.regs as usize == n
}

fn grow_code(p: &mut Picture, n: usize) -> bool {
    let stmt = Record::new(STMT, 0, &[], (0, 0), &[]).0;
    while p.locs.len() < n {
        p.recs.extend_from_slice(&stmt);
        p.locs.push(0);
    }
    if !p.vias.is_empty() {
        p.vias.resize(n, 0);
    }
    p.bounds.last_mut().map(|e| *e = n as u32).is_some()
}

fn block(p: &mut Picture, r: &mut Random, deed: fn(&mut Picture, usize) -> bool) -> bool {
    p.nblocks() > 0 && {
        let b = r.below(p.nblocks());
        deed(p, b)
    }
}

/// Changes one record of a kind that passes the test.
fn record(p: &mut Picture, r: &mut Random, test: impl Fn(u32) -> bool, deed: impl Fn(&mut [u32; RECORD], &mut Random)) -> bool {
    let fits: Vec<usize> = (0..p.locs.len()).filter(|&k| test(p.record(k).kind())).collect();
    !fits.is_empty() && {
        let k = r.pick(&fits);
        let mut rec = p.record(k);
        deed(&mut rec.0, r);
        p.set_record(k, rec);
        true
    }
}

/// Changes a slot that is always visited, or one that never is.
fn slot(p: &mut Picture, r: &mut Random, which: fn(bool) -> bool, word: fn(&Picture) -> u32) -> bool {
    let mut fits = Vec::new();
    for (k, rec) in p.records().enumerate() {
        for (s, slot) in slots(rec.kind(), rec.form()).iter().enumerate() {
            if matches!(slot, Slot::Def | Slot::Use | Slot::Off) && which(*slot != Slot::Off) {
                fits.push((k, s));
            }
        }
    }
    !fits.is_empty() && {
        let (k, s) = r.pick(&fits);
        p.recs[RECORD * k + 2 + s] = word(p);
        true
    }
}

fn cat_list(p: &mut Picture, r: &mut Random, n: u32) -> bool {
    if p.regs == 0 {
        return false;
    }
    p.ops.truncate(p.opers as usize);
    let start = p.opers;
    for _ in 0..n {
        p.ops.push(r.below(p.regs as usize) as u32);
    }
    p.opers += n;
    record(p, r, |k| k == CAT, |w, _| (w[7], w[8]) = (start, n))
}

/// A word that is near some bound, or any.
fn some_word(p: &Picture, rnd: &mut Random) -> u32 {
    let near = [0, 1, 7, 33, 100, p.regs, p.opers, p.nblocks() as u32, p.locs.len() as u32, p.targets.len() as u32, ABSENT];
    match rnd.below(4) {
        0 => rnd.word() as u32,
        1 => rnd.pick(&near).wrapping_sub(1),
        2 => rnd.pick(&near).wrapping_add(1),
        _ => rnd.pick(&near),
    }
}

/// Changes one word, mostly of a record, or one of the counts in use.
pub fn alter(p: &mut Picture, rnd: &mut Random) {
    let word = some_word(p, rnd);
    let lists = [&mut p.bounds, &mut p.types, &mut p.ops, &mut p.pairs, &mut p.targets];
    match rnd.below(20) {
        0 => p.regs = word,
        1 => p.opers = word,
        at @ 2..7 => put(lists.into_iter().nth(at - 2).expect("five lists"), word, rnd),
        _ => put(&mut p.recs, word, rnd),
    }
}

fn put(list: &mut [u32], word: u32, rnd: &mut Random) {
    if !list.is_empty() {
        list[rnd.below(list.len())] = word;
    }
}

/// Random words in slices of random lengths; often the lengths fit each other, so that more than lengths is looked at.
pub fn any_words(rnd: &mut Random) -> Picture {
    let mut p = Picture::default();
    let most = rnd.pick(&[1, 5, 101, u32::MAX as usize]);
    let words = |rnd: &mut Random, n: usize| (0..n).map(|_| rnd.below(most) as u32).collect::<Vec<u32>>();
    let code = rnd.below(6);
    let uneven = usize::from(rnd.chance(20));
    p.locs = words(rnd, code);
    p.recs = words(rnd, RECORD * code + uneven);
    let vias = rnd.pick(&[0, 0, code, code + 1]);
    p.vias = words(rnd, vias);
    let lengths = [rnd.below(8), rnd.below(8), rnd.below(8), rnd.below(8)];
    p.types = words(rnd, lengths[0]);
    p.ops = words(rnd, lengths[1]);
    p.pairs = words(rnd, lengths[2]);
    p.targets = words(rnd, lengths[3]);
    p.regs = rnd.below(p.types.len() + 1 + uneven) as u32;
    p.opers = rnd.below(p.ops.len() + 1 + uneven) as u32;
    if rnd.chance(80) {
        p.bounds = vec![0, code as u32];
    } else {
        let n = rnd.below(5);
        p.bounds = words(rnd, n);
    }
    p
}
