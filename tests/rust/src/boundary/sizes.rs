//! The program's sizes, and the causes of a refusal.

use super::*;

pub fn add_all(add: &mut impl FnMut(&str, u32, u32, Picture)) {
    sizes(add);
    refused(add);
    forms(add);
}

/// The listing with an end at each of the program's sizes, and one past it.
fn sizes(add: &mut impl FnMut(&str, u32, u32, Picture)) {
    let grown = |n: usize| listing_but(|b| b.resize(n, vec![]));
    add("64 blocks", 1, 8, grown(64));
    add("65 blocks", 300, 0, grown(65));
    let long = |n: usize| listing_but(|b| b[2].splice(0..0, vec![op(COVER, &[]); n - 13]).for_each(drop));
    add("512 instructions with vias", 1, 8, with_vias(long(512)));
    add("513 instructions", 300, 0, long(513));
    add("513 vias", 300, 0, {
        let mut p = with_vias(long(512));
        p.vias.push(0);
        p
    });
    let used = |regs: u32| {
        let mut p = listing();
        p.regs = regs;
        p.types.resize(regs.max(512) as usize, 0);
        p
    };
    add("509 registers in use: the move takes the rest", 1, 8, used(509));
    add("510 registers in use: the move takes one more than there are", 100, 0, used(510));
    add("512 registers in use", 100, 0, used(512));
    add("513 registers in use", 300, 0, used(513));
    let opers = |n: u32| {
        let mut p = listing();
        (p.ops, p.opers) = (vec![1; n as usize], n);
        p
    };
    add("2,048 operands in use", 1, 8, opers(2048));
    add("2,049 operands in use", 300, 0, opers(2049));
    let cases = |pairs: usize, targets: usize, replay: usize| {
        let mut p = listing();
        p.pairs = [0, targets as u32].repeat(pairs / 2);
        p.targets = vec![2; targets];
        p.replay = vec![1; replay];
        p
    };
    add("256 pair words, 1,024 targets, 64 replay words", 1, 8, cases(256, 1024, 64));
    add("257 pair words", 300, 0, {
        let mut p = cases(256, 1024, 64);
        p.pairs.push(0);
        p
    });
    add("258 pair words", 300, 0, cases(258, 1024, 64));
    add("1,025 targets", 300, 0, cases(256, 1025, 64));
    add("65 replay words", 300, 0, cases(256, 1024, 65));
}

/// At the sizes of the pass itself, with the rounds that they have: the gate, which counts registers in use and not those lent,
/// and the case tables.
pub fn largest() -> Vec<(&'static str, Picture, usize)> {
    let gate = |regs: u32| {
        let mut p = listing_but(|b| b.resize(4096, vec![]));
        (p.types, p.regs) = (vec![0; regs as usize], regs);
        p.types[2] = 1;
        p.ops.clear();
        p
    };
    let mut cases = listing();
    cases.types.truncate(9);
    cases.ops.clear();
    cases.pairs = [65535, 1].repeat(32768);
    cases.targets = vec![2; 65536];
    vec![
        ("512 registers in use and 4,096 blocks", gate(512), 1),
        ("513 registers in use and 4,096 blocks", gate(513), 0),
        ("65,536 pair words and 65,536 target words", cases, 1),
    ]
}

/// A picture for each cause that words in a record or a list can have.
fn refused(add: &mut impl FnMut(&str, u32, u32, Picture)) {
    let form = |kind: u32, form: u32, slots: &[u32]| Record::new(kind, form, slots, (0, 0), &[]);
    let bounded = |bounds: &[u32]| {
        let mut p = listing();
        p.bounds = bounds.to_vec();
        p
    };
    add("a block that ends before it starts, without a gap", 203, 0, bounded(&[0, 5, 5, 3, 3, 13]));
    add("a block that starts before the last one ends", 203, 0, bounded(&[0, 10, 9, 12, 12, 13]));
    add("a gap between two blocks", 203, 0, bounded(&[0, 10, 11, 12, 12, 13]));
    add("a first block that starts late", 203, 0, bounded(&[1, 10, 10, 12, 12, 13]));
    // One instruction alone, with registers 0 and 1 and an operand.
    let alone = |r: Record| lay(&[vec![r]], 2, &[1]);
    add("a Call that writes no register below R", 205, 0, alone(op(CALL, &[2])));
    add("a Call that writes nothing", 0, 0, alone(op(CALL, &[])));
    add("a Not with a second operand", 205, 0, alone(form(BOOL, 1, &[0, 1, 1])));
    add("a Check against null with a second register", 205, 0, alone(form(CHECK, 1, &[0, 1])));
    add("a Check of a range without a third register", 205, 0, alone(form(CHECK, 2, &[0, 1])));
    add("a SigGather with its first part alone", 205, 0, alone(op(SIG_GATHER, &[0, 1, 1])));
    add("a SigGather with its second part alone", 205, 0, alone(op(SIG_GATHER, &[0, 1, ABSENT, 1])));
    add("a SigGather with both parts", 0, 0, alone(op(SIG_GATHER, &[0, 1, 1, 0])));
    add("a Ret of a register that is nearly absent", 205, 0, alone(op(RET, &[ABSENT - 1])));
    add("an operand in no list that is R", 206, 0, lay(&[vec![op(RET, &[])]], 2, &[1, 2]));
    add("a list one past the operands", 206, 0, alone(Record::new(CALL, 0, &[], (1, 1), &[])));
    add("a list on a Move", 206, 0, alone(Record::new(MOVE, 0, &[0, 1], (0, 1), &[])));
    add("a Br to no block in the middle of one", 207, 0, lay(&[vec![br(1), op(RET, &[])]], 2, &[1]));
    add("a CondBr to no block in the middle of one", 207, 0, lay(&[vec![fork(0, 1), op(RET, &[])]], 2, &[1]));
    let cat = |n: u32, form: u32| lay(&[vec![Record::new(CAT, form, &[0, 1, 1], (0, n), &[])]], 2, &vec![1; n as usize]);
    add("a Cat of form 1 with a list of 33", 0, 0, cat(33, 1));
    add("a Cat of form 1 with a list of 34", 208, 0, cat(34, 1));
}

/// Each kind that has forms at its last one and one past it, and a kind that has none.
fn forms(add: &mut impl FnMut(&str, u32, u32, Picture)) {
    let alone = |kind: usize, form: u32| {
        let slots = slots(kind as u32, form).map(|s| if matches!(s, Slot::Def | Slot::Use) { 0 } else { ABSENT });
        lay(&[vec![Record::new(kind as u32, form, &slots, (0, 0), &[])]], 1, &[])
    };
    for (kind, k) in KINDS.iter().enumerate().filter(|(kind, k)| k.forms != (0, 0) || *kind == MOVE as usize) {
        let (least, most) = k.forms;
        add(&format!("{} of form {most}", k.name), 0, 0, alone(kind, most));
        add(&format!("{} of form {}", k.name, most + 1), 204, 0, alone(kind, most + 1));
        if least > 0 {
            add(&format!("{} of form {}", k.name, least - 1), 204, 0, alone(kind, least - 1));
        }
    }
}
