//! Rules 1 to 4: readers, what is live, what is written again, and what may suspend.

use super::*;

pub fn add_all(add: &mut impl FnMut(&str, u32, u32, Picture)) {
    registers(add);
    live(add);
    suspensions(add);
}

/// Rules 1 to 3: readers, what is live, and what is written again.
fn registers(add: &mut impl FnMut(&str, u32, u32, Picture)) {
    add("a result read behind x, in the chain", 0, 0, listing_but(|b| {
        b[0][9] = br(3);
        b.push(vec![op(OUTPUT, &[8, 1]), fork(1, 2)]);
    }));
    let live = |change: fn(&mut Blocks)| {
        listing_but(|b| {
            b[1][1] = br(3);
            b.push(vec![op(RET, &[8])]);
            change(b);
        })
    };
    add("a result live out of the target", 0, 0, live(|_| {}));
    add("a result written in the other branch before it is read", 1, 8, live(|b| {
        b[1][1] = op(RET, &[]);
        b[2] = vec![constant(8, 3), br(3)];
        b.resize(7, vec![]);
    }));
    add("a result written behind the target before it is read", 1, 8, live(|b| b[3].insert(0, constant(8, 3))));
    add("a result live round a loop behind the target", 0, 0, live(|b| {
        b[3] = vec![op(COVER, &[]), fork(4, 5)];
        b.extend([vec![br(3)], vec![op(OUTPUT, &[8, 8])]]);
    }));
    add("a result written in that loop's way out", 1, 8, live(|b| {
        b[3] = vec![op(COVER, &[]), fork(4, 5)];
        b.extend([vec![br(3)], vec![constant(8, 1), op(OUTPUT, &[8, 8])]]);
    }));
    add("the same, written in the target", 1, 8, live(|b| b[1].insert(0, constant(8, 3))));
    add("the same, read and then written in the target", 1, 8, live(|b| drop(b[1].splice(0..0, [op(OUTPUT, &[8, 8]), constant(8, 3)]))));
    add("a result that is written again, the last one live", 1, 8, live(|b| b[0].insert(8, op(CMP, &[8, 1, 1]))));
    add("a result that a kept one writes again, that live", 1, 8, live(|b| b[0].insert(8, constant(8, 3))));
    add("a member reads r0, which is written before it", 1, 8, listing_but(|b| {
        b[0][7] = op(CMP, &[8, 1, 0]);
        b[0].insert(0, constant(0, 3));
    }));
    let list = |after: &[Record]| {
        let mut blocks = listing().blocks();
        blocks[0][8] = Record::new(CAT, 0, &[2, 1, 1], (0, 2), &[1]);
        blocks[0].splice(9..9, after.iter().copied());
        lay(&blocks, 10, &[9, 3])
    };
    add("a Cat's list of a kept and a new register", 1, 8, list(&[]));
    add("what a Cat's list reads is written behind it", 0, 0, list(&[constant(9, 3)]));
    add("a list's new register is written again behind it", 1, 8, list(&[constant(3, 3)]));
}

/// What is read first, and where a block leads to.
fn live(add: &mut impl FnMut(&str, u32, u32, Picture)) {
    let other = |code: &[Record]| listing_but(|b| b[2] = [code, &[op(RET, &[])]].concat());
    let form = |kind: u32, form: u32, slots: &[u32]| Record::new(kind, form, slots, (0, 0), &[]);
    add("the other branch reads and writes r8 at once", 0, 0, other(&[op(CMP, &[8, 8, 8])]));
    add("the other branch writes r8", 1, 8, other(&[op(CMP, &[8, 1, 1])]));
    add("the other branch compares into r8, and reads it", 1, 8, other(&[form(L_NUM, 1, &[8, 0, 0, 0]), op(OUTPUT, &[8, 8])]));
    add("the other branch computes on r8", 0, 0, other(&[form(L_NUM, 0, &[8, 0, 0, 0])]));
    add("the other branch checks a range with r8 third", 0, 0, other(&[form(CHECK, 2, &[0, 0, 8])]));
    add("the other branch checks r8 against null", 0, 0, other(&[form(CHECK, 1, &[8])]));
    add("the other branch has a list of r8", 0, 0, {
        let mut blocks = listing().blocks();
        blocks[2].insert(0, Record::new(CALL, 0, &[], (0, 1), &[]));
        lay(&blocks, 9, &[8])
    });
    add("the other branch drives without a register, and gathers without parts", 1, 8, other(&[op(DRIVE, &[ABSENT, 0, 0]), op(SIG_GATHER, &[0, 0])]));
    add("r8 is read four blocks behind the other branch", 0, 0, listing_but(|b| {
        b[2] = vec![br(3)];
        b.extend([vec![br(4)], vec![br(5)], vec![br(6)], vec![op(RET, &[8])]]);
    }));
    // A Case behind the target: its default is block 4, its only arm 5.
    for (name, table, reader, rounds) in [("default", 0, 4, 0), ("arm", 0, 5, 0), ("own block, by nobody else", 0, 6, 1), ("default, past its tables", 1, 4, 1)] {
        let mut p = listing_but(|b| {
            b[1][1] = br(3);
            b.push(vec![Record::new(CASE, 0, &[0], (0, 0), &[table])]);
            b.extend((4..7).map(|k| if k == reader { vec![op(RET, &[8])] } else { vec![op(RET, &[])] }));
        });
        (p.pairs, p.targets) = (vec![0, 2], vec![4, 5]);
        add(&format!("r8 is read in a Case's {name}"), rounds, 8 * rounds, p);
    }
    add("twelve Cmps in a row, the last one read by an Output", 0, 0, {
        let mut blocks = listing().blocks();
        blocks[0].splice(8..8, (9..=14).map(|r| op(CMP, &[r, 1, r - 1])).chain([op(OUTPUT, &[14, 1])]));
        lay(&blocks, 15, &[])
    });
}

/// Rule 4: what may suspend, and barriers that may not, behind three members that touch no memory.
fn suspensions(add: &mut impl FnMut(&str, u32, u32, Picture)) {
    let call = |kind: u32, form: u32, slots: &[u32]| Record::new(kind, form, slots, (0, 0), &[]);
    let cases = [
        ("Stmt", op(STMT, &[]), 1),
        ("Suspend", op(SUSPEND, &[]), 0),
        ("Call", call(CALL, 0, &[]), 1),
        ("Call that may suspend", call(CALL, 1, &[]), 0),
        ("CallProt", call(CALL_PROT, 0, &[1]), 1),
        ("CallProt that may suspend", call(CALL_PROT, 1, &[1]), 0),
        ("CallIndirect", call(CALL_INDIRECT, 0, &[1]), 0),
        ("CallForeign", call(CALL_FOREIGN, 0, &[]), 1),
        ("plain CallNative", call(CALL_NATIVE, 0, &[]), 1),
    ];
    for (name, stop, rounds) in cases {
        for apart in [false, true] {
            let mut x = vec![constant(1, 8), op(CMP, &[3, 1, 1]), op(CMP, &[4, 1, 3]), op(CMP, &[5, 1, 4])];
            let mut blocks = vec![vec![], vec![op(OUTPUT, &[5, 5])], vec![op(CAT, &[1, 1, 1])]];
            if apart {
                x.push(br(3));
                blocks.push(vec![stop, fork(1, 2)]);
            } else {
                x.extend([stop, fork(1, 2)]);
            }
            blocks[0] = x;
            let place = if apart { ", in the chain behind x" } else { "" };
            add(&format!("{name} behind three members{place}"), rounds, 3 * rounds, replay(lay(&blocks, 9, &[]), &[1]));
        }
    }
}
