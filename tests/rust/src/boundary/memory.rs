//! Rules 5 and 6: memory, and barriers.

use super::*;

pub fn add_all(add: &mut impl FnMut(&str, u32, u32, Picture)) {
    memory(add);
    barriers(add);
    behind(add);
}

/// Rules 5 and 6: what a member reads and writes, and kept writes behind it.
fn memory(add: &mut impl FnMut(&str, u32, u32, Picture)) {
    let load = |at: u32| Record::new(LOAD, 3, &[8, at], (0, 0), &[]);
    let fill = |at: u32| op(FILL, &[at, 1, 1]);
    let address = |dst: u32, form: u32| Record::new(ADDR_OF, form, &[dst], (0, 0), &[]);
    let native = |dst: u32, form: u32| Record::new(CALL_NATIVE, form, &[dst], (0, 1), &[]);
    for (name, form, free, behind) in [("the frame", 0, 1, 0), ("the instance", 2, 1, 1), ("the pool", 4, 1, 1), ("a package", 3, 0, 0)] {
        let at = address(9, form);
        add(&format!("a read of {name}"), free, 3 * free, reading(&[at], load(9), &[]));
        add(&format!("a read of {name}, written behind it"), behind, 3 * behind, reading(&[at], load(9), &[fill(9)]));
        add(&format!("a read of {name}, written before it"), free, 3 * free, reading(&[at, fill(9)], load(9), &[]));
    }
    for (name, form) in [("the frame above", 1), ("a shared place", 5)] {
        add(&format!("a read of {name}"), 0, 0, reading(&[address(9, form)], load(9), &[]));
    }
    let (light, image) = (native(9, 2), native(9, 1));
    add("a read of a kept block", 1, 3, reading(&[light], load(9), &[]));
    add("a read of a kept block, written behind it", 0, 0, reading(&[light], load(9), &[fill(9)]));
    add("a read of a kept block, another written behind it", 1, 3, reading(&[light, native(10, 2)], load(9), &[fill(10)]));
    add("a read of an image", 1, 4, reading(&[image], load(9), &[]));
    add("a read of a kept image", 1, 3, reading(&[image, fill(9)], load(9), &[]));
    add("a read of a kept image, written behind it", 0, 0, reading(&[image], load(9), &[fill(9)]));
    add("a read of an image, something written behind it", 0, 0, reading(&[image], load(9), &[fill(0)]));
    add("a Store into a member's image", 0, 0, reading(&[image], Record::new(STORE, 3, &[9, 1], (0, 0), &[]), &[]));
    let two = Record::new(CALL_NATIVE, 1, &[9], (0, 2), &[]);
    add("a read of what an image of two operands gives", 0, 0, replay(lay(&reading(&[two], load(9), &[]).blocks(), 11, &[1, 1]), &[1]));
    for (name, first, second, rounds) in [("the pool or the pool", 9, 9, 1), ("the pool or something", 9, 0, 0), ("something or the pool", 0, 9, 0)] {
        let either = op(SELECT, &[10, 0, first, second]);
        add(&format!("a read of {name}"), rounds, 4 * rounds, reading(&[address(9, 4), either], load(10), &[]));
    }
    let inside = Record::new(LOAD, 3, &[10, 9], (0, 0), &[]);
    add("a read through an image's pointer", 1, 5, reading(&[image, inside], load(10), &[]));
    add("a read through an image's pointer, the image written behind it", 0, 0, reading(&[image, inside], load(10), &[fill(9)]));
    add("a read through a kept block's pointer", 0, 0, reading(&[light, inside], load(10), &[]));
    add("a read of a kept Alloc", 1, 3, reading(&[op(ALLOC, &[9, 0])], load(9), &[]));
    add("a read of a kept Alloc, written behind it", 0, 0, reading(&[op(ALLOC, &[9, 0])], load(9), &[fill(9)]));
    add("a read of a place in a kept block, written behind it", 0, 0, reading(&[light, op(INDEX, &[10, 9, 1])], load(10), &[fill(9)]));
    add("a read of a copy of the frame's address, written behind it", 0, 0, reading(&[address(9, 0), op(MOVE, &[10, 9])], load(10), &[fill(9)]));
    add("a read of the heap", 0, 0, reading(&[op(DEREF, &[9, 1])], load(9), &[]));
    add("a read of the pool, the heap written behind it", 1, 3, reading(&[address(9, 4), op(DEREF, &[10, 1])], load(9), &[fill(10)]));
    add("a read of the pool, something written behind it", 0, 0, reading(&[address(9, 4)], load(9), &[fill(0)]));
    add("a length of the frame, written behind it", 0, 0, reading(&[address(9, 0)], op(DOPE_LEN, &[8, 9]), &[fill(9)]));
    add("a layout of the frame, written behind it", 0, 0, reading(&[address(9, 0)], op(LAYOUT_OF, &[8, 9]), &[fill(9)]));
    add("a Store into a member's block", 1, 3, reading(&[], Record::new(STORE, 3, &[2, 1], (0, 0), &[]), &[]));
    add("a Store into a kept block", 0, 0, reading(&[light], Record::new(STORE, 3, &[9, 1], (0, 0), &[]), &[]));
    add("a Store of a Sig into a member's block", 0, 0, reading(&[], Record::new(STORE, 4, &[2, 1], (0, 0), &[]), &[]));
    add("a Store of a Sig", 0, 0, reading(&[], load(2), &[Record::new(STORE, 4, &[0, 1], (0, 0), &[])]));
    // A Cat's list: an address and a count for each piece; a bit of scalars takes the address for a value.
    for (name, list, scalars, rounds) in [("a Cat that reads the frame", 2, 0, 0), ("a Cat's scalar", 2, 1, 1), ("a Cat's scalar that is another", 2, 2, 0), ("a Cat's odd operand", 1, 0, 1)] {
        let mut blocks = listing().blocks();
        blocks[0][8] = Record::new(CAT, 0, &[2, 1, 1], (0, list), &[scalars]);
        blocks[0].insert(9, fill(9));
        blocks[0].insert(0, address(9, 0));
        add(&format!("{name}, the frame written behind it"), rounds, 8 * rounds, lay(&blocks, 10, &[9, 1]));
    }
}

/// Rule 5: what a barrier matters to, of three that would move, and what is a barrier.
fn barriers(add: &mut impl FnMut(&str, u32, u32, Picture)) {
    let before = |made: &[Record], stop: Record| three(&[made, &[op(CMP, &[3, 1, 1]), op(CMP, &[4, 1, 3]), stop]].concat());
    let alloc = op(ALLOC, &[2, 1]);
    let native = |dst: u32, form: u32| Record::new(CALL_NATIVE, form, &[dst], (0, 1), &[]);
    let address = |form: u32| Record::new(ADDR_OF, form, &[9], (0, 0), &[]);
    let load = Record::new(LOAD, 3, &[2, 9], (0, 0), &[]);
    let cases: [(&str, &[Record], u32); 8] = [
        ("a Cmp", &[op(CMP, &[2, 1, 1])], 1),
        ("an Alloc", &[alloc], 0),
        ("a layout", &[address(4), op(LAYOUT_OF, &[2, 9])], 0),
        ("an image", &[native(2, 1)], 0),
        ("a read of the pool", &[address(4), load], 1),
        ("a read of the frame", &[address(0), load], 0),
        ("a read of a kept block", &[native(9, 2), load], 0),
        ("a read of a kept image", &[native(9, 1), load], 0),
    ];
    for (name, made, rounds) in cases {
        add(&format!("{name} and two Cmps before a Stmt"), rounds, 3 * rounds, before(made, op(STMT, &[])));
    }
    let stops = [
        ("a Cover", op(COVER, &[]), 1),
        ("a TempRoot", op(TEMP_ROOT, &[1]), 0),
        ("a Call", op(CALL, &[]), 0),
        ("a CallProt", op(CALL_PROT, &[1]), 0),
        ("a CallForeign", op(CALL_FOREIGN, &[]), 0),
        ("a plain native", op(CALL_NATIVE, &[]), 0),
        ("a light native", native(10, 2), 1),
        ("a New", op(NEW, &[10, 1, 1]), 0),
        ("a NewFill", op(NEW_FILL, &[10, 1, 1, 1]), 0),
        ("a NewFrame", op(NEW_FRAME, &[10, 1, 1, 1]), 0),
        ("a Free", op(FREE, &[1]), 0),
        ("a Report", op(REPORT, &[1, 1, 1]), 0),
        ("a PkgAlloc", op(PKG_ALLOC, &[10, 1]), 1),
    ];
    for (name, stop, rounds) in stops {
        add(&format!("an Alloc and two Cmps before {name}"), rounds, 3 * rounds, before(&[alloc], stop));
    }
}

/// Rule 5: what stays behind a read of the pool, and whether it may reach it.
fn behind(add: &mut impl FnMut(&str, u32, u32, Picture)) {
    let pool = Record::new(ADDR_OF, 4, &[9], (0, 0), &[]);
    let load = Record::new(LOAD, 3, &[3, 9], (0, 0), &[]);
    let cases = [
        ("a light native", Record::new(CALL_NATIVE, 2, &[10], (0, 1), &[]), 1),
        ("a plain native", op(CALL_NATIVE, &[]), 1),
        ("a Drive", op(DRIVE, &[ABSENT, 1, 1]), 1),
        ("a SigAttr", op(SIG_ATTR, &[10, 1]), 0),
        ("an Output", op(OUTPUT, &[1, 1]), 0),
        ("a PkgAlloc", op(PKG_ALLOC, &[10, 1]), 0),
        ("a Zero of it", op(ZERO, &[9]), 0),
        ("a CopyConst into it", op(COPY_CONST, &[9]), 1),
        ("a CopyConst into something", op(COPY_CONST, &[0]), 0),
        ("a Copy into it", op(COPY, &[9, 1, 1]), 1),
        ("a Copy into something", op(COPY, &[0, 1, 1]), 0),
        ("an LSet into it", op(L_SET, &[9, 1, 1]), 1),
        ("an LSet into something", op(L_SET, &[0, 1, 1]), 0),
        ("an LFill into it", op(L_FILL, &[9, 1, 1, 1]), 1),
        ("an LCopy into it", op(L_COPY, &[9, 1, 1, 1, 1]), 1),
        ("a LogicOp into it", op(LOGIC_OP, &[9, 1, 1, 1]), 1),
    ];
    for (name, stays, rounds) in cases {
        add(&format!("a read of the pool and two Cmps before {name}"), rounds, 3 * rounds, three(&[pool, load, op(CMP, &[4, 1, 3]), op(CMP, &[5, 1, 4]), stays]));
    }
}
