//! What is a length, and what moves only if it has one.

use super::*;

pub fn add_all(add: &mut impl FnMut(&str, u32, u32, Picture)) {
    lengths(add);
    facts(add);
}

/// What is a length, and what moves only if it has one: arithmetic, quotients, checks, blocks.
fn lengths(add: &mut impl FnMut(&str, u32, u32, Picture)) {
    let form = |kind: u32, form: u32, slots: &[u32]| Record::new(kind, form, slots, (0, 0), &[]);
    let pool = form(ADDR_OF, 4, &[10]);
    // r9 is made so; the sum of it and a length moves if it is one, and takes r9 along.
    let light = Record::new(CALL_NATIVE, 2, &[9], (0, 1), &[]);
    let sources: [(&str, &[Record], u32); 21] = [
        ("a Cmp", &[op(CMP, &[9, 0, 0])], 4),
        ("an FCmp", &[op(F_CMP, &[9, 0, 0])], 4),
        ("a Bool", &[op(BOOL, &[9, 0, 0])], 4),
        ("a Not", &[form(BOOL, 1, &[9, 0])], 4),
        ("a BoundsLen", &[op(BOUNDS_LEN, &[9, 0, 0, 0])], 4),
        ("a DopeLen", &[pool, op(DOPE_LEN, &[9, 10])], 4),
        ("a word of a layout", &[pool, op(LAYOUT_OF, &[9, 10]), form(LOAD, 3, &[9, 9])], 5),
        ("a word of the pool", &[pool, form(LOAD, 3, &[9, 10])], 0),
        ("a copy of a length", &[op(MOVE, &[9, 1])], 4),
        ("a copy of another", &[op(MOVE, &[9, 0])], 0),
        ("one of two lengths", &[op(SELECT, &[9, 0, 1, 1])], 4),
        ("a length or another", &[op(SELECT, &[9, 0, 1, 0])], 0),
        ("another or a length", &[op(SELECT, &[9, 0, 0, 1])], 0),
        ("a block made here", &[op(ALLOC, &[9, 1])], 0),
        ("a kept block", &[op(ALLOC, &[9, 0])], 0),
        ("a light native's block", &[light], 0),
        ("a layout", &[pool, op(LAYOUT_OF, &[9, 10])], 0),
        ("a signal's value", &[op(SIG_READ_SCALAR, &[9, 0])], 0),
        ("a place behind a length", &[op(INDEX, &[9, 1, 1])], 0),
        ("a word of a member's block", &[form(LOAD, 3, &[9, 2])], 0),
        ("a float", &[Record::new(CONST_F, 0, &[9], (0, 0), &[1])], 0),
    ];
    for (name, made, moved) in sources {
        add(&format!("a sum with {name}"), u32::from(moved > 0), moved, reading(made, form(BIN, 1, &[8, 9, 1]), &[]));
        add(&format!("a length and {name}"), u32::from(moved > 0), moved, reading(made, form(BIN, 3, &[8, 1, 9]), &[]));
    }
    let by = |v: i64| [constant(9, v)];
    let quotients: [(&str, &[Record], Record, u32); 7] = [
        ("by 1", &by(1), form(BIN, 4, &[8, 1, 9]), 1),
        ("by 2^60", &by(1 << 60), form(BIN, 4, &[8, 1, 9]), 1),
        ("by 0", &by(0), form(BIN, 4, &[8, 1, 9]), 0),
        ("by -1", &by(-1), form(BIN, 4, &[8, 1, 9]), 0),
        ("by a constant written twice", &[constant(9, 1), constant(9, 1)], form(BIN, 4, &[8, 1, 9]), 0),
        ("by a length", &[op(CMP, &[9, 0, 0])], form(BIN, 4, &[8, 1, 9]), 0),
        ("of no length", &by(1), form(BIN, 4, &[8, 0, 9]), 0),
    ];
    for (name, made, quotient, rounds) in quotients {
        add(&format!("a quotient {name}"), rounds, 3 * rounds, reading(made, quotient, &[]));
    }
    let others = [
        ("a difference of lengths", form(BIN, 2, &[8, 1, 1]), 1),
        ("another operation on lengths", form(BIN, 0, &[8, 1, 1]), 0),
        ("a Check of an index, a length", form(CHECK, 3, &[1, 0, 0]), 1),
        ("a Check of an index, no length", form(CHECK, 3, &[0, 1, 1]), 0),
        ("a Check of a range", form(CHECK, 2, &[1, 1, 1]), 0),
        ("a Check of an index down", form(CHECK, 4, &[1, 1, 1]), 0),
        ("a block of a length", op(ALLOC, &[8, 1]), 1),
        ("a block of no length", op(ALLOC, &[8, 0]), 0),
        ("a package's block of a length", op(PKG_ALLOC, &[8, 1]), 0),
        ("a Load of a Sig", form(LOAD, 4, &[8, 2]), 0),
        ("a cached layout", form(LAYOUT_OF, 1, &[8, 2]), 0),
        ("an Index", op(INDEX, &[8, 0, 0]), 1),
        ("a SigVal", op(SIG_VAL, &[8, 0, 0]), 1),
        ("a SigRead into a member's block", op(SIG_READ, &[2, 0]), 1),
        ("a SigRead into something", op(SIG_READ, &[0, 0]), 0),
        ("a MakeDope into a member's block", Record::new(MAKE_DOPE, 0, &[2], (0, 1), &[]), 1),
        ("a MakeDope into something", Record::new(MAKE_DOPE, 0, &[0], (0, 1), &[]), 0),
    ];
    for (name, read, rounds) in others {
        add(name, rounds, 3 * rounds, reading(&[], read, &[]));
    }
}

/// Facts on registers: once, before round 1, of registers with one writer, wherever that is.
fn facts(add: &mut impl FnMut(&str, u32, u32, Picture)) {
    let elsewhere = |made: Record, read: Record| {
        let mut blocks = reading(&[], read, &[]).blocks();
        blocks[2].insert(0, made);
        replay(lay(&blocks, 11, &[1]), &[1])
    };
    let names = ["the frame", "the frame above", "the instance", "a package", "the pool", "a shared place"];
    for (form, (name, rounds)) in names.into_iter().zip([1, 0, 1, 0, 1, 0]).enumerate() {
        let made = Record::new(ADDR_OF, form as u32, &[9], (0, 0), &[]);
        add(&format!("a read of {name}, whose address is made elsewhere"), rounds, 3 * rounds, elsewhere(made, Record::new(LOAD, 3, &[8, 9], (0, 0), &[])));
    }
    for (name, made, rounds) in [("a constant", constant(9, 3), 1), ("a float", Record::new(CONST_F, 0, &[9], (0, 0), &[3]), 0)] {
        add(&format!("a sum with {name} made elsewhere"), rounds, 3 * rounds, elsewhere(made, Record::new(BIN, 1, &[8, 9, 1], (0, 0), &[])));
    }
    // Round 1 takes one of r9's two writers away; block 3 is a listing that would need r9 as a length.
    add("a register with one writer after round 1", 1, 8, {
        let mut blocks = listing().blocks();
        let mut more = blocks.clone();
        more[0].remove(0);
        more[0][0] = op(ALLOC, &[2, 9]);
        more[0][8] = fork(4, 5);
        blocks[0][7] = op(CMP, &[9, 1, 1]);
        blocks[2].insert(0, constant(9, 8));
        blocks.append(&mut more);
        lay(&blocks, 10, &[])
    });
}
