//! The marked cases of document 01, its slips to shut out, lists, chains and targets.

use super::*;

pub fn add_all(add: &mut impl FnMut(&str, u32, u32, Picture)) {
    marked(add);
    lists_and_chains(add);
    cats(add);
    entries(add);
    targets(add);
}

/// Document 01, "Marked, with that listing", and its slips to shut out.
fn marked(add: &mut impl FnMut(&str, u32, u32, Picture)) {
    let edge = 1i64 << 40;
    let seven = |b: &mut Blocks| {
        b[0].remove(7);
    };
    add("the listing", 1, 8, listing());
    add("neither blocks nor instructions", 0, 0, lay(&[], 9, &[]));
    add("blocks without instructions", 0, 0, lay(&[vec![], vec![]], 9, &[]));
    add("7 members", 0, 0, listing_but(seven));
    add("7 members, block 1 in replay", 1, 7, replay(listing_but(seven), &[1]));
    add("7 members, block 2 in replay", 1, 7, replay(listing_but(seven), &[2]));
    add("7 members, block 0 and none in replay", 0, 0, replay(listing_but(seven), &[0, 3, 77, ABSENT]));
    let few = |n: usize| move |b: &mut Blocks| drop(b[0].drain(8 - n..8));
    add("3 members with replay", 1, 3, replay(listing_but(few(5)), &[1]));
    add("2 members with replay", 0, 0, replay(listing_but(few(6)), &[1]));
    add("r8 read in the other branch", 0, 0, listing_but(|b| b[2][0] = op(RET, &[8])));
    for (name, v, rounds) in [("2^40", edge, 1), ("2^40+1", edge + 1, 0), ("-2^40", -edge, 1), ("-2^40-1", -edge - 1, 0)] {
        add(&format!("Const {name}"), rounds, 8 * rounds, listing_but(|b| b[0][0] = constant(1, v)));
    }
    add("a constant written twice, outside the chain", 0, 0, listing_but(|b| {
        b[0].remove(0);
        b[2].splice(0..0, [constant(1, 8), constant(1, 8)]);
    }));
    add("Stmt after the Cat", 0, 0, listing_but(|b| b[0].insert(9, op(STMT, &[]))));
    add("Suspend before all", 1, 8, listing_but(|b| b[0].insert(0, op(SUSPEND, &[]))));
    add("both branches to 1", 0, 0, listing_but(|b| b[0][9] = fork(1, 1)));
    add("Cat of form 1", 0, 0, listing_but(|b| b[0][8] = Record::new(CAT, 1, &[2, 1, 1], (0, 0), &[])));
    add("Suspend behind x, in the chain", 0, 0, listing_but(|b| {
        b[0][9] = br(3);
        b.push(vec![op(SUSPEND, &[]), fork(1, 2)]);
    }));
    add("the target writes again what it reads", 1, 8, listing_but(|b| {
        b[1].splice(1..1, [constant(2, 5), op(OUTPUT, &[2, 1])]);
    }));
    add("what a member reads is written behind it", 0, 0, listing_but(|b| b[0].insert(9, constant(1, 8))));
}

fn lists_and_chains(add: &mut impl FnMut(&str, u32, u32, Picture)) {
    add("a Cat list of 33", 1, 8, cat_list(33, 0));
    add("a Cat list of 33, all scalars", 1, 8, cat_list(33, 65535));
    add("a Cat list of 34", 208, 0, cat_list(34, 0));
    add("scalars 65,536", 204, 0, cat_list(33, 65536));
    add("a list of 511 shared by four", 1, 10, shared_list(511));
    add("a list of 512 shared by four: 2,048 operands", 1, 10, shared_list(512));
    add("a list of 513 shared by four: one too many", 100, 0, shared_list(513));
    for n in 2..=6 {
        add(&format!("a chain of {n} blocks"), 1, 8, chain(n, 0));
    }
    add("a chain of 7 blocks", 0, 0, chain(7, 0));
    // x, its target and the other branch: 509, 2 and 1.
    add("as long a chain as fits", 1, 507, chain(1, 509));
    add("as long a chain of six blocks as fits, with vias", 1, 497, with_vias(chain(6, 504)));
    for steps in 2..=9 {
        let rounds = steps.min(8);
        add(&format!("{steps} rounds to be had"), rounds, 8 * rounds, ladder(steps));
    }
    add("9 rounds of three to be had", 8, 24, replay(three_each(9), &(1..10).collect::<Vec<u32>>()));
}

/// Where the Cat is that a chain without replay needs, and that the gate asks for.
fn cats(add: &mut impl FnMut(&str, u32, u32, Picture)) {
    // Eight Cmps in x, and what follows them; these blocks behind the two branches.
    let eight = |then: &[Record], f: &[Record], more: &[Vec<Record>]| {
        let mut x = listing().blocks()[0][..8].to_vec();
        x[1] = op(CMP, &[9, 0, 0]);
        x.insert(8, op(CMP, &[10, 0, 0]));
        x.extend(then);
        let blocks = [&[x, vec![op(OUTPUT, &[2, 1]), op(RET, &[])], f.to_vec()], more].concat();
        lay(&blocks, 11, &[])
    };
    let cat = |form: u32| Record::new(CAT, form, &[2, 1, 1], (0, 0), &[]);
    let ret = op(RET, &[]);
    add("eight Cmps and a Cat that stays", 1, 8, eight(&[cat(0), fork(1, 2)], &[ret], &[]));
    add("the Cat in the chain's second block", 0, 0, eight(&[br(3)], &[ret], &[vec![cat(0), fork(1, 2)]]));
    add("the Cat in the other branch", 0, 0, eight(&[fork(1, 2)], &[cat(0), ret], &[]));
    add("a Cat of form 1 in x, one of form 0 in the other branch", 0, 0, eight(&[cat(1), fork(1, 2)], &[cat(0), ret], &[]));
    let cmps: Vec<Record> = (3..6).map(|r| op(CMP, &[r, 1, 1])).collect();
    let gate = |f: Record| {
        let mut p = three(&cmps);
        let at = p.locs.len() - 1;
        p.set_record(at, f);
        p
    };
    add("three with replay, a Cat elsewhere", 1, 3, gate(cat(0)));
    add("three with replay, a Cat of form 1 elsewhere", 0, 0, gate(cat(1)));
    add("three with replay, no Cat at all", 0, 0, gate(ret));
    let mut wrong = gate(ret);
    wrong.types[5] = 8;
    add("no Cat, and a type of 8", 209, 0, wrong);
    let mut none = lay(&[], 9, &[]);
    none.types[5] = 8;
    add("no blocks, and a type of 8", 209, 0, none);
}

/// The start of the function is a predecessor of block 0 (request 2026-02). Document 01 moves eight in the first two.
fn entries(add: &mut impl FnMut(&str, u32, u32, Picture)) {
    add("block 0 is no target, though nothing else leads to it", 0, 0, reordered([1, 2, 0]));
    add("no chain goes on in block 0, though nothing else leads to it", 0, 0, listing_but(|b| {
        b[0][9] = br(0);
        b.push(vec![op(COVER, &[]), fork(1, 2)]);
        b.swap(0, 3);
    }));
    add("block 0 is t, and f the target", 1, 8, {
        let mut p = reordered([2, 0, 1]);
        let last = p.places(1).end - 1;
        p.set_record(last, fork(0, 2));
        p
    });
    add("block 0 comes back to itself", 0, 0, listing_but(|b| b[0][9] = br(0)));
    add("block 0 is x, and its target leads to it", 1, 8, listing_but(|b| b[1][1] = br(0)));
    add("block 0 is x and the other branch", 1, 8, listing_but(|b| b[0][9] = fork(1, 0)));
    add("block 0 is x, and a block that nothing reaches leads to it", 1, 8, listing_but(|b| b.push(vec![br(0)])));
}

fn targets(add: &mut impl FnMut(&str, u32, u32, Picture)) {
    add("the target before x", 1, 8, behind(vec![br(2)], &reordered([1, 0, 2])));
    add("both branches before x", 1, 8, reordered([2, 1, 0]));
    add("an empty target", 1, 8, listing_but(|b| b[1].clear()));
    add("an empty target before x", 1, 8, behind(vec![br(2)], &listing_but(|b| {
        b.swap(0, 1);
        b[0].clear();
        b[1][9] = fork(0, 2);
    })));
    add("the target is f", 1, 8, listing_but(|b| b[0][9] = fork(2, 1)));
    add("the target has two predecessors", 0, 0, listing_but(|b| b[2][0] = br(1)));
    add("the target leads to itself", 0, 0, listing_but(|b| b[1][1] = br(1)));
    add("the chain comes back to x", 0, 0, behind(vec![op(RET, &[])], &listing_but(|b| b[0][9] = br(0))));
    add("x ends in a Case", 0, 0, listing_but(|b| b[0][9] = Record::new(CASE, 0, &[0], (0, 0), &[0])));
    add("the target leads to itself and writes what it reads", 0, 0, listing_but(|b| b[1] = vec![op(OUTPUT, &[2, 1]), constant(2, 5), br(1)]));
    add("the target is x itself, the other has two predecessors", 0, 0, behind(vec![op(RET, &[])], &listing_but(|b| {
        b[0][9] = fork(0, 2);
        b[1][1] = br(2);
    })));
    add("the chain's second block has a second predecessor", 0, 0, listing_but(|b| {
        b[0][9] = br(3);
        b.extend([vec![op(COVER, &[]), fork(1, 2)], vec![br(3)]]);
    }));
    add("a Br to the target in the middle of a block", 1, 8, listing_but(|b| b[2].insert(0, br(1))));
    add("the target writes a member's register and reads it", 1, 8, listing_but(|b| {
        b[1].splice(0..0, [constant(3, 5), op(OUTPUT, &[3, 1])]);
    }));
    add("the target reads and writes a member's register at once", 1, 8, listing_but(|b| b[1].insert(0, op(INDEX, &[2, 2, 1]))));
    let mut sig = listing();
    sig.types[3..9].fill(4);
    add("Sig results", 1, 8, sig);
    let mut mixed = listing();
    mixed.types[3..9].copy_from_slice(&[4, 0, 7, 4, 0, 7]);
    add("results of three types, with vias", 1, 8, with_vias(mixed));
}
