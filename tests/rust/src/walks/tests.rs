//! The claim finds each slip that is put in, and the pictures are such that it can.

use super::machine::{Code, Write};
use super::*;
use crate::boundary::{br, fork, op};
use crate::fact::Fact;
use crate::generate::Size;
use crate::kinds::*;
use crate::listing::listing;
use crate::oracle::oracle_with_work;
use crate::picture::Record;

fn lay(blocks: &[Vec<Record>], regs: u32) -> Picture {
    let mut p = Picture::of_blocks(blocks);
    (p.types, p.regs) = (vec![0; regs as usize], regs);
    p
}

/// These blocks, and the same instructions at other places: of each block after, the old places.
fn by_hand(blocks: &[Vec<Record>], stand: &[&[usize]]) -> (Picture, Picture, Vec<usize>) {
    let before = lay(blocks, 9);
    let after: Vec<Vec<Record>> = stand.iter().map(|b| b.iter().map(|&p| before.record(p)).collect()).collect();
    let after = lay(&after, 9);
    (before, after, stand.concat())
}

/// A picture, what its first round leaves, and the old places.
fn one_round(p: &Picture) -> (Picture, Vec<usize>) {
    let lent = Lent::new(p).expect("few types");
    let trace = lent.wanted();
    (lent.picture_of(&trace.rounds[0].after), places::after(&trace.rounds[0]).concat())
}

fn listing_but(block: usize, at: usize, r: Record) -> Picture {
    let p = listing();
    let mut blocks = p.blocks();
    blocks[block][at] = r;
    let changed = Picture::of_blocks(&blocks);
    Picture { recs: changed.recs, bounds: changed.bounds, locs: changed.locs, ..p }
}

/// Such a walk breaks the claim, for this reason.
fn breaks(before: &Picture, after: &Picture, was: &[usize], walk: &[usize], why: &str) {
    let found = broken(before, after, was, walk).unwrap_or_default();
    assert!(found.contains(why), "{found:?}, not {why:?}");
}

#[test]
fn the_machine_keeps_the_last_write_of_each_register() {
    let list = |kind, slots: &[u32], list| Record::new(kind, 0, slots, list, &[]);
    let mut p = lay(&[vec![op(TAKE_BOUNDS, &[1, 2, 1]), op(CMP, &[2, 2, 1]), list(CALL_INDIRECT, &[2, 3], (0, 2)), br(0)]], 4);
    (p.ops, p.opers) = (vec![1, 3], 2);
    let played = Code::of(&p).play(&[0, 0]);
    let write = |run, slot| Some(Write { run, slot });
    // of one register written twice, the later slot; a read comes before the write of the same instruction
    assert_eq!(played.takes_of(1), [write(0, 1), write(0, 2)]);
    // slots, then list places; the call's second slot writes
    assert_eq!(played.takes_of(2), [write(1, 0), write(0, 2), None]);
    assert_eq!(played.takes_of(6), [write(5, 0), write(4, 2), write(2, 1)]);
    assert_eq!((played.runs.len(), played.runs[6]), (8, (1, 2)));
}

#[test]
fn all_walks_are_tried_while_they_are_few() {
    let found = |blocks: &[Vec<Record>]| walks_of(&lay(blocks, 1), &mut Random::new(1));
    let looped = found(&[vec![fork(0, 1)], vec![]]);
    let short: Vec<Vec<usize>> = looped.walks.iter().take_while(|w| w.len() < 3).cloned().collect();
    assert_eq!(short, [vec![], vec![0], vec![0, 0], vec![0, 1]]);
    assert_eq!((looped.whole, looped.all, looped.walks.len()), (8, false, 1 + 1 + 7 * 2 + 12));
    assert!(looped.walks.iter().any(|w| w.len() > 20), "long ones are drawn");
    let equal = found(&[vec![fork(1, 1)], vec![]]);
    assert_eq!((equal.walks, equal.whole, equal.all), (vec![vec![], vec![0], vec![0, 1]], 2, true));
    let none = found(&[]);
    assert_eq!((none.walks, none.whole, none.all), (vec![vec![]], 0, true));
    // 32 ways from block 0 and back: the walks of 4 blocks would be 1,024
    let mut wide = lay(&[vec![vec![Record::new(CASE, 0, &[0], (0, 0), &[0])]], vec![vec![br(0)]; 32]].concat(), 1);
    (wide.targets, wide.pairs) = ((1..33).collect(), vec![0, 32]);
    let wide = walks_of(&wide, &mut Random::new(1));
    assert_eq!((wide.whole, wide.all, wide.walks.len()), (3, false, 1 + 1 + 32 + 32 + 12));
}

#[test]
fn the_listing_keeps_the_claim_and_slips_break_it() {
    let before = listing();
    let (after, was) = one_round(&before);
    for walk in [&[][..], &[0], &[0, 1], &[0, 2]] {
        assert_eq!(broken(&before, &after, &was, walk), None);
    }
    // Two Cmps exchanged, which look alike; a Cmp and the Cat, which do not.
    let mut other = was.clone();
    other.swap(3, 5);
    breaks(&before, &after, &other, &[0, 1], "reads another value");
    other.swap(3, 9);
    breaks(&before, &after, &other, &[], "is not what");
    other[0] = other[1];
    breaks(&before, &after, &other, &[], "stands exactly once");
    // The target's read is not renamed.
    let output = after.places(1).find(|&p| after.record(p).kind() == OUTPUT).expect("the listing's");
    let mut slip = after.clone();
    slip.recs[16 * output + 2] = 2;
    breaks(&before, &slip, &was, &[0, 1], "reads another value");
    assert_eq!(broken(&before, &slip, &was, &[0, 2]), None);
    // What is carried beside the record.
    let mut slip = after.clone();
    slip.locs[4] = 1;
    breaks(&before, &slip, &was, &[], "is not what");
    let (mut with_vias, mut slip) = (before.clone(), after.clone());
    (with_vias.vias, slip.vias) = (vec![0; was.len()], vec![0; was.len()]);
    assert_eq!(broken(&with_vias, &slip, &was, &[0, 1]), None);
    slip.vias[0] = 1;
    breaks(&with_vias, &slip, &was, &[], "is not what");
}

#[test]
fn what_must_not_move_breaks_the_claim() {
    let (make, read, ret) = (op(CMP, &[3, 1, 1]), op(OUTPUT, &[3, 3]), op(RET, &[]));
    let constant = op(CONST, &[1]);
    // A write below a read that stays.
    let (b, a, was) = by_hand(&[vec![make, read, fork(1, 2)], vec![ret], vec![ret]], &[&[1, 2], &[0, 3], &[4]]);
    breaks(&b, &a, &was, &[0], "reads it");
    // A read below a write that stays; a write that the other branch reads.
    let (b, a, was) = by_hand(&[vec![constant, make, constant, fork(1, 2)], vec![ret], vec![ret]], &[&[0, 2, 3], &[1, 4], &[5]]);
    breaks(&b, &a, &was, &[0, 1], "reads another value");
    assert_eq!(broken(&b, &a, &was, &[0, 2]), None);
    let (b, a, was) = by_hand(&[vec![make, fork(1, 2)], vec![ret], vec![read]], &[&[1], &[0, 2], &[3]]);
    breaks(&b, &a, &was, &[0, 2], "reads it");
    // Another slot of the same run.
    let takes = vec![op(TAKE_BOUNDS, &[1, 2, 3]), op(OUTPUT, &[1, 2]), ret];
    let (b, mut a, was) = by_hand(&[takes], &[&[0, 1, 2]]);
    a.set_record(1, op(OUTPUT, &[2, 2]));
    breaks(&b, &a, &was, &[0], "reads another value");
    // Into a block that comes again by itself; into block 0, past which the walk begins.
    let (b, a, was) = by_hand(&[vec![make, fork(1, 2)], vec![br(1)], vec![ret]], &[&[1], &[0, 2], &[3]]);
    assert_eq!(broken(&b, &a, &was, &[0, 1]), None);
    breaks(&b, &a, &was, &[0, 1, 1], "two runs match");
    let (b, a, was) = by_hand(&[vec![br(1)], vec![make, fork(0, 2)], vec![ret]], &[&[1, 0], &[2], &[3]]);
    breaks(&b, &a, &was, &[0], "matches no run");
    // A table that leads elsewhere.
    let case = Record::new(CASE, 0, &[0], (0, 0), &[0]);
    let (mut b, mut a, was) = by_hand(&[vec![case], vec![ret]], &[&[0], &[1]]);
    for (p, to) in [(&mut b, 0), (&mut a, 1)] {
        (p.pairs, p.targets) = (vec![0, 1], vec![to]);
    }
    breaks(&b, &a, &was, &[], "the walks are others");
}

#[test]
fn a_run_is_matched_at_the_latest_visit() {
    let before = listing_but(1, 1, br(0));
    let (after, was) = one_round(&before);
    let pair = Pair::of(&before, &after, &was).expect("a round keeps what stands");
    let twice = [0, 1, 0, 1];
    assert!(pair.claim(&twice, latest).is_ok());
    let earliest = pair.claim(&twice, |places, block| places.iter().position(|&b| b == block)).err();
    assert!(earliest.is_some_and(|why| why.contains("two runs match")));
    // Of a walk that leaves the loop at once, the members run in neither picture after it.
    assert_eq!(pair.claim(&[0, 2], latest).expect("holds").unmatched, 8);
}

#[test]
fn a_round_carries_its_members_and_nothing_else() {
    let p = listing();
    let lent = Lent::new(&p).expect("few types");
    let round = &lent.wanted().rounds[0];
    let (lent_at, after) = (places::as_lent(&p), places::after(round));
    assert!(places::carries(&lent_at, &after, round));
    for (block, a, b) in [(1, 0, 1), (1, 7, 8), (0, 0, 1)] {
        let mut other = after.clone();
        other[block].swap(a, b);
        assert!(!places::carries(&lent_at, &other, round));
    }
}

#[test]
fn without_the_start_as_a_predecessor_faults_come_up() {
    let (mut right, mut wrong) = (0, 0);
    for seed in 0..200 {
        let p = entered(seed, Size::Small);
        let lent = Lent::new(&p).expect("few types");
        let walks = walks_of(&p, &mut Random::new(seed)).walks;
        let faults = |entry| Stats::default().claim(&p, &lent, &lent.rounds(Facts::Lengthened, entry), &walks).len();
        right += faults(Entry::Start);
        wrong += faults(Entry::Blocks);
    }
    assert_eq!(right, 0);
    assert!(wrong > 5, "{wrong}");
}

#[test]
fn a_round_through_block_0_that_is_not_seen_is_a_fault() {
    // x is block 1, and goes through block 0 to the listing's branches.
    let of = listing().blocks();
    let x = [&of[0][..9], &[br(0)]].concat();
    let p = lay(&[vec![fork(2, 3)], x, of[1].clone(), of[2].clone()], 9);
    let lent = Lent::new(&p).expect("few types");
    let mut alone = lent.rounds(Facts::Lengthened, Entry::Blocks);
    let led = |alone: &Trace| {
        let mut stats = Stats::default();
        stats.led(&p, "x before block 0", &lent, alone, vec![vec![], vec![0], vec![0, 2]]);
        stats
    };
    let seen = led(&alone);
    assert_eq!((seen.past_later, seen.breaks, seen.came_round, seen.faults.len()), (1, 1, 0, 0));
    alone.rounds[0].chain = vec![1];
    assert_eq!(led(&alone).faults.len(), 1);
}

#[test]
fn what_comes_round_to_block_0_need_not_be_missed() {
    // Block 0 and block 1 lead to each other; what moves goes from block 0 to block 1 and back to where it was.
    let of = listing().blocks();
    let ring = |first: &[Record], last: Record| {
        let p = lay(&[[first, &of[0][1..9], &[fork(1, 2)]].concat(), vec![fork(0, 2)], vec![op(RET, &[])], vec![last]], 9);
        let lent = Lent::new(&p).expect("few types");
        let mut stats = Stats::default();
        let walks = walks_of(&p, &mut Random::new(1)).walks;
        stats.led(&p, "a ring", &lent, &lent.rounds(Facts::Lengthened, Entry::Blocks), walks);
        assert_eq!((stats.past, stats.came_round, stats.faults), (1, 1, Vec::new()));
        (stats.breaks, stats.spared)
    };
    // Nothing that stays in block 0 is read: as if nothing had moved. Where something is, its readers now stand before it.
    assert_eq!(ring(&[], of[0][0]), (0, 1));
    assert_eq!(ring(&of[0][..1], op(RET, &[])), (1, 0));
}

#[test]
fn block_0_is_led_to_in_each_way() {
    let mut stats = Stats::default();
    for seed in 0..2000 {
        let p = entered(seed, if seed % 2 == 0 { Size::Small } else { Size::Medium });
        assert_eq!(accept::refusal(&p, p.work()), 0);
        stats.entered(&p);
    }
    for (what, many) in SORTS.iter().zip(stats.sorts) {
        assert!(many >= 60, "block 0 is {what} {many} times in 2,000");
    }
    assert!(stats.entered == 2000 && stats.entered_moved > 1000, "{} of them move", stats.entered_moved);
}

#[test]
fn all_comes_up() {
    assert_eq!(walks(600, 1, |_: &Picture, _: &Outcome| None).missing(), Vec::<String>::new());
}

#[test]
fn the_port_is_held_to_the_picture_after_the_last_round() {
    // The Rust in the port's place, as it is, and with a slip.
    let held = |slip: fn(&mut Picture, u32) -> u32| {
        let also = |p: &Picture, wanted: &Outcome| {
            left_otherwise(p, wanted, |q: &mut Picture, _: &mut [u64], _: &mut [u32], _: &mut [Fact], out: &mut [u32]| {
                let found = oracle_with_work(q).expect("few types");
                *q = found.picture;
                out.copy_from_slice(&[q.regs, q.opers]);
                slip(q, found.answer.number())
            })
        };
        walks(20, 1, also).faults.len()
    };
    assert_eq!(held(|_, n| n), 0);
    assert!(held(|_, n| if n == 1 { 2 } else { n }) > 0);
    assert!(held(|p, n| { p.recs[2] ^= u32::from(n > 0); n }) > 0);
}
