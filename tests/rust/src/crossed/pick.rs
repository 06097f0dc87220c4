//! Which pictures become rows.

use std::collections::BTreeMap;

use super::shows::{decided, features};
use super::{Row, SEEDS};
use crate::boundary::{alike, boundaries};
use crate::damage::DAMAGES;
use crate::driver::Facts;
use crate::generate::{Size, picture};
use crate::oracle::{Answer, Lent, oracle, oracle_with_work};
use crate::kinds::RET;
use crate::picture::{Picture, Record, Work};
use crate::random::Random;

/// Instructions of a picture at most.
const CODE: usize = 24;
/// The same of a picture at the bounds, and the words of its lists at most.
const BOUND_CODE: usize = 30;
const WORDS: usize = 40;

/// How many rows are to show a thing.
fn wanted(feature: &str) -> usize {
    match feature {
        "done 0" => 4,
        "done 1" => 8,
        "done 2" | "done 3" => 6,
        "done 4" => 5,
        "gated" => 1,
        "short 0" | "short 1" => 3,
        "short by a register" | "short by an operand" => 4,
        "empty target" | "new Sig" | "target's list renamed" | "target renamed" => 4,
        "target before x" | "target after x" | "target t" | "target f" | "new list" => 10,
        _ => 2,
    }
}

/// So many pictures that are accepted.
pub fn picked(many: usize) -> Vec<Row> {
    let mut counts: BTreeMap<String, usize> = BTreeMap::new();
    let mut rows = Vec::new();
    // First those that show something not shown at all, then not enough, then any that move, up to the number of rows.
    for pass in 0..3 {
        for seed in 0..SEEDS {
            if rows.len() >= many {
                break;
            }
            let p = picture(seed, Size::Small);
            let name = format!("s{seed}");
            if p.locs.len() > CODE || rows.iter().any(|r: &Row| r.name == name) {
                continue;
            }
            let lent = Lent::new(&p).expect("few types");
            let trace = lent.wanted();
            let work = p.work();
            let out = oracle(&p, work).expect("few types");
            let mut shows = features(&p, &trace, &out);
            shows.extend(decided(&p, &lent));
            if lent.rounds(Facts::AsRun, lent.entry).stopped {
                shows.insert("the Rust as it is stops".into());
            }
            let enough = |s: &str| if pass == 0 { 1 } else { wanted(s) };
            let new = shows.iter().any(|s| counts.get(s).copied().unwrap_or(0) < enough(s));
            if !(new || (pass == 2 && !out.lines.is_empty())) {
                continue;
            }
            for s in &shows {
                *counts.entry(s.clone()).or_default() += 1;
            }
            let words: Vec<&str> = shows.iter().map(String::as_str).filter(|s| !s.starts_with("moves ") || s.contains("with")).collect();
            rows.push(Row { name, notes: format!("seed {seed}: {}", words.join(", ")), what: p, work, gives: out });
        }
    }
    rows.sort_by_key(|r| r.name[1..].parse::<u64>().expect("a seed"));
    rows
}

/// Words past those in use, in the room that a row lends.
const ROOM: u32 = 77;

/// Pictures at the bounds that are rows of `model` already, and those that show what another shows.
fn left_out(name: &str) -> bool {
    let marked = [
        "the listing",
        "neither blocks nor instructions",
        "7 members",
        "7 members, block 1 in replay",
        "r8 read in the other branch",
        "Const 2^40",
        "Const 2^40+1",
        "Stmt after the Cat",
        "both branches to 1",
        "Suspend behind x, in the chain",
        "the target writes again what it reads",
        "what a member reads is written behind it",
        "a result live out of the target",
        "a Cat list of 34",
    ];
    marked.contains(&name) || alike(name) || name.ends_with(" rounds to be had")
}

/// The pictures at the bounds that are small, with just a little room.
pub fn at_bounds() -> Vec<Row> {
    let mut rows = Vec::new();
    for (k, b) in boundaries().into_iter().enumerate() {
        let mut what = b.picture;
        let words = [what.regs as usize, what.opers as usize, what.bounds.len(), what.pairs.len(), what.targets.len()];
        if b.number == 300 || what.locs.len() > BOUND_CODE || words.iter().any(|&n| n > WORDS) || left_out(&b.name) {
            continue;
        }
        what.locs = (0..what.locs.len() as u32).collect();
        let after = oracle_with_work(&what).expect("few types").picture;
        for (words, used, most) in [(&mut what.types, what.regs, after.regs), (&mut what.ops, what.opers, after.opers)] {
            words.truncate(used as usize);
            words.resize(most as usize + 1, ROOM);
        }
        let work = what.work();
        let gives = oracle(&what, work).expect("few types");
        assert_eq!(gives.answer.number(), b.number, "{}", b.name);
        rows.push(Row { name: format!("b{k}"), notes: format!("{}: {}", b.name, b.number), what, work, gives });
    }
    rows
}

/// One row for each way to damage a picture that leaves it small.
pub fn refused() -> Vec<Row> {
    let mut rows = Vec::new();
    for (k, d) in DAMAGES.iter().enumerate().filter(|(_, d)| d.cause != 0) {
        let small = |p: &Picture| [&p.bounds, &p.locs, &p.types, &p.ops, &p.pairs, &p.targets].iter().all(|l| l.len() <= 60);
        for seed in 0..SEEDS {
            let mut p = picture(seed, Size::Small);
            if p.locs.len() > 14 || !(d.deed)(&mut p, &mut Random::new(seed)) {
                continue;
            }
            if small(&p) {
                let work = p.work();
                let gives = oracle(&p, work).expect("few types");
                assert_eq!(gives.answer, Answer::Refused(d.cause), "{}", d.what);
                rows.push(Row { name: format!("d{k}"), notes: format!("seed {seed}, {}: refused {}", d.what, d.cause), what: p, work, gives });
            }
            break;
        }
    }
    // Work slices one word too short, either of them; a record too few. Then slices long enough for the registers in use, not for
    // those lent.
    let small = (0..SEEDS).map(|seed| picture(seed, Size::Small)).find(|p| p.locs.len() <= 14).expect("a small one");
    let mut more = Picture { regs: 2, types: vec![0; 4], ..Picture::of_blocks(&[vec![Record::new(RET, 0, &[], (0, 0), &[])]]) };
    more.types[3] = ROOM;
    let too_short = "a work slice one word too short: refused 10";
    let lent = "a work slice one word too short for the registers lent: refused 10";
    for (name, what, [a, b, c], notes) in [
        ("w64", &small, [1, 0, 0], too_short),
        ("w32", &small, [0, 1, 0], too_short),
        ("few", &small, [0, 0, 1], "799 records: refused 10"),
        ("w64k", &more, [1, 0, 0], lent),
        ("w32k", &more, [0, 1, 0], lent),
    ] {
        let need = what.work();
        let work = Work { w64: need.w64 - a, w32: need.w32 - b, records: need.records - c };
        let gives = oracle(what, work).expect("few types");
        rows.push(Row { name: name.into(), notes: notes.into(), what: what.clone(), work, gives });
    }
    rows
}
