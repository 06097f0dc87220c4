//! Stored pictures with the Rust's results, or the plain check's where a block leads to block 0, for a program that replays them
//! without the Rust: all bounds, every refusal, bytes that are not read, and generated pictures picked by what they show. The list is
//! a file of little-endian words and bytes.

use std::collections::BTreeSet;

use crate::accept::may_move;
use crate::boundary::{alike, boundaries};
use crate::bytes::{self, Hosted, OPERANDS, REGISTERS, RESULT, loose_bytes};
use crate::crossed::shows::{decided, features};
use crate::damage::DAMAGES;
use crate::driver::Facts;
use crate::generate::{Size, bare};
use crate::kinds::KINDS;
use crate::oracle::{Lent, oracle_with_work};
use crate::picture::Picture;
use crate::random::Random;
use crate::rooms::rooms;
use crate::rules::RULES;

/// Bytes of the whole list at most, and how many pictures it has.
const BYTES: usize = 950_000;
const PICTURES: usize = 480;
/// Seeds that are looked at.
const SEEDS: u64 = 6000;

/// What else is to be shown, beside rules, kinds and chains.
const OTHERS: [&str; 15] = [
    "a register reused",
    "empty target",
    "target before x",
    "new Sig",
    "new list",
    "target renamed",
    "target's list renamed",
    "moves with vias",
    "moves with replay",
    "short by a register",
    "short by an operand",
    "gated",
    "a seventh block decides",
    "a second writer decides",
    "the start of the function decides",
];

pub struct Vector {
    pub name: String,
    pub bytes: Vec<u8>,
    pub registers: u32,
    pub operands: u32,
    pub wanted: Hosted,
}

impl Vector {
    /// `None` where the Rust has too few types.
    fn new(name: String, bytes: Vec<u8>, (registers, operands): (usize, usize)) -> Option<Vector> {
        let wanted = bytes::host(&bytes, registers, operands, RESULT)?;
        Some(Vector { name, bytes, registers: registers as u32, operands: operands as u32, wanted })
    }

    fn result(&self) -> &[u8] {
        self.wanted.1.as_deref().unwrap_or(&[])
    }

    fn len(&self) -> usize {
        20 + self.bytes.len() + self.result().len()
    }
}

const ROOM: (usize, usize) = (REGISTERS, OPERANDS);

/// The bounds, without those that are much alike. Of those with many instructions only the longest chain is taken.
fn bounds() -> Vec<Vector> {
    let kept = boundaries().into_iter().filter(|b| b.name.contains("as long a chain of six") || (b.picture.locs.len() < 100 && !alike(&b.name)));
    kept.filter_map(|b| Vector::new(b.name, loose_bytes(&b.picture), ROOM)).collect()
}

/// Each damage to a small picture, as far as bytes can carry it.
fn damaged() -> Vec<Vector> {
    let mut out = Vec::new();
    for d in DAMAGES {
        let damaged = |seed: u64| {
            let mut p = bare(seed, Size::Small);
            (p.locs.len() <= 12 && (d.deed)(&mut p, &mut Random::new(seed))).then_some((seed, p))
        };
        if let Some((seed, p)) = (0..SEEDS).find_map(damaged) {
            let lent = if p.regs as usize > p.types.len() || p.opers as usize > p.ops.len() { (p.types.len(), p.ops.len()) } else { ROOM };
            let bytes = loose_bytes(&p);
            if bytes.len() < 2000 && lent.0 <= REGISTERS && lent.1 <= OPERANDS {
                out.extend(Vector::new(format!("seed {seed}, {}", d.what), bytes, lent));
            }
        }
    }
    out
}

/// Bytes that are not read, and room that there cannot be: the listing cut short, lengthened, with each count one more or past
/// its size.
fn unread() -> Vec<Vector> {
    let bytes = bytes::to_bytes(&crate::listing::listing());
    let mut out = Vec::new();
    let mut add = |name: String, bytes: Vec<u8>, room| out.extend(Vector::new(name, bytes, room));
    for n in [1, 3, 31, 32, bytes.len() - 4, bytes.len() - 1] {
        add(format!("the listing cut to {n} bytes"), bytes[..n].to_vec(), ROOM);
    }
    for n in [1, 4] {
        add(format!("the listing and {n} more"), [&bytes[..], &vec![0; n]].concat(), ROOM);
    }
    for (k, size) in bytes::SIZES.iter().enumerate() {
        for count in [bytes[4 * k] as usize + 1, size + 1, u32::MAX as usize] {
            let mut b = bytes.clone();
            b[4 * k..4 * k + 4].copy_from_slice(&(count as u32).to_le_bytes());
            add(format!("the listing, its count {k} as {count}"), b, ROOM);
        }
    }
    for room in [(513, 2048), (512, 2049), (11, 0), (12, 0), (9, 0), (8, 0), (u32::MAX as usize, 0), (0, 0)] {
        add(format!("the listing, {} registers and {} operands lent", room.0, room.1), bytes.clone(), room);
    }
    out
}

/// What the picture shows, as `crossed` names it.
fn features_of(p: &Picture) -> Vec<String> {
    let lent = Lent::new(p).expect("no more types than the Rust has");
    let out = oracle_with_work(p).expect("no more types than the Rust has");
    let mut shows = features(p, &lent.wanted(), &out);
    shows.extend(decided(p, &lent));
    if lent.rounds(Facts::AsRun, lent.entry).stopped {
        shows.insert("the Rust as it is stops".into());
    }
    shows.into_iter().collect()
}

/// Generated pictures: first those that show something that none shows, then small ones that move, until there are enough or
/// no room is left.
fn generated(mut many: usize, mut left: usize, shown_so_far: &mut BTreeSet<String>) -> Vec<Vector> {
    let mut out: Vec<Vector> = Vec::new();
    for pass in 0..2 {
        for seed in 0..SEEDS {
            let p = bare(seed, Size::Small);
            if many == 0 || p.locs.len() > if pass == 0 { 22 } else { 11 } {
                continue;
            }
            let mut rnd = Random::new(seed);
            let trace = Lent::new(&p).expect("no more types than the Rust has").wanted();
            for (registers, operands) in rooms(&p, &trace, ROOM, &mut rnd) {
                if registers < p.regs as usize || operands < p.opers as usize {
                    continue;
                }
                let mut q = p.clone();
                q.types.resize(registers, 0);
                q.ops.resize(operands, 0);
                let shows = features_of(&q);
                let new = shows.iter().any(|s| !shown_so_far.contains(s));
                let name = format!("seed {seed}, {registers} registers and {operands} operands lent");
                if !(new || pass == 1 && !trace.rounds.is_empty()) || out.iter().any(|v| v.name.starts_with(&name)) {
                    continue;
                }
                let Some(mut v) = Vector::new(name, bytes::to_bytes(&q), (registers, operands)) else { continue };
                if many == 0 || v.len() > left {
                    continue;
                }
                (many, left) = (many - 1, left - v.len());
                let told: Vec<&str> = shows.iter().map(String::as_str).filter(|s| !s.starts_with("moves ") || s.contains("with")).collect();
                v.name += &format!(": {}", told.join(", "));
                shown_so_far.extend(shows);
                out.push(v);
            }
        }
    }
    out
}

/// The list, and what is missing in it.
pub fn vectors() -> (Vec<Vector>, Vec<String>) {
    let mut all: Vec<Vector> = bounds();
    all.extend(damaged());
    all.extend(unread());
    // Of pictures that show the same, one is enough.
    let mut seen = BTreeSet::new();
    all.retain(|v| seen.insert((v.bytes.clone(), v.registers, v.operands)));
    let used: usize = all.iter().map(Vector::len).sum();
    let mut shown = BTreeSet::new();
    all.extend(generated(PICTURES.saturating_sub(all.len()), BYTES.saturating_sub(4 + used), &mut shown));
    let mut missing = Vec::new();
    let kinds = (0..KINDS.len()).filter(|&k| may_move(k as u32)).map(|k| format!("moves {}", KINDS[k].name));
    let rules = RULES.iter().map(|(_, name)| format!("{name} decides"));
    let chains = (1..=6).map(|n| format!("chain of {n}"));
    for want in kinds.chain(rules).chain(chains).chain(OTHERS.map(String::from)) {
        if !shown.contains(&want) {
            missing.push(format!("a picture with: {want}"));
        }
    }
    for number in (0..=8).chain([100, 101, 102]).chain(201..=209).chain([300]) {
        if !all.iter().any(|v| v.wanted.0 == number) {
            missing.push(format!("a picture with the answer {number}"));
        }
    }
    if all.len() < 400 || file(&all).len() > BYTES {
        missing.push("400 pictures in a megabyte".into());
    }
    (all, missing)
}

/// For each picture five words, its length, the registers and operands lent, the number, and the length of the result; then both
/// as bytes. A word 0 ends the list.
pub fn file(all: &[Vector]) -> Vec<u8> {
    let mut out = Vec::new();
    for v in all {
        for w in [v.bytes.len() as u32, v.registers, v.operands, v.wanted.0, v.result().len() as u32] {
            out.extend(w.to_le_bytes());
        }
        out.extend_from_slice(&v.bytes);
        out.extend_from_slice(v.result());
    }
    out.extend([0; 4]);
    out
}

/// How the list was made, and what is in it.
pub fn page(all: &[Vector]) -> String {
    let mut out = format!(
        "# Stored pictures\n\nThe list beside this page, `stdin`, holds {} pictures with the Rust's results, in {} bytes. Both files are written by\n\n    tests/rust/target/release/compare vectors crates/vectors\n\n",
        all.len(),
        file(all).len()
    );
    out += "For each picture: five little-endian words, the length of its bytes, the registers and operands lent, the number that `virdzeba_sink` must return, the length of the bytes that it must write at the result's head; then the picture's bytes, then those of the result. A word 0 ends the list. The result is lent 53,024 bytes.\n\n";
    out += "The numbers and results are those of tests/rust: the Rust of the pass with its facts lengthened (docs/DIFFERENCES.md), and the plain check where a block leads to block 0 (request 2026-02); refusals, room and bytes that are not read are judged from document 01. The pictures are the bounds of document 01, each damage of tests/rust to a small picture, bytes that are not read, and generated pictures picked by what they show: every rule that decides, every kind that moves, chains of one to six blocks and a seventh.\n\n";
    for (k, v) in all.iter().enumerate() {
        out += &format!("{k}. {}: {}\n", v.name, v.wanted.0);
    }
    out
}

#[cfg(test)]
mod tests {
    use super::*;

    #[test]
    fn nothing_is_missing() {
        let (all, missing) = vectors();
        assert_eq!(missing, Vec::<String>::new());
        assert!(all.iter().all(|v| !v.bytes.is_empty()), "a length of 0 ends the list");
    }
}
