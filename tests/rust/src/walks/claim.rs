//! Demand 3's claim over one walk, as document 01 says it under "The walk", without the premise on block 0 (request 2026-02).

use super::machine::{Code, Played, Write};
use crate::picture::{ABSENT, Picture};

/// A picture before and one after, and what is the same of them on every walk.
pub struct Pair {
    before: Code,
    after: Code,
    /// of each position after, its old place
    was: Vec<usize>,
    /// of each position before, its block
    home: Vec<usize>,
}

/// What was counted of one walk on which the claim holds.
#[derive(Clone, Copy, Default)]
pub struct Counts {
    /// in the picture as lent
    pub runs: usize,
    pub unmatched: usize,
    pub reads: usize,
}

/// The greatest place of these that holds the block: which visit a run after is matched at.
pub fn latest(places: &[usize], block: usize) -> Option<usize> {
    places.iter().rposition(|&b| b == block)
}

/// Why the claim breaks on a walk; `None` where it holds. `was` gives each position's old place.
pub fn broken(before: &Picture, after: &Picture, was: &[usize], walk: &[usize]) -> Option<String> {
    match Pair::of(before, after, was) {
        Err(why) => Some(why),
        Ok(pair) => pair.claim(walk, latest).err(),
    }
}

impl Pair {
    /// Each original instruction stands exactly once, the same but for its registers, and both pictures have the same walks.
    pub fn of(before: &Picture, after: &Picture, was: &[usize]) -> Result<Pair, String> {
        let many = before.locs.len();
        let mut stands = vec![0; many];
        was.iter().filter(|&&p| p < many).for_each(|&p| stands[p] += 1);
        if was.len() != many || after.locs.len() != many || stands.iter().any(|&n| n != 1) {
            return Err("not each instruction stands exactly once".into());
        }
        if before.nblocks() != after.nblocks() || (0..before.nblocks()).any(|b| before.successors(b) != after.successors(b)) {
            return Err("the walks are others".into());
        }
        if let Some(q) = (0..many).find(|&q| !carried(before, after, was[q], q)) {
            return Err(format!("position {q} is not what position {} was", was[q]));
        }
        let mut home = vec![0; many];
        for b in 0..before.nblocks() {
            before.places(b).for_each(|p| home[p] = b);
        }
        Ok(Pair { before: Code::of(before), after: Code::of(after), was: was.to_vec(), home })
    }

    /// The claim on one walk; a run after is matched at the visit that `visit` says.
    pub fn claim(&self, walk: &[usize], visit: impl Fn(&[usize], usize) -> Option<usize>) -> Result<Counts, String> {
        let (old, new) = (self.before.play(walk), self.after.play(walk));
        let matched = self.matched(&old, &new, walk, visit)?;
        let mut taken = vec![false; old.runs.len()];
        for &m in &matched {
            if taken[m] {
                return Err(format!("two runs match {}", said(&old, m)));
            }
            taken[m] = true;
        }
        // A run left unmatched had been read only by unmatched runs.
        for reader in (0..old.runs.len()).filter(|&r| taken[r]) {
            if let Some(w) = old.takes_of(reader).iter().flatten().find(|w| !taken[w.run]) {
                return Err(format!("{} is unmatched, and {} reads it", said(&old, w.run), said(&old, reader)));
            }
        }
        for (run, &m) in matched.iter().enumerate() {
            let (now, had) = (new.takes_of(run), old.takes_of(m));
            let carried = now.iter().map(|w| w.map(|w| Write { run: matched[w.run], slot: w.slot }));
            if !carried.eq(had.iter().copied()) {
                return Err(format!("{} reads another value than {}", said(&new, run), said(&old, m)));
            }
        }
        let unmatched = taken.iter().filter(|&&t| !t).count();
        Ok(Counts { runs: old.runs.len(), unmatched, reads: old.takes.len() })
    }

    /// The run before that each run after matches.
    fn matched(&self, old: &Played, new: &Played, walk: &[usize], visit: impl Fn(&[usize], usize) -> Option<usize>) -> Result<Vec<usize>, String> {
        let mut matched = Vec::with_capacity(new.runs.len());
        for (run, &(n, q)) in new.runs.iter().enumerate() {
            let p = self.was[q];
            let block = self.home[p];
            let Some(place) = visit(&walk[..=n], block) else {
                return Err(format!("{} matches no run: block {block} has not been visited", said(new, run)));
            };
            matched.push(old.first[place] + p - self.before.blocks[block].start);
        }
        Ok(matched)
    }
}

fn said(played: &Played, run: usize) -> String {
    let (n, p) = played.runs[run];
    format!("position {p} at place {n}")
}

/// Kind, form, payload, absent slots, list length, loc and via are those of the old place.
fn carried(before: &Picture, after: &Picture, p: usize, q: usize) -> bool {
    let (a, b) = (before.record(p), after.record(q));
    let absent = |(x, y): (&u32, &u32)| (*x == ABSENT) == (*y == ABSENT);
    (a.kind(), a.form(), a.payload(), a.list().1) == (b.kind(), b.form(), b.payload(), b.list().1)
        && a.slots().iter().zip(b.slots()).all(absent)
        && before.locs[p] == after.locs[q]
        && before.vias.get(p) == after.vias.get(q)
}
