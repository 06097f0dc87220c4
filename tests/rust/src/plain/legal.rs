//! The legal set (document 01): the six rules, in its order, and the greatest set that keeps them.

use super::facts::{Fact, Origin, Read};

/// A chain's facts and a target of it.
pub struct Question<'a> {
    pub facts: &'a [Fact],
    /// positions in x
    pub inside: usize,
    /// registers live into the other branch, or live out of the target and not written there
    pub needed: Vec<bool>,
}

/// Is a rule kept for this position of a set?
type Rule = fn(&Question, &[bool], usize) -> bool;

const RULES: [Rule; 6] = [readers, results, operands, suspensions, order, memory];

/// `alias` in 000: can what is written at `w` be what is read at `r`?
fn alias(w: Origin, r: Origin) -> bool {
    if w == Origin::Unknown || r == Origin::Unknown {
        return true;
    }
    w == r && w != Origin::Heap && w != Origin::Ro
}

/// The positions after `p` that are kept: outside the set, in the whole chain.
fn kept_after<'s>(q: &'s Question, set: &'s [bool], p: usize) -> impl Iterator<Item = &'s Fact> {
    (p + 1..q.facts.len()).filter(|&k| !set[k]).map(|k| &q.facts[k])
}

/// 1. Whoever reads the value of `p` in the chain is in the set.
fn readers(q: &Question, set: &[bool], p: usize) -> bool {
    q.facts[p].readers.iter().all(|&k| set[k])
}

/// 2. A register that `p` writes last in the chain is needed by nobody but the target.
fn results(q: &Question, _: &[bool], p: usize) -> bool {
    let last = |r: &u32| q.facts[p + 1..].iter().all(|k| !k.writes.contains(r));
    q.facts[p].writes.iter().all(|r| !(last(r) && q.needed[*r as usize]))
}

/// 3. A register that `p` reads from outside the set is written by no kept position after `p`.
fn operands(q: &Question, set: &[bool], p: usize) -> bool {
    let from_outside = |read: &&Read| !read.writer.is_some_and(|w| set[w]);
    q.facts[p].reads.iter().filter(from_outside).all(|read| kept_after(q, set, p).all(|k| !k.writes.contains(&read.register)))
}

/// 4. No kept position after `p` may suspend.
fn suspensions(q: &Question, set: &[bool], p: usize) -> bool {
    kept_after(q, set, p).all(|k| !k.suspends)
}

/// 5. What `p` does to memory may come after what is kept behind it.
fn order(q: &Question, set: &[bool], p: usize) -> bool {
    let own = &q.facts[p];
    let minds = own.creates || own.wrote.is_some() || own.from.iter().any(|o| !matches!(o, Origin::Ro | Origin::Heap));
    let no_barrier = !minds || kept_after(q, set, p).all(|k| !k.barrier);
    let no_write = kept_after(q, set, p).all(|k| k.wrote.is_none_or(|w| !own.from.iter().any(|&o| alias(w, o))));
    let allowed = own.from.iter().all(|o| matches!(o, Origin::Ro | Origin::Frame | Origin::Img(_) | Origin::Temp(_)));
    no_barrier && no_write && allowed
}

/// 6. Memory that `p` writes is made by a member.
fn memory(q: &Question, set: &[bool], p: usize) -> bool {
    q.facts[p].wrote.is_none_or(|w| matches!(w, Origin::Temp(maker) if set[maker]))
}

impl Question<'_> {
    /// The greatest legal set: all that is movable in x, less what breaks a rule, until nothing does. One rule can be left out.
    pub fn greatest(&self, left_out: Option<usize>) -> Vec<usize> {
        let mut set: Vec<bool> = (0..self.facts.len()).map(|p| p < self.inside && self.facts[p].movable).collect();
        loop {
            let before = set.clone();
            for p in 0..self.inside {
                let kept = |(k, rule): (usize, &Rule)| left_out == Some(k + 1) || rule(self, &set, p);
                set[p] = set[p] && RULES.iter().enumerate().all(kept);
            }
            if set == before {
                return (0..self.inside).filter(|&p| set[p]).collect();
            }
        }
    }
}
