//! Block 0 where something leads to it (request 2026-02): what it is in a picture, and which rounds of document 01 alone carry code
//! past it.

use super::choose::followed;
use super::places::Places;
use crate::driver::{Entry, Round};
use crate::oracle::Lent;
use crate::picture::Picture;

/// What block 0 can be; one picture can be several.
pub const SORTS: [&str; 5] = ["a branch target", "a loop's head", "a later part of a chain", "a target", "a beginning that is led to"];

/// Which of these block 0 is before round 1, chains and targets as document 01 has them.
pub fn sorts(p: &Picture, lent: &Lent) -> [bool; 5] {
    let overview = lent.overview(Entry::Blocks);
    let sole = |last: Option<&usize>| last.is_some_and(|&b| overview.preds[0] == [b as u32]);
    let mut out = [p.leads_to_entry(), loops(p), false, false, false];
    for (x, look) in overview.looks.iter().enumerate() {
        let Some(look) = look else { continue };
        out[2] |= look.blocks[1..].contains(&0);
        out[3] |= !look.blocks.contains(&0) && [look.t, look.f].contains(&0) && sole(look.blocks.last());
        out[4] |= x == 0 && out[0];
    }
    out
}

/// Does a walk come back to block 0?
fn loops(p: &Picture) -> bool {
    let next = followed(p);
    let mut seen = vec![false; next.len()];
    let mut open = vec![0];
    while let Some(b) = open.pop() {
        for &to in &next[b] {
            if to == 0 {
                return true;
            }
            if !std::mem::replace(&mut seen[to], true) {
                open.push(to);
            }
        }
    }
    false
}

/// The blocks that a walk enters without having been at x, where the round carries code past block 0: from there, as a later part of
/// the chain or as the target, to the target.
pub fn way_past(round: &Round) -> Option<Vec<usize>> {
    if round.into == 0 {
        return Some(vec![0]);
    }
    let at = round.chain.iter().position(|&b| b == 0).filter(|&at| at > 0)?;
    Some([&round.chain[at..], &[round.into]].concat())
}

/// Did every member of the round stand, as lent, in a block of that way? Then it has come round, and need not be missed there.
pub fn came_round(p: &Picture, way: &[usize], after: &Places, round: &Round) -> bool {
    let members = &after[round.into][..round.moved];
    members.iter().all(|&old| way.iter().any(|&b| p.places(b).contains(&old)))
}
