//! Old places (document 01, "The walk"): where each instruction after some rounds stood in the picture as lent.

use crate::driver::Round;
use crate::picture::Picture;

/// Old places, block by block.
pub type Places = Vec<Vec<usize>>;

pub fn as_lent(p: &Picture) -> Places {
    (0..p.nblocks()).map(|b| p.places(b).collect()).collect()
}

pub fn after(round: &Round) -> Places {
    round.after.loc.iter().map(|ids| ids.iter().map(|id| id.place as usize).collect()).collect()
}

/// Did the round carry its members from x to the target's head in their order, while the rest kept block and order?
pub fn carries(before: &Places, after: &Places, round: &Round) -> bool {
    let (x, target) = (round.from, round.into);
    let members = &after[target][..round.moved.min(after[target].len())];
    let mut rest = before.clone();
    rest[x].retain(|p| !members.contains(p));
    let carried: Vec<usize> = before[x].iter().copied().filter(|p| members.contains(p)).collect();
    if x == target || carried != members {
        return false;
    }
    rest[target].splice(0..0, carried);
    rest == *after
}
