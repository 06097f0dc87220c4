//! The walks that the claim is tried on: all short ones, and some long ones drawn.

use crate::picture::Picture;
use crate::random::Random;

/// Walks in all, while every one of a length is among them, and the places of the longest of those.
const MOST: usize = 400;
const PLACES: usize = 8;
/// Walks drawn, and their places at most.
const DRAWN: usize = 12;
const LONGEST: usize = 60;

pub struct Walks {
    pub walks: Vec<Vec<usize>>,
    /// every walk of up to so many places is among them
    pub whole: usize,
    /// no walk has more
    pub all: bool,
}

/// Each block's successors, one that is named twice once.
pub fn followed(p: &Picture) -> Vec<Vec<usize>> {
    let each = |b| {
        let mut to = p.successors(b);
        to.sort_unstable();
        to.dedup();
        to
    };
    (0..p.nblocks()).map(each).collect()
}

/// All walks as far as there are few, the empty one first, and long ones where there are any.
pub fn walks_of(p: &Picture, rnd: &mut Random) -> Walks {
    let next = followed(p);
    let mut out = Walks { walks: vec![Vec::new()], whole: 0, all: false };
    let mut ends: Vec<Vec<usize>> = if next.is_empty() { Vec::new() } else { vec![vec![0]] };
    while !ends.is_empty() && out.whole < PLACES && out.walks.len() + ends.len() <= MOST {
        out.whole += 1;
        let more = |w: &Vec<usize>| next[w[w.len() - 1]].iter().map(|&b| [&w[..], &[b]].concat()).collect::<Vec<_>>();
        let longer = ends.iter().flat_map(more).collect();
        out.walks.append(&mut ends);
        ends = longer;
    }
    out.all = ends.is_empty();
    if !out.all {
        let endless = endless(&next);
        for _ in 0..DRAWN {
            let places = rnd.from_to(out.whole + 1, LONGEST);
            let keeps = rnd.chance(60);
            let walk = drawn(&next, &endless, places, keeps, rnd);
            out.walks.push(walk);
        }
    }
    out
}

/// Is there a walk without end from each block?
fn endless(next: &[Vec<usize>]) -> Vec<bool> {
    let mut goes = vec![true; next.len()];
    // What leads nowhere goes, until nothing does.
    while let Some(b) = (0..next.len()).find(|&b| goes[b] && !next[b].iter().any(|&to| goes[to])) {
        goes[b] = false;
    }
    goes
}

/// A walk of so many places, or fewer where it comes to an end; one that `keeps` leaves no loop where it need not.
fn drawn(next: &[Vec<usize>], endless: &[bool], places: usize, keeps: bool, rnd: &mut Random) -> Vec<usize> {
    // Some go the same way again and again.
    let (steady, habit) = (rnd.chance(40), rnd.below(4));
    let mut walk = vec![0];
    while walk.len() < places {
        let here = walk[walk.len() - 1];
        let loops: Vec<usize> = next[here].iter().copied().filter(|&b| endless[b]).collect();
        let open = if keeps && !loops.is_empty() { &loops } else { &next[here] };
        if open.is_empty() {
            break;
        }
        let choice = if steady && !rnd.chance(10) { habit % open.len() } else { rnd.below(open.len()) };
        walk.push(open[choice]);
    }
    walk
}
