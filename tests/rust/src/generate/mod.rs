//! Pictures by seed that really move. A picture is put together from units: a block with members, a chain behind it, and two
//! branches, one of which reads what the members leave.

mod draft;
mod entry;
mod members;
mod shapes;

pub use draft::{Draft, Size};

use crate::driver::{Entry, Facts};
use crate::oracle::Lent;
use crate::picture::Picture;
use crate::random::Random;

/// The picture of a seed.
pub fn picture(seed: u64, size: Size) -> Picture {
    with_room(bare(seed, size), Entry::Blocks, &mut Random::new(seed ^ 0x5EED_0F_2006))
}

/// A picture of the same shapes whose block 0 is led to, more often than not: as where a chain begins, as a later part of one, as a
/// target (request 2026-02). The room is that for the rounds of that request.
pub fn entered(seed: u64, size: Size) -> Picture {
    with_room(bare_entered(seed, size), Entry::Start, &mut Random::new(seed ^ 0x5EED_0F_2602))
}

/// The same picture, with no room past what is in use.
pub fn bare_entered(seed: u64, size: Size) -> Picture {
    let mut d = shapes::draw(Draft::new(seed, size));
    let first = d.first();
    d.finish_from(first)
}

/// The same picture, with no room past what is in use.
pub fn bare(seed: u64, size: Size) -> Picture {
    shapes::draw(Draft::new(seed, size)).finish()
}

/// Lends room: some past what the pass needs, just enough, or one register or operand too few for one of the rounds.
fn with_room(mut p: Picture, entry: Entry, rnd: &mut Random) -> Picture {
    let trace = Lent::new(&p).expect("no more types than the Rust has").rounds(Facts::Lengthened, entry);
    let mut used = vec![(p.regs as usize, p.opers as usize)];
    used.extend(trace.rounds.iter().map(|r| (r.after.reg_ty.len(), r.after.operands.len())));
    let (mut regs, mut opers) = *used.last().expect("the counts of before");
    match rnd.below(10) {
        0..4 => {
            regs += rnd.below(6);
            opers += rnd.below(6);
        }
        4 | 5 => {}
        choice => {
            let round = rnd.from_to(1, used.len().max(2) - 1);
            if let Some(&(r, o)) = used.get(round) {
                let before = used[round - 1];
                if choice < 8 && r > before.0 {
                    regs = r - 1;
                } else if o > before.1 {
                    opers = o - 1;
                }
            }
        }
    }
    // What lies in the room is nobody's business: it must only be kept.
    while p.types.len() < regs {
        p.types.push(rnd.pick(&[7, 9, 77]));
    }
    while p.ops.len() < opers {
        p.ops.push(rnd.pick(&[0, 999, u32::MAX]));
    }
    p
}
