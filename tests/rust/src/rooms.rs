//! How much room a picture is lent past what it uses, so that Short comes up where it must and nowhere else.

use crate::driver::Trace;
use crate::picture::Picture;
use crate::random::Random;

/// The rooms to lend, registers and operands: the most there is, just enough, just enough for one round, or up to a round, one register too few
/// for a round, one operand too few, and now and then less than is in use.
pub fn rooms(p: &Picture, trace: &Trace, most: (usize, usize), rnd: &mut Random) -> Vec<(usize, usize)> {
    let mut used = vec![(p.regs as usize, p.opers as usize)];
    used.extend(trace.rounds.iter().map(|r| (r.after.reg_ty.len(), r.after.operands.len())));
    let last = used[used.len() - 1];
    let mut out = vec![most, last];
    // Just enough for the first round, so that what one round leaves is seen.
    if used.len() > 2 {
        out.push(used[1]);
    }
    if used.len() > 1 {
        let some = rnd.from_to(1, used.len() - 1);
        let (before, after) = (used[some - 1], used[some]);
        out.push(before);
        if after.0 > before.0 {
            out.push((after.0 - 1, last.1 + rnd.below(3)));
        }
        if after.1 > before.1 {
            out.push((last.0 + rnd.below(3), after.1 - 1));
        }
    }
    if rnd.chance(5) {
        out.push((used[0].0.saturating_sub(1), used[0].1));
        out.push((used[0].0, used[0].1.saturating_sub(1)));
    }
    out.retain(|&(r, o)| r <= most.0 && o <= most.1);
    out.dedup();
    out
}
