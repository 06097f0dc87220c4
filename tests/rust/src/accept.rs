//! Acceptance, judged by itself: document 01's table of causes in plain Rust, and the three gates of the entry.

use crate::kinds::{self, KINDS, Slot};
use crate::picture::{ABSENT, Picture, RECORD, Record, Work};

/// The lowest number whose cause is present, 0 where none is, given what is lent to work in.
pub fn refusal(p: &Picture, work: Work) -> u32 {
    let causes: [fn(&Picture) -> bool; 9] =
        [too_large, uneven, apart, bad_kind, bad_slot, bad_list, bad_target, long_cat, bad_type];
    for (k, cause) in causes.iter().enumerate() {
        if cause(p) {
            return k as u32 + 1;
        }
    }
    let need = p.work();
    if work.w64 < need.w64 || work.w32 < need.w32 || work.records < need.records {
        return 10;
    }
    0
}

fn too_large(p: &Picture) -> bool {
    p.bounds.len() / 2 > 4096
        || p.locs.len() > 32768
        || p.types.len() > 65536
        || p.ops.len() > 131072
        || p.pairs.len() > 65536
        || p.targets.len() > 65536
        || p.regs as usize > p.types.len()
        || p.opers as usize > p.ops.len()
}

fn uneven(p: &Picture) -> bool {
    let n = p.locs.len();
    p.recs.len() != RECORD * n || (!p.vias.is_empty() && p.vias.len() != n) || !p.bounds.len().is_multiple_of(2) || !p.pairs.len().is_multiple_of(2)
}

fn apart(p: &Picture) -> bool {
    let mut at = 0;
    for b in p.bounds.chunks(2) {
        if b[0] != at || b[1] < b[0] {
            return true;
        }
        at = b[1];
    }
    at as usize != p.locs.len()
}

fn bad_kind(p: &Picture) -> bool {
    p.records().any(|r| match KINDS.get(r.kind() as usize) {
        None => true,
        Some(k) => r.form() < k.forms.0 || r.form() > k.forms.1 || (r.kind() == kinds::CAT && r.0[9] > 65535),
    })
}

fn bad_slot(p: &Picture) -> bool {
    p.records().any(|r| {
        let one_wrong = kinds::slots(r.kind(), r.form()).iter().zip(r.slots()).any(|(slot, &reg)| match slot {
            Slot::Off => reg != ABSENT,
            Slot::Def | Slot::Use => reg >= p.regs,
            Slot::MaybeDef | Slot::MaybeUse => reg >= p.regs && reg != ABSENT,
        });
        one_wrong || (r.kind() == kinds::SIG_GATHER && (r.slots()[2] == ABSENT) != (r.slots()[3] == ABSENT))
    })
}

fn bad_list(p: &Picture) -> bool {
    let past = |r: Record| {
        let (start, len) = r.list();
        if KINDS[r.kind() as usize].list {
            u64::from(start) + u64::from(len) > u64::from(p.opers)
        } else {
            (start, len) != (0, 0)
        }
    };
    p.records().any(past) || p.ops[..p.opers as usize].iter().any(|&r| r >= p.regs)
}

fn bad_target(p: &Picture) -> bool {
    let blocks = p.nblocks() as u32;
    let branch = |r: Record| match r.kind() {
        kinds::BR => r.0[9] >= blocks,
        kinds::COND_BR => r.0[9] >= blocks || r.0[10] >= blocks,
        _ => false,
    };
    p.records().any(branch)
        || p.targets.iter().any(|&t| t >= blocks)
        || p.pairs.chunks(2).any(|c| c[1] == 0 || u64::from(c[0]) + u64::from(c[1]) > p.targets.len() as u64)
}

fn long_cat(p: &Picture) -> bool {
    p.records().any(|r| r.kind() == kinds::CAT && r.list().1 > 33)
}

fn bad_type(p: &Picture) -> bool {
    p.types[..p.regs as usize].iter().any(|&t| t > 7)
}

/// Kinds of which `analyse` can find an instance movable.
pub fn may_move(kind: u32) -> bool {
    use kinds::*;
    matches!(
        kind,
        MOVE | SELECT | CMP | F_CMP | BOOL | BIN | INDEX | CHECK | DOPE_LEN | BOUNDS_LEN | LOAD | ALLOC | LAYOUT_OF | SIG_VAL
            | SIG_READ_SCALAR | SIG_READ | MAKE_DOPE | STORE | CAT | CALL_NATIVE
    )
}

/// The gates of the entry: it answers Done with 0 rounds.
pub fn gated(p: &Picture) -> bool {
    p.nblocks() == 0
        || p.regs as usize * p.nblocks() > 2_097_152
        || !p.records().any(|r| r.kind() == kinds::CAT && r.form() == 0)
}
