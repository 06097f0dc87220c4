//! What a record reads and writes, by the roles (document 01, "The call"): slots in order, then list places. An absent slot does
//! neither.

use crate::kinds::{self, Slot};
use crate::picture::{ABSENT, Picture, Record};

fn slots_that(r: &Record, role: [Slot; 2]) -> Vec<usize> {
    let roles = kinds::slots(r.kind(), r.form());
    (0..roles.len()).filter(|&k| role.contains(&roles[k]) && r.slots()[k] != ABSENT).collect()
}

/// The slots that read, 0 to 4.
pub fn reading(r: &Record) -> Vec<usize> {
    slots_that(r, [Slot::Use, Slot::MaybeUse])
}

/// The slots that write.
pub fn writing(r: &Record) -> Vec<usize> {
    slots_that(r, [Slot::Def, Slot::MaybeDef])
}

/// The registers read: of slots, then of the list.
pub fn reads(p: &Picture, r: &Record) -> Vec<u32> {
    let mut all: Vec<u32> = reading(r).into_iter().map(|k| r.slots()[k]).collect();
    all.extend_from_slice(p.list_of(r));
    all
}

/// The registers written.
pub fn writes(r: &Record) -> Vec<u32> {
    writing(r).into_iter().map(|k| r.slots()[k]).collect()
}
