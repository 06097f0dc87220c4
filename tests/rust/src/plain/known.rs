//! Facts on registers, which come once, before round 1, from registers with exactly one writer (document 01, "A round").

use super::roles;
use crate::kinds::{ADDR_OF, CONST};
use crate::picture::{Picture, Record};

/// What the only writer of a register says of it.
#[derive(Clone, Copy, PartialEq, Eq, Debug)]
pub enum Known {
    Nothing,
    ReadOnly,
    Frame,
    Constant(i64),
}

/// Each register's. One that a round makes has no facts (document 01, "Departures"): it lies past the end.
pub fn known(p: &Picture) -> Vec<Known> {
    let mut writers: Vec<Vec<Record>> = vec![Vec::new(); p.regs as usize];
    for r in p.records() {
        for w in roles::writes(&r) {
            writers[w as usize].push(r);
        }
    }
    writers.iter().map(|all| if let [only] = all[..] { said_by(&only) } else { Known::Nothing }).collect()
}

fn said_by(r: &Record) -> Known {
    if r.kind() == CONST {
        Known::Constant(whole(r))
    } else if r.kind() == ADDR_OF && r.form() == 0 {
        Known::Frame
    } else if r.kind() == ADDR_OF && (r.form() == 2 || r.form() == 4) {
        Known::ReadOnly
    } else {
        Known::Nothing
    }
}

/// The number of a Const: words 9 and 10, low and high half, signed.
pub fn whole(r: &Record) -> i64 {
    (u64::from(r.0[10]) << 32 | u64::from(r.0[9])) as i64
}

/// Is a constant a length?
pub fn is_length(v: i64) -> bool {
    (-(1 << 40)..=1 << 40).contains(&v)
}
