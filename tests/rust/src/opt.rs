//! The place of `sink.rs` in its own crate: it sees all that is named here (`use super::*`).

use std::collections::HashMap;

use crate::shim::order::{POSTORDER_ROUND, back_nth, postorder};
use crate::{AddrSpace, BlockId, CheckKind, FuncFlags, FuncKind, Inst, IntOp, Program, Reg, RegTy, Role, StmtId, Ty, Width};

include!(concat!(env!("OUT_DIR"), "/sink_mod.rs"));

/// Debugging builds keep variables where they are written; not here.
fn keep_variables_on() -> bool {
    false
}
