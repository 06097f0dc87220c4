//! The program and the function as far as the pass looks at them.

use super::ids::*;
use crate::inst::{Inst, Reg, RegTy};

pub struct Program {
    pub cases: Table<CaseTableId, CaseTable>,
    pub natives: Table<NativeId, Native>,
    pub types: Table<TyId, Ty>,
    pub funcs: Table<FuncId, Func>,
}

/// Where a `Case` goes: the default, then the arms (low, high, block).
pub struct CaseTable {
    pub default: BlockId,
    pub arms: Vec<(i64, i64, BlockId)>,
}

pub struct Native {
    pub symbol: String,
    pub ty: Option<TyId>,
}

pub enum Ty {
    Int { bits: u32 },
    Enum { count: u32 },
    Other,
}

#[derive(Clone)]
pub struct Func {
    pub flags: FuncFlags,
    pub kind: FuncKind,
    pub blocks: Table<BlockId, Block>,
    pub code: Vec<Inst>,
    pub loc: Vec<StmtId>,
    pub via: Vec<u32>,
    pub operands: Vec<Reg>,
    pub reg_ty: Vec<RegTy>,
}

#[derive(Clone, Copy, Debug)]
pub struct Block {
    pub start: u32,
    pub end: u32,
}

#[derive(Clone, Copy)]
pub enum FuncKind {
    Function,
    Procedure,
    Process,
    Thunk,
}

#[derive(Clone, Copy)]
pub struct FuncFlags(u32);

impl FuncFlags {
    pub const NONE: FuncFlags = FuncFlags(0);
    pub const MAY_SUSPEND: FuncFlags = FuncFlags(1);
    pub const HAS_COVER: FuncFlags = FuncFlags(2);

    pub fn contains(self, other: FuncFlags) -> bool {
        self.0 & other.0 == other.0
    }
}
