//! What each of the 101 kinds writes to memory, as `analyse` and `writes_nothing` of 000 sort them.

use crate::kinds::KINDS;
use crate::picture::Record;

#[derive(Clone, Copy, PartialEq, Eq, Debug)]
pub enum Writes {
    /// no memory but a block of its own
    Nothing,
    /// the memory that the first register read addresses
    First,
    /// memory that nobody can place
    Anywhere,
    /// it is a barrier
    Barrier,
}

pub fn writes(r: &Record) -> Writes {
    match KINDS[r.kind() as usize].name {
        "Const" | "ConstF" | "Move" | "AddrOf" | "Select" | "Alloc" | "LayoutOf" | "RetBounds" | "TakeBounds" | "Load" | "Pos"
        | "SlicePos" | "Index" | "Field" | "Bin" | "Un" | "FBin" | "FUn" | "Phys" | "IToF" | "FToI" | "FToIRange" | "Cmp" | "FCmp"
        | "Bool" | "LEq" | "LKey" | "MemEq" | "ArrCmp" | "LGet" | "Check" | "FCheck" | "BinRange" | "DopeLen" | "BoundsLen"
        | "BoundsPos" | "BoundsSlice" | "SubtypeCheck" | "Deref" | "SigVal" | "SigParts" | "SigSlice" | "SigReadScalar" | "Edge"
        | "Drive" | "DriveSlot" | "WaitOn" | "WaitEdge" | "WaitFor" | "WaitAt" | "Now" | "Delta" | "TimedOut" | "Cover" | "Br"
        | "CondBr" | "Case" | "Ret" | "Unreachable" => Writes::Nothing,
        // a Sig is stored as memory of no known place
        "Store" if r.form() == 4 => Writes::Anywhere,
        "Store" | "SigRead" | "MakeDope" | "Cat" | "Copy" | "Fill" | "CopyConst" | "LCopy" | "LSet" | "LFill" | "LogicOp" => Writes::First,
        "CallNative" if image(r) || r.form() == 2 => Writes::Nothing,
        "CallNative" | "Stmt" | "TempRoot" | "Suspend" | "Call" | "CallProt" | "CallForeign" | "CallIndirect" | "New" | "NewFill"
        | "NewFrame" | "Free" | "Report" => Writes::Barrier,
        "PkgAlloc" | "Zero" | "LNum" | "SigLastValue" | "SigAttr" | "SigGather" | "SigScatter" | "Driving" | "DrivingValue"
        | "SigDriving" | "SigDrivingValue" | "Disconnect" | "DisconnectSlot" | "Force" | "Release" | "Output" | "CoverIn"
        | "CoverCond" => Writes::Anywhere,
        other => unreachable!("no kind is called {other}"),
    }
}

/// A CallNative for an image, with the list of 1 that it needs.
pub fn image(r: &Record) -> bool {
    r.form() == 1 && r.list().1 == 1
}

/// May it suspend?
pub fn suspends(r: &Record) -> bool {
    match KINDS[r.kind() as usize].name {
        "Suspend" | "CallIndirect" => true,
        name => (name == "Call" || name == "CallProt") && r.form() == 1,
    }
}
