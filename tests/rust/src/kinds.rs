//! The kinds in the order of `Inst`, written by hand from `inst.rs` and document 01's forms, for the generator and the
//! judgement of refusals. `roles` holds it against `visit` and against the port's own table.

/// One kind. A letter a slot: `d` written, `u` read, `D` written or absent, `U` read or absent, `n` read unless the form
/// is 1, `h` read from form 2 on, `c` written if the form is 1 and else read.
pub struct Kind {
    pub name: &'static str,
    pub slots: &'static str,
    pub list: bool,
    pub forms: (u32, u32),
}

/// What a slot of a record is for at a form.
#[derive(Clone, Copy, PartialEq, Eq, Debug)]
pub enum Slot {
    Off,
    Def,
    Use,
    MaybeDef,
    MaybeUse,
}

const fn kind(name: &'static str, slots: &'static str) -> Kind {
    Kind { name, slots, list: false, forms: (0, 0) }
}

const fn listed(name: &'static str, slots: &'static str) -> Kind {
    Kind { name, slots, list: true, forms: (0, 0) }
}

const fn forms(k: Kind, least: u32, most: u32) -> Kind {
    Kind { name: k.name, slots: k.slots, list: k.list, forms: (least, most) }
}

pub const KINDS: [Kind; 101] = [
    kind("Const", "d"),
    kind("ConstF", "d"),
    kind("Move", "du"),
    forms(kind("AddrOf", "d"), 0, 5),
    kind("Select", "duuu"),
    kind("CopyConst", "u"),
    kind("Alloc", "du"),
    kind("TempRoot", "uU"),
    kind("PkgAlloc", "du"),
    forms(kind("Load", "du"), 1, 4),
    forms(kind("Store", "uu"), 1, 4),
    kind("Copy", "uuu"),
    kind("Zero", "u"),
    kind("Fill", "uuu"),
    kind("Pos", "duu"),
    kind("SlicePos", "duuuu"),
    kind("Index", "duu"),
    kind("Field", "duu"),
    forms(kind("Bin", "duu"), 0, 4),
    kind("Un", "du"),
    kind("FBin", "duu"),
    kind("FUn", "du"),
    kind("Phys", "duu"),
    kind("IToF", "du"),
    kind("FToI", "du"),
    kind("FToIRange", "duuu"),
    kind("Cmp", "duu"),
    kind("FCmp", "duu"),
    forms(kind("Bool", "dun"), 0, 1),
    forms(kind("LogicOp", "uunu"), 0, 1),
    forms(kind("LNum", "cuuu"), 0, 1),
    kind("LEq", "duuu"),
    kind("LKey", "duu"),
    kind("MemEq", "duuu"),
    kind("ArrCmp", "duuuu"),
    kind("LGet", "duu"),
    kind("LSet", "uuu"),
    kind("LFill", "uuuu"),
    kind("LCopy", "uuuuu"),
    forms(listed("Cat", "uuu"), 0, 1),
    forms(kind("Check", "unh"), 0, 4),
    kind("FCheck", "uuu"),
    kind("BinRange", "duuuu"),
    listed("MakeDope", "u"),
    kind("DopeLen", "du"),
    kind("BoundsLen", "duuu"),
    kind("BoundsPos", "duuuu"),
    listed("BoundsSlice", "d"),
    kind("RetBounds", "uuu"),
    kind("TakeBounds", "ddd"),
    forms(kind("LayoutOf", "du"), 0, 1),
    kind("SubtypeCheck", "uu"),
    kind("Br", ""),
    kind("CondBr", "u"),
    kind("Case", "u"),
    kind("Ret", "U"),
    kind("Unreachable", ""),
    forms(listed("Call", "D"), 0, 1),
    forms(listed("CallNative", "D"), 0, 2),
    listed("CallForeign", "D"),
    listed("CallIndirect", "uD"),
    forms(listed("CallProt", "uD"), 0, 1),
    kind("New", "duu"),
    kind("NewFill", "duuu"),
    kind("NewFrame", "duuu"),
    kind("Free", "u"),
    kind("Deref", "du"),
    kind("SigVal", "duu"),
    kind("SigParts", "duu"),
    kind("SigSlice", "duuu"),
    kind("SigRead", "uu"),
    kind("SigReadScalar", "du"),
    kind("SigLastValue", "uu"),
    kind("SigAttr", "du"),
    kind("SigGather", "uuUU"),
    listed("SigScatter", "uu"),
    kind("Edge", "du"),
    kind("Driving", "d"),
    kind("DrivingValue", "u"),
    kind("SigDriving", "du"),
    kind("SigDrivingValue", "uu"),
    kind("Drive", "UuuU"),
    kind("DriveSlot", "uuuuU"),
    kind("Disconnect", "UU"),
    kind("DisconnectSlot", "uuU"),
    kind("Force", "uu"),
    kind("Release", "u"),
    kind("WaitOn", "u"),
    kind("WaitEdge", "u"),
    kind("WaitFor", "u"),
    kind("WaitAt", "u"),
    kind("Suspend", ""),
    kind("TimedOut", "d"),
    kind("Now", "d"),
    kind("Delta", "d"),
    kind("Report", "uuu"),
    kind("Output", "uu"),
    kind("Cover", ""),
    kind("CoverIn", "duu"),
    kind("CoverCond", "u"),
    kind("Stmt", ""),
];

macro_rules! places {
    ($($name:ident $place:literal)*) => {$(pub const $name: u32 = $place;)*};
}

places! {
    CONST 0 CONST_F 1 MOVE 2 ADDR_OF 3 SELECT 4 COPY_CONST 5 ALLOC 6 TEMP_ROOT 7 PKG_ALLOC 8 LOAD 9 STORE 10 COPY 11 ZERO 12 FILL 13
    INDEX 16 BIN 18 CMP 26 F_CMP 27 BOOL 28 LOGIC_OP 29 L_NUM 30 L_SET 36 L_FILL 37 L_COPY 38 CAT 39 CHECK 40
    MAKE_DOPE 43 DOPE_LEN 44 BOUNDS_LEN 45 BOUNDS_SLICE 47 TAKE_BOUNDS 49 LAYOUT_OF 50 BR 52 COND_BR 53 CASE 54 RET 55
    UNREACHABLE 56 CALL 57 CALL_NATIVE 58 CALL_FOREIGN 59 CALL_INDIRECT 60 CALL_PROT 61 NEW 62 NEW_FILL 63 NEW_FRAME 64 FREE 65 DEREF 66 SIG_VAL 67
    SIG_READ 70 SIG_READ_SCALAR 71 SIG_ATTR 73 SIG_GATHER 74 SIG_SCATTER 75 DRIVE 81 SUSPEND 91 REPORT 95 OUTPUT 96 COVER 97 STMT 100
}

/// The five slots of a kind at a form; a kind past the last has none.
pub fn slots(kind: u32, form: u32) -> [Slot; 5] {
    let letters = KINDS.get(kind as usize).map_or("", |k| k.slots);
    let mut out = [Slot::Off; 5];
    for (slot, letter) in out.iter_mut().zip(letters.chars()) {
        *slot = match letter {
            'd' => Slot::Def,
            'u' => Slot::Use,
            'D' => Slot::MaybeDef,
            'U' => Slot::MaybeUse,
            'n' if form == 1 => Slot::Off,
            'n' => Slot::Use,
            'h' if form >= 2 => Slot::Use,
            'h' => Slot::Off,
            'c' if form == 1 => Slot::Def,
            'c' => Slot::Use,
            other => unreachable!("no slot is called {other}"),
        };
    }
    out
}
