//! Pictures to the pass's own types and back. Document 01, "The call": the record and its forms. A record keeps its payload
//! and its place by travelling in `StmtId`; what the pass may change is its registers and the start of its list.

use crate::driver::State;
use crate::picture::{ABSENT, Picture, RECORD, Record};
use crate::*;

/// A picture's types are numbers up to 7 of which the pass knows I64 and Sig; the rest are only compared. `RegTy` has three
/// more, so that a picture with more than three such numbers in use has no equal in the Rust.
pub struct Types {
    numbers: Vec<(u32, RegTy)>,
}

impl Types {
    pub fn of(in_use: &[u32]) -> Option<Types> {
        let mut numbers = vec![(0, RegTy::I64), (4, RegTy::Sig)];
        let mut left = [RegTy::Handle, RegTy::F64, RegTy::Ptr].to_vec();
        for &n in in_use {
            if numbers.iter().all(|known| known.0 != n) {
                numbers.push((n, left.pop()?));
            }
        }
        Some(Types { numbers })
    }

    fn ty(&self, n: u32) -> RegTy {
        self.numbers.iter().find(|known| known.0 == n).expect("a type in use").1
    }

    fn number(&self, ty: RegTy) -> u32 {
        self.numbers.iter().find(|known| known.1 == ty).expect("a type in use").0
    }
}

/// The program around a picture: its case tables, and the natives and functions that the forms of the calls stand for.
pub fn program(p: &Picture) -> Program {
    let tables = p.pairs.chunks_exact(2).map(|pair| {
        let t = &p.targets[pair[0] as usize..(pair[0] + pair[1]) as usize];
        let arms = t[1..].iter().enumerate().map(|(k, &b)| (k as i64, k as i64, BlockId(b))).collect();
        CaseTable { default: BlockId(t[0]), arms }
    });
    let native = |symbol: &str, ty: Option<u32>| Native { symbol: symbol.into(), ty: ty.map(TyId) };
    let func = |flags| Func {
        flags,
        kind: FuncKind::Function,
        blocks: Table::new(Vec::new()),
        code: Vec::new(),
        loc: Vec::new(),
        via: Vec::new(),
        operands: Vec::new(),
        reg_ty: Vec::new(),
    };
    Program {
        cases: Table::new(tables.collect()),
        natives: Table::new(vec![
            // plain: an image of a type that is none, a native that writes its arguments, and unknown ones
            native("yavs.attr.image", Some(2)),
            native("yavs.ieee.writes@1", None),
            native("yavs.ieee.unknown", None),
            native("yavs.other", Some(0)),
            // image, of an integer and of an enumeration
            native("yavs.attr.image", Some(0)),
            native("yavs.attr.image", Some(1)),
            // light
            native("yavs.ieee.reads", None),
            native("yavs.ieee.reads@2", Some(0)),
        ]),
        types: Table::new(vec![Ty::Int { bits: 64 }, Ty::Enum { count: 9 }, Ty::Other]),
        funcs: Table::new(vec![func(FuncFlags::NONE), func(FuncFlags::MAY_SUSPEND)]),
    }
}

/// The function of an accepted picture.
pub fn function(p: &Picture, types: &Types) -> Func {
    let ends = p.bounds.chunks_exact(2).map(|b| Block { start: b[0], end: b[1] });
    Func {
        flags: FuncFlags::NONE,
        kind: FuncKind::Process,
        blocks: Table::new(ends.collect()),
        code: p.records().map(|r| decode(&r)).collect(),
        loc: p.locs.iter().enumerate().map(|(k, &loc)| StmtId { loc, place: k as u32 }).collect(),
        via: p.vias.clone(),
        operands: p.ops[..p.opers as usize].iter().map(|&r| Reg(r)).collect(),
        reg_ty: p.types[..p.regs as usize].iter().map(|&t| types.ty(t)).collect(),
    }
}

/// The state that a picture is, whose positions stood at these places in the picture lent.
pub fn state(p: &Picture, types: &Types, places: &[usize]) -> State {
    let blocks = || (0..p.nblocks()).map(|b| p.places(b));
    let id = |k: usize| StmtId { loc: p.locs[k], place: places[k] as u32 };
    State {
        code: blocks().map(|b| b.map(|k| decode(&p.record(k))).collect()).collect(),
        loc: blocks().map(|b| b.map(id).collect()).collect(),
        via: blocks().map(|b| p.vias.get(b).unwrap_or(&[]).to_vec()).collect(),
        operands: p.ops[..p.opers as usize].iter().map(|&r| Reg(r)).collect(),
        reg_ty: p.types[..p.regs as usize].iter().map(|&t| types.ty(t)).collect(),
    }
}

/// The picture that `state` is, with the room of `lent` past what is in use kept where it holds, and grown where not.
pub fn picture(lent: &Picture, types: &Types, state: &State) -> Picture {
    let mut p = Picture { pairs: lent.pairs.clone(), targets: lent.targets.clone(), replay: lent.replay.clone(), ..Picture::default() };
    for (b, code) in state.code.iter().enumerate() {
        p.bounds.push(p.locs.len() as u32);
        for (k, i) in code.iter().enumerate() {
            let id = state.loc[b][k];
            p.recs.extend_from_slice(&rebuilt(&lent.record(id.place as usize), i).0);
            p.locs.push(id.loc);
        }
        p.bounds.push(p.locs.len() as u32);
        p.vias.extend_from_slice(&state.via[b]);
    }
    p.types = over(&lent.types, state.reg_ty.iter().map(|&t| types.number(t)));
    p.regs = state.reg_ty.len() as u32;
    p.ops = over(&lent.ops, state.operands.iter().map(|r| r.0));
    p.opers = state.operands.len() as u32;
    p
}

fn over(lent: &[u32], used: impl Iterator<Item = u32>) -> Vec<u32> {
    let mut words: Vec<u32> = used.collect();
    words.extend_from_slice(lent.get(words.len()..).unwrap_or(&[]));
    words
}

/// The old record with the registers and the list of `i`.
fn rebuilt(old: &Record, i: &Inst) -> Record {
    let mut regs = Vec::new();
    i.visit(&mut |r, _, _| regs.push(r.0));
    let mut regs = regs.into_iter();
    let mut w = old.0;
    for slot in &mut w[2..7] {
        if *slot != ABSENT {
            *slot = regs.next().expect("a register for each slot");
        }
    }
    assert!(regs.next().is_none(), "a slot for each register");
    if let Some(l) = i.list() {
        (w[7], w[8]) = (l.start, l.len);
    }
    let new = Record(w);
    assert_eq!(format!("{:?}", decode(&new)), format!("{i:?}"), "the pass changes registers and lists alone");
    new
}

/// The instruction of an accepted record. Payload words that document 01 does not name pick among the operations that one
/// form stands for.
pub fn decode(rec: &Record) -> Inst {
    let w: &[u32; RECORD] = &rec.0;
    let form = w[1];
    let r = |k: usize| Reg(w[2 + k]);
    let o = |k: usize| (w[2 + k] != ABSENT).then_some(Reg(w[2 + k]));
    let list = Regs { start: w[7], len: w[8] };
    let what = CheckMsgId(w[12]);
    let byte = w[13] as u8;
    let flag = w[14] & 1 == 1;
    fn of<T: Copy>(from: &[T], word: u32) -> T {
        from[word as usize % from.len()]
    }
    let int_op = of(&[IntOp::Add, IntOp::Sub, IntOp::Mul, IntOp::Div, IntOp::Rem, IntOp::Mod, IntOp::Pow], w[15]);
    let cmp = of(&[CmpOp::Eq, CmpOp::Ne, CmpOp::Lt, CmpOp::Le, CmpOp::Gt, CmpOp::Ge], w[15]);
    let width = of(&[Width::B1, Width::B4, Width::B8, Width::Sig], w[15]);
    let mode = of(&[DriveMode::Transport, DriveMode::Inertial], w[15]);
    let force = of(&[ForceKind::In, ForceKind::Out, ForceKind::Default], w[15]);
    let edge = of(&[EdgeKind::Falling, EdgeKind::Rising, EdgeKind::To0, EdgeKind::To1], w[15]);
    let access = || match form {
        1 => Width::B1,
        2 => Width::B4,
        3 => Width::B8,
        _ => Width::Sig,
    };
    // may suspend: a function that says so, or one that is not there
    let func = if form == 1 { FuncId(1 + (w[15] & 1)) } else { FuncId(0) };
    match w[0] {
        0 => Inst::Const { dst: r(0), v: whole(rec) as i64 },
        1 => Inst::ConstF { dst: r(0), v: f64::from_bits(whole(rec)) },
        2 => Inst::Move { dst: r(0), src: r(1) },
        3 => {
            let space = match form {
                0 => AddrSpace::Frame,
                1 => AddrSpace::Up(byte),
                2 => AddrSpace::Inst,
                3 => AddrSpace::Pkg(w[14]),
                4 => AddrSpace::Const(ConstId(w[14])),
                _ => AddrSpace::Shared,
            };
            Inst::AddrOf { dst: r(0), space, off: w[12] }
        }
        4 => Inst::Select { dst: r(0), c: r(1), a: r(2), b: r(3) },
        5 => Inst::CopyConst { dst: r(0), c: ConstId(w[12]) },
        6 => Inst::Alloc { dst: r(0), size: r(1) },
        7 => Inst::TempRoot { addr: r(0), desc: o(1), ty: flag.then_some(TyId(w[12])) },
        8 => Inst::PkgAlloc { dst: r(0), size: r(1) },
        9 => Inst::Load { dst: r(0), addr: r(1), w: access() },
        10 => Inst::Store { addr: r(0), src: r(1), w: access() },
        11 => Inst::Copy { dst: r(0), src: r(1), bytes: r(2) },
        12 => Inst::Zero { addr: r(0), bytes: w[12] },
        13 => Inst::Fill { dst: r(0), elem: r(1), n: r(2), size: w[12] },
        14 => Inst::Pos { dst: r(0), dope: r(1), dim: byte, idx: r(2), what },
        15 => Inst::SlicePos { dst: r(0), dope: r(1), left: r(2), right: r(3), dir: r(4), what, dir_what: CheckMsgId(w[13]) },
        16 => Inst::Index { dst: r(0), base: r(1), pos: r(2), stride: w[12] },
        17 => Inst::Field { dst: r(0), base: r(1), layout: r(2), n: w[12] },
        18 => {
            let op = match form {
                1 => IntOp::Add,
                2 => IntOp::Sub,
                3 => IntOp::Mul,
                4 => IntOp::Div,
                _ => of(&[IntOp::Rem, IntOp::Mod, IntOp::Pow], w[15]),
            };
            Inst::Bin { op, dst: r(0), a: r(1), b: r(2) }
        }
        19 => Inst::Un { op: of(&[IntUnOp::Neg, IntUnOp::Abs], w[15]), dst: r(0), a: r(1) },
        20 => {
            let op = of(&[FOp::Add, FOp::Sub, FOp::Mul, FOp::Div, FOp::PowI, FOp::Pow], w[15]);
            Inst::FBin { op, dst: r(0), a: r(1), b: r(2) }
        }
        21 => Inst::FUn { op: of(&[FUnOp::Neg, FUnOp::Abs], w[15]), dst: r(0), a: r(1) },
        22 => Inst::Phys { op: of(&[PhysOp::MulReal, PhysOp::DivReal], w[15]), dst: r(0), a: r(1), b: r(2) },
        23 => Inst::IToF { dst: r(0), src: r(1) },
        24 => Inst::FToI { dst: r(0), src: r(1) },
        25 => Inst::FToIRange { dst: r(0), src: r(1), lo: r(2), hi: r(3), what },
        26 => Inst::Cmp { op: cmp, dst: r(0), a: r(1), b: r(2) },
        27 => Inst::FCmp { op: cmp, dst: r(0), a: r(1), b: r(2) },
        28 => {
            let op = if form == 1 { BoolOp::Not } else { of(&[BoolOp::And, BoolOp::Or, BoolOp::Xor], w[15]) };
            Inst::Bool { op, dst: r(0), a: r(1), b: r(2) }
        }
        29 => {
            let op = if form == 1 {
                of(&[LOp::Not, LOp::ToX01, LOp::ToX01Z, LOp::ToUx01], w[15])
            } else {
                of(&[LOp::And, LOp::Or, LOp::Nand, LOp::Nor, LOp::Xor, LOp::Xnor, LOp::Resolve], w[15])
            };
            Inst::LogicOp { op, dst: r(0), a: r(1), b: r(2), n: r(3) }
        }
        30 => {
            let op = if form == 1 { LNumOp::Cmp(cmp) } else { of(&[LNumOp::Add, LNumOp::Sub], w[15]) };
            Inst::LNum { op, dst: r(0), a: r(1), b: r(2), n: r(3), signed: flag }
        }
        31 => Inst::LEq { dst: r(0), a: r(1), b: r(2), n: r(3) },
        32 => Inst::LKey { dst: r(0), a: r(1), n: r(2) },
        33 => Inst::MemEq { dst: r(0), a: r(1), b: r(2), n: r(3) },
        34 => Inst::ArrCmp { dst: r(0), a: r(1), b: r(2), la: r(3), lb: r(4), w: flag.then_some(width) },
        35 => Inst::LGet { dst: r(0), base: r(1), idx: r(2) },
        36 => Inst::LSet { base: r(0), idx: r(1), v: r(2) },
        37 => Inst::LFill { base: r(0), idx: r(1), n: r(2), v: r(3) },
        38 => Inst::LCopy { dst: r(0), dst_off: r(1), src: r(2), src_off: r(3), n: r(4) },
        39 => Inst::Cat { dst: r(0), n: r(1), m: r(2), parts: list, scalars: w[9] as u16, bias: byte, logic: form == 1, w: width },
        40 => {
            let kind = match form {
                1 => CheckKind::Null,
                2 => CheckKind::Range,
                3 => CheckKind::Index,
                4 => CheckKind::IndexDown,
                _ => CheckKind::Length,
            };
            Inst::Check { kind, v: r(0), lo: r(1), hi: r(2), what }
        }
        41 => Inst::FCheck { v: r(0), lo: r(1), hi: r(2), what },
        42 => Inst::BinRange { op: int_op, dst: r(0), a: r(1), b: r(2), lo: r(3), hi: r(4), what },
        43 => Inst::MakeDope { at: r(0), parts: list },
        44 => Inst::DopeLen { dst: r(0), dope: r(1), dim: byte },
        45 => Inst::BoundsLen { dst: r(0), left: r(1), right: r(2), dir: r(3) },
        46 => Inst::BoundsPos { dst: r(0), left: r(1), right: r(2), dir: r(3), idx: r(4), what },
        47 => Inst::BoundsSlice { dst: r(0), regs: list, what, dir_what: CheckMsgId(w[13]) },
        48 => Inst::RetBounds { left: r(0), right: r(1), dir: r(2) },
        49 => Inst::TakeBounds { left: r(0), right: r(1), dir: r(2) },
        50 => Inst::LayoutOf { dst: r(0), ty: TyId(w[12]), desc: r(1), cache: (form == 1).then_some(w[13]) },
        51 => Inst::SubtypeCheck { dope: r(0), want: r(1), dims: byte, what },
        52 => Inst::Br { to: BlockId(w[9]) },
        53 => Inst::CondBr { c: r(0), t: BlockId(w[9]), f: BlockId(w[10]) },
        54 => Inst::Case { v: r(0), table: CaseTableId(w[9]) },
        55 => Inst::Ret { v: o(0) },
        56 => Inst::Unreachable { what },
        57 => Inst::Call { func, args: list, dst: o(0) },
        58 => {
            let native = match form {
                1 => 4 + w[15] % 2,
                2 => 6 + w[15] % 2,
                // plain, one past the last among them
                _ => [0, 1, 2, 3, 8][w[15] as usize % 5],
            };
            Inst::CallNative { native: NativeId(native), args: list, dst: o(0) }
        }
        59 => Inst::CallForeign { foreign: ForeignId(w[12]), args: list, dst: o(0) },
        60 => Inst::CallIndirect { func: r(0), args: list, dst: o(1) },
        61 => Inst::CallProt { func, obj: r(0), args: list, dst: o(1) },
        62 => Inst::New { dst: r(0), ty: TyId(w[12]), init: r(1), size: r(2), shared: flag },
        63 => Inst::NewFill { dst: r(0), ty: TyId(w[12]), desc: r(1), dsize: w[13], data: r(2), size: r(3), fill: w[15], shared: flag },
        64 => Inst::NewFrame { dst: r(0), desc: r(1), dsize: w[13], data: r(2), size: r(3), fill: w[15] },
        65 => Inst::Free { ptr: r(0) },
        66 => Inst::Deref { dst: r(0), handle: r(1), what },
        67 => Inst::SigVal { dst: r(0), sig: w[12], offset: r(1), len: r(2) },
        68 => Inst::SigParts { dst: r(0), parts: r(1), n: r(2) },
        69 => Inst::SigSlice { dst: r(0), sig: r(1), offset: r(2), len: r(3) },
        70 => Inst::SigRead { dst: r(0), sig: r(1) },
        71 => Inst::SigReadScalar { dst: r(0), sig: r(1) },
        72 => Inst::SigLastValue { dst: r(0), sig: r(1) },
        73 => {
            let kind = of(&[AttrKind::Event, AttrKind::Active, AttrKind::LastEvent, AttrKind::LastActive], w[15]);
            Inst::SigAttr { dst: r(0), kind, sig: r(1) }
        }
        74 => {
            let part = o(2).zip(o(3)).map(|(first, outer)| Part { first, outer });
            Inst::SigGather { dst: r(0), desc: r(1), tab: ConstId(w[12]), part }
        }
        75 => Inst::SigScatter { driver: w[12], src: r(0), desc: r(1), tab: ConstId(w[13]), ops: list, mode, has: (w[14] % 4) as u8 },
        76 => Inst::Edge { dst: r(0), kind: edge, sig: r(1) },
        77 => Inst::Driving { dst: r(0), driver: w[12] },
        78 => Inst::DrivingValue { dst: r(0), driver: w[12] },
        79 => Inst::SigDriving { dst: r(0), sig: r(1), what },
        80 => Inst::SigDrivingValue { dst: r(0), sig: r(1), what },
        81 => Inst::Drive { driver: w[12], target: o(0), wave: r(1), n: r(2), mode, reject: o(3) },
        82 => Inst::DriveSlot { slot: r(0), target: r(1), wave: r(2), n: r(3), mode, reject: o(4) },
        83 => Inst::Disconnect { driver: w[12], target: o(0), after: o(1), mode },
        84 => Inst::DisconnectSlot { slot: r(0), target: r(1), after: o(2), mode },
        85 => Inst::Force { sig: r(0), kind: force, value: r(1) },
        86 => Inst::Release { sig: r(0), kind: force },
        87 => Inst::WaitOn { sig: r(0) },
        88 => Inst::WaitEdge { sig: r(0), kind: edge },
        89 => Inst::WaitFor { t: r(0) },
        90 => Inst::WaitAt { t: r(0) },
        91 => Inst::Suspend { resume: w[12] },
        92 => Inst::TimedOut { dst: r(0) },
        93 => Inst::Now { dst: r(0) },
        94 => Inst::Delta { dst: r(0) },
        95 => Inst::Report { msg: r(0), len: r(1), severity: r(2) },
        96 => Inst::Output { addr: r(0), len: r(1) },
        97 => Inst::Cover { item: CovItem(w[12]) },
        98 => Inst::CoverIn { dst: r(0), acc: r(1), src: r(2), shift: byte, ulogic: flag },
        99 => Inst::CoverCond { cond: w[12], state: r(0) },
        100 => Inst::Stmt,
        kind => panic!("no kind {kind}"),
    }
}

/// The 64 bits of a constant.
fn whole(rec: &Record) -> u64 {
    u64::from(rec.0[10]) << 32 | u64::from(rec.0[9])
}
