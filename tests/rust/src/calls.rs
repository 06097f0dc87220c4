//! The child module that `sink.rs` declares. The original (sharing of repeated calls) stays out, as document 01 says; here
//! stands the driver instead: it builds a `Sink` as `run` does and goes through `sink_all` round by round.

use super::*;

use crate::driver::{Entry, Facts, Flow, Look, Overview, Pass, Position, Register, Round, Search, State, Told, Trace, caught};
use crate::time::{best, once};

/// Registers that eight rounds can make at most: a Sig takes two.
const ROOM: usize = 8 * 2 * MAX_SEQ;

impl Sink<'_> {
    /// No call is shared.
    pub(super) fn share_calls(&mut self) -> bool {
        false
    }

    fn state(&self) -> State {
        State {
            code: self.code.clone(),
            loc: self.loc.clone(),
            via: self.via.clone(),
            operands: self.operands.clone(),
            reg_ty: self.reg_ty.clone(),
        }
    }

    /// 'No fact' for the registers from the last one known up to `n`.
    fn lengthen(&mut self, n: usize) {
        let n = n.max(self.ro.len());
        self.ro.resize(n, false);
        self.frame.resize(n, false);
        self.konst.resize(n, None);
        self.addr.resize(n, None);
    }

    /// The blocks from `x` on, as `try_block` gathers them, and the two branches.
    fn chain(&self, x: usize) -> Option<(Vec<usize>, usize, usize)> {
        let mut blocks = vec![x];
        let mut cur = x;
        loop {
            match self.code[cur].last() {
                Some(&Inst::CondBr { t, f, .. }) => return Some((blocks, t.0 as usize, f.0 as usize)),
                Some(&Inst::Br { to }) => {
                    let to = to.0 as usize;
                    if blocks.len() >= 6 || self.preds[to].len() != 1 || blocks.contains(&to) {
                        return None;
                    }
                    blocks.push(to);
                    cur = to;
                }
                _ => return None,
            }
        }
    }

    fn seq(&self, blocks: &[usize]) -> Seq {
        let mut seq = Seq { insts: Vec::new(), loc: Vec::new(), via: Vec::new() };
        for (k, &b) in blocks.iter().enumerate() {
            let take = self.code[b].len() - usize::from(k + 1 < blocks.len());
            seq.insts.extend_from_slice(&self.code[b][..take]);
        }
        seq
    }

    fn look(&self, x: usize) -> Option<Look> {
        let (blocks, t, f) = self.chain(x)?;
        let seq = self.seq(&blocks);
        if seq.insts.len() > MAX_SEQ {
            return None;
        }
        let run = self.analyse(seq, self.code[x].len() - 1);
        let replay = self.replay.contains(&t) || self.replay.contains(&f);
        let last = [*blocks.last()? as u32];
        let picked = [(t, f), (f, t)].into_iter().find_map(|(target, other)| {
            if blocks.contains(&target) || self.preds[target] != last {
                return None;
            }
            self.plan(&run, target, other, replay).map(|set| (target, set))
        });
        let (target, set) = match picked {
            Some((target, set)) => (Some(target), set),
            None => (None, Vec::new()),
        };
        let positions = (0..run.seq.insts.len()).map(|p| position(&run, p)).collect();
        Some(Look { blocks, t, f, positions, target, set })
    }
}

impl Sink<'_> {
    /// Origin, length and layout of the value that position `p` leaves in `reg`: `analyse` keeps them to itself, so the code up to
    /// `p` is followed by instructions whose facts show them.
    fn value(&self, insts: &[Inst], p: usize, reg: Reg) -> (u32, bool, bool) {
        let other = Reg(u32::from(reg.0 == 0));
        let mut seq = Seq { insts: insts[..=p].to_vec(), loc: Vec::new(), via: Vec::new() };
        seq.insts.extend([
            Inst::DopeLen { dst: other, dope: reg, dim: 0 },
            Inst::Alloc { dst: other, size: reg },
            Inst::Load { dst: other, addr: reg, w: Width::B8 },
            Inst::Alloc { dst: other, size: other },
        ]);
        let run = self.analyse(seq, p + 1);
        let own = run.eff[p + 1].reads[0];
        (origin(own), run.eff[p + 2].creates, own == Org::Temp(p as u32) && run.eff[p + 4].creates)
    }

    /// The search of `try_block`, where it gets to `analyse`. Of long chains only some positions have their values looked at.
    fn search(&self, x: usize) -> Option<Search> {
        let (blocks, t, f) = self.chain(x)?;
        let seq = self.seq(&blocks);
        let inside = self.code[x].len() - 1;
        let replay = self.replay.contains(&t) || self.replay.contains(&f);
        let cat = |i: &Inst| matches!(i, Inst::Cat { logic: false, .. });
        if inside < if replay { MIN_REPLAY } else { MIN_SUNK } || seq.insts.len() > MAX_SEQ || !(replay || seq.insts[..inside].iter().any(cat)) {
            return None;
        }
        let look = self.look(x)?;
        let insts = seq.insts.clone();
        let run = self.analyse(seq, inside);
        let mut places = Vec::new();
        for (k, &b) in blocks.iter().enumerate() {
            places.extend((0..self.code[b].len() - usize::from(k + 1 < blocks.len())).map(|i| (b, i)));
        }
        let step = insts.len() / 100 + 1;
        let told = (0..insts.len()).map(|p| Told {
            place: places[p],
            class: match run.class[p] {
                Class::No => 0,
                Class::Movable => 1,
                Class::Free => 2,
            },
            position: position(&run, p),
            value: run.defs[p].first().filter(|_| p % step == 0).map(|&d| self.value(&insts, p, d)),
            last_use: look.target.filter(|_| look.set[p]).map(|target| {
                let kept = run.defs[p].iter().any(|d| run.last_def.get(d) == Some(&p) && bit(&self.live_in[target], *d));
                if kept { usize::MAX } else { run.users[p].iter().copied().max().unwrap_or(p) }
            }),
        });
        let told = told.collect();
        let small = |v: i64| (-(1i64 << 40)..=(1i64 << 40)).contains(&v);
        let flag = |on: bool, n: u32| u32::from(on) * n;
        let registers = (0..self.reg_ty.len()).map(|r| Register {
            flags: flag(self.ro[r], 1) + flag(self.frame[r], 2) + flag(self.konst[r].is_some_and(small), 4) + flag(self.konst[r].is_some_and(|v| v > 0), 8),
            writer: run.last_def.get(&Reg(r as u32)).copied(),
        });
        let registers = registers.collect();
        Some(Search { inside, told, registers, target: look.target, set: look.set })
    }
}

fn origin(o: Org) -> u32 {
    match o {
        Org::Unknown => 0,
        Org::Ro => 1,
        Org::Heap => 2,
        Org::Frame => 3,
        Org::Temp(k) => 4 + 2 * k,
        Org::Img(k) => 5 + 2 * k,
    }
}

fn position(r: &Run, p: usize) -> Position {
    Position {
        uses: r.uses[p].iter().map(|&(reg, d)| (reg.0, d)).collect(),
        defs: r.defs[p].iter().map(|d| d.0).collect(),
        users: r.users[p].clone(),
        movable: r.class[p] == Class::Movable,
        reads: r.eff[p].reads.iter().map(|&o| origin(o)).collect(),
        creates: r.eff[p].creates,
        wrote: r.wrote[p].map(origin),
        barrier: r.barrier[p],
        suspends: r.suspends[p],
    }
}

/// A `Sink` over `f` with the facts on registers as `run` finds them, and the predecessors.
fn begin<'a>(prog: &'a Program, f: &crate::Func, replay: &[usize], entry: Entry) -> Sink<'a> {
    let mut s = Sink {
        prog,
        code: Vec::new(),
        loc: Vec::new(),
        via: Vec::new(),
        operands: f.operands.clone(),
        reg_ty: f.reg_ty.clone(),
        preds: Vec::new(),
        ro: vec![false; f.reg_ty.len()],
        frame: vec![false; f.reg_ty.len()],
        konst: vec![None; f.reg_ty.len()],
        addr: vec![None; f.reg_ty.len()],
        live_in: Vec::new(),
        replay: replay.to_vec(),
    };
    for b in f.blocks.values() {
        let r = b.start as usize..b.end as usize;
        s.code.push(f.code[r.clone()].to_vec());
        s.loc.push(f.loc[r.clone()].to_vec());
        s.via.push(if f.via.is_empty() { Vec::new() } else { f.via[r].to_vec() });
    }
    let mut writers = vec![0usize; f.reg_ty.len()];
    for i in &f.code {
        for d in Sink::writes(i) {
            writers[d.0 as usize] += 1;
        }
    }
    for i in &f.code {
        match *i {
            Inst::AddrOf { dst, space, off } if writers[dst.0 as usize] == 1 => {
                let r = dst.0 as usize;
                s.addr[r] = Some((space, off));
                s.ro[r] = matches!(space, AddrSpace::Inst | AddrSpace::Const(_));
                s.frame[r] = space == AddrSpace::Frame;
            }
            Inst::Const { dst, v } if writers[dst.0 as usize] == 1 => s.konst[dst.0 as usize] = Some(v),
            _ => {}
        }
    }
    s.find_preds();
    if let (Entry::Start, [first, ..]) = (entry, &mut s.preds[..]) {
        first.insert(0, s.code.len() as u32);
    }
    s
}

/// What is timed, and counted by a profiler, which knows it by this name.
#[inline(never)]
fn the_pass(mut s: Sink) -> Sink {
    s.find_preds();
    s.sink_all();
    s
}

/// Liveness alone, which a profiler knows by this name too.
#[inline(never)]
fn the_liveness(mut s: Sink) -> Sink {
    s.liveness();
    s
}

impl Pass {
    /// `sink_all`, one `try_block` after the other in its order, with what each round leaves.
    pub fn rounds(prog: &Program, f: &crate::Func, replay: &[usize], facts: Facts, entry: Entry) -> Trace {
        let mut s = begin(prog, f, replay, entry);
        let mut trace = Trace { rounds: Vec::new(), stopped: false };
        for _ in 0..8 {
            s.live_in.clear();
            let before: Vec<usize> = s.code.iter().map(Vec::len).collect();
            let mut from = None;
            for x in 0..s.code.len() {
                if s.code[x].len() > MIN_REPLAY {
                    match caught(|| s.try_block(x)) {
                        Some(true) => from = Some(x),
                        Some(false) => continue,
                        None => trace.stopped = true,
                    }
                    break;
                }
            }
            let Some(from) = from else { break };
            let into = (0..before.len()).find(|&b| s.code[b].len() > before[b]).expect("a round moves something");
            let chain = s.chain(from).expect("a round leaves its chain").0;
            let moved = before[from] - s.code[from].len();
            trace.rounds.push(Round { from, into, moved, chain, after: s.state() });
            if facts == Facts::Lengthened {
                s.lengthen(s.reg_ty.len());
            }
        }
        trace
    }

    /// `sink_all` itself; `None` where it stopped by itself.
    pub fn sink_all(prog: &Program, f: &crate::Func, replay: &[usize], facts: Facts, entry: Entry) -> Option<(bool, State)> {
        let mut s = begin(prog, f, replay, entry);
        if facts == Facts::Lengthened {
            s.lengthen(s.reg_ty.len() + ROOM);
        }
        let changed = caught(|| s.sink_all())?;
        Some((changed, s.state()))
    }

    /// `run` itself, which knows no replay; `None` where it stopped by itself.
    pub fn run(prog: &Program, f: &crate::Func) -> Option<(bool, crate::Func)> {
        let mut f = f.clone();
        let changed = caught(|| run(prog, &mut f))?;
        Some((changed, f))
    }

    /// Predecessors and live-in rows, before round 1.
    pub fn flow(prog: &Program, f: &crate::Func, entry: Entry) -> Flow {
        let mut s = begin(prog, f, &[], entry);
        s.liveness();
        Flow { preds: s.preds, live_in: s.live_in }
    }

    /// How long liveness takes at best, in milliseconds, of so many runs.
    pub fn live_time(prog: &Program, f: &crate::Func, runs: usize) -> f64 {
        best(runs, || begin(prog, f, &[], Entry::Blocks), the_liveness)
    }

    /// How long `find_preds` and `sink_all` take, in milliseconds, facts lengthened. All else is made before the time begins, and
    /// dropped after its end.
    pub fn sink_time(prog: &Program, f: &crate::Func, replay: &[usize]) -> f64 {
        let mut s = begin(prog, f, replay, Entry::Blocks);
        s.preds = Vec::new();
        s.lengthen(s.reg_ty.len() + ROOM);
        once(s, the_pass)
    }

    /// Predecessors, live-in rows, and each block as the start of a chain, before round 1.
    pub fn overview(prog: &Program, f: &crate::Func, replay: &[usize], entry: Entry) -> Overview {
        let mut s = begin(prog, f, replay, entry);
        s.liveness();
        let looks = (0..s.code.len()).map(|x| s.look(x)).collect();
        Overview { preds: s.preds.clone(), live_in: s.live_in.clone(), looks }
    }

    /// The search from each block, before round 1.
    pub fn searches(prog: &Program, f: &crate::Func, replay: &[usize], entry: Entry) -> Vec<Option<Search>> {
        let mut s = begin(prog, f, replay, entry);
        s.liveness();
        (0..s.code.len()).map(|x| s.search(x)).collect()
    }

    pub fn writes_nothing(i: &Inst) -> bool {
        writes_nothing(i)
    }
}
