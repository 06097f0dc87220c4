//! Instructions that can move: computations over lengths and over memory that the chain itself made, as the message of an
//! assertion is built.

use super::draft::{Draft, Size};
use crate::kinds::*;
use crate::picture::{ABSENT, Record};

/// What the registers hold at some place of a block.
#[derive(Clone, Default)]
pub struct Values {
    pub lens: Vec<u32>,
    /// of the blocks made here: any, those that are layouts, images
    pub temps: Vec<u32>,
    pub layouts: Vec<u32>,
    pub images: Vec<u32>,
    pub signals: Vec<u32>,
    pub ro: Vec<u32>,
    pub frame: Vec<u32>,
    /// all that members wrote, oldest first
    pub written: Vec<u32>,
}

impl Values {
    pub fn of(d: &Draft) -> Values {
        Values { lens: d.lens.clone(), ro: d.ro.clone(), frame: d.frame.clone(), ..Values::default() }
    }

    pub fn forget(&mut self, r: u32) {
        let lists = [
            &mut self.lens,
            &mut self.temps,
            &mut self.layouts,
            &mut self.images,
            &mut self.signals,
            &mut self.ro,
            &mut self.frame,
            &mut self.written,
        ];
        for list in lists {
            list.retain(|&x| x != r);
        }
    }
}

impl Draft {
    fn len_of(&mut self, v: &Values) -> u32 {
        if v.lens.is_empty() { self.harmless() } else { self.rnd.pick(&v.lens) }
    }

    fn value_of(&mut self, v: &Values) -> u32 {
        if self.rnd.chance(6) {
            return self.harmless();
        }
        if v.written.is_empty() || self.rnd.chance(30) { self.len_of(v) } else { self.rnd.pick(&v.written) }
    }

    /// Memory that a member may read.
    fn memory_of(&mut self, v: &Values) -> Option<u32> {
        let from: Vec<u32> = [&v.temps, &v.temps, &v.layouts, &v.images, &v.ro, &v.frame].into_iter().flatten().copied().collect();
        (!from.is_empty()).then(|| self.rnd.pick(&from))
    }

    fn scratch_for(&mut self, v: &Values) -> u32 {
        // mostly one that is not needed any more, if there is one
        let idle: Vec<u32> = self.scratch.iter().copied().filter(|r| !v.written.contains(r)).collect();
        if !idle.is_empty() && self.rnd.chance(85) { self.rnd.pick(&idle) } else { self.rnd.pick(&self.scratch) }
    }

    /// A Cat into one of the blocks made here.
    pub fn cat(&mut self, v: &mut Values, form: u32) -> Record {
        if v.temps.is_empty() {
            return self.alloc(v);
        }
        let dst = self.rnd.pick(&v.temps);
        let (n, m) = (self.len_of(v), self.len_of(v));
        let most = if self.size == Size::Small { 2 } else { self.rnd.pick(&[0, 1, 2, 4, 16]) };
        let pieces = self.rnd.below(most + 1);
        let scalars = if self.rnd.chance(70) { 0 } else { self.rnd.below(1 << 16) as u32 };
        let mut regs = Vec::new();
        for k in 0..pieces {
            let address = if scalars >> k & 1 == 1 { None } else { self.memory_of(v) };
            regs.push(address.unwrap_or_else(|| self.len_of(v)));
            regs.push(self.value_of(v));
        }
        if self.rnd.chance(6) {
            regs.push(self.value_of(v));
        }
        let list = self.list(&regs);
        self.op(CAT, form, &[dst, n, m], list, &[scalars])
    }

    fn alloc(&mut self, v: &mut Values) -> Record {
        let (dst, size) = (self.scratch_for(v), self.len_of(v));
        v.forget(dst);
        v.temps.push(dst);
        v.written.push(dst);
        self.plain_op(ALLOC, &[dst, size])
    }

    /// One instruction that can move where nothing after it stops it.
    pub fn member(&mut self, v: &mut Values) -> Record {
        let choice = self.rnd.below(100);
        let len = |d: &mut Draft, v: &Values| d.len_of(v);
        // Those that write no register first.
        match choice {
            0..8 => return self.cat(v, 0),
            8 => return self.cat(v, 1),
            9..15 if !v.temps.is_empty() => {
                let (at, src) = (self.rnd.pick(&v.temps), self.value_of(v));
                let form = self.rnd.from_to(1, 3) as u32;
                return self.op(STORE, form, &[at, src], (0, 0), &[]);
            }
            15..21 if !v.temps.is_empty() => {
                let at = self.rnd.pick(&v.temps);
                let regs: Vec<u32> = (0..self.rnd.pick(&[0, 1, 3])).map(|_| self.value_of(v)).collect();
                let list = self.list(&regs);
                return self.op(MAKE_DOPE, 0, &[at], list, &[]);
            }
            21..24 if !v.temps.is_empty() => {
                let sig = if v.signals.is_empty() { self.harmless() } else { self.rnd.pick(&v.signals) };
                let at = self.rnd.pick(&v.temps);
                return self.plain_op(SIG_READ, &[at, sig]);
            }
            24..27 => {
                let regs = [len(self, v), self.value_of(v), self.value_of(v)];
                return self.op(CHECK, 3, &regs, (0, 0), &[]);
            }
            27 | 28 => {
                let list = [self.value_of(v)];
                let list = self.list(&list);
                return self.op(CALL_NATIVE, 1, &[ABSENT], list, &[]);
            }
            29..37 => return self.alloc(v),
            _ => {}
        }
        let (a, b, c) = (len(self, v), len(self, v), self.value_of(v));
        let memory = self.memory_of(v);
        let dst = self.scratch_for(v);
        let was = v.clone();
        v.forget(dst);
        v.written.push(dst);
        match choice {
            37..42 => {
                let list = [self.value_of(&was)];
                let list = self.list(&list);
                v.images.push(dst);
                self.op(CALL_NATIVE, 1, &[dst], list, &[])
            }
            42..48 if memory.is_some() => {
                let at = memory.unwrap_or(a);
                let form = self.rnd.from_to(1, 3) as u32;
                if was.images.contains(&at) {
                    v.images.push(dst);
                } else if was.layouts.contains(&at) {
                    v.lens.push(dst);
                }
                self.op(LOAD, form, &[dst, at], (0, 0), &[])
            }
            48..52 if memory.is_some() => {
                v.layouts.push(dst);
                self.plain_op(LAYOUT_OF, &[dst, memory.unwrap_or(a)])
            }
            52..56 if memory.is_some() => {
                v.lens.push(dst);
                self.plain_op(DOPE_LEN, &[dst, memory.unwrap_or(a)])
            }
            56..61 => {
                let base = memory.unwrap_or(c);
                if was.temps.contains(&base) {
                    v.temps.push(dst);
                }
                self.plain_op(INDEX, &[dst, base, a])
            }
            61..64 => {
                v.signals.push(dst);
                self.plain_op(SIG_VAL, &[dst, a, b])
            }
            64..67 => {
                let sig = if was.signals.is_empty() { c } else { self.rnd.pick(&was.signals) };
                self.plain_op(SIG_READ_SCALAR, &[dst, sig])
            }
            67..73 => {
                // what is copied keeps what it is
                for (from, to) in [(&was.lens, &mut v.lens), (&was.temps, &mut v.temps), (&was.images, &mut v.images)] {
                    if from.contains(&c) {
                        to.push(dst);
                    }
                }
                self.plain_op(MOVE, &[dst, c])
            }
            73..77 => {
                let (p, q) = if self.rnd.chance(50) { (a, b) } else { (c, c) };
                if was.lens.contains(&p) && was.lens.contains(&q) {
                    v.lens.push(dst);
                }
                self.plain_op(SELECT, &[dst, a, p, q])
            }
            77..84 => {
                v.lens.push(dst);
                let form = self.rnd.from_to(1, 3) as u32;
                self.op(BIN, form, &[dst, a, b], (0, 0), &[])
            }
            84..87 => {
                let by = if self.rnd.chance(85) { self.rnd.pick(&self.lens) } else { self.harmless() };
                v.lens.push(dst);
                self.op(BIN, 4, &[dst, a, by], (0, 0), &[])
            }
            87..90 => {
                v.lens.push(dst);
                self.plain_op(BOUNDS_LEN, &[dst, a, b, c])
            }
            90..93 => {
                v.lens.push(dst);
                let form = self.rnd.below(2) as u32;
                if form == 1 { self.op(BOOL, 1, &[dst, c], (0, 0), &[]) } else { self.op(BOOL, 0, &[dst, a, c], (0, 0), &[]) }
            }
            93 | 94 => {
                v.lens.push(dst);
                self.plain_op(F_CMP, &[dst, c, b])
            }
            _ => {
                v.lens.push(dst);
                self.plain_op(CMP, &[dst, a, c])
            }
        }
    }

    /// So many members, with other instructions between them as the draft says; a Cat of form 0 among them if asked for.
    pub fn burst(&mut self, v: &mut Values, members: usize, with_cat: bool) -> Vec<Record> {
        let mut code = Vec::new();
        let at = self.rnd.below(members.max(1));
        for k in 0..members {
            if self.rnd.chance(self.quiet) {
                code.push(self.harmless_op());
            }
            if self.rnd.chance(self.noise) {
                code.push(self.any());
            }
            if with_cat && k == at {
                if v.temps.is_empty() {
                    code.push(self.alloc(v));
                }
                code.push(self.cat(v, 0));
            } else {
                code.push(self.member(v));
            }
        }
        code
    }

    /// An instruction of the target that reads what members left, and stays.
    pub fn reader(&mut self, v: &Values) -> Record {
        let plain = self.harmless();
        if v.written.is_empty() {
            return self.plain_op(OUTPUT, &[plain, plain]);
        }
        let r = self.rnd.pick(&v.written);
        let s = self.value_of(v);
        match self.rnd.below(11) {
            // a quotient: the Rust asks whether the divisor is a constant, in whichever round
            10 => {
                let (d, a) = (self.rnd.pick(&self.plain), self.rnd.pick(&self.lens));
                self.op(BIN, 4, &[d, a, r], (0, 0), &[])
            }
            0..3 => self.plain_op(OUTPUT, &[r, s]),
            3 => self.plain_op(REPORT, &[r, s, plain]),
            4 => self.op(STORE, 3, &[plain, r], (0, 0), &[]),
            5 | 6 => {
                let kind = self.rnd.pick(&[CALL, CALL_NATIVE, CALL_FOREIGN, CALL_INDIRECT, CALL_PROT]);
                let regs = [r, plain, s];
                let many = self.rnd.from_to(1, 3);
                let list = self.list(&regs[..many]);
                let slots = if kind == CALL_INDIRECT || kind == CALL_PROT { vec![s, ABSENT] } else { vec![ABSENT] };
                self.op(kind, 0, &slots, list, &[])
            }
            7 => {
                let kind = self.rnd.pick(&[BOUNDS_SLICE, MAKE_DOPE]);
                let list = self.list(&[s, r]);
                let slot = if kind == BOUNDS_SLICE { self.rnd.pick(&self.plain) } else { plain };
                self.op(kind, 0, &[slot], list, &[])
            }
            8 => {
                let list = self.list(&[r, s]);
                self.op(CAT, 0, &[plain, s, s], list, &[0])
            }
            _ => {
                let d = self.rnd.pick(&self.plain);
                self.plain_op(MOVE, &[d, r])
            }
        }
    }
}
