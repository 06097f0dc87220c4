//! A picture in the making: its registers, operands and blocks, and instructions of any kind.

use crate::kinds::*;
use crate::picture::{ABSENT, Picture, RECORD, Record};
use crate::random::Random;

/// How large a picture is to be. Small ones are for rows that a reader can follow.
#[derive(Clone, Copy, PartialEq, Eq, Debug)]
pub enum Size {
    Small,
    Medium,
    Large,
}

pub struct Draft {
    pub rnd: Random,
    pub size: Size,
    pub blocks: Vec<Vec<Record>>,
    pub types: Vec<u32>,
    pub ops: Vec<u32>,
    pub pairs: Vec<u32>,
    pub targets: Vec<u32>,
    pub replay: Vec<u32>,
    /// the numbers of types beside I64 and Sig; the Rust has three
    pub others: [u32; 3],
    /// registers that instructions around the members write
    pub plain: Vec<u32>,
    /// registers that members write
    pub scratch: Vec<u32>,
    /// registers written once: a constant that is a length, read-only memory, the frame
    pub lens: Vec<u32>,
    pub ro: Vec<u32>,
    pub frame: Vec<u32>,
    /// in a hundred members, so many instructions of any kind, and so many that are harmless, stand between them
    pub noise: usize,
    pub quiet: usize,
}

impl Draft {
    pub fn new(seed: u64, size: Size) -> Draft {
        let mut rnd = Random::new(seed);
        let mut others = [1, 2, 3, 5, 6, 7];
        rnd.shuffle(&mut others[1..]);
        let noise = match size {
            Size::Small => rnd.pick(&[0, 0, 0, 4]),
            _ => rnd.pick(&[0, 0, 0, 2, 6, 25]),
        };
        let quiet = match size {
            Size::Small => rnd.pick(&[0, 10]),
            _ => rnd.pick(&[0, 10, 30]),
        };
        let mut d = Draft {
            rnd,
            size,
            blocks: Vec::new(),
            types: Vec::new(),
            ops: Vec::new(),
            pairs: Vec::new(),
            targets: Vec::new(),
            replay: Vec::new(),
            others: [others[0], others[1], others[2]],
            plain: Vec::new(),
            scratch: Vec::new(),
            lens: Vec::new(),
            ro: Vec::new(),
            frame: Vec::new(),
            noise,
            quiet,
        };
        let small = size == Size::Small;
        let (plain, scratch) = if small { (2, d.rnd.from_to(4, 7)) } else { (d.rnd.from_to(3, 12), d.rnd.from_to(4, 30)) };
        d.plain = (0..plain).map(|_| d.register()).collect();
        d.scratch = (0..scratch).map(|_| d.register()).collect();
        d
    }

    /// A new register of some type.
    pub fn register(&mut self) -> u32 {
        let ty = match self.rnd.below(20) {
            0..9 => 0,
            9..14 => self.others[0],
            14..17 => 4,
            17 | 18 => self.others[1],
            _ => self.others[2],
        };
        self.types.push(ty);
        self.types.len() as u32 - 1
    }

    /// Any register.
    pub fn any_register(&mut self) -> u32 {
        self.rnd.below(self.types.len()) as u32
    }

    /// A register that no member writes, most of the time.
    pub fn harmless(&mut self) -> u32 {
        if self.rnd.chance(70) || self.lens.is_empty() { self.rnd.pick(&self.plain) } else { self.rnd.pick(&self.lens) }
    }

    /// The place of a list of these registers: where one stands already, some of the time, or new.
    pub fn list(&mut self, regs: &[u32]) -> (u32, u32) {
        let shared = if self.rnd.chance(50) { self.ops.windows(regs.len().max(1)).position(|w| w == regs) } else { None };
        let start = shared.unwrap_or_else(|| {
            if self.rnd.chance(10) {
                let gap = self.any_register();
                self.ops.push(gap);
            }
            self.ops.extend_from_slice(regs);
            self.ops.len() - regs.len()
        });
        (start as u32, regs.len() as u32)
    }

    /// A record with payload words that nobody reads, and those that are read as given.
    pub fn op(&mut self, kind: u32, form: u32, slots: &[u32], list: (u32, u32), read: &[u32]) -> Record {
        let mut payload = [0; RECORD - 9];
        let fill = if self.size == Size::Small { self.rnd.chance(15) } else { self.rnd.chance(60) };
        if fill {
            for w in &mut payload[read.len()..] {
                *w = if self.size == Size::Small { self.rnd.below(9) as u32 } else { self.rnd.word() as u32 >> self.rnd.below(32) };
            }
        }
        payload[..read.len()].copy_from_slice(read);
        Record::new(kind, form, slots, list, &payload)
    }

    pub fn plain_op(&mut self, kind: u32, slots: &[u32]) -> Record {
        self.op(kind, 0, slots, (0, 0), &[])
    }

    pub fn constant(&mut self, dst: u32, v: i64) -> Record {
        self.op(CONST, 0, &[dst], (0, 0), &[v as u32, (v as u64 >> 32) as u32])
    }

    /// An instruction of a kind, any form: `read` gives the registers it reads, and it writes plain ones. A branch in it goes
    /// to a block that is picked at the end.
    pub fn of_kind(&mut self, kind: u32, mut read: impl FnMut(&mut Draft) -> u32) -> Record {
        let (least, most) = KINDS[kind as usize].forms;
        let form = self.rnd.from_to(least as usize, most as usize) as u32;
        let mut slots: Vec<u32> = Vec::new();
        for slot in kinds_slots(kind, form) {
            let here = match slot {
                Slot::Off => false,
                Slot::Def | Slot::Use => true,
                Slot::MaybeDef | Slot::MaybeUse => self.rnd.chance(50),
            };
            let writes = matches!(slot, Slot::Def | Slot::MaybeDef);
            slots.push(match (here, writes) {
                (false, _) => ABSENT,
                (true, true) => self.rnd.pick(&self.plain),
                (true, false) => read(self),
            });
        }
        if kind == SIG_GATHER && slots[2] == ABSENT {
            slots[3] = ABSENT;
        } else if kind == SIG_GATHER {
            slots[3] = read(self);
        }
        let list = if KINDS[kind as usize].list { self.some_list(kind, &mut read) } else { (0, 0) };
        let payload: Vec<u32> = match kind {
            BR => vec![ABSENT],
            COND_BR => vec![ABSENT, ABSENT],
            CASE => vec![self.rnd.below(self.pairs.len() / 2 + 2) as u32],
            CAT => vec![self.rnd.below(65536) as u32],
            CONST | CONST_F => vec![self.rnd.word() as u32, self.rnd.word() as u32],
            _ => Vec::new(),
        };
        self.op(kind, form, &slots, list, &payload)
    }

    fn some_list(&mut self, kind: u32, read: &mut impl FnMut(&mut Draft) -> u32) -> (u32, u32) {
        let most = match (self.size, kind) {
            (Size::Small, _) => 3,
            (_, CAT) => self.rnd.pick(&[4, 8, 33]),
            (Size::Medium, _) => self.rnd.pick(&[2, 6, 12]),
            (Size::Large, _) => self.rnd.pick(&[2, 6, 60]),
        };
        if self.rnd.chance(30) && !self.ops.is_empty() {
            let start = self.rnd.below(self.ops.len());
            return (start as u32, self.rnd.below((self.ops.len() - start).min(most) + 1) as u32);
        }
        let regs: Vec<u32> = (0..self.rnd.below(most + 1)).map(|_| read(self)).collect();
        self.list(&regs)
    }

    /// An instruction of any kind.
    pub fn any(&mut self) -> Record {
        let kind = self.rnd.below(KINDS.len()) as u32;
        let wild = self.rnd.chance(25);
        self.of_kind(kind, |d| if wild { d.any_register() } else { d.harmless() })
    }

    /// An instruction that stays and that members can pass.
    pub fn harmless_op(&mut self) -> Record {
        const STAY: [u32; 14] = [0, 1, 3, 14, 17, 19, 23, 35, 41, 66, 76, 87, 93, 97];
        let kind = self.rnd.pick(&STAY);
        self.of_kind(kind, Draft::harmless)
    }

    /// The picture, blocks in another order, with no room past what is in use.
    pub fn finish(mut self) -> Picture {
        // A picture without blocks cannot have branches, so one block is the least here.
        let mut order: Vec<usize> = (0..self.blocks.len()).collect();
        match self.rnd.below(4) {
            0 => {}
            1 if self.rnd.chance(30) => self.rnd.shuffle(&mut order),
            _ => self.rnd.shuffle(&mut order[1..]),
        }
        self.finish_in(&order)
    }

    /// The same with this one as block 0.
    pub fn finish_from(mut self, first: usize) -> Picture {
        let mut order: Vec<usize> = (0..self.blocks.len()).filter(|&b| b != first).collect();
        if self.rnd.chance(60) {
            self.rnd.shuffle(&mut order);
        }
        order.insert(0, first);
        self.finish_in(&order)
    }

    /// The picture of the blocks in this order: `order[new]` is the old one.
    fn finish_in(mut self, order: &[usize]) -> Picture {
        let n = order.len();
        let mut place = vec![0u32; n];
        for (new, &old) in order.iter().enumerate() {
            place[old] = new as u32;
        }
        let mut blocks: Vec<Vec<Record>> = order.iter().map(|&old| self.blocks[old].clone()).collect();
        for r in blocks.iter_mut().flatten() {
            let words = match r.kind() {
                BR => 9..10,
                COND_BR => 9..11,
                _ => 0..0,
            };
            for w in &mut r.0[words] {
                let old = if *w == ABSENT { self.rnd.below(n) } else { *w as usize };
                *w = place[old];
            }
        }
        let moved = |list: &[u32]| list.iter().map(|&b| place.get(b as usize).copied().unwrap_or(b)).collect();
        let mut p = Picture::of_blocks(&blocks);
        p.targets = moved(&self.targets);
        p.replay = moved(&self.replay);
        p.pairs = self.pairs;
        p.regs = self.types.len() as u32;
        p.types = self.types;
        p.opers = self.ops.len() as u32;
        p.ops = self.ops;
        let small = self.size == Size::Small;
        for loc in &mut p.locs {
            *loc = if small { 0 } else { self.rnd.word() as u32 };
        }
        if small {
            for (k, loc) in p.locs.iter_mut().enumerate() {
                *loc = k as u32;
            }
        }
        if self.rnd.chance(if small { 25 } else { 50 }) {
            p.vias = p.locs.iter().map(|_| if self.rnd.chance(60) { 0 } else { self.rnd.below(50) as u32 }).collect();
        }
        p
    }
}

fn kinds_slots(kind: u32, form: u32) -> impl Iterator<Item = Slot> {
    let letters = KINDS[kind as usize].slots.len();
    slots(kind, form).into_iter().take(letters)
}
