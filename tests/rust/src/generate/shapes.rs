//! How blocks hang together.

use super::draft::{Draft, Size};
use super::members::Values;
use crate::kinds::*;
use crate::picture::Record;

/// What stands at the end of a branch.
#[derive(Clone, Copy, PartialEq, Eq)]
enum Leaf {
    /// reads what the members leave
    Reads,
    /// does not
    Plain,
}

/// Fills a draft with one shape or another.
pub fn draw(mut d: Draft) -> Draft {
    let entry = d.block();
    d.fixed(entry);
    if d.size == Size::Small && d.rnd.chance(4) {
        d.end(entry);
        d.cycle();
        return d;
    }
    let units = match d.size {
        Size::Small => 1,
        Size::Medium => d.rnd.from_to(1, 3),
        Size::Large => d.rnd.from_to(2, 8),
    };
    let mut tops = Vec::new();
    for _ in 0..units {
        let depth = match d.size {
            Size::Small => d.rnd.pick(&[0, 0, 0, 1, 1, 2, 3]),
            _ => d.rnd.pick(&[0, 1, 2, 4, 7]),
        };
        let x = if tops.is_empty() && d.rnd.chance(60) { entry } else { d.block() };
        d.unit(x, depth, tops.last().copied());
        tops.push(x);
    }
    d.enter(entry, &tops);
    if d.size != Size::Small {
        if d.rnd.chance(12) {
            d.cycle();
        }
        for _ in 0..d.rnd.below(3) {
            let b = d.block();
            d.fill(b, 4);
            d.end(b);
        }
    }
    // a block that is none, and one twice
    if d.rnd.chance(20) {
        let some = d.blocks.len() as u32 + 3;
        d.replay.push(some);
        if let Some(&first) = d.replay.first() {
            d.replay.push(first);
        }
    }
    if d.rnd.chance(15) && !d.targets.is_empty() {
        // target words that no pair covers
        let t = d.rnd.below(d.blocks.len()) as u32;
        d.targets.push(t);
    }
    d
}

impl Draft {
    fn block(&mut self) -> usize {
        self.blocks.push(Vec::new());
        self.blocks.len() - 1
    }

    pub fn put(&mut self, b: usize, r: Record) {
        self.blocks[b].push(r);
    }

    pub fn br(&mut self, b: usize, to: usize) {
        let r = self.op(BR, 0, &[], (0, 0), &[to as u32]);
        self.put(b, r);
    }

    pub fn fork(&mut self, b: usize, t: usize, f: usize) {
        let c = self.harmless();
        let r = self.op(COND_BR, 0, &[c], (0, 0), &[t as u32, f as u32]);
        self.put(b, r);
    }

    /// Registers that are written once, at the head of the entry: lengths, read-only memory, the frame.
    fn fixed(&mut self, entry: usize) {
        let small = self.size == Size::Small;
        let edge = 1i64 << 40;
        for _ in 0..if small { 1 } else { self.rnd.from_to(1, 3) } {
            let r = self.register();
            let v = match self.rnd.below(12) {
                0 => edge,
                1 => -edge,
                2 => 1,
                3 => self.rnd.pick(&[edge + 1, -edge - 1, i64::MIN, i64::MAX]),
                4 => 0,
                _ => self.rnd.from_to(1, 64) as i64,
            };
            let c = self.constant(r, v);
            self.put(entry, c);
            // one that is written twice has no fact
            if self.rnd.chance(if small { 4 } else { 8 }) {
                let c = self.constant(r, v);
                self.put(entry, c);
            }
            self.lens.push(r);
        }
        let spaces = if small { self.rnd.below(2) } else { self.rnd.below(4) };
        for _ in 0..spaces {
            let r = self.register();
            let form = self.rnd.pick(&[0, 2, 4, 4, 1, 3, 5]);
            let a = self.op(ADDR_OF, form, &[r], (0, 0), &[]);
            self.put(entry, a);
            match form {
                0 => self.frame.push(r),
                2 | 4 => self.ro.push(r),
                _ => {}
            }
        }
    }

    /// The entry goes to the units that it is not part of.
    fn enter(&mut self, entry: usize, tops: &[usize]) {
        let tops: Vec<usize> = tops.iter().copied().filter(|&t| t != entry).collect();
        if self.blocks[entry].last().is_some_and(|r| matches!(r.kind(), BR | COND_BR | CASE)) {
            return;
        }
        match tops[..] {
            [] => {}
            [t] => self.br(entry, t),
            [t, f] if self.rnd.chance(50) => self.fork(entry, t, f),
            _ => {
                let table = self.table(&tops);
                let v = self.harmless();
                let r = self.op(CASE, 0, &[v], (0, 0), &[table]);
                self.put(entry, r);
            }
        }
    }

    pub fn table(&mut self, to: &[usize]) -> u32 {
        let start = self.targets.len() as u32;
        self.targets.extend(to.iter().map(|&b| b as u32));
        self.pairs.extend([start, to.len() as u32]);
        self.pairs.len() as u32 / 2 - 1
    }

    fn fill(&mut self, b: usize, most: usize) {
        for _ in 0..self.rnd.below(most + 1) {
            let r = self.any();
            self.put(b, r);
        }
    }

    /// Some end of a block that no chain goes on from.
    fn end(&mut self, b: usize) {
        match self.rnd.below(12) {
            0..6 => {
                let v = if self.rnd.chance(30) { vec![self.harmless()] } else { Vec::new() };
                let r = self.op(RET, 0, &v, (0, 0), &[]);
                self.put(b, r);
            }
            6 | 7 => {
                let r = self.plain_op(UNREACHABLE, &[]);
                self.put(b, r);
            }
            8 if self.size != Size::Small => {
                // a block of earlier on, so that something loops
                let to = self.rnd.below(self.blocks.len());
                self.br(b, to);
            }
            9 => {
                let v = self.harmless();
                let table = if self.rnd.chance(40) || self.size == Size::Small {
                    self.rnd.from_to(90, 99) as u32
                } else {
                    let to: Vec<usize> = (0..self.rnd.from_to(1, 3)).map(|_| self.rnd.below(self.blocks.len())).collect();
                    self.table(&to)
                };
                let r = self.op(CASE, 0, &[v], (0, 0), &[table]);
                self.put(b, r);
            }
            _ => {}
        }
    }

    /// A block at the end of a branch: it may read what the members left, write it again and read that.
    fn leaf(&mut self, sort: Leaf, v: &Values, join: Option<usize>) -> usize {
        let b = self.block();
        if self.rnd.chance(8) {
            return b;
        }
        let small = self.size == Size::Small;
        if !small {
            for _ in 0..self.rnd.below(3) {
                let r = if self.rnd.chance(60) { self.harmless_op() } else { self.any() };
                self.put(b, r);
            }
        }
        if sort == Leaf::Reads {
            for _ in 0..self.rnd.from_to(1, if small { 2 } else { 4 }) {
                let r = self.reader(v);
                self.put(b, r);
            }
            if self.rnd.chance(35) && !v.written.is_empty() {
                let again = self.rnd.pick(&v.written);
                let c = self.constant(again, 5);
                self.put(b, c);
                let r = self.reader(v);
                self.put(b, r);
            }
        } else if self.rnd.chance(40) {
            let r = self.harmless_op();
            self.put(b, r);
        }
        // What it leaves to others pins what it has not written.
        if self.rnd.chance(2) {
            let r = self.any();
            self.put(b, r);
        }
        match join {
            Some(j) if self.rnd.chance(50) => self.br(b, j),
            _ => self.end(b),
        }
        b
    }

    /// A block with members, the chain behind it, and its branches. `join` is where its ends may go on.
    fn unit(&mut self, x: usize, depth: usize, join: Option<usize>) {
        let small = self.size == Size::Small;
        let replay = self.rnd.chance(if small { 40 } else { 25 });
        let members = match (self.size, replay) {
            (Size::Small, true) => self.rnd.from_to(3, 6),
            (Size::Small, false) => self.rnd.from_to(8, 10),
            (Size::Medium, true) => self.rnd.from_to(2, 14),
            (Size::Medium, false) => self.rnd.from_to(7, 30),
            (Size::Large, _) => self.rnd.pick(&[8, 12, 20, 40, 90]),
        };
        let head = if small { self.rnd.below(2) } else { self.rnd.below(5) };
        self.fill(x, head);
        let mut v = Values::of(self);
        let with_cat = !replay || self.rnd.chance(70);
        let code = self.burst(&mut v, members, with_cat);
        self.blocks[x].extend(code);
        if self.rnd.chance(if small { 14 } else { 8 }) {
            self.stop_some(x, &v);
        }
        let last = self.chain(x);
        if last != x && self.rnd.chance(if small { 14 } else { 8 }) {
            self.stop_some(last, &v);
        }
        self.branches(last, &v, depth, join, replay);
        // The gate wants a Cat somewhere.
        if replay && self.rnd.chance(90) {
            let b = self.block();
            let d = self.harmless();
            let c = self.op(CAT, 0, &[d, d, d], (0, 0), &[0]);
            self.put(b, c);
        }
    }

    /// Something that some members, or all, cannot pass: a barrier, a suspension, a write to memory or to what they read, or a
    /// reader of what they leave.
    fn stop_some(&mut self, b: usize, v: &Values) {
        let r = match self.rnd.below(8) {
            0..4 => {
                let kind = self.rnd.pick(&[STMT, SUSPEND, COPY, FILL, L_SET, L_COPY, L_FILL, LOGIC_OP, COPY_CONST, STORE, CALL, SIG_READ]);
                let wild = self.rnd.chance(50);
                self.of_kind(kind, |d| if wild { d.any_register() } else { d.harmless() })
            }
            4 | 5 => self.harmless_op(),
            6 => self.reader(v),
            _ => {
                let r = self.rnd.pick(&self.scratch);
                self.constant(r, 3)
            }
        };
        self.put(b, r);
    }

    /// The blocks behind `x` up to the one that parts; some chains are too long or too many instructions.
    fn chain(&mut self, x: usize) -> usize {
        let more = match self.size {
            Size::Small => self.rnd.pick(&[0, 0, 0, 0, 0, 1, 1, 1, 2, 3, 4, 5, 5, 6]),
            _ => self.rnd.pick(&[0, 0, 0, 0, 1, 1, 2, 3, 4, 5, 6]),
        };
        let mut cur = x;
        for _ in 0..more {
            let next = self.block();
            self.br(cur, next);
            let most = if self.size == Size::Small { 0 } else { 2 };
            for _ in 0..self.rnd.below(most + 1) {
                let r = if self.rnd.chance(85) { self.harmless_op() } else { self.any() };
                self.put(next, r);
            }
            cur = next;
        }
        if self.size == Size::Large && self.rnd.chance(10) {
            // up to 799 to 802 in all, the last branch among them
            let own: usize = self.blocks[x].len();
            let goal = self.rnd.from_to(798, 801);
            for _ in own..goal {
                let r = self.harmless_op();
                self.put(cur, r);
            }
        }
        cur
    }

    fn branches(&mut self, last: usize, v: &Values, depth: usize, join: Option<usize>, replay: bool) {
        let wanted = if depth > 0 {
            // Nothing, or little, and another branch: what came down goes on.
            let y = self.block();
            for _ in 0..self.rnd.below(2) {
                let r = self.harmless_op();
                self.put(y, r);
            }
            // What is read further down than in the target stays, so mostly nothing is; what is read here goes no further.
            let mut v = v.clone();
            if self.rnd.chance(25) {
                let r = self.reader(&v);
                self.put(y, r);
            }
            if self.rnd.chance(85) {
                v.written.clear();
            }
            if self.size != Size::Small && self.rnd.chance(30) {
                let mut more = v.clone();
                let members = self.rnd.from_to(1, 9);
                let code = self.burst(&mut more, members, true);
                self.blocks[y].extend(code);
                let end = self.chain(y);
                self.branches(end, &more, depth - 1, join, replay);
            } else {
                let end = if self.rnd.chance(10) { self.chain(y) } else { y };
                self.branches(end, &v, depth - 1, join, replay);
            }
            y
        } else {
            self.leaf(Leaf::Reads, v, join)
        };
        let other = match self.rnd.below(30) {
            0 => wanted,
            1 => self.rnd.below(self.blocks.len()),
            2 => self.leaf(Leaf::Reads, v, join),
            _ => self.leaf(Leaf::Plain, v, join),
        };
        if replay {
            let listed = if self.rnd.chance(70) { wanted } else { other };
            self.replay.push(listed as u32);
        }
        if self.rnd.chance(50) {
            self.fork(last, wanted, other);
        } else {
            self.fork(last, other, wanted);
        }
    }

    /// Two or three blocks that nobody enters and that go round: what can move in one goes on and on.
    fn cycle(&mut self) {
        let n = self.rnd.from_to(2, 3);
        let ring: Vec<usize> = (0..n).map(|_| self.block()).collect();
        let mut v = Values::of(self);
        let members = self.rnd.from_to(8, 10);
        let code = self.burst(&mut v, members, true);
        self.blocks[ring[0]].extend(code);
        for k in 0..n {
            let out = self.leaf(Leaf::Plain, &v, None);
            let next = ring[(k + 1) % n];
            if self.rnd.chance(50) {
                self.fork(ring[k], next, out);
            } else {
                self.fork(ring[k], out, next);
            }
        }
    }
}
