//! The facts on each position of a chain, as `analyse` in 000 has them (document 01, "The legal set").

use super::chain::Chain;
use super::known::{Known, is_length, whole};
use super::memory::{self, Writes};
use super::roles;
use crate::kinds::*;
use crate::picture::{Picture, Record};

/// Where memory comes from; `Temp` and `Img` name the position in the chain that makes it.
#[derive(Clone, Copy, PartialEq, Eq, Debug)]
pub enum Origin {
    Unknown,
    Ro,
    Heap,
    Frame,
    Temp(usize),
    Img(usize),
}

/// A register read, and the position in the chain that wrote it last before.
#[derive(Clone, Copy)]
pub struct Read {
    pub register: u32,
    pub writer: Option<usize>,
}

/// One position.
pub struct Fact {
    /// of slots, then of the list
    pub reads: Vec<Read>,
    pub writes: Vec<u32>,
    /// the positions that read what it writes
    pub readers: Vec<usize>,
    pub movable: bool,
    /// what it writes: from where, whether that is a length, and whether it is a layout
    pub origin: Origin,
    pub length: bool,
    pub layout: bool,
    /// it makes a block
    pub creates: bool,
    /// the memory it reads, and writes
    pub from: Vec<Origin>,
    pub wrote: Option<Origin>,
    pub barrier: bool,
    pub suspends: bool,
}

/// The facts on all positions of a chain, in order.
pub fn along(p: &Picture, chain: &Chain, known: &[Known]) -> Vec<Fact> {
    let mut facts: Vec<Fact> = Vec::new();
    for (at, &place) in chain.places.iter().enumerate() {
        let r = p.record(place);
        let writer = |register| facts.iter().rposition(|q: &Fact| q.writes.contains(&register));
        let reads: Vec<Read> = roles::reads(p, &r).into_iter().map(|register| Read { register, writer: writer(register) }).collect();
        let fact = Position { r, at, reads: &reads, before: &facts, known }.fact();
        for w in reads.iter().filter_map(|read| read.writer) {
            facts[w].readers.push(at);
        }
        facts.push(fact);
    }
    facts
}

/// A position that is looked at, and what is known before it.
struct Position<'a> {
    r: Record,
    at: usize,
    reads: &'a [Read],
    before: &'a [Fact],
    known: &'a [Known],
}

impl Position<'_> {
    fn is(&self, kinds: &[u32]) -> bool {
        kinds.contains(&self.r.kind())
    }

    fn form(&self) -> u32 {
        self.r.form()
    }

    /// What is known of the register that is read as number `k`, whoever wrote it in the chain.
    fn known(&self, k: usize) -> Known {
        self.known.get(self.reads[k].register as usize).copied().unwrap_or(Known::Nothing)
    }

    /// From where is what is read as number `k`?
    fn origin_of(&self, k: usize) -> Origin {
        match (self.reads[k].writer, self.known(k)) {
            (Some(w), _) => self.before[w].origin,
            (None, Known::ReadOnly) => Origin::Ro,
            (None, Known::Frame) => Origin::Frame,
            (None, Known::Constant(_) | Known::Nothing) => Origin::Unknown,
        }
    }

    /// Is what is read as number `k` a length?
    fn length_of(&self, k: usize) -> bool {
        match (self.reads[k].writer, self.known(k)) {
            (Some(w), _) => self.before[w].length,
            (None, Known::Constant(v)) => is_length(v),
            (None, Known::ReadOnly | Known::Frame | Known::Nothing) => false,
        }
    }

    /// Is it Add, Sub or Mul of lengths, or Div of a length by a register that is known as a constant above 0?
    fn counts(&self) -> bool {
        let sums = || [1, 2, 3].contains(&self.form()) && self.length_of(1);
        let divides = || self.form() == 4 && matches!(self.known(1), Known::Constant(v) if v > 0);
        self.is(&[BIN]) && self.length_of(0) && (sums() || divides())
    }

    /// A Load of anything but a Sig.
    fn loads(&self) -> bool {
        self.is(&[LOAD]) && self.form() != 4
    }

    /// A LayoutOf that is not cached.
    fn lays_out(&self) -> bool {
        self.is(&[LAYOUT_OF]) && self.form() == 0
    }

    fn image(&self) -> bool {
        self.is(&[CALL_NATIVE]) && memory::image(&self.r)
    }

    fn movable(&self) -> bool {
        let always = [MOVE, SELECT, CMP, F_CMP, BOOL, INDEX, DOPE_LEN, BOUNDS_LEN, SIG_VAL, SIG_READ_SCALAR, SIG_READ, MAKE_DOPE, CAT];
        self.is(&always)
            || self.counts()
            || self.loads()
            || self.lays_out()
            || self.image()
            || (self.is(&[STORE]) && self.form() != 4)
            || (self.is(&[ALLOC]) && self.length_of(0))
            || (self.is(&[CHECK]) && self.form() == 3 && self.length_of(0))
    }

    fn origin(&self) -> Origin {
        let address = |forms: &[u32]| self.is(&[ADDR_OF]) && forms.contains(&self.form());
        let into_image = || matches!(self.origin_of(0), Origin::Img(_));
        if address(&[0]) {
            Origin::Frame
        } else if address(&[2, 4]) {
            Origin::Ro
        } else if self.is(&[MOVE, INDEX]) || (self.loads() && into_image()) {
            // the pointers inside an image point into it
            self.origin_of(0)
        } else if self.is(&[SELECT]) && self.origin_of(1) == self.origin_of(2) {
            self.origin_of(1)
        } else if self.is(&[ALLOC]) || self.lays_out() || (self.is(&[CALL_NATIVE]) && self.form() == 2) {
            Origin::Temp(self.at)
        } else if self.image() {
            Origin::Img(self.at)
        } else if self.is(&[DEREF]) {
            Origin::Heap
        } else {
            Origin::Unknown
        }
    }

    fn length(&self) -> bool {
        self.is(&[CMP, F_CMP, BOOL, DOPE_LEN, BOUNDS_LEN])
            || self.counts()
            || (self.is(&[CONST]) && is_length(whole(&self.r)))
            || (self.is(&[MOVE]) && self.length_of(0))
            || (self.is(&[SELECT]) && self.length_of(1) && self.length_of(2))
            // a word of a layout
            || (self.loads() && matches!(self.origin_of(0), Origin::Temp(k) if self.before[k].layout))
    }

    /// The memory it reads. Of a Cat, each piece in its list, an address and a count, that is no scalar.
    fn from(&self) -> Vec<Origin> {
        if self.is(&[DOPE_LEN]) || self.loads() || self.lays_out() {
            return vec![self.origin_of(0)];
        }
        if !self.is(&[CAT]) {
            return Vec::new();
        }
        let listed = self.r.list().1 as usize;
        let first = self.reads.len() - listed;
        (0..listed / 2).filter(|k| self.r.0[9] >> k & 1 == 0).map(|k| self.origin_of(first + 2 * k)).collect()
    }

    fn fact(&self) -> Fact {
        let writes = memory::writes(&self.r);
        Fact {
            reads: self.reads.to_vec(),
            writes: roles::writes(&self.r),
            readers: Vec::new(),
            movable: self.movable(),
            origin: self.origin(),
            length: self.length(),
            layout: self.lays_out(),
            creates: self.lays_out() || self.image() || (self.is(&[ALLOC]) && self.length_of(0)),
            from: self.from(),
            wrote: match writes {
                Writes::Nothing | Writes::Barrier => None,
                Writes::First => Some(self.origin_of(0)),
                Writes::Anywhere => Some(Origin::Unknown),
            },
            barrier: writes == Writes::Barrier,
            suspends: memory::suspends(&self.r),
        }
    }
}
