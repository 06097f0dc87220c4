//! What the port knows of a position of a chain: the record of crate `facts`, laid out as C does. Nothing checks this declaration
//! against crates/facts/src.

#[repr(C)]
#[derive(Clone, Copy, Debug, PartialEq, Eq)]
pub struct Fact {
    /// the number of its record
    pub rec: u32,
    /// 0 No, 1 Movable, 2 Free
    pub class: u32,
    /// where its value points, as an origin's number
    pub org: u32,
    /// memory written and read: 0 for none, or an origin and 1
    pub wrote: u32,
    pub from: u32,
    /// the first register written and the first two read, or absent
    pub def: u32,
    pub use0: u32,
    pub use1: u32,
    /// it reads or writes more
    pub more: bool,
    pub len: bool,
    pub layout: bool,
    pub creates: bool,
    pub barrier: bool,
    pub suspends: bool,
    pub member: bool,
}

const _: () = assert!(size_of::<Fact>() == 40 && align_of::<Fact>() == 4);

impl Fact {
    /// One that means nothing, made of a word.
    pub fn junk(word: u64) -> Fact {
        let [a, b] = [word as u32, (word >> 32) as u32];
        let bit = |k: u32| word >> k & 1 == 1;
        Fact {
            rec: a,
            class: b,
            org: !a,
            wrote: !b,
            from: a ^ b,
            def: a,
            use0: b,
            use1: a,
            more: bit(0),
            len: bit(1),
            layout: bit(2),
            creates: bit(3),
            barrier: bit(4),
            suspends: bit(5),
            member: bit(6),
        }
    }
}
