//! A picture by its lists, to and from bytes.

/// Words of a record.
pub const RECORD: usize = 16;

/// What a slot holds that has no register.
pub const ABSENT: u32 = u32::MAX;

/// The words of each list for one that is counted: blocks, instructions with their locs, registers, operands, pair words,
/// target words, replay and via words.
const WORDS: [u64; 8] = [2, RECORD as u64 + 1, 1, 1, 1, 1, 1, 1];

/// A function as the pass takes it, all in 32-bit words. The counts in front of the bytes are the lengths of these lists.
#[derive(Clone, Debug, Default, PartialEq, Eq)]
pub struct Picture {
    /// the start and the end of each block, in instructions; end to end
    pub bounds: Vec<u32>,
    /// [`RECORD`] words an instruction: kind, form, five slots, start and length of its operand list, payload
    pub records: Vec<u32>,
    /// a word an instruction, which goes where it goes
    pub locs: Vec<u32>,
    /// the same again, or none at all
    pub vias: Vec<u32>,
    /// the type of each register in use
    pub types: Vec<u32>,
    /// the registers that the operand lists name
    pub operands: Vec<u32>,
    /// start and length, in the targets, of each case table
    pub pairs: Vec<u32>,
    /// the blocks that case tables name, each table's default first
    pub targets: Vec<u32>,
    /// the blocks in replay
    pub replay: Vec<u32>,
}

impl Picture {
    /// The picture as [`sink`](crate::sink) takes it.
    pub fn to_bytes(&self) -> Vec<u8> {
        let counts = [
            self.bounds.len() / 2,
            self.locs.len(),
            self.types.len(),
            self.operands.len(),
            self.pairs.len(),
            self.targets.len(),
            self.replay.len(),
            self.vias.len(),
        ];
        let lists = [
            &self.bounds,
            &self.records,
            &self.locs,
            &self.vias,
            &self.types,
            &self.operands,
            &self.pairs,
            &self.targets,
            &self.replay,
        ];
        let words = counts.into_iter().map(|n| n as u32).chain(lists.into_iter().flatten().copied());
        words.flat_map(u32::to_le_bytes).collect()
    }

    /// The picture in these bytes; `None` where they are not as many as the counts say.
    pub fn from_bytes(bytes: &[u8]) -> Option<Picture> {
        if length(bytes) != Some(bytes.len()) {
            return None;
        }
        let mut words = bytes.chunks_exact(4).map(|b| u32::from_le_bytes([b[0], b[1], b[2], b[3]]));
        let counts: Vec<usize> = words.by_ref().take(8).map(|n| n as usize).collect();
        let mut list = |n: usize| words.by_ref().take(n).collect();
        Some(Picture {
            bounds: list(2 * counts[0]),
            records: list(RECORD * counts[1]),
            locs: list(counts[1]),
            vias: list(counts[7]),
            types: list(counts[2]),
            operands: list(counts[3]),
            pairs: list(counts[4]),
            targets: list(counts[5]),
            replay: list(counts[6]),
        })
    }
}

/// The bytes that a picture with these eight counts in front has, whether or not all of them are there. `None` where the
/// counts are not there, or say more than memory has.
pub fn length(head: &[u8]) -> Option<usize> {
    let counts = head.get(..32)?.chunks_exact(4).map(|b| u64::from(u32::from_le_bytes([b[0], b[1], b[2], b[3]])));
    let words: u64 = 8 + counts.zip(WORDS).map(|(n, each)| n * each).sum::<u64>();
    usize::try_from(4 * words).ok()
}
