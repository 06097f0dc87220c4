//! `sinkrounds`' input and output, and the host entry over them: document 01, "One listing whole".

use crate::oracle::{Answer, Outcome, oracle_with_work};
use crate::picture::{Picture, RECORD};

/// The program's sizes (document 01, "Port order and sizes"): blocks, instructions, registers, operands, pair words, target
/// words, replay, via words.
pub const SIZES: [usize; 8] = [64, 512, 512, 2048, 256, 1024, 64, 512];
pub const REGISTERS: usize = SIZES[2];
pub const OPERANDS: usize = SIZES[3];
/// Bytes that the host lends for the result at least.
pub const RESULT: usize = 53_024;

/// The eight counts of a picture.
fn counts(p: &Picture) -> [usize; 8] {
    [p.nblocks(), p.locs.len(), p.regs as usize, p.opers as usize, p.pairs.len(), p.targets.len(), p.replay.len(), p.vias.len()]
}

/// Whether the counts are within the program's sizes.
pub fn fits(p: &Picture) -> bool {
    counts(p).iter().zip(SIZES).all(|(&n, most)| n <= most)
}

/// The picture as `sinkrounds` reads it: what is in use, and nothing of the room lent.
pub fn to_bytes(p: &Picture) -> Vec<u8> {
    assert!(p.types.len() >= p.regs as usize && p.ops.len() >= p.opers as usize, "what is in use is there");
    loose_bytes(p)
}

/// The same of a picture that is perhaps none: the counts as they are, and of each list what there is.
pub fn loose_bytes(p: &Picture) -> Vec<u8> {
    let (types, ops) = (&p.types[..p.types.len().min(p.regs as usize)], &p.ops[..p.ops.len().min(p.opers as usize)]);
    let slices = [&p.bounds[..], &p.recs, &p.locs, &p.vias, types, ops, &p.pairs, &p.targets, &p.replay];
    let words = counts(p).into_iter().map(|n| n as u32).chain(slices.into_iter().flatten().copied());
    words.flat_map(u32::to_le_bytes).collect()
}

/// The picture of these bytes with so many registers and operands lent; `None` where they are cut short, too long, or past
/// the program's sizes.
pub fn from_bytes(bytes: &[u8], registers: usize, operands: usize) -> Option<Picture> {
    if !bytes.len().is_multiple_of(4) || registers > REGISTERS || operands > OPERANDS {
        return None;
    }
    let words: Vec<u32> = bytes.chunks_exact(4).map(|b| u32::from_le_bytes(b.try_into().expect("four bytes"))).collect();
    let counts: Vec<usize> = words.get(..8)?.iter().map(|&n| n as usize).collect();
    if counts.iter().zip(SIZES).any(|(&n, most)| n > most) {
        return None;
    }
    let mut rest = &words[8..];
    let mut take = |n: usize| -> Option<Vec<u32>> {
        let (head, tail) = rest.split_at_checked(n)?;
        rest = tail;
        Some(head.to_vec())
    };
    let mut p = Picture {
        bounds: take(2 * counts[0])?,
        recs: take(RECORD * counts[1])?,
        locs: take(counts[1])?,
        vias: take(counts[7])?,
        types: take(counts[2])?,
        ops: take(counts[3])?,
        pairs: take(counts[4])?,
        targets: take(counts[5])?,
        replay: take(counts[6])?,
        regs: counts[2] as u32,
        opers: counts[3] as u32,
    };
    if !rest.is_empty() {
        return None;
    }
    // Where more is in use than is lent the counts stay as they are: that is refusal 1.
    p.types.resize(registers, 0);
    p.ops.resize(operands, 0);
    Some(p)
}

/// What `sinkrounds` prints.
pub fn text(outcome: Option<&Outcome>) -> String {
    let mut out = String::from("round from into moved registers operands\n");
    for line in outcome.map_or(&[][..], |o| &o.lines) {
        let words: Vec<String> = line.iter().map(u32::to_string).collect();
        out += &format!("{}\n", words.join(" "));
    }
    out += "answer rounds\n";
    out += &match outcome.map(|o| o.answer) {
        Some(Answer::Done(n)) => format!("done {n}\n"),
        Some(Answer::Short(n)) => format!("short {n}\n"),
        Some(Answer::Refused(n)) => format!("refused {n}\n"),
        None => "unread 0\n".into(),
    };
    out
}

/// What the host entry returns, and the bytes at the head of the result for Done and Short.
pub type Hosted = (u32, Option<Vec<u8>>);

/// What the host entry must give. `None` where the picture is accepted and has more types than the Rust knows.
pub fn host(bytes: &[u8], registers: usize, operands: usize, result: usize) -> Option<Hosted> {
    let Some(picture) = from_bytes(bytes, registers, operands).filter(|_| result >= RESULT) else {
        return Some((300, None));
    };
    oracle_with_work(&picture).map(|o| hosted(&o))
}

pub fn hosted(outcome: &Outcome) -> Hosted {
    let written = match outcome.answer {
        Answer::Refused(_) => None,
        _ => Some(to_bytes(&outcome.picture)),
    };
    (outcome.answer.number(), written)
}
