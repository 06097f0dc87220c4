//! The answer that document 01 asks for, from the Rust: what the entry must give for a picture. Where a block leads to block 0,
//! request 2026-02 parts from the Rust, and the plain check stands in.

use crate::accept;
use crate::convert::{self, Types};
use crate::driver::{Entry, Facts, Overview, Pass, Round, Search, State, Trace};
use crate::picture::{Picture, Work};
use crate::plain::{self, Requests};

#[derive(Clone, Copy, Debug, PartialEq, Eq)]
pub enum Answer {
    Done(u32),
    Short(u32),
    Refused(u32),
}

impl Answer {
    /// The number that the host is given.
    pub fn number(self) -> u32 {
        match self {
            Answer::Done(n) => n,
            Answer::Short(n) => 100 + n,
            Answer::Refused(n) => 200 + n,
        }
    }
}

/// A line of `sinkrounds`: round, from, into, moved, then registers and operands in use after it.
pub type Line = [u32; 6];

#[derive(Clone, Debug, PartialEq, Eq)]
pub struct Outcome {
    pub answer: Answer,
    pub lines: Vec<Line>,
    pub picture: Picture,
}

/// An accepted picture in the pass's own types.
pub struct Lent<'a> {
    pub picture: &'a Picture,
    pub types: Types,
    pub program: crate::Program,
    pub function: crate::Func,
    pub replay: Vec<usize>,
    /// `Start` where a block leads to block 0
    pub entry: Entry,
}

impl<'a> Lent<'a> {
    /// `None` where the picture uses more types than the Rust has.
    pub fn new(picture: &'a Picture) -> Option<Lent<'a>> {
        let types = Types::of(&picture.types[..picture.regs as usize])?;
        Some(Lent {
            picture,
            program: convert::program(picture),
            function: convert::function(picture, &types),
            replay: picture.replay.iter().map(|&b| b as usize).collect(),
            entry: if picture.leads_to_entry() { Entry::Start } else { Entry::Blocks },
            types,
        })
    }

    pub fn rounds(&self, facts: Facts, entry: Entry) -> Trace {
        Pass::rounds(&self.program, &self.function, &self.replay, facts, entry)
    }

    pub fn sink_all(&self, facts: Facts, entry: Entry) -> Option<(bool, State)> {
        Pass::sink_all(&self.program, &self.function, &self.replay, facts, entry)
    }

    pub fn overview(&self, entry: Entry) -> Overview {
        Pass::overview(&self.program, &self.function, &self.replay, entry)
    }

    pub fn searches(&self, entry: Entry) -> Vec<Option<Search>> {
        Pass::searches(&self.program, &self.function, &self.replay, entry)
    }

    /// The rounds that the port is held to: the Rust's, or the plain check's where a block leads to block 0.
    pub fn wanted(&self) -> Trace {
        match self.entry {
            Entry::Blocks => self.rounds(Facts::Lengthened, Entry::Blocks),
            Entry::Start => self.traced(plain::rounds(self.picture, Requests::ALL)),
        }
    }

    /// Does a block lead to block 0, and do the rounds differ from document 01's for that reason?
    pub fn parts_from_document_01(&self, wanted: &Trace) -> bool {
        let told = |t: &Trace| t.rounds.iter().map(|r| (r.from, r.into, r.moved)).collect::<Vec<_>>();
        self.entry == Entry::Start && told(wanted) != told(&self.rounds(Facts::Lengthened, Entry::Blocks))
    }

    /// Rounds of the plain check in the Rust's types.
    pub fn traced(&self, rounds: Vec<plain::Round>) -> Trace {
        let mut places: Vec<usize> = (0..self.picture.locs.len()).collect();
        let traced = rounds.into_iter().map(|r| {
            // back through this round, then through those before it
            places = r.was.iter().map(|&was| places[was]).collect();
            let after = convert::state(&r.after, &self.types, &places);
            Round { from: r.from, into: r.into, moved: r.members.len(), chain: r.chain, after }
        });
        Trace { rounds: traced.collect(), stopped: false }
    }

    pub fn picture_of(&self, state: &State) -> Picture {
        convert::picture(self.picture, &self.types, state)
    }

    /// The answer that these rounds make, given the room lent.
    pub fn outcome(&self, trace: &Trace) -> Outcome {
        assert!(!trace.stopped, "the Rust with lengthened facts does not stop");
        let lent = self.picture;
        let mut out = Outcome { answer: Answer::Done(0), lines: Vec::new(), picture: lent.clone() };
        for (k, round) in trace.rounds.iter().enumerate() {
            let after = self.picture_of(&round.after);
            if after.regs as usize > lent.types.len() || after.opers as usize > lent.ops.len() {
                out.answer = Answer::Short(k as u32);
                return out;
            }
            let n = k as u32 + 1;
            out.lines.push([n, round.from as u32, round.into as u32, round.moved as u32, after.regs, after.opers]);
            out.answer = Answer::Done(n);
            out.picture = after;
        }
        out
    }
}

/// What the entry must answer for any picture, so much lent to work in. `None` where the picture is accepted
/// and has more types than the Rust knows.
pub fn oracle(picture: &Picture, work: Work) -> Option<Outcome> {
    let ends = |answer| Some(Outcome { answer, lines: Vec::new(), picture: picture.clone() });
    match accept::refusal(picture, work) {
        0 if accept::gated(picture) => ends(Answer::Done(0)),
        0 => {
            let lent = Lent::new(picture)?;
            Some(lent.outcome(&lent.wanted()))
        }
        n => ends(Answer::Refused(n)),
    }
}

/// The same with as much to work in as there has to be.
pub fn oracle_with_work(picture: &Picture) -> Option<Outcome> {
    oracle(picture, picture.work())
}
