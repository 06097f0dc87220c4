//! What pictures and their rounds were like, counted, so that a poor generator does not go unseen.

use std::collections::{BTreeMap, BTreeSet};

use crate::accept;
use crate::driver::Trace;
use crate::kinds::{self, KINDS};
use crate::missing::Missing;
use crate::oracle::Answer;
use crate::picture::Picture;

#[derive(Default)]
pub struct Tally {
    pub pictures: usize,
    /// those with a round
    pub moved: usize,
    pub rounds: BTreeMap<u32, usize>,
    pub members: usize,
    /// Short where one register, or one operand, was missing
    pub short_registers: usize,
    pub short_operands: usize,
    pub gated: usize,
    /// rounds by the blocks of their chain
    pub chains: BTreeMap<usize, usize>,
    pub target_before: usize,
    pub empty_target: usize,
    pub same_branches: usize,
    pub middle_branches: usize,
    pub sig_registers: usize,
    pub lists_appended: usize,
    pub long_lists: usize,
    /// those left after exactly one round: all, into a target before x, into an empty one, with a new Sig register, with a list of
    /// more than 16 that two members share and that is changed
    pub after_one: [usize; 5],
    pub with_vias: usize,
    pub with_replay: usize,
    /// kinds and forms that came up
    pub seen: BTreeSet<(u32, u32)>,
    pub moved_kinds: BTreeMap<u32, usize>,
}

impl Tally {
    /// Counts a picture with its room, the Rust's rounds on it, and the answer.
    pub fn add(&mut self, p: &Picture, trace: &Trace, answer: Answer) {
        self.pictures += 1;
        let rounds = match answer {
            Answer::Done(n) | Answer::Short(n) | Answer::Refused(n) => n,
        };
        *self.rounds.entry(rounds).or_default() += 1;
        self.moved += usize::from(rounds > 0);
        self.gated += usize::from(accept::gated(p));
        if matches!(answer, Answer::Short(_)) {
            let next = &trace.rounds[rounds as usize].after;
            self.short_registers += usize::from(next.reg_ty.len() == p.types.len() + 1);
            self.short_operands += usize::from(next.operands.len() == p.ops.len() + 1);
        }
        self.with_vias += usize::from(!p.vias.is_empty());
        self.with_replay += usize::from(!p.replay.is_empty());
        self.add_records(p);
        self.add_rounds(p, trace, rounds as usize);
    }

    fn add_records(&mut self, p: &Picture) {
        let ends: BTreeSet<u32> = p.bounds.chunks(2).filter(|b| b[0] < b[1]).map(|b| b[1] - 1).collect();
        let mut middle = false;
        for (k, r) in p.records().enumerate() {
            self.seen.insert((r.kind(), r.form()));
            middle |= matches!(r.kind(), kinds::BR | kinds::COND_BR | kinds::CASE) && !ends.contains(&(k as u32));
            self.long_lists += usize::from(r.list().1 > 16);
            self.same_branches += usize::from(r.kind() == kinds::COND_BR && r.0[9] == r.0[10]);
        }
        self.middle_branches += usize::from(middle);
    }

    fn add_rounds(&mut self, p: &Picture, trace: &Trace, rounds: usize) {
        let mut sizes: Vec<usize> = (0..p.nblocks()).map(|b| p.places(b).len()).collect();
        let (mut regs, mut opers) = (p.regs as usize, p.opers as usize);
        if let (1, Some(round)) = (rounds, trace.rounds.first()) {
            let lists: Vec<(u32, u32)> = round.after.loc[round.into][..round.moved].iter().map(|id| p.record(id.place as usize).list()).collect();
            let shared = lists.iter().enumerate().any(|(k, l)| l.1 > 16 && lists[..k].contains(l));
            let sig = round.after.reg_ty[regs..].contains(&crate::RegTy::Sig);
            let seen = [true, round.into < round.from, sizes[round.into] == 0, sig, shared && round.after.operands.len() > opers];
            for (many, seen) in self.after_one.iter_mut().zip(seen) {
                *many += usize::from(seen);
            }
        }
        for round in trace.rounds.iter().take(rounds) {
            self.members += round.moved;
            *self.chains.entry(round.chain.len()).or_default() += 1;
            self.target_before += usize::from(round.into < round.from);
            self.empty_target += usize::from(sizes[round.into] == 0);
            self.sig_registers += round.after.reg_ty[regs..].iter().filter(|t| **t == crate::RegTy::Sig).count();
            self.lists_appended += usize::from(round.after.operands.len() > opers);
            for id in &round.after.loc[round.into][..round.moved] {
                *self.moved_kinds.entry(p.record(id.place as usize).kind()).or_default() += 1;
            }
            sizes = round.after.code.iter().map(Vec::len).collect();
            (regs, opers) = (round.after.reg_ty.len(), round.after.operands.len());
        }
    }

    /// What is missing, if the pictures are to be worth their while.
    pub fn missing(&self) -> Vec<String> {
        let mut out = Missing::default();
        let forms: usize = KINDS.iter().map(|k| (k.forms.1 - k.forms.0 + 1) as usize).sum();
        out.want(3 * self.moved >= self.pictures, "a third of the pictures with a round");
        out.want((0..=8).all(|n| self.rounds.contains_key(&n)), "every number of rounds from 0 to 8");
        out.want((1..=6).all(|n| self.chains.contains_key(&n)), "chains of 1 to 6 blocks");
        out.want(self.short_registers > 0 && self.short_operands > 0, "Short by one register and by one operand");
        out.want(self.target_before > 0 && self.empty_target > 0, "targets before x and empty ones");
        out.want(self.same_branches > 0 && self.middle_branches > 0, "equal branches and branches in the middle");
        out.want(self.sig_registers > 0 && self.lists_appended > 0 && self.long_lists > 0, "new Sig registers, new and long lists");
        out.want(self.with_vias > 0 && self.with_replay > 0, "vias and replay");
        out.want(self.seen.len() == forms, "every kind and form");
        out.want(self.moved_kinds.len() == 20, "every kind that can move among the members");
        out.0
    }

    pub fn print(&self) {
        println!("pictures {} moved {} members {}", self.pictures, self.moved, self.members);
        println!("rounds {:?}", self.rounds);
        println!("chains {:?}", self.chains);
        println!("short by one register {} by one operand {} gated {}", self.short_registers, self.short_operands, self.gated);
        println!("targets before x {} empty {} branches equal {}", self.target_before, self.empty_target, self.same_branches);
        println!("new Sig registers {} rounds with new lists {} long lists {}", self.sig_registers, self.lists_appended, self.long_lists);
        let [all, before, empty, sig, shared] = self.after_one;
        println!("after exactly one round {all}: target before x {before} empty {empty}, new Sig {sig}, a long shared list {shared}");
        println!("with vias {} with replay {} with branches in the middle {}", self.with_vias, self.with_replay, self.middle_branches);
        println!("kinds and forms {}", self.seen.len());
        let moved: Vec<String> = self.moved_kinds.iter().map(|(k, n)| format!("{} {n}", KINDS[*k as usize].name)).collect();
        println!("members by kind: {}", moved.join(", "));
    }
}
