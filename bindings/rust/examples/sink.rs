//! Sinks a picture: with `-` that of standard input, which gives the new picture on standard output and the answer on standard
//! error, and ends with 1 where it is refused; without, a small one that is built here, which gives the answer and what each
//! block then has.
//!
//!     cargo run --example sink
//!     cargo run --example sink - <before >after

use std::env;
use std::error::Error;
use std::io::{self, Read, Write};
use std::process::ExitCode;

use virdzeba::{ABSENT, Answer, Picture, RECORD, Room, sink};

/// Kinds of instruction, of which include/virdzeba.h lists all.
const CONST: u32 = 0;
const ALLOC: u32 = 6;
const CMP: u32 = 26;
const CAT: u32 = 39;
const COND_BR: u32 = 53;
const RET: u32 = 55;
const OUTPUT: u32 = 96;

const PTR: u32 = 1;

/// A record: kind, form 0, slots, no operand list, payload.
fn record(kind: u32, slots: &[u32], payload: &[u32]) -> [u32; RECORD] {
    let mut words = [0; RECORD];
    words[0] = kind;
    words[2..7].fill(ABSENT);
    words[2..2 + slots.len()].copy_from_slice(slots);
    words[9..9 + payload.len()].copy_from_slice(payload);
    words
}

/// The blocks one after the other, an instruction's place as its loc.
fn picture(types: Vec<u32>, blocks: &[Vec<[u32; RECORD]>]) -> Picture {
    let mut p = Picture { types, ..Picture::default() };
    for block in blocks {
        p.bounds.push(p.locs.len() as u32);
        for record in block {
            p.locs.push(p.locs.len() as u32);
            p.records.extend(record);
        }
        p.bounds.push(p.locs.len() as u32);
    }
    p
}

/// A message of r1 bytes in r2, by six values and a Cat, that only block 1 puts out.
fn message() -> Picture {
    let mut first = vec![record(CONST, &[1], &[8]), record(ALLOC, &[2, 1], &[]), record(CMP, &[3, 1, 1], &[])];
    first.extend((4..=8).map(|r| record(CMP, &[r, 1, r - 1], &[])));
    first.push(record(CAT, &[2, 1, 1], &[]));
    first.push(record(COND_BR, &[0], &[1, 2]));
    let fails = vec![record(OUTPUT, &[2, 1], &[]), record(RET, &[], &[])];
    let mut types = vec![0; 9];
    types[2] = PTR;
    picture(types, &[first, fails, vec![record(RET, &[], &[])]])
}

fn said(answer: Answer) -> String {
    match answer {
        Answer::Done { rounds } => format!("done {rounds}"),
        Answer::Short { rounds } => format!("short {rounds}"),
    }
}

/// Standard input's picture, sunk.
fn filter() -> Result<(), Box<dyn Error>> {
    let mut before = Vec::new();
    io::stdin().read_to_end(&mut before)?;
    let (answer, after) = sink(&before, Room::MOST)?;
    io::stdout().write_all(&after)?;
    eprintln!("{}", said(answer));
    Ok(())
}

fn show() -> Result<(), Box<dyn Error>> {
    let (answer, after) = sink(&message().to_bytes(), Room::MOST)?;
    println!("{}", said(answer));
    let after = Picture::from_bytes(&after).ok_or("what was written is no picture")?;
    for (block, bounds) in after.bounds.chunks_exact(2).enumerate() {
        let places = &after.locs[bounds[0] as usize..bounds[1] as usize];
        println!("block {block}: instructions {places:?}");
    }
    Ok(())
}

fn main() -> ExitCode {
    let run = if env::args().nth(1).as_deref() == Some("-") { filter() } else { show() };
    match run {
        Ok(()) => ExitCode::SUCCESS,
        Err(e) => {
            eprintln!("{e}");
            ExitCode::FAILURE
        }
    }
}
