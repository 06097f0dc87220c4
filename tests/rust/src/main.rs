//! The commands; see README.md.

use compare::bytes;
use compare::convert::decode;
use compare::crossed;
use compare::listing::listing;
use compare::oracle::{Outcome, oracle_with_work};
use compare::picture::Picture;
use compare::plain;
use compare::plaincheck::plaincheck;
#[cfg(feature = "port")]
use compare::{bench, facts, flow, large, live, port, refusals};
#[cfg(feature = "host")]
use compare::sink;
use compare::roles::roles;
use compare::selfcheck::selfcheck;
#[cfg(feature = "port")]
use compare::walks::left_otherwise;
use compare::walks::walks;
use compare::{program, vectors};
use std::fs;
use std::io::{Read, Write};
use std::path::Path;
use std::process::ExitCode;

const USAGE: &str =
    "compare listing | bytes | rounds | sunk | program PATH | selfcheck | plain | walks N SEED | roles KINDS | crossed FOLDER [ROWS] | vectors FOLDER, with the host's entry: sink N SEED, and with the port's layers: refusals | flow | facts | large N SEED | bench SEED | once port|rust ROW | live SEED | live once SIDE ROW";

/// A picture's code, block by block.
fn show(what: &str, p: &Picture) {
    println!("{what}: {} registers, {} operands in use", p.regs, p.opers);
    for (b, code) in p.blocks().iter().enumerate() {
        println!("  block {b}");
        for r in code {
            println!("    {:?}", decode(r));
        }
    }
}

/// A command over so many pictures from a seed on. It tells what is missing; nothing may be.
fn drawn(n: &str, seed: &str, command: impl Fn(usize, u64) -> Vec<String>) -> ExitCode {
    let (Ok(n), Ok(seed)) = (n.parse(), seed.parse()) else {
        eprintln!("{USAGE}");
        return ExitCode::from(2);
    };
    let missing = command(n, seed);
    for what in &missing {
        println!("wanted: {what}");
    }
    if missing.is_empty() { ExitCode::SUCCESS } else { ExitCode::FAILURE }
}

fn standard_input() -> Vec<u8> {
    let mut input = Vec::new();
    std::io::stdin().read_to_end(&mut input).expect("standard input");
    input
}

/// Writes files into a folder.
fn write_all(folder: &str, files: impl IntoIterator<Item = (String, Vec<u8>)>) -> ExitCode {
    for (name, bytes) in files {
        let path = Path::new(folder).join(&name);
        let written = fs::create_dir_all(path.parent().unwrap_or(&path)).and_then(|()| fs::write(&path, bytes));
        if let Err(e) = written {
            eprintln!("{}: {e}", path.display());
            return ExitCode::from(2);
        }
    }
    ExitCode::SUCCESS
}

/// Writes down the smallest input of a difference, for whoever looks for its reason.
#[cfg(feature = "host")]
fn keep(fault: Option<&sink::Fault>) {
    if let Some(f) = fault {
        let path = "target/fault.picture";
        match fs::write(path, &f.lending.bytes) {
            Ok(()) => println!("the smallest, in {path}: {}", f.what),
            Err(e) => println!("the smallest: {} ({path}: {e})", f.what),
        }
    }
}

fn main() -> ExitCode {
    let words: Vec<String> = std::env::args().skip(1).collect();
    let words: Vec<&str> = words.iter().map(String::as_str).collect();
    match words[..] {
        ["listing"] => {
            let before = listing();
            let outcome = oracle_with_work(&before).expect("few types");
            show("lent", &before);
            show("left", &outcome.picture);
            print!("{}", bytes::text(Some(&outcome)));
            ExitCode::SUCCESS
        }
        ["bytes"] => {
            std::io::stdout().write_all(&bytes::to_bytes(&listing())).expect("standard output");
            ExitCode::SUCCESS
        }
        ["rounds"] => {
            print!("{}", program::text_of(&standard_input()).expect("no more types than the Rust has"));
            ExitCode::SUCCESS
        }
        ["sunk"] => {
            let hosted = bytes::host(&standard_input(), bytes::REGISTERS, bytes::OPERANDS, bytes::RESULT);
            let (_, picture) = hosted.expect("no more types than the Rust has");
            std::io::stdout().write_all(&picture.unwrap_or_default()).expect("standard output");
            ExitCode::SUCCESS
        }
        ["program", path] => match program::program(Path::new(path)) {
            Ok(wrong) => {
                for what in wrong.iter().take(20) {
                    println!("wrong: {what}");
                }
                if wrong.is_empty() { ExitCode::SUCCESS } else { ExitCode::FAILURE }
            }
            Err(e) => {
                eprintln!("{path}: {e}");
                ExitCode::from(2)
            }
        },
        ["crossed", folder] | ["crossed", folder, _] => {
            let many = words.get(2).map_or(Ok(crossed::ROWS), |n| n.parse());
            let Ok(many) = many else {
                eprintln!("{USAGE}");
                return ExitCode::from(2);
            };
            write_all(folder, crossed::files(many).into_iter().map(|(name, text)| (name, text.into_bytes())))
        }
        ["vectors", folder] => {
            let (all, missing) = vectors::vectors();
            for what in &missing {
                println!("wanted: {what}");
            }
            if !missing.is_empty() {
                return ExitCode::FAILURE;
            }
            write_all(folder, [("stdin".to_string(), vectors::file(&all)), ("README.md".to_string(), vectors::page(&all).into_bytes())])
        }
        ["roles", page] => {
            let text = match fs::read_to_string(page) {
                Ok(text) => text,
                Err(e) => {
                    eprintln!("{page}: {e}");
                    return ExitCode::from(2);
                }
            };
            let (cases, wrong) = roles(&text);
            for what in &wrong {
                println!("wrong: {what}");
            }
            println!("roles: {cases} cases of 101 kinds compared, {} wrong", wrong.len());
            if wrong.is_empty() { ExitCode::SUCCESS } else { ExitCode::FAILURE }
        }
        ["selfcheck", n, seed] => drawn(n, seed, |n, seed| {
            let stats = selfcheck(n, seed);
            stats.print();
            stats.missing()
        }),
        ["plain", n, seed] => drawn(n, seed, |n, seed| {
            let stats = plaincheck(n, seed, plain::rounds);
            stats.print();
            stats.missing()
        }),
        ["walks", n, seed] => drawn(n, seed, |n, seed| {
            #[cfg(feature = "port")]
            let also = |p: &Picture, left: &Outcome| left_otherwise(p, left, port::sink_all);
            #[cfg(not(feature = "port"))]
            let also = |_: &Picture, _: &Outcome| None;
            let stats = walks(n, seed, also);
            stats.print();
            stats.missing()
        }),
        #[cfg(feature = "port")]
        ["refusals", n, seed] => drawn(n, seed, |n, seed| {
            let stats = refusals::refusals(n, seed);
            stats.print();
            refusals::print_time(seed);
            stats.missing()
        }),
        #[cfg(feature = "port")]
        ["flow", n, seed] => drawn(n, seed, |n, seed| {
            let stats = flow::flow(n, seed);
            stats.print();
            flow::print_times(seed);
            stats.missing()
        }),
        #[cfg(feature = "port")]
        ["facts", n, seed] => drawn(n, seed, |n, seed| {
            let stats = facts::facts(n, seed, port::try_block);
            stats.print();
            stats.missing()
        }),
        #[cfg(feature = "port")]
        ["large", n, seed] => drawn(n, seed, |n, seed| {
            let stats = large::large(n, seed, port::sink_all);
            stats.print();
            stats.missing()
        }),
        #[cfg(feature = "port")]
        ["bench", seed] => drawn("0", seed, |_, seed| {
            bench::bench(seed);
            Vec::new()
        }),
        #[cfg(feature = "port")]
        ["once", side, row] if bench::run_once(side, row) => ExitCode::SUCCESS,
        #[cfg(feature = "port")]
        ["live", seed] => drawn("0", seed, |_, seed| {
            live::print_table(seed);
            Vec::new()
        }),
        #[cfg(feature = "port")]
        ["live", "once", side, row] if live::run_once(side, row) => ExitCode::SUCCESS,
        #[cfg(feature = "host")]
        ["sink", n, seed] => drawn(n, seed, |n, seed| {
            let stats = sink::sink(n, seed, virdzeba::entry);
            stats.print();
            keep(stats.smallest());
            stats.missing()
        }),
        #[cfg(not(feature = "host"))]
        ["sink", ..] => {
            eprintln!("This was built without the host's entry: `make lib`, at the root of the repository, then `cargo build --features host`.");
            ExitCode::from(2)
        }
        #[cfg(not(feature = "port"))]
        ["refusals" | "flow" | "facts" | "large" | "bench" | "once" | "live", ..] => {
            eprintln!("This was built without the port: `tools/build.sh probe_c`, at the root of the repository, then `cargo build --features port`.");
            ExitCode::from(2)
        }
        _ => {
            eprintln!("{USAGE}");
            ExitCode::from(2)
        }
    }
}
