//! The table of roles held against the Rust: the port's own (`row KIND = is (slots) list least most arm quiet`, read from the
//! text of its page), the one in `kinds.rs`, and `visit`, `list`, `writes_nothing` and `analyse` at every kind, every form and
//! every way to leave slots absent.

use crate::convert::decode;
use crate::driver::{Entry, Pass, Position};
use crate::kinds::{self, KINDS, Slot};
use crate::oracle::Lent;
use crate::picture::{ABSENT, Picture, Record};
use crate::{Inst, Role};

/// One line of the port's table.
struct Row {
    name: String,
    slots: Vec<String>,
    list: bool,
    least: u32,
    most: u32,
    arm: String,
    quiet: bool,
}

/// The variants of `Inst` in the order in which the source declares them.
fn variants() -> Vec<String> {
    let text = include_str!(concat!(env!("OUT_DIR"), "/inst.rs"));
    let body = text.split("pub enum Inst {").nth(1).expect("the enum").split("\n}").next().expect("its end");
    let head = |l: &str| l.strip_prefix("    ").filter(|l| l.starts_with(|c: char| c.is_ascii_uppercase())).map(str::to_owned);
    let name = |l: String| l.split(|c: char| !c.is_ascii_alphanumeric()).next().unwrap_or("").to_owned();
    body.lines().filter_map(head).map(name).collect()
}

fn parse(line: &str) -> Option<Row> {
    let (name, rest) = line.trim().strip_prefix("row ")?.split_once('=')?;
    let rest = rest.trim().strip_prefix("is ")?.trim();
    let (slots, rest) = match rest.strip_prefix('(') {
        Some(inner) => inner.split_once(')')?,
        None => ("", rest.strip_prefix("[]")?),
    };
    let slots = slots.split('∷').map(str::trim).filter(|s| !s.is_empty() && *s != "[]").map(str::to_owned).collect();
    let words: Vec<&str> = rest.split_whitespace().collect();
    let [list, least, most, arm, quiet, ..] = words[..] else { return None };
    Some(Row {
        name: match name.trim() {
            "BoolOp" => "Bool".into(),
            other => other.into(),
        },
        slots,
        list: list.parse().ok()?,
        least: least.parse().ok()?,
        most: most.parse().ok()?,
        arm: arm.into(),
        quiet: quiet.parse().ok()?,
    })
}

/// What the port's word for a slot says at a form.
fn slot(word: &str, form: u32) -> Option<Slot> {
    Some(match word {
        "Def" => Slot::Def,
        "Use" => Slot::Use,
        "Def?" => Slot::MaybeDef,
        "Use?" => Slot::MaybeUse,
        "Use-but-1" if form == 1 => Slot::Off,
        "Use-but-1" => Slot::Use,
        "Use-from-2" if form >= 2 => Slot::Use,
        "Use-from-2" => Slot::Off,
        "Def-if-1" if form == 1 => Slot::Def,
        "Def-if-1" => Slot::Use,
        _ => return None,
    })
}

/// Every list of slots that the roles allow; slot `k` holds register `10 + k`.
fn patterns(kind: u32, slots: &[Slot; 5]) -> Vec<[u32; 5]> {
    let mut out = vec![[ABSENT; 5]];
    for (k, s) in slots.iter().enumerate() {
        let with = |p: &[u32; 5]| {
            let mut p = *p;
            p[k] = 10 + k as u32;
            p
        };
        out = match s {
            Slot::Off => out,
            Slot::Def | Slot::Use => out.iter().map(with).collect(),
            Slot::MaybeDef | Slot::MaybeUse => out.iter().flat_map(|p| [*p, with(p)]).collect(),
        };
    }
    if kind == kinds::SIG_GATHER {
        out.retain(|p| (p[2] == ABSENT) == (p[3] == ABSENT));
    }
    out
}

/// Compares; gives the number of cases and what is wrong.
pub fn roles(table: &str) -> (usize, Vec<String>) {
    let mut wrong = Vec::new();
    let rows: Vec<Row> = table.lines().filter_map(parse).collect();
    if rows.len() != KINDS.len() {
        return (0, vec![format!("{} rows were read where {} are wanted", rows.len(), KINDS.len())]);
    }
    let variants = variants();
    if variants.len() != KINDS.len() {
        return (0, vec![format!("Inst has {} variants where {} are wanted", variants.len(), KINDS.len())]);
    }
    let mut cases = 0;
    for (kind, (row, own)) in rows.iter().zip(&KINDS).enumerate() {
        let name = own.name;
        if row.name != name || variants[kind] != name {
            wrong.push(format!("kind {kind} is {} there, {name} here and {} in the Rust", row.name, variants[kind]));
            continue;
        }
        let place = format!("place {} = {kind}", if name == "Bool" { "BoolOp" } else { name });
        if !table.lines().any(|l| l.trim() == place) {
            wrong.push(format!("there is no line {place}"));
        }
        if (row.least, row.most) != own.forms || row.list != own.list {
            wrong.push(format!("{name}: forms or list"));
        }
        for form in row.least..=row.most {
            let mut said = [Slot::Off; 5];
            for (s, word) in said.iter_mut().zip(&row.slots) {
                match slot(word, form) {
                    Some(found) => *s = found,
                    None => wrong.push(format!("{name}: no slot is called {word}")),
                }
            }
            if row.slots.len() > 5 || said != kinds::slots(kind as u32, form) {
                wrong.push(format!("{name} form {form}: slots"));
            }
            for pattern in patterns(kind as u32, &said) {
                for list in 0..=if row.list { 2 } else { 0 } {
                    cases += 1;
                    if let Err(e) = case(row, kind as u32, form, &said, &pattern, list) {
                        wrong.push(format!("{name} form {form} slots {pattern:?} list {list}: {e}"));
                    }
                }
            }
        }
    }
    (cases, wrong)
}

fn case(row: &Row, kind: u32, form: u32, said: &[Slot; 5], pattern: &[u32; 5], list: u32) -> Result<(), String> {
    // every operation that the form stands for
    for choice in 0..12 {
        let r = Record::new(kind, form, pattern, (0, list), &[0, 0, 0, 0, choice, choice, choice]);
        let i = decode(&r);
        let debug = format!("{i:?}");
        if debug.split(|c: char| !c.is_ascii_alphanumeric()).next() != Some(&row.name) {
            return Err(format!("decoded as {debug}"));
        }
        let mut found = Vec::new();
        i.visit(&mut |reg, role, _| found.push((reg.0, role)));
        let wanted: Vec<(u32, Role)> = said
            .iter()
            .zip(pattern)
            .filter(|(s, reg)| **s != Slot::Off && **reg != ABSENT)
            .map(|(s, &reg)| (reg, if matches!(s, Slot::Def | Slot::MaybeDef) { Role::Def } else { Role::Use }))
            .collect();
        if found != wanted {
            return Err(format!("visit gives {found:?}"));
        }
        if i.list().is_some() != row.list || i.list().is_some_and(|l| (l.start, l.len) != (0, list)) {
            return Err(format!("list gives {:?}", i.list()));
        }
        if Pass::writes_nothing(&i) != row.quiet {
            return Err(format!("writes_nothing gives {}", Pass::writes_nothing(&i)));
        }
        arm(row, form, list, &r, &i)?;
    }
    Ok(())
}

const RO: u32 = 1;
const HEAP: u32 = 2;
const FRAME: u32 = 3;
const TEMP: u32 = 4;

/// What `analyse` says of the instruction where every register that it reads is a positive constant, against what the arm
/// of the table says.
fn arm(row: &Row, form: u32, list: u32, r: &Record, i: &Inst) -> Result<(), String> {
    let image = row.arm == "native" && form == 1 && list == 1;
    let movable = match row.arm.as_str() {
        "move" | "select" | "truth" | "index" | "dopeLen" | "alloc" | "signal" | "fills" | "cat" => true,
        "bin" => form > 0,
        "check" => form == 3,
        "load" | "store" => form != 4,
        "layout_of" => form == 0,
        "native" => image,
        "const" | "constF" | "addr_of" | "stops" | "deref" | "writes" | "other" => false,
        other => return Err(format!("no arm is called {other}")),
    };
    let barrier = row.arm == "stops" || (row.arm == "native" && !image && form != 2);
    let named = matches!(row.arm.as_str(), "fills" | "cat" | "writes") || (row.arm == "store" && form != 4);
    let unnamed = !movable && !barrier && !row.quiet && row.arm != "native";
    let creates = row.arm == "alloc" || (row.arm == "layout_of" && form == 0) || image;
    let suspends = match i {
        Inst::Suspend { .. } | Inst::CallIndirect { .. } => true,
        Inst::Call { .. } | Inst::CallProt { .. } => form == 1,
        _ => false,
    };
    let mut reads = 0;
    i.visit(&mut |_, role, _| reads += usize::from(role == Role::Use));
    let memory = match row.arm.as_str() {
        "dopeLen" => 1,
        "load" | "layout_of" => usize::from(movable),
        "cat" => list as usize / 2,
        _ => 0,
    };
    let (at, found, result) = analysed(r, Record::new(kinds::CONST, 0, &[], (0, 0), &[8]));
    let told = (found.movable, found.barrier, found.wrote.is_some(), found.creates, found.suspends, found.reads.len());
    if told != (movable, barrier, named || unnamed, creates, suspends, memory) {
        return Err(format!("analyse gives {found:?}"));
    }
    if found.uses.len() != reads + list as usize {
        return Err(format!("reads gives {:?}", found.uses));
    }
    let made = match row.arm.as_str() {
        "alloc" => TEMP + 2 * at,
        "layout_of" if form == 0 => TEMP + 2 * at,
        "native" if form == 2 => TEMP + 2 * at,
        "native" if image => TEMP + 1 + 2 * at,
        "deref" => HEAP,
        "addr_of" if form == 0 => FRAME,
        "addr_of" if form == 2 || form == 4 => RO,
        _ => 0,
    };
    let len = movable && matches!(row.arm.as_str(), "move" | "select" | "truth" | "bin" | "dopeLen") || row.arm == "const";
    if result.is_some_and(|told| told != (made, len)) {
        return Err(format!("the result's origin and length are {result:?}"));
    }
    // Where they are addresses in the frame, the memory that it writes and reads is there, and nothing is a length.
    let movable = movable && !matches!(row.arm.as_str(), "bin" | "check" | "alloc");
    let wrote = if named {
        Some(FRAME)
    } else {
        (!movable && unnamed).then_some(0)
    };
    let (_, found, result) = analysed(r, Record::new(kinds::ADDR_OF, 0, &[], (0, 0), &[]));
    let made = if matches!(row.arm.as_str(), "move" | "select" | "index") { FRAME } else { made };
    let len = matches!(row.arm.as_str(), "truth" | "dopeLen" | "const");
    if result.is_some_and(|told| told != (made, len)) {
        return Err(format!("the result's origin and length are {result:?} over the frame"));
    }
    if (found.movable, found.wrote, &found.reads) != (movable, wrote, &vec![FRAME; memory]) {
        return Err(format!("analyse gives {found:?} over the frame"));
    }
    Ok(())
}

/// The place and the facts of a record in a block where registers 1, 2 and 10 to 14 are as `given` makes them, as far as the
/// record does not write them; and the origin of its result and whether that is a length, as a Load and an Alloc behind it
/// see them.
fn analysed(r: &Record, given: Record) -> (u32, Position, Option<(u32, bool)>) {
    let written: Vec<u32> = kinds::slots(r.kind(), r.form())
        .iter()
        .zip(r.slots())
        .filter(|(s, _)| matches!(s, Slot::Def | Slot::MaybeDef))
        .map(|(_, &reg)| reg)
        .collect();
    let known = [1, 2, 10, 11, 12, 13, 14].into_iter().filter(|c| !written.contains(c));
    let mut first: Vec<Record> = known
        .map(|reg| {
            let mut g = given;
            g.0[2] = reg;
            g
        })
        .collect();
    first.push(*r);
    let at = first.len() - 1;
    let result = written.iter().copied().find(|&reg| reg != ABSENT);
    let seen = result.unwrap_or(0);
    first.push(Record::new(kinds::LOAD, 3, &[0, seen], (0, 0), &[]));
    first.push(Record::new(kinds::ALLOC, 0, &[0, seen], (0, 0), &[]));
    first.push(Record::new(kinds::COND_BR, 0, &[0], (0, 0), &[1, 2]));
    let mut p = Picture::of_blocks(&[first, Vec::new(), Vec::new()]);
    p.types = vec![0; 15];
    p.regs = 15;
    p.ops = vec![1, 2];
    p.opers = 2;
    let lent = Lent::new(&p).expect("one type");
    let overview = Pass::overview(&lent.program, &lent.function, &[], Entry::Blocks);
    let positions = &overview.looks[0].as_ref().expect("a chain").positions;
    let told = (positions[at + 1].reads[0], positions[at + 2].creates);
    (at as u32, positions[at].clone(), result.map(|_| told))
}
