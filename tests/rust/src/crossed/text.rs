//! A row as antt: the picture lent, what it gives, and the picture left.

use std::collections::BTreeSet;
use std::fmt::Write;

use super::Row;
use crate::kinds::{BR, COND_BR, CONST, KINDS};
use crate::oracle::Answer;
use crate::picture::{ABSENT, Picture, RECORD, Record, Work};

/// Columns that code is broken at.
const COLUMNS: usize = 118;
/// Words that are alike, or that count up, from which on they are written as a run.
const RUN: usize = 5;

/// An expression in lines that are not too long, broken before `∷` and before an argument in brackets.
pub fn broken(expression: &str) -> String {
    let mut out = String::new();
    let mut line = String::from("   ");
    let pieces = expression.replace(" ∷ (", "\n∷\r(").replace(" ∷ ", "\n∷ ").replace(" (", "\n(").replace('\r', " ");
    for piece in pieces.split('\n') {
        if line.chars().count() + piece.chars().count() + 1 > COLUMNS && line != "   " {
            out += &line;
            out += "\n";
            line = String::from("   ");
        }
        line += " ";
        line += piece;
    }
    out + &line + "\n"
}

fn word(w: u32) -> String {
    if w == ABSENT { "absent".into() } else { w.to_string() }
}

/// How many words at the head are alike, and how many count up.
fn runs(words: &[u32]) -> (usize, usize) {
    let alike = words.iter().take_while(|&&w| w == words[0]).count();
    let up = words.iter().zip(words[0]..).take_while(|(w, k)| **w == *k).count();
    (alike, up)
}

/// A list, in brackets if it has to be.
fn argument(words: &[u32]) -> String {
    if words.is_empty() {
        return "[]".into();
    }
    let mut t = String::new();
    let mut rest = words;
    while !rest.is_empty() {
        let (alike, up) = runs(rest);
        let many = alike.max(up);
        if many < RUN {
            let _ = write!(t, "{} ∷ ", word(rest[0]));
            rest = &rest[1..];
            t += if rest.is_empty() { "[]" } else { "" };
            continue;
        }
        let _ = match (up == many, rest[0]) {
            (true, 0) => write!(t, "upto {many}"),
            (true, from) => write!(t, "range {from} {many}"),
            (false, w) => write!(t, "replicate {many} {}", word(w)),
        };
        rest = &rest[many..];
        t += if rest.is_empty() { "" } else { " ++ " };
    }
    format!("({t})")
}

/// Without what the builder adds at the end.
fn cut(words: &[u32], filler: u32) -> &[u32] {
    let n = words.iter().rposition(|&w| w != filler).map_or(0, |k| k + 1);
    &words[..n]
}

/// An instruction; the commonest have a shorter way to be written.
fn op(r: &Record, used: &mut BTreeSet<&'static str>) -> String {
    let Some(kind) = KINDS.get(r.kind() as usize) else {
        // a kind that is none has no name
        return argument(&r.0);
    };
    let name = if kind.name == "Bool" { "BoolOp" } else { kind.name };
    let (start, len) = r.list();
    let list = cut(&[start, len], 0).to_vec();
    let (slots, payload) = (cut(r.slots(), ABSENT), cut(r.payload(), 0));
    let plain = r.form() == 0 && list.is_empty() && !slots.contains(&ABSENT);
    match (r.kind(), slots, payload) {
        (BR, [], [t]) if plain => return format!("br {t}"),
        (COND_BR, [c], &[t, f]) if plain => return format!("fork {c} {t} {f}"),
        (CONST, [d], [v]) if plain => return format!("const {d} {v}"),
        _ => {}
    }
    used.insert(name);
    if plain && payload.is_empty() {
        let registers: String = slots.iter().map(|s| format!(" {s}")).collect();
        return format!("op{} {name}{registers}", slots.len());
    }
    format!("op {name} {} {} {} {}", r.form(), argument(slots), argument(&list), argument(payload))
}

fn list(items: &[String]) -> String {
    if items.is_empty() { "[]".into() } else { format!("({} ∷ [])", items.join(" ∷ ")) }
}

/// The picture, in brackets.
fn picture_text(p: &Picture, used: &mut BTreeSet<&'static str>) -> String {
    let whole: Vec<Record> = p.records().collect();
    let extra = &p.recs[RECORD * whole.len()..];
    // bounds that lie end to end are made by the builder
    let mut ends = Vec::new();
    let mut at = 0;
    for b in p.bounds.chunks(2) {
        if b.len() == 2 && b[0] == at && b[1] >= at && b[1] as usize <= whole.len() {
            ends.push(b[1]);
            at = b[1];
        }
    }
    let even = ends.len() * 2 == p.bounds.len() && at as usize == whole.len();
    let mut t = String::from("(");
    let mut close = String::from(")");
    if !even {
        let _ = write!(t, "bounded {} (", argument(&p.bounds));
        close += ")";
        ends = vec![whole.len() as u32];
    }
    if !extra.is_empty() {
        let _ = write!(t, "longer {} (", argument(extra));
        close += ")";
    }
    let mut blocks = Vec::new();
    let mut from = 0;
    for end in ends {
        let code: Vec<String> = whole[from..end as usize].iter().map(|r| op(r, used)).collect();
        from = end as usize;
        blocks.push(list(&code));
    }
    let _ = write!(t, "pic {} (at {} {})", list(&blocks), argument(&p.locs), argument(&p.vias));
    let _ = write!(t, " (registers {} {}) (operands {} {})", p.regs, argument(&p.types), p.opers, argument(&p.ops));
    let _ = write!(t, " (beside {} {} {}){close}", argument(&p.pairs), argument(&p.targets), argument(&p.replay));
    t
}

pub fn row_text(row: &Row, used: &mut BTreeSet<&'static str>) -> String {
    let out = &row.gives;
    let Work { w64, w32, records } = row.work;
    let (regs, opers) = (out.picture.regs, out.picture.opers);
    let answer = match out.answer {
        Answer::Done(k) => format!("done {k} {regs} {opers}"),
        Answer::Short(k) => format!("short {k} {regs} {opers}"),
        Answer::Refused(k) => format!("refused {k}"),
    };
    let lent = picture_text(&row.what, used);
    let n = &row.name;
    let mut t = comment(&row.notes) + &format!("abbrev pub {n} : Row\n{n} =\n");
    if out.lines.is_empty() {
        t += &broken(&format!("stays {lent} {w64} {w32} {records} ({answer})"));
    } else {
        let lines: Vec<String> = out.lines.iter().map(|l| argument(l)).collect();
        t += &broken(&format!("moves {lent} {w64} {w32} {records} ({answer}) {}", list(&lines)));
        t += &broken(&picture_text(&out.picture, used));
    }
    t
}

/// Words behind dashes, in lines that are not too long.
fn comment(words: &str) -> String {
    let mut out = String::new();
    let mut line = String::from("--");
    for word in words.split(' ') {
        if line.len() + word.len() + 1 > COLUMNS {
            out += &line;
            out += "\n";
            line = String::from("--");
        }
        line += " ";
        line += word;
    }
    out + &line + "\n"
}
