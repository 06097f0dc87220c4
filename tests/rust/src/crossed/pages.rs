//! The files of crate `crossed`: pages of rows, the list of them, and their theorems.

use std::collections::BTreeSet;
use std::fmt::Write;

use super::pick::{at_bounds, picked, refused};
use super::text::{broken, row_text};
use super::{Row, SEEDS};

/// Lines of a file at most.
const LINES: usize = 390;

/// A row as text, with the kinds that it names.
struct Text {
    name: String,
    text: String,
    kinds: BTreeSet<&'static str>,
}

impl Text {
    fn new(row: &Row) -> Text {
        let mut kinds = BTreeSet::new();
        Text { name: row.name.clone(), text: row_text(row, &mut kinds), kinds }
    }
}

/// The files of the crate that hold the rows, with the list and the proofs of them all: path and text.
pub fn files(many: usize) -> Vec<(String, String)> {
    let seeds = format!("of the first {SEEDS} seeds of the generator, those that show\n-- something new");
    let sorts = [
        (format!("Pictures by seed and what the Rust makes of them (see proofs/Crossed), page N: {seeds}"), picked(many)),
        ("Refused pictures, page N: one for each way to damage a generated one, with tests/rust's judgement".into(), refused()),
        ("Pictures at the bounds of document 01, page N: what the Rust makes of them, and tests/rust's judgement of refused ones".into(), at_bounds()),
    ];
    let mut out: Vec<(String, String)> = Vec::new();
    for (what, rows) in sorts {
        let texts: Vec<Text> = rows.iter().map(Text::new).collect();
        let mut rest = &texts[..];
        while !rest.is_empty() {
            let mut lines = 24;
            let many = rest.iter().take_while(|t| { lines += t.text.lines().count() + 1; lines < LINES }).count().max(1);
            let (here, later) = rest.split_at(many);
            rest = later;
            let number = out.len() + 1;
            out.push((format!("specs/Rows{number}.antt"), page(&what.replace('N', &number.to_string()), number, here)));
        }
    }
    let pages = 1..=out.len();
    let modules: String = pages.clone().map(|k| format!("pub mod Rows{k}\n")).collect();
    out.push(("specs/Lib.antt".into(), format!("pub mod Row\n{modules}")));
    out.push(("proofs/Crossed.antt".into(), proofs(pages)));
    out
}

/// The proofs: a theorem for each page, since one declaration may only compute so much.
fn proofs(pages: std::ops::RangeInclusive<usize>) -> String {
    let mut t = String::from(
        "-- What the definitions give for pictures that the Rust has run, or tests/rust's plain check where a block leads to block 0\n\
         -- (request 2026-02): the same answers, lines and whole pictures, by computation, page by page. Printed with the pages by\n\
         -- `compare crossed` in tests/rust. Assumes nothing.\n\
         use mathlib.Core.Path.{◌≡◌, refl}\n\
         use mathlib.Core.List.{map}\n\
         use Rattle.model.specs.Pass.{Outcome, sink}\n\
         use Rattle.crossed.specs.Row.{Row}\n",
    );
    for k in pages.clone() {
        let _ = writeln!(t, "use Rattle.crossed.specs.Rows{k}.{{rows{k}}}");
    }
    t += "\nabbrev answered : Row → Outcome\nanswered w = sink w.what w.w64 w.w32 w.nf\n";
    for k in pages {
        let _ = writeln!(t, "\npub page{k} : map answered rows{k} ≡ map (λ w. w.gives) rows{k}\npage{k} = refl");
    }
    t
}

fn page(what: &str, number: usize, rows: &[Text]) -> String {
    let kinds: BTreeSet<&str> = rows.iter().flat_map(|r| r.kinds.iter().copied()).collect();
    let code = rows.iter().flat_map(|r| r.text.lines()).filter(|line| !line.starts_with("--"));
    let words: BTreeSet<&str> = code.flat_map(|line| line.split([' ', '(', ')'])).collect();
    // those of the names that the page uses, behind commas
    let used = |names: &[&str]| names.iter().filter(|n| words.contains(**n)).map(|n| format!(", {n}")).collect::<String>();
    let mut t = format!("-- {what}. Printed by\n-- `compare crossed` in tests/rust, and again by its compare.sh: not to be edited. Assumes nothing.\n");
    let append = if words.contains("++") { ", ◌++◌" } else { "" };
    let _ = writeln!(t, "use Rattle.std.specs.Prelude.{{List, [], ◌∷◌{append}{}}}", used(&["replicate"]));
    let runs = used(&["range", "upto"]);
    if !runs.is_empty() {
        let _ = writeln!(t, "use Rattle.words.specs.Lists.{{{}}}", &runs[2..]);
    }
    let kinds: Vec<&str> = kinds.into_iter().collect();
    for some in kinds.chunks(10) {
        let _ = writeln!(t, "use Rattle.model.specs.Kinds.{{{}}}", some.join(", "));
    }
    if words.contains("absent") {
        t += "use Rattle.model.specs.Picture.{absent}\n";
    }
    if words.contains("op") {
        t += "use Rattle.model.specs.Build.{op}\n";
    }
    let short = used(&["op0", "op1", "op2", "op3", "op4", "op5", "br", "fork", "const", "bounded", "longer", "moves", "stays", "done", "short", "refused"]);
    let _ = writeln!(t, "use Rattle.crossed.specs.Row.{{Row, pic, at, registers, operands, beside{short}}}");
    for r in rows {
        t += "\n";
        t += &r.text;
    }
    let names: Vec<&str> = rows.iter().map(|r| r.name.as_str()).collect();
    let _ = write!(t, "\nabbrev pub rows{number} : List Row\nrows{number} =\n{}", broken(&format!("{} ∷ []", names.join(" ∷ "))));
    t
}
