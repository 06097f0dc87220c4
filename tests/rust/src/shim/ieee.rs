//! Stands for the table of the IEEE natives, which is not among the documents: one name that only reads its arguments
//! and one that writes them, which is all that `light_native` asks about.

#[derive(Clone, Copy, PartialEq, Eq)]
pub enum Op {
    Reads,
    Writes,
}

pub fn parse(name: &str) -> Option<Op> {
    match name {
        "reads" => Some(Op::Reads),
        "writes" => Some(Op::Writes),
        _ => None,
    }
}

pub fn writes_args(op: Op) -> bool {
    op == Op::Writes
}
