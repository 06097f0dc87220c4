//! The program `sinkrounds` held against the Rust: what it prints for each stored picture, refused and unread ones too.

use std::io::{self, Write};
use std::path::Path;
use std::process::{Command, Stdio};

use crate::bytes::{self, OPERANDS, REGISTERS};
use crate::oracle::oracle_with_work;
use crate::vectors::vectors;

/// What `sinkrounds` must print for these bytes. `None` where the picture has more types than the Rust knows.
pub fn text_of(input: &[u8]) -> Option<String> {
    match bytes::from_bytes(input, REGISTERS, OPERANDS) {
        None => Some(bytes::text(None)),
        Some(p) => oracle_with_work(&p).map(|o| bytes::text(Some(&o))),
    }
}

fn printed(path: &Path, input: &[u8]) -> io::Result<Vec<u8>> {
    let mut child = Command::new(path).stdin(Stdio::piped()).stdout(Stdio::piped()).spawn()?;
    let mut pipe = child.stdin.take().expect("a pipe");
    // A program that does not read to the end is judged by what it prints.
    if let Err(e) = pipe.write_all(input) {
        if e.kind() != io::ErrorKind::BrokenPipe {
            return Err(e);
        }
    }
    drop(pipe);
    Ok(child.wait_with_output()?.stdout)
}

/// Runs the program on every stored picture; what it prints otherwise than it must.
pub fn program(path: &Path) -> io::Result<Vec<String>> {
    let mut wrong = Vec::new();
    let all = vectors().0;
    for v in &all {
        let wanted = text_of(&v.bytes).expect("stored pictures have few types");
        let found = printed(path, &v.bytes)?;
        if found != wanted.as_bytes() {
            wrong.push(format!("{}: it prints {:?}, not {wanted:?}", v.name, String::from_utf8_lossy(&found)));
        }
    }
    println!("program: {} stored pictures, {} printed otherwise", all.len(), wrong.len());
    Ok(wrong)
}
