//! Instructions as callgrind counts them: they repeat where times do not.

use std::process::Command;

/// The instructions that this program, run with these words, takes within one function; `None` where there is no valgrind.
pub fn counted(within: &str, words: &[&str]) -> Option<f64> {
    let this = std::env::current_exe().expect("this program");
    let run = Command::new("valgrind")
        .args(["--tool=callgrind", "--callgrind-out-file=/dev/null"])
        .arg(format!("--toggle-collect={within}"))
        .arg(this)
        .args(words)
        .output();
    let said = run.map(|done| String::from_utf8_lossy(&done.stderr).into_owned()).unwrap_or_default();
    said.lines().find_map(|line| line.split_once("Collected : ")?.1.trim().parse().ok())
}
