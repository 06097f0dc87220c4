//! Finds the Rust of the pass (`sink.rs`, `inst.rs`) and copies it, unchanged, beside our `calls.rs`, which `sink.rs`
//! declares as its child. The Rust is not part of this repository: `YAVS_SRC` names the folder that holds
//! `crates/yavs-ir/src`, else `shared/docs/src` beside the repository is looked at. With the feature `port` it also
//! says where the archive of the port's layers is.

use std::path::{Path, PathBuf};
use std::{env, fs, process};

fn main() {
    let here = PathBuf::from(env::var_os("CARGO_MANIFEST_DIR").expect("cargo names the folder"));
    let out = PathBuf::from(env::var_os("OUT_DIR").expect("cargo names the folder"));
    println!("cargo::rerun-if-env-changed=YAVS_SRC");
    println!("cargo::rerun-if-changed=build.rs");
    println!("cargo::rerun-if-changed=src/calls.rs");

    let root = match env::var_os("YAVS_SRC") {
        Some(given) => PathBuf::from(given),
        None => here.join("../../../shared/docs/src"),
    };
    let folder = root.join("crates/yavs-ir/src");
    let (sink, inst) = (folder.join("opt/sink.rs"), folder.join("inst.rs"));
    for file in [&sink, &inst] {
        println!("cargo::rerun-if-changed={}", file.display());
        if !file.is_file() {
            eprintln!(
                "The Rust of the pass was looked for at {} and is not there; YAVS_SRC can name the folder that holds crates/yavs-ir/src.",
                file.display()
            );
            process::exit(1);
        }
    }
    copy(&sink, &out.join("sink.rs"));
    copy(&inst, &out.join("inst.rs"));
    copy(&here.join("src/calls.rs"), &out.join("calls.rs"));
    let mods = |name: &str, file: &str| {
        let path = out.join(file);
        format!("#[allow(dead_code, clippy::all)]\n#[path = {path:?}]\npub mod {name};\n")
    };
    write(&out.join("inst_mod.rs"), &mods("inst", "inst.rs"));
    write(&out.join("sink_mod.rs"), &mods("sink", "sink.rs"));
    if env::var_os("CARGO_FEATURE_PORT").is_some() {
        link_port(&here.join("../../target/lib"));
    }
}

/// Crate `probe_c` of the repository as an archive in `folder`; `src/port.rs` names it.
fn link_port(folder: &Path) {
    let archive = folder.join("libprobe.a");
    println!("cargo::rerun-if-changed={}", archive.display());
    if !archive.is_file() {
        eprintln!(
            "The port was looked for at {} and is not there; `tools/build.sh probe_c`, at the root of the repository, writes it.",
            archive.display()
        );
        process::exit(1);
    }
    println!("cargo::rustc-link-search=native={}", folder.display());
}

fn copy(from: &Path, to: &Path) {
    let text = fs::read(from).unwrap_or_else(|e| panic!("{}: {e}", from.display()));
    fs::write(to, text).unwrap_or_else(|e| panic!("{}: {e}", to.display()));
}

fn write(to: &Path, text: &str) {
    fs::write(to, text).unwrap_or_else(|e| panic!("{}: {e}", to.display()));
}
