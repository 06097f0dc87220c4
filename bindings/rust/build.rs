//! Finds the library: in the folder that VIRDZEBA_LIB_DIR names, else in target/lib or crates/host_c/out of the repository that
//! this crate stands in. It is libvirdzeba.a, which `make lib` makes, or libhost_c.a, which `rt lib` writes in crates/host_c.

use std::env;
use std::path::{Path, PathBuf, absolute};
use std::process::exit;

fn main() {
    println!("cargo::rerun-if-env-changed=VIRDZEBA_LIB_DIR");
    println!("cargo::rerun-if-changed=build.rs");
    let target = ["ARCH", "OS"].map(|part| env::var(format!("CARGO_CFG_TARGET_{part}")).unwrap_or_default());
    if target != ["x86_64", "linux"] {
        fail(&format!("the library is for x86-64 Linux alone, and this build is for {} {}", target[0], target[1]));
    }
    let folders = match env::var_os("VIRDZEBA_LIB_DIR") {
        Some(given) => vec![absolute(&given).unwrap_or_else(|_| given.into())],
        None => beside(Path::new(&env::var_os("CARGO_MANIFEST_DIR").expect("cargo names the folder"))),
    };
    let Some((folder, name)) = found(&folders) else {
        let looked: Vec<_> = folders.iter().map(|f| f.display().to_string()).collect();
        fail(&format!(
            "neither libvirdzeba.a nor libhost_c.a is in {}. Run `make lib` at the root of the repository, or let VIRDZEBA_LIB_DIR name the folder that has one of them",
            looked.join(" or ")
        ));
    };
    println!("cargo::rerun-if-changed={}", folder.join(format!("lib{name}.a")).display());
    println!("cargo::rustc-link-search=native={}", folder.display());
    println!("cargo::rustc-link-lib=static={name}");
}

/// The folders where the repository makes the library, this crate being in its bindings/rust.
fn beside(here: &Path) -> Vec<PathBuf> {
    let root = here.ancestors().nth(2).unwrap_or(here);
    ["target/lib", "crates/host_c/out"].map(|folder| root.join(folder)).to_vec()
}

/// The first library that is there.
fn found(folders: &[PathBuf]) -> Option<(&Path, &'static str)> {
    let named = folders.iter().flat_map(|folder| ["virdzeba", "host_c"].map(|name| (folder.as_path(), name)));
    named.into_iter().find(|(folder, name)| folder.join(format!("lib{name}.a")).is_file())
}

fn fail(what: &str) -> ! {
    println!("cargo::error={what}.");
    exit(1)
}
