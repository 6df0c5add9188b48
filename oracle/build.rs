//! Makes the module tree of the original in cargo's output folder, which `src/original.rs` includes,
//! and links the project's static libraries.
//!
//! Each file of the tree is a file of the original, unchanged, or a file of `glue/`, or the one with
//! the other after it. Glue stands in for what the original's files lean on and is not to be had
//! here, and reaches what they keep private. It is no part of the original. The crates of a registry
//! that the files name are glue too, as crates of their own in `glue/crates/`.
//!
//! `oracle/compare`, `oracle/figures` and `bench/cut` set the variables that are read here:
//! - `ORACLE_SOURCE`, the folder of the original's source files, the one with its `linalg.rs`;
//! - `ORACLE_CRATES`, the folder of the crates, where a static library is linked: it is in the `out/`
//!   folder of its crate.

use std::path::{Path, PathBuf};
use std::{env, fs, process};

/// What a file of the tree is made of.
#[derive(Clone, Copy, PartialEq)]
enum Made {
    Original,
    Glue,
    OriginalThenGlue,
}
use Made::{Glue, Original, OriginalThenGlue};

/// The tree. A path is the same in the original, in `glue/` and in the tree, whose root is `lib.rs`.
/// To build more of the original, name its files here, and give `glue/` what they lean on.
const TREE: &[(&str, Made)] = &[
    ("lib.rs", Glue),
    ("cancel.rs", Original),
    ("linalg.rs", Original),
    ("math.rs", Original),
    ("robust/mod.rs", Glue),
    ("robust/cdt.rs", Original),
    ("robust/cdt_constraints.rs", Original),
    ("robust/exact/mod.rs", Original),
    ("robust/exact/approx.rs", Original),
    ("robust/exact/backend.rs", Original),
    ("robust/exact/filtered.rs", OriginalThenGlue),
    ("robust/exact/intpred.rs", OriginalThenGlue),
    ("robust/exact/predicates.rs", Original),
    ("robust/exact/rational.rs", Original),
];

fn main() {
    println!("cargo:rerun-if-changed=build.rs");
    println!("cargo:rerun-if-env-changed=ORACLE_SOURCE");
    println!("cargo:rerun-if-env-changed=ORACLE_CRATES");
    make_tree();
    if env::var_os("CARGO_FEATURE_LINKED").is_some() {
        link("signs_c");
    }
    if env::var_os("CARGO_FEATURE_OURS").is_some() {
        link("exports");
        link("checker_c");
    }
}

/// Writes the tree anew.
fn make_tree() {
    let source = folder("ORACLE_SOURCE");
    let glue = folder("CARGO_MANIFEST_DIR").join("glue");
    let tree = folder("OUT_DIR").join("original");
    if tree.exists() {
        fs::remove_dir_all(&tree).expect("the old tree cannot be removed");
    }
    for (path, made) in TREE {
        let mut text = Vec::new();
        if *made != Glue {
            text.extend(read(&source.join(path)));
        }
        if *made != Original {
            text.extend(read(&glue.join(path)));
        }
        let file = tree.join(path);
        fs::create_dir_all(file.parent().unwrap()).expect("the tree cannot be made");
        fs::write(&file, text).expect("the tree cannot be written");
    }
}

/// Links the static library of this crate of the project.
fn link(name: &str) {
    let folder = folder("ORACLE_CRATES").join(name).join("out");
    let library = folder.join(format!("lib{name}.a"));
    println!("cargo:rerun-if-changed={}", library.display());
    println!("cargo:rustc-link-search=native={}", folder.display());
    println!("cargo:rustc-link-lib=static={name}");
}

/// The folder that the variable names.
fn folder(variable: &str) -> PathBuf {
    match env::var_os(variable) {
        Some(path) => PathBuf::from(path),
        None => stop(&format!(
            "{variable} is not set: build by oracle/compare, oracle/figures or bench/cut"
        )),
    }
}

/// What a file holds. Once it changes, the tree is made anew.
fn read(file: &Path) -> Vec<u8> {
    println!("cargo:rerun-if-changed={}", file.display());
    match fs::read(file) {
        Ok(text) => text,
        Err(error) => stop(&format!("{} cannot be read: {error}", file.display())),
    }
}

/// Stops the build.
fn stop(sentence: &str) -> ! {
    eprintln!("{sentence}");
    process::exit(1)
}
