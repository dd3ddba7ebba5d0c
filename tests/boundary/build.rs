//! Links target/staticlib/libkrevilosh.a of the repository. Where it is not built, `archive` is not set and only the
//! reference is there.
//!
//! With the feature `pair`, target/pair/libold.a and libnew.a are linked too. The functions of each begin with its name, and
//! src/archive.rs, which declares them, is copied for each with such names.

use std::path::{Path, PathBuf};
use std::{env, fs};

fn main() {
    println!("cargo::rustc-check-cfg=cfg(archive)");
    println!("cargo::rerun-if-changed=src/archive.rs");
    if link("staticlib", "krevilosh") {
        println!("cargo::rustc-cfg=archive");
    }
    if env::var_os("CARGO_FEATURE_PAIR").is_some() {
        for name in ["old", "new"] {
            assert!(link("pair", name), "lib{name}.a is not there");
            declare(name);
        }
    }
}

/// Links an archive in a folder of target/, if it is there.
fn link(folder: &str, name: &str) -> bool {
    let folder = Path::new(env!("CARGO_MANIFEST_DIR")).join("../../target").join(folder);
    let archive = folder.join(format!("lib{name}.a"));
    println!("cargo::rerun-if-changed={}", archive.display());
    if archive.exists() {
        println!("cargo::rustc-link-search=native={}", folder.display());
        println!("cargo::rustc-link-lib=static={name}");
    }
    archive.exists()
}

/// Writes src/archive.rs for functions that begin with a name.
fn declare(name: &str) {
    let source = fs::read_to_string("src/archive.rs").expect("src/archive.rs is read");
    let folder = PathBuf::from(env::var_os("OUT_DIR").expect("cargo sets OUT_DIR"));
    let copy = source.replace("krevilosh_", &format!("{name}_krevilosh_"));
    fs::write(folder.join(format!("{name}.rs")), copy).expect("the copy is written");
}
