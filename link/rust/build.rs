//! Links libdewbracket.a: from the folder that DEWBRACKET_LIB names, else from where `link/archive` writes it.

use std::{env, path::PathBuf};

fn main() {
    let beside = || PathBuf::from(env!("CARGO_MANIFEST_DIR")).join("../../target/staticlib");
    let folder = env::var_os("DEWBRACKET_LIB").map_or_else(beside, PathBuf::from);
    println!("cargo:rerun-if-env-changed=DEWBRACKET_LIB");
    println!("cargo:rerun-if-changed={}", folder.join("libdewbracket.a").display());
    println!("cargo:rustc-link-search=native={}", folder.display());
    println!("cargo:rustc-link-lib=static=dewbracket");
}
