//! Finds the Rust, holds it to its checksums, and writes a file that compiles it where it stands.

mod sha256;

use std::error::Error;
use std::fs;
use std::path::{Path, PathBuf};

const VARIABLE: &str = "DEWBRACKET_RUST_SRC";

fn main() {
    println!("cargo::rerun-if-env-changed={VARIABLE}");
    println!("cargo::rerun-if-changed=build");
    if let Err(error) = prepare() {
        println!("cargo::error={error}");
    }
}

fn prepare() -> Result<(), Box<dyn Error>> {
    let package = PathBuf::from(std::env::var("CARGO_MANIFEST_DIR")?);
    let source = find_source(&package)?;
    check_sums(&package.join("../SHA256SUMS"), &source)?;
    println!("cargo::rustc-env=RUST_SOURCE={}", source.display());
    let target = PathBuf::from(std::env::var("OUT_DIR")?).join("rust.rs");
    fs::write(target, modules(&source)?)?;
    Ok(())
}

fn find_source(package: &Path) -> Result<PathBuf, String> {
    let named = std::env::var_os(VARIABLE).map(PathBuf::from);
    let folder = named.unwrap_or_else(|| package.join("../../../shared/docs/src"));
    folder.canonicalize().map_err(|error| {
        let folder = folder.display();
        format!(
            "the Rust isn't at {folder} ({error}): set {VARIABLE} to the absolute path of the folder with mmio/ in it"
        )
    })
}

/// Holds each listed file to its sum: an edited subject would be no judge.
fn check_sums(list: &Path, source: &Path) -> Result<(), Box<dyn Error>> {
    println!("cargo::rerun-if-changed={}", list.display());
    for line in fs::read_to_string(list)?.lines() {
        let (sum, name) = line.split_once("  ").ok_or("SHA256SUMS: each line is a sum, two spaces, a name")?;
        let file = source.join(name);
        println!("cargo::rerun-if-changed={}", file.display());
        let bytes = fs::read(&file).map_err(|error| {
            format!("{} can't be read ({error}): set {VARIABLE} to the folder of the whole source", file.display())
        })?;
        if sha256::hex(&bytes) != sum {
            let file = file.display();
            return Err(format!("{file} is not the file that SHA256SUMS names: restore it, or set {VARIABLE}").into());
        }
    }
    Ok(())
}

/// The module and the notifiers whole; of lib.rs, which needs files that aren't at hand, the constants alone.
fn modules(source: &Path) -> Result<String, Box<dyn Error>> {
    let library = fs::read_to_string(source.join("lib.rs"))?;
    let constants = library.lines().filter(|line| line.starts_with("pub const "));
    let mut text: String = constants.flat_map(|line| [line, "\n"]).collect();
    for (path, name) in [("mmio/mod.rs", "mmio"), ("notifier.rs", "notifier")] {
        text += &format!("#[allow(warnings)]\n#[path = {:?}]\npub mod {name};\n", source.join(path));
    }
    Ok(text)
}
