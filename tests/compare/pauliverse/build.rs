//! Finds the published sources and has them compiled where they lie, unchanged.
//!
//! The folder is `KUNDATREZO_RUST_SRC`; without it, `shared/docs/src` beside the repository. Where the sources aren't there, the build says so and
//! fails, and the comparison is skipped (`tests/compare/all` does that).

use std::path::{Path, PathBuf};
use std::{env, fs};

const FOLDER: &str = "KUNDATREZO_RUST_SRC";

fn main() {
    println!("cargo::rerun-if-env-changed={FOLDER}");
    let sources = source_folder().join("pauliverse").join("src");
    let modules: String = ["circuit", "frame_propagator", "noise"].iter().map(|name| module(&sources, name)).collect();
    let out = PathBuf::from(env::var_os("OUT_DIR").expect("cargo sets it"));
    fs::write(out.join("modules.rs"), modules).expect("cargo's own folder");
    fs::write(out.join("simulation.rs"), simulation_trait(&sources)).expect("cargo's own folder");
}

fn source_folder() -> PathBuf {
    let beside_repository = || Path::new(env!("CARGO_MANIFEST_DIR")).join("../../../../shared/docs/src");
    env::var_os(FOLDER).map_or_else(beside_repository, PathBuf::from)
}

fn published(sources: &Path, file: &str) -> PathBuf {
    let path = sources.join(file);
    println!("cargo::rerun-if-changed={}", path.display());
    match path.canonicalize() {
        Ok(path) => path,
        Err(_) => {
            let missing = path.display();
            println!(
                "cargo::error=the published sources aren't there ({missing}): set {FOLDER} to their folder, or skip this workspace"
            );
            std::process::exit(1);
        }
    }
}

/// A module whose file is the published one. What it leaves unused here is not this workspace's business.
fn module(sources: &Path, name: &str) -> String {
    let path = published(sources, &format!("{name}.rs"));
    format!("#[allow(clippy::all, dead_code, missing_docs)]\n#[path = {path:?}]\npub mod {name};\n")
}

/// The trait `Simulation` and its type names: the end of lib.rs, whose front names files that weren't published.
fn simulation_trait(sources: &Path) -> String {
    let path = published(sources, "lib.rs");
    let text = fs::read_to_string(&path).expect("the path was found");
    let start = text.find("type Pauli = ").expect("lib.rs has the type names before its trait");
    text[start..].to_owned()
}
