//! Writes the lines that take the oracle's sources by their path, so that none of them is copied here.
use std::{env, fs, path::Path};

fn module(name: &str, sources: &Path, file: &str) -> String {
    format!("#[allow(dead_code, unused, clippy::all)]\n#[path = {:?}]\npub mod {name};\n", sources.join(file))
}

fn main() {
    println!("cargo::rerun-if-env-changed=ORACLE_BUILT");
    let built = env::var("ORACLE_BUILT").expect("ORACLE_BUILT names the folder that the oracle's setup.sh built; compare/run sets it");
    let sources = Path::new(&built).join("driver/src");
    println!("cargo::rerun-if-changed={}", sources.display());
    let session = module("session", &sources, "session.rs");
    let with = |ssa: &str| module("ssa", &sources, ssa) + &session;
    let text = format!(
        "{}pub mod hooked {{\n{}}}\npub mod plain {{\n{}}}\n",
        module("variable", &sources, "variable.rs"),
        with("ssa_hooked.rs"),
        with("ssa_plain.rs")
    );
    let out = env::var("OUT_DIR").expect("cargo sets OUT_DIR");
    fs::write(Path::new(&out).join("given.rs"), text).expect("OUT_DIR can be written");
}
