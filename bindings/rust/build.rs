//! Finds the static library that `rt lib` writes in crates/exports, and links it.
use std::path::PathBuf;
use std::{env, process};

const FOLDER: &str = "SANGVIREB_LIB";
const BUILT: &str = "../../crates/exports/out";
const NAME: &str = "exports";

fn main() {
    println!("cargo:rerun-if-env-changed={FOLDER}");
    let package = PathBuf::from(env::var_os("CARGO_MANIFEST_DIR").expect("cargo sets it for every build script"));
    let folder = package.join(env::var_os(FOLDER).unwrap_or(BUILT.into()));
    let library = folder.join(format!("lib{NAME}.a"));
    println!("cargo:rerun-if-changed={}", library.display());
    if !library.is_file() {
        eprintln!("{} is not there.", library.display());
        eprintln!("`rt lib`, run in crates/exports, makes it in crates/exports/out.");
        eprintln!("If you keep it elsewhere, let {FOLDER} name its folder.");
        process::exit(1);
    }
    println!("cargo:rustc-link-search=native={}", folder.display());
    println!("cargo:rustc-link-lib=static={NAME}");
    println!("cargo:rustc-env=SANGVIREB_NAME={NAME}");
}
