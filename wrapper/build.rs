//! Links libbirnsket.a from the folder that BIRNSKET_LIB names, and stops with a word where it isn't there.

use std::env;
use std::path::{Path, PathBuf};
use std::process::ExitCode;

fn main() -> ExitCode {
    let here = env::var("CARGO_MANIFEST_DIR").unwrap_or_default();
    let named =
        env::var_os("BIRNSKET_LIB").map_or_else(|| PathBuf::from("../target/staticlib"), PathBuf::from);
    let folder = Path::new(&here).join(named);
    let archive = folder.join("libbirnsket.a");
    println!("cargo:rerun-if-env-changed=BIRNSKET_LIB");
    println!("cargo:rerun-if-changed={}", archive.display());
    if !archive.is_file() {
        eprintln!("{} isn't there.", archive.display());
        eprintln!("`./build birnsket` in the repository's root writes target/staticlib/libbirnsket.a;");
        eprintln!("where it is in another folder, let BIRNSKET_LIB name that folder.");
        return ExitCode::FAILURE;
    }
    println!("cargo:rustc-link-search=native={}", folder.display());
    println!("cargo:rustc-link-lib=static=birnsket");
    ExitCode::SUCCESS
}
