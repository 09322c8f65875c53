//! Finds libezumokarin.a: in the folder EZUMOKARIN_DIST, else in dist/ at the top of the project.

use std::env;
use std::path::{Path, PathBuf};
use std::process::exit;

fn main() {
    let folder = dist();
    let archive = folder.join("libezumokarin.a");
    println!("cargo:rerun-if-env-changed=EZUMOKARIN_DIST");
    println!("cargo:rerun-if-changed={}", archive.display());
    if !archive.is_file() {
        missing(&archive);
    }
    println!("cargo:rustc-link-search=native={}", folder.display());
    println!("cargo:rustc-link-lib=static=ezumokarin");
}

fn dist() -> PathBuf {
    if let Some(folder) = env::var_os("EZUMOKARIN_DIST") {
        return PathBuf::from(folder);
    }
    let here = PathBuf::from(env::var_os("CARGO_MANIFEST_DIR").expect("cargo sets this"));
    let top = here.ancestors().nth(2).expect("the crate stands two folders down");
    top.join("dist")
}

fn missing(archive: &Path) -> ! {
    eprintln!("The library is missing: {}", archive.display());
    eprintln!("Build it into dist/ at the top of the project, or set EZUMOKARIN_DIST");
    eprintln!("to the absolute path of the folder that holds libezumokarin.a.");
    exit(1);
}
