//! Compiles header.c against the project's C header, or against the one in the folder
//! EZUMOKARIN_INCLUDE (an absolute path), so that a changed header can be tried.
//! EZUMOKARIN_SPOIL_VIEW and its like (those of `SPOILT`) hold C that header.c runs on every answer of
//! their calls, so that the comparison can be tried.

use std::env;
use std::path::PathBuf;
use std::process::{exit, Command};

const SPOILT: [&str; 6] = ["VIEW", "FILE", "NEXT", "FILE_NEXT", "JUDGED", "PART"];

fn main() {
    let here = PathBuf::from(env::var_os("CARGO_MANIFEST_DIR").expect("cargo sets this"));
    let made = PathBuf::from(env::var_os("OUT_DIR").expect("cargo sets this"));
    let include = match env::var_os("EZUMOKARIN_INCLUDE") {
        Some(folder) => PathBuf::from(folder),
        None => here.join("../../include"),
    };
    let (source, object) = (here.join("header.c"), made.join("header.o"));
    let archive = made.join("libheader.a");
    println!("cargo:rerun-if-env-changed=EZUMOKARIN_INCLUDE");
    println!("cargo:rerun-if-changed={}", source.display());
    println!("cargo:rerun-if-changed={}", include.join("ezumokarin.h").display());
    run(Command::new("gcc")
        .args(["-std=c11", "-O2", "-Wall", "-Wextra", "-Wconversion", "-Werror", "-c", "-I"])
        .arg(&include)
        .args(SPOILT.map(spoiling))
        .arg(&source)
        .arg("-o")
        .arg(&object));
    run(Command::new("ar").arg("rcs").arg(&archive).arg(&object));
    println!("cargo:rustc-link-search=native={}", made.display());
    println!("cargo:rustc-link-lib=static=header");
}

fn spoiling(answer: &str) -> String {
    let name = format!("EZUMOKARIN_SPOIL_{answer}");
    println!("cargo:rerun-if-env-changed={name}");
    format!("-DSPOIL_{answer}={}", env::var(name).unwrap_or_default())
}

fn run(command: &mut Command) {
    let done = command.status();
    if !matches!(&done, Ok(status) if status.success()) {
        eprintln!("{command:?}: {done:?}");
        exit(1);
    }
}
