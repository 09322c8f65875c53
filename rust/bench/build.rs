//! Links two more archives beside the present one, where there are any; `tools/measure` makes
//! them. The folder EZUMOKARIN_BEFORE has one built before as `libbefore.a`, whose calls are named
//! `before_ezk_view` and so on. The folder EZUMOKARIN_BEGINNING has the comparison of two lists as
//! `libbeginning.a`.

use std::env;
use std::path::Path;

fn main() {
    link("EZUMOKARIN_BEFORE", "before");
    link("EZUMOKARIN_BEGINNING", "beginning");
}

/// With a `cfg` of the archive's name.
fn link(variable: &str, name: &str) {
    println!("cargo:rustc-check-cfg=cfg({name})");
    println!("cargo:rerun-if-env-changed={variable}");
    let Some(folder) = env::var_os(variable) else {
        return;
    };
    let folder = Path::new(&folder);
    println!("cargo:rerun-if-changed={}", folder.join(format!("lib{name}.a")).display());
    println!("cargo:rustc-link-search=native={}", folder.display());
    println!("cargo:rustc-link-lib=static={name}");
    println!("cargo:rustc-cfg={name}");
}
