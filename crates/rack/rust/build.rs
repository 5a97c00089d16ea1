//! Links librack.a, which `rt lib --cpu x86-64` writes in crates/rack: from out/ there, or from the folder that RACK_LIBRARY_DIR names.

use std::env;
use std::path::{Path, PathBuf};

fn main() {
    let here = env::var_os("CARGO_MANIFEST_DIR").expect("cargo names the package's folder");
    let made = Path::new(&here).join("../out");
    let folder = env::var_os("RACK_LIBRARY_DIR").map_or(made, PathBuf::from);
    let archive = folder.join("librack.a");
    println!("cargo:rerun-if-env-changed=RACK_LIBRARY_DIR");
    println!("cargo:rerun-if-changed={}", archive.display());
    if !archive.exists() {
        panic!("no {}: `rt lib --cpu x86-64` in crates/rack writes it", archive.display());
    }
    println!("cargo:rustc-link-search=native={}", folder.display());
    println!("cargo:rustc-link-lib=static=rack");
}
