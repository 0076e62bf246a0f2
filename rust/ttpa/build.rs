//! Tells the linker where the engine's archive `libttpa.a` is: in the folder that TTPA_LIB_DIR names, or
//! in target/staticlib of the repository. Without the archive it says how to make it.

use std::env;
use std::path::PathBuf;
use std::process::exit;

fn main() {
    let folder = env::var_os("TTPA_LIB_DIR").map_or_else(default_folder, PathBuf::from);
    let archive = folder.join("libttpa.a");
    println!("cargo:rerun-if-env-changed=TTPA_LIB_DIR");
    println!("cargo:rerun-if-changed={}", archive.display());
    if !archive.is_file() {
        eprintln!("the engine's archive is missing: {}", archive.display());
        eprintln!("make it with `.ci/build archive` (Rattle toolchain) in the repository's root,");
        eprintln!("or have TTPA_LIB_DIR name the folder that holds it, by its full path");
        exit(1);
    }
    println!("cargo:rustc-link-search=native={}", folder.display());
    println!("cargo:rustc-link-lib=static=ttpa");
}

fn default_folder() -> PathBuf {
    let here = env::var_os("CARGO_MANIFEST_DIR").map_or_else(PathBuf::new, PathBuf::from);
    here.join("../../target/staticlib")
}
