//! Links the static library, which `rust/library` makes. FUJI_LIBRARY may name another folder that has it.
use std::env;
use std::path::PathBuf;

fn main() {
    println!("cargo::rerun-if-env-changed=FUJI_LIBRARY");
    let made = || PathBuf::from(env::var_os("CARGO_MANIFEST_DIR").unwrap()).join("../../target/staticlib");
    let folder = env::var_os("FUJI_LIBRARY").map_or_else(made, PathBuf::from);
    let archive = folder.join("libfuji_compressed.a");
    println!("cargo::rerun-if-changed={}", archive.display());
    if !archive.exists() {
        println!("cargo::error={} is not there: run rust/library first", archive.display());
        return;
    }
    println!("cargo::rustc-link-search=native={}", folder.display());
    println!("cargo::rustc-link-lib=static=fuji_compressed");
}
