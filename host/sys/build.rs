//! Links libdihyravo.a, from the folder DIHYRAVO_LIBRARY or from target/staticlib at the project's root.

use std::env;
use std::path::PathBuf;

fn main() {
    println!("cargo::rerun-if-env-changed=DIHYRAVO_LIBRARY");
    let folder = match env::var_os("DIHYRAVO_LIBRARY") {
        Some(folder) => PathBuf::from(folder),
        None => {
            let here = env::var_os("CARGO_MANIFEST_DIR").expect("cargo sets CARGO_MANIFEST_DIR");
            PathBuf::from(here).join("../../target/staticlib")
        }
    };
    let archive = folder.join("libdihyravo.a");
    println!("cargo::rerun-if-changed={}", archive.display());
    if !archive.is_file() {
        println!(
            "cargo::error=libdihyravo.a is not in {}: run `make tool` at the project's root first",
            folder.display()
        );
        return;
    }
    println!("cargo::rustc-link-search=native={}", folder.display());
    println!("cargo::rustc-link-lib=static=dihyravo");
}
