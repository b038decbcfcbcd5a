//! Writes the original's three files, unchanged, into OUT_DIR, each followed by our access functions, and a file
//! that declares them as modules. Where the original is not there, the crate is built without it.

use sha2::{Digest, Sha256};
use std::path::{Path, PathBuf};
use std::{env, fs};

const FILES: [&str; 3] = ["distort_image", "deep", "resize"];

fn main() {
    println!("cargo::rustc-check-cfg=cfg(reference_present)");
    println!("cargo::rerun-if-env-changed=DIHYRAVO_REFERENCE");
    println!("cargo::rerun-if-changed=build.rs");
    println!("cargo::rerun-if-changed=access");

    let folder = folder();
    let sources = FILES.map(|name| folder.join(format!("{name}.rs")));
    for source in &sources {
        println!("cargo::rerun-if-changed={}", source.display());
    }
    if sources.iter().all(|source| source.is_file()) {
        write_modules(&sources);
        println!("cargo::rustc-cfg=reference_present");
    }
}

/// The folder that holds the three files.
fn folder() -> PathBuf {
    match env::var_os("DIHYRAVO_REFERENCE") {
        Some(folder) => PathBuf::from(folder),
        None => manifest().join("../../../shared/docs/src/src"),
    }
}

fn manifest() -> PathBuf {
    PathBuf::from(env::var_os("CARGO_MANIFEST_DIR").expect("cargo sets CARGO_MANIFEST_DIR"))
}

fn write_modules(sources: &[PathBuf; 3]) {
    let out = PathBuf::from(env::var_os("OUT_DIR").expect("cargo sets OUT_DIR"));
    let mut modules = String::new();
    let mut originals = String::new();
    for (name, source) in FILES.iter().zip(sources) {
        let original = read(source);
        let access = manifest().join(format!("access/{name}.rs"));
        let appended = if access.is_file() {
            read(&access)
        } else {
            String::new()
        };
        let target = out.join(format!("{name}.rs"));
        write(&target, &format!("{original}{appended}"));
        // `include!` refuses a file that starts with `//!`; a module file does not.
        modules += &format!("#[allow(warnings)]\n#[path = {target:?}]\npub(crate) mod {name};\n");
        originals += &format!(
            "(\"{name}.rs\", \"{:x}\", {}, include_str!({target:?})),\n",
            Sha256::digest(&original),
            original.len()
        );
    }
    modules += &format!(
        "/// Name, digest and length of each file of the original, and the text that is compiled.\n\
         pub const ORIGINALS: &[(&str, &str, usize, &str)] = &[\n{originals}];\n"
    );
    write(&out.join("modules.rs"), &modules);
}

fn read(path: &Path) -> String {
    fs::read_to_string(path).unwrap_or_else(|e| panic!("{}: {e}", path.display()))
}

fn write(path: &Path, text: &str) {
    fs::write(path, text).unwrap_or_else(|e| panic!("{}: {e}", path.display()))
}
