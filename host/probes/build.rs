//! Links the archives of the probes, from the folder DIHYRAVO_PROBES or from target/staticlib at the project's root.

use std::env;
use std::path::PathBuf;

const ARCHIVES: [&str; 4] = ["probe_number", "probe_fit", "probe_points", "probe_sampler"];

fn main() {
    println!("cargo::rerun-if-env-changed=DIHYRAVO_PROBES");
    let folder = match env::var_os("DIHYRAVO_PROBES") {
        Some(folder) => PathBuf::from(folder),
        None => {
            let here = env::var_os("CARGO_MANIFEST_DIR").expect("cargo sets CARGO_MANIFEST_DIR");
            PathBuf::from(here).join("../../target/staticlib")
        }
    };
    println!("cargo::rustc-link-search=native={}", folder.display());
    for name in ARCHIVES {
        let archive = folder.join(format!("lib{name}.a"));
        println!("cargo::rerun-if-changed={}", archive.display());
        if !archive.is_file() {
            println!(
                "cargo::error=lib{name}.a is not in {}: run `tools/archive {name}` at the project's root first",
                folder.display()
            );
            return;
        }
        println!("cargo::rustc-link-lib=static={name}");
    }
}
