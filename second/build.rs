//! Links the desk's static library, and does so again whenever it is rebuilt.
//!
//! The archive is `libdesk.a` in the folder named by DESK_LIB_DIR, or else in
//! `../crates/desk/out`. A relative folder counts from this manifest.

use std::env;
use std::path::{Path, PathBuf};

const USUAL_FOLDER: &str = "../crates/desk/out";

fn archive_folder() -> PathBuf {
    let manifest = env::var("CARGO_MANIFEST_DIR").expect("cargo names the manifest's folder");
    let folder = env::var("DESK_LIB_DIR").unwrap_or_else(|_| USUAL_FOLDER.to_string());
    Path::new(&manifest).join(folder)
}

fn main() {
    let folder = archive_folder();
    let archive = folder.join("libdesk.a");
    println!("cargo::rerun-if-env-changed=DESK_LIB_DIR");
    println!("cargo::rerun-if-changed=build.rs");
    println!("cargo::rerun-if-changed={}", archive.display());
    // A missing archive is said here, where the remedy can be named; the
    // linker would only say "cannot find -ldesk".
    if !archive.is_file() {
        println!(
            "cargo::error=no {}: run `machine/build desk` first, or name the folder in DESK_LIB_DIR",
            archive.display()
        );
        return;
    }
    println!("cargo::rustc-link-search=native={}", folder.display());
    println!("cargo::rustc-link-lib=static=desk");
}
