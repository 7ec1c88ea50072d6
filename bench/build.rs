use std::env;
use std::path::PathBuf;

// The archives that `machine/build measure desk` makes.
fn main() {
    let crates = PathBuf::from(env::var("CARGO_MANIFEST_DIR").unwrap()).join("../crates");
    for name in ["measure", "desk"] {
        let lib = crates.join(name).join("out");
        println!("cargo:rustc-link-search=native={}", lib.display());
        println!("cargo:rustc-link-lib=static={name}");
        println!("cargo:rerun-if-changed={}", lib.join(format!("lib{name}.a")).display());
    }
}
