//! Finds the static library where the repository's root has it.
use std::path::Path;

fn main() {
    let here = std::env::var("CARGO_MANIFEST_DIR").expect("cargo names the crate's directory");
    let made = Path::new(&here).join("../../target/staticlib");
    println!("cargo:rustc-link-search=native={}", made.display());
    println!("cargo:rustc-link-lib=static=hoarbale_c");
    println!("cargo:rerun-if-changed={}", made.join("libhoarbale_c.a").display());
}
