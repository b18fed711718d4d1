//! Finds the static library, or makes it by `tools/staticlib` of the repository.
//! `HOARBALE_LIB_DIR` names a directory that has it already.
use std::env;
use std::path::{Path, PathBuf};
use std::process::Command;

const LIBRARY: &str = "libhoarbale_c.a";

fn made_at_root(here: &Path) -> PathBuf {
    let root = here.join("../..");
    let directory = root.join("target/staticlib");
    if !directory.join(LIBRARY).exists() {
        let status = Command::new(root.join("tools/staticlib"))
            .status()
            .expect("the Rattle kit's rt makes the library; or HOARBALE_LIB_DIR names a directory that has it");
        assert!(status.success(), "tools/staticlib failed");
    }
    directory
}

fn main() {
    println!("cargo:rerun-if-env-changed=HOARBALE_LIB_DIR");
    let here = PathBuf::from(env::var("CARGO_MANIFEST_DIR").expect("cargo names the crate's directory"));
    let directory = match env::var("HOARBALE_LIB_DIR") {
        Ok(named) => PathBuf::from(named),
        Err(_) => made_at_root(&here),
    };
    println!("cargo:rustc-link-search=native={}", directory.display());
    println!("cargo:rustc-link-lib=static=hoarbale_c");
    println!("cargo:rerun-if-changed={}", directory.join(LIBRARY).display());
}
