//! Finds the archive of proved functions, libstrutpebble.a, and has it linked.

use std::env;
use std::path::{Path, PathBuf};
use std::process::exit;

const ARCHIVE: &str = "libstrutpebble.a";

fn main() {
    println!("cargo:rerun-if-env-changed=STRUTPEBBLE_LIB_DIR");
    let arch = env::var("CARGO_CFG_TARGET_ARCH").unwrap_or_default();
    if arch != "x86_64" {
        eprintln!("strutpebble: {ARCHIVE} is for x86-64, and this build is for {arch}.");
        eprintln!("strutpebble: build with --target x86_64-unknown-linux-gnu (see README.md).");
        exit(1);
    }
    let folders = folders();
    let Some(folder) = folders.iter().find(|folder| folder.join(ARCHIVE).exists()) else {
        let looked: Vec<_> = folders.iter().map(|folder| folder.display().to_string()).collect();
        eprintln!("strutpebble: there is no {ARCHIVE} in {}.", looked.join(" or "));
        eprintln!("strutpebble: run `rt lib` in crates/strutpebble of the repository,");
        eprintln!("strutpebble: or set STRUTPEBBLE_LIB_DIR to the folder that has the archive.");
        exit(1);
    };
    println!("cargo:rerun-if-changed={}", folder.join(ARCHIVE).display());
    // For the test that links the C example with it.
    println!("cargo:rustc-env=STRUTPEBBLE_ARCHIVE={}", folder.join(ARCHIVE).display());
    println!("cargo:rustc-link-search=native={}", folder.display());
    println!("cargo:rustc-link-lib=static=strutpebble");
}

/// The folders that may have the archive, of which the first that has it is taken: the one that the
/// user names; or else the one beside the crate in a release, and the one of the repository.
fn folders() -> Vec<PathBuf> {
    if let Some(folder) = env::var_os("STRUTPEBBLE_LIB_DIR") {
        return vec![folder.into()];
    }
    let root = env::var_os("CARGO_MANIFEST_DIR").unwrap_or_default();
    let root = Path::new(&root);
    vec![root.join("../lib"), root.join("../../crates/strutpebble/out")]
}
