//! Links the archive that `bench/run` names.

use std::env;
use std::path::PathBuf;

fn main() {
    println!("cargo::rerun-if-env-changed=GHJALVESTRU_ARCHIVE");
    let Some(archive) = env::var_os("GHJALVESTRU_ARCHIVE") else {
        println!("cargo::error=GHJALVESTRU_ARCHIVE does not name the archive; bench/run does that");
        return;
    };
    let archive = PathBuf::from(archive);
    println!("cargo::rerun-if-changed={}", archive.display());
    if let Some(folder) = archive.parent() {
        println!("cargo::rustc-link-search=native={}", folder.display());
    }
    println!("cargo::rustc-link-lib=static=ghjalvestru");
}
