//! Lays the crate's files, unchanged, and our stand-ins out as one tree in
//! OUT_DIR, so that nothing of the crate has to be kept in this repository.

use std::env;
use std::fs;
use std::path::{Path, PathBuf};

const VARIABLE: &str = "IPMI_RS_CORE_SRC";

/// Seen from the repository's root, as every relative value of the variable.
const DEFAULT: &str = "../shared/docs/src";

/// The crate's files, below `src/` of the source folder. They are named one by
/// one: anything else in the folder is left out, so a fuller copy of the crate
/// gives the same oracle.
const CRATE_FILES: [&str; 9] = [
    "app/auth/activate_session.rs",
    "app/auth/algorithms.rs",
    "app/auth/get_channel_authentication_capabilities.rs",
    "app/auth/get_channel_cipher_suites.rs",
    "app/auth/get_session_challenge.rs",
    "app/auth/mod.rs",
    "app/get_channel_access.rs",
    "app/get_channel_info.rs",
    "connection/mod.rs",
];

const STAND_INS: [&str; 6] = [
    "app/mod.rs",
    "connection/completion_code.rs",
    "connection/netfn.rs",
    "connection/request.rs",
    "connection/response.rs",
    "lib.rs",
];

fn main() {
    println!("cargo::rerun-if-env-changed={VARIABLE}");
    println!("cargo::rerun-if-changed=build.rs");
    println!("cargo::rerun-if-changed=stand-ins");

    if let Err(fault) = lay_out() {
        println!("cargo::error={fault}");
    }
}

fn lay_out() -> Result<(), String> {
    let here = folder_from("CARGO_MANIFEST_DIR")?;
    let tree = folder_from("OUT_DIR")?.join("core");

    let given = env::var_os(VARIABLE).filter(|value| !value.is_empty());
    let given = given.unwrap_or_else(|| DEFAULT.into());
    let source = here.join("../..").join(given);
    println!("cargo::rerun-if-changed={}", source.display());

    if !source.is_dir() {
        return Err(format!(
            "no folder with the sources of ipmi-rs-core ({VARIABLE}): {}",
            source.display()
        ));
    }

    // Made anew, so that no file of an earlier layout is left over.
    if tree.exists() {
        fs::remove_dir_all(&tree).map_err(|fault| format!("{}: {fault}", tree.display()))?;
    }
    for file in CRATE_FILES {
        copy(&source.join("src"), &tree, file)?;
    }
    for file in STAND_INS {
        copy(&here.join("stand-ins"), &tree, file)?;
    }
    Ok(())
}

fn folder_from(variable: &str) -> Result<PathBuf, String> {
    let value = env::var_os(variable).ok_or(format!("{variable} is not set"))?;
    Ok(PathBuf::from(value))
}

/// Read and written rather than `fs::copy`, which would also bring along the
/// permissions of a read-only source.
fn copy(from: &Path, to: &Path, file: &str) -> Result<(), String> {
    let source = from.join(file);
    let target = to.join(file);
    let bytes = fs::read(&source).map_err(|fault| format!("{}: {fault}", source.display()))?;
    let folder = target.parent().unwrap_or(to);
    fs::create_dir_all(folder)
        .and_then(|()| fs::write(&target, bytes))
        .map_err(|fault| format!("{}: {fault}", target.display()))
}
