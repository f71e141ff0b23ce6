//! Links the archive of the C functions: the one that GHJALVESTRU_ARCHIVE names, else the one that `tests/native archive`
//! proves and builds. A relative path is seen from the repository's root.

use std::env;
use std::fs;
use std::path::{Path, PathBuf};
use std::process::Command;

const VARIABLE: &str = "GHJALVESTRU_ARCHIVE";

fn main() {
    println!("cargo::rerun-if-env-changed={VARIABLE}");
    println!("cargo::rerun-if-changed=build.rs");
    if let Err(fault) = find().and_then(|archive| link(&archive)) {
        // Each line by itself: cargo shows the first line of a message alone.
        for line in fault.lines() {
            println!("cargo::error={line}");
        }
    }
}

fn find() -> Result<PathBuf, String> {
    let here = env::var_os("CARGO_MANIFEST_DIR").ok_or("CARGO_MANIFEST_DIR is not set")?;
    let root = Path::new(&here).join("..");
    match env::var_os(VARIABLE).filter(|value| !value.is_empty()) {
        Some(archive) => {
            let archive = root.join(archive);
            println!("cargo::rerun-if-changed={}", archive.display());
            Ok(archive)
        }
        None => build(&root),
    }
}

/// By the repository's own script, which builds one only where the sources changed. It is asked again when they do, not when
/// the archive does, nor what a check leaves beside the sources: these are newer than the start of their own building.
fn build(root: &Path) -> Result<PathBuf, String> {
    let script = root.join("tests/native");
    for source in ["crates.txt", "tests/native"] {
        println!("cargo::rerun-if-changed={}", root.join(source).display());
    }
    let crates = fs::read_dir(root.join("crates")).map_err(|fault| format!("crates: {fault}"))?;
    for folder in crates.flatten() {
        for part in ["src", "specs", "proofs"] {
            let sources = folder.path().join(part);
            if sources.is_dir() {
                println!("cargo::rerun-if-changed={}", sources.display());
            }
        }
    }
    let done = Command::new(&script)
        .arg("archive")
        .output()
        .map_err(|fault| format!("{}: {fault}; {VARIABLE} names no archive", script.display()))?;
    if !done.status.success() {
        let said = String::from_utf8_lossy(&done.stderr).into_owned();
        return Err(format!("tests/native archive: {}\n{said}", done.status));
    }
    Ok(PathBuf::from(String::from_utf8_lossy(&done.stdout).trim()))
}

fn link(archive: &Path) -> Result<(), String> {
    if !archive.is_file() {
        return Err(format!(
            "no such archive ({VARIABLE}): {}",
            archive.display()
        ));
    }
    let archive = archive
        .canonicalize()
        .map_err(|fault| format!("{}: {fault}", archive.display()))?;
    same_processor(&archive)?;
    let name = archive.file_name().and_then(|name| name.to_str());
    let name = name.and_then(|name| name.strip_prefix("lib")?.strip_suffix(".a"));
    let (Some(name), Some(folder)) = (name, archive.parent()) else {
        return Err(format!("not named as lib*.a: {}", archive.display()));
    };
    println!("cargo::rustc-link-search=native={}", folder.display());
    println!("cargo::rustc-link-lib=static={name}");
    Ok(())
}

/// The linker would only say that it knows none of the functions.
fn same_processor(archive: &Path) -> Result<(), String> {
    let shown = archive.display();
    let bytes = fs::read(archive).map_err(|fault| format!("{shown}: {fault}"))?;
    let archives =
        processor(&bytes).ok_or_else(|| format!("no archive of ELF objects: {shown}"))?;
    let targets = env::var("CARGO_CFG_TARGET_ARCH").map_err(|fault| fault.to_string())?;
    if archives != targets {
        return Err(format!(
            "{shown} is for the processor {archives}, this build is for {targets}: \
             `tests/native archive` builds one for x86-64 alone"
        ));
    }
    Ok(())
}

/// Of the first object in an archive, as cargo calls it; else the number that ELF has for it.
fn processor(archive: &[u8]) -> Option<String> {
    let mut rest = archive.strip_prefix(b"!<arch>\n")?;
    loop {
        // A member: a header of 60 bytes, in which its length stands in decimal; it begins at an even place.
        let (header, members) = rest.split_at_checked(60)?;
        let length = std::str::from_utf8(&header[48..58]).ok()?;
        let length: usize = length.trim_end().parse().ok()?;
        let member = members.get(..length)?;
        if member.starts_with(b"\x7fELF") {
            let machine = u16::from_le_bytes(member.get(18..20)?.try_into().ok()?);
            return Some(match machine {
                62 => "x86_64".into(),
                183 => "aarch64".into(),
                other => format!("of ELF number {other}"),
            });
        }
        rest = members.get(length + length % 2..)?;
    }
}
