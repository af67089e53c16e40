//! Finds the archive of the proved library and has it linked. The archive is x86-64 code; for another machine
//! `emulated/build` makes an archive of the same functions, which have the proved one make their calls under an emulator.

use std::path::{Path, PathBuf};
use std::process::Command;

fn main() {
    println!("cargo:rerun-if-env-changed=SHQEMTULI_LIB");
    println!("cargo:rerun-if-changed=build.rs");
    let (archive, emulated) = archive();
    println!("cargo:rustc-env=SHQEMTULI_EMULATED={emulated}");
    let folder = archive.parent().expect("a file is in a folder");
    println!("cargo:rustc-link-search=native={}", folder.display());
    println!("cargo:rustc-link-lib=static={}", name(&archive));
    // For the test that compiles the C example.
    println!("cargo:rustc-env=SHQEMTULI_ARCHIVE={}", archive.display());
}

/// The archive to link, and whether its calls are made under an emulator. SHQEMTULI_LIB names one for this machine; without
/// it, it is what `rt lib` wrote in crates/host.
fn archive() -> (PathBuf, bool) {
    if let Some(path) = std::env::var_os("SHQEMTULI_LIB") {
        return (existing(Path::new(&path)), false);
    }
    let here = PathBuf::from(variable("CARGO_MANIFEST_DIR"));
    let proved = existing(&here.join("../crates/host/out/libhost.a"));
    match variable("CARGO_CFG_TARGET_ARCH").as_str() {
        "x86_64" => (proved, false),
        _ => (through_emulator(&here, &proved), true),
    }
}

/// The whole path of the archive; it is linked again when it changes.
fn existing(path: &Path) -> PathBuf {
    let whole = path.canonicalize().unwrap_or_else(|_| {
        eprintln!("There is no archive {}.", path.display());
        eprintln!("Build it with `rt lib`, in the repository's folder crates/host,");
        eprintln!("or set SHQEMTULI_LIB to the path of a libhost.a for this machine.");
        std::process::exit(1);
    });
    println!("cargo:rerun-if-changed={}", whole.display());
    whole
}

fn through_emulator(here: &Path, proved: &Path) -> PathBuf {
    println!("cargo:rerun-if-changed=emulated");
    println!("cargo:rerun-if-changed=include");
    let folder = PathBuf::from(variable("OUT_DIR"));
    let built = Command::new(here.join("emulated/build"))
        .arg(proved)
        .arg(&folder)
        .status()
        .expect("emulated/build runs");
    if !built.success() {
        eprintln!("emulated/build failed: {built}");
        std::process::exit(1);
    }
    folder.join("libhost.a")
}

/// A variable that cargo sets for this program.
fn variable(name: &str) -> String {
    std::env::var(name).expect("cargo sets it")
}

/// The name that a linker knows `libNAME.a` by.
fn name(archive: &Path) -> &str {
    let stem = archive.file_stem().and_then(|stem| stem.to_str());
    stem.and_then(|stem| stem.strip_prefix("lib"))
        .expect("the archive is named libNAME.a")
}
