//! Links with the station's archive, libstation.a: the one in the folder that STATION_LIB_DIR names; or else, where this crate is installed,
//! the one that is installed with it; or else the project's own, which tools/library makes for this machine where it isn't there, or is
//! older than its sources.

use std::path::{Path, PathBuf};
use std::process::Command;
use std::time::SystemTime;
use std::{env, fs};

const ARCHIVE: &str = "libstation.a";
const FOLDER: &str = "STATION_LIB_DIR";
/// What to do where the project's own archive can't be had.
const INSTEAD: &str = "set STATION_LIB_DIR to a folder with libstation.a";

fn main() {
    println!("cargo:rerun-if-changed=build.rs");
    println!("cargo:rerun-if-env-changed={FOLDER}");
    if env::var_os("CARGO_FEATURE_ENTRIES").is_none() {
        return;
    }
    let out = PathBuf::from(env::var_os("OUT_DIR").expect("cargo says where to write"));
    let made = match env::var_os(FOLDER) {
        Some(folder) => lent(Path::new(&folder)),
        None => installed().unwrap_or_else(built),
    };
    // a copy, so that what is linked stays the same until this runs again
    fs::copy(&made, out.join(ARCHIVE)).unwrap_or_else(|why| panic!("{} can't be copied to {}: {why}", made.display(), out.display()));
    println!("cargo:rustc-link-search=native={}", out.display());
    println!("cargo:rustc-link-lib=static=station");
}

/// The archive of a folder that somebody has filled.
fn lent(folder: &Path) -> PathBuf {
    let archive = folder.join(ARCHIVE);
    println!("cargo:rerun-if-changed={}", archive.display());
    assert!(archive.is_file(), "{FOLDER} is {}, and there is no {ARCHIVE} in it", folder.display());
    archive
}

/// The folder with this crate's own Cargo.toml.
fn here() -> PathBuf {
    PathBuf::from(env::var_os("CARGO_MANIFEST_DIR").expect("cargo says where this stands"))
}

/// The archive of the folder that this crate is installed in, as share/station/rust.
fn installed() -> Option<PathBuf> {
    let prefix = here().ancestors().nth(3)?.to_path_buf();
    let archive = prefix.join("lib").join(ARCHIVE);
    (here() == prefix.join("share/station/rust") && archive.is_file()).then(|| {
        println!("cargo:rerun-if-changed={}", archive.display());
        archive
    })
}

/// The project's own archive, which all that take this crate share.
fn built() -> PathBuf {
    let root = here().join("../..");
    let script = root.join("tools/library");
    assert!(script.is_file(), "{} isn't there: take the crate within its project, or {INSTEAD}", script.display());
    let machine = env::var("CARGO_CFG_TARGET_ARCH").expect("cargo says for which machine");
    assert!(machine == env::consts::ARCH, "tools/library builds for this machine, not for {machine}: {INSTEAD}");
    for source in ["crates.txt", "tools/library", "tools/made", "tools/native"] {
        println!("cargo:rerun-if-changed={}", root.join(source).display());
    }
    // of each crate its own files: what rt makes in its folder is none of them
    for part in fs::read_dir(root.join("crates")).into_iter().flatten().flatten().flat_map(|one| ["src", "specs", "proofs"].map(|part| one.path().join(part))) {
        if part.is_dir() {
            println!("cargo:rerun-if-changed={}", part.display());
        }
    }
    let folder = root.join("target/library");
    let archive = folder.join(ARCHIVE);
    let before = written(&archive);
    let ran = Command::new(&script).arg(&folder).output().unwrap_or_else(|why| panic!("tools/library can't be run: {why}"));
    if !ran.status.success() {
        if Command::new("rt").arg("doc").output().is_err() {
            panic!("the station is to be built, and the Rattle toolchain's command rt is not on the path: put it there, or {INSTEAD}");
        }
        panic!("tools/library failed: mend what it tells, or {INSTEAD}\n{}", String::from_utf8_lossy(&ran.stderr).trim_end());
    }
    if written(&archive) != before {
        println!("cargo:warning=the station was proved and built first, which takes minutes; from now on this is quick");
    }
    archive
}

/// When a file was last written, if it is there.
fn written(file: &Path) -> Option<SystemTime> {
    fs::metadata(file).and_then(|about| about.modified()).ok()
}
