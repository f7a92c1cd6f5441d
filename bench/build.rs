//! With the feature `board`, links the proved engine's archive: the one that
//! the variable BOARD_LIB names, or libboard.a where the repository builds it.

use std::env;
use std::path::{Path, PathBuf};

const ARCHIVE: &str = "libboard.a";

fn main() {
    println!("cargo:rerun-if-changed=build.rs");
    println!("cargo:rerun-if-env-changed=BOARD_LIB");
    if env::var_os("CARGO_FEATURE_BOARD").is_some() {
        link(&archive_path());
    }
}

/// BOARD_LIB may name the archive or the folder that holds it.
fn archive_path() -> PathBuf {
    match env::var_os("BOARD_LIB") {
        Some(given) => {
            let given = PathBuf::from(given);
            if given.is_dir() {
                given.join(ARCHIVE)
            } else {
                given
            }
        }
        None => package_folder().join("../target/staticlib").join(ARCHIVE),
    }
}

fn package_folder() -> PathBuf {
    PathBuf::from(env::var_os("CARGO_MANIFEST_DIR").expect("set by cargo"))
}

fn link(archive: &Path) {
    println!("cargo:rerun-if-changed={}", archive.display());
    let archive = archive
        .canonicalize()
        .unwrap_or_else(|error| panic!("no archive at {}: {error}", archive.display()));
    let name = archive
        .file_name()
        .and_then(|name| name.to_str())
        .and_then(|name| name.strip_prefix("lib")?.strip_suffix(".a"))
        .expect("the archive is named libNAME.a");
    let folder = archive.parent().expect("an archive stands in a folder");
    println!("cargo:rustc-link-search=native={}", folder.display());
    // Not bundled: the archive's objects go to the linker alone, and link-time
    // optimisation does not look for bitcode in them.
    println!("cargo:rustc-link-lib=static:-bundle={name}");
}
