//! Finds the C library: in the folder that FIOLARGU_LIB_DIR names; or else in lib/ of the prefix or repository that this
//! crate lies in; or else where pkg-config finds it; or else where the linker does. It links the archive where there is one, and
//! the shared library otherwise or where FIOLARGU_SHARED is set.

use std::env;
use std::path::{Path, PathBuf};
use std::process::Command;

const ARCHIVE: &str = "libfiolargu.a";
const SHARED: &str = "libfiolargu.so";

fn main() {
    println!("cargo:rerun-if-changed=build.rs");
    println!("cargo:rerun-if-env-changed=FIOLARGU_LIB_DIR");
    println!("cargo:rerun-if-env-changed=FIOLARGU_SHARED");
    match folder() {
        Some(folder) => {
            let is_static = folder.join(ARCHIVE).exists() && env::var_os("FIOLARGU_SHARED").is_none();
            println!("cargo:rustc-link-search=native={}", folder.display());
            println!("cargo:rerun-if-changed={}", folder.join(if is_static { ARCHIVE } else { SHARED }).display());
            println!("cargo:rustc-link-lib={}=fiolargu", if is_static { "static" } else { "dylib" });
        }
        None => {
            // A file that is missing counts as changed, so the next build looks again.
            near().iter().for_each(|lib| println!("cargo:rerun-if-changed={}", lib.join(SHARED).display()));
            println!("cargo:rustc-link-lib=dylib=fiolargu");
        }
    }
}

/// The folder with the library, where it is known.
fn folder() -> Option<PathBuf> {
    if let Some(given) = env::var_os("FIOLARGU_LIB_DIR") {
        return Some(PathBuf::from(given));
    }
    near().into_iter().find(|lib| has_library(lib)).or_else(by_pkg_config)
}

/// Where the library may lie near this crate.
fn near() -> Vec<PathBuf> {
    let own = env::var_os("CARGO_MANIFEST_DIR").map(PathBuf::from).unwrap_or_default();
    own.ancestors().take(6).map(|above| above.join("lib")).collect()
}

/// Whether a folder has the library.
fn has_library(folder: &Path) -> bool {
    folder.join(ARCHIVE).exists() || folder.join(SHARED).exists()
}

/// The folder that pkg-config names.
fn by_pkg_config() -> Option<PathBuf> {
    let output = Command::new("pkg-config").args(["--variable=libdir", "fiolargu"]).output().ok()?;
    let folder = PathBuf::from(String::from_utf8(output.stdout).ok()?.trim());
    has_library(&folder).then(|| folder)
}
