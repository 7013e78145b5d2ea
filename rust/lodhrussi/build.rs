//! Finds the static library of the crate `capi`.

use std::env;
use std::path::{Path, PathBuf};

/// Names another folder to look in.
const FOLDER_VARIABLE: &str = "LODHRUSSI_STATICLIB";

fn main() {
    let folder = folder();
    let library = folder.join("libcapi.a");
    println!("cargo:rerun-if-env-changed={FOLDER_VARIABLE}");
    println!("cargo:rerun-if-changed={}", library.display());
    assert!(
        library.is_file(),
        "{} is missing: run `rt lib` in crates/capi",
        library.display()
    );
    println!("cargo:rustc-link-search=native={}", folder.display());
    println!("cargo:rustc-link-lib=static=capi");
    // For the test of the C header.
    println!("cargo:rustc-env=LODHRUSSI_LIBRARY={}", library.display());
}

fn folder() -> PathBuf {
    env::var_os(FOLDER_VARIABLE).map_or_else(default_folder, PathBuf::from)
}

/// Where `rt lib` leaves the library.
fn default_folder() -> PathBuf {
    let manifest = env::var_os("CARGO_MANIFEST_DIR").expect("cargo sets CARGO_MANIFEST_DIR");
    Path::new(&manifest).join("../../crates/capi/out")
}
