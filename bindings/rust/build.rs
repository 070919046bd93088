//! Links libweak_summary.a, from the folder in WEAK_SUMMARY_LIB or else from crates/weak_summary/out of the repository.

use std::env;
use std::path::{Path, PathBuf};

fn main() {
    let here = env::var("CARGO_MANIFEST_DIR").expect("cargo sets this");
    let folder = match env::var("WEAK_SUMMARY_LIB") {
        Ok(folder) => PathBuf::from(folder),
        Err(_) => Path::new(&here).join("../../crates/weak_summary/out"),
    };
    println!("cargo:rustc-link-search=native={}", folder.display());
    println!("cargo:rustc-link-lib=static=weak_summary");
    println!("cargo:rerun-if-env-changed=WEAK_SUMMARY_LIB");
    println!("cargo:rerun-if-changed={}", folder.join("libweak_summary.a").display());
    println!("cargo:rerun-if-changed=build.rs");
}
