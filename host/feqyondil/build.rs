//! Links libfeqyondil.a, which `make lib` makes of the proved crates.

use std::env;
use std::path::{Path, PathBuf};
use std::process::exit;

fn main() {
    println!("cargo:rerun-if-env-changed=FEQYONDIL_LIB");
    let folder = folder();
    let library = folder.join("libfeqyondil.a");
    println!("cargo:rerun-if-changed={}", library.display());
    if !library.is_file() {
        eprintln!("{} is not there.", library.display());
        eprintln!("`make lib` in the repository makes dist/libfeqyondil.a;");
        eprintln!("FEQYONDIL_LIB names the folder, by its full path, if it is another.");
        exit(1);
    }
    println!("cargo:rustc-link-search=native={}", folder.display());
    println!("cargo:rustc-link-lib=static=feqyondil");
}

/// The folder that FEQYONDIL_LIB names, else dist/ of the repository.
fn folder() -> PathBuf {
    let here = env::var_os("CARGO_MANIFEST_DIR").expect("cargo sets it");
    let named = env::var_os("FEQYONDIL_LIB").unwrap_or_else(|| "../../dist".into());
    Path::new(&here).join(named)
}
