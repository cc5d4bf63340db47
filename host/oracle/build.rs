//! Lays the Rust's files out as a crate, unchanged, where Cargo keeps build products.

use std::path::{Path, PathBuf};
use std::{env, fs};

/// What the oracle is made of. `mtd` is not among the papers: an empty module stands in.
const FILES: [&str; 3] = ["lib", "v1v2", "v3"];

fn main() {
    println!("cargo:rerun-if-env-changed=NVRAM_RUST");
    let papers = papers();
    let out = PathBuf::from(env::var_os("OUT_DIR").unwrap());
    for name in FILES {
        let from = papers.join(format!("src--apple-nvram--src--{name}.rs.txt"));
        println!("cargo:rerun-if-changed={}", from.display());
        let text = fs::read(&from)
            .unwrap_or_else(|e| panic!("{}: {e}; NVRAM_RUST names its folder", from.display()));
        fs::write(out.join(format!("{name}.rs")), text).unwrap();
    }
    fs::write(out.join("mtd.rs"), "").unwrap();
}

/// The folder of the Rust's files: the one that NVRAM_RUST names, else the one beside the repository.
fn papers() -> PathBuf {
    match env::var_os("NVRAM_RUST") {
        Some(folder) => folder.into(),
        None => Path::new(&env::var_os("CARGO_MANIFEST_DIR").unwrap()).join("../../../shared"),
    }
}
