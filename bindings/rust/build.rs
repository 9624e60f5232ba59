//! Finds the archive: in the folder that OKROZUMBA_ARCHIVE names, else where `rt lib --cpu x86-64` in crates/okrozumba of this repository writes it.
use std::env;
use std::path::{Path, PathBuf};

fn folder() -> PathBuf {
    match env::var_os("OKROZUMBA_ARCHIVE") {
        Some(named) => PathBuf::from(named),
        None => {
            Path::new(&env::var_os("CARGO_MANIFEST_DIR").expect("cargo names the package's folder"))
                .join("../../crates/okrozumba/out")
        }
    }
}

fn main() {
    let archive = folder().join("libokrozumba.a");
    println!("cargo:rerun-if-env-changed=OKROZUMBA_ARCHIVE");
    println!("cargo:rerun-if-changed={}", archive.display());
    if !archive.exists() {
        panic!("{} is missing: run `rt lib --cpu x86-64` in crates/okrozumba, or set OKROZUMBA_ARCHIVE", archive.display());
    }
    println!("cargo:rustc-link-search=native={}", folder().display());
    println!("cargo:rustc-link-lib=static=okrozumba");
}
