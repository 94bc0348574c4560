//! Links libvireopatch.a: from the folder that VIREOPATCH_LIB names, or from where `rt lib --cpu=x86-64` in crates/vireopatch puts it.

use std::path::PathBuf;

fn main() {
    println!("cargo:rerun-if-env-changed=VIREOPATCH_LIB");
    let folder = match std::env::var_os("VIREOPATCH_LIB") {
        Some(folder) => PathBuf::from(folder),
        None => PathBuf::from(std::env::var_os("CARGO_MANIFEST_DIR").unwrap())
            .join("../../crates/vireopatch/out"),
    };
    let archive = folder.join("libvireopatch.a");
    if !archive.exists() {
        panic!(
            "{} is not there: run `rt lib --cpu=x86-64` in crates/vireopatch, or set VIREOPATCH_LIB",
            archive.display()
        );
    }
    println!("cargo:rerun-if-changed={}", archive.display());
    println!("cargo:rustc-link-search=native={}", folder.display());
    println!("cargo:rustc-link-lib=static=vireopatch");
}
