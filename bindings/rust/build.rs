//! Links `libsynchrony.a`: from the folder that `SYNCHRONY_LIB_DIR` names, else from `out/` of the repository, where
//! `./library` puts it.
use std::path::PathBuf;
use std::{env, process};

fn main() {
    println!("cargo:rerun-if-env-changed=SYNCHRONY_LIB_DIR");
    let named = env::var_os("SYNCHRONY_LIB_DIR").map(PathBuf::from);
    let folder = named.unwrap_or_else(|| PathBuf::from(env!("CARGO_MANIFEST_DIR")).join("../../out"));
    let archive = folder.join("libsynchrony.a");
    println!("cargo:rerun-if-changed={}", archive.display());
    if !archive.is_file() {
        eprintln!(
            "there is no {}: run ./library at the top of the repository of synchrony, or let SYNCHRONY_LIB_DIR name its folder",
            archive.display()
        );
        process::exit(1);
    }
    println!("cargo:rustc-link-search=native={}", folder.display());
}
