//! Links the static library where PZ_LIB_DIR names its directory; without it the package is built with its own engine only.

use std::env;
use std::path::PathBuf;

fn main() {
    println!("cargo:rustc-check-cfg=cfg(exported)");
    println!("cargo:rerun-if-env-changed=PZ_LIB_DIR");
    println!("cargo:rerun-if-env-changed=PZ_C_LIB");
    println!("cargo:rerun-if-changed=build.rs");
    let Some(directory) = env::var_os("PZ_LIB_DIR") else {
        return;
    };
    let library = PathBuf::from(directory).join("libexports.a");
    // The library calls nothing but the C library's memory functions; an archive to link beside it may be named.
    let beside = env::var_os("PZ_C_LIB").map(PathBuf::from);
    for archive in [Some(library), beside].into_iter().flatten() {
        // A relative path would be read from where the linker runs.
        let archive = archive.canonicalize().unwrap_or_else(|error| panic!("{}: {error}", archive.display()));
        println!("cargo:rerun-if-changed={}", archive.display());
        println!("cargo:rustc-link-arg={}", archive.display());
    }
    println!("cargo:rustc-cfg=exported");
}
