//! Names the static library of the leaves to the linker, where it has been built beside the others (tools/build leaves).

use std::{env, path::PathBuf};

fn main() {
    println!("cargo:rerun-if-env-changed=STORY_IMAGE_LIBRARY");
    println!("cargo:rustc-check-cfg=cfg(leaves)");
    let root = PathBuf::from(env::var_os("CARGO_MANIFEST_DIR").unwrap()).join("..");
    let folder = match env::var_os("STORY_IMAGE_LIBRARY") {
        Some(folder) => root.join(folder),
        None => root.join("target/staticlib"),
    };
    let archive = folder.join("libleaves.a");
    println!("cargo:rerun-if-changed={}", archive.display());
    if archive.exists() {
        println!("cargo:rustc-cfg=leaves");
        println!("cargo:rustc-link-search=native={}", folder.display());
        println!("cargo:rustc-link-lib=static=leaves");
    }
}
