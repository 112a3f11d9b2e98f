//! Names the static libraries, the technician's reader and the sleeper's, to the linker: in the folder
//! STORY_IMAGE_LIBRARY, by default target/staticlib of the repository.

use std::{env, path::PathBuf};

fn main() {
    println!("cargo:rerun-if-env-changed=STORY_IMAGE_LIBRARY");
    let root = PathBuf::from(env::var_os("CARGO_MANIFEST_DIR").unwrap()).join("../..");
    let folder = match env::var_os("STORY_IMAGE_LIBRARY") {
        Some(folder) => root.join(folder),
        None => root.join("target/staticlib"),
    };
    println!("cargo:rustc-link-search=native={}", folder.display());
    for library in ["story_image", "sleeper_image"] {
        println!("cargo:rerun-if-changed={}", folder.join(format!("lib{library}.a")).display());
        println!("cargo:rustc-link-lib=static={library}");
    }
}
