//! Links the archive that `rt lib` writes in crates/rockavine_c; the folder it lies in may be named by ROCKAVINE_LIBRARY.
use std::env;
use std::path::{Path, PathBuf};

fn main() {
    let root = env::var("CARGO_MANIFEST_DIR").expect("cargo names the folder of the package");
    let written = || Path::new(&root).join("../../crates/rockavine_c/out");
    let folder = env::var_os("ROCKAVINE_LIBRARY").map_or_else(written, PathBuf::from);
    println!("cargo:rerun-if-env-changed=ROCKAVINE_LIBRARY");
    println!("cargo:rerun-if-changed={}", folder.join("librockavine_c.a").display());
    println!("cargo:rustc-link-search=native={}", folder.display());
    println!("cargo:rustc-link-lib=static=rockavine_c");
}
