//! Links liblupinanon.a of the folder that LUPINANON_LIB names, or else of the release archive or the repository that this
//! crate is in.

use std::env;
use std::path::PathBuf;

/// The folder of the library.
fn folder() -> PathBuf {
    if let Some(folder) = env::var_os("LUPINANON_LIB") {
        return PathBuf::from(folder);
    }
    let here = PathBuf::from(env::var_os("CARGO_MANIFEST_DIR").expect("cargo names the crate's folder"));
    let of_archive = here.join("../lib");
    if of_archive.join("liblupinanon.a").exists() {
        of_archive
    } else {
        here.join("../out")
    }
}

fn main() {
    let folder = folder();
    let folder = folder.display();
    println!("cargo:rustc-link-search=native={folder}");
    println!("cargo:rustc-link-lib=static=lupinanon");
    println!("cargo:rerun-if-env-changed=LUPINANON_LIB");
    println!("cargo:rerun-if-changed={folder}/liblupinanon.a");
}
