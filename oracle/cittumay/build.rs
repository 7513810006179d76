//! Links the proved code: libdoor.a in the folder `DOOR_DIR`, else where `tools/library door`
//! writes it.
use std::env;
use std::path::PathBuf;

fn main() {
    println!("cargo::rerun-if-env-changed=DOOR_DIR");
    let package = PathBuf::from(env::var_os("CARGO_MANIFEST_DIR").unwrap());
    let written = package.join("../../target/staticlib");
    let folder = env::var_os("DOOR_DIR").map_or(written, PathBuf::from);
    let library = folder.join("libdoor.a");
    println!("cargo::rerun-if-changed={}", library.display());
    if !library.exists() {
        panic!("no {}: run `tools/library door` at the project's root", library.display());
    }
    println!("cargo::rustc-link-search=native={}", folder.display());
    println!("cargo::rustc-link-lib=static=door");
}
