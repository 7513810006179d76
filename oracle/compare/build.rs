//! Links the proved code: libdoor.a and libnumbers_door.a in the folder `DOOR_DIR`, else where
//! `tools/library` writes them.
use std::env;
use std::path::PathBuf;

fn main() {
    println!("cargo::rerun-if-env-changed=DOOR_DIR");
    let package = PathBuf::from(env::var_os("CARGO_MANIFEST_DIR").unwrap());
    let written = package.join("../../target/staticlib");
    let folder = env::var_os("DOOR_DIR").map_or(written, PathBuf::from);
    println!("cargo::rustc-link-search=native={}", folder.display());
    for name in ["door", "numbers_door"] {
        let library = folder.join(format!("lib{name}.a"));
        println!("cargo::rerun-if-changed={}", library.display());
        if !library.exists() {
            panic!("no {}: run `tools/library {name}` at the project's root", library.display());
        }
        println!("cargo::rustc-link-lib=static={name}");
    }
}
