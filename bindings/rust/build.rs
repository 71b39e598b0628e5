//! Links libynv.a from `YNV_LIB_DIR` (default: `target/staticlib` of the repository; a relative folder is taken from
//! the repository's root).

use std::env;
use std::path::PathBuf;

fn main() {
    println!("cargo:rerun-if-env-changed=YNV_LIB_DIR");
    println!("cargo:rerun-if-changed=build.rs");
    let root = PathBuf::from(env::var_os("CARGO_MANIFEST_DIR").unwrap()).join("../..");
    let folder = root.join(env::var_os("YNV_LIB_DIR").unwrap_or_else(|| "target/staticlib".into()));
    let library = folder.join("libynv.a");
    if !library.exists() {
        let missing = library.display();
        panic!("{missing} is not there: run `sh tools/staticlib ynv`, or set YNV_LIB_DIR to the folder that holds libynv.a");
    }
    println!("cargo:rerun-if-changed={}", library.display());
    println!("cargo:rustc-link-search=native={}", folder.display());
    println!("cargo:rustc-link-lib=static=ynv");
}
