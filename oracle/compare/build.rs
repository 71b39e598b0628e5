//! With the feature `lib` links libunits.a, with `ynv` libynv.a, from `YNV_LIB_DIR`
//! (default: `target/staticlib` of the repository; a relative folder is taken from the
//! repository's root).

use std::env;
use std::path::{Path, PathBuf};

fn link(folder: &Path, name: &str) {
    let library = folder.join(format!("lib{name}.a"));
    if !library.exists() {
        panic!("{} is not there: set YNV_LIB_DIR to the folder that holds lib{name}.a", library.display());
    }
    println!("cargo:rerun-if-changed={}", library.display());
    println!("cargo:rustc-link-search=native={}", folder.display());
    println!("cargo:rustc-link-lib=static={name}");
}

fn main() {
    println!("cargo:rerun-if-env-changed=YNV_LIB_DIR");
    println!("cargo:rerun-if-changed=build.rs");
    let root = PathBuf::from(env::var_os("CARGO_MANIFEST_DIR").unwrap()).join("../..");
    let folder = root.join(env::var_os("YNV_LIB_DIR").unwrap_or_else(|| "target/staticlib".into()));
    for (feature, name) in [("CARGO_FEATURE_LIB", "units"), ("CARGO_FEATURE_YNV", "ynv")] {
        if env::var_os(feature).is_some() {
            link(&folder, name);
        }
    }
}
