//! Finds the Rust source and writes the module declarations that compile it:
//! `math.rs` and `resource.rs` where they lie, `ynv.rs` as a copy with the
//! module `oracle_access` appended and nothing else changed.

use std::path::{Path, PathBuf};
use std::{env, fs};

/// A child module sees the private items of `ynv.rs`.
const ACCESS: &str = r#"
/// Appended by the oracle's build script.
pub mod oracle_access {
    /// Where `BlockWriter::alloc` puts a block of `size` bytes after `end` bytes.
    pub fn alloc(end: usize, size: usize) -> usize {
        let mut w = super::BlockWriter { buf: vec![0; end] };
        (w.alloc(size) - super::SYSTEM_BASE) as usize
    }
}
"#;

fn main() {
    println!("cargo:rerun-if-env-changed=YNV_RUST_SRC");
    println!("cargo:rerun-if-changed=build.rs");
    let root = PathBuf::from(env::var_os("CARGO_MANIFEST_DIR").unwrap()).join("../..");
    let given = env::var_os("YNV_RUST_SRC").unwrap_or_else(|| "../shared/docs/src".into());
    let folder = root.join(given).join("src");
    let source = |name: &str| -> PathBuf {
        let path = folder.join(name);
        println!("cargo:rerun-if-changed={}", path.display());
        path.canonicalize().unwrap_or_else(|_| {
            panic!("{} is not there: set YNV_RUST_SRC to the folder that holds src/{name}", path.display())
        })
    };
    let (math, resource, ynv) = (source("math.rs"), source("resource.rs"), source("ynv.rs"));

    let out = PathBuf::from(env::var_os("OUT_DIR").unwrap());
    let copy = out.join("ynv.rs");
    let text = fs::read_to_string(&ynv).expect("ynv.rs is text");
    fs::write(&copy, text + ACCESS).unwrap();

    let declared = |path: &Path, name: &str| {
        format!("#[allow(dead_code, unused_imports)]\n#[path = {:?}]\npub mod {name};\n", path.to_str().unwrap())
    };
    let modules = [declared(&math, "math"), declared(&resource, "resource_source"), declared(&copy, "ynv")].concat();
    fs::write(out.join("modules.rs"), modules).unwrap();
}
