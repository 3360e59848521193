//! Links libpresence_c.a, which `tools/archive presence_c` writes to target/staticlib/. PRESENCE_ARCHIVE names another folder of it.

use std::{env, path::PathBuf};

fn main() {
    println!("cargo::rerun-if-env-changed=PRESENCE_ARCHIVE");
    let here = PathBuf::from(env::var("CARGO_MANIFEST_DIR").unwrap());
    let folder = env::var("PRESENCE_ARCHIVE").map_or_else(|_| here.join("../../../target/staticlib"), PathBuf::from);
    let archive = folder.join("libpresence_c.a");
    assert!(archive.exists(), "no {}: `tools/archive presence_c` comes first", archive.display());
    println!("cargo::rerun-if-changed={}", archive.display());
    println!("cargo::rustc-link-search=native={}", folder.display());
    println!("cargo::rustc-link-lib=static=presence_c");
}
