//! Links libsession_c.a, which `tools/archive session_c` writes to target/staticlib/. RCS956_ARCHIVE names another folder of it.

use std::{env, path::PathBuf};

fn main() {
    println!("cargo::rerun-if-env-changed=RCS956_ARCHIVE");
    let here = PathBuf::from(env::var("CARGO_MANIFEST_DIR").unwrap());
    let folder = env::var("RCS956_ARCHIVE").map_or_else(|_| here.join("../../../target/staticlib"), PathBuf::from);
    let archive = folder.join("libsession_c.a");
    assert!(archive.exists(), "no {}: `tools/archive session_c` comes first", archive.display());
    println!("cargo::rerun-if-changed={}", archive.display());
    println!("cargo::rustc-link-search=native={}", folder.display());
    println!("cargo::rustc-link-lib=static=session_c");
}
