//! Links libchip_c.a, which `tools/archive chip_c` writes to target/staticlib/. CHIP_ARCHIVE names another folder of it.

use std::{env, path::PathBuf};

fn main() {
    println!("cargo::rerun-if-env-changed=CHIP_ARCHIVE");
    let here = PathBuf::from(env::var("CARGO_MANIFEST_DIR").unwrap());
    let folder = env::var("CHIP_ARCHIVE").map_or_else(|_| here.join("../../../target/staticlib"), PathBuf::from);
    let archive = folder.join("libchip_c.a");
    assert!(archive.exists(), "no {}: `tools/archive chip_c` comes first", archive.display());
    println!("cargo::rerun-if-changed={}", archive.display());
    println!("cargo::rustc-link-search=native={}", folder.display());
    println!("cargo::rustc-link-lib=static=chip_c");
}
