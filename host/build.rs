//! Links the archive that `host/library` writes, in target/library of the repository. BOOTH_ARCHIVE names another folder.
use std::{env, path::PathBuf};

fn main() {
    println!("cargo:rerun-if-env-changed=BOOTH_ARCHIVE");
    let here = PathBuf::from(env::var_os("CARGO_MANIFEST_DIR").unwrap());
    let folder = env::var_os("BOOTH_ARCHIVE").map_or(here.join("../target/library"), PathBuf::from);
    let archive = folder.join("libbooth.a");
    println!("cargo:rerun-if-changed={}", archive.display());
    if !archive.exists() {
        panic!("no {}: run host/library first, which proves and writes it", archive.display());
    }
    println!("cargo:rustc-env=BOOTH_FOUND={}", archive.display());
    println!("cargo:rustc-link-search=native={}", folder.display());
    println!("cargo:rustc-link-lib=static=booth");
    println!("cargo:rustc-link-lib=m");
}
