//! Links libflurry.a: from the folder that FLURRY_LIB names, or from `lib` at the top of the repository, where `./flurry-c` leaves it.
use std::{env, path::PathBuf};

fn main() {
    println!("cargo:rerun-if-env-changed=FLURRY_LIB");
    let folder = match env::var_os("FLURRY_LIB") {
        Some(folder) => PathBuf::from(folder),
        None => PathBuf::from(env::var_os("CARGO_MANIFEST_DIR").expect("cargo sets it")).join("../../lib"),
    };
    let archive = folder.join("libflurry.a");
    assert!(archive.exists(), "{} is not there: ./flurry-c makes it", archive.display());
    println!("cargo:rerun-if-changed={}", archive.display());
    println!("cargo:rustc-link-search=native={}", folder.display());
    println!("cargo:rustc-link-lib=static=flurry");
}
