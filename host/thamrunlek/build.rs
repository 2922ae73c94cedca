//! Links the library, as an archive.

use std::{env, path::PathBuf};

fn main() {
    let dir = match env::var_os("THAMRUNLEK_LIB_DIR") {
        Some(dir) => PathBuf::from(dir),
        None => PathBuf::from(env::var_os("CARGO_MANIFEST_DIR").expect("cargo sets it")).join("../../target/lib"),
    };
    let archive = dir.join("libthamrunlek.a");
    println!("cargo:rerun-if-env-changed=THAMRUNLEK_LIB_DIR");
    println!("cargo:rerun-if-changed={}", archive.display());
    assert!(
        archive.is_file(),
        "{} is missing. host/library/build.sh makes it; THAMRUNLEK_LIB_DIR names another folder.",
        archive.display()
    );
    println!("cargo:rustc-link-search=native={}", dir.display());
    println!("cargo:rustc-link-lib=static=thamrunlek");
}
