//! Says where the archive of tools/library.sh is: in the repository's target/staticlib, or in
//! the folder that ASTERIX_LIB_DIR names. The archive holds x86-64 code; for another target, or
//! without it, nothing is linked, and `cargo check` and `cargo doc` still work.

use std::{env, path::PathBuf};

fn main() {
    println!("cargo:rerun-if-env-changed=ASTERIX_LIB_DIR");
    let folder = match env::var_os("ASTERIX_LIB_DIR") {
        Some(folder) => PathBuf::from(folder),
        None => PathBuf::from(env::var_os("CARGO_MANIFEST_DIR").expect("cargo sets it")).join("../../target/staticlib"),
    };
    let archive = folder.join("libasterix.a");
    println!("cargo:rerun-if-changed={}", archive.display());
    let x86_64 = env::var("CARGO_CFG_TARGET_ARCH").as_deref() == Ok("x86_64");
    if x86_64 && archive.exists() {
        println!("cargo:rustc-link-search=native={}", folder.display());
        println!("cargo:rustc-link-lib=static=asterix");
    }
}
