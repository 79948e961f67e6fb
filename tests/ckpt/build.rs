//! Links the proved engine's archive: the one that `make lib` writes, or that in CKPT_LIB_DIR.
use std::env;
use std::path::PathBuf;

fn main() {
    let made = || PathBuf::from(env::var("CARGO_MANIFEST_DIR").unwrap()).join("../../target/staticlib");
    let folder = env::var("CKPT_LIB_DIR").map_or_else(|_| made(), PathBuf::from);
    let archive = folder.join("libengine.a");
    assert!(archive.is_file(), "{} is missing: run `make lib` first", archive.display());
    println!("cargo:rustc-link-search=native={}", folder.display());
    println!("cargo:rustc-link-lib=static=engine");
    println!("cargo:rerun-if-changed={}", archive.display());
    println!("cargo:rerun-if-env-changed=CKPT_LIB_DIR");
}
