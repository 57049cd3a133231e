//! Finds the proved archive, `libjeulgopae.a`: in the folder that JEULGOPAE_LIB_DIR names, or where `rt lib` writes it.
use std::env;
use std::path::PathBuf;

fn main() {
    println!("cargo:rerun-if-env-changed=JEULGOPAE_LIB_DIR");
    let arch = env::var("CARGO_CFG_TARGET_ARCH").unwrap_or_default();
    if arch != "x86_64" {
        panic!("the proved archive is for x86-64 only (docs/C.md); this target is {arch}. The C tests under an emulator stand in for these.");
    }
    let dir = env::var_os("JEULGOPAE_LIB_DIR")
        .map(PathBuf::from)
        .unwrap_or_else(|| {
            PathBuf::from(env::var_os("CARGO_MANIFEST_DIR").expect("cargo sets it"))
                .join("../crates/jeulgopae/out")
        });
    let archive = dir.join("libjeulgopae.a");
    if !archive.exists() {
        panic!(
            "{} is not there: run `rt lib` in crates/jeulgopae first",
            archive.display()
        );
    }
    println!("cargo:rerun-if-changed={}", archive.display());
    println!("cargo:rustc-link-search=native={}", dir.display());
    println!("cargo:rustc-link-lib=static=jeulgopae");
}
