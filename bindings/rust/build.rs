//! Links the archive libcapi.a of the folder that ONGDHUSE_LIB names, or of target/staticlib at the top of the repository.
use std::{env, path::PathBuf};

fn main() {
    println!("cargo:rerun-if-env-changed=ONGDHUSE_LIB");
    let folder = env::var_os("ONGDHUSE_LIB").map(PathBuf::from).unwrap_or_else(|| {
        let here = PathBuf::from(env::var_os("CARGO_MANIFEST_DIR").expect("cargo sets the manifest's folder"));
        here.join("../../target/staticlib")
    });
    let archive = folder.join("libcapi.a");
    assert!(
        archive.is_file(),
        "no archive {}: run `bindings/archive`, or set ONGDHUSE_LIB to the folder that holds it",
        archive.display()
    );
    println!("cargo:rerun-if-changed={}", archive.display());
    println!("cargo:rustc-link-search=native={}", folder.display());
    println!("cargo:rustc-link-lib=static=capi");
}
