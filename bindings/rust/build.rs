//! Finds librbbank.a: in the folder that RBBANK_LIB names, else in bindings/out, where `make bindings` makes it.
use std::env;
use std::path::PathBuf;

fn main() {
    let folder = match env::var_os("RBBANK_LIB") {
        Some(folder) => PathBuf::from(folder),
        None => {
            PathBuf::from(env::var_os("CARGO_MANIFEST_DIR").expect("cargo sets it")).join("../out")
        }
    };
    let library = folder.join("librbbank.a");
    assert!(
        library.exists(),
        "{}: no such file; `make bindings` makes it",
        library.display()
    );
    println!("cargo:rerun-if-env-changed=RBBANK_LIB");
    println!("cargo:rerun-if-changed={}", library.display());
    println!("cargo:rustc-link-search=native={}", folder.display());
    println!("cargo:rustc-link-lib=static=rbbank");
}
