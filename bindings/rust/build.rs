//! Links libhopsickle.a, from HOPSICKLE_LIB_DIR or from target/staticlib of the repository.

use std::env;
use std::path::PathBuf;

fn main() {
    let here = env::var_os("CARGO_MANIFEST_DIR").map(PathBuf::from).unwrap_or_default();
    let directory = match env::var_os("HOPSICKLE_LIB_DIR") {
        Some(given) => PathBuf::from(given),
        None => here.join("../../target/staticlib"),
    };
    let directory = directory.canonicalize().unwrap_or(directory);
    let library = directory.join("libhopsickle.a");
    if !library.exists() {
        println!(
            "cargo:warning={} isn't there: `bindings/staticlib` makes it",
            library.display()
        );
    }
    println!("cargo:rerun-if-env-changed=HOPSICKLE_LIB_DIR");
    println!("cargo:rerun-if-changed={}", library.display());
    println!("cargo:rustc-link-search=native={}", directory.display());
    println!("cargo:rustc-link-lib=static=hopsickle");
}
