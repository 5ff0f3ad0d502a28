//! Links out/libtensor.a, which ./build/library makes; TENSOR_LIBRARY names another folder.

use std::env;

fn main() {
    let here = env::var("CARGO_MANIFEST_DIR").expect("cargo says where the package is");
    let folder = env::var("TENSOR_LIBRARY").unwrap_or(format!("{here}/../../out"));
    println!("cargo:rerun-if-env-changed=TENSOR_LIBRARY");
    println!("cargo:rerun-if-changed={folder}/libtensor.a");
    println!("cargo:rustc-link-search=native={folder}");
    println!("cargo:rustc-link-lib=static=tensor");
}
