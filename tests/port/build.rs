//! Links the archives of the port, which tests/native-lib writes to target/native.
use std::{env, path::Path};

fn main() {
    let manifest = env::var("CARGO_MANIFEST_DIR").expect("cargo gives the manifest's directory");
    let native = Path::new(&manifest).join("../../target/native");
    for name in [
        "leaves",
        "vector_leaves",
        "cut_leaves",
        "fuse_leaf",
        "split_leaf",
        "mesh_leaf",
        "solid_leaves",
        "solid",
    ] {
        let archive = native.join(format!("lib{name}.a"));
        assert!(
            archive.exists(),
            "target/native/lib{name}.a is missing: run tests/run, or tests/native-lib {name} target/native/lib{name}.a"
        );
        println!("cargo:rerun-if-changed={}", archive.display());
        println!("cargo:rustc-link-lib=static={name}");
    }
    println!("cargo:rustc-link-search=native={}", native.display());
}
