//! Links the static libraries of the engine and of the field peer, which `tools/build
//! board field` makes.

use std::path::Path;

fn main() {
    let root = Path::new(env!("CARGO_MANIFEST_DIR")).join("../..");
    let folder = root.join("target/staticlib");
    println!("cargo:rustc-link-search=native={}", folder.display());
    for name in ["board", "field"] {
        let library = folder.join(format!("lib{name}.a"));
        println!("cargo:rerun-if-changed={}", library.display());
        if !library.exists() {
            panic!("target/staticlib/lib{name}.a is missing: run `tools/build {name}` first");
        }
        println!("cargo:rustc-link-lib=static={name}");
    }
}
