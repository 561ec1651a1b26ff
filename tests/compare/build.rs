//! Links the proved implementation: the library for C, and the codec's.

use std::env;
use std::path::Path;

/// Each library, as it stands in the folder lib/ beside this workspace.
const LIBRARIES: [&str; 2] = ["dock", "codec"];

fn main() {
    let manifest = env::var("CARGO_MANIFEST_DIR").expect("cargo names the manifest's folder");
    let folder = Path::new(&manifest).join("../../lib");
    println!("cargo::rustc-link-search=native={}", folder.display());
    for name in LIBRARIES {
        println!("cargo::rustc-link-lib=static={name}");
        let library = folder.join(format!("lib{name}.a"));
        println!("cargo::rerun-if-changed={}", library.display());
    }
}
