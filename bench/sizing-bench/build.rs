//! Links the archive that SIZING_LIBRARY names.

use std::path::PathBuf;

fn main() {
    println!("cargo:rerun-if-env-changed=SIZING_LIBRARY");
    let Some(library) = std::env::var_os("SIZING_LIBRARY").map(PathBuf::from) else {
        panic!("SIZING_LIBRARY names no archive; run bench/sizing");
    };
    // A new archive under the old name is linked anew.
    println!("cargo:rerun-if-changed={}", library.display());
    println!("cargo:rustc-link-arg={}", library.display());
}
