//! Links the proved library. UDRASMIL_LIBRARY names the folder of libudrasmil.a; without it, that is where
//! `tools/library.sh` writes it.

use std::path::{Path, PathBuf};

fn main() {
    println!("cargo::rerun-if-env-changed=UDRASMIL_LIBRARY");
    let folder = std::env::var_os("UDRASMIL_LIBRARY").map_or_else(usual, PathBuf::from);
    let library = folder.join("libudrasmil.a");
    println!("cargo::rerun-if-changed={}", library.display());
    if !library.exists() {
        let missing = library.display();
        println!("cargo::error=there is no {missing}. Run tools/library.sh, or name the folder in UDRASMIL_LIBRARY.");
        return;
    }
    println!("cargo::rustc-link-search=native={}", folder.display());
    println!("cargo::rustc-link-lib=static=udrasmil");
}

fn usual() -> PathBuf {
    Path::new(env!("CARGO_MANIFEST_DIR")).join("../../target/native")
}
