//! Finds libferretgold.a, and with the feature `file` libferretgold_file.a beside it: in the folder that
//! FERRETGOLD_LIBRARIES names, else beside the crate where `make install` puts it, else where the
//! repository builds it.

use std::env;
use std::path::{Path, PathBuf};

fn found() -> Option<PathBuf> {
    if let Some(folder) = env::var_os("FERRETGOLD_LIBRARIES") {
        return Some(folder.into());
    }
    let here = PathBuf::from(env::var_os("CARGO_MANIFEST_DIR")?);
    ["../../../lib", "../src/out"]
        .iter()
        .map(|folder| here.join(folder))
        .find(|folder| is_there(folder, "libferretgold.a"))
}

fn is_there(folder: &Path, library: &str) -> bool {
    folder.join(library).exists()
}

fn main() {
    println!("cargo:rerun-if-env-changed=FERRETGOLD_LIBRARIES");
    let folder = found().expect("no libferretgold.a: FERRETGOLD_LIBRARIES names its folder");
    println!("cargo:rustc-link-search=native={}", folder.display());
    for library in ["libferretgold.a", "libferretgold_file.a"] {
        if is_there(&folder, library) {
            println!("cargo:rerun-if-changed={}", folder.join(library).display());
        }
    }
    if env::var_os("CARGO_FEATURE_FILE").is_some() {
        let is_built = is_there(&folder, "libferretgold_file.a");
        assert!(is_built, "no libferretgold_file.a: it needs xxhash.h");
        println!("cargo:rustc-link-lib=static=ferretgold_file");
    }
    println!("cargo:rustc-link-lib=static=ferretgold");
}
