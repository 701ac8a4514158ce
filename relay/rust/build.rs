//! Links the static library that `./library` makes; `FASHLEMOR_LIBRARY` names another folder to take it from.

use std::env;
use std::path::PathBuf;

fn main() {
    println!("cargo:rerun-if-env-changed=FASHLEMOR_LIBRARY");
    let folder = env::var_os("FASHLEMOR_LIBRARY").map_or_else(made_here, PathBuf::from);
    let library = folder.join("libfashlemor.a");
    println!("cargo:rerun-if-changed={}", library.display());
    if !library.exists() {
        println!("cargo:warning=there is no libfashlemor.a yet: run ./library at the top first");
    }
    println!("cargo:rustc-link-search=native={}", folder.display());
    println!("cargo:rustc-link-lib=static=fashlemor");
}

/// Where `./library` puts it.
fn made_here() -> PathBuf {
    let here = env::var_os("CARGO_MANIFEST_DIR").expect("cargo names the package's folder");
    PathBuf::from(here).join("../../target/staticlib")
}
