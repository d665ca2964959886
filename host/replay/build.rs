//! Links the proved library of the leaves, and says what to do where it was not built.

use std::env;
use std::path::Path;

fn main() {
    let manifest = env::var_os("CARGO_MANIFEST_DIR").expect("cargo sets it");
    let folder = Path::new(&manifest).join("../../target/staticlib");
    let library = folder.join("libleaves_abi.a");
    println!("cargo::rerun-if-changed={}", library.display());
    if !library.exists() {
        println!(
            "cargo::error=the proved library is not built: run 'make target/staticlib/libleaves_abi.a' in the repository first"
        );
        return;
    }
    println!("cargo::rustc-link-search=native={}", folder.display());
    println!("cargo::rustc-link-lib=static=leaves_abi");
}
