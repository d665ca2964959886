//! Links the proved static library where it was built, and says by a flag that it was not.

use std::env;
use std::path::Path;

fn main() {
    println!("cargo::rustc-check-cfg=cfg(no_plaits, no_leaves)");
    if env::var_os("DEP_PLAITS_ABSENT").is_some() {
        println!("cargo::rustc-cfg=no_plaits");
    }
    let manifest = env::var_os("CARGO_MANIFEST_DIR").expect("cargo sets it");
    let folder = Path::new(&manifest).join("../../target/staticlib");
    let names = ["leaves_abi", "voices_abi"];
    for name in names {
        println!("cargo::rerun-if-changed={}", folder.join(format!("lib{name}.a")).display());
    }
    if names.iter().all(|name| folder.join(format!("lib{name}.a")).exists()) {
        println!("cargo::rustc-link-search=native={}", folder.display());
        names.iter().for_each(|name| println!("cargo::rustc-link-lib=static={name}"));
    } else {
        println!("cargo::rustc-cfg=no_leaves");
    }
}
