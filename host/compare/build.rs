//! Takes over the oracle's flag `no_plaits`, under which nothing can be compared.

fn main() {
    println!("cargo::rerun-if-changed=build.rs");
    println!("cargo::rustc-check-cfg=cfg(no_plaits)");
    if std::env::var_os("DEP_PLAITS_ABSENT").is_some() {
        println!("cargo::rustc-cfg=no_plaits");
    }
}
