//! Says what to install where the libraries for sound files and loudness are not there.

use std::env;
use std::fs;
use std::path::Path;
use std::process::Command;

fn main() {
    println!("cargo::rerun-if-changed=build.rs");
    let folder = env::var_os("OUT_DIR").expect("cargo sets it");
    let source = Path::new(&folder).join("probe.c");
    fs::write(&source, "int main(void) { return 0; }\n").expect("the folder is writable");
    let mut compiler = Command::new("cc");
    compiler.arg(&source).arg("-o").arg(source.with_extension("out"));
    let output = compiler.args(["-Wl,--no-as-needed", "-lsndfile", "-lebur128"]).output();
    if output.is_ok_and(|output| !output.status.success()) {
        println!(
            "cargo::error=libsndfile or libebur128 is not installed: install Debian's libsndfile1-dev and libebur128-dev"
        );
    }
}
