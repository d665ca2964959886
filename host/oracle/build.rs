//! Points the crate at the Rust source, which is built where it lies; only its `utils` is copied to the build's own folder.
//!
//! The source is the folder that PLAITS_SRC names, either `src` itself or the folder that holds `src`,
//! and without PLAITS_SRC the folder shared/docs/src/src beside the repository.
//! Without a source the crate is built empty, under the flag `no_plaits`.

use std::fmt::Write;
use std::path::{Path, PathBuf};
use std::{env, fs, io};

/// The files taken one by one; `utils` is taken whole, by its own mod.rs.
const MODULES: [(&str, &[&str]); 3] = [
    ("noise", &["dust"]),
    ("physical_modelling", &["modal_voice", "resonator", "string", "string_voice"]),
    ("resources", &["stiffness", "svf"]),
];

fn main() -> io::Result<()> {
    println!("cargo::rerun-if-env-changed=PLAITS_SRC");
    println!("cargo::rustc-check-cfg=cfg(no_plaits)");
    let Some(source) = find_source() else {
        println!("cargo::rustc-cfg=no_plaits");
        println!("cargo::metadata=absent=1");
        return Ok(());
    };
    println!("cargo::rustc-env=PLAITS_FOUND={}", source.display());
    let out = PathBuf::from(env::var_os("OUT_DIR").expect("cargo sets OUT_DIR"));
    let utils = out.join("utils");
    copy_utils(&source.join("utils"), &utils)?;
    fs::write(out.join("modules.rs"), modules(&source, &utils))
}

/// The folder that holds utils/mod.rs.
fn find_source() -> Option<PathBuf> {
    let named = env::var_os("PLAITS_SRC").filter(|folder| !folder.is_empty());
    let candidates = match &named {
        Some(folder) => vec![PathBuf::from(folder), Path::new(folder).join("src")],
        None => {
            let manifest = env::var_os("CARGO_MANIFEST_DIR").expect("cargo sets it");
            vec![Path::new(&manifest).join("../../../shared/docs/src/src")]
        }
    };
    for folder in candidates {
        println!("cargo::rerun-if-changed={}", folder.display());
        if folder.join("utils/mod.rs").is_file() {
            return folder.canonicalize().ok();
        }
    }
    if named.is_some() {
        println!("cargo::warning=PLAITS_SRC names no folder with utils/mod.rs or src/utils/mod.rs");
    }
    None
}

/// Copies every file of the source's `utils`, and puts an empty file for each module that it declares but lacks.
/// They are no links, which rt refuses anywhere in the repository.
fn copy_utils(source: &Path, utils: &Path) -> io::Result<()> {
    if utils.exists() {
        fs::remove_dir_all(utils)?;
    }
    fs::create_dir_all(utils)?;
    for entry in fs::read_dir(source)? {
        let file = entry?.path();
        if let Some(name) = file.file_name() {
            fs::copy(&file, utils.join(name))?;
        }
    }
    for line in fs::read_to_string(source.join("mod.rs"))?.lines() {
        let declared = line.strip_prefix("pub mod ").and_then(|rest| rest.strip_suffix(';'));
        let stub = declared.map(|name| utils.join(format!("{name}.rs")));
        if let Some(stub) = stub.filter(|stub| !stub.exists()) {
            fs::write(stub, "")?;
        }
    }
    Ok(())
}

/// The text that declares the source's modules at the root of the crate.
fn modules(source: &Path, utils: &Path) -> String {
    let mut text = String::new();
    module(&mut text, &utils.join("mod.rs"), "utils");
    for (folder, names) in MODULES {
        writeln!(text, "pub mod {folder} {{").expect("a String takes all");
        for name in names {
            let file = source.join(folder).join(name).with_extension("rs");
            module(&mut text, &file, name);
        }
        text.push_str("}\n");
    }
    text
}

fn module(text: &mut String, file: &Path, name: &str) {
    writeln!(text, "#[allow(warnings, clippy::all)]\n#[path = {file:?}]\npub mod {name};")
        .expect("a String takes all");
}
