//! Copies the original's source from the folder that ASTC_ORIGINAL names, or from shared/docs/src beside the
//! repository, and appends the probes to its astc.rs. Nothing of the original is changed.
use std::path::{Path, PathBuf};
use std::process::exit;
use std::{env, fs};

/// The folder that has the original's source.
fn source(here: &Path) -> PathBuf {
    match env::var_os("ASTC_ORIGINAL") {
        Some(folder) => PathBuf::from(folder),
        None => here.join("../../../shared/docs/src"),
    }
}

/// The text of one of the original's files.
fn read(file: &Path) -> String {
    fs::read_to_string(file).unwrap_or_else(|error| {
        eprintln!(
            "the original's source was not read from {}: {error}. ASTC_ORIGINAL names the folder that has it",
            file.display()
        );
        exit(1);
    })
}

fn main() {
    let here = PathBuf::from(env::var("CARGO_MANIFEST_DIR").unwrap());
    println!("cargo:rerun-if-env-changed=ASTC_ORIGINAL");
    println!("cargo:rerun-if-changed=src/probe.rs");
    let source = source(&here);
    let out = PathBuf::from(env::var("OUT_DIR").unwrap());
    let mut modules = String::new();
    for name in ["astc", "bitreader", "color", "f16"] {
        let file = source.join(format!("{name}.rs"));
        println!("cargo:rerun-if-changed={}", file.display());
        let mut text = read(&file);
        if name == "astc" {
            text.push_str(&fs::read_to_string(here.join("src/probe.rs")).unwrap());
        }
        let copy = out.join(format!("{name}.rs"));
        fs::write(&copy, text).unwrap();
        modules.push_str(&format!("#[path = {copy:?}]\npub mod {name};\n"));
    }
    fs::write(out.join("modules.rs"), modules).unwrap();
}
