//! Where astcenc's header is installed, builds the shim over its library.
use std::env;
use std::path::{Path, PathBuf};
use std::process::Command;

const HEADER: &str = "/usr/include/astcenc.h";

fn main() {
    println!("cargo:rustc-check-cfg=cfg(astcenc)");
    println!("cargo:rerun-if-changed=src/shim.cpp");
    println!("cargo:rerun-if-env-changed=CXX");
    if Path::new(HEADER).is_file() {
        println!("cargo:rerun-if-changed={HEADER}");
        if let Err(reason) = link_astcenc() {
            println!("cargo:warning=no shim over astcenc was built: {reason}");
        }
    } else {
        // a file that is never there lets cargo look again each time: an installed header is older than its installation
        println!("cargo:rerun-if-changed=src/no-such-file");
    }
}

/// Compiles the shim into an archive of its own, and links it with astcenc's library.
fn link_astcenc() -> Result<(), String> {
    let out = PathBuf::from(env::var("OUT_DIR").unwrap());
    let object = out.join("shim.o");
    let archive = out.join("libshim.a");
    let compiler = env::var("CXX").unwrap_or_else(|_| "c++".into());
    run(Command::new(compiler)
        .args(["-std=c++14", "-O2", "-Wall", "-Wextra", "-fPIC"])
        .args(["-DASTCENC_DYNAMIC_LIBRARY", "-c"])
        .args(["src/shim.cpp", "-o"])
        .arg(&object))?;
    run(Command::new("ar").arg("rcs").arg(&archive).arg(&object))?;
    println!("cargo:rustc-cfg=astcenc");
    println!("cargo:rustc-link-search=native={}", out.display());
    println!("cargo:rustc-link-lib=static=shim");
    println!("cargo:rustc-link-lib=astcenc");
    println!("cargo:rustc-link-lib=stdc++");
    Ok(())
}

fn run(command: &mut Command) -> Result<(), String> {
    match command.status() {
        Ok(status) if status.success() => Ok(()),
        Ok(status) => Err(format!("{command:?} ended with {status}")),
        Err(e) => Err(format!("{command:?} was not started: {e}")),
    }
}
