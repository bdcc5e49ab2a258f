//! Links libFuzzer's runtime, the file that FUZZER_RUNTIME names; tools/fuzz finds it.
use std::env;

fn main() {
    println!("cargo:rustc-check-cfg=cfg(libfuzzer)");
    println!("cargo:rerun-if-env-changed=FUZZER_RUNTIME");
    if let Ok(runtime) = env::var("FUZZER_RUNTIME") {
        println!("cargo:rerun-if-changed={runtime}");
        println!("cargo:rustc-cfg=libfuzzer");
        // the C library stands before the runtime on Rust's own line, and is named once more after it
        for link in [runtime.as_str(), "-lstdc++", "-lm", "-lgcc", "-lc"] {
            println!("cargo:rustc-link-arg-bins={link}");
        }
    }
}
