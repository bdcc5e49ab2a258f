//! The original's modules as the build script copied them.
#![allow(dead_code, mismatched_lifetime_syntaxes, unused_imports, clippy::all)]

include!(concat!(env!("OUT_DIR"), "/modules.rs"));
