//! Pictures of .astc files: the container, and the files that a picture is written to.

pub mod container;
pub mod deflate;
pub mod pfm;
pub mod png;
