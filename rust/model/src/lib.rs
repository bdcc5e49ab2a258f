//! The rules of docs/SCOPE.md on blocks and images, written a second time, since the original judges neither; the rules on channels, which
//! it does not have; and seeded sources of blocks.

pub mod blocks;
mod channels;
mod image;
pub mod random;
mod rules;

pub use channels::*;
pub use image::Shape;
pub use rules::*;
