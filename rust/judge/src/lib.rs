//! Holds calls of the archive to what they must answer and write, by the original and by the rules of docs/SCOPE.md. What is called, with
//! which blocks and sizes, is the caller's to choose.

pub mod archive;
pub mod block;
mod canvas;
pub mod channels;
pub mod image;
mod sample;

pub use canvas::{room, same_answer, Canvas, SPARE};
pub use sample::Sample;
