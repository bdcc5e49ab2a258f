//! astcenc beside the other two decoders, where it was there to build with.

use super::drawing::{self, Light};
use model::Shape;

pub use there::{Rival, THERE};

/// How an image's blocks are read.
#[derive(Clone, Copy, PartialEq, Eq)]
pub enum Profile {
    Ldr,
    Hdr,
}

/// The drawn picture at a footprint, encoded at medium quality.
pub fn encoded(drawn: &[Light], profile: Profile, shape: Shape) -> Vec<u8> {
    match profile {
        Profile::Ldr => there::encode_bytes(&drawing::ldr(drawn), shape),
        Profile::Hdr => there::encode_floats(&drawing::hdr(drawn), shape),
    }
}

#[cfg(astcenc)]
mod there {
    use super::Profile;
    use crate::shim::Context;
    use model::Shape;

    pub use crate::shim::{encode_bytes, encode_floats};

    pub const THERE: bool = true;

    /// From a byte to the next, as floats.
    const STEP: f32 = 1.0 / 255.0;

    /// astcenc's state for images of one footprint and profile.
    pub struct Rival {
        context: Context,
        profile: Profile,
    }

    impl Rival {
        pub fn new(footprint: (usize, usize), profile: Profile) -> Option<Self> {
            Some(Rival {
                context: Context::new(footprint, profile == Profile::Hdr),
                profile,
            })
        }

        /// Paints red, green, blue and alpha of each pixel, as bytes: that is what the other two make of HDR blocks too.
        pub fn paint(&mut self, data: &[u8], shape: Shape, bytes: &mut [u8]) {
            self.context.paint(data, (shape.width, shape.height), bytes);
        }

        /// Paints red, green, blue and alpha of each pixel, as floats.
        pub fn paint_floats(&mut self, data: &[u8], shape: Shape, floats: &mut [f32]) {
            self.context
                .paint_floats(data, (shape.width, shape.height), floats);
        }

        /// Whether LDR floats are these to within a byte's step, and HDR ones are not below them by more.
        pub fn is_like_floats(&self, theirs: &[f32], ours: &[f32]) -> bool {
            let like = |(theirs, ours): (&f32, &f32)| {
                let above = ours - theirs;
                let least = match self.profile {
                    Profile::Ldr => -STEP,
                    Profile::Hdr => f32::NEG_INFINITY,
                };
                (least..=STEP).contains(&above)
            };
            theirs.iter().zip(ours).all(like)
        }

        /// Whether LDR bytes are these words to within 1 in each channel.
        pub fn is_like(&self, bytes: &[u8], words: &[u32]) -> bool {
            let like = |(theirs, word): (&[u8], &u32)| {
                let [blue, green, red, alpha] = word.to_le_bytes();
                let ours = [red, green, blue, alpha];
                ours.iter().zip(theirs).all(|(a, b)| a.abs_diff(*b) <= 1)
            };
            self.profile == Profile::Hdr || bytes.chunks_exact(4).zip(words).all(like)
        }
    }
}

#[cfg(not(astcenc))]
mod there {
    use super::Profile;
    use model::Shape;

    pub const THERE: bool = false;

    /// There is none.
    pub enum Rival {}

    impl Rival {
        pub fn new(_: (usize, usize), _: Profile) -> Option<Self> {
            None
        }

        pub fn paint(&mut self, _: &[u8], _: Shape, _: &mut [u8]) {
            match *self {}
        }

        pub fn paint_floats(&mut self, _: &[u8], _: Shape, _: &mut [f32]) {
            match *self {}
        }

        pub fn is_like_floats(&self, _: &[f32], _: &[f32]) -> bool {
            match *self {}
        }

        pub fn is_like(&self, _: &[u8], _: &[u32]) -> bool {
            match *self {}
        }
    }

    pub fn encode_bytes(_: &[u8], _: Shape) -> Vec<u8> {
        unreachable!("nothing is encoded without astcenc")
    }

    pub fn encode_floats(_: &[f32], _: Shape) -> Vec<u8> {
        unreachable!("nothing is encoded without astcenc")
    }
}
