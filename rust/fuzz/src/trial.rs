//! What an input asks for, called for and judged.

use crate::fence::Fence;
use crate::input::Request;
use judge::block::{Call, NUMBERS};
use judge::channels::Outputs;
use judge::image::{self, Image, Moved, Step, MOVED};
use judge::Canvas;
use model::random::Random;
use model::Shape;
use std::cell::RefCell;
use std::process::abort;

thread_local! {
    static FENCE: RefCell<Fence> = RefCell::new(Fence::new());
}

/// Judges what an input asks for; at a difference says what it is and aborts, by which libFuzzer knows a finding.
pub fn judge(input: &[u8]) {
    let request = Request::read(input);
    let sum = |sum: u64, &byte: &u8| sum.rotate_left(5) ^ u64::from(byte);
    let random = &mut Random::new(input.iter().fold(0, sum));
    let outcome = FENCE.with_borrow_mut(|fence| request.judge(fence, random));
    if let Err(difference) = outcome {
        eprintln!("difference: {request}: {difference}");
        abort();
    }
}

impl Request {
    /// Holds the archive to what it must answer and write; what differs, if something does.
    fn judge(&self, fence: &mut Fence, random: &mut Random) -> Result<(), String> {
        match *self {
            Request::Words {
                bw,
                bh,
                bit,
                room,
                ref block,
            } => {
                let block = fence.hold(block);
                words(Call { block, bw, bh }, room, bit, random)
            }
            Request::Map {
                bw,
                bh,
                room,
                ref block,
            } => {
                let block = fence.hold(block);
                let map = &mut Canvas::new(room, random);
                Call { block, bw, bh }.map(map).map(|_| ())
            }
            Request::Channels {
                options,
                bw,
                bh,
                bit,
                room,
                ref block,
            } => {
                let block = fence.hold(block);
                let outputs = &mut Outputs::new(room, random);
                channels(Call { block, bw, bh }, options, outputs, bit)
            }
            Request::Image {
                shape,
                room,
                ref data,
            } => whole(fence.hold(data), shape, &mut Canvas::new(room, random)),
            Request::Steps {
                shape,
                step,
                places,
                paces,
                room,
                ref data,
            } => {
                let data = fence.hold(data);
                let canvas = &mut Canvas::new(room, random);
                let moved = &mut Moved::new(places, random);
                let Step { next, blocks } = step;
                match shape.step_refusal(data.len(), room, places, next, blocks) {
                    Some(answer) => step.refused(data, shape, answer, canvas, moved),
                    None => {
                        let image = &Image::new(shape, data)?;
                        image.step(step, canvas, moved)?;
                        all_steps(image, &paces, &mut Canvas::new(room, random), random)
                    }
                }
            }
        }
    }
}

fn words(call: Call, room: usize, bit: usize, random: &mut Random) -> Result<(), String> {
    let words = &mut Canvas::new(room, random);
    if call.words(words)? != 0 {
        return Ok(());
    }
    let map = &mut Canvas::new(NUMBERS, random);
    call.map(map)?;
    match changed(call, bit) {
        Some(bit) => call.same_without(bit, words, map),
        None => Ok(()),
    }
}

/// The unmapped bit of a legal block that is changed, by a number that chooses it, if there is one.
fn changed(call: Call, choice: usize) -> Option<usize> {
    let unmapped = call.unmapped();
    let bit = choice.checked_rem(unmapped.len())?;
    Some(unmapped.start + bit)
}

fn channels(call: Call, options: u32, outputs: &mut Outputs, bit: usize) -> Result<(), String> {
    if call.channels(options, outputs)? != 0 {
        return Ok(());
    }
    match changed(call, bit) {
        Some(bit) => call.same_channels_without(bit, outputs),
        None => Ok(()),
    }
}

fn whole(data: &[u8], shape: Shape, canvas: &mut Canvas) -> Result<(), String> {
    match shape.refusal(data.len(), canvas.room()) {
        Some(answer) => image::refused(data, shape, answer, canvas),
        None => Image::new(shape, data)?.whole(canvas),
    }
}

/// The image from its first block to its last one's end, in steps of these sizes in turn, and a step more.
fn all_steps(
    image: &Image,
    paces: &[usize],
    canvas: &mut Canvas,
    random: &mut Random,
) -> Result<(), String> {
    let mut next = 0;
    for &blocks in paces.iter().cycle() {
        let finished = next == image.blocks();
        let moved = &mut Moved::new(MOVED, random);
        next = image.step(Step { next, blocks }, canvas, moved)?;
        if finished {
            break;
        }
    }
    Ok(())
}

#[cfg(test)]
mod tests {
    use super::*;
    use crate::seeds;

    #[test]
    fn no_seed_differs() {
        let (fence, random) = (&mut Fence::new(), &mut Random::new(1));
        for seed in seeds::all() {
            Request::read(&seed).judge(fence, random).unwrap();
        }
    }
}
