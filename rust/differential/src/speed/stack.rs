//! How much stack the archive's functions use: each works on a thread whose stack is memory of ours, filled with a mark.

use super::kinds::{Kind, Source};
use super::verdict::{most, Mark};
use crate::screen::progress;
use judge::archive;
use model::blocks::Legal;
use model::random::Random;
use model::{Shape, FOOTPRINTS};
use std::ffi::{c_int, c_ulong, c_void};
use std::hint::black_box;
use std::ptr;

/// The bytes of stack that a function may use at the most.
const MOST: usize = 8192;

/// The blocks of an image's side.
const SIDE: usize = 8;

/// A page of the largest size that systems have: they want whole ones for a stack.
#[derive(Clone)]
#[repr(C, align(65536))]
struct Page([u8; 65536]);

/// The pages of a thread's stack.
const PAGES: usize = 4;
/// What a byte of them holds that nothing was written to.
const UNUSED: u8 = 0xa5;

/// The system's attributes of a thread, which nowhere are larger.
#[repr(C, align(16))]
struct Attributes([u8; 256]);

extern "C" {
    fn pthread_attr_init(attributes: *mut Attributes) -> c_int;
    fn pthread_attr_setstack(attributes: *mut Attributes, stack: *mut c_void, size: usize)
        -> c_int;
    fn pthread_attr_destroy(attributes: *mut Attributes) -> c_int;
    fn pthread_create(
        thread: *mut c_ulong,
        attributes: *const Attributes,
        start: extern "C" fn(*mut c_void) -> *mut c_void,
        argument: *mut c_void,
    ) -> c_int;
    fn pthread_join(thread: c_ulong, result: *mut *mut c_void) -> c_int;
}

/// Some work, and where the stack stood when it was called.
struct Job<'a> {
    work: &'a mut dyn FnMut(),
    stood: usize,
}

extern "C" fn start(job: *mut c_void) -> *mut c_void {
    // SAFETY: it is the job of `used`, which waits for this thread.
    let job = unsafe { &mut *job.cast::<Job>() };
    let here = 0u8;
    job.stood = ptr::from_ref(black_box(&here)) as usize;
    (job.work)();
    ptr::null_mut()
}

/// The bytes of stack that some work uses, with the few that its call takes: how far below the frame of `start` its thread wrote.
fn used(work: &mut dyn FnMut()) -> usize {
    let mut stack = vec![Page([UNUSED; 65536]); PAGES];
    let (base, size) = (stack.as_mut_ptr().cast::<u8>(), size_of_val(&stack[..]));
    let mut job = Job { work, stood: 0 };
    let mut attributes = Attributes([0; 256]);
    let mut thread = 0;
    // SAFETY: the attributes are initialised first, and stack and job live until the thread has ended.
    unsafe {
        assert_eq!(pthread_attr_init(&mut attributes), 0);
        assert_eq!(pthread_attr_setstack(&mut attributes, base.cast(), size), 0);
        let argument = ptr::from_mut(&mut job).cast();
        assert_eq!(pthread_create(&mut thread, &attributes, start, argument), 0);
        assert_eq!(pthread_join(thread, ptr::null_mut()), 0);
        assert_eq!(pthread_attr_destroy(&mut attributes), 0);
    }
    // SAFETY: the place is one of the stack's, and the thread that wrote to it has ended.
    let is_unused = |i: &usize| unsafe { base.add(*i).read_volatile() } == UNUSED;
    let unused = (0..size).take_while(is_unused).count();
    assert!(unused > 0, "the stack was large enough");
    job.stood - (base as usize + unused)
}

/// The images that the functions work on: for each kind and footprint one of a few blocks, with an edge that cuts blocks, and one
/// of any bits, most of which break a rule.
fn images() -> Vec<(Vec<u8>, Shape)> {
    let mut images = Vec::new();
    let random = &mut Random::new(1);
    for (bw, bh) in FOOTPRINTS {
        progress(|| format!("blocks are made at {bw}x{bh}"));
        let shape = Shape {
            width: SIDE * bw - 1,
            height: SIDE * bh - 1,
            bw,
            bh,
        };
        let legal = Legal::at(bw, bh);
        for kind in Kind::ALL {
            let source = Source::new(kind, &legal);
            images.push((source.data(shape.blocks()), shape));
        }
        let any = (0..shape.blocks()).flat_map(|_| random.block()).collect();
        images.push((any, shape));
    }
    images
}

/// The bytes of stack that each function uses, by name.
fn functions() -> [(&'static str, usize); 5] {
    let images = images();
    let room = images.iter().map(|(_, shape)| shape.pixels()).max();
    let out = &mut vec![0; room.expect("there are images")];
    let (map, moved) = (&mut [0; 9], &mut [0; 3]);
    let block = used(&mut || {
        for (data, shape) in &images {
            for block in data.chunks(16) {
                black_box(archive::decode_block(block, shape.bw, shape.bh, out));
            }
        }
    });
    let map = used(&mut || {
        for (data, shape) in &images {
            for block in data.chunks(16) {
                black_box(archive::block_map(block, shape.bw, shape.bh, map));
            }
        }
    });
    let (numbers, marks) = (&mut [0; 4 * 144], &mut [0; 144]);
    let channels = used(&mut || {
        for (data, shape) in &images {
            for block in data.chunks(16) {
                let (bw, bh) = (shape.bw, shape.bh);
                black_box(archive::block_channels(0, block, bw, bh, numbers, marks));
            }
        }
    });
    let image = used(&mut || {
        for (data, shape) in &images {
            black_box(archive::decode_image(data, *shape, out));
        }
    });
    let step = used(&mut || {
        for (data, shape) in &images {
            for next in (0..shape.blocks()).step_by(3) {
                black_box(archive::image_step(data, *shape, next, 3, out, moved));
            }
        }
    });
    [
        ("astc_decode_block", block),
        ("astc_block_map", map),
        ("astc_block_channels", channels),
        ("astc_decode_image", image),
        ("astc_image_step", step),
    ]
}

/// Measures the stack of the functions; the mark on it.
pub fn measure() -> Vec<Mark> {
    say!("\nbytes of stack, at most, over blocks and images of all kinds at all footprints");
    let functions = functions();
    for (name, bytes) in functions {
        say!("{name:<20}{bytes:>6}");
    }
    let largest = most(&functions.map(|(_, bytes)| bytes as f64));
    vec![Mark::at_most("bytes of stack, most", largest, MOST as f64)]
}

#[cfg(test)]
mod tests {
    use super::*;

    #[test]
    fn an_array_on_the_stack_is_seen() {
        let bytes = used(&mut || {
            let array = [black_box(1u8); 20_000];
            black_box(&array);
        });
        assert!((20_000..20_200).contains(&bytes), "{bytes}");
        assert!(used(&mut || {}) < 200);
    }

    #[test]
    fn the_functions_use_little_stack() {
        for (name, bytes) in functions() {
            assert!(bytes <= MOST, "{name} uses {bytes} bytes of stack");
        }
    }
}
