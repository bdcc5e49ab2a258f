//! An image by several threads: a band of rows of blocks is an image of its own.

use crate::image::check;
use crate::{decode_image, image_channels, Answer, Channel, Footprint};
use std::io;
use std::sync::{Mutex, PoisonError};
use std::thread::{self, Builder, Scope};

/// A function that writes an image's pixels: its data, its width and height, its footprint, and where the pixels go.
type Paint<P> = fn(&[u8], usize, usize, Footprint, &mut [P]) -> Result<(), Answer>;

/// A function that starts a thread for some work; or the system starts none, and the work is left alone.
type Start = for<'scope> fn(&'scope Scope<'scope, '_>, &'scope Work<'scope>) -> io::Result<()>;

/// What each thread does.
type Work<'scope> = dyn Fn() + Sync + 'scope;

/// Starts a thread of the system.
fn start<'scope>(scope: &'scope Scope<'scope, '_>, work: &'scope Work<'scope>) -> io::Result<()> {
    Builder::new().spawn_scoped(scope, work).map(drop)
}

/// How an image is shared out.
struct Sharing<P> {
    /// The most threads that work at once, this one among them; 0 counts as 1.
    threads: usize,
    start: Start,
    paint: Paint<P>,
}

impl<P: Send> Sharing<P> {
    /// Shares an image's rows of blocks out, in as many bands as there may be threads. Each thread takes bands until none is left,
    /// and so does this one: it paints what threads that were not started would have painted.
    fn paint(
        &self,
        data: &[u8],
        width: usize,
        height: usize,
        footprint: Footprint,
        out: &mut [P],
    ) -> Result<(), Answer> {
        check(data, width, height, footprint, out.len())?;
        let rows = height.div_ceil(footprint.height());
        let band = rows.div_ceil(self.threads.clamp(1, rows));
        let bytes = band * width.div_ceil(footprint.width()) * 16;
        let pixels = band * footprint.height() * width;
        let out = out[..width * height].chunks_mut(pixels);
        let bands = Mutex::new(data.chunks(bytes).zip(out));
        let next = || {
            let mut bands = bands.lock().unwrap_or_else(PoisonError::into_inner);
            bands.next()
        };
        let work = || {
            while let Some((data, out)) = next() {
                // never refused: the image was checked, and a band of it is an image
                let _ = (self.paint)(data, width, out.len() / width, footprint, out);
            }
        };
        thread::scope(|scope| {
            // where the system starts no thread, it is not asked for another
            let _ = (1..rows.div_ceil(band)).try_for_each(|_| (self.start)(scope, &work));
            work();
        });
        Ok(())
    }
}

/// Paints an image as [`decode_image`] does, its rows of blocks shared out among at most so many threads.
///
/// The result and `out` are those of [`decode_image`], whatever the number of threads; 0 counts as 1. The calling thread is one of
/// them, and paints alone where the system starts no other.
pub fn decode_image_by_threads(
    data: &[u8],
    width: usize,
    height: usize,
    footprint: Footprint,
    out: &mut [u32],
    threads: usize,
) -> Result<(), Answer> {
    let paint = decode_image;
    let sharing = Sharing {
        threads,
        start,
        paint,
    };
    sharing.paint(data, width, height, footprint, out)
}

/// Writes an image's channels as [`image_channels`] does, its rows of blocks shared out among at most so many threads.
///
/// The result and `out` are those of [`image_channels`], whatever the number of threads; 0 counts as 1. The calling thread is one
/// of them, and works alone where the system starts no other.
///
/// ```
/// use astc::{image_channels_by_threads, Channel, Footprint};
/// let light = [0xfc, 0xff, 0xff, 0xff, 0xff, 0xff, 0xff, 0xff, 0, 0x3c, 0, 0x40, 0, 0x44, 0, 0x3c];
/// let data = [light, light].concat();
/// let mut pixels = [[Channel::Byte(0); 4]; 32];
/// let footprint = Footprint::new(4, 4).unwrap();
/// image_channels_by_threads(&data, 4, 8, footprint, &mut pixels, 2)?;
/// assert_eq!(pixels, [[1.0, 2.0, 4.0, 1.0].map(Channel::Float); 32]);
/// # Ok::<(), astc::Answer>(())
/// ```
pub fn image_channels_by_threads(
    data: &[u8],
    width: usize,
    height: usize,
    footprint: Footprint,
    out: &mut [[Channel; 4]],
    threads: usize,
) -> Result<(), Answer> {
    let paint = image_channels;
    let sharing = Sharing {
        threads,
        start,
        paint,
    };
    sharing.paint(data, width, height, footprint, out)
}

#[cfg(test)]
mod tests {
    use super::*;
    use std::sync::atomic::{AtomicUsize, Ordering};
    use std::vec;

    const WIDTH: usize = 13;
    const HEIGHT: usize = 50;

    /// The image that a way of starting threads gives, of void blocks of a colour each.
    fn image(start: Start, threads: usize) -> vec::Vec<u32> {
        let footprint = Footprint::ALL[0];
        let block = |n: u8| {
            [
                0xfc, 0xfd, 255, 255, 255, 255, 255, 255, 0, n, 0, 2, 0, 3, 0, 4,
            ]
        };
        let blocks = 0..footprint.blocks(WIDTH, HEIGHT) as u8;
        let data: vec::Vec<u8> = blocks.flat_map(block).collect();
        let mut out = vec![7; WIDTH * HEIGHT + 3];
        let sharing = Sharing {
            threads,
            start,
            paint: decode_image,
        };
        let outcome = sharing.paint(&data, WIDTH, HEIGHT, footprint, &mut out);
        assert_eq!(outcome, Ok(()));
        out
    }

    fn start_none<'scope>(_: &'scope Scope<'scope, '_>, _: &'scope Work<'scope>) -> io::Result<()> {
        Err(io::ErrorKind::WouldBlock.into())
    }

    #[test]
    fn the_image_is_whole_where_no_thread_starts() {
        let whole = image(start, 1);
        assert!(whole[WIDTH * HEIGHT..].iter().all(|word| *word == 7));
        assert!(!whole[..WIDTH * HEIGHT].contains(&7));
        for threads in [0, 1, 2, 3, 13, 1000] {
            assert!(image(start_none, threads) == whole, "{threads} threads");
        }
    }

    #[test]
    fn the_image_is_whole_where_only_some_threads_start() {
        static ASKED: AtomicUsize = AtomicUsize::new(0);
        fn start_two<'scope>(
            scope: &'scope Scope<'scope, '_>,
            work: &'scope Work<'scope>,
        ) -> io::Result<()> {
            match ASKED.fetch_add(1, Ordering::Relaxed) {
                0 | 1 => start(scope, work),
                _ => Err(io::ErrorKind::WouldBlock.into()),
            }
        }
        assert!(image(start_two, 13) == image(start, 1));
        assert_eq!(ASKED.load(Ordering::Relaxed), 3);
    }

    #[test]
    fn this_thread_is_one_of_them() {
        static STARTED: AtomicUsize = AtomicUsize::new(0);
        fn start_counted<'scope>(
            scope: &'scope Scope<'scope, '_>,
            work: &'scope Work<'scope>,
        ) -> io::Result<()> {
            STARTED.fetch_add(1, Ordering::Relaxed);
            start(scope, work)
        }
        for (threads, others) in [(0, 0), (1, 0), (2, 1), (3, 2)] {
            STARTED.store(0, Ordering::Relaxed);
            image(start_counted, threads);
            assert_eq!(STARTED.load(Ordering::Relaxed), others);
        }
    }
}
