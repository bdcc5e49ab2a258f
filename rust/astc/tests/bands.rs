//! An image by several threads equals the image by one, in words and in channels.
#![cfg(feature = "std")]

use astc::{
    decode_image, decode_image_by_threads, image_channels, image_channels_by_threads, Channel,
    Footprint,
};

mod common;
use common::{bits, blocks, Random};

const SIZES: [(usize, usize); 4] = [(1, 1), (29, 23), (64, 64), (3, 200)];
const THREADS: [usize; 8] = [0, 1, 2, 3, 4, 5, 7, 1000];

#[test]
fn any_number_of_threads_gives_the_same_image() {
    for footprint in Footprint::ALL {
        for (width, height) in SIZES {
            let data = blocks(&mut Random::new(1), footprint.blocks(width, height));
            let mut whole = vec![7; width * height + 3];
            decode_image(&data, width, height, footprint, &mut whole).unwrap();
            for threads in THREADS {
                let mut out = vec![7; width * height + 3];
                let answer =
                    decode_image_by_threads(&data, width, height, footprint, &mut out, threads);
                assert_eq!(answer, Ok(()));
                assert!(
                    out == whole,
                    "{footprint} {width}x{height}, {threads} threads"
                );
            }
        }
    }
}

#[test]
fn any_number_of_threads_gives_the_same_channels() {
    let before = [Channel::Float(-7.0); 4];
    for footprint in Footprint::ALL {
        for (width, height) in SIZES {
            let data = blocks(&mut Random::new(2), footprint.blocks(width, height));
            let mut whole = vec![before; width * height + 3];
            image_channels(&data, width, height, footprint, &mut whole).unwrap();
            for threads in THREADS {
                let mut out = vec![before; width * height + 3];
                let answer =
                    image_channels_by_threads(&data, width, height, footprint, &mut out, threads);
                assert_eq!(answer, Ok(()));
                assert!(
                    out.iter().map(bits).eq(whole.iter().map(bits)),
                    "{footprint} {width}x{height}, {threads} threads"
                );
            }
        }
    }
}

#[test]
fn a_refusal_is_that_of_one_thread() {
    let footprint = Footprint::ALL[0];
    let before = [Channel::Byte(7); 4];
    let calls = [
        (0, 4, 16, 16),
        (4, 5000, 16, 16),
        (usize::MAX, usize::MAX, 16, 16),
        (4, 4, 15, 16),
        (4, 4, 16, 15),
        (4, 5000, 15, 15),
        (4, 4, 15, 15),
    ];
    for (width, height, bytes, room) in calls {
        let data = vec![0; bytes];
        let (mut one, mut two) = (vec![7; room], vec![7; room]);
        let answer = decode_image_by_threads(&data, width, height, footprint, &mut two, 2);
        assert_eq!(
            answer,
            decode_image(&data, width, height, footprint, &mut one)
        );
        assert!(answer.is_err());
        assert!(one == two && two == vec![7; room]);
        let mut channels = vec![before; room];
        assert_eq!(
            answer,
            image_channels_by_threads(&data, width, height, footprint, &mut channels, 2)
        );
        assert!(channels == vec![before; room]);
    }
}
