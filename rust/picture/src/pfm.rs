//! Pictures of red, green and blue as floats: PFM.

use astc::Channel;

/// Red, green and blue of a pixel as floats, 1.0 for white. Its alpha is left out, which a PFM file has no place for.
pub fn colour([red, green, blue, _]: [Channel; 4]) -> [f32; 3] {
    [red, green, blue].map(Channel::to_f32)
}

/// Whether a pixel's red, green or blue lies above 1.0: infinity does, a NaN does not.
pub fn is_above_one(pixel: &[f32; 3]) -> bool {
    pixel.iter().any(|&channel| channel > 1.0)
}

/// A PFM file of pixels that are given row by row from the top; it has its rows from the bottom up, and each float's low byte first.
pub fn pfm(pixels: &[[f32; 3]], width: usize, height: usize) -> Vec<u8> {
    let mut file = format!("PF\n{width} {height}\n-1.0\n").into_bytes();
    file.reserve_exact(12 * pixels.len());
    for row in pixels.rchunks(width) {
        file.extend(row.as_flattened().iter().flat_map(|f| f.to_le_bytes()));
    }
    file
}

#[cfg(test)]
mod tests {
    use super::*;

    #[test]
    fn the_last_row_comes_first() {
        let file = pfm(&[[1.0, 2.0, -0.0], [0.0, f32::INFINITY, 0.5]], 1, 2);
        let (header, floats) = file.split_at(12);
        assert_eq!(header, b"PF\n1 2\n-1.0\n");
        let floats: Vec<u32> = floats
            .chunks(4)
            .map(|b| u32::from_le_bytes(b.try_into().unwrap()))
            .collect();
        assert_eq!(floats[..3], [0, 0x7f80_0000, 0x3f00_0000]);
        assert_eq!(floats[3..], [0x3f80_0000, 0x4000_0000, 0x8000_0000]);
    }

    #[test]
    fn above_one() {
        for (channel, above) in [
            (1.0, false),
            (f32::from_bits(0x3f80_0001), true),
            (65504.0, true),
            (f32::INFINITY, true),
            (f32::NEG_INFINITY, false),
            (f32::NAN, false),
        ] {
            for k in 0..3 {
                let mut pixel = [0.5, f32::NAN, 0.0];
                pixel[k] = channel;
                assert_eq!(is_above_one(&pixel), above);
            }
        }
    }

    #[test]
    fn bytes_are_shares_of_255() {
        let pixel = [
            Channel::Byte(255),
            Channel::Byte(51),
            Channel::Float(7.0),
            Channel::Float(9.0),
        ];
        assert_eq!(colour(pixel), [1.0, 0.2, 7.0]);
        assert!(!is_above_one(&colour(
            [255, 0, 255, 255].map(Channel::Byte)
        )));
    }
}
