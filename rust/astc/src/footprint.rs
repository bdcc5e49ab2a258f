//! The fourteen footprints.

use core::error::Error;
use core::fmt;
use core::str::FromStr;

/// The footprint of a block: one of the fourteen, so that no call with it answers
/// [`Answer::Footprint`](crate::Answer::Footprint).
///
/// As text it is its width and height with an `x` between them, and it is read from exactly that text:
///
/// ```
/// use astc::Footprint;
/// let footprint: Footprint = "10x8".parse().unwrap();
/// assert_eq!((footprint.width(), footprint.height()), (10, 8));
/// assert_eq!(footprint.to_string(), "10x8");
/// assert!("8x10".parse::<Footprint>().is_err());
/// ```
#[derive(Clone, Copy, Debug, PartialEq, Eq, Hash)]
pub struct Footprint {
    width: u8,
    height: u8,
}

impl Footprint {
    /// All fourteen, the smallest first.
    pub const ALL: [Footprint; 14] = [
        Footprint::of(4, 4),
        Footprint::of(5, 4),
        Footprint::of(5, 5),
        Footprint::of(6, 5),
        Footprint::of(6, 6),
        Footprint::of(8, 5),
        Footprint::of(8, 6),
        Footprint::of(8, 8),
        Footprint::of(10, 5),
        Footprint::of(10, 6),
        Footprint::of(10, 8),
        Footprint::of(10, 10),
        Footprint::of(12, 10),
        Footprint::of(12, 12),
    ];

    const fn of(width: u8, height: u8) -> Footprint {
        Footprint { width, height }
    }

    /// The footprint of that width and height, if it is one of the fourteen.
    ///
    /// ```
    /// use astc::Footprint;
    /// assert!(Footprint::new(5, 4).is_some());
    /// assert!(Footprint::new(4, 5).is_none());
    /// ```
    pub fn new(width: usize, height: usize) -> Option<Footprint> {
        Footprint::ALL
            .into_iter()
            .find(|f| f.width() == width && f.height() == height)
    }

    /// The texels of a row.
    pub const fn width(self) -> usize {
        self.width as usize
    }

    /// The texels of a column.
    pub const fn height(self) -> usize {
        self.height as usize
    }

    /// The texels of a block.
    pub const fn texels(self) -> usize {
        self.width() * self.height()
    }

    /// The blocks of an image of so many pixels; with a side of more than 4,096 the number means nothing.
    ///
    /// ```
    /// use astc::Footprint;
    /// assert_eq!(Footprint::new(4, 4).unwrap().blocks(10, 4), 3);
    /// ```
    pub const fn blocks(self, width: usize, height: usize) -> usize {
        width
            .div_ceil(self.width())
            .wrapping_mul(height.div_ceil(self.height()))
    }
}

impl fmt::Display for Footprint {
    fn fmt(&self, f: &mut fmt::Formatter) -> fmt::Result {
        write!(f, "{}x{}", self.width, self.height)
    }
}

/// Why a text is not read as a [`Footprint`]: it is not the width and height of one of the fourteen with an `x` between them.
#[derive(Clone, Copy, Debug, PartialEq, Eq, Hash)]
pub struct NotAFootprint;

impl fmt::Display for NotAFootprint {
    fn fmt(&self, f: &mut fmt::Formatter) -> fmt::Result {
        f.write_str("a footprint is one of")?;
        Footprint::ALL
            .iter()
            .try_for_each(|one| write!(f, " {one}"))
    }
}

impl Error for NotAFootprint {}

impl FromStr for Footprint {
    type Err = NotAFootprint;

    fn from_str(text: &str) -> Result<Footprint, NotAFootprint> {
        let (width, height) = text.split_once('x').ok_or(NotAFootprint)?;
        let sides = side(width).zip(side(height));
        sides
            .and_then(|(width, height)| Footprint::new(width, height))
            .ok_or(NotAFootprint)
    }
}

/// A side in decimal digits, as it is written: without a sign, and without zeros before it.
fn side(text: &str) -> Option<usize> {
    let plain = text.starts_with(|first: char| ('1'..='9').contains(&first));
    text.parse().ok().filter(|_| plain)
}

#[cfg(test)]
mod tests {
    use super::*;
    use std::string::ToString;

    #[test]
    fn each_footprint_is_read_from_its_own_text() {
        for footprint in Footprint::ALL {
            assert_eq!(footprint.to_string().parse(), Ok(footprint));
        }
    }

    #[test]
    fn no_other_text_is_a_footprint() {
        for text in [
            "",
            "x",
            "6",
            "6x",
            "x6",
            "06x6",
            "6x06",
            "6X6",
            "+6x6",
            "6x+6",
            " 6x6",
            "6x6 ",
            "6 x 6",
            "6x6x1",
            "6xx6",
            "4x5",
            "7x7",
            "0x0",
            "-6x6",
            "6×6",
            "٦x٦",
            "18446744073709551622x6",
        ] {
            assert_eq!(text.parse::<Footprint>(), Err(NotAFootprint), "{text:?}");
        }
    }

    #[test]
    fn the_error_names_the_fourteen() {
        let words = NotAFootprint.to_string();
        assert!(words.starts_with("a footprint is one of 4x4 5x4 5x5 "));
        assert!(words.ends_with(" 12x10 12x12"));
    }
}
