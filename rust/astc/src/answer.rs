//! The answers by number.

use core::error::Error;
use core::fmt;

/// The number of an answer that this version does not know. Only a number that no other [`Answer`] has makes one.
#[derive(Clone, Copy, Debug, PartialEq, Eq, Hash)]
pub struct UnknownAnswer(u32);

impl UnknownAnswer {
    /// The number.
    pub const fn number(self) -> u32 {
        self.0
    }
}

impl fmt::Display for UnknownAnswer {
    fn fmt(&self, f: &mut fmt::Formatter) -> fmt::Result {
        write!(f, "{} is no answer that this version knows", self.0)
    }
}

impl Error for UnknownAnswer {}

macro_rules! answers {
    ($($(#[$meaning:meta])* $name:ident = $number:literal: $words:literal,)*) => {
        /// What a call came to. The numbers are those of the C surface.
        ///
        /// As text it is what happened, with the number behind it:
        ///
        /// ```
        /// use astc::Answer;
        /// let words = "the grid of weights is wider or higher than the footprint (answer 11)";
        /// assert_eq!(Answer::GridTooLarge.to_string(), words);
        /// ```
        ///
        /// A number becomes an answer by `Answer::try_from`, which fails for a number that this version does not know. A call
        /// that answers by such a number gives [`Answer::Unknown`].
        ///
        /// ```
        /// use astc::Answer;
        /// assert_eq!(Answer::try_from(13), Ok(Answer::WeightBits));
        /// assert_eq!(Answer::try_from(99).unwrap_err().number(), 99);
        /// ```
        #[derive(Clone, Copy, Debug, PartialEq, Eq, Hash)]
        #[must_use = "an answer says what a call came to, and whether a block broke a rule"]
        #[non_exhaustive]
        pub enum Answer {
            $($(#[$meaning])* $name,)*
            /// An answer of a later archive, by a number that this version has no name for.
            Unknown(UnknownAnswer),
        }

        impl Answer {
            /// Every answer that has a name, by its number.
            pub const ALL: &'static [Answer] = &[$(Answer::$name,)*];

            /// The number of this answer.
            pub const fn number(self) -> u32 {
                match self {
                    $(Answer::$name => $number,)*
                    Answer::Unknown(unknown) => unknown.number(),
                }
            }
        }

        impl TryFrom<u32> for Answer {
            type Error = UnknownAnswer;

            fn try_from(number: u32) -> Result<Answer, UnknownAnswer> {
                match number {
                    $($number => Ok(Answer::$name),)*
                    _ => Err(UnknownAnswer(number)),
                }
            }
        }

        impl fmt::Display for Answer {
            fn fmt(&self, f: &mut fmt::Formatter) -> fmt::Result {
                match self {
                    $(Answer::$name => f.write_str($words)?,)*
                    Answer::Unknown(_) => f.write_str("this version does not know what the archive answered")?,
                }
                write!(f, " (answer {})", self.number())
            }
        }
    };
}

answers! {
    /// A legal block, painted. C functions also answer so for an image or a step that was accepted.
    Legal = 0: "the block is legal, or the image or step was accepted",
    /// A void-extent block, painted in its one colour.
    VoidExtent = 1: "the block is a void-extent block of one colour",
    /// A reserved block mode. This and those to [`Answer::TooLittleRoom`] are painted magenta.
    ReservedMode = 10: "the block mode is reserved",
    /// A grid of weights wider or higher than the footprint.
    GridTooLarge = 11: "the grid of weights is wider or higher than the footprint",
    /// More than 64 weights.
    TooManyWeights = 12: "the block has more than 64 weights",
    /// Fewer than 24 or more than 96 bits of weights.
    WeightBits = 13: "the weights take fewer than 24 or more than 96 bits",
    /// Two planes with four partitions.
    DualPlaneOfFour = 14: "the block has two planes and four partitions",
    /// More than 18 endpoint values.
    TooManyValues = 15: "the block has more than 18 endpoint values",
    /// Too few bits for the endpoint values.
    TooLittleRoom = 16: "the block has too few bits for its endpoint values",
    /// The block is not 16 bytes; the output is as it was.
    BlockLength = 20: "the block is not 16 bytes",
    /// The footprint is not one of the fourteen. A [`Footprint`](crate::Footprint) never gives it.
    Footprint = 21: "the footprint is not one of the fourteen",
    /// The output is shorter than what there is to write, and is as it was.
    OutputTooShort = 22: "the output is too short",
    /// Options that the C function does not take; the output is as it was. The functions of this crate never give it.
    Options = 23: "the function does not take these options",
    /// A side of the image is 0 or over 4,096; the output is as it was.
    ImageSide = 30: "a side of the image is 0 or over 4096",
    /// The data is not exactly 16 bytes a block; the output is as it was.
    DataLength = 31: "the data is not exactly 16 bytes a block",
    /// A step of 0 blocks; the output is as it was.
    NoBlocks = 33: "the step has 0 blocks",
    /// A step from above the number of blocks; the output is as it was.
    PastTheEnd = 34: "the step starts past the last block's end",
}

impl Error for Answer {}

impl From<UnknownAnswer> for Answer {
    fn from(unknown: UnknownAnswer) -> Answer {
        Answer::Unknown(unknown)
    }
}

impl Answer {
    /// Whether something was painted: so it was for every number below 20, and from 20 on the call was refused and left the output
    /// as it was. The C surface keeps to these numbers, so that they tell it of an answer without a name too.
    pub const fn is_painted(self) -> bool {
        self.number() < 20
    }

    /// Whether a block broke a rule and was painted magenta: so it was for the numbers 10 to 19, those without a name too.
    pub const fn is_bad(self) -> bool {
        self.number() >= 10 && self.is_painted()
    }

    /// The answer of a call that the archive answered by this number.
    pub(crate) fn of_call(number: u32) -> Answer {
        Answer::try_from(number).unwrap_or_else(Answer::from)
    }

    /// The answer where the call was carried out, and the refusal where it was not.
    pub(crate) fn carried_out(self) -> Result<Answer, Answer> {
        if self.is_painted() {
            Ok(self)
        } else {
            Err(self)
        }
    }

    /// Nothing where an image or a step was carried out, and the refusal where it was not.
    pub(crate) fn accepted(self) -> Result<(), Answer> {
        self.carried_out().map(|_| ())
    }
}

#[cfg(test)]
mod tests {
    use super::*;
    use std::string::ToString;

    #[test]
    fn an_answer_without_a_name_tells_its_number() {
        let words = "this version does not know what the archive answered (answer 99)";
        assert_eq!(Answer::of_call(99).to_string(), words);
        let unknown = Answer::try_from(99).unwrap_err();
        let words = "99 is no answer that this version knows";
        assert_eq!(unknown.to_string(), words);
    }

    #[test]
    fn every_number_is_the_number_of_its_answer() {
        for number in (0..100).chain([1 << 31, u32::MAX]) {
            let answer = Answer::of_call(number);
            assert_eq!(answer.number(), number);
            let named = Answer::ALL.contains(&answer);
            assert_eq!(Answer::try_from(number).is_ok(), named);
            assert_eq!(matches!(answer, Answer::Unknown(_)), !named);
        }
    }

    #[test]
    fn numbers_without_a_name_are_judged_by_their_tens() {
        for (number, painted, bad) in [
            (2, true, false),
            (9, true, false),
            (17, true, true),
            (19, true, true),
            (24, false, false),
            (99, false, false),
            (u32::MAX, false, false),
        ] {
            let answer = Answer::of_call(number);
            assert_eq!((answer.is_painted(), answer.is_bad()), (painted, bad));
            assert_eq!(answer.carried_out().is_ok(), painted);
        }
    }
}
