//! Why a function refuses.
use core::error::Error;
use core::fmt;

/// Every refusal once: its number, its name and why it is answered.
macro_rules! refusals {
    ($($number:literal $name:ident $why:literal,)*) => {
        /// A reason to refuse, by its number. Later versions may have more of them.
        #[derive(Clone, Copy, Debug, PartialEq, Eq, Hash)]
        #[non_exhaustive]
        pub enum Refusal {
            $(#[doc = concat!($number, ": ", $why, ".")] $name,)*
            /// A number that these bindings have no name for: the library that they are linked with
            /// is newer. It is neither 0 nor the number of another variant.
            #[non_exhaustive]
            Unknown {
                /// The number.
                number: u32,
            },
        }

        impl Refusal {
            /// Its number, as the C interface answers it and the program `wvpair` prints it.
            #[must_use]
            pub const fn number(self) -> u32 {
                match self {
                    $(Refusal::$name => $number,)*
                    Refusal::Unknown { number } => number,
                }
            }

            /// The refusal with a number; none for 0, which is accepted.
            ///
            /// ```
            /// use wavpack_stereo::Refusal;
            /// assert_eq!(Refusal::from_number(4), Some(Refusal::EndOfStream));
            /// assert_eq!(Refusal::from_number(0), None);
            /// let later = Refusal::from_number(4_000_000_000).map(Refusal::number);
            /// assert_eq!(later, Some(4_000_000_000));
            /// ```
            #[must_use]
            pub const fn from_number(number: u32) -> Option<Refusal> {
                match number {
                    0 => None,
                    $($number => Some(Refusal::$name),)*
                    _ => Some(Refusal::Unknown { number }),
                }
            }
        }

        impl fmt::Display for Refusal {
            fn fmt(&self, f: &mut fmt::Formatter<'_>) -> fmt::Result {
                match self {
                    $(Refusal::$name => f.write_str($why),)*
                    Refusal::Unknown { number } => {
                        write!(f, "refusal {number}, which these bindings have no name for")
                    }
                }
            }
        }
    };
}

refusals! {
    1 EntropyLength "the entropy payload is neither 6 nor 12 bytes long",
    2 NotStereo "the entropy payload is mono (6 bytes) or holds a negative median",
    3 Truncated "a bit past the end is needed, or a count or a prefix value is over its cap",
    4 EndOfStream "end of stream: the second count of a prefix is 33",
    5 TooLarge
        "over 131,072 frames, 262,144 elements, 4,194,304 payload bytes or 524,332 bytes of a sound file",
    6 ListLength "a list does not have the length that the function asks for",
    7 InvalidTerm "a term that is none of 1 to 8, 17, 18, -1, -2, -3",
    8 SeedTooShort "a seed with too few samples for its term",
    9 TooManyPasses "over 16 passes",
    10 ResidualOutOfSpan "a residual outside -1,879,048,192 to 1,879,048,191",
    11 OutputTooShort "too little storage for the bytes or samples that are to be written",
    12 InvalidChannel "a word state whose next channel is neither 0 nor 1, or whose totals exceed its place",
    13 SampleOutOfSpan "a sample outside -32,768 to 32,767",
    14 NotWave "not a sound file of the one form that is accepted, or a rate outside 1 to 192,000",
    15 FieldAbove31 "sent_bits, zeros, ones or dups is above 31",
    16 NotReinsertable "a sample whose low bits are not those that zeros, ones or dups put in",
    17 LogWordOutOfReach "a log word outside -8,191 to 8,191",
    18 BadBlock "a block of an archive is damaged, cut short, or not the one that has to follow",
    19 RecordingTwice "an archive has the same house, start second and issue twice",
}

impl Refusal {
    /// What an answer of the C interface says.
    pub(crate) const fn outcome(number: u32) -> Result<(), Refusal> {
        match Refusal::from_number(number) {
            None => Ok(()),
            Some(refusal) => Err(refusal),
        }
    }
}

impl Error for Refusal {}

#[cfg(test)]
mod tests {
    use super::*;

    #[test]
    fn a_number_comes_back() {
        assert_eq!(Refusal::outcome(0), Ok(()));
        for number in (1..100).chain([u32::MAX]) {
            let refusal = Refusal::outcome(number).unwrap_err();
            assert_eq!(refusal.number(), number);
            assert_eq!(matches!(refusal, Refusal::Unknown { .. }), number > 19);
        }
    }
}
