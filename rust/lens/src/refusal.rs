use crate::sys::header::*;
use std::{error, fmt};

/// Says each refusal once: its name, its number in include/lens.h, and its words.
macro_rules! refusals {
    ($($name:ident = $number:ident, $words:literal;)*) => {
        /// Why there is no answer: one of the numbers that include/lens.h lists.
        ///
        /// A call that is refused has written nothing, but for [`Job::turn`](crate::Job::turn), which says when.
        #[non_exhaustive]
        #[derive(Debug, Clone, Copy, PartialEq, Eq, Hash)]
        pub enum Refusal {
            $(#[doc = concat!($words, ".")] $name,)*
            /// A number that include/lens.h did not list when this crate was built: no archive of the same sources
            /// answers one.
            Unlisted(u8),
        }

        impl Refusal {
            /// All that are listed, in the order of their numbers.
            pub const ALL: &'static [Refusal] = &[$(Refusal::$name),*];

            /// The refusal that has this number; [`Unlisted`](Refusal::Unlisted) if none has.
            pub fn from_number(number: u8) -> Refusal {
                match usize::from(number) {
                    $($number => Refusal::$name,)*
                    _ => Refusal::Unlisted(number),
                }
            }

            /// The number in include/lens.h.
            pub fn number(self) -> u8 {
                match self {
                    $(Refusal::$name => $number as u8,)*
                    Refusal::Unlisted(number) => number,
                }
            }

            fn words(self) -> &'static str {
                match self {
                    $(Refusal::$name => $words,)*
                    Refusal::Unlisted(_) => "a number that this crate does not know",
                }
            }
        }
    };
}

refusals! {
    UnknownModel = LENS_REFUSED_UNKNOWN_MODEL, "no model has this number or name";
    NoParameterJacobian = LENS_REFUSED_NO_PARAMETER_JACOBIAN, "reserved, and answered by no call any more";
    WrongCount = LENS_REFUSED_WRONG_COUNT, "not as many parameters as the model has";
    NotFinite = LENS_REFUSED_NOT_FINITE, "a parameter, a coordinate or an edge of a region is NaN or infinite";
    ZeroFocalLength = LENS_REFUSED_ZERO_FOCAL_LENGTH, "fx or fy is zero";
    WrongSize = LENS_REFUSED_WRONG_SIZE, "width or height is not from 2 to 4,096";
    WrongLength = LENS_REFUSED_WRONG_LENGTH, "a table or a saved job does not have the length that is asked for";
    IncrementNotPositive = LENS_REFUSED_INCREMENT_NOT_POSITIVE, "the region has no extent from one cell to the next";
    OutsideTable = LENS_REFUSED_OUTSIDE_TABLE, "the point lies outside the table";
    AngleTooLarge = LENS_REFUSED_ANGLE_TOO_LARGE, "an angle lies past 99/64, which is 88.6 degrees";
    AnswerNotFinite = LENS_REFUSED_ANSWER_NOT_FINITE, "NaN or an infinity would have to be answered, or built on";
    CellInfinite = LENS_REFUSED_CELL_INFINITE, "a cell's pixel is too large for an f32";
    ImpossibleJob = LENS_REFUSED_IMPOSSIBLE_JOB, "no build can have come to this job: it was damaged";
    RayNotForward = LENS_REFUSED_RAY_NOT_FORWARD, "the pixel's ray points sideways or backwards";
    SampleUnsettled = LENS_REFUSED_SAMPLE_UNSETTLED, "a strict job met a border sample that did not settle";
    CellTooFar = LENS_REFUSED_CELL_TOO_FAR, "a cell's pixel does not fit sixteen bits, in thirty-seconds of a pixel";
}

impl fmt::Display for Refusal {
    fn fmt(&self, f: &mut fmt::Formatter<'_>) -> fmt::Result {
        write!(f, "refused {}: {}", self.number(), self.words())
    }
}

impl error::Error for Refusal {}
