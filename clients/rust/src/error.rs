use std::fmt;

/// Why a call was refused. A refused call changes nothing, except that [`Error::OutOfMemory`] may come after a part of
/// the hits.
#[derive(Clone, Copy, Debug, PartialEq, Eq)]
#[non_exhaustive]
pub enum Error {
    /// An allocation was refused.
    OutOfMemory,
    /// There are more than 4,096 patterns.
    TooManyPatterns,
    /// The pattern at `place`, counted from 0, has more than 4,095 bytes.
    LiteralTooLong {
        /// The position of the pattern.
        place: usize,
    },
    /// There is no pattern, or there are empty patterns only.
    NoLiterals,
    /// The patterns have more than 1,048,576 bytes together.
    ListTooLarge,
    /// The bytes are no plan file, or a certificate in it does not hold.
    BadPlanFile {
        /// The offset of the first wrong field.
        place: usize,
    },
    /// The plan file has no plan of this number.
    NoSuchPlan,
    /// The position in the stream would pass 2^64 - 1.
    StreamTooLong,
    /// A position lies after the end of the text, or the plan has no literal of this number.
    OutOfRange,
    /// A status that this crate does not know, or that none of its calls should cause.
    Unexpected {
        /// The status of the C library.
        status: i32,
    },
}

impl Error {
    /// The result of a call that answered this status and this position.
    pub(crate) fn answered(status: i32, place: usize) -> Result<(), Error> {
        Err(match status {
            0 => return Ok(()),
            1 => Error::OutOfMemory,
            2 => Error::TooManyPatterns,
            3 => Error::LiteralTooLong { place },
            5 => Error::NoLiterals,
            7 => Error::ListTooLarge,
            10 => Error::BadPlanFile { place },
            14 => Error::NoSuchPlan,
            20 => Error::StreamTooLong,
            23 => Error::OutOfRange,
            status => Error::Unexpected { status },
        })
    }

    /// The number of the refusal, the same in the C library, the programs and the server's frames.
    pub fn number(&self) -> i32 {
        match *self {
            Error::OutOfMemory => 1,
            Error::TooManyPatterns => 2,
            Error::LiteralTooLong { .. } => 3,
            Error::NoLiterals => 5,
            Error::ListTooLarge => 7,
            Error::BadPlanFile { .. } => 10,
            Error::NoSuchPlan => 14,
            Error::StreamTooLong => 20,
            Error::OutOfRange => 23,
            Error::Unexpected { status } => status,
        }
    }
}

impl fmt::Display for Error {
    fn fmt(&self, f: &mut fmt::Formatter<'_>) -> fmt::Result {
        match self {
            Error::OutOfMemory => write!(f, "memory ran out"),
            Error::TooManyPatterns => write!(f, "more than 4,096 patterns"),
            Error::LiteralTooLong { place } => write!(f, "pattern {place} has more than 4,095 bytes"),
            Error::NoLiterals => write!(f, "the list has no literals"),
            Error::ListTooLarge => write!(f, "the list has more than 1,048,576 bytes"),
            Error::BadPlanFile { place } => write!(f, "no plan file, or not certified, at byte {place}"),
            Error::NoSuchPlan => write!(f, "the plan file has no plan of this number"),
            Error::StreamTooLong => write!(f, "the position in the stream would pass 2^64 - 1"),
            Error::OutOfRange => write!(f, "a position or a number of a literal is out of range"),
            Error::Unexpected { status } => write!(f, "status {status} of the library"),
        }
    }
}

impl std::error::Error for Error {}
