use crate::{NotATable, Refusal};
use std::error::Error;
use std::fmt;

/// Why the rows of machines could not be put together to a table.
///
/// Later versions may tell more reasons, so a `match` needs an arm for all others.
#[derive(Clone, Debug, PartialEq, Eq)]
#[non_exhaustive]
pub enum NotAssembled {
    /// The row is not in use in the frame.
    NoSuchRow {
        /// Its number.
        row: usize,
    },
    /// The row is there twice.
    Twice {
        /// Its number.
        row: usize,
    },
    /// The bytes have another length than a row of the frame.
    WrongLength {
        /// The number of the row.
        row: usize,
        /// How many bytes came.
        length: usize,
    },
    /// The bytes are the row of another machine.
    OtherName {
        /// The number of the row.
        row: usize,
        /// The name in the bytes.
        name: u16,
    },
    /// The bytes are of another county than the row of the frame. A machine keeps its county.
    OtherCounty {
        /// The number of the row.
        row: usize,
        /// The county in the bytes.
        county: u8,
    },
    /// The rows fit one by one, but are no well-formed table together.
    Malformed(NotATable),
}

impl fmt::Display for NotAssembled {
    fn fmt(&self, f: &mut fmt::Formatter) -> fmt::Result {
        match self {
            NotAssembled::NoSuchRow { row } => write!(f, "row {row} is not in use: use the newest frame"),
            NotAssembled::Twice { row } => {
                write!(f, "row {row} is there twice: take one answer of each machine")
            }
            NotAssembled::WrongLength { row, length } => {
                write!(
                    f,
                    "{length} bytes are not row {row} of this table: a row takes 32 bytes, and for each file 588 and the file's length"
                )
            }
            NotAssembled::OtherName { row, name } => {
                write!(f, "the bytes of row {row} have the name {name}, which is another machine's: ask that machine anew")
            }
            NotAssembled::OtherCounty { row, county } => {
                write!(f, "the bytes of row {row} are of county {county}, and the frame has another: ask that machine anew, or leave it out")
            }
            NotAssembled::Malformed(_) => f.write_str(
                "the rows do not fit together: take the newest frame; if that is not it, leave out one machine after the other",
            ),
        }
    }
}

impl Error for NotAssembled {
    fn source(&self) -> Option<&(dyn Error + 'static)> {
        match self {
            NotAssembled::Malformed(error) => Some(error),
            _ => None,
        }
    }
}

impl From<NotATable> for NotAssembled {
    fn from(error: NotATable) -> NotAssembled {
        NotAssembled::Malformed(error)
    }
}

/// As the library would refuse it: `NoSuchRow`, or else `Malformed`.
impl From<NotAssembled> for Refusal {
    fn from(error: NotAssembled) -> Refusal {
        match error {
            NotAssembled::NoSuchRow { .. } => Refusal::NoSuchRow,
            NotAssembled::Malformed(error) => error.refusal(),
            _ => Refusal::Malformed,
        }
    }
}
