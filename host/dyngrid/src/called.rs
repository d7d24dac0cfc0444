use crate::refusal::split;
use crate::Refusal;
use std::error::Error;
use std::fmt;

/// What a done read or write gives.
#[derive(Clone, Copy, Debug, PartialEq, Eq, Hash)]
pub struct Done {
    /// The version read, or the new one.
    pub version: u32,
    /// How many machines the protocol calls for it, whomever the relay asked: as many as the coordinator's own choice has, if those
    /// of it that answered were enough; otherwise all that are in use.
    pub called: usize,
}

/// A read or write that was refused, and how many machines the protocol calls for it all the same.
///
/// Where only the refusal counts, `?` and [`Refusal::from`] take it.
#[derive(Clone, Copy, Debug, PartialEq, Eq, Hash)]
pub struct Refused {
    /// Why it was refused.
    pub refusal: Refusal,
    /// As in [`Done`]; 0 if it was refused before anyone is called.
    pub called: usize,
}

/// The result of a read or write, with the byte that it wrote.
pub fn answer(result: u64, called: u8) -> Result<Done, Refused> {
    let called = usize::from(called);
    match split(result) {
        Ok(version) => Ok(Done { version, called }),
        Err(refusal) => Err(Refused { refusal, called }),
    }
}

impl fmt::Display for Refused {
    fn fmt(&self, f: &mut fmt::Formatter) -> fmt::Result {
        self.refusal.fmt(f)
    }
}

impl Error for Refused {}

impl From<Refused> for Refusal {
    fn from(refused: Refused) -> Refusal {
        refused.refusal
    }
}
