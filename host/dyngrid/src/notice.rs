use crate::raw;
use crate::refusal::split;
use std::{fmt, str};

/// The bytes that the library wants for a notice.
const BUFFER: usize = 160;
/// Where the figures end, and the call's word begins.
const WORD: usize = 45;

/// The calls that a [notice](crate::Refusal::notice) tells of, by their numbers. A choice is none of them.
#[derive(Clone, Copy, Debug, PartialEq, Eq, PartialOrd, Ord, Hash)]
pub enum Call {
    /// A founding; its notice shows the name 0.
    Founding = 1,
    /// A read; its notice shows the coordinator's name.
    Read = 2,
    /// A write; its notice shows the coordinator's name.
    Write = 3,
    /// A send; its notice shows the name 0.
    Send = 4,
    /// A check; its notice shows the coordinator's name.
    Check = 5,
    /// A joining; its notice shows the name 0.
    Joining = 6,
    /// A round; its notice shows the name of the coordinator whose order was refused.
    Round = 7,
    /// A move; its notice shows the name 0.
    Move = 8,
    /// A chart; its notice shows the name 0.
    Chart = 9,
    /// A notice; its notice shows the name 0.
    Notice = 10,
}

impl Call {
    /// Every call, in the order of their numbers.
    pub const ALL: [Call; 10] = [
        Call::Founding,
        Call::Read,
        Call::Write,
        Call::Send,
        Call::Check,
        Call::Joining,
        Call::Round,
        Call::Move,
        Call::Chart,
        Call::Notice,
    ];

    /// Its number, from 1 to 10.
    #[must_use]
    pub fn number(self) -> u32 {
        self as u32
    }
}

/// The sentence that tells members of a refusal, word for word as the library composes it; a
/// [`Refusal`](crate::Refusal::notice) gives it.
///
/// It takes no memory beside its own 160 bytes.
#[derive(Clone, Copy, PartialEq, Eq, Hash)]
pub struct Notice {
    bytes: [u8; BUFFER],
    length: usize,
}

impl Notice {
    pub(crate) fn of(call: Call, name: u16, number: u32) -> Notice {
        raw::assert_interface();
        let mut bytes = [0; BUFFER];
        // SAFETY: the buffer is live for the call, and its only slice.
        let result =
            unsafe { raw::grid_notice(call.number().into(), name, number, bytes.as_mut_ptr(), bytes.len()) };
        let length = split(result).expect("a notice of these calls is done") as usize;
        Notice { bytes, length }
    }

    /// The sentence.
    #[must_use]
    pub fn as_str(&self) -> &str {
        str::from_utf8(&self.bytes[..self.length]).expect("a notice is ASCII")
    }

    /// Why the call was refused: what stands behind its word.
    pub(crate) fn reason(&self) -> &str {
        self.as_str()[WORD..].split_once(": ").expect("a reason begins with a colon").1
    }
}

impl fmt::Display for Notice {
    fn fmt(&self, f: &mut fmt::Formatter) -> fmt::Result {
        f.pad(self.as_str())
    }
}

/// The sentence.
impl fmt::Debug for Notice {
    fn fmt(&self, f: &mut fmt::Formatter) -> fmt::Result {
        f.debug_tuple("Notice").field(&self.as_str()).finish()
    }
}
