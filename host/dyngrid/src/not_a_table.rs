use crate::{OlderForm, Refusal};
use std::error::Error;
use std::fmt;

/// Bytes that are no well-formed table of the form that was asked for, and how the library refused them.
#[derive(Clone, PartialEq, Eq)]
pub struct NotATable {
    bytes: Vec<u8>,
    refusal: Refusal,
    /// Their form, if they are a table of an older one.
    older: Option<OlderForm>,
    /// Are they of form 1, and a table of form 2 but for the first byte?
    joined: bool,
}

impl NotATable {
    pub(crate) fn new(mut bytes: Vec<u8>, refusal: Refusal) -> NotATable {
        let older = OlderForm::of(&bytes);
        let mut joined = older.is_none() && bytes.first() == Some(&1);
        if joined {
            bytes[0] = 2;
            joined = OlderForm::of(&bytes).is_some();
            bytes[0] = 1;
        }
        NotATable { bytes, refusal, older, joined }
    }

    /// How the library refused them: `Malformed`.
    #[must_use]
    pub fn refusal(&self) -> Refusal {
        self.refusal
    }

    /// The form of the bytes if they are a well-formed table of an older one. No call but a move takes it, as
    /// [`Form3Table`](crate::Form3Table) does.
    #[must_use]
    pub fn older_form(&self) -> Option<OlderForm> {
        self.older
    }

    /// The bytes that were given.
    #[must_use]
    pub fn as_bytes(&self) -> &[u8] {
        &self.bytes
    }

    /// The bytes that were given, without a copy.
    #[must_use]
    pub fn into_bytes(self) -> Vec<u8> {
        self.bytes
    }
}

/// How many bytes there are, and the refusal.
impl fmt::Debug for NotATable {
    fn fmt(&self, f: &mut fmt::Formatter) -> fmt::Result {
        f.debug_struct("NotATable")
            .field("length", &self.bytes.len())
            .field("refusal", &self.refusal)
            .finish_non_exhaustive()
    }
}

impl fmt::Display for NotATable {
    fn fmt(&self, f: &mut fmt::Formatter) -> fmt::Result {
        let length = self.bytes.len();
        match self.older {
            Some(form) => write!(
                f,
                "{length} bytes are a table of form {}, which no call but a move takes: found a new table, and write its files into that",
                form.number()
            ),
            None if self.joined => write!(
                f,
                "{length} bytes are a table of form 1 with grid marks or rows without a list, as only form 2 has them: to carry it up \
                 to form 3, set byte 0 to 2"
            ),
            None => write!(f, "{length} bytes are no table: {}", self.refusal),
        }
    }
}

impl Error for NotATable {
    fn source(&self) -> Option<&(dyn Error + 'static)> {
        Some(&self.refusal)
    }
}

impl From<NotATable> for Refusal {
    fn from(error: NotATable) -> Refusal {
        error.refusal
    }
}
