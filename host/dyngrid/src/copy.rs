use crate::window::{patches, OLDEST, RECORDS};
use std::ops::Range;

/// A copy of a file is its head, the contents, and the records of its window.
const HEAD: usize = 12;
const STALE: usize = 0;
const VERSION: usize = 4;
const DESIRED: usize = 8;

/// What a row tells of its copy of a file, the contents aside.
///
/// Later versions may tell more.
#[derive(Clone, Copy, Debug, PartialEq, Eq, Hash)]
#[non_exhaustive]
pub struct CopyView {
    /// The number of the file.
    pub file: usize,
    /// Is the copy marked as stale? Then a [send](crate::File::sends) can bring it up.
    pub stale: bool,
    /// Its version.
    pub version: u32,
    /// The version that it desires, above its own; 0 without the mark.
    pub desired: u32,
    /// How many patches its [window](crate::File::window) has, 0 to 16.
    pub patches: usize,
}

impl CopyView {
    /// What these bytes of a copy tell.
    pub(crate) fn of(file: usize, copy: &[u8]) -> CopyView {
        CopyView {
            file,
            stale: copy[STALE] == 1,
            version: number(copy, VERSION),
            desired: number(copy, DESIRED),
            patches: patches(copy),
        }
    }
}

/// The number of four bytes that begins there.
pub fn number(bytes: &[u8], at: usize) -> u32 {
    u32::from_le_bytes([0, 1, 2, 3].map(|byte| bytes[at + byte]))
}

/// How many bytes a copy takes.
pub fn length(file_len: usize) -> usize {
    HEAD + file_len + RECORDS
}

/// Where a copy has its contents.
pub fn contents(file_len: usize) -> Range<usize> {
    HEAD..HEAD + file_len
}

/// Takes over mark and versions of another copy, of whatever length, into one that is zero.
pub fn outline(copy: &mut [u8], of: &[u8]) {
    copy[..HEAD].copy_from_slice(&of[..HEAD]);
    copy[OLDEST] = 0;
}
