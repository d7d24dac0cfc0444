use crate::{CopyView, File, Table};
use std::iter;
use std::ops::Range;

/// Where a copy has the index of the oldest record of its window.
pub const OLDEST: usize = 1;
/// The records end the copy; each is the next younger one's index, the length, the offset, and the patch.
const PLACES: usize = 16;
const RECORD: usize = 36;
pub const RECORDS: usize = PLACES * RECORD;
const NEXT: usize = 0;
const LENGTH: usize = 1;
const OFFSET: usize = 2;
const PATCH: usize = 4;

/// Changed ranges that fewer bytes lie between are one: to name a range costs as much.
const APART: usize = 4;

/// A patch that the window of a copy keeps.
#[derive(Clone, Copy, Debug, PartialEq, Eq, Hash)]
pub struct Patch<'a> {
    /// The version that the write gave to the copy.
    pub version: u32,
    /// Where in the file it begins.
    pub offset: usize,
    /// What was laid there: 1 to 32 bytes.
    pub bytes: &'a [u8],
}

impl CopyView {
    /// The version from which on the window has every patch. A send from this copy to one of that version, or of a newer one,
    /// lays the missing patches and nothing else; to an older one it carries the whole file.
    #[must_use]
    pub fn reaches_back_to(&self) -> u32 {
        self.version.saturating_sub(self.patches as u32)
    }
}

impl<'a> File<'a> {
    /// The window of a row's copy: its latest patches, up to 16, older first. A patch of more than 32 bytes empties it. A row that is
    /// not in use has none.
    ///
    /// ```
    /// use dyngrid::{Patch, Rows, Shape, Table};
    ///
    /// let mut table = Table::found(4, 64, &[1, 2, 3, 4], Shape::Wide)?;
    /// table.file_mut(1).write(1, Rows::of(&[1, 2, 3])?, 0, b"1-0")?;
    /// table.file_mut(1).write(1, Rows::of(&[1, 2, 3])?, 8, b"1/2")?;
    /// let window = table.file(1).window(1);
    /// assert_eq!(window[0], Patch { version: 1, offset: 0, bytes: b"1-0" });
    /// assert_eq!(window[1], Patch { version: 2, offset: 8, bytes: b"1/2" });
    ///
    /// let copy = table.file(1).copy(1).ok_or(dyngrid::Refusal::NoSuchRow)?;
    /// assert_eq!((copy.version, copy.patches, copy.reaches_back_to()), (2, 2, 0));
    /// # Ok::<(), dyngrid::Refusal>(())
    /// ```
    #[must_use]
    pub fn window(self, row: usize) -> Vec<Patch<'a>> {
        let (Some(view), Some(bytes)) = (self.copy(row), self.copy_bytes(row)) else { return Vec::new() };
        let versions = view.reaches_back_to() + 1..;
        let patch = |(version, record)| patch_in(version, record);
        versions.zip(records(bytes)).map(patch).collect()
    }
}

impl Table {
    /// Where the bytes of a row differ from those in the table before a call: what is to be shipped to a machine that holds the
    /// row as it was. After a small write, or a send that lays few patches, it is some tens of bytes, however long the file is.
    ///
    /// Ranges with fewer than four bytes between them are one. A row that was not in use before, or not of this length, is one
    /// range; one that is not in use has none.
    ///
    /// ```
    /// use dyngrid::{Refusal, Rows, Shape, Table};
    ///
    /// let before = Table::found(4, 4096, &[1, 2, 3, 4], Shape::Wide)?;
    /// let mut table = before.clone();
    /// table.file_mut(1).write(1, Rows::of(&[1, 2, 3])?, 100, b"1-0")?;
    ///
    /// // The oldest record's index and the version, the patch in the file, and the patch in its record.
    /// let ranges = table.changed_ranges(&before, 2);
    /// assert_eq!(ranges, [33..37, 144..147, 4141..4147]);
    ///
    /// // The machine lays them over the row that it holds.
    /// let mut held = before.row_bytes(2).ok_or(Refusal::NoSuchRow)?.to_vec();
    /// let row = table.row_bytes(2).ok_or(Refusal::NoSuchRow)?;
    /// for range in ranges {
    ///     held[range.clone()].copy_from_slice(&row[range]);
    /// }
    /// assert_eq!(held, row);
    /// # Ok::<(), Refusal>(())
    /// ```
    #[must_use]
    pub fn changed_ranges(&self, before: &Table, row: usize) -> Vec<Range<usize>> {
        let Some(now) = self.row_bytes(row) else { return Vec::new() };
        match before.row_bytes(row).filter(|then| then.len() == now.len()) {
            Some(then) => differing(now, then),
            None => iter::once(0..now.len()).collect(),
        }
    }
}

/// How many patches the window of a copy has.
pub fn patches(copy: &[u8]) -> usize {
    records(copy).count()
}

/// The records along the chain, older first.
fn records(copy: &[u8]) -> impl Iterator<Item = &[u8]> {
    let all = &copy[copy.len() - RECORDS..];
    let record = move |index: u8| all.chunks_exact(RECORD).nth(usize::from(index).checked_sub(1)?);
    iter::successors(record(copy[OLDEST]), move |older| record(older[NEXT])).take(PLACES)
}

fn patch_in(version: u32, record: &[u8]) -> Patch<'_> {
    let offset = u16::from_le_bytes([record[OFFSET], record[OFFSET + 1]]).into();
    let bytes = &record[PATCH..];
    Patch { version, offset, bytes: &bytes[..usize::from(record[LENGTH]).min(bytes.len())] }
}

/// The ranges in which two rows of one length differ.
fn differing(now: &[u8], then: &[u8]) -> Vec<Range<usize>> {
    let mut ranges: Vec<Range<usize>> = Vec::new();
    for (at, _) in now.iter().zip(then).enumerate().filter(|(_, (now, then))| now != then) {
        match ranges.last_mut() {
            Some(last) if at < last.end + APART => last.end = at + 1,
            _ => ranges.push(at..at + 1),
        }
    }
    ranges
}
