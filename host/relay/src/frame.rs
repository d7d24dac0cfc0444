//! The frame: what every call of a founding agrees on. Foundings, joinings and the bytes of a frame are here, and nowhere else.

use dyngrid::{Refusal, Rows, Shape, Table};
use std::ops::Range;

const HEADER: usize = 16;
/// Of each row in use: its name, its link and its county.
const ENTRY: usize = 4;
/// A row begins with a head; behind it comes a copy of each file, which takes so many bytes beside the contents.
const HEAD: usize = 32;
const COPY: usize = 588;

/// What a founding fixes for good.
#[derive(Clone, Copy, Debug, PartialEq, Eq)]
pub struct Group {
    /// Rows, those that machines may join in later included.
    pub capacity: usize,
    /// Files, 1 to 8, and the length of each.
    pub files: usize,
    pub file_len: usize,
    pub shape: Shape,
}

/// Header, names, links and counties, in short. Each machine keeps one with its row; of two the newer has more rows in use.
#[derive(Clone, Debug, PartialEq, Eq, Hash)]
pub struct Frame {
    bytes: Vec<u8>,
}

impl Frame {
    /// Founds a group on these names, all of county 1; gives the frame, and the row of each machine in the order of names.
    pub fn found(group: Group, names: &[u16]) -> Result<(Frame, Vec<Vec<u8>>), Refusal> {
        let table = Table::found_group(group.capacity, group.file_len, names, group.shape, group.files)?;
        let rows = table.rows().iter().filter_map(|row| table.row_bytes(row)).map(<[u8]>::to_vec).collect();
        Ok((Frame::of(&table), rows))
    }

    /// Joins a machine, of county 1; gives the new frame, the machine's row number, and the bytes that it begins with.
    pub fn join(&self, name: u16) -> Result<(Frame, usize, Vec<u8>), Refusal> {
        let mut table = self.table()?;
        let row = table.join(name)?;
        let bytes = table.row_bytes(row).ok_or(Refusal::NoSuchRow)?.to_vec();
        Ok((Frame::of(&table), row, bytes))
    }

    fn of(table: &Table) -> Frame {
        Frame { bytes: table.short_frame() }
    }

    /// The frame as a table: each row in use has its name, link and county, and is zero otherwise.
    pub fn table(&self) -> Result<Table, Refusal> {
        Table::from_short_frame(&self.bytes).map_err(|_| Refusal::Malformed)
    }

    fn entries(&self) -> impl Iterator<Item = &[u8]> {
        self.bytes[HEADER..].chunks_exact(ENTRY)
    }

    /// The rows in use.
    pub fn used(&self) -> usize {
        self.bytes[2].into()
    }

    pub fn rows(&self) -> Rows {
        Rows::first(self.used())
    }

    pub fn files(&self) -> usize {
        self.bytes[6].into()
    }

    pub fn file_len(&self) -> usize {
        u16::from_le_bytes([self.bytes[4], self.bytes[5]]).into()
    }

    /// How many bytes a row takes.
    pub fn row_len(&self) -> usize {
        HEAD + self.files() * (COPY + self.file_len())
    }

    /// The parts of a row that a call on one file looks at: its head and its copy of that file; of another call the whole row. None if
    /// there is no such file.
    pub fn parts(&self, file: Option<usize>) -> Option<[Range<usize>; 2]> {
        let copy = COPY + self.file_len();
        match file {
            None => Some([0..HEAD, HEAD..self.row_len()]),
            Some(file) if (1..=self.files()).contains(&file) => {
                Some([0..HEAD, HEAD + (file - 1) * copy..HEAD + file * copy])
            }
            Some(_) => None,
        }
    }

    /// The name of a row's machine; none if the row is not in use.
    pub fn name(&self, row: usize) -> Option<u16> {
        let entry = self.entries().nth(row.checked_sub(1)?)?;
        Some(u16::from_le_bytes([entry[0], entry[1]]))
    }

    /// The row of the machine of that name.
    pub fn row_named(&self, name: u16) -> Option<usize> {
        (1..=self.used()).find(|row| self.name(*row) == Some(name))
    }

    pub fn is_newer(&self, other: &Frame) -> bool {
        self.used() > other.used()
    }

    pub fn as_bytes(&self) -> &[u8] {
        &self.bytes
    }

    /// A frame that was kept or sent as bytes; none if they are none.
    pub fn from_bytes(bytes: &[u8]) -> Option<Frame> {
        let used = usize::from(*bytes.get(2)?);
        (bytes.len() == HEADER + used * ENTRY).then(|| Frame { bytes: bytes.to_vec() })
    }
}

#[cfg(test)]
mod tests {
    use super::*;

    #[test]
    fn a_frame_is_the_wrappers() {
        let group = Group { capacity: 5, files: 3, file_len: 20, shape: Shape::Tall };
        let (frame, rows) = Frame::found(group, &[1, 2, 3]).unwrap();
        let (frame, row, blank) = frame.join(4).unwrap();
        let table = frame.table().unwrap();
        assert_eq!((row, frame.row_named(4), frame.name(4), frame.name(5)), (4, Some(4), Some(4), None));
        assert_eq!(table, table.frame());
        assert_eq!(Frame::from_bytes(frame.as_bytes()), Some(frame.clone()));
        assert_eq!((rows[0].len(), blank.len()), (frame.row_len(), frame.row_len()));
        assert_eq!(table.row_bytes(4), Some(&blank[..]));
        for file in 1..=3 {
            assert_eq!(frame.parts(Some(file)).map(|[_, copy]| copy), table.file(file).range());
        }
        assert_eq!((frame.parts(Some(0)), frame.parts(Some(4))), (None, None));
    }
}
