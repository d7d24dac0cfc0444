use crate::copy::number;
use crate::table::COUNTY;
use crate::{CopyView, Rows, Table};

/// What a row tells of its machine: its head, and its copy of each file, the contents aside.
///
/// Later versions may tell more.
#[derive(Clone, Debug, PartialEq, Eq, Hash)]
#[non_exhaustive]
pub struct RowView {
    /// The number of the row.
    pub row: usize,
    /// The name of the machine.
    pub name: u16,
    /// Its county.
    pub county: u8,
    /// The number of its epoch.
    pub epoch: u32,
    /// The list of that epoch, its own row among the members; empty from a joining on until a check takes it in, and in a
    /// row that did not answer of a table that was [assembled](Table::assemble).
    pub list: Rows,
    /// The mark of the grid that its list lies in: 0 published, 1 the new five, 2 tall, 3 of several counties in a wide table; 0 with
    /// an empty list.
    pub grid_mark: u8,
    /// Its copies, that of file q at place q - 1; [`File::copy`](crate::File::copy) tells one of them.
    pub copies: Vec<CopyView>,
}

impl Table {
    /// What the row tells; none if it is not in use.
    ///
    /// The bytes that a machine holds are looked at in a table [assembled](Table::assemble) from the frame and that row alone,
    /// which is refused if they are damaged.
    ///
    /// ```
    /// use dyngrid::{Rows, Shape, Table};
    ///
    /// let mut table = Table::found_group(4, 16, &[1, 2, 3, 4], Shape::Wide, 2)?;
    /// table.file_mut(1).write(1, Rows::of(&[1, 2, 3])?, 0, b"1-0")?;
    /// table.file_mut(2).write(1, Rows::of(&[1, 2, 4])?, 0, b"0:47")?;
    /// let row = table.row(4).ok_or(dyngrid::Refusal::NoSuchRow)?;
    /// assert_eq!((row.name, row.county, row.epoch, row.list, row.grid_mark), (4, 1, 0, Rows::first(4), 0));
    /// assert_eq!(row.copies.iter().map(|copy| copy.version).collect::<Vec<_>>(), [0, 1]);
    /// assert_eq!(table.row_named(4), Some(row));
    /// assert_eq!((table.row(5), table.row_named(5)), (None, None));
    /// # Ok::<(), dyngrid::Refusal>(())
    /// ```
    #[must_use]
    pub fn row(&self, row: usize) -> Option<RowView> {
        let bytes = self.row_bytes(row)?;
        Some(RowView {
            row,
            name: u16::from_le_bytes([bytes[0], bytes[1]]),
            county: bytes[COUNTY],
            epoch: number(bytes, 12),
            list: Rows::from_bits(u64::from(number(bytes, 20)) << 32 | u64::from(number(bytes, 16))),
            grid_mark: bytes[24],
            copies: (1..=self.files()).filter_map(|file| self.file(file).copy(row)).collect(),
        })
    }

    /// What the row of the machine `name` tells; none if no row in use has that name.
    #[must_use]
    pub fn row_named(&self, name: u16) -> Option<RowView> {
        self.views().find(|row| row.name == name)
    }

    /// What each row in use tells, in the order of rows.
    pub fn views(&self) -> impl Iterator<Item = RowView> + '_ {
        self.rows().iter().filter_map(|row| self.row(row))
    }
}
