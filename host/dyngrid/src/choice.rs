use crate::refusal::split;
use crate::{raw, Refusal, Rows, Table};

/// The kinds of calls that call machines by a choice.
#[derive(Clone, Copy, Debug, PartialEq, Eq, Hash)]
pub enum Kind {
    /// A read: one machine of each column of the grid.
    Read,
    /// A write: a whole column, and one machine of each other column.
    Write,
}

impl Table {
    /// Whom to call: the rows that the coordinator calls first for a read or a write. It is its own choice by its name, over
    /// its own list. Empty if its own list is empty: then all rows in use are called.
    ///
    /// The coordinator need not be in it, but must answer its call: call the choice and the coordinator. If all of them
    /// answer, its own list is the list in force and some row of the choice has every done write of the file, that is enough; else
    /// call all rows in use. Question 1 is put to the whole table, as in every call; after it the choice goes by header, names,
    /// links, counties and the coordinator's own row alone, so that a table [assembled](Table::assemble) from its own row tells it
    /// too.
    ///
    /// Over a list of several counties it chooses counties, and in each of these machines; for a write each by a write's choice.
    ///
    /// ```
    /// use dyngrid::{Kind, Refusal, Rows, Shape, Table};
    ///
    /// let mut table = Table::found(9, 16, &[1, 2, 3, 4, 5, 6, 7, 8, 9], Shape::Wide)?;
    /// let first = table.choice(4, Kind::Write)?;
    /// assert_eq!(first, Rows::of(&[2, 4, 5, 6, 8])?);
    /// assert_eq!(table.file_mut(1).write(4, first, 0, b"1-0")?.called, 5);
    /// assert_eq!(table.choice(10, Kind::Read), Err(Refusal::NoSuchRow));
    /// # Ok::<(), Refusal>(())
    /// ```
    ///
    /// # Errors
    ///
    /// Refused by 1 and 2.
    pub fn choice(&self, coordinator: usize, kind: Kind) -> Result<Rows, Refusal> {
        let mut set = [0; 8];
        let kind = match kind {
            Kind::Read => raw::READ,
            Kind::Write => raw::WRITE,
        };
        let table = self.as_bytes();
        // SAFETY: the table, which is only read, and the set are live for the call, and they are two.
        split(unsafe {
            raw::grid_choice(
                table.as_ptr(),
                table.len(),
                coordinator as u64,
                kind,
                set.as_mut_ptr(),
                set.len(),
            )
        })?;
        Ok(Rows::from_bits(u64::from_le_bytes(set)))
    }
}
