use crate::refusal::split;
use crate::{copy, raw, File, FileMut, NotATable, NotAssembled, Refusal, Rows, Sheet};
use std::fmt;
use std::ops::Range;

pub(crate) const HEADER: usize = 16;
/// Where the header has the length of each file, in two bytes, and the number of files.
pub(crate) const FILE_LEN: usize = 4;
pub(crate) const FILES: usize = 6;
/// The head of a row; behind it comes a copy of each file.
pub(crate) const HEAD: usize = 32;
/// A row begins with its name, and then its link.
const NAME: usize = 2;
pub(crate) const NAME_AND_LINK: usize = 3;
/// Where a row has its county.
pub(crate) const COUNTY: usize = 26;
/// The county of machines that are given none.
const FIRST_COUNTY: u8 = 1;

/// How the lists of a table are laid; chosen at its founding, for good.
#[derive(Clone, Copy, Debug, PartialEq, Eq, Hash)]
pub enum Shape {
    /// In the published grids, and five in 3 rows and 2 columns.
    Wide,
    /// Rows and columns exchanged wherever the published grid has one row less than columns: at 2, 5, 6, 10 to 12, 17 to 20
    /// machines and so on. There a read calls one machine less than in the published grid. A write calls no more, but needs a
    /// longer column whole, so it is refused sooner when machines are away. For files that are read hundreds of times for
    /// each write.
    Tall,
}

/// A grid table that owns its bytes: a group of 1 to 8 files of one length, of which each row has a copy.
///
/// It is of the newest form, 5. Its length always agrees with its header, and no buffer, patch or list of names can overlap it.
/// Rows have the numbers 1 to [`Table::used`], files the numbers 1 to [`Table::files`]. Each machine is of a
/// [county](Table::found_counties), 1 to 8; where nothing else is said, of county 1.
///
/// Reads, writes and sends are of one [file](Table::file): they look at the copies of that file, and alter no other. Epochs and
/// lists are shared, so that one [check](Table::check) serves all files.
///
/// Reads and choices of one table may run at the same time, also from several threads: they take the table by shared reference
/// and alter nothing of it, and the library keeps no state of its own. Every other call has the table to itself.
#[derive(Clone, PartialEq, Eq)]
pub struct Table {
    pub(crate) bytes: Vec<u8>,
}

impl Table {
    /// Founds a table of `capacity` rows for one file of `file_len` zero bytes on the machines `names`, which must rise; all its
    /// lists, those that checks lay too, have this shape. The file has the number 1.
    ///
    /// # Errors
    ///
    /// Refused by 11 and 12: names, and sizes.
    ///
    /// # Panics
    ///
    /// If the archive has another interface than this wrapper.
    pub fn found(capacity: usize, file_len: usize, names: &[u16], shape: Shape) -> Result<Table, Refusal> {
        Table::found_group(capacity, file_len, names, shape, 1)
    }

    /// The same for a group of 1 to 8 files, all of one length.
    ///
    /// ```
    /// use dyngrid::{Refusal, Rows, Shape, Table};
    ///
    /// let mut table = Table::found_group(4, 16, &[1, 2, 3, 4], Shape::Wide, 2)?;
    /// let three = Rows::of(&[1, 2, 3])?;
    /// assert_eq!(table.file_mut(2).write(1, three, 0, b"0:47")?.version, 1);
    /// assert_eq!(table.file(1).read(1, three, 0, &mut [0; 4])?.version, 0);
    /// assert_eq!(table.file(3).read(1, three, 0, &mut [0; 4]).unwrap_err().refusal, Refusal::NoSuchFile);
    /// # Ok::<(), Refusal>(())
    /// ```
    ///
    /// # Errors
    ///
    /// As [`Table::found`].
    ///
    /// # Panics
    ///
    /// If the archive has another interface than this wrapper.
    pub fn found_group(
        capacity: usize,
        file_len: usize,
        names: &[u16],
        shape: Shape,
        files: usize,
    ) -> Result<Table, Refusal> {
        Table::found_counties(capacity, file_len, names, shape, files, &vec![FIRST_COUNTY; names.len()])
    }

    /// The same for machines of several counties: one of 1 to 8 for each name, in the order of the names.
    ///
    /// A list whose members are of several counties lies in grids on two levels: the members of each county in one, and the
    /// counties in one above them. **Such a list can stop with one machine.** Here machine 5 is all that county 2 has, and while it
    /// is off the other four cannot even check it out; docs/COUNTIES.md tells which losses are borne, and how counties are laid so
    /// that any one machine can be lost.
    ///
    /// ```
    /// use dyngrid::{Refusal, Rows, Shape, Table};
    ///
    /// let mut table = Table::found_counties(5, 16, &[1, 2, 3, 4, 5], Shape::Wide, 1, &[1, 1, 1, 1, 2])?;
    /// assert_eq!(table.county(5), Some(2));
    /// let (four, but_first) = (Rows::first(4), Rows::of(&[2, 3, 4, 5])?);
    /// assert_eq!(table.file(1).read(1, four, 0, &mut [0; 3]).unwrap_err().refusal, Refusal::NoQuorum);
    /// assert_eq!(table.check(1, four), Err(Refusal::NoQuorum));
    /// assert_eq!(table.check(2, but_first), Ok(1)); // any of the four can be lost
    /// # Ok::<(), Refusal>(())
    /// ```
    ///
    /// Panics if the archive has another interface than this wrapper.
    pub fn found_counties(
        capacity: usize,
        file_len: usize,
        names: &[u16],
        shape: Shape,
        files: usize,
        counties: &[u8],
    ) -> Result<Table, Refusal> {
        raw::assert_interface();
        let mut bytes = vec![0; length(capacity, file_len, files).unwrap_or(0)];
        let names: Vec<u8> = names.iter().flat_map(|name| name.to_le_bytes()).collect();
        let choice = match shape {
            Shape::Wide => raw::WIDE,
            Shape::Tall => raw::TALL,
        };
        // SAFETY: the two vectors and the counties, which are only read, are live for the call and cannot overlap.
        let result = unsafe {
            raw::grid_found(
                bytes.as_mut_ptr(),
                bytes.len(),
                capacity as u64,
                file_len as u64,
                names.as_ptr(),
                names.len(),
                choice,
                files as u64,
                counties.as_ptr(),
                counties.len(),
            )
        };
        split(result).map(|_| Table { bytes })
    }

    /// Takes over the bytes of a table, as kept on a disk.
    ///
    /// # Errors
    ///
    /// If they are no well-formed table, the error gives them back.
    ///
    /// A table of an older form is not taken: the error names its form. Forms 1, 2 and 3 are carried over to each other
    /// ([`Form3Table`](crate::Form3Table)), and no form to 4 or 5: found a new table, and write the files into it.
    ///
    /// # Panics
    ///
    /// If the archive has another interface than this wrapper.
    pub fn from_bytes(bytes: Vec<u8>) -> Result<Table, NotATable> {
        raw::assert_interface();
        let mut table = Table { bytes };
        match table.judge() {
            Ok(()) => Ok(table),
            Err(refusal) => Err(NotATable::new(table.bytes, refusal)),
        }
    }

    /// Is the table well formed? A send between rows 0 is never done, and tells.
    fn judge(&mut self) -> Result<(), Refusal> {
        match self.file_mut(1).send(0, 0, Rows::EMPTY) {
            Err(Refusal::NoSuchRow) => Ok(()),
            Err(refusal) => Err(refusal),
            Ok(_) => unreachable!("a send between rows 0 was done"),
        }
    }

    /// The rows there are.
    #[must_use]
    pub fn capacity(&self) -> usize {
        usize::from(self.bytes[1])
    }

    /// The rows in use, one for each machine.
    #[must_use]
    pub fn used(&self) -> usize {
        usize::from(self.bytes[2])
    }

    /// The length of each file.
    #[must_use]
    pub fn file_len(&self) -> usize {
        usize::from(u16::from_le_bytes([self.bytes[FILE_LEN], self.bytes[FILE_LEN + 1]]))
    }

    /// How many files there are.
    #[must_use]
    pub fn files(&self) -> usize {
        usize::from(self.bytes[FILES])
    }

    /// The file of this number, from 1 on, to read it and to look at its copies. A number that the group does not have is
    /// refused by the calls.
    #[must_use]
    pub fn file(&self, number: usize) -> File<'_> {
        File::new(self, number)
    }

    /// The same to write it and to send it.
    pub fn file_mut(&mut self, number: usize) -> FileMut<'_> {
        FileMut::new(self, number)
    }

    /// All rows in use.
    #[must_use]
    pub fn rows(&self) -> Rows {
        Rows::first(self.used())
    }

    /// The county of a row's machine, 1 to 8; none if the row is not in use.
    pub fn county(&self, row: usize) -> Option<u8> {
        Some(self.row_bytes(row)?[COUNTY])
    }

    /// The bytes of a row, which are what its machine holds; none if the row is not in use.
    #[must_use]
    pub fn row_bytes(&self, row: usize) -> Option<&[u8]> {
        self.bytes.get(self.place(row)?)
    }

    /// Where a row lies in the table, if it is in use.
    pub(crate) fn place(&self, row: usize) -> Option<Range<usize>> {
        let stride = stride(self.file_len(), self.files());
        self.rows().contains(row).then(|| HEADER + (row - 1) * stride..HEADER + row * stride)
    }

    /// What a relay keeps, the same for every call: header, names, links and counties. It is a table in which each used row is
    /// zero otherwise, its list empty; a machine joins by [`Table::join`] on it.
    #[must_use]
    pub fn frame(&self) -> Table {
        let mut frame = Table { bytes: vec![0; self.bytes.len()] };
        frame.bytes[..HEADER].copy_from_slice(&self.bytes[..HEADER]);
        for place in self.rows().iter().filter_map(|row| self.place(row)) {
            let name_and_link = place.start..place.start + NAME_AND_LINK;
            frame.bytes[name_and_link.clone()].copy_from_slice(&self.bytes[name_and_link]);
            frame.bytes[place.start + COUNTY] = self.bytes[place.start + COUNTY];
        }
        frame
    }

    /// Puts the table of a call together from a [frame](Table::frame) and the rows of the machines that answered, each with its
    /// number and the bytes that its machine holds. Of the frame only header, names, links and counties count; each other used
    /// row is zero otherwise.
    ///
    /// Every read, write, round, send and check by these rows answers as on the table of all rows, and leaves these rows as it would
    /// there; so does the [choice](Table::choice) of one of them. What is then to be shipped, [`Table::changed`] says. The
    /// link of a row is the frame's: a joining may have altered it while the machine was away. For a read, write or send a row may
    /// come with zeros for its copies of other files, which have no part in it ([`File::range`]); for a round it comes with its
    /// copies of the files that the orders name.
    ///
    /// ```
    /// use dyngrid::{Rows, Shape, Table};
    ///
    /// # fn main() -> Result<(), Box<dyn std::error::Error>> {
    /// let founded = Table::found(4, 16, &[1, 2, 3, 4], Shape::Wide)?;
    /// let frame = founded.frame();
    /// let mut machines: Vec<Vec<u8>> = founded.rows().iter().filter_map(|row| Some(founded.row_bytes(row)?.to_vec())).collect();
    ///
    /// // Machines 1, 2 and 3 answer.
    /// let answering = Rows::first(3);
    /// let before = Table::assemble(&frame, answering.iter().map(|row| (row, &machines[row - 1])))?;
    /// let mut table = before.clone();
    /// table.file_mut(1).write(1, answering, 0, b"1-0")?;
    /// for row in table.changed(&before) {
    ///     machines[row - 1] = table.row_bytes(row).ok_or("in use")?.to_vec();
    /// }
    /// let contents = frame.file(1).contents_range().ok_or("a file of the group")?;
    /// assert!(machines[2][contents].starts_with(b"1-0"));
    /// # Ok(())
    /// # }
    /// ```
    ///
    /// # Errors
    ///
    /// Rows that do not belong to the frame, or do not fit together; see [`NotAssembled`].
    pub fn assemble<B: AsRef<[u8]>>(
        frame: &Table,
        answered: impl IntoIterator<Item = (usize, B)>,
    ) -> Result<Table, NotAssembled> {
        let mut table = frame.frame();
        let mut laid = Rows::EMPTY;
        for (row, bytes) in answered {
            let bytes = bytes.as_ref();
            let place = table.place(row).ok_or(NotAssembled::NoSuchRow { row })?;
            if laid.contains(row) {
                return Err(NotAssembled::Twice { row });
            }
            laid.extend([row]);
            if bytes.len() != place.len() {
                return Err(NotAssembled::WrongLength { row, length: bytes.len() });
            }
            let place = &mut table.bytes[place];
            if place[..NAME] != bytes[..NAME] {
                return Err(NotAssembled::OtherName { row, name: u16::from_le_bytes([bytes[0], bytes[1]]) });
            }
            if place[COUNTY] != bytes[COUNTY] {
                return Err(NotAssembled::OtherCounty { row, county: bytes[COUNTY] });
            }
            place[NAME_AND_LINK..].copy_from_slice(&bytes[NAME_AND_LINK..]);
        }
        Ok(Table::from_bytes(table.bytes)?)
    }

    /// The rows that are to be shipped to their machines after a call: those whose bytes are others than in the table before
    /// it, or that were not in use there. Which of their bytes, [`Table::changed_ranges`] says.
    #[must_use]
    pub fn changed(&self, before: &Table) -> Rows {
        let differs = |&row: &usize| self.row_bytes(row) != before.row_bytes(row);
        (self.rows() | before.rows()).iter().filter(differs).collect()
    }

    /// The bytes of the whole table.
    #[must_use]
    pub fn as_bytes(&self) -> &[u8] {
        &self.bytes
    }

    /// The bytes of the whole table, without a copy.
    #[must_use]
    pub fn into_bytes(self) -> Vec<u8> {
        self.bytes
    }

    /// Makes the rows that answered the list in force, for all files; gives the epoch number in force.
    ///
    /// The new list has the shape of the table. A list of five, founded or laid by a check, lies in 3 rows and 2 columns: any
    /// one of its machines may be away. A check by the list in force changes nothing.
    ///
    /// **A check that takes in a second county can make one machine indispensable**: see [`Table::join_in`].
    ///
    /// **One stale file blocks the check for all**: unless the rows that answered are current for every file, a check that would
    /// change the list is refused by 7. [Send](FileMut::send) that file, from a row that has its newest version, and check again.
    ///
    /// ```
    /// use dyngrid::{Refusal, Rows, Shape, Table};
    ///
    /// let mut table = Table::found_group(4, 16, &[1, 2, 3, 4], Shape::Wide, 2)?;
    /// // Of file 2, row 4 misses the first write and row 3 the second; file 1 is current everywhere.
    /// table.file_mut(2).write(1, Rows::of(&[1, 2, 3])?, 0, b"0:47")?;
    /// table.file_mut(2).write(1, Rows::of(&[1, 2, 4])?, 0, b"1:02")?;
    /// // Machine 2 goes away, and then machine 1.
    /// table.check(1, Rows::of(&[1, 3, 4])?)?;
    /// let left = Rows::of(&[3, 4])?;
    /// assert_eq!(table.check(3, left), Err(Refusal::NotCurrent));
    /// // Had file 2 been sent while machine 1 was up, the check would be done.
    /// table.file_mut(2).send(1, 3, Rows::of(&[1, 3])?)?;
    /// assert_eq!(table.check(3, left), Ok(2));
    /// # Ok::<(), Refusal>(())
    /// ```
    ///
    /// # Errors
    ///
    /// Refused by 1 to 3 and 6 to 8.
    pub fn check(&mut self, coordinator: usize, answering: Rows) -> Result<u32, Refusal> {
        self.check_with(&mut Sheet::open(), coordinator, answering)
    }

    /// The same with the sheet that writes are lent: where the check changes the list, all counts become 0. Where writes
    /// [count for clubs](FileMut::write_for), every check is to be lent their sheet.
    pub fn check_with(
        &mut self,
        sheet: &mut Sheet,
        coordinator: usize,
        answering: Rows,
    ) -> Result<u32, Refusal> {
        let (table, sheet) = (&mut self.bytes, sheet.bytes_mut());
        // SAFETY: the table and the sheet are live for the call, and they are two.
        split(unsafe {
            raw::grid_check(
                table.as_mut_ptr(),
                table.len(),
                coordinator as u64,
                answering.bits(),
                sheet.as_mut_ptr(),
                sheet.len(),
            )
        })
    }

    /// Joins the machine `name` in the first unused row; gives that row. Nobody need answer. It is of county 1, as the machines of
    /// [`Table::found`] are; where machines are of other counties, [`Table::join_in`] names its own.
    ///
    /// Besides the new row it alters the count in the header and the one link before the row: another row's, or the
    /// header's first index. The new row may coordinate and answer at once, but it counts in no quorum until a check
    /// that it answers takes it into the list. Until then it has no choice of its own: a read or write that it
    /// coordinates works on all that answered.
    ///
    /// ```
    /// use dyngrid::{Refusal, Rows, Shape, Table};
    ///
    /// let mut table = Table::found(3, 16, &[1, 2], Shape::Wide)?;
    /// table.file_mut(1).write(1, Rows::first(2), 0, b"1-0")?;
    /// assert_eq!(table.join(3)?, 3);
    /// // It is not marked yet: a check takes it in and marks it, and then a send brings it the file.
    /// assert_eq!(table.file_mut(1).send(1, 3, Rows::first(3)), Err(Refusal::ReceiverNotBehind));
    /// table.check(1, Rows::first(3))?;
    /// assert_eq!(table.file_mut(1).send(1, 3, Rows::first(3))?, 1);
    /// # Ok::<(), dyngrid::Refusal>(())
    /// ```
    ///
    /// # Errors
    ///
    /// Refused by 1, 13 and 14.
    pub fn join(&mut self, name: u16) -> Result<usize, Refusal> {
        self.join_in(name, FIRST_COUNTY)
    }

    /// Joins a machine of this county, 1 to 8; [`Table::join`] joins one of county 1.
    ///
    /// Its county counts from the check on that takes it into the list. **Join all machines of a new county first, and take them in by
    /// one check:** alone, the first of them would be indispensable.
    ///
    /// ```
    /// use dyngrid::{Refusal, Rows, Shape, Table};
    ///
    /// let mut table = Table::found(9, 16, &[1, 2, 3, 4], Shape::Wide)?;
    /// for name in [5, 6, 7, 8] {
    ///     table.join_in(name, 2)?;
    /// }
    /// table.check(1, Rows::first(8))?;
    /// // Of four and four any one machine can be lost.
    /// for lost in table.rows() {
    ///     let left = table.rows() - Rows::of(&[lost])?;
    ///     table.clone().check(left.iter().next().ok_or(Refusal::NoSuchRow)?, left)?;
    /// }
    /// assert_eq!(table.join_in(9, 9), Err(Refusal::BadCounties));
    /// # Ok::<(), Refusal>(())
    /// ```
    pub fn join_in(&mut self, name: u16, county: u8) -> Result<usize, Refusal> {
        // SAFETY: `&mut self` is live for the call, and its only slice.
        split(unsafe { raw::grid_join(self.bytes.as_mut_ptr(), self.bytes.len(), name, county.into()) })
            .map(|row| row as usize)
    }
}

/// Its sizes; the bytes are left out.
impl fmt::Debug for Table {
    fn fmt(&self, f: &mut fmt::Formatter) -> fmt::Result {
        f.debug_struct("Table")
            .field("capacity", &self.capacity())
            .field("used", &self.used())
            .field("file_len", &self.file_len())
            .field("files", &self.files())
            .finish_non_exhaustive()
    }
}

impl AsRef<[u8]> for Table {
    fn as_ref(&self) -> &[u8] {
        self.as_bytes()
    }
}

impl TryFrom<Vec<u8>> for Table {
    type Error = NotATable;

    fn try_from(bytes: Vec<u8>) -> Result<Table, NotATable> {
        Table::from_bytes(bytes)
    }
}

/// How many bytes a row takes.
fn stride(file_len: usize, files: usize) -> usize {
    HEAD + files * copy::length(file_len)
}

/// How many bytes a table takes; none if capacity, file length or files are beyond what a table can have.
pub(crate) fn length(capacity: usize, file_len: usize, files: usize) -> Option<usize> {
    (capacity <= 64 && file_len <= 4096 && files <= 8).then(|| HEADER + capacity * stride(file_len, files))
}
