use crate::called::answer;
use crate::refusal::split;
use crate::table::{length, FILES, FILE_LEN, HEAD, HEADER};
use crate::{copy, raw, CopyView, Done, Refusal, Refused, Rows, Sheet, Table};
use std::ops::{Range, RangeInclusive};

/// One file of a table, to read it and to look at its copies; see [`Table::file`].
#[derive(Clone, Copy, Debug)]
pub struct File<'a> {
    table: &'a Table,
    number: usize,
}

/// One file of a table, to write it and to send it; see [`Table::file_mut`].
#[derive(Debug)]
pub struct FileMut<'a> {
    table: &'a mut Table,
    number: usize,
}

impl<'a> File<'a> {
    pub(crate) fn new(table: &'a Table, number: usize) -> File<'a> {
        File { table, number }
    }

    /// Reads as many bytes from `offset` on as the buffer holds; gives the version read, and how many machines were called.
    ///
    /// # Errors
    ///
    /// Refused by 1 to 4, 6, 7 and 16.
    pub fn read(
        self,
        coordinator: usize,
        answering: Rows,
        offset: usize,
        buffer: &mut [u8],
    ) -> Result<Done, Refused> {
        let mut called = 0;
        let table = self.table.as_bytes();
        // SAFETY: the table, which is only read, `buffer` and `called` are live for the call and cannot overlap.
        let result = unsafe {
            raw::grid_read(
                table.as_ptr(),
                table.len(),
                coordinator as u64,
                answering.bits(),
                offset as u64,
                buffer.len() as u64,
                buffer.as_mut_ptr(),
                buffer.len(),
                &mut called,
                1,
                self.number as u64,
            )
        };
        answer(result, called)
    }

    /// Reads the whole file; gives its bytes too.
    ///
    /// # Errors
    ///
    /// As [`File::read`].
    pub fn read_whole(self, coordinator: usize, answering: Rows) -> Result<(Vec<u8>, Done), Refused> {
        let mut bytes = vec![0; self.table.file_len()];
        let done = self.read(coordinator, answering, 0, &mut bytes)?;
        Ok((bytes, done))
    }

    /// What a row tells of its copy of the file; none if the row is not in use, or the group has no such file.
    ///
    /// ```
    /// use dyngrid::{Rows, Shape, Table};
    ///
    /// let mut table = Table::found_group(4, 16, &[1, 2, 3, 4], Shape::Wide, 2)?;
    /// table.file_mut(2).write(1, Rows::of(&[1, 2, 3])?, 0, b"0:47")?;
    /// table.file_mut(2).write(1, Rows::of(&[1, 2, 4])?, 0, b"1:02")?;
    /// let copy = table.file(2).copy(4).ok_or(dyngrid::Refusal::NoSuchRow)?;
    /// assert_eq!((copy.stale, copy.version, copy.desired), (true, 0, 2));
    /// assert_eq!(table.file(1).copy(4).map(|copy| copy.stale), Some(false));
    /// assert_eq!((table.file(2).copy(5), table.file(3).copy(4)), (None, None));
    /// # Ok::<(), dyngrid::Refusal>(())
    /// ```
    #[must_use]
    pub fn copy(self, row: usize) -> Option<CopyView> {
        Some(CopyView::of(self.number, self.copy_bytes(row)?))
    }

    /// Where the bytes of a row have its copy of the file: 588 bytes and the contents. None if the group has no such file.
    ///
    /// For a read, write or send a machine need give no more than the first 32 bytes of its row and this range; zeros can stand
    /// for the rest in an [assembled](Table::assemble) table. For a round it gives its copies of the files that the orders name.
    #[must_use]
    pub fn range(self) -> Option<Range<usize>> {
        let length = copy::length(self.table.file_len());
        let place = self.number.checked_sub(1).filter(|place| *place < self.table.files())?;
        Some(HEAD + place * length..HEAD + (place + 1) * length)
    }

    /// Where the bytes of a row have the contents of its copy; none if the group has no such file.
    #[must_use]
    pub fn contents_range(self) -> Option<Range<usize>> {
        let (copy, contents) = (self.range()?, copy::contents(self.table.file_len()));
        Some(copy.start + contents.start..copy.start + contents.end)
    }

    /// The bytes of a row's copy.
    pub(crate) fn copy_bytes(self, row: usize) -> Option<&'a [u8]> {
        self.table.row_bytes(row)?.get(self.range()?)
    }

    /// The sends of this file that would be done now if all machines answered, as pairs of sender and receiver; by receiver, then
    /// by sender. Any of a receiver's senders may send, and then it needs no other. In an [assembled](Table::assemble) table both
    /// ends are rows that answered.
    ///
    /// The library itself is asked for every two rows, on a copy, which takes some 4 ms for 64 machines; on a malformed table no
    /// send would be done.
    ///
    /// ```
    /// use dyngrid::{Rows, Shape, Table};
    ///
    /// let mut table = Table::found(4, 16, &[1, 2, 3, 4], Shape::Wide)?;
    /// let mut file = table.file_mut(1);
    /// file.write(1, Rows::of(&[1, 2, 3])?, 0, b"1-0")?;
    /// file.write(1, Rows::of(&[1, 2, 4])?, 0, b"0-1")?; // marks row 4; row 3 keeps the old score
    /// assert_eq!(table.file(1).sends(), [(1, 4), (2, 4)]);
    /// for (from, to) in table.file(1).sends_from_newest() {
    ///     table.file_mut(1).send(from, to, Rows::first(4))?;
    /// }
    /// assert_eq!(table.file(1).sends(), []);
    /// # Ok::<(), dyngrid::Refusal>(())
    /// ```
    #[must_use]
    pub fn sends(self) -> Vec<(usize, usize)> {
        let mut sends = Vec::new();
        if self.range().is_none() {
            return sends;
        }
        let asked = self.table.cut_down(self.number..=self.number);
        let mut copy = asked.clone();
        let all = asked.rows();
        for (to, place) in all.iter().filter_map(|to| Some((to, asked.place(to)?))) {
            for from in all {
                if copy.file_mut(1).send(from, to, all).is_ok() {
                    copy.bytes[place.clone()].copy_from_slice(&asked.bytes[place.clone()]);
                    sends.push((from, to));
                }
            }
        }
        sends
    }

    /// Of the [`sends`](File::sends) one for each receiver: from a sender of the newest version, the lowest row of these. They
    /// may be done in any order, and leave no other send of this file to be done.
    #[must_use]
    pub fn sends_from_newest(self) -> Vec<(usize, usize)> {
        let version = |row| self.copy(row).map(|copy| copy.version);
        let of_one =
            |sends: &[(usize, usize)]| sends.iter().rev().copied().max_by_key(|&(from, _)| version(from));
        self.sends().chunk_by(|one, next| one.1 == next.1).filter_map(of_one).collect()
    }
}

impl Table {
    /// The table in outline: every file is cut down to one zero byte, and the windows are empty. Whether a read, write or check of that
    /// byte is done, or a send, and by what it is refused, hangs on nothing else; so it tells what would happen to such a call here, in a
    /// fraction of the time and at no cost to this table.
    ///
    /// ```
    /// use dyngrid::{Refusal, Rows, Shape, Table};
    ///
    /// let table = Table::found(4, 4096, &[1, 2, 3, 4], Shape::Wide)?;
    /// let mut asked = table.outline();
    /// assert_eq!(asked.check(1, Rows::of(&[1, 4])?), Err(Refusal::NoQuorum));
    /// assert_eq!(asked.check(1, Rows::of(&[1, 2, 4])?), Ok(1));
    /// # Ok::<(), Refusal>(())
    /// ```
    #[must_use]
    pub fn outline(&self) -> Table {
        self.cut_down(1..=self.files())
    }

    /// The outline, with these files alone.
    fn cut_down(&self, files: RangeInclusive<usize>) -> Table {
        let files: Vec<File> = files.map(|file| self.file(file)).collect();
        let mut cut = Table { bytes: vec![0; length(self.capacity(), 1, files.len()).unwrap_or(0)] };
        cut.bytes[..HEADER].copy_from_slice(&self.bytes[..HEADER]);
        cut.bytes[FILES] = files.len() as u8;
        cut.bytes[FILE_LEN..FILE_LEN + 2].copy_from_slice(&1_u16.to_le_bytes());
        for row in self.rows() {
            let (Some(bytes), Some(place)) = (self.row_bytes(row), cut.place(row)) else { continue };
            let (head, copies) = cut.bytes[place].split_at_mut(HEAD);
            head.copy_from_slice(&bytes[..HEAD]);
            for (copy, file) in copies.chunks_exact_mut(copy::length(1)).zip(&files) {
                copy::outline(copy, file.copy_bytes(row).unwrap_or_default());
            }
        }
        cut
    }
}

impl<'a> FileMut<'a> {
    pub(crate) fn new(table: &'a mut Table, number: usize) -> FileMut<'a> {
        FileMut { table, number }
    }

    /// The same file, to read it and to look at its copies.
    ///
    /// ```
    /// use dyngrid::{Rows, Shape, Table};
    ///
    /// let mut table = Table::found(4, 16, &[1, 2, 3, 4], Shape::Wide)?;
    /// let mut file = table.file_mut(1);
    /// file.write(1, Rows::of(&[1, 2, 3])?, 0, b"1-0")?;
    /// assert_eq!(file.as_file().copy(2).map(|copy| copy.version), Some(1));
    /// # Ok::<(), dyngrid::Refusal>(())
    /// ```
    #[must_use]
    pub fn as_file(&self) -> File<'_> {
        self.table.file(self.number)
    }

    /// Lays the patch over the file from `offset` on; gives the new version, and how many machines were called. Copies of other
    /// files stay as they are, byte for byte. It counts for no club ([`FileMut::write_for`]).
    ///
    /// ```
    /// use dyngrid::{Refusal, Rows, Shape, Table};
    ///
    /// let mut table = Table::found(4, 16, &[1, 2, 3, 4], Shape::Wide)?;
    /// let mut file = table.file_mut(1);
    /// // The own choice of row 1 is {1, 2, 3}: it was enough. With row 3 away all four had to be called.
    /// assert_eq!(file.write(1, Rows::first(4), 0, b"1-0")?.called, 3);
    /// assert_eq!(file.write(1, Rows::of(&[1, 2, 4])?, 0, b"0-1")?.called, 4);
    /// // All were called, and too few answered.
    /// let refused = file.write(1, Rows::of(&[1, 4])?, 0, b"0-0").unwrap_err();
    /// assert_eq!((refused.refusal, refused.called), (Refusal::NoQuorum, 4));
    /// # Ok::<(), Refusal>(())
    /// ```
    ///
    /// # Errors
    ///
    /// Refused by 1 to 4, 6 to 8 and 16.
    pub fn write(
        &mut self,
        coordinator: usize,
        answering: Rows,
        offset: usize,
        patch: &[u8],
    ) -> Result<Done, Refused> {
        self.write_for(1, &mut Sheet::open(), coordinator, answering, offset, patch)
    }

    /// The same by a club, 1 to 16, for which it counts on the sheet if it is done. It is refused by 18 if the club is at its ceiling
    /// or none of 1 to 16, by 19 if it has made its assured writes and of those that the clubs share none is left; a [`Sheet`]
    /// shows an example.
    pub fn write_for(
        &mut self,
        club: usize,
        sheet: &mut Sheet,
        coordinator: usize,
        answering: Rows,
        offset: usize,
        patch: &[u8],
    ) -> Result<Done, Refused> {
        let mut called = 0;
        let (table, sheet) = (&mut self.table.bytes, sheet.bytes_mut());
        // SAFETY: the table, `patch`, `called` and the sheet are live for the call and cannot overlap.
        let result = unsafe {
            raw::grid_write(
                table.as_mut_ptr(),
                table.len(),
                coordinator as u64,
                answering.bits(),
                offset as u64,
                patch.as_ptr(),
                patch.len(),
                &mut called,
                1,
                self.number as u64,
                sheet.as_mut_ptr(),
                sheet.len(),
                club as u64,
            )
        };
        answer(result, called)
    }

    /// Writes the whole file: these bytes, and zeros behind them up to its end.
    ///
    /// ```
    /// use dyngrid::{Refusal, Rows, Shape, Table};
    ///
    /// let mut table = Table::found(4, 8, &[1, 2, 3, 4], Shape::Wide)?;
    /// table.file_mut(1).write_whole(1, Rows::first(4), b"1-0 0-1")?;
    /// table.file_mut(1).write_whole(1, Rows::first(4), b"1/2")?;
    /// let (bytes, done) = table.file(1).read_whole(1, Rows::first(4))?;
    /// assert_eq!((&bytes[..], done.version), (&b"1/2\0\0\0\0\0"[..], 2));
    /// # Ok::<(), Refusal>(())
    /// ```
    ///
    /// # Errors
    ///
    /// As [`FileMut::write`]; more bytes than the file has are refused by 4.
    pub fn write_whole(
        &mut self,
        coordinator: usize,
        answering: Rows,
        contents: &[u8],
    ) -> Result<Done, Refused> {
        let mut patch = contents.to_vec();
        patch.resize(patch.len().max(self.table.file_len()), 0);
        self.write(coordinator, answering, 0, &patch)
    }

    /// Brings the stale copy in row `to` up to the state of that in row `from`; gives the version it then has. Copies of other
    /// files stay as they are.
    ///
    /// Where the [window](File::window) of `from` reaches back to the version of `to`, only the missing patches are laid, else
    /// the whole file is copied; in a table that a founding led to, the copy comes out the same. The window of `from` is taken over.
    ///
    /// # Errors
    ///
    /// Refused by 1 to 3, 9, 10 and 16.
    pub fn send(&mut self, from: usize, to: usize, answering: Rows) -> Result<u32, Refusal> {
        let table = &mut self.table.bytes;
        // SAFETY: the table is live for the call, and its only slice.
        split(unsafe {
            raw::grid_send(
                table.as_mut_ptr(),
                table.len(),
                from as u64,
                to as u64,
                answering.bits(),
                self.number as u64,
            )
        })
    }
}
