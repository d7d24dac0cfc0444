use crate::table::{length, COUNTY, FILES, HEADER, NAME_AND_LINK};
use crate::{NotATable, Refusal, Table};

/// Name and link of a row, and its county.
const SHORT_ROW: usize = NAME_AND_LINK + 1;

impl Table {
    /// The [frame](Table::frame) in short: the header, and name, link and county of each row in use: 16 bytes, and 4 a row.
    ///
    /// ```
    /// use dyngrid::{Shape, Table};
    ///
    /// # fn main() -> Result<(), Box<dyn std::error::Error>> {
    /// let table = Table::found(6, 4096, &[1, 2, 3, 4], Shape::Wide)?;
    /// let short = table.short_frame();
    /// assert_eq!(short.len(), 16 + 4 * 4);
    /// assert_eq!(Table::from_short_frame(&short)?, table.frame());
    /// # Ok(())
    /// # }
    /// ```
    #[must_use]
    pub fn short_frame(&self) -> Vec<u8> {
        let mut short = self.as_bytes()[..HEADER].to_vec();
        for row in self.rows() {
            if let Some(bytes) = self.row_bytes(row) {
                short.extend_from_slice(&bytes[..NAME_AND_LINK]);
                short.push(bytes[COUNTY]);
            }
        }
        short
    }

    /// The frame of its short form.
    ///
    /// # Errors
    ///
    /// Bytes that are no short frame, or a damaged one: another length, sizes that no table has, names that do not rise, links that do
    /// not lead through them, or counties that are none of 1 to 8. The error gives them back.
    ///
    /// # Panics
    ///
    /// If the archive has another interface than this wrapper.
    pub fn from_short_frame(short: &[u8]) -> Result<Table, NotATable> {
        let refused = || NotATable::new(short.to_vec(), Refusal::Malformed);
        let bytes = unfolded(short).ok_or_else(refused)?;
        Table::from_bytes(bytes).map_err(|_| refused())
    }
}

/// Name, link and county of each row at their places, all else zero; none if the lengths do not fit.
fn unfolded(short: &[u8]) -> Option<Vec<u8>> {
    let (header, rows) = short.split_first_chunk::<HEADER>()?;
    let [_, capacity, used, _, low, high, ..] = *header;
    let (capacity, file_len) = (usize::from(capacity), usize::from(u16::from_le_bytes([low, high])));
    if used > header[1] || rows.len() != usize::from(used) * SHORT_ROW {
        return None;
    }
    let mut bytes = vec![0; length(capacity, file_len, header[FILES].into())?];
    bytes[..HEADER].copy_from_slice(header);
    let stride = (bytes.len() - HEADER).checked_div(capacity)?;
    for (place, row) in bytes[HEADER..].chunks_exact_mut(stride).zip(rows.chunks_exact(SHORT_ROW)) {
        place[..NAME_AND_LINK].copy_from_slice(&row[..NAME_AND_LINK]);
        place[COUNTY] = row[NAME_AND_LINK];
    }
    Some(bytes)
}
