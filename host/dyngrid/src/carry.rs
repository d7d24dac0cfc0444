use crate::refusal::split;
use crate::table::{HEAD, HEADER};
use crate::window::RECORDS;
use crate::{raw, NotATable, Refusal};
use std::fmt;

/// The forms of a table before the newest, 5. No call but a move takes their tables, and moves go between forms 1 or 2 and 3
/// alone.
#[derive(Clone, Copy, Debug, PartialEq, Eq, PartialOrd, Ord, Hash)]
pub enum OlderForm {
    /// Every list lies in the published grid, and every machine has one.
    One = 1,
    /// Lists have grid marks, and machines may have joined; rows have no windows.
    Two = 2,
    /// Rows have windows; there is one file.
    Three = 3,
    /// Rows have a copy of each of up to eight files; machines have no county.
    Four = 4,
}

impl OlderForm {
    const ALL: [OlderForm; 4] = [OlderForm::One, OlderForm::Two, OlderForm::Three, OlderForm::Four];

    /// Its number, the first byte of its tables.
    #[must_use]
    pub fn number(self) -> u8 {
        self as u8
    }

    /// The form of these bytes, if they are a table of an older form. Each form is judged by its own rules.
    pub(crate) fn of(bytes: &[u8]) -> Option<OlderForm> {
        let form = OlderForm::ALL.into_iter().find(|form| bytes.first() == Some(&form.number()))?;
        // The size of the second buffer is the last question: no table fits into no byte.
        (carry(bytes, OlderForm::Three, &mut []) == Err(Refusal::BadSize)).then_some(form)
    }

    /// How long a table of this form is with the sizes that these bytes of another one tell; 0 if they have no header. Nothing is
    /// carried to form 4, whatever the length.
    fn length(self, table: &[u8]) -> usize {
        let Some(header) = table.first_chunk::<HEADER>() else { return 0 };
        let file_len = usize::from(u16::from_le_bytes([header[4], header[5]]));
        let records = if self == OlderForm::Three { RECORDS } else { 0 };
        HEADER + usize::from(header[1]) * (HEAD + file_len + records)
    }
}

/// A table of form 3, which an earlier version of the library left, or which a table of form 1 or 2 was carried up to.
///
/// It can be carried down again, and looked at as bytes. No other call takes it, and **nothing carries it to form 4 or 5**: a
/// [`Table`](crate::Table) is founded anew, and the file written into it.
///
/// ```
/// use dyngrid::{Form3Table, NotATable, OlderForm, Table};
///
/// # fn kept_table() -> Vec<u8> {
/// #     include_bytes!("../tests/season/four.table").to_vec()
/// # }
/// # fn main() -> Result<(), Box<dyn std::error::Error>> {
/// let kept = kept_table(); // of form 1
/// let error = Table::from_bytes(kept.clone()).unwrap_err();
/// assert_eq!(error.older_form(), Some(OlderForm::One));
///
/// let table = Form3Table::carry_up(&kept)?;
/// assert_eq!(table.as_bytes()[0], 3);
/// assert_eq!(table.carry_down(OlderForm::One)?, kept);
/// # Ok(())
/// # }
/// ```
#[derive(Clone, PartialEq, Eq)]
pub struct Form3Table {
    bytes: Vec<u8>,
}

impl Form3Table {
    /// Takes over the bytes of a table of form 3.
    ///
    /// # Errors
    ///
    /// If they are none, the error gives them back.
    ///
    /// # Panics
    ///
    /// If the archive has another interface than this wrapper.
    pub fn from_bytes(bytes: Vec<u8>) -> Result<Form3Table, NotATable> {
        raw::assert_interface();
        match OlderForm::of(&bytes) {
            Some(OlderForm::Three) => Ok(Form3Table { bytes }),
            _ => Err(NotATable::new(bytes, Refusal::Malformed)),
        }
    }

    /// Carries a table of form 1 or 2 over to form 3. File, versions, epochs, lists and their grids stay; the windows are
    /// empty.
    ///
    /// # Errors
    ///
    /// Bytes that are no table by the rules of their own form are refused by 1. So is a table of form 1 that a machine has joined,
    /// which is one of form 2 but for its first byte: set that byte to 2, and carry it up then. A table of form 3, 4 or 5 is
    /// refused by 12.
    ///
    /// # Panics
    ///
    /// If the archive has another interface than this wrapper.
    pub fn carry_up(older: &[u8]) -> Result<Form3Table, Refusal> {
        raw::assert_interface();
        Ok(Form3Table { bytes: carried(older, OlderForm::Three)? })
    }

    /// The table in form 1 or 2, for programs that know no other; its windows are left out. [Carried up](Form3Table::carry_up)
    /// again it has the same rows, with empty windows.
    ///
    /// # Errors
    ///
    /// Form 1 has no grid mark but 0 and no row without a list: where there is one it is refused by 15. Forms 3 and 4 are
    /// refused by 12.
    pub fn carry_down(&self, form: OlderForm) -> Result<Vec<u8>, Refusal> {
        carried(&self.bytes, form)
    }

    /// The bytes of the whole table.
    #[must_use]
    pub fn as_bytes(&self) -> &[u8] {
        &self.bytes
    }

    /// The bytes of the whole table, without a copy.
    #[must_use]
    pub fn into_bytes(self) -> Vec<u8> {
        self.bytes
    }
}

/// How many bytes there are.
impl fmt::Debug for Form3Table {
    fn fmt(&self, f: &mut fmt::Formatter) -> fmt::Result {
        f.debug_struct("Form3Table").field("length", &self.bytes.len()).finish_non_exhaustive()
    }
}

/// The table in another form.
fn carried(table: &[u8], form: OlderForm) -> Result<Vec<u8>, Refusal> {
    let mut bytes = vec![0; form.length(table)];
    carry(table, form, &mut bytes)?;
    Ok(bytes)
}

fn carry(table: &[u8], form: OlderForm, to: &mut [u8]) -> Result<u32, Refusal> {
    let form = form.number().into();
    // SAFETY: the table, which is only read, and the second buffer are live for the call, and they are two.
    split(unsafe { raw::grid_move(table.as_ptr(), table.len(), form, to.as_mut_ptr(), to.len()) })
}
