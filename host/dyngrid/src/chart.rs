use crate::refusal::split;
use crate::{raw, Refusal};

/// The bytes that the library wants for a chart: 64 sets.
const LIST: usize = 128;

/// The wall chart: every smallest write quorum of a list of so many members, 1 to 9, with this grid mark. These are the sets of
/// members that are enough for a write or a check, and no longer are if any one of them is taken out.
///
/// A set is a number, bit k - 1 for the k-th member in name order. The sets rise. A row that has a list tells its
/// [grid mark](crate::RowView::grid_mark): 2 in a tall table, and in a wide one 1 for five and 0 for every other length (in a table
/// of form 1 also for five). A list of several counties has no chart: mark 3 is refused, and what is told of mark 2 is of lists within
/// one county.
///
/// ```
/// use dyngrid::{chart, Refusal};
///
/// // Of four machines, any three.
/// assert_eq!(chart(4, 0)?, [0b0111, 0b1011, 0b1101, 0b1110]);
/// assert_eq!([chart(10, 0), chart(4, 3)], [Err(Refusal::NoChart), Err(Refusal::NoChart)]);
/// # Ok::<(), Refusal>(())
/// ```
///
/// # Errors
///
/// Refused by 17: no member or more than nine, or a mark that no list of that length can have.
///
/// # Panics
///
/// If the archive has another interface than this wrapper.
pub fn chart(length: usize, mark: u8) -> Result<Vec<u16>, Refusal> {
    raw::assert_interface();
    let mut list = [0; LIST];
    // SAFETY: the list is live for the call, and its only slice.
    let result = unsafe { raw::grid_chart(length as u64, mark.into(), list.as_mut_ptr(), list.len()) };
    let count = split(result)? as usize;
    Ok(list.chunks_exact(2).map(|set| u16::from_le_bytes([set[0], set[1]])).take(count).collect())
}
