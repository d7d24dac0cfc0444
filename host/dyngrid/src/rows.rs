use crate::Refusal;
use std::fmt;
use std::iter::FusedIterator;
use std::ops::{BitAnd, BitAndAssign, BitOr, BitOrAssign, Sub, SubAssign};

/// A set of rows, such as the rows whose machines answered. Rows have the numbers 1 to 64.
///
/// ```
/// use dyngrid::Rows;
///
/// let up: Rows = [1, 2, 4].into_iter().collect();
/// assert_eq!(up.to_string(), "{1, 2, 4}");
/// assert_eq!(up - Rows::first(2), Rows::of(&[4])?);
/// # Ok::<(), dyngrid::Refusal>(())
/// ```
#[derive(Clone, Copy, Default, PartialEq, Eq, Hash)]
pub struct Rows(u64);

impl Rows {
    /// No row.
    pub const EMPTY: Rows = Rows(0);

    /// The set with these bits: bit i - 1 stands for row i.
    #[must_use]
    pub const fn from_bits(bits: u64) -> Rows {
        Rows(bits)
    }

    /// Its bits: bit i - 1 stands for row i.
    #[must_use]
    pub const fn bits(self) -> u64 {
        self.0
    }

    /// The set of one row.
    ///
    /// # Errors
    ///
    /// `NoSuchRow` if it is not from 1 to 64.
    pub fn one(row: usize) -> Result<Rows, Refusal> {
        only(row).ok_or(Refusal::NoSuchRow)
    }

    /// The set of these rows.
    ///
    /// # Errors
    ///
    /// `NoSuchRow` if one is not from 1 to 64.
    pub fn of(rows: &[usize]) -> Result<Rows, Refusal> {
        rows.iter().try_fold(Rows::EMPTY, |set, &row| Ok(set | Rows::one(row)?))
    }

    /// Rows 1 to `count`; all 64 if `count` is higher.
    #[must_use]
    pub fn first(count: usize) -> Rows {
        Rows(if count < 64 { (1 << count) - 1 } else { u64::MAX })
    }

    /// Is the row in the set?
    #[must_use]
    pub fn contains(self, row: usize) -> bool {
        only(row).is_some_and(|one| one.is_subset(self))
    }

    /// How many rows it has.
    #[must_use]
    pub const fn len(self) -> usize {
        self.0.count_ones() as usize
    }

    /// Has it no row?
    #[must_use]
    pub const fn is_empty(self) -> bool {
        self.0 == 0
    }

    /// The rows in one set or the other; also `|`.
    #[must_use]
    pub const fn union(self, other: Rows) -> Rows {
        Rows(self.0 | other.0)
    }

    /// The rows in both sets; also `&`.
    #[must_use]
    pub const fn intersection(self, other: Rows) -> Rows {
        Rows(self.0 & other.0)
    }

    /// The rows that are not in the other set; also `-`.
    #[must_use]
    pub const fn difference(self, other: Rows) -> Rows {
        Rows(self.0 & !other.0)
    }

    /// Are all its rows in the other set?
    #[must_use]
    pub const fn is_subset(self, other: Rows) -> bool {
        self.0 & !other.0 == 0
    }

    /// Its rows, lowest first.
    #[must_use]
    pub const fn iter(self) -> RowsIter {
        RowsIter(self)
    }
}

/// The set of one row, if it is from 1 to 64.
fn only(row: usize) -> Option<Rows> {
    (1..=64).contains(&row).then(|| Rows(1 << (row - 1)))
}

/// The rows of a set, lowest first.
#[derive(Clone, Debug)]
pub struct RowsIter(Rows);

impl Iterator for RowsIter {
    type Item = usize;

    fn next(&mut self) -> Option<usize> {
        let lowest = self.0 .0.trailing_zeros() as usize + 1;
        self.0 -= only(lowest)?;
        Some(lowest)
    }

    fn size_hint(&self) -> (usize, Option<usize>) {
        (self.0.len(), Some(self.0.len()))
    }
}

impl DoubleEndedIterator for RowsIter {
    fn next_back(&mut self) -> Option<usize> {
        let highest = 64 - self.0 .0.leading_zeros() as usize;
        self.0 -= only(highest)?;
        Some(highest)
    }
}

impl ExactSizeIterator for RowsIter {}
impl FusedIterator for RowsIter {}

impl IntoIterator for Rows {
    type Item = usize;
    type IntoIter = RowsIter;

    fn into_iter(self) -> RowsIter {
        self.iter()
    }
}

impl IntoIterator for &Rows {
    type Item = usize;
    type IntoIter = RowsIter;

    fn into_iter(self) -> RowsIter {
        self.iter()
    }
}

/// Panics if a row is not from 1 to 64; [`Rows::of`] gives an error instead.
impl FromIterator<usize> for Rows {
    fn from_iter<I: IntoIterator<Item = usize>>(rows: I) -> Rows {
        let mut set = Rows::EMPTY;
        set.extend(rows);
        set
    }
}

/// Panics if a row is not from 1 to 64.
impl Extend<usize> for Rows {
    fn extend<I: IntoIterator<Item = usize>>(&mut self, rows: I) {
        for row in rows {
            *self |= only(row).unwrap_or_else(|| panic!("{row} is no row: rows have the numbers 1 to 64"));
        }
    }
}

impl BitOr for Rows {
    type Output = Rows;

    fn bitor(self, other: Rows) -> Rows {
        self.union(other)
    }
}

impl BitAnd for Rows {
    type Output = Rows;

    fn bitand(self, other: Rows) -> Rows {
        self.intersection(other)
    }
}

impl Sub for Rows {
    type Output = Rows;

    fn sub(self, other: Rows) -> Rows {
        self.difference(other)
    }
}

impl BitOrAssign for Rows {
    fn bitor_assign(&mut self, other: Rows) {
        *self = *self | other;
    }
}

impl BitAndAssign for Rows {
    fn bitand_assign(&mut self, other: Rows) {
        *self = *self & other;
    }
}

impl SubAssign for Rows {
    fn sub_assign(&mut self, other: Rows) {
        *self = *self - other;
    }
}

/// As in `{1, 2, 4}`.
impl fmt::Display for Rows {
    fn fmt(&self, f: &mut fmt::Formatter) -> fmt::Result {
        f.debug_set().entries(self).finish()
    }
}

/// As in `Rows {1, 2, 4}`.
impl fmt::Debug for Rows {
    fn fmt(&self, f: &mut fmt::Formatter) -> fmt::Result {
        write!(f, "Rows {self}")
    }
}
