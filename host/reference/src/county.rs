//! Which rows are in which county.

use crate::rows;

pub const MAX_COUNTIES: usize = 8;

/// The rows of each county: those of county k at place k - 1.
#[derive(Clone, Copy, Debug, PartialEq, Eq)]
pub struct Counties([u64; MAX_COUNTIES]);

impl Counties {
    /// No row is in any.
    pub const NONE: Counties = Counties([0; MAX_COUNTIES]);

    /// All rows are in one, as before there were counties.
    pub const ONE: Counties = Counties([u64::MAX, 0, 0, 0, 0, 0, 0, 0]);

    /// The county of each row, from 1 to 8, in the order of the rows.
    pub fn of(counties: impl IntoIterator<Item = u8>) -> Counties {
        let mut rows = Counties::NONE;
        (1..).zip(counties).for_each(|(row, county)| rows.put(row, county));
        rows
    }

    /// Puts a row into a county from 1 to 8.
    pub fn put(&mut self, row: usize, county: u8) {
        self.0[usize::from(county) - 1] |= rows::only(row);
    }

    /// The members of the set by county, in rising order of the counties that have any.
    pub fn parts(&self, set: u64) -> impl Iterator<Item = u64> + '_ {
        self.0.iter().map(move |rows| rows & set).filter(|&part| part != 0)
    }

    /// Are the members of the set in more than one county?
    pub fn several(&self, set: u64) -> bool {
        self.parts(set).nth(1).is_some()
    }
}

/// Is it the number of a county?
pub fn is_county(number: u64) -> bool {
    (1..=MAX_COUNTIES as u64).contains(&number)
}

#[cfg(test)]
mod tests {
    use super::*;

    #[test]
    fn parts_rise_by_county() {
        let counties = Counties::of([7, 2, 7, 1, 2]);
        assert_eq!(counties.parts(0b11111).collect::<Vec<_>>(), [0b01000, 0b10010, 0b00101]);
        assert_eq!(counties.parts(0b10101).collect::<Vec<_>>(), [0b10000, 0b00101]);
        assert_eq!(counties.parts(0).count(), 0);
        for (set, several) in [(0, false), (0b101, false), (0b10010, false), (0b110, true), (0b11111, true)] {
            assert_eq!((counties.several(set), Counties::ONE.several(set)), (several, false));
        }
    }
}
