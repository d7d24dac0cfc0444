//! The smallest write quorums of short lists, as the library lists them.

use crate::measure;
use dyngrid::{chart, Refusal, Shape};
use pictures::small_grid::SmallGrid;

/// The longest list that has a chart.
const LONGEST: usize = 9;

/// The chart of a list, and the grid that the list lies in.
#[derive(Debug, PartialEq, Eq)]
pub struct Charted {
    pub grid: SmallGrid,
    /// The marks of the grid, rising.
    pub marks: Vec<u8>,
    /// Is the list so laid now in a wide table, and in a tall one?
    pub wide: bool,
    pub tall: bool,
    /// Bit k - 1 for position k, rising.
    pub quorums: Vec<u16>,
}

/// Every chart, short lists first, and of one length those that are laid now; marks of the same grid are together.
pub fn all() -> Result<Vec<Charted>, Refusal> {
    let mut all: Vec<Charted> = Vec::new();
    for machines in 1..=LONGEST {
        let laid_now = [measure::mark(machines, Shape::Wide)?, measure::mark(machines, Shape::Tall)?];
        for mark in 0..=u8::MAX {
            let quorums = match chart(machines, mark) {
                Err(Refusal::NoChart) => continue,
                other => other?,
            };
            let columns = measure::columns(machines, mark)?;
            let [wide, tall] = laid_now.map(|now| now == mark);
            let charted =
                Charted { grid: SmallGrid { machines, columns }, marks: vec![mark], wide, tall, quorums };
            assert!(charted.fits_its_grid(), "{charted:?}");
            match all.iter_mut().find(|other| other.grid == charted.grid) {
                Some(other) => {
                    assert_eq!(other.quorums, charted.quorums, "one grid, one chart");
                    other.marks.push(mark);
                    other.wide |= wide;
                    other.tall |= tall;
                }
                None => all.push(charted),
            }
        }
    }
    all.sort_by_key(|charted| (charted.grid.machines, !charted.wide && !charted.tall));
    Ok(all)
}

impl Charted {
    /// Has each quorum one of each column, and a whole one? Then the grid is drawn as the library has it.
    fn fits_its_grid(&self) -> bool {
        let grid = &self.grid;
        let grouped: usize = grid.by_column(&self.quorums).iter().map(Vec::len).sum();
        let one_of_each = |&set: &u16| (0..grid.columns).all(|column| grid.column(column) & set != 0);
        grouped == self.quorums.len() && self.quorums.iter().all(one_of_each)
    }

    /// As "4 machines".
    pub fn title(&self) -> String {
        let machines = self.grid.machines;
        format!("{machines} machine{}", if machines == 1 { "" } else { "s" })
    }

    /// In which tables a list of so many is so laid.
    pub fn tables(&self) -> &'static str {
        match (self.wide, self.tall) {
            (true, true) => "wide and tall",
            (true, false) => "wide",
            (false, true) => "tall",
            (false, false) => "as published",
        }
    }

    /// As "0 and 2".
    pub fn marks_shown(&self) -> String {
        self.marks.iter().map(u8::to_string).collect::<Vec<_>>().join(" and ")
    }
}

#[cfg(test)]
mod tests {
    use super::*;

    #[test]
    fn every_list_has_a_chart() {
        let all = all().expect("no refusal");
        let titles: Vec<String> = all
            .iter()
            .map(|one| format!("{}, {}: {}", one.title(), one.tables(), one.marks_shown()))
            .collect();
        let expected = [
            "1 machine, wide and tall: 0 and 2",
            "2 machines, wide: 0",
            "2 machines, tall: 2",
            "3 machines, wide and tall: 0 and 2",
            "4 machines, wide and tall: 0 and 2",
            "5 machines, wide and tall: 1 and 2",
            "5 machines, as published: 0",
            "6 machines, wide: 0",
            "6 machines, tall: 2",
            "7 machines, wide and tall: 0 and 2",
            "8 machines, wide and tall: 0 and 2",
            "9 machines, wide and tall: 0 and 2",
        ];
        assert_eq!(titles, expected);
        let sizes: Vec<(usize, usize)> = all.iter().map(|one| (one.grid.rows(), one.grid.columns)).collect();
        let by_hand =
            [(1, 1), (1, 2), (2, 1), (2, 2), (2, 2), (3, 2), (2, 3), (2, 3), (3, 2), (3, 3), (3, 3), (3, 3)];
        assert_eq!(sizes, by_hand);
    }
}
