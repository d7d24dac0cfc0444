//! The wall chart: the smallest write quorums of a short list.

use crate::Grid;

/// The longest list that has a chart.
pub const LONGEST_CHARTED: usize = 9;
/// A chart is put into a list of at least so many places of two bytes.
pub const CHART_PLACES: usize = 64;

/// Rising sets of positions, each once: bit k - 1 for position k.
#[derive(Clone, Copy, Debug, PartialEq, Eq)]
pub struct Chart {
    sets: [u16; CHART_PLACES],
    count: usize,
}

impl Chart {
    /// Every smallest write quorum of the grid of a list of at most nine. Each write quorum holds a whole column and one of each
    /// other column, so the smallest are those of these sets that hold no other one.
    pub fn of(grid: &Grid) -> Chart {
        let all = Chart::with_larger(grid);
        let mut smallest = Chart::EMPTY;
        for &set in all.sets() {
            if !all.sets().iter().any(|&other| other != set && other & !set == 0) {
                smallest.push(set);
            }
        }
        smallest
    }

    /// A whole column and one position of each other column, in every way.
    pub fn with_larger(grid: &Grid) -> Chart {
        let mut chart = Chart::EMPTY;
        for whole in 1..=grid.columns {
            chart.fill(grid, whole, 1, 0);
        }
        chart.sets[..chart.count].sort_unstable();
        chart
    }

    const EMPTY: Chart = Chart { sets: [0; CHART_PLACES], count: 0 };

    pub fn sets(&self) -> &[u16] {
        &self.sets[..self.count]
    }

    /// Goes on with a set that has its positions in the columns before this one.
    fn fill(&mut self, grid: &Grid, whole: usize, column: usize, set: u16) {
        let position = |row| 1 << (grid.position(row, column) - 1);
        if column > grid.columns {
            self.push(set);
        } else if column == whole {
            let all = (1..=grid.height(column)).fold(set, |set, row| set | position(row));
            self.fill(grid, whole, column + 1, all);
        } else {
            for row in 1..=grid.height(column) {
                self.fill(grid, whole, column + 1, set | position(row));
            }
        }
    }

    fn push(&mut self, set: u16) {
        if !self.sets().contains(&set) {
            self.sets[self.count] = set;
            self.count += 1;
        }
    }
}

#[cfg(test)]
mod tests {
    use super::*;
    use crate::grid::tests::{laid, smallest};
    use crate::{Engine, Quorum};

    /// The pairs of length and mark that have a chart.
    fn every_chart() -> impl Iterator<Item = (usize, u8)> {
        (1..=LONGEST_CHARTED).flat_map(|length| [(length, 0), (length, 2)]).chain([(5, 1)])
    }

    /// The chart as the engine puts it into a list of 64 places.
    fn chart(length: usize, mark: u8) -> Vec<u16> {
        let mut list = [0xee; 2 * CHART_PLACES];
        let count = Engine::default().chart(length as u64, mark.into(), &mut list) as usize;
        let (sets, rest) = list.split_at(2 * count);
        assert!(rest.iter().all(|&byte| byte == 0xee));
        sets.chunks(2).map(|set| u16::from_le_bytes([set[0], set[1]])).collect()
    }

    #[test]
    fn charts_by_hand() {
        assert_eq!(chart(1, 0), [1]);
        assert_eq!(chart(2, 0), [3]);
        assert_eq!(chart(2, 2), [3]);
        assert_eq!(chart(3, 0), [3, 6]);
        assert_eq!(chart(4, 0), [7, 11, 13, 14]);
        assert_eq!(chart(5, 0), [7, 14, 21, 28]);
        assert_eq!(chart(5, 1), [11, 14, 23, 26, 29]);
        assert_eq!(chart(5, 2), chart(5, 1));
        assert_eq!(chart(6, 2), [23, 29, 43, 46, 53, 58]);
        assert_eq!([6, 7, 8, 9].map(|length| chart(length, 0).len()), [12, 16, 21, 27]);
    }

    /// By the word of the request: every set is tried, and every member taken out.
    #[test]
    fn a_chart_lists_the_quorums_that_stop_being_one() {
        for (length, mark) in every_chart() {
            let sets: Vec<u64> = chart(length, mark).into_iter().map(u64::from).collect();
            assert_eq!(sets, smallest(Quorum::Write, &laid(length, mark)), "{length} members, mark {mark}");
        }
    }

    #[test]
    fn questions_17_and_5() {
        let ask = |length: u64, mark: u64, places: usize| {
            let mut list = vec![0xee; places];
            let result = Engine::default().chart(length, mark, &mut list);
            assert!(result >> 32 == 0 || list.iter().all(|&byte| byte == 0xee));
            result
        };
        let refused = |number: u64| number << 32;
        for length in [0, 10, 11, 256 + 4, 1 << 32, (1 << 32) + 4, u64::MAX] {
            for mark in 0..4 {
                assert_eq!([0, 128].map(|places| ask(length, mark, places)), [refused(17); 2]);
            }
        }
        for length in 1..=9 {
            for mark in [3, 4, 255, 256, 257, 258, 1 << 32, (1 << 32) + 2, u64::MAX] {
                assert_eq!([0, 128].map(|places| ask(length, mark, places)), [refused(17); 2]);
            }
            if length != 5 {
                assert_eq!([0, 128].map(|places| ask(length, 1, places)), [refused(17); 2]);
            }
        }
        for (length, mark) in every_chart() {
            let ask = |places| ask(length as u64, mark.into(), places);
            assert_eq!([0, 2, 126, 127].map(ask), [refused(5); 4]);
            assert_eq!([128, 129, 200].map(ask), [chart(length, mark).len() as u64; 3]);
        }
    }
}
