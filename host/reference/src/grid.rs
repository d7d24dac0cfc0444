//! The grids of a list: their sizes, and its quorums and a caller's own choice on two levels.

use crate::rows::{self, Order};
use crate::{Counties, MAX_COUNTIES};

/// What a call needs of the rows that answered.
#[derive(Clone, Copy, Debug, PartialEq, Eq)]
pub enum Quorum {
    Read,
    Write,
}

impl Quorum {
    /// The kind of call that has this number.
    pub fn of_kind(kind: u64) -> Option<Quorum> {
        match kind {
            0 => Some(Quorum::Read),
            1 => Some(Quorum::Write),
            _ => None,
        }
    }
}

/// How a table's lists are laid: the choice of its founding.
#[derive(Clone, Copy, Debug, PartialEq, Eq)]
pub enum Shape {
    Wide,
    Tall,
}

impl Shape {
    /// The shape that a founding chooses with this number.
    pub fn chosen(choice: u64) -> Option<Shape> {
        match choice {
            0 => Some(Shape::Wide),
            1 => Some(Shape::Tall),
            _ => None,
        }
    }
}

/// The grid mark of every list in a tall table, and that of a list of several counties in a wide one.
pub const TALL: u8 = 2;
pub const SEVERAL: u8 = 3;

/// A list as it was laid: its members, and the mark of its grids.
#[derive(Clone, Copy, Debug, PartialEq, Eq)]
pub struct Laid {
    pub members: u64,
    /// 0 for the published grid, 1 for the new one of five, 2 for tall ones, 3 for those of several counties.
    pub mark: u8,
}

impl Laid {
    /// What a row has from its joining on until a check takes it in.
    pub const EMPTY: Laid = Laid { members: 0, mark: 0 };

    pub fn is_empty(self) -> bool {
        self.members == 0
    }

    /// The shape of the table that the list, which is not empty, lies in.
    pub fn shape(self) -> Shape {
        if self.mark == TALL {
            Shape::Tall
        } else {
            Shape::Wide
        }
    }
}

/// The grid for a number of members: filled row by row, the last columns perhaps one shorter. Positions, rows and columns count from 1.
#[derive(Clone, Copy, Debug, PartialEq, Eq)]
pub struct Grid {
    pub rows: usize,
    pub columns: usize,
    /// Empty places at the end of the last row.
    pub empty: usize,
}

impl Grid {
    const NONE: Grid = Grid { rows: 0, columns: 0, empty: 0 };

    /// The new grid of five.
    pub const NEW_FIVE: Grid = Grid { rows: 3, columns: 2, empty: 1 };

    /// The published grid.
    pub fn of(length: usize) -> Grid {
        let root = usize::from((length as u8).isqrt());
        let columns = if root * root < length { root + 1 } else { root };
        let rows = if root * columns < length { root + 1 } else { root };
        Grid { rows, columns, empty: rows * columns - length }
    }

    /// The tall grid: the published one, with rows and columns exchanged where it has one row less than columns.
    pub fn tall(length: usize) -> Grid {
        let Grid { rows, columns, empty } = Grid::of(length);
        if rows + 1 == columns {
            Grid { rows: columns, columns: rows, empty }
        } else {
            Grid { rows, columns, empty }
        }
    }

    /// The grid of so many members of a list with this mark, or of so many counties.
    pub fn marked(mark: u8, length: usize) -> Grid {
        match mark {
            TALL => Grid::tall(length),
            1 | SEVERAL if length == 5 => Grid::NEW_FIVE,
            _ => Grid::of(length),
        }
    }

    /// How many positions are occupied.
    pub fn length(&self) -> usize {
        self.rows * self.columns - self.empty
    }

    pub fn column_of(&self, position: usize) -> usize {
        (position - 1) % self.columns + 1
    }

    pub fn position(&self, row: usize, column: usize) -> usize {
        (row - 1) * self.columns + column
    }

    pub fn height(&self, column: usize) -> usize {
        if column > self.columns - self.empty {
            self.rows - 1
        } else {
            self.rows
        }
    }

    /// Are these positions, bit k - 1 for position k, a quorum?
    pub fn holds(&self, quorum: Quorum, held: u64) -> bool {
        // Places beyond the last position are no part of their columns.
        let held_or_empty = held | !rows::first(self.length());
        let columns = rows::first(self.columns);
        let (mut with_a_member, mut whole) = (0, columns);
        for row in 0..self.rows {
            with_a_member |= held >> (row * self.columns);
            whole &= held_or_empty >> (row * self.columns);
        }
        with_a_member & columns == columns && (quorum == Quorum::Read || whole != 0)
    }

    /// The positions that the caller with this name chooses; of an empty grid, none.
    pub fn choice(&self, quorum: Quorum, name: u16) -> u64 {
        let Grid { rows, columns, empty } = *self;
        if columns == 0 {
            return 0;
        }
        let name = usize::from(name);
        let whole = name % columns + 1;
        // Columns have two heights; there are short ones only if there are two rows.
        let (in_long, in_short) = (name % rows + 1, name % (rows - 1).max(1) + 1);
        let mut chosen = 0;
        for column in 1..=columns {
            let row = if column > columns - empty { in_short } else { in_long };
            chosen |= rows::only(self.position(row, column));
        }
        if quorum == Quorum::Write {
            for row in 1..=self.height(whole) {
                chosen |= rows::only(self.position(row, whole));
            }
        }
        chosen
    }
}

/// The members of a list that are in one county, in a grid of their own.
#[derive(Clone, Copy, Debug)]
pub struct Group {
    /// How many members of the list come before them.
    before: usize,
    pub grid: Grid,
}

/// A list laid on two levels: the members of each county in a grid, and the counties that have members in one above.
#[derive(Clone, Copy, Debug)]
pub struct Layout {
    pub list: Laid,
    pub above: Grid,
    groups: [Group; MAX_COUNTIES],
    /// By county in rising order, and those of one county in chain order.
    members: Order,
}

impl Layout {
    /// Lays out `list`, whose members lie in `chain` in order and in these counties, in its own grids.
    pub fn of(list: Laid, chain: &Order, counties: &Counties) -> Layout {
        let mut groups = [Group { before: 0, grid: Grid::NONE }; MAX_COUNTIES];
        let (mut members, mut count) = (Order::EMPTY, 0);
        for part in counties.parts(list.members) {
            let before = members.len();
            members.take(chain, part);
            groups[count] = Group { before, grid: Grid::marked(list.mark, members.len() - before) };
            count += 1;
        }
        Layout { list, above: Grid::marked(list.mark, count), groups, members }
    }

    /// The counties that have members, in the order of their positions above.
    pub fn groups(&self) -> &[Group] {
        &self.groups[..self.above.length()]
    }

    pub fn groups_mut(&mut self) -> &mut [Group] {
        &mut self.groups[..self.above.length()]
    }

    /// The members of a county, in the order of their positions.
    pub fn members(&self, group: &Group) -> &[u8] {
        &self.members[group.before..][..group.grid.length()]
    }

    /// Does the set hold a quorum of the list, which has members?
    pub fn holds(&self, quorum: Quorum, set: u64) -> bool {
        self.holds_by(Grid::holds, quorum, set)
    }

    /// The same by this rule for either level.
    pub fn holds_by(&self, level: impl Fn(&Grid, Quorum, u64) -> bool, quorum: Quorum, set: u64) -> bool {
        level(&self.above, quorum, self.held(&level, quorum, set))
    }

    /// The counties, by their positions above, in which the set holds a quorum.
    pub fn held(&self, level: impl Fn(&Grid, Quorum, u64) -> bool, quorum: Quorum, set: u64) -> u64 {
        let mut held = 0;
        for (place, group) in self.groups().iter().enumerate() {
            let positions = positions(self.members(group), set);
            held |= u64::from(level(&group.grid, quorum, positions)) << place;
        }
        held
    }

    /// The own choice of the caller with this name; of an empty list, none.
    pub fn choice(&self, quorum: Quorum, name: u16) -> u64 {
        self.choice_in(self.above.choice(quorum, name), quorum, name)
    }

    /// The choices in these counties, by their positions above.
    pub fn choice_in(&self, counties: u64, quorum: Quorum, name: u16) -> u64 {
        let mut chosen = 0;
        for county in rows::members(counties) {
            let group = &self.groups[county - 1];
            for position in rows::members(group.grid.choice(quorum, name)) {
                chosen |= rows::only(self.members(group)[position - 1].into());
            }
        }
        chosen
    }
}

/// The positions of the set's members among these: bit k - 1 for position k.
fn positions(members: &[u8], set: u64) -> u64 {
    let places = members.iter().enumerate();
    places.fold(0, |held, (place, row)| held | (set >> (row - 1) & 1) << place)
}

#[cfg(test)]
pub mod tests {
    use super::*;

    fn list_of(length: usize) -> Layout {
        laid(length, 0)
    }

    pub fn laid(length: usize, mark: u8) -> Layout {
        Layout::of(Laid { members: rows::first(length), mark }, &Order::first(length), &Counties::ONE)
    }

    /// The list of rows that are in these counties, with this mark; the chain goes from row to row.
    fn laid_in(counties: &[u8], mark: u8) -> Layout {
        let (members, chain) = (rows::first(counties.len()), Order::first(counties.len()));
        Layout::of(Laid { members, mark }, &chain, &Counties::of(counties.iter().copied()))
    }

    /// Every list in the published and in the tall grid, and five in the new one.
    fn every_list() -> impl Iterator<Item = Layout> {
        (1..=64).flat_map(|length| [laid(length, 0), laid(length, TALL)]).chain([laid(5, 1)])
    }

    fn set(positions: &[usize]) -> u64 {
        positions.iter().fold(0, |set, &row| set | rows::only(row))
    }

    /// The quorums that stop being one when any member is taken out.
    pub fn smallest(quorum: Quorum, list: &Layout) -> Vec<u64> {
        let holds = |set: &u64| list.holds(quorum, *set);
        let smallest = |set: &u64| rows::members(*set).all(|row| !holds(&(set & !rows::only(row))));
        (0..=list.list.members).filter(holds).filter(smallest).collect()
    }

    #[test]
    fn sizes() {
        let sizes = [
            (1, 1, 1, 0),
            (2, 1, 2, 0),
            (3, 2, 2, 1),
            (5, 2, 3, 1),
            (12, 3, 4, 0),
            (13, 4, 4, 3),
            (14, 4, 4, 2),
            (64, 8, 8, 0),
        ];
        for (length, rows, columns, empty) in sizes {
            assert_eq!(Grid::of(length), Grid { rows, columns, empty });
        }
    }

    #[test]
    fn tall_sizes() {
        let exchanged: Vec<usize> =
            (1..=64).filter(|&length| Grid::tall(length) != Grid::of(length)).collect();
        let runs = [2..=2, 5..=6, 10..=12, 17..=20, 26..=30, 37..=42, 50..=56];
        assert_eq!(exchanged, runs.into_iter().flatten().collect::<Vec<_>>());
        for length in 1..=64 {
            let (grid, published) = (Grid::tall(length), Grid::of(length));
            assert!(grid.rows >= grid.columns);
            assert_eq!(grid.rows * grid.columns, length + grid.empty);
            if exchanged.contains(&length) {
                assert_eq!((grid.rows, grid.columns), (published.columns, published.rows));
            }
        }
        assert_eq!(Grid::tall(5), Grid::NEW_FIVE);
        assert_eq!(Grid::tall(2), Grid { rows: 2, columns: 1, empty: 0 });
        assert_eq!(Grid::tall(11), Grid { rows: 4, columns: 3, empty: 1 });
    }

    /// As numbers, bit k - 1 for position k.
    #[test]
    fn smallest_quorums_of_tall_lists() {
        assert_eq!(smallest(Quorum::Read, &laid(2, TALL)), [1, 2]);
        assert_eq!(smallest(Quorum::Write, &laid(2, TALL)), [3]);
        // Columns {1, 3, 5} and {2, 4, 6}.
        assert_eq!(smallest(Quorum::Read, &laid(6, TALL)), [3, 6, 9, 12, 18, 24, 33, 36, 48]);
        assert_eq!(smallest(Quorum::Write, &laid(6, TALL)), [23, 29, 43, 46, 53, 58]);
        for quorum in [Quorum::Read, Quorum::Write] {
            assert_eq!(smallest(quorum, &laid(5, TALL)), smallest(quorum, &laid(5, 1)));
            for length in [1, 3, 4, 7, 8, 9] {
                assert_eq!(smallest(quorum, &laid(length, TALL)), smallest(quorum, &laid(length, 0)));
            }
        }
    }

    #[test]
    fn lists_of_four_and_more_bear_the_loss_of_one() {
        for list in every_list() {
            let all = list.list.members;
            let bears_any = rows::members(all).all(|row| list.holds(Quorum::Write, all & !rows::only(row)));
            let length = list.members.len();
            let published_five = length == 5 && list.list.mark == 0;
            assert_eq!(bears_any, length >= 4 && !published_five, "{:?}", list.list);
        }
    }

    #[test]
    fn the_last_columns_are_one_shorter() {
        for list in every_list() {
            let grid = list.groups()[0].grid;
            assert_eq!(grid.length(), list.members.len());
            for column in 1..=grid.columns {
                let positions = 1..=grid.length();
                let in_column = positions.filter(|&position| grid.column_of(position) == column).count();
                assert_eq!(grid.height(column), in_column);
            }
        }
    }

    #[test]
    fn quorums_of_the_club_room() {
        let fourteen = list_of(14);
        assert!(fourteen.holds(Quorum::Write, set(&[1, 3, 4, 6, 7, 11])));
        assert!(!fourteen.holds(Quorum::Write, set(&[1, 3, 4, 6, 7])));
        assert!(fourteen.holds(Quorum::Read, set(&[1, 3, 4, 6, 7])));
        assert!(list_of(3).holds(Quorum::Write, set(&[1, 2])));
        assert!(!list_of(3).holds(Quorum::Read, set(&[1, 3])));
        assert!(!list_of(5).holds(Quorum::Read, set(&[1, 2, 4, 5])));
        assert!(laid(5, 1).holds(Quorum::Write, set(&[1, 2, 4, 5])));
    }

    /// Columns {1, 3, 5} and {2, 4}: as numbers, bit k - 1 for position k.
    #[test]
    fn smallest_quorums_of_five() {
        let (published, new) = (laid(5, 0), laid(5, 1));
        assert_eq!(smallest(Quorum::Write, &published), [7, 14, 21, 28]);
        assert_eq!(smallest(Quorum::Write, &new), [11, 14, 23, 26, 29]);
        assert_eq!(smallest(Quorum::Read, &published), [7, 14, 21, 28]);
        assert_eq!(smallest(Quorum::Read, &new), [3, 6, 9, 12, 18, 24]);
    }

    #[test]
    fn choices_of_the_new_five() {
        let five = laid(5, 1);
        let choices = |name| [Quorum::Read, Quorum::Write].map(|quorum| five.choice(quorum, name));
        // An even name has the first column, of three; an odd one the second, of two.
        assert_eq!(choices(6), [set(&[1, 2]), set(&[1, 2, 3, 5])]);
        assert_eq!(choices(7), [set(&[3, 4]), set(&[2, 3, 4])]);
        assert_eq!(choices(8), [set(&[2, 5]), set(&[1, 2, 3, 5])]);
    }

    #[test]
    fn choices_of_tall_lists() {
        let choices = |length, name| {
            [Quorum::Read, Quorum::Write].map(|quorum| laid(length, TALL).choice(quorum, name))
        };
        assert_eq!(choices(2, 6), [set(&[1]), set(&[1, 2])]);
        assert_eq!(choices(2, 7), [set(&[2]), set(&[1, 2])]);
        // Columns {1, 3, 5} and {2, 4, 6}.
        assert_eq!(choices(6, 7), [set(&[3, 4]), set(&[2, 3, 4, 6])]);
        assert_eq!(choices(6, 8), [set(&[5, 6]), set(&[1, 3, 5, 6])]);
        // Columns {1, 4, 7, 10}, {2, 5, 8, 11} and {3, 6, 9}.
        assert_eq!(choices(11, 7), [set(&[10, 11, 6]), set(&[2, 5, 8, 10, 11, 6])]);
    }

    #[test]
    fn choice_of_seven_among_fourteen() {
        assert_eq!(list_of(14).choice(Quorum::Write, 7), set(&[4, 7, 8, 12, 13, 14]));
    }

    #[test]
    fn an_empty_list_has_no_choice() {
        for name in [1, 2, 65_535] {
            assert_eq!(list_of(0).choice(Quorum::Read, name), 0);
            assert_eq!(list_of(0).choice(Quorum::Write, name), 0);
        }
    }

    #[test]
    fn choices_are_quorums() {
        for list in every_list() {
            for name in 1..=200 {
                assert!(list.holds(Quorum::Read, list.choice(Quorum::Read, name)));
                assert!(list.holds(Quorum::Write, list.choice(Quorum::Write, name)));
            }
        }
    }

    const KINDS: [Quorum; 2] = [Quorum::Read, Quorum::Write];

    /// Three of county 1, columns {1, 3} and {2}, and one of county 2; above one row of two.
    #[test]
    fn counties_1_1_1_2() {
        let list = laid_in(&[1, 1, 1, 2], SEVERAL);
        assert_eq!(KINDS.map(|quorum| smallest(quorum, &list)), [[11, 14], [11, 14]]);
        // Nobody can be spared but row 1 or row 3; and a write by an even name calls all four.
        let all = set(&[1, 2, 3, 4]);
        let spared = |row| KINDS.map(|quorum| list.holds(quorum, all & !rows::only(row)));
        assert_eq!([1, 2, 3, 4].map(spared), [[true; 2], [false; 2], [true; 2], [false; 2]]);
        let choices = |name| KINDS.map(|quorum| list.choice(quorum, name));
        assert_eq!(choices(6), [set(&[1, 2, 4]), all]);
        assert_eq!(choices(7), [set(&[2, 3, 4]); 2]);
        // In a tall table both counties lie in one column: either may be read.
        let tall = laid_in(&[1, 1, 1, 2], TALL);
        assert_eq!(smallest(Quorum::Read, &tall), [3, 6, 8]);
        assert_eq!(smallest(Quorum::Write, &tall), [11, 14]);
        let choices = |name| KINDS.map(|quorum| tall.choice(quorum, name));
        assert_eq!(choices(6), [set(&[1, 2]), all]);
        assert_eq!(choices(7), [set(&[4]), set(&[2, 3, 4])]);
    }

    /// Wide, all four are needed to read; tall, any one of them is enough.
    #[test]
    fn counties_1_1_2_2() {
        let (wide, tall) = (laid_in(&[1, 1, 2, 2], SEVERAL), laid_in(&[1, 1, 2, 2], TALL));
        assert_eq!(KINDS.map(|quorum| smallest(quorum, &wide)), [[15], [15]]);
        assert_eq!(smallest(Quorum::Read, &tall), [1, 2, 4, 8]);
        assert_eq!(smallest(Quorum::Write, &tall), [15]);
        assert_eq!(KINDS.map(|quorum| wide.choice(quorum, 6)), [15; 2]);
        let choices = |name| KINDS.map(|quorum| tall.choice(quorum, name));
        assert_eq!([6, 7].map(choices), [[0b0001, 15], [0b1000, 15]]);
    }

    /// Five of a county with others elsewhere, and five counties: columns {1, 3, 5} and {2, 4} on that level.
    #[test]
    fn five_on_either_level() {
        for mark in [SEVERAL, TALL] {
            let below = laid_in(&[4, 4, 4, 4, 4, 8, 8], mark);
            let above = laid_in(&[1, 2, 4, 7, 8], mark);
            assert_eq!((below.groups()[0].grid, above.above), (Grid::NEW_FIVE, Grid::NEW_FIVE));
            assert_eq!(KINDS.map(|quorum| smallest(quorum, &above)), {
                KINDS.map(|quorum| smallest(quorum, &laid(5, 1)))
            });
            for name in [6, 7, 8] {
                let choices = |list: &Layout| KINDS.map(|quorum| list.choice(quorum, name));
                assert_eq!(choices(&above), choices(&laid(5, 1)));
            }
        }
        // Rows 6 and 7, in one row of two, count together or not at all.
        let below = laid_in(&[4, 4, 4, 4, 4, 8, 8], SEVERAL);
        let with_6_and_7 = |sets: &[u64]| sets.iter().map(|set| set | 0b110_0000).collect::<Vec<u64>>();
        assert_eq!(smallest(Quorum::Read, &below), with_6_and_7(&[3, 6, 9, 12, 18, 24]));
        assert_eq!(smallest(Quorum::Write, &below), with_6_and_7(&[11, 14, 23, 26, 29]));
        // Two of five: a quorum of either, in every way.
        let twice = laid_in(&[1, 1, 1, 1, 1, 2, 2, 2, 2, 2], SEVERAL);
        let quorums = |sets: &[u64]| {
            let mut pairs: Vec<u64> =
                sets.iter().flat_map(|high| sets.iter().map(move |low| high << 5 | low)).collect();
            pairs.sort_unstable();
            pairs
        };
        assert_eq!(smallest(Quorum::Read, &twice), quorums(&[3, 6, 9, 12, 18, 24]));
        assert_eq!(smallest(Quorum::Write, &twice), quorums(&[11, 14, 23, 26, 29]));
    }

    /// Counties 1, 2 and 7 lie above in columns {1, 7} and {2}: rows {3, 2} and {1}.
    #[test]
    fn counties_lie_in_rising_order() {
        let list = laid_in(&[2, 7, 1], SEVERAL);
        assert_eq!(KINDS.map(|quorum| smallest(quorum, &list)), [[3, 5], [3, 5]]);
        assert_eq!(list.choice(Quorum::Read, 6), set(&[1, 3]));
        assert_eq!(list.choice(Quorum::Read, 7), set(&[1, 2]));
        // Within a county the chain counts.
        let chain = [3, 1, 2].into_iter().collect();
        let list = Layout::of(Laid { members: 7, mark: 0 }, &chain, &Counties::of([5, 5, 5]));
        assert_eq!(smallest(Quorum::Read, &list), [3, 5]);
    }

    /// Three of county 1, two of county 2 and one of county 3, which lie above in columns {1, 3} and {2}. A write has write's choices
    /// in the counties that stand for their column, too.
    #[test]
    fn choices_on_two_levels() {
        let list = laid_in(&[1, 1, 1, 2, 2, 3], SEVERAL);
        let choices = |name| KINDS.map(|quorum| list.choice(quorum, name));
        assert_eq!(choices(4), [set(&[1, 2, 4, 5]), set(&[1, 2, 3, 4, 5, 6])]);
        assert_eq!(choices(5), [set(&[4, 5, 6]); 2]);
        // With the smaller counties first, an odd name has county 2, one row of two, and county 3: columns {4, 6} and {5}.
        let list = laid_in(&[1, 2, 2, 3, 3, 3], SEVERAL);
        assert_eq!(list.choice(Quorum::Write, 5), set(&[2, 3, 5, 6]));
        assert_eq!(list.choice(Quorum::Read, 5), set(&[2, 3, 5, 6]));
        // Of four counties in columns {1, 3} and {2, 4} a write by 6 has the first; county 2 stands for the second.
        let list = laid_in(&[1, 2, 2, 2, 2, 3, 4], SEVERAL);
        assert_eq!(list.choice(Quorum::Read, 6), set(&[1, 2, 3]));
        assert_eq!(list.choice(Quorum::Write, 6), set(&[1, 6, 2, 3, 4]));
    }

    /// Every way to put so many rows into counties, up to the counties' numbers.
    fn every_split(length: usize) -> Vec<Vec<u8>> {
        let mut splits = vec![Vec::new()];
        for _ in 0..length {
            let longer = |split: &Vec<u8>| {
                let most = split.iter().copied().max().unwrap_or(0) + 1;
                (1..=most).map(|county| [&split[..], &[county]].concat()).collect::<Vec<_>>()
            };
            splits = splits.iter().flat_map(longer).collect();
        }
        splits
    }

    /// By the words: a column of positions, one of each column, and one whole.
    fn holds_in_words(grid: &Grid, quorum: Quorum, held: u64) -> bool {
        let column = |column| (1..=grid.length()).filter(move |&position| grid.column_of(position) == column);
        let has = |position| rows::has(held, position);
        (1..=grid.columns).all(|of| column(of).any(has))
            && (quorum == Quorum::Read || (1..=grid.columns).any(|of| column(of).all(has)))
    }

    /// The marks that a list in these counties can have.
    fn marks(counties: &[u8]) -> Vec<u8> {
        match Counties::of(counties.iter().copied()).several(u64::MAX) {
            true => vec![SEVERAL, TALL],
            false if counties.len() == 5 => vec![0, 1, TALL],
            false => vec![0, TALL],
        }
    }

    #[test]
    fn quorums_by_the_words_meet_and_choices_are_quorums() {
        for counties in (1..=6).flat_map(every_split) {
            for list in marks(&counties).into_iter().map(|mark| laid_in(&counties, mark)) {
                let holds = |quorum| {
                    let sets = 0..=list.list.members;
                    sets.filter(|&set| list.holds(quorum, set)).collect::<Vec<u64>>()
                };
                let [reads, writes] = KINDS.map(holds);
                assert!(
                    writes.iter().all(|write| reads.iter().all(|read| read & write != 0)),
                    "{counties:?}"
                );
                assert!(writes.iter().all(|write| reads.contains(write)), "{counties:?}");
                for (quorum, set) in KINDS.into_iter().flat_map(|kind| (0..64).map(move |set| (kind, set))) {
                    let in_words = list.holds_by(holds_in_words, quorum, set);
                    assert_eq!(list.holds(quorum, set), in_words, "{counties:?}");
                }
                for (quorum, name) in KINDS.into_iter().flat_map(|kind| (1..13).map(move |name| (kind, name)))
                {
                    let choice = list.choice(quorum, name);
                    assert!(list.holds(quorum, choice) && choice & !list.list.members == 0, "{counties:?}");
                }
            }
        }
    }

    /// One level alone, as before there were counties: the members in chain order, in one grid.
    #[test]
    fn a_list_of_one_county_is_the_one_of_before() {
        for (length, mark) in (1..=64).flat_map(|length| [(length, 0), (length, TALL)]).chain([(5, 1)]) {
            let chain: Order = (1..=64).rev().collect();
            let members = (1..=length).fold(0, |set, place| set | rows::only(place * 27 % 64 + 1));
            let order: Vec<u8> =
                chain.iter().copied().filter(|&row| rows::has(members, row.into())).collect();
            let grid = Grid::marked(mark, length);
            for county in 1..=8 {
                let counties = Counties::of([county; 64]);
                let list = Layout::of(Laid { members, mark }, &chain, &counties);
                for quorum in KINDS {
                    for name in [1, 2, 3, 4, 5, 6, 7, 8, 60_000, 65_535] {
                        let choice = grid.choice(quorum, name);
                        let chosen =
                            rows::members(choice).map(|position| rows::only(order[position - 1].into()));
                        let chosen = chosen.fold(0, |set, row| set | row);
                        assert_eq!(list.choice(quorum, name), chosen);
                        for without in 1..=64 {
                            let set = chosen & !rows::only(without);
                            let held = grid.holds(quorum, positions(&order, set));
                            assert_eq!(list.holds(quorum, set), held);
                        }
                    }
                }
            }
        }
    }
}
