//! The table in memory: judging it, reading its rows, writing them.

use crate::county::{is_county, Counties};
use crate::rows::{self, Order};
use crate::window::{self, Window, WINDOW};
use crate::{Laid, Shape, SEVERAL, TALL};

pub const HEADER: usize = 16;
pub const ROW_HEADER: usize = 32;
pub const MAX_ROWS: usize = 64;
pub const MAX_FILE: usize = 4096;
pub const MAX_FILES: usize = 8;
/// The newest form of a table, in its first byte.
pub const FORM: u8 = 5;
/// The bytes of a part before its contents.
pub const PART_HEADER: usize = 12;
/// Where a row of form 3 keeps the oldest record of its window, and one of form 5 its county.
pub const OLDEST: usize = 25;
pub const COUNTY: usize = 26;
/// The highest version, desired version and epoch number.
pub const LIMIT: u32 = 1_000_000;

/// Which papers a table is founded and judged by: each form of a table has its own.
#[derive(Clone, Copy, Debug, Default, PartialEq, Eq)]
pub enum Rules {
    /// Form 1, the scope alone: every row has a list, and every list lies in the published grid.
    Published,
    /// Form 2: a row may have an empty list, and a list is laid in the new grid of five or in the tall one.
    Windowless,
    /// Form 3: besides, each row has a window on its latest patches.
    OneFile,
    /// Form 4: besides, there are up to eight files, and each row has a part for each of them.
    OneCounty,
    /// Form 5: besides, each row is in a county, and the counties of a list are a level of their own.
    #[default]
    Newest,
}

impl Rules {
    pub const ALL: [Rules; 5] =
        [Rules::Published, Rules::Windowless, Rules::OneFile, Rules::OneCounty, Rules::Newest];

    /// The rules of the tables of this form.
    pub fn of_form(form: u8) -> Option<Rules> {
        Rules::ALL.into_iter().find(|rules| rules.form() == form)
    }

    /// The first byte of a table by these rules.
    pub fn form(self) -> u8 {
        match self {
            Rules::Published => 1,
            Rules::Windowless => 2,
            Rules::OneFile => 3,
            Rules::OneCounty => 4,
            Rules::Newest => FORM,
        }
    }

    pub fn has_windows(self) -> bool {
        matches!(self, Rules::OneFile | Rules::OneCounty | Rules::Newest)
    }

    /// Has a row a part for each file? Otherwise its head holds the numbers of its one file.
    pub fn has_parts(self) -> bool {
        matches!(self, Rules::OneCounty | Rules::Newest)
    }

    /// Is each row in a county? Otherwise all rows are in one that has no number.
    pub fn has_counties(self) -> bool {
        self == Rules::Newest
    }

    /// How many files a table may have.
    pub fn most_files(self) -> usize {
        if self.has_parts() {
            MAX_FILES
        } else {
            1
        }
    }

    /// How many bytes a row takes behind its head for each file.
    pub fn part_length(self, file_len: usize) -> usize {
        let header = if self.has_parts() { PART_HEADER } else { 0 };
        let window = if self.has_windows() { WINDOW } else { 0 };
        header + file_len + window
    }

    /// How many bytes a row takes.
    pub fn row_length(self, file_len: usize, files: usize) -> usize {
        ROW_HEADER + files * self.part_length(file_len)
    }

    /// How many bytes a table takes.
    pub fn table_length(self, capacity: usize, file_len: usize, files: usize) -> usize {
        HEADER + capacity * self.row_length(file_len, files)
    }

    /// Is a row with this list exempt from the rules on its own row and on one list for an epoch?
    pub fn exempt(self, list: Laid) -> bool {
        list.is_empty() && self != Rules::Published
    }

    /// The list of these members, laid now in a table of this shape and these counties; the scope knows one shape.
    pub fn lay(self, shape: Shape, members: u64, counties: &Counties) -> Laid {
        let mark = match (self, shape) {
            (Rules::Published, _) => 0,
            (_, Shape::Tall) => TALL,
            (_, Shape::Wide) if counties.several(members) => SEVERAL,
            (_, Shape::Wide) => u8::from(members.count_ones() == 5),
        };
        Laid { members, mark }
    }

    /// May a list of so many members, at least one, of one county or of several, have this grid mark?
    pub fn allow(self, length: usize, several: bool, mark: u8) -> bool {
        match mark {
            0 => !several,
            1 => self != Rules::Published && !several && length == 5,
            TALL => self != Rules::Published,
            _ => mark == SEVERAL && several,
        }
    }

    /// Where the stale mark and the oldest record's index lie among the numbers of a file. Version and desired version have one place
    /// in every form.
    fn places(self) -> [usize; 2] {
        if self.has_parts() {
            [0, 1]
        } else {
            [3, OLDEST]
        }
    }

    /// The last bytes of a row's head as one number: the grid mark, if there are zeros elsewhere. Form 3 has the oldest record there,
    /// and form 5 the county.
    fn mark_and_zeros(self, head: &[u8; ROW_HEADER]) -> u64 {
        let last = u64::from_le_bytes(*head.last_chunk().expect("eight bytes of 32"));
        match self {
            Rules::OneFile => last & !0xff00,
            Rules::Newest => last & !0xff_0000,
            _ => last,
        }
    }
}

/// The head of a used row: what its files share.
#[derive(Clone, Copy, Debug, PartialEq, Eq)]
pub struct Row {
    pub name: u16,
    pub next: usize,
    pub epoch: u32,
    pub list: Laid,
    /// From 1 to 8; 0 in forms without counties.
    pub county: u8,
}

impl Row {
    /// A row as it is founded or joined.
    pub fn new(name: u16, next: usize, list: Laid, county: u8) -> Row {
        Row { name, next, epoch: 0, list, county }
    }

    pub fn read(head: &[u8; ROW_HEADER]) -> Row {
        Row {
            name: u16::from_le_bytes([head[0], head[1]]),
            next: usize::from(head[2]),
            epoch: number(head, 12),
            list: Laid {
                members: u64::from(number(head, 16)) | u64::from(number(head, 20)) << 32,
                mark: head[24],
            },
            county: head[COUNTY],
        }
    }

    /// Leaves the bytes where older forms have the numbers of their file.
    pub fn write(&self, head: &mut [u8; ROW_HEADER]) {
        head[0..2].copy_from_slice(&self.name.to_le_bytes());
        head[2] = self.next as u8;
        head[12..16].copy_from_slice(&self.epoch.to_le_bytes());
        head[16..24].copy_from_slice(&self.list.members.to_le_bytes());
        head[24] = self.list.mark;
        head[COUNTY] = self.county;
    }
}

/// What a used row says of one of its files, without contents and window.
#[derive(Clone, Copy, Debug, Default, PartialEq, Eq)]
pub struct Part {
    pub stale: bool,
    pub version: u32,
    pub desired: u32,
    /// The oldest record of its window; 0 for none.
    pub oldest: u8,
}

impl Part {
    /// Marks it as stale.
    pub fn mark(&mut self, desired: u32) {
        self.stale = true;
        self.desired = desired;
    }

    /// Is every number in its range?
    fn fits(&self) -> bool {
        let desired_fits = if self.stale { self.desired > self.version } else { self.desired == 0 };
        self.version <= LIMIT && self.desired <= LIMIT && desired_fits
    }
}

/// A well-formed table: its rules, its sizes, the order of its rows and their counties. The rows themselves stay in the bytes.
#[derive(Clone, Debug, PartialEq, Eq)]
pub struct Table {
    pub rules: Rules,
    pub capacity: usize,
    pub used: usize,
    /// How many files there are, and the bytes of each.
    pub files: usize,
    pub file_len: usize,
    /// The used rows in the order of their names.
    pub chain: Order,
    /// All rows are in one in forms without counties.
    pub counties: Counties,
    /// The bytes of a row, and of each of its parts.
    row_length: usize,
    part_length: usize,
}

impl Table {
    /// A table of one county.
    pub fn new(
        rules: Rules,
        capacity: usize,
        used: usize,
        file_len: usize,
        files: usize,
        chain: Order,
    ) -> Table {
        let (row_length, part_length) = (rules.row_length(file_len, files), rules.part_length(file_len));
        let counties = Counties::ONE;
        Table { rules, capacity, used, files, file_len, chain, counties, row_length, part_length }
    }

    /// How many bytes a table of the newest form takes.
    pub fn length(capacity: usize, file_len: usize, files: usize) -> usize {
        Rules::Newest.table_length(capacity, file_len, files)
    }

    /// Reads a table, if it is well formed and of the newest form.
    pub fn decode(bytes: &[u8]) -> Option<Table> {
        Table::decode_by(Rules::default(), bytes)
    }

    /// Reads a table, if it is well formed by these rules.
    pub fn decode_by(rules: Rules, bytes: &[u8]) -> Option<Table> {
        let header = bytes.first_chunk::<HEADER>()?;
        let [capacity, used, first] = [1, 2, 3].map(|at| usize::from(header[at]));
        let file_len = usize::from(u16::from_le_bytes([header[4], header[5]]));
        let (files, rest) = if rules.has_parts() { (header[6].into(), 7) } else { (1, 6) };
        let header_fits = header[0] == rules.form()
            && (1..=MAX_ROWS).contains(&capacity)
            && (1..=capacity).contains(&used)
            && (1..=MAX_FILE).contains(&file_len)
            && (1..=rules.most_files()).contains(&files)
            && all_zero(&header[rest..]);
        if !header_fits || bytes.len() != rules.table_length(capacity, file_len, files) {
            return None;
        }
        let mut table = Table::new(rules, capacity, used, file_len, files, Order::EMPTY);
        let well_formed = table.rows_fit(bytes)
            && table.follow_chain(bytes, first)
            && all_zero(&bytes[table.row_at(used + 1)..]);
        well_formed.then_some(table)
    }

    /// Writes the header; it begins the chain with row `first`.
    pub fn write_header(&self, bytes: &mut [u8], first: usize) {
        bytes[..HEADER].fill(0);
        bytes[0] = self.rules.form();
        bytes[1] = self.capacity as u8;
        bytes[2] = self.used as u8;
        bytes[3] = first as u8;
        bytes[4..6].copy_from_slice(&(self.file_len as u16).to_le_bytes());
        if self.rules.has_parts() {
            bytes[6] = self.files as u8;
        }
    }

    /// Puts a row that is not used yet behind the rows at the first `place` places of the chain, with an empty list.
    pub fn link_in(&self, bytes: &mut [u8], name: u16, county: u8, place: usize) -> usize {
        let row = self.used + 1;
        let next = self.chain.get(place).map_or(0, |&row| row.into());
        self.write_row(bytes, row, &Row::new(name, next, Laid::EMPTY, county));
        let link = match place.checked_sub(1) {
            Some(before) => self.row_at(self.chain[before].into()) + 2,
            None => 3,
        };
        bytes[link] = row as u8;
        bytes[2] = row as u8;
        row
    }

    pub fn all_used(&self) -> u64 {
        rows::first(self.used)
    }

    /// Has every used row a list, and in the published grid?
    pub fn is_published(&self, bytes: &[u8]) -> bool {
        (1..=self.used).map(|row| self.row(bytes, row).list).all(|list| !list.is_empty() && list.mark == 0)
    }

    /// Where a row begins.
    pub fn row_at(&self, row: usize) -> usize {
        HEADER + (row - 1) * self.row_length
    }

    /// Where a row's part for a file begins. Files count from 1.
    pub fn part_at(&self, row: usize, file: usize) -> usize {
        self.row_at(row) + ROW_HEADER + (file - 1) * self.part_length
    }

    /// Where the contents of a file begin in a row.
    pub fn contents_at(&self, row: usize, file: usize) -> usize {
        self.part_at(row, file) + if self.rules.has_parts() { PART_HEADER } else { 0 }
    }

    /// Where the window on a file begins in a row, if there is one.
    pub fn window_at(&self, row: usize, file: usize) -> usize {
        self.contents_at(row, file) + self.file_len
    }

    pub fn row(&self, bytes: &[u8], row: usize) -> Row {
        Row::read(self.head(bytes, row))
    }

    pub fn write_row(&self, bytes: &mut [u8], row: usize, state: &Row) {
        let head = bytes[self.row_at(row)..].first_chunk_mut();
        state.write(head.expect("the row is in the table"));
    }

    pub fn part(&self, bytes: &[u8], row: usize, file: usize) -> Part {
        let (numbers, [mark, oldest]) = (self.numbers(bytes, row, file), self.rules.places());
        Part {
            stale: numbers[mark] == 1,
            version: number(numbers, 4),
            desired: number(numbers, 8),
            oldest: numbers[oldest],
        }
    }

    pub fn write_part(&self, bytes: &mut [u8], row: usize, file: usize, part: &Part) {
        let [mark, oldest] = self.rules.places();
        let numbers = &mut bytes[self.numbers_at(row, file)..];
        numbers[mark] = u8::from(part.stale);
        numbers[4..8].copy_from_slice(&part.version.to_le_bytes());
        numbers[8..12].copy_from_slice(&part.desired.to_le_bytes());
        numbers[oldest] = part.oldest;
    }

    pub fn contents<'a>(&self, bytes: &'a [u8], row: usize, file: usize) -> &'a [u8] {
        &bytes[self.contents_at(row, file)..][..self.file_len]
    }

    pub fn contents_mut<'a>(&self, bytes: &'a mut [u8], row: usize, file: usize) -> &'a mut [u8] {
        &mut bytes[self.contents_at(row, file)..][..self.file_len]
    }

    /// The window of a row on a file, in a table that has windows.
    pub fn window<'a>(&self, bytes: &'a [u8], row: usize, file: usize) -> &'a Window {
        bytes[self.window_at(row, file)..].first_chunk().expect("the row is in the table")
    }

    pub fn window_mut<'a>(&self, bytes: &'a mut [u8], row: usize, file: usize) -> &'a mut Window {
        bytes[self.window_at(row, file)..].first_chunk_mut().expect("the row is in the table")
    }

    fn head<'a>(&self, bytes: &'a [u8], row: usize) -> &'a [u8; ROW_HEADER] {
        bytes[self.row_at(row)..].first_chunk().expect("the row is in the table")
    }

    /// Where the numbers of a file lie in a row: in its part, or in the head.
    fn numbers_at(&self, row: usize, file: usize) -> usize {
        if self.rules.has_parts() {
            self.part_at(row, file)
        } else {
            self.row_at(row)
        }
    }

    /// A part has more bytes than a head.
    fn numbers<'a>(&self, bytes: &'a [u8], row: usize, file: usize) -> &'a [u8; ROW_HEADER] {
        bytes[self.numbers_at(row, file)..].first_chunk().expect("the row is in the table")
    }

    /// Gathers the counties; is every used row in order by itself, each of its parts too, does its list name used rows only, and
    /// unless the row is exempt, its own row among them, is it the one list of its epoch, in one grid, and in the shape of all lists?
    fn rows_fit(&mut self, bytes: &[u8]) -> bool {
        let (rules, all_used) = (self.rules, self.all_used());
        let mut counties = Counties::NONE;
        // The first row of each epoch; most tables have few epochs, and most rows that of the row before.
        let mut leaders = Order::EMPTY;
        // Epoch, list and grid mark of the last row that is not exempt; an empty list stands for none.
        let mut before = (0, 0, 0);
        for index in 1..=self.used {
            let head = self.head(bytes, index);
            let row = Row::read(head);
            let Laid { members, .. } = row.list;
            let mark = rules.mark_and_zeros(head);
            if row.name == 0 || row.epoch > LIMIT || members & !all_used != 0 {
                return false;
            }
            if rules.has_parts() && (head[3] != 0 || number(head, 4) | number(head, 8) != 0) {
                return false;
            }
            if rules.has_counties() {
                if !is_county(row.county.into()) {
                    return false;
                }
                counties.put(index, row.county);
            }
            for file in 1..=self.files {
                if !self.part_fits(bytes, index, file) {
                    return false;
                }
            }
            if !rows::has(members, index) {
                if mark == 0 && rules.exempt(row.list) {
                    continue;
                }
                return false;
            }
            if before != (row.epoch, members, mark) {
                let mut earlier = leaders.iter().map(|&leader| self.row(bytes, leader.into()));
                match earlier.find(|leader| leader.epoch == row.epoch) {
                    Some(leader) => {
                        if leader.list.members != members || u64::from(leader.list.mark) != mark {
                            return false;
                        }
                    }
                    // There are zeros behind the mark.
                    None if mark == row.list.mark.into() => leaders.push(index),
                    None => return false,
                }
                before = (row.epoch, members, mark);
            }
        }
        if rules.has_counties() {
            self.counties = counties;
        }
        self.marks_fit(bytes, &leaders)
    }

    /// Have the lists of these rows grid marks that they may have, and one shape?
    fn marks_fit(&self, bytes: &[u8], rows: &Order) -> bool {
        // The shape of the first list.
        let mut shape = None;
        rows.iter().map(|&row| self.row(bytes, row.into()).list).all(|list| {
            let several = self.counties.several(list.members);
            let of_one_shape = *shape.get_or_insert(list.shape()) == list.shape();
            of_one_shape && self.rules.allow(list.members.count_ones() as usize, several, list.mark)
        })
    }

    /// Is what a row holds of a file in order, its window too?
    fn part_fits(&self, bytes: &[u8], row: usize, file: usize) -> bool {
        let (numbers, [mark, _]) = (self.numbers(bytes, row, file), self.rules.places());
        let part = self.part(bytes, row, file);
        if numbers[mark] > 1 || !part.fits() || self.rules.has_parts() && numbers[2] | numbers[3] != 0 {
            return false;
        }
        !self.rules.has_windows()
            || window::fits(self.window(bytes, row, file), part.oldest, part.version, self.file_len)
    }

    /// Gathers the chain; does it visit each used row once, and do its names rise strictly?
    fn follow_chain(&mut self, bytes: &[u8], first: usize) -> bool {
        let mut name_before = 0;
        let mut index = first;
        while (1..=self.used).contains(&index) {
            let row = self.row(bytes, index);
            // Rising names keep the walk from coming back to a row.
            if row.name <= name_before {
                return false;
            }
            self.chain.push(index);
            name_before = row.name;
            index = row.next;
        }
        index == 0 && self.chain.len() == self.used
    }
}

/// The number of four bytes at a place.
fn number(bytes: &[u8; ROW_HEADER], at: usize) -> u32 {
    u32::from_le_bytes([bytes[at], bytes[at + 1], bytes[at + 2], bytes[at + 3]])
}

/// Folds blocks of bytes, which vectorizes. (Without blocks the loop takes two vectors a turn, and its same instructions were
/// seen to take 1.8 times as long in another place of the program.)
pub fn all_zero(bytes: &[u8]) -> bool {
    fn zero(bytes: &[u8]) -> bool {
        bytes.iter().fold(0, |bits, byte| bits | byte) == 0
    }
    let (blocks, rest) = bytes.as_chunks::<128>();
    blocks.iter().all(|block| zero(block)) && zero(rest)
}
