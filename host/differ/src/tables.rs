//! Random well-formed tables that no founding leads to, and tables that differ only in rows that did not answer, only within other
//! files, or only in the county of a row that did not answer.

use crate::random::Random;
use reference::rows;
use reference::window::{self, LONGEST_PATCH, RECORD, RECORDS, WINDOW};
use reference::{
    Counties, Laid, Part, Row, Rules, Shape, Table, COUNTY, LIMIT, MAX_COUNTIES, MAX_FILE, SEVERAL, TALL,
};
use std::ops::Deref;

/// A well-formed table with its used rows, kept apart from its bytes.
#[derive(Clone)]
pub struct Picture {
    table: Table,
    /// Row i at place i - 1.
    pub rows: Vec<Row>,
    /// For row i at place i - 1 its parts, that of file q at place q - 1.
    pub parts: Vec<Vec<Part>>,
}

impl Picture {
    /// Reads a table, if it is well formed and of the newest form.
    pub fn of(bytes: &[u8]) -> Option<Picture> {
        Picture::by(Rules::Newest, bytes)
    }

    /// Reads a table, if it is well formed by the rules of its own form.
    pub fn of_any_form(bytes: &[u8]) -> Option<Picture> {
        Picture::by(Rules::of_form(*bytes.first()?)?, bytes)
    }

    fn by(rules: Rules, bytes: &[u8]) -> Option<Picture> {
        let table = Table::decode_by(rules, bytes)?;
        let rows = (1..=table.used).map(|row| table.row(bytes, row)).collect();
        let parts_of = |row| (1..=table.files).map(|file| table.part(bytes, row, file)).collect();
        let parts = (1..=table.used).map(parts_of).collect();
        Some(Picture { table, rows, parts })
    }

    pub fn row(&self, row: usize) -> &Row {
        &self.rows[row - 1]
    }

    pub fn part(&self, row: usize, file: usize) -> &Part {
        &self.parts[row - 1][file - 1]
    }

    /// The file of this number, if there is one.
    pub fn file(&self, number: u64) -> Option<usize> {
        (1..=self.files as u64).contains(&number).then_some(number as usize)
    }

    /// The files that the set is not current for: it has no unmarked row, or a marked one desires more than those have.
    pub fn stale_files(&self, set: u64) -> Vec<usize> {
        let is_current = |file: usize| {
            let parts = rows::members(set).map(|row| self.part(row, file));
            let (stale, unmarked): (Vec<&Part>, Vec<&Part>) = parts.partition(|part| part.stale);
            let newest = unmarked.iter().map(|part| part.version).max();
            newest.is_some_and(|version| stale.iter().all(|part| part.desired <= version))
        };
        (1..=self.files).filter(|&file| !is_current(file)).collect()
    }

    /// The rows with an empty list.
    pub fn unlisted(&self) -> u64 {
        let unlisted = (1..).zip(&self.rows).filter(|(_, row)| row.list.is_empty());
        unlisted.fold(0, |set, (row, _)| set | rows::only(row))
    }

    /// The list of the highest epoch among the rows of the set that have one; empty if none has.
    pub fn newest(&self, set: u64) -> Laid {
        let listed =
            (1..).zip(&self.rows).filter(|(row, state)| rows::has(set, *row) && !state.list.is_empty());
        listed.max_by_key(|(_, state)| state.epoch).map_or(Laid::EMPTY, |(_, state)| state.list)
    }

    /// The shape of its lists; one without a list may have either.
    pub fn shape(&self) -> Option<Shape> {
        self.rows.iter().find(|row| !row.list.is_empty()).map(|row| row.list.shape())
    }

    /// The rows of each county that has any.
    pub fn parts(&self) -> Vec<u64> {
        self.counties.parts(self.all_used()).collect()
    }

    /// Are the members of the set in more than one county?
    pub fn several(&self, set: u64) -> bool {
        self.counties.several(set)
    }

    /// The row at a place of the chain; places count from 0.
    pub fn at(&self, place: usize) -> usize {
        self.chain[place].into()
    }
}

impl Deref for Picture {
    type Target = Table;

    fn deref(&self) -> &Table {
        &self.table
    }
}

/// How large a table is.
#[derive(Clone, Copy, Debug)]
pub struct Size {
    pub used: usize,
    pub capacity: usize,
    pub file_len: usize,
    pub files: usize,
}

impl Size {
    /// Mostly small, at times as large as a table can be. Many files are mostly short, and in tables with few unused rows: they take
    /// their time.
    pub fn pick(random: &mut Random) -> Size {
        let files = match random.between(0, 9) {
            0..=3 => 1,
            4..=5 => 2,
            6 => 3,
            7 => 8,
            _ => random.between(1, 8),
        };
        let used = match random.between(0, 8) {
            0..=4 => random.between(1, 7),
            5..=6 => random.between(1, 16),
            7 => 5,
            _ => random.between(1, 64),
        };
        let few = files <= 2;
        let capacity = match random.between(0, 3) {
            0..=1 => used,
            3 if few || random.chance(1, 10) => random.between(used, 64),
            _ => random.between(used, (used + 3).min(64)),
        };
        let file_len = match random.between(0, 99) {
            0..=49 => random.between(1, 6),
            50..=69 => random.between(7, 40),
            70..=93 => random.pick(&[31, 32, 33, 34, 40, 64]),
            94..=97 => random.between(41, 300),
            98 => random.between(301, MAX_FILE - 1),
            _ => MAX_FILE,
        };
        let file_len = match file_len {
            _ if few => file_len,
            _ if random.chance(1, 50) => random.between(65, MAX_FILE + 400).min(MAX_FILE),
            _ => file_len.min(64),
        };
        Size { used, capacity, file_len, files }
    }
}

/// So many names, rising and far apart, or now and then side by side.
pub fn names(random: &mut Random, count: usize) -> Vec<u16> {
    if random.chance(1, 8) {
        let start = random.pick(&[1, 100, 65_536 - count]);
        return (start..start + count).map(|name| name as u16).collect();
    }
    let mut names = names_beside(random, &[], count);
    names.sort_unstable();
    names
}

/// So many names that are none of these, which are given in bytes.
pub fn names_beside(random: &mut Random, taken: &[u8], count: usize) -> Vec<u16> {
    let mut names: Vec<u16> = taken.chunks(2).map(|name| u16::from_le_bytes([name[0], name[1]])).collect();
    let before = names.len();
    while names.len() < before + count {
        let name = random.between(1, 65_535) as u16;
        if !names.contains(&name) {
            names.push(name);
        }
    }
    names.split_off(before)
}

pub fn names_in_bytes(names: &[u16]) -> Vec<u8> {
    names.iter().flat_map(|name| name.to_le_bytes()).collect()
}

/// A county for each of so many machines, in their order. Often there are one, two or five of them, and five of one; they rise with
/// the machines, fall or neither.
pub fn counties(random: &mut Random, count: usize) -> Vec<u8> {
    let any = random.between(1, MAX_COUNTIES);
    let mut numbers: Vec<u8> = (1..=MAX_COUNTIES as u8).collect();
    random.shuffle(&mut numbers);
    numbers.truncate(random.pick(&[1, 1, 1, 2, 2, 5, 5, any]));
    // Each county has one machine if there are enough of them; then one after the other is filled up.
    let mut counties: Vec<u8> = numbers.iter().copied().take(count).collect();
    for &county in &numbers {
        for _ in 1..random.pick(&[1, 2, 3, 4, 5, 5, 5, 6]) {
            counties.push(county);
        }
    }
    while counties.len() < count {
        counties.push(random.pick(&numbers));
    }
    counties.truncate(count);
    match random.between(0, 3) {
        0 => counties.sort_unstable(),
        1 => counties.sort_unstable_by(|one, next| next.cmp(one)),
        _ => random.shuffle(&mut counties),
    }
    counties
}

/// Any county for all of so many machines.
pub fn one_county(random: &mut Random, count: usize) -> Vec<u8> {
    vec![random.between(1, MAX_COUNTIES) as u8; count]
}

/// A well-formed table of this form.
pub fn well_formed_by(random: &mut Random, size: Size, rules: Rules) -> Vec<u8> {
    let lists = if rules == Rules::Published { PUBLISHED } else { any_lists(random) };
    made(random, size, rules, lists)
}

/// A well-formed table of the newest form with a shuffled chain, several epochs, marks, lists and windows.
pub fn well_formed(random: &mut Random, size: Size) -> Vec<u8> {
    well_formed_by(random, size, Rules::Newest)
}

/// The same of one county.
#[cfg(test)]
pub fn well_formed_in_one_county(random: &mut Random, size: Size) -> Vec<u8> {
    let lists = Lists { one_county: true, ..any_lists(random) };
    made(random, size, Rules::Newest, lists)
}

/// The same of any form, of one county and with a list in the published grid in each row.
pub fn published(random: &mut Random, size: Size, rules: Rules) -> Vec<u8> {
    made(random, size, rules, PUBLISHED)
}

/// Which lists a table has.
#[derive(Clone, Copy)]
struct Lists {
    shape: Shape,
    /// So many tenths of the rows have none.
    unlisted: u64,
    /// May a list of five lie in the new grid?
    marked: bool,
    /// Are all rows in one county?
    one_county: bool,
}

/// As the scope alone lays them.
const PUBLISHED: Lists = Lists { shape: Shape::Wide, unlisted: 0, marked: false, one_county: true };

/// In half of the tables some rows, or all, have an empty list. A third of the tables are tall.
fn any_lists(random: &mut Random) -> Lists {
    let unlisted = random.pick(&[0, 0, 0, 0, 1, 3, 6, 10]);
    Lists { shape: shape(random), unlisted, marked: true, one_county: false }
}

fn made(random: &mut Random, size: Size, rules: Rules, lists: Lists) -> Vec<u8> {
    let Size { used, capacity, file_len, .. } = size;
    let files = size.files.min(rules.most_files());
    let mut chain: Vec<usize> = (1..=used).collect();
    random.shuffle(&mut chain);
    let table = Table::new(rules, capacity, used, file_len, files, chain.iter().copied().collect());
    let mut bytes = vec![0; rules.table_length(capacity, file_len, files)];
    table.write_header(&mut bytes, chain[0]);
    let counties = match rules.has_counties() {
        true if lists.one_county => one_county(random, used),
        true => counties(random, used),
        false => vec![0; used],
    };
    for (row, state) in (1..).zip(used_rows(random, &chain, lists, &counties)) {
        table.write_row(&mut bytes, row, &state);
    }
    // All files may have stale parts, or one of them, or none.
    let (any, one) = (random.chance(1, 2), random.between(0, files));
    for file in 1..=files {
        for (row, part) in (1..).zip(used_parts(random, used, any || file == one)) {
            put_part(random, &table, &mut bytes, row, file, &part);
        }
    }
    bytes
}

/// Gives a row this part for a file, with any contents and a window of any patches, no more of them than it has versions.
fn put_part(random: &mut Random, table: &Table, bytes: &mut [u8], row: usize, file: usize, part: &Part) {
    table.write_part(bytes, row, file, part);
    random.fill(table.contents_mut(bytes, row, file));
    if table.rules.has_windows() {
        let most = RECORDS.min(part.version as usize);
        let any = random.between(0, most);
        let count = random.pick(&[0, 1, 15, 16, 16, any]).min(most);
        put_window(random, table, bytes, row, file, count);
    }
}

/// Gives a row a window on a file of so many patches, chained through its first records in any order; gives that order.
pub fn put_window(
    random: &mut Random,
    table: &Table,
    bytes: &mut [u8],
    row: usize,
    file: usize,
    count: usize,
) -> Vec<u8> {
    let mut order: Vec<u8> = (1..=count as u8).collect();
    random.shuffle(&mut order);
    let mut window = [0; WINDOW];
    for (place, &index) in order.iter().enumerate() {
        let any = random.between(1, LONGEST_PATCH);
        let length = random.pick(&[1, 31, 32, any]).min(table.file_len);
        let last = table.file_len - length;
        let offset = if random.chance(1, 4) { last } else { random.between(0, last) };
        let record = &mut window[RECORD * (usize::from(index) - 1)..][..RECORD];
        record[0] = order.get(place + 1).copied().unwrap_or(0);
        record[1] = length as u8;
        record[2..4].copy_from_slice(&(offset as u16).to_le_bytes());
        random.fill(&mut record[4..4 + length]);
    }
    *table.window_mut(bytes, row, file) = window;
    let part = Part { oldest: order.first().copied().unwrap_or(0), ..table.part(bytes, row, file) };
    table.write_part(bytes, row, file, &part);
    order
}

/// How many patches the window of a row on a file has.
pub fn patches(table: &Table, bytes: &[u8], row: usize, file: usize) -> usize {
    window::chain(table.window(bytes, row, file), table.part(bytes, row, file).oldest).0
}

/// One file of a well-formed table of any form as a table of another form; see below.
pub fn alone(bytes: &[u8], file: usize, rules: Rules) -> Vec<u8> {
    alone_of(&Picture::of_any_form(bytes).expect("well formed"), bytes, file, rules)
}

/// One file of a well-formed table as a table of another form, whose rules allow its lists: the heads with the parts of that file.
/// Windows stay where both forms have them; elsewhere they are left out, or empty. Counties stay, too; elsewhere they are left out,
/// or all rows are in county 1.
pub fn alone_of(own: &Table, bytes: &[u8], file: usize, rules: Rules) -> Vec<u8> {
    let table = Table::new(rules, own.capacity, own.used, own.file_len, 1, own.chain);
    let mut alone = vec![0; rules.table_length(own.capacity, own.file_len, 1)];
    table.write_header(&mut alone, own.chain[0].into());
    for row in 1..=own.used {
        let head = own.row(bytes, row);
        let county = if rules.has_counties() { head.county.max(1) } else { 0 };
        table.write_row(&mut alone, row, &Row { county, ..head });
        let mut part = own.part(bytes, row, file);
        if own.rules.has_windows() && rules.has_windows() {
            *table.window_mut(&mut alone, row, 1) = *own.window(bytes, row, file);
        } else {
            part.oldest = 0;
        }
        table.write_part(&mut alone, row, 1, &part);
        table.contents_mut(&mut alone, row, 1).copy_from_slice(own.contents(bytes, row, file));
    }
    alone
}

/// A table of one county as it is in form 4.
pub fn former(table: &Table, bytes: &[u8]) -> Vec<u8> {
    let mut former = bytes.to_vec();
    former[0] = Rules::OneCounty.form();
    (1..=usize::from(bytes[2])).for_each(|row| former[table.row_at(row) + COUNTY] = 0);
    former
}

/// County 0 stands for none.
fn used_rows(random: &mut Random, chain: &[usize], lists: Lists, counties: &[u8]) -> Vec<Row> {
    let count = chain.len();
    let names = names(random, count);
    let grouped = Counties::of(counties.iter().map(|&county| county.max(1)));
    let epochs = epochs(random, count, lists, &grouped);
    let row = |row: usize| {
        let place = chain.iter().position(|&member| member == row).expect("every row is in the chain");
        let (epoch, list) = epochs[row - 1];
        let next = chain.get(place + 1).copied().unwrap_or(0);
        Row { epoch, ..Row::new(names[place], next, list, counties[row - 1]) }
    };
    (1..=count).map(row).collect()
}

/// What so many rows say of a file; windows are still empty. Unless some may be stale, every set of them is current.
fn used_parts(random: &mut Random, count: usize, may_be_stale: bool) -> Vec<Part> {
    let lowest_version = random.pick(&[0, 0, 0, 1, 14, 16, 30, LIMIT - 3, LIMIT - 1]);
    let stale_chance = if may_be_stale { random.pick(&[0, 0, 1, 5]) } else { 0 };
    let spread = random.pick(&[1, 2, 4, 18]);
    let mut parts = Vec::new();
    for _ in 0..count {
        let version = (lowest_version + random.between(0, spread - 1) as u32).min(LIMIT);
        let stale = version < LIMIT && random.chance(stale_chance, 10);
        let desired = if stale { (version + random.between(1, 3) as u32).min(LIMIT) } else { 0 };
        parts.push(Part { stale, version, desired, oldest: 0 });
    }
    if may_be_stale && count > 1 && random.chance(1, 3) {
        put_behind(random, &mut parts);
    }
    parts
}

/// Marks a part that is behind another one: by one version, by as many as a window may reach back, or by one more or less.
fn put_behind(random: &mut Random, parts: &mut [Part]) {
    let from = random.between(0, parts.len() - 1);
    let to = (from + random.between(1, parts.len() - 1)) % parts.len();
    let behind = random.pick(&[1, 15, 16, 17]);
    let version = parts[from].version.max(behind + random.pick(&[0, 0, 1, 9]));
    let older = version - behind;
    let desired = random.between(older as usize + 1, version as usize) as u32;
    parts[from] = Part { stale: false, version, desired: 0, oldest: 0 };
    parts[to] = Part { stale: true, version: older, desired, oldest: 0 };
}

/// An epoch number that only rows with an empty list have in a generated table.
const LONE_EPOCH: u32 = 900_000;

/// For each row its epoch number and the list of that epoch; rows with an empty list have any epoch number. At times the rows of each
/// county have an epoch of their own.
fn epochs(random: &mut Random, count: usize, lists: Lists, counties: &Counties) -> Vec<(u32, Laid)> {
    let parts: Vec<u64> = counties.parts(rows::first(count)).collect();
    let apart = parts.len() > 1 && random.chance(1, 3);
    let kinds = if apart { parts.len() } else { random.pick(&[1, 1, 2, 4]) };
    let lowest = random.pick(&[0, 0, 0, LIMIT - kinds as u32, LIMIT + 1 - kinds as u32]);
    let outside = random.pick(&[0, 5, 9, 10]);
    let mut kind_of = |row| match parts.iter().position(|&part| rows::has(part, row)) {
        Some(place) if apart => place,
        _ => random.between(0, kinds - 1),
    };
    let epoch_of: Vec<u32> = (1..=count).map(|row| lowest + kind_of(row) as u32).collect();
    let list_of: Vec<Laid> = (0..kinds as u32)
        .map(|kind| {
            let own = (1..).zip(&epoch_of).filter(|(_, &epoch)| epoch == lowest + kind);
            let own = own.fold(0, |list, (row, _)| list | rows::only(row));
            let laid = list(random, rows::first(count), own, outside, lists.shape, counties);
            Laid { mark: if lists.marked { laid.mark } else { 0 }, ..laid }
        })
        .collect();
    let of_row = |&epoch: &u32| {
        if random.chance(lists.unlisted, 10) {
            (random.pick(&[epoch, epoch, 0, LONE_EPOCH, LIMIT]), Laid::EMPTY)
        } else {
            (epoch, list_of[(epoch - lowest) as usize])
        }
    };
    epoch_of.iter().map(of_row).collect()
}

fn shape(random: &mut Random) -> Shape {
    random.pick(&[Shape::Wide, Shape::Wide, Shape::Tall])
}

/// A list that has at least its own rows, and each other one with a chance of so many tenths; often of a length that can
/// lie in two grids, if that can be. Half of the lists stay within the counties of their own rows. Five of one county lie in either grid
/// in a wide table.
fn list(random: &mut Random, among: u64, own: u64, tenths: u64, shape: Shape, counties: &Counties) -> Laid {
    let home = counties.parts(among).filter(|part| part & own != 0).fold(0, |home, part| home | part);
    let among = if random.chance(1, 2) { home } else { among };
    let length = match shape {
        Shape::Wide => 5,
        Shape::Tall => random.pick(&[2, 5, 6, 11]),
    };
    let members = if random.chance(1, 3) {
        filled(random, among, own, length)
    } else {
        own | random.subset(among, tenths, 10)
    };
    let mark = match shape {
        Shape::Tall => TALL,
        Shape::Wide if counties.several(members) => SEVERAL,
        Shape::Wide => u8::from(members.count_ones() == 5 && random.chance(1, 2)),
    };
    Laid { members, mark }
}

/// The set with random rows besides its own, as many as it takes for `length` members, or all.
pub fn filled(random: &mut Random, among: u64, own: u64, length: u32) -> u64 {
    let mut members = own;
    while members.count_ones() < length && among & !members != 0 {
        members |= rows::only(random.row(among & !members));
    }
    members
}

/// The same table with other bytes in the rows that did not answer; header, names, links and counties stay. Its shape too, unless
/// no row that answered has a list.
pub fn twin(random: &mut Random, bytes: &[u8], table: &Table, answering: u64) -> Vec<u8> {
    let mut twin = bytes.to_vec();
    let answered = rows::members(answering & table.all_used()).map(|row| table.row(bytes, row));
    let listed: Vec<Row> = answered.filter(|row| !row.list.is_empty()).collect();
    let taken: Vec<u32> = listed.iter().map(|row| row.epoch).collect();
    let shape = listed.first().map_or_else(|| shape(random), |row| row.list.shape());
    let mut free = (0..=LIMIT).rev().filter(|epoch| !taken.contains(epoch)).step_by(random.between(1, 3));
    let unlisted = random.pick(&[0, 1, 5, 10]);
    for row in rows::members(table.all_used() & !answering) {
        let mut state = table.row(bytes, row);
        if random.chance(unlisted, 10) {
            let any = taken.first().copied().unwrap_or(0);
            (state.epoch, state.list) = (random.pick(&[0, any, LONE_EPOCH, LIMIT]), Laid::EMPTY);
        } else {
            state.epoch = free.next().expect("more epochs than rows");
            state.list = list(random, table.all_used(), rows::only(row), 5, shape, &table.counties);
        }
        table.write_row(&mut twin, row, &state);
        (1..=table.files).for_each(|file| put_any_part(random, table, &mut twin, row, file));
    }
    twin
}

/// The same table with a row that did not answer in another county, if it is well formed so.
pub fn twin_of_another_county(
    random: &mut Random,
    bytes: &[u8],
    table: &Table,
    answering: u64,
) -> Option<Vec<u8>> {
    let others = Some(table.all_used() & !answering).filter(|&others| others != 0)?;
    let at = table.row_at(random.row(others)) + COUNTY;
    let mut numbers: Vec<u8> = (1..=MAX_COUNTIES as u8).filter(|&county| county != bytes[at]).collect();
    random.shuffle(&mut numbers);
    numbers.into_iter().find_map(|county| {
        let mut twin = bytes.to_vec();
        twin[at] = county;
        Table::decode(&twin).map(|_| twin)
    })
}

/// The same table with other bytes in every part of every file but these (bit q - 1 for file q); header and heads stay.
pub fn twin_within_others(random: &mut Random, bytes: &[u8], table: &Table, files: u64) -> Vec<u8> {
    let mut twin = bytes.to_vec();
    for row in 1..=table.used {
        let others = (1..=table.files).filter(|&other| !rows::has(files, other));
        others.for_each(|other| put_any_part(random, table, &mut twin, row, other));
    }
    twin
}

fn put_any_part(random: &mut Random, table: &Table, bytes: &mut [u8], row: usize, file: usize) {
    let version = random.pick(&[0, 1, 7, 16, LIMIT - 1]);
    let stale = random.chance(1, 2);
    let desired = if stale { version + 1 } else { 0 };
    put_part(random, table, bytes, row, file, &Part { stale, version, desired, oldest: 0 });
}

#[cfg(test)]
mod tests {
    use super::*;
    use crate::report::Ground;

    #[test]
    fn made_tables_are_well_formed_and_so_are_their_twins() {
        for case in 0..2_000 {
            let mut random = Random::new(1, case);
            let size = Size::pick(&mut random);
            let bytes = well_formed(&mut random, size);
            let table = Table::decode(&bytes).expect("well formed");
            let answering = random.next();
            assert!(Table::decode(&twin(&mut random, &bytes, &table, answering)).is_some());
            let files = random.pick(&[0, rows::only(1), rows::only(table.files), u64::MAX]);
            let twin = twin_within_others(&mut random, &bytes, &table, files);
            assert!(Table::decode(&twin).is_some());
            // What stays: header, heads, unused rows and the parts of the files.
            let head = |bytes: &[u8], row| bytes[table.row_at(row)..table.part_at(row, 1)].to_vec();
            assert!((1..=table.used).all(|row| head(&twin, row) == head(&bytes, row)));
            let part = |bytes: &[u8], row, file| {
                bytes[table.part_at(row, file)..table.part_at(row, file + 1)].to_vec()
            };
            for file in (1..=table.files).filter(|&file| rows::has(files, file)) {
                assert!((1..=table.used).all(|row| part(&twin, row, file) == part(&bytes, row, file)));
            }
        }
    }

    /// All numbers of files, some with long files; none, one or several of them stale.
    #[test]
    fn groups_of_every_kind_are_made() {
        let (mut files, mut long, mut stale) = ([0; 9], 0, [0; 3]);
        for case in 0..4_000 {
            let mut random = Random::new(1, case);
            let size = Size::pick(&mut random);
            files[size.files] += 1;
            long += usize::from(size.files > 2 && size.file_len > 64);
            if size.file_len <= 64 {
                let bytes = well_formed(&mut random, size);
                let table = Picture::of(&bytes).expect("well formed");
                assert_eq!(table.files, size.files);
                stale[table.stale_files(table.all_used()).len().min(2)] += usize::from(size.files > 2);
            }
        }
        assert!(files[1..].iter().all(|&count| count > 50) && files[0] == 0, "{files:?}");
        assert!(long > 10 && stale.into_iter().all(|count| count > 50), "{long} {stale:?}");
    }

    /// None, one or both of one county in a wide table, with and without those of several counties, and so among the rows of a twin that
    /// did not answer; and tall ones by themselves.
    #[test]
    fn fives_of_every_mark_are_made() {
        let marks = |table: &Picture, set| {
            let fives = rows::members(set).map(|row| table.row(row).list);
            fives.filter(|list| list.members.count_ones() == 5).fold(0, |marks, list| marks | 1 << list.mark)
        };
        let (mut made, mut twins) = ([0; 16], [0; 16]);
        for case in 0..4_000 {
            let mut random = Random::new(1, case);
            let size = Size::pick(&mut random);
            let bytes = well_formed(&mut random, size);
            let table = Picture::of(&bytes).expect("well formed");
            made[marks(&table, table.all_used())] += 1;
            let answering = random.next() & table.all_used();
            let twin = twin(&mut random, &bytes, &table, answering);
            let twin = Picture::of(&twin).expect("well formed");
            twins[marks(&twin, twin.all_used() & !answering)] += 1;
        }
        for counts in [made, twins] {
            let wide = [0, 1, 2, 8].into_iter().all(|marks| counts[marks] > 100);
            assert!(wide && counts[4] > 100 && [3, 9, 10, 11].into_iter().all(|marks| counts[marks] > 0));
            assert!(counts[5..8].iter().chain(&counts[12..]).all(|&count| count == 0), "{made:?} {twins:?}");
        }
    }

    /// Tables of every number of counties; lists of one in tables of several; five on either level; counties that rise with the chain,
    /// fall or neither.
    #[test]
    fn counties_of_every_kind_are_made() {
        let (mut counties, mut below, mut above, mut home, mut orders) = ([0; 9], 0, 0, 0, [0; 3]);
        for case in 0..4_000 {
            let mut random = Random::new(1, case);
            let size = Size::pick(&mut random);
            let table = Picture::of(&well_formed(&mut random, size)).expect("well formed");
            let parts = table.parts();
            counties[parts.len()] += 1;
            let lists = table.rows.iter().map(|row| row.list.members).filter(|&list| list != 0);
            let lists: Vec<Vec<u64>> = lists.map(|list| table.counties.parts(list).collect()).collect();
            let five = |parts: &Vec<u64>| parts.len() > 1 && parts.iter().any(|part| part.count_ones() == 5);
            below += usize::from(lists.iter().any(five));
            above += usize::from(lists.iter().any(|parts| parts.len() == 5));
            home += usize::from(parts.len() > 1 && lists.iter().any(|parts| parts.len() == 1));
            if parts.len() > 2 {
                let in_order: Vec<u8> = table.chain.iter().map(|&row| table.row(row.into()).county).collect();
                let falls = in_order.iter().rev().is_sorted();
                orders[if in_order.is_sorted() { 0 } else { 1 + usize::from(falls) }] += 1;
            }
        }
        assert!(counties[0] == 0 && counties[1..].iter().all(|&count| count > 10), "{counties:?}");
        assert!([below, above, home].into_iter().all(|count| count > 100), "{below} {above} {home}");
        assert!(orders[0] > 10 && orders[1] > 100 && orders[2] > 10, "{orders:?}");
    }

    #[test]
    fn twins_keep_their_counties_or_differ_in_one() {
        let mut others = 0;
        for case in 0..2_000 {
            let mut random = Random::new(7, case);
            let size = Size::pick(&mut random);
            let bytes = well_formed(&mut random, size);
            let table = Picture::of(&bytes).expect("well formed");
            let answering = random.next() & table.all_used();
            let twin = Picture::of(&twin(&mut random, &bytes, &table, answering)).expect("well formed");
            assert_eq!(twin.counties, table.counties);
            let Some(other) = twin_of_another_county(&mut random, &bytes, &table, answering) else {
                continue;
            };
            let differ: Vec<usize> = (0..bytes.len()).filter(|&at| other[at] != bytes[at]).collect();
            let mut places = (1..=table.used).map(|row| (row, table.row_at(row) + COUNTY));
            assert!(matches!(differ[..], [at] if places
                .any(|(row, place)| place == at && !rows::has(answering, row))));
            others += 1;
        }
        assert!(others > 200, "{others}");
    }

    /// Windows of every length, in records in any order; patches of every length that has a rule.
    #[test]
    fn windows_of_every_kind_are_made() {
        let (mut counts, mut lengths, mut shuffled, mut behind) = ([0; 17], [0; 33], 0, [0; 18]);
        for case in 0..2_000 {
            let mut random = Random::new(1, case);
            let size = Size::pick(&mut random);
            let bytes = well_formed(&mut random, size);
            let table = Picture::of(&bytes).expect("well formed");
            for (row, file) in (1..=table.used).flat_map(|row| (1..=table.files).map(move |file| (row, file)))
            {
                let count = patches(&table, &bytes, row, file);
                counts[count] += 1;
                let window = table.window(&bytes, row, file);
                let records = (1..=count as u8).map(|index| window::record(window, index));
                let records: Vec<window::Record> = records.collect();
                records.iter().for_each(|record| lengths[record.length] += 1);
                shuffled += usize::from((2..).zip(&records).any(|(next, record)| record.next != next));
                let receiver = table.part(row, file);
                let senders = table.parts.iter().map(|parts| parts[file - 1]);
                for sender in senders.filter(|sender| !sender.stale && receiver.stale) {
                    let more = sender.version.saturating_sub(receiver.version) as usize;
                    behind[more.min(17)] += 1;
                }
            }
        }
        assert!(counts.iter().all(|&count| count > 20), "{counts:?}");
        assert!(lengths[1..].iter().all(|&count| count > 20), "{lengths:?}");
        assert!(shuffled > 1_000 && behind.iter().all(|&count| count > 20), "{shuffled} {behind:?}");
    }

    #[test]
    fn tables_of_every_form_are_made() {
        for case in 0..1_000 {
            let mut random = Random::new(1, case);
            let size = Size::pick(&mut random);
            for rules in Rules::ALL {
                let bytes = well_formed_by(&mut random, size, rules);
                let table = Picture::of_any_form(&bytes).expect("well formed");
                assert_eq!((bytes[0], table.rules), (rules.form(), rules));
            }
            for rules in Rules::ALL {
                let table = Picture::of_any_form(&published(&mut random, size, rules));
                assert_eq!(Ground::of(table.as_ref()), Ground::Published);
            }
        }
    }

    /// A file by itself is what the group has of it; windows come off and on.
    #[test]
    fn a_file_alone_is_a_table_of_an_older_form() {
        for case in 0..500 {
            let mut random = Random::new(1, case);
            let size = Size::pick(&mut random);
            let mut bytes = well_formed_in_one_county(&mut random, size);
            let file = random.between(1, size.files);
            let one_file = alone(&bytes, file, Rules::OneFile);
            let (table, group) = (Picture::of_any_form(&one_file), Picture::of(&bytes));
            let (table, group) = (table.expect("well formed"), group.expect("well formed"));
            assert_eq!((table.rules, table.used), (Rules::OneFile, group.used));
            for row in 1..=table.used {
                assert_eq!(*table.row(row), Row { county: 0, ..*group.row(row) });
                assert_eq!(table.part(row, 1), group.part(row, file));
                assert_eq!(table.contents(&one_file, row, 1), group.contents(&bytes, row, file));
                assert_eq!(table.window(&one_file, row, 1), group.window(&bytes, row, file));
            }
            assert_eq!(alone(&one_file, 1, Rules::OneFile), one_file);
            let back = alone(&one_file, 1, Rules::Newest);
            let returned = Picture::of(&back).expect("well formed");
            assert!(returned.rows.iter().all(|row| row.county == 1));
            assert_eq!(former(&returned, &back) == former(&group, &bytes), size.files == 1);
            let former = Picture::of_any_form(&former(&group, &bytes)).expect("well formed");
            assert_eq!((former.rules, former.rows), (Rules::OneCounty, table.rows.clone()));
            let older = alone(&one_file, 1, Rules::Windowless);
            assert!(Picture::of_any_form(&older).is_some() && older.len() < one_file.len());
            (1..=size.used).for_each(|row| drop(put_window(&mut random, &group, &mut bytes, row, file, 0)));
            assert_eq!(alone(&older, 1, Rules::OneFile), alone(&bytes, file, Rules::OneFile));
        }
    }

    /// Where no row that answered has a list, a twin may have the other shape; elsewhere it has the same.
    #[test]
    fn twins_keep_the_shape_of_those_that_answered() {
        let (mut kept, mut others) = (0, 0);
        for case in 0..2_000 {
            let mut random = Random::new(7, case);
            let size = Size::pick(&mut random);
            let bytes = well_formed(&mut random, size);
            let table = Picture::of(&bytes).expect("well formed");
            let answering = random.next() & table.all_used() & random.pick(&[0, u64::MAX]);
            let twin = Picture::of(&twin(&mut random, &bytes, &table, answering)).expect("well formed");
            let (Some(shape), Some(shape_of_twin)) = (table.shape(), twin.shape()) else { continue };
            if answering & !table.unlisted() != 0 {
                assert_eq!(shape, shape_of_twin);
                kept += usize::from(shape == Shape::Tall);
            } else {
                others += usize::from(shape != shape_of_twin);
            }
        }
        assert!(kept > 100 && others > 100, "{kept} {others}");
    }

    #[test]
    fn rows_without_a_list_have_any_epoch_and_may_be_stale() {
        let mut grounds = Vec::new();
        let (mut lone, mut shared, mut stale) = (0, 0, 0);
        for case in 0..2_000 {
            let mut random = Random::new(1, case);
            let size = Size::pick(&mut random);
            let bytes = well_formed(&mut random, size);
            let table = Picture::of(&bytes).expect("well formed");
            grounds.push(Ground::of(Some(&table)));
            let listed = table.rows.iter().filter(|row| !row.list.is_empty());
            let epochs: Vec<u32> = listed.map(|row| row.epoch).collect();
            for (row, parts) in table.rows.iter().zip(&table.parts).filter(|(row, _)| row.list.is_empty()) {
                lone += usize::from(row.epoch == LONE_EPOCH);
                shared += usize::from(epochs.contains(&row.epoch));
                stale += usize::from(parts.iter().any(|part| part.stale));
            }
        }
        for ground in Ground::ALL.into_iter().filter(|&ground| ground != Ground::Malformed) {
            let count = grounds.iter().filter(|&&made| made == ground).count();
            assert!(count > 50, "{ground:?} {count}");
        }
        assert!(lone > 100 && shared > 100 && stale > 100, "{lone} {shared} {stale}");
    }
}
