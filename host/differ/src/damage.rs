//! Every rule of well-formedness, broken one at a time.

use crate::random::Random;
use crate::tables::{self, Picture, Size};
use reference::window::{LONGEST_PATCH, RECORD, RECORDS, WINDOW};
use reference::{
    rows, Counties, Rules, Shape, Table, COUNTY, FORM, HEADER, LIMIT, MAX_COUNTIES, MAX_FILES, OLDEST,
    PART_HEADER, ROW_HEADER, SEVERAL, TALL,
};
use std::ops::Deref;

/// Breaks one rule of a well-formed table.
pub type Damage = fn(&mut Vec<u8>, &Target, &mut Random);

/// A well-formed table, and the file in whose part a rule is broken if it is a rule of parts.
pub struct Target {
    table: Picture,
    pub file: usize,
}

impl Deref for Target {
    type Target = Picture;

    fn deref(&self) -> &Picture {
        &self.table
    }
}

/// What a table must have for a rule to be broken, besides two used rows.
#[derive(Clone, Copy, PartialEq, Eq)]
pub enum Needs {
    Nothing,
    /// Nothing; it is a rule of what a row says of a file.
    File,
    /// A number that is no used row, but has a bit in a list.
    FewerThan64,
    UnusedRow,
    /// So many used rows.
    Rows(usize),
    /// Windows, and a file that is longer than a record's patch; it is a rule of what a row says of a file.
    Windows,
    /// No windows.
    NoWindows,
    /// A part for each file.
    Parts,
    /// The same; it is a rule of a part.
    Part,
    /// A part for each file, and an unused row.
    UnusedParts,
    /// The scope's rules alone, and so many used rows.
    Scope(usize),
    /// Counties, and so many used rows.
    County(usize),
    /// No counties.
    NoCounties,
}
use Needs::{
    County, FewerThan64, File, NoCounties, NoWindows, Nothing, Part, Parts, Rows, Scope, UnusedParts,
    UnusedRow, Windows,
};

impl Needs {
    /// Can a table of this form be damaged so?
    pub fn allow(self, rules: Rules) -> bool {
        match self {
            Windows => rules.has_windows(),
            NoWindows => !rules.has_windows(),
            Parts | Part | UnusedParts => rules.has_parts(),
            Scope(_) => rules == Rules::Published,
            County(_) => rules.has_counties(),
            NoCounties => !rules.has_counties(),
            Nothing | File | FewerThan64 | UnusedRow | Rows(_) => true,
        }
    }

    /// Is it a rule of what a row says of a file?
    pub fn of_a_file(self) -> bool {
        matches!(self, File | Windows | Part)
    }

    fn unused_row(self) -> bool {
        matches!(self, UnusedRow | UnusedParts)
    }
}

pub const RULES: [(&str, Needs, Damage); 99] = [
    ("empty", Nothing, |bytes, _, _| bytes.clear()),
    ("truncated", Nothing, |bytes, _, random| bytes.truncate(random.between(1, bytes.len() - 2))),
    ("a byte short", Nothing, |bytes, _, _| bytes.truncate(bytes.len() - 1)),
    ("a byte over", Nothing, |bytes, _, _| bytes.push(0)),
    ("a row short", Nothing, |bytes, table, _| bytes.truncate(bytes.len() - stride(table))),
    ("a row over", Nothing, |bytes, table, _| bytes.resize(bytes.len() + stride(table), 0)),
    ("form", Nothing, |bytes, _, random| bytes[0] = random.pick(&[0, FORM + 1, 6, 255])),
    ("form of other rows", Nothing, |bytes, table, random| {
        bytes[0] = random.pick(match table.rules {
            Rules::Published | Rules::Windowless => &[3, 4, 5],
            Rules::OneFile => &[1, 2, 4, 5],
            Rules::OneCounty => &[1, 2, 3, 5],
            Rules::Newest => &[1, 2, 3, 4],
        });
    }),
    ("rows without windows", Windows, |bytes, table, _| {
        let length = table.rules.part_length(table.file_len) - WINDOW;
        reshape(bytes, table, table.files, length, length);
    }),
    ("rows with windows", NoWindows, |bytes, table, _| {
        let length = table.rules.part_length(table.file_len);
        reshape(bytes, table, 1, length + WINDOW, length);
    }),
    ("oldest record of no window", NoWindows, |bytes, table, random| {
        put(bytes, table, any_row(table, random), OLDEST, &[random.pick(&[1, 16, 255])]);
    }),
    ("empty list by the scope alone", Scope(2), |bytes, table, random| {
        unlisted_row(bytes, table, random);
    }),
    ("list in the new grid by the scope alone", Scope(5), |bytes, table, random| {
        put_marked(bytes, table, random, 5, 1);
    }),
    ("tall list by the scope alone", Scope(2), |bytes, table, _| put_marks(bytes, table, Shape::Tall)),
    ("capacity 0", Nothing, |bytes, _, _| {
        bytes[1] = 0;
        bytes.truncate(HEADER);
    }),
    ("capacity 65", Nothing, |bytes, table, _| {
        bytes[1] = 65;
        bytes.resize(table.rules.table_length(65, table.file_len, table.files), 0);
    }),
    ("no row used", Nothing, |bytes, _, _| bytes[2] = 0),
    ("fewer used than there are", Nothing, |bytes, _, _| bytes[2] -= 1),
    ("more used than there are", Nothing, |bytes, _, random| {
        bytes[2] = random.pick(&[bytes[1] + 1, 65, 255])
    }),
    ("first row", Nothing, |bytes, table, random| {
        let (above, second) = (bytes[2] + 1, table.chain[1]);
        bytes[3] = random.pick(&[0, above, above.max(64), 255, second]);
    }),
    ("file length 0", Nothing, |bytes, table, _| restride(bytes, table, 0)),
    ("file length 4097", Nothing, |bytes, table, _| restride(bytes, table, 4097)),
    ("no file", Parts, |bytes, table, _| regroup(bytes, table, 0)),
    ("nine files", Parts, |bytes, table, _| regroup(bytes, table, MAX_FILES + 1)),
    ("another number of files", Parts, |bytes, table, random| {
        bytes[FILES] = random.pick(&[0, 9, 255, table.files as u8 + 1, table.files as u8 - 1]);
    }),
    ("header not zero", Nothing, |bytes, table, random| {
        let first = if table.rules.has_parts() { FILES + 1 } else { FILES };
        let any = random.between(first, HEADER - 1);
        bytes[random.pick(&[first, any])] = random.pick(&[1, 128, 255]);
    }),
    ("name 0", Nothing, |bytes, table, _| put(bytes, table, table.at(0), 0, &[0, 0])),
    ("link out of range", Nothing, |bytes, table, random| {
        let link = random.pick(&[table.used as u8 + 1, 65, 128, 255]);
        put(bytes, table, any_row(table, random), 2, &[link]);
    }),
    ("chain cut short", Nothing, |bytes, table, random| {
        let place = random.between(0, table.used - 2);
        put(bytes, table, table.at(place), 2, &[0]);
    }),
    ("chain in a ring", Nothing, |bytes, table, random| {
        let last = table.at(table.used - 1);
        let back = random.pick(&table.chain);
        put(bytes, table, last, 2, &[back]);
    }),
    ("names equal", Nothing, |bytes, table, random| {
        let place = random.between(1, table.used - 1);
        let name = table.row(table.at(place - 1)).name;
        put(bytes, table, table.at(place), 0, &name.to_le_bytes());
    }),
    ("names fall", Nothing, |bytes, table, random| {
        let place = random.between(1, table.used - 1);
        let (one, two) = (table.at(place - 1), table.at(place));
        put(bytes, table, one, 0, &table.row(two).name.to_le_bytes());
        put(bytes, table, two, 0, &table.row(one).name.to_le_bytes());
    }),
    ("stale mark above 1", File, |bytes, table, random| {
        put_numbers(
            bytes,
            table,
            any_row(table, random),
            random.pick(&[2, 129, 255]),
            3,
            random.pick(&[0, 4]),
        );
    }),
    ("epoch above the limit", Nothing, |bytes, table, random| {
        let above = random.pick(&[LIMIT + 1, 1 << 24, u32::MAX]);
        put(bytes, table, any_row(table, random), 12, &above.to_le_bytes());
    }),
    ("version or desired version above the limit", File, |bytes, table, random| {
        let row = any_row(table, random);
        let above = random.pick(&[LIMIT + 1, 1 << 24, u32::MAX]);
        match random.between(0, 1) {
            0 => put_numbers(bytes, table, row, 0, above, 0),
            _ => put_numbers(bytes, table, row, 1, LIMIT - 1, above),
        }
    }),
    ("desired without the mark", File, |bytes, table, random| {
        put_numbers(bytes, table, any_row(table, random), 0, 3, random.pick(&[1, 3, 4, LIMIT]));
    }),
    ("desired not above the version", File, |bytes, table, random| {
        let version = random.pick(&[0, 1, 256, LIMIT]);
        let desired = random.pick(&[0, version / 2, version]);
        put_numbers(bytes, table, any_row(table, random), 1, version, desired);
    }),
    ("list without its row", Nothing, |bytes, table, random| {
        let row = any_row(table, random);
        put_list(bytes, table, row, table.all_used() & !rows::only(row));
    }),
    ("list with an unused row", FewerThan64, |bytes, table, random| {
        let unused = random.between(table.used + 1, 64);
        put_list(bytes, table, any_row(table, random), table.all_used() | rows::only(unused));
    }),
    ("one epoch, two lists", Nothing, |bytes, table, random| {
        let one = any_row(table, random);
        let other = random.row(table.all_used() & !rows::only(one));
        put_list(bytes, table, one, table.all_used());
        put_list(bytes, table, other, table.all_used() & !rows::only(one));
    }),
    ("one epoch, two lists and an empty one", Rows(3), |bytes, table, random| {
        let mut rows: Vec<usize> = (1..=table.used).collect();
        random.shuffle(&mut rows);
        put_list(bytes, table, rows[0], table.all_used());
        put_list(bytes, table, rows[1], 0);
        put_list(bytes, table, rows[2], table.all_used() & !rows::only(rows[1]));
    }),
    ("grid mark of a list of four", Rows(4), |bytes, table, random| {
        put_marked(bytes, table, random, 4, 1);
    }),
    ("grid mark of a list of six", Rows(6), |bytes, table, random| {
        put_marked(bytes, table, random, 6, 1);
    }),
    ("grid mark of an empty list", Nothing, |bytes, table, random| {
        let row = unlisted_row(bytes, table, random);
        put(bytes, table, row, 24, &[random.pick(&[1, 2])]);
    }),
    ("grid mark of no grid", Nothing, |bytes, table, random| {
        put(bytes, table, any_row(table, random), 24, &[random.pick(&[4, 5, 128, 130, 131, 255])]);
    }),
    ("grid mark of no grid, list of five", Rows(5), |bytes, table, random| {
        let mark = random.pick(&[SEVERAL, 4, 129, 255]);
        put_marked(bytes, table, random, 5, mark);
    }),
    ("grid marks of one epoch", Rows(5), |bytes, table, random| {
        let rows = put_marked(bytes, table, random, 5, 1);
        for &row in &rows[..random.between(1, 4)] {
            put(bytes, table, row, 24, &[0]);
        }
    }),
    ("grid marks of one epoch and an empty list", Rows(5), |bytes, table, random| {
        let rows = put_marked(bytes, table, random, 5, 1);
        put_list(bytes, table, rows[1], 0);
        put(bytes, table, rows[2], 24, &[0]);
    }),
    ("grid mark of an empty list in a tall table", Nothing, |bytes, table, random| {
        put_marks(bytes, table, Shape::Tall);
        let row = unlisted_row(bytes, table, random);
        put(bytes, table, row, 24, &[TALL]);
    }),
    ("grid mark 0 in a tall table", Nothing, |bytes, table, random| {
        put_one_county(bytes, table, random);
        put_two_marks(bytes, table, random, Shape::Tall, 0);
    }),
    ("grid mark 1 in a tall table", Rows(6), |bytes, table, random| {
        let five = put_marked(bytes, table, random, 5, 1);
        let others = five.iter().fold(table.all_used(), |others, &row| others & !rows::only(row));
        put_marks(bytes, table, Shape::Tall);
        five.iter().for_each(|&row| put(bytes, table, row, 24, &[1]));
        put_other_list(bytes, table, random.row(others), TALL);
    }),
    ("grid mark 2 in a wide table", Nothing, |bytes, table, random| {
        put_one_county(bytes, table, random);
        put_two_marks(bytes, table, random, Shape::Wide, TALL);
    }),
    ("grid mark 2 of several counties in a wide table", County(2), |bytes, table, random| {
        put_counties(bytes, table, random, table.all_used());
        put_two_marks(bytes, table, random, Shape::Wide, TALL);
    }),
    ("grid mark 3 of several counties in a tall table", County(2), |bytes, table, random| {
        put_counties(bytes, table, random, table.all_used());
        put_two_marks(bytes, table, random, Shape::Tall, SEVERAL);
    }),
    ("grid mark 3 where there are no counties", NoCounties, |bytes, table, random| {
        put_marked(bytes, table, random, 2, SEVERAL);
    }),
    ("grid mark 3 of one county", County(2), |bytes, table, random| {
        let length = random.between(1, table.used.min(6)) as u32;
        put_marked(bytes, table, random, length, SEVERAL);
    }),
    ("grid mark 3 of one county in a table of several", County(3), |bytes, table, random| {
        let length = random.between(1, (table.used - 1).min(6)) as u32;
        let members = put_marked(bytes, table, random, length, SEVERAL);
        let others = members.iter().fold(table.all_used(), |others, &row| others & !rows::only(row));
        let county = bytes[table.row_at(members[0]) + COUNTY];
        let other = random.row(others);
        put(bytes, table, other, COUNTY, &[county % MAX_COUNTIES as u8 + 1]);
        put_marks(bytes, table, Shape::Wide);
        members.iter().for_each(|&row| put(bytes, table, row, 24, &[SEVERAL]));
    }),
    ("grid mark 0 of several counties", County(2), |bytes, table, random| {
        let length = random.between(2, table.used.min(7)) as u32;
        put_split(bytes, table, random, length, 0);
    }),
    ("grid mark 0 of several counties, list of five", County(5), |bytes, table, random| {
        put_split(bytes, table, random, 5, 0);
    }),
    ("grid mark 1 of several counties", County(5), |bytes, table, random| {
        put_split(bytes, table, random, 5, 1);
    }),
    ("grid marks of one epoch, several counties", County(3), |bytes, table, random| {
        let members = put_split(bytes, table, random, 3, SEVERAL);
        put(bytes, table, members[0], 24, &[random.pick(&[0, 1, TALL])]);
    }),
    ("county 0", County(2), |bytes, table, random| {
        put(bytes, table, any_row(table, random), COUNTY, &[0]);
    }),
    ("county above 8", County(2), |bytes, table, random| {
        put(bytes, table, any_row(table, random), COUNTY, &[random.pick(&[9, 9, 16, 128, 255])]);
    }),
    ("county that the mark of a list does not know of", County(2), |bytes, table, random| {
        let length = random.between(2, table.used.min(6)) as u32;
        let members = put_marked(bytes, table, random, length, 0);
        let county = bytes[table.row_at(members[0]) + COUNTY];
        put(bytes, table, members[0], COUNTY, &[county % MAX_COUNTIES as u8 + 1]);
    }),
    ("county of a joined row", County(2), |bytes, table, random| {
        let row = unlisted_row(bytes, table, random);
        put(bytes, table, row, COUNTY, &[random.pick(&[0, 9, 255])]);
    }),
    ("row not zero where form 5 has the county", NoCounties, |bytes, table, random| {
        put(bytes, table, any_row(table, random), COUNTY, &[random.pick(&[1, 2, 8, 9, 255])]);
    }),
    ("grid marks of one epoch in a tall table", Rows(3), |bytes, table, random| {
        let rows = put_marked(bytes, table, random, 3, TALL);
        put_marks(bytes, table, Shape::Tall);
        put(bytes, table, rows[0], 24, &[0]);
    }),
    ("grid marks 1 and 2 of one epoch", Rows(5), |bytes, table, random| {
        let rows = put_marked(bytes, table, random, 5, 1);
        for &row in &rows[..random.between(1, 4)] {
            put(bytes, table, row, 24, &[TALL]);
        }
    }),
    ("joined row, name 0", Nothing, |bytes, table, random| {
        let row = unlisted_row(bytes, table, random);
        put(bytes, table, row, 0, &[0, 0]);
    }),
    ("joined row, stale mark above 1", File, |bytes, table, random| {
        let row = unlisted_row(bytes, table, random);
        put_numbers(bytes, table, row, 2, 0, random.pick(&[0, 1]));
    }),
    ("joined row, version above the limit", File, |bytes, table, random| {
        let row = unlisted_row(bytes, table, random);
        put_numbers(bytes, table, row, 0, LIMIT + 1, 0);
    }),
    ("joined row, epoch above the limit", Nothing, |bytes, table, random| {
        let row = unlisted_row(bytes, table, random);
        put(bytes, table, row, 12, &(LIMIT + 1).to_le_bytes());
    }),
    ("joined row, desired without the mark", File, |bytes, table, random| {
        let row = unlisted_row(bytes, table, random);
        put_numbers(bytes, table, row, 0, 0, random.pick(&[1, LIMIT]));
    }),
    ("joined row, desired not above the version", File, |bytes, table, random| {
        let version = random.pick(&[0, 5]);
        let row = unlisted_row(bytes, table, random);
        put_numbers(bytes, table, row, 1, version, version);
    }),
    ("joined row not zero", Nothing, |bytes, table, random| {
        let row = unlisted_row(bytes, table, random);
        put(bytes, table, row, spare_byte(table, random), &[1]);
    }),
    ("joined row, list of another row", Nothing, |bytes, table, random| {
        let row = any_row(table, random);
        let other = random.row(table.all_used() & !rows::only(row));
        put_list(bytes, table, row, rows::only(other));
    }),
    ("joined row, list of an unused row", FewerThan64, |bytes, table, random| {
        let unused = random.between(table.used + 1, 64);
        put_list(bytes, table, any_row(table, random), rows::only(unused));
    }),
    ("row not zero", Nothing, |bytes, table, random| {
        let value = random.pick(&[1, 128, 255]);
        put(bytes, table, any_row(table, random), spare_byte(table, random), &[value]);
    }),
    ("row not zero where older forms have a file's numbers", Parts, |bytes, table, random| {
        let value = random.pick(&[1, 128, 255]);
        put(bytes, table, any_row(table, random), random.between(3, 11), &[value]);
    }),
    ("row not zero where form 3 has the oldest record", Parts, |bytes, table, random| {
        put(bytes, table, any_row(table, random), OLDEST, &[random.pick(&[1, 16, 255])]);
    }),
    ("part not zero", Part, |bytes, table, random| {
        let at = table.part_at(any_row(table, random), table.file) + random.pick(&[2, 3]);
        bytes[at] = random.pick(&[1, 128, 255]);
    }),
    ("byte behind the oldest record", Windows, |bytes, table, random| {
        let (row, _) = windowed_row(bytes, table, random, 0, RECORDS);
        let at = oldest_at(table, row) + 1;
        bytes[at] = random.pick(&[1, 16, 255]);
    }),
    ("window: oldest 0, and there are records", Windows, |bytes, table, random| {
        let (row, _) = windowed_row(bytes, table, random, 1, RECORDS);
        put_oldest(bytes, table, row, 0);
    }),
    ("window: oldest is an empty record", Windows, |bytes, table, random| {
        let (row, order) = windowed_row(bytes, table, random, 0, RECORDS - 1);
        put_oldest(bytes, table, row, random.between(order.len() + 1, RECORDS) as u8);
    }),
    ("window: oldest 17", Windows, |bytes, table, random| {
        let (row, _) = windowed_row(bytes, table, random, 0, RECORDS);
        put_oldest(bytes, table, row, random.pick(&[17, 17, 128, 255]));
    }),
    ("window: in a ring", Windows, |bytes, table, random| {
        let (row, order) = windowed_row(bytes, table, random, 1, RECORDS);
        put_record(bytes, table, row, order[order.len() - 1], NEXT, &[random.pick(&order)]);
    }),
    ("window: chain cut short", Windows, |bytes, table, random| {
        let (row, order) = windowed_row(bytes, table, random, 2, RECORDS);
        put_record(bytes, table, row, order[random.between(0, order.len() - 2)], NEXT, &[0]);
    }),
    ("window: a record left out", Windows, |bytes, table, random| {
        let (row, order) = windowed_row(bytes, table, random, 3, RECORDS);
        let place = random.between(0, order.len() - 3);
        put_record(bytes, table, row, order[place], NEXT, &[order[place + 2]]);
    }),
    ("window: a gap between records", Windows, |bytes, table, random| {
        // The last record moves up by one place, and leaves its own empty.
        let (row, order) = windowed_row(bytes, table, random, 1, RECORDS - 1);
        let last = order.len() as u8;
        let moved = record_at(table, row, last)..record_at(table, row, last + 1);
        bytes.copy_within(moved.clone(), moved.end);
        bytes[moved].fill(0);
        match order.iter().position(|&record| record == last) {
            Some(0) => put_oldest(bytes, table, row, last + 1),
            Some(place) => put_record(bytes, table, row, order[place - 1], NEXT, &[last + 1]),
            None => unreachable!("the last record is in the chain"),
        }
    }),
    ("window: next record 17", Windows, |bytes, table, random| {
        let (row, order) = windowed_row(bytes, table, random, 1, RECORDS);
        put_record(bytes, table, row, order[order.len() - 1], NEXT, &[random.pick(&[17, 255])]);
    }),
    ("window: more records than versions", Windows, |bytes, table, random| {
        let (row, order) = windowed_row(bytes, table, random, 1, RECORDS);
        put_version(bytes, table, row, order.len() as u32 - 1);
    }),
    ("window: first or last byte of the rest", Windows, |bytes, table, random| {
        let (row, order) = windowed_row(bytes, table, random, 0, RECORDS - 1);
        let first = record_at(table, row, order.len() as u8 + 1);
        bytes[random.pick(&[first, record_at(table, row, RECORDS as u8 + 1) - 1])] =
            random.pick(&[1, 16, 255]);
    }),
    ("window: patch of no byte", Windows, |bytes, table, random| {
        let (row, order) = windowed_row(bytes, table, random, 1, RECORDS);
        let record = random.pick(&order);
        put_record(bytes, table, row, record, LENGTH, &[0; 35]);
    }),
    ("window: patch of 33 bytes", Windows, |bytes, table, random| {
        let (row, order) = windowed_row(bytes, table, random, 1, RECORDS);
        put_record(bytes, table, row, random.pick(&order), LENGTH, &[random.pick(&[33, 33, 128, 255]), 0, 0]);
    }),
    ("window: patch that ends beyond the file", Windows, |bytes, table, random| {
        let (row, order) = windowed_row(bytes, table, random, 1, RECORDS);
        let record = random.pick(&order);
        let length = usize::from(bytes[record_at(table, row, record) + LENGTH]);
        let beyond = table.file_len - length + 1;
        let offset = random.pick(&[beyond, beyond, 65_535]) as u16;
        put_record(bytes, table, row, record, LENGTH + 1, &offset.to_le_bytes());
    }),
    ("window: first or last byte behind a short patch", Windows, |bytes, table, random| {
        let (row, order) = windowed_row(bytes, table, random, 1, RECORDS);
        let (record, length) = (random.pick(&order), random.pick(&[1, 15, 16, 17, 31]));
        put_record(bytes, table, row, record, LENGTH, &[length]);
        put_record(bytes, table, row, record, PATCH, &[0; LONGEST_PATCH]);
        let behind = random.pick(&[usize::from(length), LONGEST_PATCH - 1]);
        put_record(bytes, table, row, record, PATCH + behind, &[random.pick(&[1, 128])]);
    }),
    ("unused row not zero", UnusedRow, |bytes, table, random| {
        let at = random.between(table.row_at(table.used + 1), bytes.len() - 1);
        bytes[at] = random.pick(&[1, 128, 255]);
    }),
    ("ends of unused rows not zero", UnusedRow, |bytes, table, random| {
        let row = random.between(table.used + 1, table.capacity);
        let at = random.pick(&[table.row_at(row), table.row_at(row + 1) - 1, bytes.len() - 1]);
        bytes[at] = 1;
    }),
    ("last part of an unused row not zero", UnusedParts, |bytes, table, random| {
        let row = random.between(table.used + 1, table.capacity);
        let part = table.part_at(row, table.files);
        let at = random.pick(&[part, part + 1, part + 4, part + PART_HEADER, table.row_at(row + 1) - 1]);
        bytes[at] = 1;
    }),
];

/// Two epoch numbers that no generated table uses.
const FREE_EPOCH: u32 = 500_000;
const OTHER_EPOCH: u32 = 400_000;

/// Where the header keeps the number of files, and a record its parts.
const FILES: usize = 6;
const NEXT: usize = 0;
const LENGTH: usize = 1;
const PATCH: usize = 4;

/// A table with one rule broken.
pub struct Damaged {
    /// As it was before.
    pub table: Target,
    pub bytes: Vec<u8>,
    /// The rule by its place in `RULES`.
    pub rule: usize,
}

impl Damaged {
    /// Is it a rule of what a row says of a file, broken in the last of several files?
    pub fn in_last_file(&self) -> bool {
        RULES[self.rule].1.of_a_file() && self.table.file == self.table.files && self.table.files > 1
    }
}

/// A well-formed table of this form with one rule broken.
pub fn damaged(random: &mut Random, rules: Rules) -> Damaged {
    let possible: Vec<usize> = (0..RULES.len()).filter(|&rule| RULES[rule].1.allow(rules)).collect();
    let rule = random.pick(&possible);
    damaged_by(random, rules, rule)
}

fn damaged_by(random: &mut Random, rules: Rules, rule: usize) -> Damaged {
    let (_, needs, damage) = RULES[rule];
    let size = size(random, needs);
    let mut bytes = tables::well_formed_by(random, size, rules);
    let table = Picture::of_any_form(&bytes).expect("made well formed");
    let any = random.between(1, table.files);
    let table = Target { file: random.pick(&[any, table.files]), table };
    damage(&mut bytes, &table, random);
    Damaged { table, bytes, rule }
}

/// In half of the cases every row is used.
fn size(random: &mut Random, needs: Needs) -> Size {
    let least = if let Rows(least) | Scope(least) | County(least) = needs { least } else { 2 };
    let most = if needs == FewerThan64 || needs.unused_row() { 63 } else { 64 };
    let used = random.pick(&[2, 3, 4, 5, 6, 7, 15, 40, 63, 64]).clamp(least, most);
    let capacity = match random.between(0, 3) {
        0..=1 if !needs.unused_row() => used,
        2 => (used + 1).min(64),
        _ => random.between((used + 1).min(64), 64),
    };
    let file_len = if needs == Windows { random.pick(&[33, 40]) } else { random.pick(&[1, 4, 17]) };
    Size { used, capacity, file_len, files: random.pick(&[1, 2, 3, 8]) }
}

/// Gives some row a window on the file of so many patches, at least and at most, and versions enough; gives the row, and the records
/// from the oldest to the youngest.
fn windowed_row(
    bytes: &mut [u8],
    table: &Target,
    random: &mut Random,
    least: usize,
    most: usize,
) -> (usize, Vec<u8>) {
    let row = any_row(table, random);
    let count = random.between(least, most);
    put_numbers(bytes, table, row, 0, (count + random.between(0, 3)) as u32, 0);
    (row, tables::put_window(random, table, bytes, row, table.file, count))
}

/// Where the record of a row's window on the file begins.
fn record_at(table: &Target, row: usize, record: u8) -> usize {
    table.window_at(row, table.file) + RECORD * (usize::from(record) - 1)
}

/// Writes into a record, from its byte `at` on.
fn put_record(bytes: &mut [u8], table: &Target, row: usize, record: u8, at: usize, new: &[u8]) {
    let start = record_at(table, row, record) + at;
    bytes[start..start + new.len()].copy_from_slice(new);
}

fn stride(table: &Picture) -> usize {
    table.row_at(2) - table.row_at(1)
}

/// Gives some row an empty list, as after a joining.
fn unlisted_row(bytes: &mut [u8], table: &Picture, random: &mut Random) -> usize {
    let row = any_row(table, random);
    put(bytes, table, row, 16, &[0; 9]);
    row
}

fn any_row(table: &Picture, random: &mut Random) -> usize {
    random.between(1, table.used)
}

/// Writes into a row, from its byte `at` on.
fn put(bytes: &mut [u8], table: &Picture, row: usize, at: usize, new: &[u8]) {
    let start = table.row_at(row) + at;
    bytes[start..start + new.len()].copy_from_slice(new);
}

/// Where a row keeps its numbers of the file, and among them the stale mark: in the part, or in the head.
fn numbers_at(table: &Target, row: usize) -> (usize, usize) {
    if table.rules.has_parts() {
        (table.part_at(row, table.file), 0)
    } else {
        (table.row_at(row), 3)
    }
}

/// Gives a row these numbers of the file, and an empty window on it.
fn put_numbers(bytes: &mut [u8], table: &Target, row: usize, mark: u8, version: u32, desired: u32) {
    let (at, mark_at) = numbers_at(table, row);
    bytes[at + mark_at] = mark;
    bytes[at + 8..at + 12].copy_from_slice(&desired.to_le_bytes());
    put_version(bytes, table, row, version);
    if table.rules.has_windows() {
        put_oldest(bytes, table, row, 0);
        table.window_mut(bytes, row, table.file).fill(0);
    }
}

fn put_version(bytes: &mut [u8], table: &Target, row: usize, version: u32) {
    let (at, _) = numbers_at(table, row);
    bytes[at + 4..at + 8].copy_from_slice(&version.to_le_bytes());
}

/// Where a row keeps the oldest record of its window on the file.
fn oldest_at(table: &Target, row: usize) -> usize {
    if table.rules.has_parts() {
        table.part_at(row, table.file) + 1
    } else {
        table.row_at(row) + OLDEST
    }
}

fn put_oldest(bytes: &mut [u8], table: &Target, row: usize, oldest: u8) {
    bytes[oldest_at(table, row)] = oldest;
}

/// A byte of a head that is zero in its form; byte 25 is not in form 3, nor byte 26 in form 5.
fn spare_byte(table: &Picture, random: &mut Random) -> usize {
    let any = random.between(OLDEST, ROW_HEADER - 1);
    let byte = random.pick(&[OLDEST, COUNTY, COUNTY + 1, any]);
    match table.rules {
        Rules::OneFile => byte.max(COUNTY),
        Rules::Newest if byte == COUNTY => COUNTY + 1,
        _ => byte,
    }
}

/// Gives a row the free epoch, and this list, which no founding lays in the new grid of five.
fn put_list(bytes: &mut [u8], table: &Picture, row: usize, list: u64) {
    let mark = plain_mark(bytes, table, table.shape().unwrap_or(Shape::Wide), list);
    put(bytes, table, row, 12, &FREE_EPOCH.to_le_bytes());
    put(bytes, table, row, 16, &list.to_le_bytes());
    put(bytes, table, row, 24, &[mark]);
}

/// A grid mark that this list may have in a table of this shape: not 1.
fn plain_mark(bytes: &[u8], table: &Picture, shape: Shape, list: u64) -> u8 {
    let county = |row| Table::row(table, bytes, row).county.clamp(1, MAX_COUNTIES as u8);
    match shape {
        _ if list == 0 => 0,
        Shape::Tall => TALL,
        Shape::Wide if Counties::of((1..=table.used).map(county)).several(list) => SEVERAL,
        Shape::Wide => 0,
    }
}

/// Puts all rows into one county, if there are counties. The marks of lists stay.
fn put_one_county(bytes: &mut [u8], table: &Picture, random: &mut Random) {
    if table.rules.has_counties() {
        let county = random.between(1, MAX_COUNTIES) as u8;
        (1..=table.used).for_each(|row| put(bytes, table, row, COUNTY, &[county]));
    }
}

/// Puts all rows into a few counties, so that the list of two members or more has several. The marks of lists stay.
fn put_counties(bytes: &mut [u8], table: &Picture, random: &mut Random, list: u64) {
    let one = random.between(1, MAX_COUNTIES) as u8;
    let other = one % MAX_COUNTIES as u8 + 1;
    for row in 1..=table.used {
        put(bytes, table, row, COUNTY, &[random.pick(&[one, other, 4])]);
    }
    for (row, county) in rows::members(list).zip([one, other]) {
        put(bytes, table, row, COUNTY, &[county]);
    }
}

/// Gives a row the other free epoch, and the list of all rows with this mark.
fn put_other_list(bytes: &mut [u8], table: &Picture, row: usize, mark: u8) {
    put_list(bytes, table, row, table.all_used());
    put(bytes, table, row, 12, &OTHER_EPOCH.to_le_bytes());
    put(bytes, table, row, 24, &[mark]);
}

/// Gives every list a mark for this shape: the table is well formed with either.
fn put_marks(bytes: &mut [u8], table: &Picture, shape: Shape) {
    for row in 1..=table.used {
        let mark = plain_mark(bytes, table, shape, Table::row(table, bytes, row).list.members);
        put(bytes, table, row, 24, &[mark]);
    }
}

/// Gives the table this shape, and then a list of an epoch of its own, of all rows, this mark.
fn put_two_marks(bytes: &mut [u8], table: &Picture, random: &mut Random, shape: Shape, other: u8) {
    let one = any_row(table, random);
    put_list(bytes, table, random.row(table.all_used() & !rows::only(one)), table.all_used());
    put_marks(bytes, table, shape);
    put_other_list(bytes, table, one, other);
}

/// Gives some rows of a table that is made wide and one of one county, in no order, the list of them all with this mark.
fn put_marked(bytes: &mut [u8], table: &Picture, random: &mut Random, length: u32, mark: u8) -> Vec<usize> {
    put_one_county(bytes, table, random);
    let list = tables::filled(random, table.all_used(), 0, length);
    put_laid(bytes, table, random, list, mark)
}

/// The same of several counties.
fn put_split(bytes: &mut [u8], table: &Picture, random: &mut Random, length: u32, mark: u8) -> Vec<usize> {
    let list = tables::filled(random, table.all_used(), 0, length);
    put_counties(bytes, table, random, list);
    put_laid(bytes, table, random, list, mark)
}

/// Makes the table wide, and gives the members, in no order, this list with this mark.
fn put_laid(bytes: &mut [u8], table: &Picture, random: &mut Random, list: u64, mark: u8) -> Vec<usize> {
    put_marks(bytes, table, Shape::Wide);
    let mut members: Vec<usize> = rows::members(list).collect();
    random.shuffle(&mut members);
    for &row in &members {
        put_list(bytes, table, row, list);
        put(bytes, table, row, 24, &[mark]);
    }
    members
}

/// Gives every row so many parts of so many bytes: as many of the first bytes of each old part, and zeros.
fn reshape(bytes: &mut Vec<u8>, table: &Picture, files: usize, length: usize, kept: usize) {
    let mut other = bytes[..HEADER].to_vec();
    for row in bytes[HEADER..].chunks(stride(table)) {
        let (head, parts) = row.split_at(ROW_HEADER);
        other.extend_from_slice(head);
        let mut parts = parts.chunks(table.rules.part_length(table.file_len));
        for _ in 0..files {
            let start = other.len();
            other.extend_from_slice(parts.next().map_or(&[], |part| &part[..kept]));
            other.resize(start + length, 0);
        }
    }
    *bytes = other;
}

/// Gives the table another number of files, and the length that goes with it.
fn regroup(bytes: &mut Vec<u8>, table: &Picture, files: usize) {
    let length = table.rules.part_length(table.file_len);
    reshape(bytes, table, files, length, length);
    bytes[FILES] = files as u8;
}

/// Gives every row another file length and empty windows, and the table the length that goes with it.
fn restride(bytes: &mut Vec<u8>, table: &Picture, file_len: usize) {
    for row in 1..=table.used {
        for file in 1..=table.files {
            let part = reference::Part { oldest: 0, ..Table::part(table, bytes, row, file) };
            table.write_part(bytes, row, file, &part);
        }
    }
    let kept = if table.rules.has_parts() { PART_HEADER } else { 0 };
    reshape(bytes, table, table.files, table.rules.part_length(file_len), kept);
    bytes[4..6].copy_from_slice(&(file_len as u16).to_le_bytes());
}

#[cfg(test)]
mod tests {
    use super::*;

    #[test]
    fn every_damage_makes_a_table_malformed() {
        for rules in Rules::ALL {
            for (rule, (name, ..)) in RULES.iter().enumerate().filter(|(_, (_, needs, _))| needs.allow(rules))
            {
                for case in 0..200 {
                    let Damaged { bytes, .. } = damaged_by(&mut Random::new(2, case), rules, rule);
                    assert!(Picture::of_any_form(&bytes).is_none(), "{rules:?}: {name}");
                }
            }
        }
    }

    /// Damages a table by each rule whose name passes, mends what the rules are about, and finds it well formed.
    fn only_rule_broken(named: fn(&str) -> bool, mend: fn(&mut [u8], &Target)) -> usize {
        let rules = RULES
            .iter()
            .enumerate()
            .filter(|(_, (name, needs, _))| named(name) && needs.allow(Rules::Newest));
        rules
            .map(|(rule, (name, ..))| {
                for case in 0..200 {
                    let Damaged { table, mut bytes, .. } =
                        damaged_by(&mut Random::new(2, case), Rules::Newest, rule);
                    mend(&mut bytes, &table);
                    assert!(Table::decode(&bytes).is_some(), "{name}");
                }
            })
            .count()
    }

    /// Where a mark or the form is wrong, nothing else is.
    #[test]
    fn a_wrong_mark_or_form_is_the_only_rule_broken() {
        let named = |name: &str| name.starts_with("grid mark") || name.starts_with("form");
        let mended = only_rule_broken(named, |bytes, table| {
            bytes[0] = FORM;
            put_marks(bytes, table, Shape::Wide);
        });
        assert_eq!(mended, 23);
    }

    /// Where a county is wrong, nothing else is.
    #[test]
    fn a_wrong_county_is_the_only_rule_broken() {
        let named = |name: &str| name.starts_with("county");
        let mended = only_rule_broken(named, |bytes, table| {
            (1..=table.used).for_each(|row| put(bytes, table, row, COUNTY, &[8]));
            put_marks(bytes, table, Shape::Wide);
        });
        assert_eq!(mended, 4);
    }

    /// Where a window is wrong, nothing else is: with other windows the table is well formed.
    #[test]
    fn a_wrong_window_is_the_only_rule_broken() {
        let mended = only_rule_broken(
            |name| name.starts_with("window"),
            |bytes, table| {
                for row in 1..=table.used {
                    put_oldest(bytes, table, row, 0);
                    table.window_mut(bytes, row, table.file).fill(0);
                }
            },
        );
        assert_eq!(mended, 14);
    }

    /// Where a byte that must be zero is not, or a number of the file is wrong, nothing else is.
    #[test]
    fn a_wrong_byte_or_number_is_the_only_rule_broken() {
        let named = |name: &str| {
            let numbers = ["stale mark", "version or desired", "desired"];
            name.contains("not zero") || numbers.into_iter().any(|number| name.starts_with(number))
        };
        let mended = only_rule_broken(named, |bytes, table| {
            bytes[7..HEADER].fill(0);
            for row in 1..=table.used {
                put(bytes, table, row, 3, &[0; 9]);
                put(bytes, table, row, OLDEST, &[0]);
                put(bytes, table, row, COUNTY + 1, &[0; 5]);
                let part = table.part_at(row, table.file);
                bytes[part..part + PART_HEADER].fill(0);
                table.window_mut(bytes, row, table.file).fill(0);
            }
            bytes[table.row_at(table.used + 1)..].fill(0);
        });
        assert_eq!(mended, 13);
    }

    #[test]
    fn tables_without_unused_rows_are_damaged_too() {
        for (rule, (name, needs, _)) in RULES.iter().enumerate() {
            let allowed = Rules::ALL.into_iter().rev().find(|&rules| needs.allow(rules));
            let rules = allowed.expect("a form that has the rule");
            let full = (0..200).filter(|&case| {
                let Damaged { table, .. } = damaged_by(&mut Random::new(2, case), rules, rule);
                table.used == table.capacity
            });
            assert_eq!(full.count() > 50, !needs.unused_row(), "{name}");
        }
    }

    /// Each rule of what a row says of a file, in the last of several files and in another.
    #[test]
    fn every_file_is_damaged() {
        for (rule, (name, needs, _)) in RULES.iter().enumerate() {
            let (mut last, mut other) = (0, 0);
            for case in 0..200 {
                let damaged = damaged_by(&mut Random::new(2, case), Rules::Newest, rule);
                last += usize::from(damaged.in_last_file());
                other += usize::from(needs.of_a_file() && damaged.table.file < damaged.table.files);
            }
            assert_eq!((last > 50, other > 30), (needs.of_a_file(), needs.of_a_file()), "{name}");
        }
    }
}
