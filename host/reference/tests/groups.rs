//! Several files on the same machines, in bytes.

use reference::{rows, Engine, Part, Rules, Sheet, Table};

const ENGINE: Engine = Engine { rules: Rules::Newest, blunder: None };
const FILE_LEN: usize = 4;

/// Where a row and a part begin in a group of two files.
const PART: usize = 588 + FILE_LEN;
const ROW: usize = 32 + 2 * PART;

fn row_at(row: usize) -> usize {
    16 + (row - 1) * ROW
}

fn part_at(row: usize, file: usize) -> usize {
    row_at(row) + 32 + (file - 1) * PART
}

/// Two files on machines 1 to 4, in five rows.
fn founded() -> Vec<u8> {
    let mut table = vec![0xee; 16 + 5 * ROW];
    assert_eq!(ENGINE.found(&mut table, 5, FILE_LEN as u64, &[1, 0, 2, 0, 3, 0, 4, 0], 0, 2, &[3; 4]), 4);
    table
}

fn set(members: &[usize]) -> u64 {
    members.iter().fold(0, |set, &row| set | rows::only(row))
}

/// Refusal number and value.
fn split(result: u64) -> (u64, u64) {
    (result >> 32, result & 0xffff_ffff)
}

fn write(table: &mut [u8], file: u64, c: u64, answering: &[usize]) -> (u64, u64) {
    split(ENGINE.write(table, c, set(answering), 1, &[7, 8], &mut [0], file, &mut Sheet::OPEN.bytes(), 1))
}

fn read(table: &[u8], file: u64, c: u64, answering: &[usize]) -> (u64, u64) {
    split(ENGINE.read(table, c, set(answering), 1, 1, &mut [0], &mut [0], file))
}

fn check(table: &mut [u8], c: u64, answering: &[usize]) -> (u64, u64) {
    split(ENGINE.check(table, c, set(answering), &mut Sheet::OPEN.bytes()))
}

#[test]
fn a_founding_in_bytes() {
    let mut expected = vec![0; 16 + 5 * ROW];
    expected[..7].copy_from_slice(&[5, 5, 4, 1, 4, 0, 2]);
    for row in 1..=4 {
        let head = &mut expected[row_at(row)..];
        head[0] = row as u8;
        head[2] = if row < 4 { row as u8 + 1 } else { 0 };
        head[16] = 0b1111;
        head[26] = 3;
    }
    assert_eq!(founded(), expected);
    assert_eq!(expected.len(), Table::length(5, FILE_LEN, 2));
}

/// Columns {1, 3} and {2, 4}; the choice of 1 is {2, 3, 4}.
#[test]
fn a_write_alters_the_parts_of_its_file_alone() {
    for file in [1, 2] {
        let mut table = founded();
        let mut expected = table.clone();
        assert_eq!(write(&mut table, file as u64, 1, &[1, 2, 3]), (0, 1));
        for row in [1, 2, 3] {
            let part = &mut expected[part_at(row, file)..];
            part[..12].copy_from_slice(&[0, 1, 0, 0, 1, 0, 0, 0, 0, 0, 0, 0]);
            part[12..16].copy_from_slice(&[0, 7, 8, 0]);
            part[16..22].copy_from_slice(&[0, 2, 1, 0, 7, 8]);
        }
        assert_eq!(table, expected, "file {file}");
        // Row 4 was away, and is marked by the next one that it answers; row 3 is then behind without a mark.
        assert_eq!(write(&mut table, file as u64, 1, &[1, 2, 4]), (0, 2));
        assert_eq!(table[part_at(4, file)..][..12], [1, 0, 0, 0, 0, 0, 0, 0, 2, 0, 0, 0]);
        assert_eq!(read(&table, file as u64, 3, &[3, 4]), (7, 0));
        assert_eq!(read(&table, 3 - file as u64, 3, &[3, 4]), (0, 0), "the other file");
        // The window reaches back to row 4; the send brings one file.
        let (before, judged) = (table.clone(), Table::decode(&table).expect("well formed"));
        assert_eq!(split(ENGINE.send(&mut table, 1, 4, set(&[1, 4]), 3 - file as u64)), (10, 0));
        assert_eq!(split(ENGINE.send(&mut table, 1, 4, set(&[1, 4]), file as u64)), (0, 2));
        let mut expected = before.clone();
        expected.copy_within(part_at(1, file)..part_at(1, file + 1), part_at(4, file));
        assert_eq!(table, expected, "file {file}");
        let sent = Part { stale: false, version: 2, desired: 0, oldest: 1 };
        assert_eq!(judged.part(&table, 4, file), sent);
    }
}

#[test]
fn question_16_comes_after_3_and_before_4() {
    let mut table = founded();
    let before = table.clone();
    for file in [0, 3, 9, 256 + 1, (1 << 32) + 1, (1 << 32) + 2, u64::MAX] {
        assert_eq!(read(&table, file, 1, &[1]), (16, 0));
        assert_eq!(write(&mut table, file, 1, &[1]), (16, 0));
        for (c, answering, refusal) in [(5, 0b1111, 2), (1, 0b10, 3), (1, 0b1, 16)] {
            let mut called = [9];
            let result = ENGINE.write(
                &mut table,
                c,
                answering,
                4,
                &[1],
                &mut called,
                file,
                &mut Sheet::OPEN.bytes(),
                1,
            );
            assert_eq!((split(result), called), ((refusal, 0), [0]), "a range beyond the file");
            called = [9];
            let result = ENGINE.read(&table, c, answering, 4, 1, &mut [], &mut called, file);
            assert_eq!((split(result), called), ((refusal, 0), [0]), "and no buffer");
        }
        for (to, answering, refusal) in [(5, 0b11, 2), (1, 0b11, 2), (2, 0b1, 3), (2, 0b11, 16)] {
            assert_eq!(split(ENGINE.send(&mut table, 1, to, answering, file)), (refusal, 0));
        }
    }
    assert_eq!(table, before);
    table[0] = 3;
    assert_eq!(read(&table, 9, 1, &[1]), (1, 0));
}

#[test]
fn foundings_with_no_such_number_of_files() {
    for (rules, most) in
        [(Rules::Newest, 8), (Rules::OneCounty, 8), (Rules::OneFile, 1), (Rules::Published, 1)]
    {
        let engine = Engine { rules, ..ENGINE };
        for files in [0, 1, 2, 8, 9, 256 + 1, (1 << 32) + 1, u64::MAX] {
            let length = rules.table_length(2, 3, files.min(9) as usize);
            let mut table = vec![0xee; length];
            let mut found = |names: &[u8]| split(engine.found(&mut table, 2, 3, names, 0, files, &[1, 1]));
            assert_eq!(found(&[2, 0, 1, 0]), (11, 0));
            let fits = (1..=most).contains(&files);
            assert_eq!(found(&[1, 0, 2, 0]), if fits { (0, 2) } else { (12, 0) }, "{files} files");
            assert_eq!(
                Table::decode_by(rules, &table).map(|table| table.files),
                fits.then_some(files as usize)
            );
        }
    }
}

/// In the second file the list in force {1, 3, 4} is left with old scores: row 2 alone has the third write.
#[test]
fn one_stale_file_keeps_a_check_from_all() {
    let mut table = founded();
    assert_eq!(write(&mut table, 2, 1, &[1, 2, 3]), (0, 1));
    assert_eq!(write(&mut table, 2, 1, &[1, 2, 4]), (0, 2));
    assert_eq!(check(&mut table, 1, &[1, 3, 4]), (0, 1));
    assert_eq!(write(&mut table, 2, 2, &[2, 3, 4]), (0, 3));
    // Over {1, 3, 4} the choice of 1 is {3, 4}.
    assert_eq!(write(&mut table, 1, 1, &[1, 3, 4]), (0, 1));
    let before = table.clone();
    assert_eq!([1, 2].map(|file| read(&table, file, 1, &[1, 3, 4])), [(0, 1), (7, 0)]);
    assert_eq!(check(&mut table, 1, &[1, 3]), (7, 0));
    assert_eq!(check(&mut table, 1, &[1, 3, 4]), (0, 1), "nothing changes");
    assert_eq!(check(&mut table, 1, &[1, 2]), (6, 0));
    assert_eq!(table, before);
    // Row 3 gets the second file; then each file's rows are marked by that file's good version.
    assert_eq!(split(ENGINE.send(&mut table, 2, 3, set(&[2, 3]), 2)), (0, 3));
    let judged = Table::decode(&table).expect("well formed");
    assert_eq!(check(&mut table, 1, &[1, 2, 3]), (0, 2));
    let stale = |row, file| {
        let part = judged.part(&table, row, file);
        part.stale.then_some((part.version, part.desired))
    };
    assert_eq!([1, 2, 3, 4].map(|row| stale(row, 1)), [Some((0, 1)), Some((0, 1)), None, None]);
    assert_eq!([1, 2, 3, 4].map(|row| stale(row, 2)), [Some((2, 3)), None, None, Some((0, 3))]);
}

#[test]
fn a_joined_row_has_zeros_in_every_part() {
    let mut table = founded();
    assert_eq!(write(&mut table, 2, 1, &[1, 2, 3]), (0, 1));
    let mut expected = table.clone();
    assert_eq!(split(ENGINE.join(&mut table, 9, 3)), (0, 5));
    expected[2] = 5;
    expected[row_at(4) + 2] = 5;
    expected[row_at(5)] = 9;
    expected[row_at(5) + 26] = 3;
    assert_eq!(table, expected);
    // It takes the first write of the first file, and is behind in the second.
    assert_eq!([1, 2].map(|file| write(&mut table, file, 5, &[1, 2, 3, 5])), [(0, 1), (0, 2)]);
    let judged = Table::decode(&table).expect("well formed");
    assert_eq!([1, 2].map(|file| judged.part(&table, 5, file).stale), [false, true]);
}

/// Every byte that must be zero, and every field of either file's part.
#[test]
fn every_rule_of_a_group_counts() {
    let mut table = founded();
    assert_eq!(write(&mut table, 2, 1, &[1, 2, 3]), (0, 1));
    let with = |at: usize, byte: u8| {
        let mut altered = table.clone();
        altered[at] = byte;
        Table::decode(&altered).is_some()
    };
    assert!(with(6, 2) && ![0, 1, 3, 9, 255].into_iter().any(|files| with(6, files)));
    assert!(!(7..16).any(|at| with(at, 1)));
    let mut reserved = (3..12).chain([25]).chain(27..32);
    assert!(!reserved.any(|at| with(row_at(2) + at, 1)));
    for part in [1, 2].map(|file| part_at(3, file)) {
        assert!(![2, 3].into_iter().any(|at| with(part + at, 1)));
        assert!(![1, 2, 255].into_iter().any(|mark| with(part, mark)), "without a desired version");
        assert!(![16, 17, 255].into_iter().any(|oldest| with(part + 1, oldest)));
        assert!(!with(part + 7, 1) && !with(part + 8, 1) && !with(part + 11, 1));
        assert!(with(part + 4, 2) && with(part + 12, 9) && with(part + 15, 9));
        assert!(!with(part + 16 + 36, 1) && !with(part + PART - 1, 1));
    }
    assert!(with(part_at(1, 2) + 20, 9) && !with(part_at(1, 2) + 22, 1), "a patch of two bytes");
    assert!(!with(part_at(1, 2) + 4, 0), "more records than versions");
    assert!(!with(part_at(5, 2), 1) && !with(table.len() - 1, 1), "the unused row");
    // A marked part desires more than it has.
    let mut marked = table.clone();
    marked[part_at(4, 2)] = 1;
    marked[part_at(4, 2) + 8] = 1;
    assert!(Table::decode(&marked).is_some());
    // No other form has these bytes.
    for form in [0, 1, 2, 3, 4, 6] {
        let mut other = table.clone();
        other[0] = form;
        assert!(Rules::ALL.into_iter().all(|rules| Table::decode_by(rules, &other).is_none()));
    }
}

/// A group passes question 1 of a move, and there is no move from it.
#[test]
fn groups_do_not_move() {
    let moved = |table: &[u8], form, length| {
        let mut to = vec![0xee; length];
        let result = split(ENGINE.carry(table, form, &mut to));
        assert!(to.iter().all(|&byte| byte == 0xee));
        result
    };
    let plain = founded();
    let (mut joined, mut damaged) = (plain.clone(), plain.clone());
    assert_eq!(ENGINE.join(&mut joined, 9, 1), 5);
    damaged[row_at(1) + 3] = 1;
    for form in [0, 1, 2, 3, 4, 5, (1 << 32) + 1, (1 << 32) + 4] {
        for length in [0, plain.len(), Rules::OneFile.table_length(5, 4, 1), 16 + 5 * 36] {
            assert_eq!(moved(&plain, form, length), (12, 0));
            assert_eq!(moved(&joined, form, length), if form == 1 { (15, 0) } else { (12, 0) });
            assert_eq!(moved(&damaged, form, length), (1, 0));
        }
    }
}
