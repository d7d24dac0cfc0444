//! Counties in bytes and in calls, worked out by hand from the papers.

use reference::{rows, Counties, Engine, Rules, Shape, Sheet, Table, COUNTY, SEVERAL, TALL};

const ENGINE: Engine = Engine { rules: Rules::Newest, blunder: None };
const WIDE: u64 = 0;
const FILE_LEN: u64 = 2;
const GRID_MARK: usize = 24;

fn set(members: &[usize]) -> u64 {
    members.iter().fold(0, |set, &row| set | rows::only(row))
}

/// Refusal number and value.
fn split(result: u64) -> (u64, u64) {
    (result >> 32, result & 0xffff_ffff)
}

fn names(count: usize) -> Vec<u8> {
    (1..=count as u16).flat_map(|rank| (10 * rank).to_le_bytes()).collect()
}

/// Names 10, 20, .. in these counties, and as many unused rows.
fn founded(counties: &[u8], choice: u64, unused: usize) -> Vec<u8> {
    let used = counties.len();
    let mut table = vec![0xee; Table::length(used + unused, FILE_LEN as usize, 1)];
    let capacity = (used + unused) as u64;
    let result = ENGINE.found(&mut table, capacity, FILE_LEN, &names(used), choice, 1, counties);
    assert_eq!(split(result), (0, used as u64));
    table
}

fn read(table: &[u8], c: u64, answering: &[usize]) -> (u64, u64) {
    split(ENGINE.read(table, c, set(answering), 0, 1, &mut [0], &mut [0], 1))
}

fn write(table: &mut [u8], c: u64, answering: &[usize]) -> (u64, u64) {
    split(ENGINE.write(table, c, set(answering), 0, &[7], &mut [0], 1, &mut Sheet::OPEN.bytes(), 1))
}

fn check(table: &mut [u8], c: u64, answering: &[usize]) -> (u64, u64) {
    split(ENGINE.check(table, c, set(answering), &mut Sheet::OPEN.bytes()))
}

/// One byte of each used row's head.
fn heads(table: &[u8], at: usize) -> Vec<u8> {
    let judged = Table::decode(table).expect("well formed");
    (1..=judged.used).map(|row| table[judged.row_at(row) + at]).collect()
}

#[test]
fn counties_in_bytes() {
    let mut table = founded(&[8, 1, 1, 2], WIDE, 1);
    assert_eq!(table[0], 5);
    assert_eq!((heads(&table, COUNTY), heads(&table, GRID_MARK)), (vec![8, 1, 1, 2], vec![SEVERAL; 4]));
    let mut expected = table.clone();
    assert_eq!(split(ENGINE.join(&mut table, 25, 7)), (0, 5));
    let row_at = |row: usize| Table::length(row - 1, FILE_LEN as usize, 1);
    expected[2] = 5;
    expected[row_at(2) + 2] = 5;
    expected[row_at(5)] = 25;
    expected[row_at(5) + 2] = 3;
    expected[row_at(5) + 26] = 7;
    assert_eq!(table, expected);
}

/// The mark goes by the counties of the list, and not of the table.
#[test]
fn marks_as_they_are_laid() {
    for (counties, wide) in [
        (&[4][..], 0),
        (&[4, 4, 4, 4], 0),
        (&[4, 4, 4, 4, 4], 1),
        (&[4, 4, 4, 4, 5], SEVERAL),
        (&[1, 2, 3, 4, 5], SEVERAL),
        (&[1, 1, 1, 2], SEVERAL),
        (&[1, 1, 2, 2], SEVERAL),
    ] {
        assert_eq!(heads(&founded(counties, WIDE, 0), GRID_MARK), vec![wide; counties.len()]);
        assert_eq!(heads(&founded(counties, 1, 0), GRID_MARK), vec![TALL; counties.len()]);
        let rows = Counties::of(counties.iter().copied());
        for (rules, five) in [(Rules::Published, 0), (Rules::OneCounty, 1)] {
            // Without counties nothing is known of them.
            let mark = if counties.len() == 5 { five } else { 0 };
            let laid = rules.lay(Shape::Wide, rows::first(counties.len()), &Counties::ONE);
            assert_eq!((laid.mark, rows.several(laid.members)), (mark, wide == SEVERAL));
        }
    }
}

/// Four of one county, and one of another joins: a check without it lays mark 0, with it mark 3. With that machine off, nothing goes.
#[test]
fn a_joining_from_another_county_then_a_check() {
    let mut table = founded(&[1, 1, 1, 1], WIDE, 2);
    assert_eq!(split(ENGINE.join(&mut table, 50, 2)), (0, 5));
    assert_eq!(heads(&table, GRID_MARK), [0; 5]);
    assert_eq!(write(&mut table, 1, &[1, 2, 3]), (0, 1));
    assert_eq!(check(&mut table, 1, &[1, 2, 3]), (0, 1));
    assert_eq!(heads(&table, GRID_MARK), [0; 5]);
    assert_eq!(check(&mut table, 1, &[1, 2, 3, 4]), (0, 2));
    assert_eq!(check(&mut table, 1, &[1, 2, 3, 4, 5]), (0, 3));
    assert_eq!(heads(&table, GRID_MARK), [SEVERAL; 5]);
    for answering in [&[1, 2, 3, 4][..], &[1, 2, 3]] {
        assert_eq!(read(&table, 1, answering), (6, 0));
        assert_eq!(write(&mut table, 1, answering), (6, 0));
        assert_eq!(check(&mut table, 1, answering), (6, 0));
    }
    // Columns {1, 3} and {2, 4} of the first county, and row 5.
    assert_eq!(read(&table, 1, &[1, 2, 5]), (0, 1));
    assert_eq!(write(&mut table, 1, &[1, 2, 5]), (6, 0));
    assert_eq!(write(&mut table, 1, &[1, 2, 3, 5]), (0, 2));
    // A fifth of the first county: the list of five below lies in 3 rows and 2 columns.
    assert_eq!(split(ENGINE.join(&mut table, 60, 1)), (0, 6));
    assert_eq!(check(&mut table, 1, &[1, 2, 3, 4, 5, 6]), (0, 4));
    assert_eq!(read(&table, 1, &[1, 2, 5]), (0, 2));
    assert_eq!(write(&mut table, 1, &[1, 2, 4, 5]), (0, 3));
    assert_eq!(write(&mut table, 1, &[1, 3, 6, 5]), (6, 0));
}

/// Wide counties 1, 1, 2, 2 need all four machines to read; tall, any one of them reads alone.
#[test]
fn two_and_two() {
    let mut wide = founded(&[1, 1, 2, 2], WIDE, 0);
    assert_eq!(read(&wide, 1, &[1, 2, 3, 4]), (0, 0));
    for away in 1..=4 {
        let answering: Vec<usize> = (1..=4).filter(|&row| row != away).collect();
        assert_eq!(read(&wide, answering[0] as u64, &answering), (6, 0));
    }
    assert_eq!(write(&mut wide, 1, &[1, 2, 3, 4]), (0, 1));
    let mut tall = founded(&[1, 1, 2, 2], 1, 0);
    for row in 1..=4 {
        assert_eq!(read(&tall, row as u64, &[row]), (0, 0));
    }
    assert_eq!(write(&mut tall, 1, &[1, 2, 3]), (6, 0));
    assert_eq!(write(&mut tall, 1, &[1, 2, 3, 4]), (0, 1));
}

/// Which machines the own choice has shows in the number called: counties 1, 1, 1, 2, columns {1, 3} and {2} below.
#[test]
fn machines_called_on_two_levels() {
    let mut table = founded(&[1, 1, 1, 2], WIDE, 0);
    let called = |table: &mut [u8], c, quorum| {
        let mut called = [0xee];
        let result = match quorum {
            0 => ENGINE.read(table, c, 0b1111, 0, 1, &mut [0], &mut called, 1),
            _ => ENGINE.write(table, c, 0b1111, 0, &[7], &mut called, 1, &mut Sheet::OPEN.bytes(), 1),
        };
        assert_eq!(split(result).0, 0);
        called[0]
    };
    assert_eq!([0, 1].map(|quorum| called(&mut table, 1, quorum)), [3, 4]);
    let mut chosen = [0; 8];
    assert_eq!(ENGINE.choice(&table, 2, 0, &mut chosen), 3);
    assert_eq!(u64::from_le_bytes(chosen), set(&[1, 2, 4]));
}

#[test]
fn question_20_of_a_founding_comes_last() {
    let mut table = vec![0xee; Table::length(3, 2, 1)];
    let mut found = |capacity, names: &[u8], choice, files, counties: &[u8]| {
        split(ENGINE.found(&mut table, capacity, FILE_LEN, names, choice, files, counties))
    };
    let three = names(3);
    let wrong =
        [&[][..], &[1], &[1, 1], &[1, 1, 1, 1], &[0, 1, 1], &[1, 0, 1], &[1, 1, 9], &[1, 1, 255], &[0; 3]];
    for counties in wrong {
        assert_eq!(found(3, &three[..5], WIDE, 1, counties), (11, 0));
        assert_eq!(found(3, &three, 2, 1, counties), (11, 0));
        assert_eq!(found(2, &three, WIDE, 1, counties), (12, 0));
        assert_eq!(found(3, &three, WIDE, 0, counties), (12, 0));
        assert_eq!(found(3, &three, WIDE, 2, counties), (12, 0));
        assert_eq!(found(3, &three, WIDE, 1, counties), (20, 0));
        assert_eq!(found(3, &three, 1, 1, counties), (20, 0));
    }
    assert!(table.iter().all(|&byte| byte == 0xee));
    for counties in [[1, 1, 1], [8, 8, 8], [8, 1, 3]] {
        assert_eq!(ENGINE.found(&mut table, 3, 2, &three, WIDE, 1, &counties), 3);
    }
}

#[test]
fn question_20_of_a_joining_comes_last() {
    let mut table = founded(&[1, 2], WIDE, 1);
    let before = table.clone();
    let wrong = [0, 9, 255, 256, 257, 1 << 32, (1 << 32) + 1, 1 << 63, u64::MAX];
    for county in wrong {
        for (name, refusal) in [(0, 13), (10, 13), (20, 13), (15, 20)] {
            assert_eq!(split(ENGINE.join(&mut table, name, county)), (refusal, 0));
        }
    }
    assert_eq!(table, before);
    assert_eq!(split(ENGINE.join(&mut table, 15, 8)), (0, 3));
    for county in wrong.into_iter().chain(1..=8) {
        assert_eq!(split(ENGINE.join(&mut table, 16, county)), (14, 0));
        assert_eq!(split(ENGINE.join(&mut table, 15, county)), (13, 0));
    }
    table[0] = 4;
    assert_eq!(split(ENGINE.join(&mut table, 16, 0)), (1, 0));
}

/// Question 1: a county from 1 to 8, zeros around it, and the mark that the counties of a list ask for.
#[test]
fn every_rule_of_counties_counts() {
    let altered = |table: &[u8], changes: &[(usize, usize, u8)]| {
        let judged = Table::decode(table).expect("well formed");
        let mut altered = table.to_vec();
        changes.iter().for_each(|&(row, at, byte)| altered[judged.row_at(row) + at] = byte);
        Table::decode(&altered).is_some()
    };
    let every =
        |byte: u8, at: usize, count: usize| (1..=count).map(|row| (row, at, byte)).collect::<Vec<_>>();
    let marked = |table: &[u8], mark, count| altered(table, &every(mark, GRID_MARK, count));
    // One county, and five of one.
    let (four, five) = (founded(&[3; 4], WIDE, 1), founded(&[3; 5], WIDE, 0));
    assert_eq!([0, 1, 2, 3, 4].map(|mark| marked(&four, mark, 4)), [true, false, true, false, false]);
    assert_eq!([0, 1, 2, 3, 4].map(|mark| marked(&five, mark, 5)), [true, true, true, false, false]);
    // Several, wide or tall.
    for counties in [&[1, 1, 1, 2][..], &[8, 7, 7, 7, 7], &[1, 2, 3, 4, 5]] {
        for choice in [0, 1] {
            let table = founded(counties, choice, 1);
            let marks = [0, 1, 2, 3, 4].map(|mark| marked(&table, mark, counties.len()));
            assert_eq!(marks, [false, false, true, true, false]);
            // Not in one table.
            let mut other = table.clone();
            let judged = Table::decode(&table).expect("well formed");
            other[judged.row_at(1) + 12] = 1;
            other[judged.row_at(1) + GRID_MARK] = if choice == 0 { TALL } else { SEVERAL };
            assert!(Table::decode(&other).is_none());
        }
    }
    for county in [0, 9, 16, 128, 255] {
        for row in 1..=4 {
            assert!(!altered(&four, &[(row, COUNTY, county)]));
        }
    }
    // With another county the list has several, and needs the mark.
    assert!(!altered(&four, &[(2, COUNTY, 4)]));
    assert!(altered(&four, &[&every(SEVERAL, GRID_MARK, 4)[..], &[(2, COUNTY, 4)]].concat()));
    assert!(altered(&four, &every(8, COUNTY, 4)));
    for at in [25, 27, 31] {
        assert!(!altered(&four, &[(1, at, 1)]));
    }
    // A row without a list has a county, and mark 0; the unused one has none.
    let mut joined = four.clone();
    assert!(!altered(&joined, &[(5, COUNTY, 1)]));
    assert_eq!(ENGINE.join(&mut joined, 5, 6), 5);
    assert!(altered(&joined, &[(5, COUNTY, 3)]) && !altered(&joined, &[(5, COUNTY, 0)]));
    assert!(!altered(&joined, &[(5, GRID_MARK, SEVERAL)]));
    // Four of one county inside a table of two: mark 3 is not theirs, in a tall table mark 2 is.
    assert_eq!([0, 1, 2, 3].map(|mark| marked(&joined, mark, 4)), [true, false, true, false]);
}

/// A table of form 4 has no counties: in a move its marks are judged without them, and nothing moves from it or to it.
#[test]
fn forms_4_and_5_do_not_move() {
    let former = Engine { rules: Rules::OneCounty, ..ENGINE };
    let moved = |table: &[u8], form: u64, length: usize| {
        let mut to = vec![0xee; length];
        let result = split(ENGINE.carry(table, form, &mut to));
        assert!(to.iter().all(|&byte| byte == 0xee));
        result
    };
    let mut four = vec![0; Table::length(5, 2, 1)];
    assert_eq!(former.found(&mut four, 5, 2, &names(4), 0, 1, &[]), 4);
    assert_eq!((four[0], &four[16 + 24..16 + 32]), (4, &[0; 8][..]));
    assert_eq!(
        split(ENGINE.check(&mut four, 1, 0b1111, &mut Sheet::OPEN.bytes())),
        (1, 0),
        "every other call takes form 5 only"
    );
    let mut five = vec![0; Table::length(5, 2, 1)];
    assert_eq!(former.found(&mut five, 5, 2, &names(5), 0, 1, &[]), 5);
    let newest = founded(&[1, 1, 2, 2], WIDE, 1);
    let mut joined = four.clone();
    assert_eq!(former.join(&mut joined, 15, 0), 5);
    for (table, to_form_1) in [(&four, 12), (&five, 15), (&joined, 15), (&newest, 15)] {
        for (form, length) in
            (0..=6).flat_map(|form| [0, 16 + 5 * 34, four.len()].map(|length| (form, length)))
        {
            assert_eq!(moved(table, form, length), (if form == 1 { to_form_1 } else { 12 }, 0));
        }
    }
    let row_at = |row: usize| Table::length(row - 1, 2, 1);
    for (row, at, byte) in [(1, COUNTY, 1), (4, COUNTY, 8), (2, GRID_MARK, SEVERAL), (2, 25, 1), (3, 27, 1)] {
        let mut altered = four.clone();
        altered[row_at(row) + at] = byte;
        assert_eq!(moved(&altered, 3, 0), (1, 0));
    }
    let mut marked = four.clone();
    (1..=4).for_each(|row| marked[row_at(row) + GRID_MARK] = SEVERAL);
    assert_eq!(moved(&marked, 3, 0), (1, 0), "mark 3 is none of form 4");
    let mut altered = newest.clone();
    altered[row_at(2) + COUNTY] = 9;
    assert_eq!(moved(&altered, 3, 0), (1, 0));
}
